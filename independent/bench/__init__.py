"""The program `bench`: a board on a desk, in the bench language, whole."""

from ..stored import made_by
from .desk import Desk
from .script import make_script


def made():
    """The stored files."""
    return made_by(make_script(), Desk())
