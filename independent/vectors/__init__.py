"""The program `vectors`: the cipher and the hashes, a call to a line."""

from ..stored import made_by
from .desk import Desk
from .script import make_script


def made():
    """The stored files."""
    return made_by(make_script(), Desk())
