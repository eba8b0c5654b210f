"""The program `trials`: tables, well and ill formed, and the headers of frames."""

from ..stored import made_by
from .desk import Desk
from .script import make_script


def made():
    """The stored files."""
    return made_by(make_script(), Desk())
