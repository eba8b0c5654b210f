"""The program `margins`: what calls leave in what they were lent."""

from ..stored import made_by
from .desk import Desk
from .script import check, make_script


def made():
    """The stored files, compared also with what they must show."""
    files = made_by(make_script(), Desk())
    check(files)
    return files
