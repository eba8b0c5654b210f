"""The desk of the program `vectors`: cipher and hashes behind the refusals of document 01."""

from .. import lines
from ..lines import refuse_if
from ..model import aes, ccm, mmo

MOST = 128       # octets of A and of P
LENT_MOST = 256  # octets of a lent output

SIXTEEN = lines.hex_field(16, 16)
NONCE = lines.hex_field(13, 13)
TEXT = lines.hex_field(0, 256)
DATA = lines.hex_field(0, 512)
TAG = lines.decimal_field(255)


class Desk:
    """Answers lines; remembers only the length of the output lent to seal and open."""

    def __init__(self):
        self.lent = LENT_MOST
        self.words = {
            b"aes": ((SIXTEEN, SIXTEEN), lambda *a: [aes.encipher(*a)]),
            b"seal": ((TAG, SIXTEEN, NONCE, TEXT, TEXT), self.seal),
            b"open": ((TAG, SIXTEEN, NONCE, TEXT, TEXT), self.open),
            b"hash": ((DATA,), lambda d: hashed(mmo.digest, d)),
            b"keyedhash": ((SIXTEEN, DATA), lambda k, d: hashed(mmo.keyed, k, d)),
            b"lend": ((lines.decimal_field(LENT_MOST),), self.lend),
        }

    def answer(self, line):
        """What follows the line's number."""
        return lines.run_line(self.words, line)

    def lend(self, size):
        """Sets the length lent from now on; has no octets to answer."""
        self.lent = size
        return ()

    def seal(self, M, key, nonce, a, p):
        """Annex A.2 behind the refusals 14, 2 and 1."""
        refuse_if(M not in ccm.TAGS, 14)
        refuse_if(len(a) > MOST or len(p) > MOST, 2)
        refuse_if(self.lent < len(p) + M, 1)
        return [ccm.seal(M, key, nonce, a, p)]

    def open(self, M, key, nonce, a, c):
        """Annex A.3 behind the refusals 14, 2, 3 and 1, then 9."""
        refuse_if(M not in ccm.TAGS, 14)
        refuse_if(len(a) > MOST or len(c) > MOST + M, 2)
        refuse_if(len(c) < M, 3)
        refuse_if(self.lent < len(c) - M, 1)
        plain = ccm.open(M, key, nonce, a, c)
        refuse_if(plain is None, 9)
        return [plain]


def hashed(function, *arguments):
    """The hash, or 2."""
    try:
        return [function(*arguments)]
    except mmo.TooLong:
        raise lines.Refused(2) from None
