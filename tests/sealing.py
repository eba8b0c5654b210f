"""Frames sealed by the independent model, from any sender with any counter: for
capture_listener.py. A board seals under its own address and counter alone, and never in the short
form of the auxiliary header."""

from bench_pipe import least
from independent.model import ccm, mmo

TAG, LEVEL = 4, 5
HASHED_OVER = {2: b"\x00", 3: b"\x02"}  # key identifiers whose key is a keyed hash of the link key


def sealed(key, sender, counter, control, header, more, payload, short=False):
    """A header with its security bit set, the auxiliary header, the payload and the tag."""
    owner = least(int(sender, 16), 8)
    rest = least(counter, 4) + (b"" if short else owner) + more
    nonce = owner + least(counter, 4) + bytes([control | LEVEL])
    authenticated = header + bytes([control | LEVEL]) + rest
    return header + bytes([control]) + rest + ccm.seal(TAG, key, nonce, authenticated, payload)


def network(key, number, sender, counter, plain, size=8):
    """A network frame, whose header has so many octets, secured."""
    header = plain[:1] + bytes([plain[1] | 0x02]) + plain[2:size]
    return sealed(key, sender, counter, 0x28, header, bytes([number]), plain[size:])


def aps(key, identifier, sender, counter, plain, size=2, short=False):
    """An APS frame, whose header has so many octets, secured; or in the short form, which carries
    no sender."""
    used = mmo.keyed(key, HASHED_OVER[identifier]) if identifier else key
    control = identifier << 3 | (0 if short else 0x20)
    header = bytes([plain[0] | 0x20]) + plain[1:size]
    return sealed(used, sender, counter, control, header, b"", plain[size:], short)
