"""The AES-MMO hash and the keyed hash (document 01, "Hash"; Annex B.6 and B.1.4)."""

from .aes import encipher
from .ccm import blocks, xor

HASH_MOST = 256
KEYED_MOST = 240
IPAD, OPAD = bytes([0x36]) * 16, bytes([0x5C]) * 16  # FIPS 198, B = 16


class TooLong(ValueError):
    """More octets than document 01 allows: its refusal 2."""


def pad(data):
    """The padded message M' (B.6 step 1, with n = 16)."""
    zeros = (13 - len(data)) % 16
    return data + b"\x80" + bytes(zeros) + (8 * len(data)).to_bytes(2, "big")


def digest(data):
    """Hash_t (B.6 step 3) of up to 256 octets."""
    if len(data) > HASH_MOST:
        raise TooLong
    value = bytes(16)
    for block in blocks(pad(data)):
        value = xor(encipher(value, block), block)
    return value


def keyed(key, data):
    """HMAC over the hash (B.1.4, FIPS 198) with 16 octets of key and up to 240 of data."""
    if len(key) != 16:
        raise ValueError("the keyed hash takes 16 octets of key")
    if len(data) > KEYED_MOST:
        raise TooLong
    return digest(xor(key, OPAD) + digest(xor(key, IPAD) + data))
