"""The script of `margins`: the hash and the keyed hash, chained here once more.

Document 01, "Hash".
"""

from ..lines import ok, refused, run_of, sure
from ..model import mmo
from ..model.aes import encipher
from ..model.ccm import blocks, xor

HASH_ENDS = {  # what padding puts behind so many octets
    0: "80" + 13 * "00" + "0000",
    13: "800068",                          # M5
    14: "80" + 15 * "00" + "0070",         # M6
    17: "80" + 12 * "00" + "0088",         # M7
    32: "80" + 13 * "00" + "0100",         # M8
    255: "80" + 14 * "00" + "07f8",
    256: "80" + 13 * "00" + "0800",
}
INNER_BLOCK = bytes.fromhex("16171415121310111e1f1c1d1a1b1819")  # the key and 36, bit by bit
OUTER_BLOCK = bytes.fromhex("7c7d7e7f78797a7b7475767770717273")  # the key and 5c
TOO_LONG = refused(2) + "\t" + "00" * 16


def chained(padded):
    """The hash of octets that are padded already."""
    value = bytes(16)
    for block in blocks(padded):
        value = xor(encipher(value, block), block)
    return value


def add_hashes(script):
    """Hashes of lengths about the edges, and zeros behind a refusal."""
    script.group("hash: M5 to M8, the limit of 256 octets; 257 and more are refused")
    script.add("hash", "c0", expect=ok("ae3a102a28d43ee0d4a09e22788b206c"))  # Annex C.5.1
    for length, end in HASH_ENDS.items():
        padded = run_of(length) + bytes.fromhex(end)
        sure(len(padded) % 16 == 0, "octets that make no whole blocks", len(padded))
        script.add("hash", run_of(length), expect=ok(chained(padded)))
    for length in (257, 300, 512):
        script.add("hash", run_of(length), expect=TOO_LONG)
    script.group("keyedhash: DECISIONS, hash-limits: up to 240 octets; 241 and more are refused")
    for length in (0, 16, 239, 240):
        digest = mmo.digest(OUTER_BLOCK + mmo.digest(INNER_BLOCK + run_of(length)))
        script.add("keyedhash", run_of(length), expect=ok(digest))
    for length in (241, 256, 257, 512):
        script.add("keyedhash", run_of(length), expect=TOO_LONG)
