"""Labels: an install code and its CRC in print, read and written, and the link key of a code.

Document 02 (v); RULES 14; DECISIONS, v-separators to v-any-code.
"""

import re

from ..lines import refuse_if
from . import mmo

CODE_LENGTHS = (6, 8, 12, 16)
CRC_OCTETS = 2
HELD = max(CODE_LENGTHS)  # octets that the reader hands the code back in
SPELLED = re.compile(rb"(?:[0-9A-Fa-f]{2}(?:[ -]?[0-9A-Fa-f]{2})*)?")


def crc(octets):
    """CRC-16/X-25, bit by bit."""
    register = 0xFFFF
    for octet in octets:
        register ^= octet
        for _ in range(8):
            register = register >> 1 ^ (0x8408 if register & 1 else 0)
    return register ^ 0xFFFF


def with_crc(code):
    """The octets of the label: the code, then its CRC, least octet first."""
    return code + crc(code).to_bytes(CRC_OCTETS, "little")


def link_key(code):
    """The link key that a code stands for."""
    return mmo.digest(with_crc(code))


def read_label(text):
    """Code and link key of a printed label; 15, then 16."""
    refuse_if(not SPELLED.fullmatch(text), 15)
    octets = bytes.fromhex(re.sub(rb"[ -]", b"", text).decode("ascii"))
    code, end = octets[:-CRC_OCTETS], octets[-CRC_OCTETS:]
    refuse_if(len(octets) < CRC_OCTETS or len(code) not in CODE_LENGTHS, 15)
    refuse_if(int.from_bytes(end, "little") != crc(code), 16)
    return code, link_key(code)


def print_label(room, code):
    """The text of a code's label; 15, then 1 where the output has too little room."""
    refuse_if(len(code) not in CODE_LENGTHS, 15)
    refuse_if(room < 3 * len(code) + 5, 1)
    return " ".join(f"{octet:02X}" for octet in with_crc(code)).encode("ascii")
