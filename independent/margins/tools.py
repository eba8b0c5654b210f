"""What the script of `margins` is made with: the board of every line, and what a call leaves of it.

The board is written out here once more, apart from desk.py.
"""

from dataclasses import dataclass

from ..lines import Script, ok, refused

ROOMS = (0, 1, 107, 108, 115, 116, 117, 200, 256)
LEAST_LINES, MOST_LINES = 1600, 2800

# The board of every line.
OWN, OUTGOING, MARK, APS_COUNTER = 2, 7, 8, 255
KEYS = {5: bytes.fromhex("000102030405060708090a0b0c0d0e0f"),     # network, by sequence number
        6: bytes.fromhex("101112131415161718191a1b1c1d1e1f")}
A1, A2, A3 = 0xA1, 0xA2, 0xA3                                     # A3 has no link entry
LINKS = {A1: bytes.fromhex("202122232425262728292a2b2c2d2e2f"),
         A2: bytes.fromhex("303132333435363738393a3b3c3d3e3f")}
B1, STRANGER = 0xB1, 0x00124B00AABBCCDD                           # row 0 with floor 100; no row

LEAST = {"open": 116, "hall": 116, "openaps": 116, "seal": 116, "sealaps": 116, "sealat": 116,
         "sealapsat": 116, "remove": 108, "tunnel": 108, "down": 108}
STAYS = {"open": (), "hall": (), "openaps": (100, 0), "seal": (OUTGOING,), "sealaps": (OUTGOING,),
         "remove": (APS_COUNTER,), "tunnel": (APS_COUNTER,), "down": (APS_COUNTER,)}
REFUSALS = {  # every number that a line can be refused with on this board
    "open": {1, 2, 3, 4, 5, 6, 7, 8, 9, 10},
    "hall": {1, 2, 3, 4, 5, 6, 7, 8, 9, 10},
    "openaps": {1, 2, 3, 4, 5, 6, 7, 8, 9},
    "seal": {1, 2, 3, 4},                # a slot is active (6), the counter below the mark (7, 17)
    "sealaps": {1, 2, 3, 4, 6, 14},
    "sealat": {1, 2, 3, 4, 7, 17},
    "sealapsat": {1, 2, 3, 4, 6, 7, 14, 17},
    "remove": {1},                       # an address is never ill-formed or too long
    "tunnel": {1, 2, 11},
    "down": {1, 2, 11},
    "hash": {2},
    "keyedhash": {2},
    "print": {1, 15},
    "label": {15, 16},
    "key": set(), "digest": set(), "inner": set(), "tlvs": set(), "value": set(),
    "header": set(), "auxiliary": set(), "payload": set(), "tag": set(),
}


@dataclass(frozen=True)
class Done:
    """What a request that is not refused gives."""
    frame: bytes         # laid over the start of the output
    told: tuple = ()     # behind the length
    left: tuple = None   # behind the output; what stays, if not told


def stays(word, fields):
    """What stands behind the output of a refusal: as it was, for `sealat` and `sealapsat` the
    counter that the line tells in its first field behind the output's length."""
    return STAYS[word] if word in STAYS else (fields[0],)


def laid(room, frame=b""):
    """An output with the frame at its start."""
    return frame + b"\xee" * (room - len(frame))


class Margins(Script):
    """A script with requests for outputs of many lengths."""

    def __init__(self):
        super().__init__()
        self.turn = 0

    def ask(self, room, word, *fields, gives):
        """A request; it gives a refusal's number or what is Done, or 1 where there is no room."""
        if room < LEAST[word]:
            gives = 1
        if isinstance(gives, int):
            expect = "\t".join([refused(gives), laid(room).hex(), *map(str, stays(word, fields))])
        else:
            left = stays(word, fields) if gives.left is None else gives.left
            expect = ok(len(gives.frame), *gives.told, laid(room, gives.frame), *left)
        self.add(word, room, *fields, expect=expect)

    def everywhere(self, word, *fields, gives):
        """The request with every output."""
        for room in ROOMS:
            self.ask(room, word, *fields, gives=gives)

    def mostly(self, word, *fields, gives):
        """The request with one output that is too short, in turn, and all that are not."""
        self.turn += 1
        small = [room for room in ROOMS if room < LEAST[word]]
        for room in ROOMS:
            if room >= LEAST[word] or room == small[self.turn % len(small)]:
                self.ask(room, word, *fields, gives=gives)

    def once(self, word, *fields, gives):
        """The request with one output that is long enough, in turn."""
        self.turn += 1
        large = [room for room in ROOMS if room >= LEAST[word]]
        self.ask(large[self.turn % len(large)], word, *fields, gives=gives)
