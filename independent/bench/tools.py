"""What the scripts of `bench` are made with: a script that answers as it grows, senders, frames.

Frames that no sealing board makes (other controls, levels, short auxiliary headers) are put
together here from document 01, "The auxiliary header and the nonce".
"""

from .. import lines
from ..lines import address, ok
from ..model import ccm, mmo, opening, tables
from .desk import LENT, Desk

ALL_ONES = 2**64 - 1
TOP = 2**32 - 1
OWN = 0x00124B0001020304
NETWORK_HEADER = bytes.fromhex("0800fcff00001e01")
COMMAND_HEADER = bytes.fromhex("4107")
DATA_HEADER = bytes.fromhex("4001060004010122")
GROUP_HEADER = bytes.fromhex("0c3412060004010122")
WELL_KNOWN = b"ZigBeeAlliance09"


def no(number):
    """The answer that refuses."""
    return lines.refused(number)


GENUINE, ALTERED = no(8) + "\tgenuine", no(8) + "\taltered"


def opened(sender, protection, plain):
    """The answer to a frame that opens."""
    return ok(address(sender), protection, plain)


def unsecured(plain):
    """The answer to a frame without the security bit."""
    return opened(0, "none", plain)


def key(n):
    """The n-th key of the scripts."""
    return bytes((37 * n + 11 * i + 1) % 256 for i in range(16))


def tlv(tag, value):
    """A TLV: tag, length octet, value. The length octet is the value's length less one (document 02
    (iv)), so that no value is empty."""
    return bytes([tag, len(value) - 1]) + value


def put(octets, place, value):
    """The octets with one of them replaced."""
    return octets[:place] + bytes([value]) + octets[place + 1:]


class Bench(lines.Script):
    """A script with a desk that answers each line at once."""

    def __init__(self):
        super().__init__()
        self.desk = Desk()
        self.given = []  # pairs of line and answer
        self.mark = 0    # the mark of the board that was made last, kept apart from the desk

    def raw(self, line, expect=None):
        """Adds a line; its answer, compared with the one expected."""
        super().raw(line, expect)
        line = self.lines[-1]
        if not line or line.startswith(b"#"):
            return None
        answer = self.desk.answer(line)
        self.given.append((line, answer))
        if expect is not None:
            lines.as_expected(len(self.lines), line, expect, answer)
        return answer

    def add(self, *fields, expect=None):
        """Adds a line of fields; octets are written as hex. Its answer."""
        return self.raw("\t".join(f.hex() if isinstance(f, bytes) else str(f) for f in fields),
                        expect)

    def board(self, own=OWN, found=None):
        """A board that must be made; its outgoing counter starts at the mark that it finds."""
        self.add("board", address(own), *([] if found is None else [found]), expect="ok")
        self.mark = found or 0

    def step(self, asked=True):
        """Moves the mark one step ahead, so that the board can seal: the next one is asked for, or
        known without asking, and the board is told that the store now holds it."""
        self.mark = min(self.mark + 1024, TOP)
        if asked:
            self.add("mark", expect=ok(self.mark))
        self.add("marked", self.mark, expect="ok")

    def network(self, slot, number, octets, expect="ok"):
        """Installs a network key."""
        self.add("network", slot, number, octets, expect=expect)

    def lend(self, output=LENT[0], addresses=LENT[1], floors=LENT[2]):
        """Lends so much; without arguments what is lent at first."""
        self.add("lend", output, addresses, floors, expect="ok")

    def hall(self, rows):
        """Lends two lists of so many rows."""
        self.lend(LENT[0], rows, rows)

    def link(self, partner, octets, expect="ok"):
        """Adds a link key."""
        self.add("link", address(partner), octets, expect=expect)

    def open(self, frame, expect=None):
        """Opens a network frame."""
        return self.add("open", frame, expect=expect)

    def open_aps(self, caller, frame, expect=None):
        """Opens an APS frame."""
        return self.add("openaps", address(caller), frame, expect=expect)

    def seal(self, frame, expect=None):
        """Seals a network frame."""
        return self.add("seal", frame, expect=expect)

    def seal_aps(self, partner, identifier, frame, expect=None):
        """Seals an APS frame."""
        return self.add("sealaps", address(partner), identifier, frame, expect=expect)

    def state(self, outgoing, aps, active):
        """Asks for the state, which is known, with the mark behind the rest."""
        self.add("state", expect=ok(outgoing, aps, active, self.mark))

    def heard(self, slot, *rows):
        """Asks for the senders of a slot, triples of row, sender and floor."""
        self.add("heard", slot,
                 expect=ok(*(field for row, sender, floor in rows
                             for field in (row, address(sender), floor))))

    def links(self, *entries):
        """Asks for the link entries, triples of entry, partner and floor."""
        self.add("links", expect=ok(*(field for entry, partner, floor in entries
                                      for field in (entry, address(partner), floor))))


# ---- senders -----------------------------------------------------------------------------------

class Station:
    """A second board, which seals what the one on the desk is to open."""

    def __init__(self, own, found=0):
        self.own = own
        self.board = tables.made_board(own, found)
        self.lists = [0] * LENT[1], [0] * LENT[2]

    def install(self, slot, number, octets):
        """Installs a network key and makes it the active one."""
        tables.install(self.board, *self.lists, slot, number, octets)
        tables.switch(self.board, number)
        return self

    def link(self, partner, octets):
        """Adds a link key."""
        tables.add_link(self.board, partner, octets)
        return self

    def step_if_needed(self):
        """Moves the mark where the next counter is not below it."""
        if self.board.outgoing >= self.board.mark:
            tables.move_mark(self.board, tables.next_mark(self.board))

    def seal(self, frame):
        """Seals a network frame."""
        self.step_if_needed()
        return opening.seal_network(self.board, opening.ROOM, frame)

    def seal_aps(self, partner, identifier, frame):
        """Seals an APS frame."""
        self.step_if_needed()
        return opening.seal_aps(self.board, opening.ROOM, partner, identifier, frame)


# ---- frames that a sealing board doesn't make --------------------------------------------------

def sealed(octets, header, auxiliary, sender, counter, worked, payload):
    """Header, auxiliary header, and the payload sealed with that security control."""
    nonce = sender.to_bytes(8, "little") + counter.to_bytes(4, "little") + bytes([worked])
    front = header + auxiliary
    text = ccm.seal(4, octets, nonce, put(front, len(header), worked), payload)
    return front + text


def network_frame(octets, number, sender, counter, payload=b"", header=NETWORK_HEADER,
                  control=0x28, worked=None):
    """A secured network frame; worked with is the control with level 5 if not told otherwise."""
    auxiliary = (bytes([control]) + counter.to_bytes(4, "little") + sender.to_bytes(8, "little")
                 + bytes([number]))
    return sealed(octets, put(header, 1, header[1] | 2), auxiliary, sender, counter,
                  control & 0xF8 | 5 if worked is None else worked, payload)


def hashed(octets, identifier):
    """The key of an APS key identifier."""
    over = {2: b"\x00", 3: b"\x02"}.get(identifier)
    return octets if over is None else mmo.keyed(octets, over)


def aps_frame(octets, identifier, sender, counter, payload=b"", header=COMMAND_HEADER,
              carried=True, bits=0, worked=None):
    """A secured APS frame; without a carried sender the auxiliary header has 5 octets."""
    control = identifier << 3 | (0x20 if carried else 0) | bits
    auxiliary = bytes([control]) + counter.to_bytes(4, "little")
    if carried:
        auxiliary += sender.to_bytes(8, "little")
    return sealed(hashed(octets, identifier), put(header, 0, header[0] | 0x20), auxiliary, sender,
                  counter, control & 0xF8 | 5 if worked is None else worked, payload)
