"""The desk of the program `trials`: a board that can be put together at will, and headers."""

from .. import lines
from ..model import headers, tables

STORED_ROWS = 1026  # two more than a list may have
LENT_ROWS = (64, 64)  # at first: addresses, floors
EE = b"\xee" * 32  # an output before anything is laid into it

FRAME = lines.hex_field(0, 256)
KEY = lines.hex_field(16, 16)
ADDRESS = lines.address_field
OCTET = lines.decimal_field(255)
COUNTER = lines.decimal_field(2**32 - 1)
FLAG = lines.decimal_field(1)
LENT = lines.decimal_field(STORED_ROWS)
ROW = lines.decimal_field(STORED_ROWS - 1)
ENTRY = lines.decimal_field(7)


class Desk:
    """Answers lines: a board, if one was made, its stored lists, and how much of them is lent."""

    def __init__(self):
        self.board = None
        self.addresses = [0] * STORED_ROWS
        self.floors = [0] * STORED_ROWS
        self.lent = LENT_ROWS
        self.words = {
            b"board": ((ADDRESS,), self.make),
            b"lend": ((LENT, LENT), self.lend),
            b"frame": ((FRAME,), lambda f: read(headers.read_network(f))),
            b"apsframe": ((ADDRESS, FRAME), lambda a, f: read(headers.read_aps(f, a))),
            b"plainframe": ((FRAME,), lambda f: read(headers.read_network_plain(f))),
            b"plainaps": ((FRAME,), lambda f: read(headers.read_aps_plain(f))),
            b"nonce": ((ADDRESS, COUNTER, OCTET), lambda *a: [headers.nonce(*a)]),
            b"aux": ((OCTET, COUNTER, ADDRESS, OCTET), lambda *a: [headers.auxiliary_header(*a)]),
            b"auth": ((OCTET, OCTET, FRAME),
                      lambda h, n, f: [headers.authenticated(EE, f, h, n)]),
            b"clear": ((FLAG, OCTET, FRAME), lambda l, h, f: [headers.plain_header(EE, l, f, h)]),
            b"raise": ((FLAG, OCTET, FRAME), lambda l, h, f: [headers.secured_header(EE, l, f, h)]),
            b"network": ((OCTET, OCTET, KEY), self.on_lists(tables.install, True)),
            b"forget": ((OCTET, ADDRESS), self.on_lists(tables.forget, False)),
            b"switch": ((OCTET,), self.on_board(tables.switch)),
            b"link": ((ADDRESS, KEY), self.on_board(tables.add_link)),
            b"unlink": ((ADDRESS,), self.on_board(tables.remove_link)),
            b"setslot": ((FLAG, FLAG, OCTET, KEY), self.on_board(set_slot)),
            b"setlink": ((ENTRY, FLAG, ADDRESS, KEY, COUNTER), self.on_board(set_link)),
            b"setactive": ((OCTET,), self.on_board(set_active)),
            b"setrow": ((ROW, ADDRESS, COUNTER), self.on_board(self.set_row)),
            b"mark": ((), self.on_board(lambda board: [tables.next_mark(board)])),
            b"marked": ((COUNTER,), self.on_board(tables.move_mark)),
            b"setmark": ((COUNTER,), self.on_board(set_mark)),
            b"slots": ((), self.on_board(slots)),
            b"links": ((), self.on_board(links)),
            b"rows": ((), self.on_board(self.rows)),
            b"counters": ((), self.on_board(counters)),
        }

    def answer(self, line):
        """What follows the line's number."""
        return lines.run_line(self.words, line)

    def make(self, own):
        """A board with fresh lists; a refusal leaves what there was."""
        self.board = tables.made_board(own)
        self.addresses = [0] * STORED_ROWS
        self.floors = [0] * STORED_ROWS
        return ()

    def lend(self, addresses, floors):
        """How many rows of each stored list the requests see from now on."""
        self.lent = (addresses, floors)
        return ()

    def on_board(self, action):
        """The action, behind the board that it needs."""
        def act(*arguments):
            if self.board is None:
                raise lines.Bad
            return action(self.board, *arguments) or ()
        return act

    def on_lists(self, request, with_board):
        """The request on the lent part of the stored lists, which it may change."""
        def act(board, *arguments):
            a, f = self.lent
            addresses, floors = self.addresses[:a], self.floors[:f]
            request(*([board] if with_board else []), addresses, floors, *arguments)
            self.addresses[:a], self.floors[:f] = addresses, floors
        return self.on_board(act)

    def set_row(self, _, row, address, floor):
        """A row as it is told."""
        self.addresses[row], self.floors[row] = address, floor

    def rows(self, _):
        """Each stored row that is not both zero."""
        for row, (address, floor) in enumerate(zip(self.addresses, self.floors)):
            if address or floor:
                yield from (row, lines.address(address), floor)


def set_slot(board, slot, present, number, key):
    """A slot as it is told."""
    board.slots[slot] = tables.Slot(bool(present), number, key)


def set_link(board, entry, present, partner, key, floor):
    """A link entry as it is told."""
    board.links[entry] = tables.Link(bool(present), partner, key, floor)


def set_active(board, slot):
    """The active mark as it is told; 255 stands for nobody."""
    board.active = None if slot == 255 else slot


def set_mark(board, mark):
    """The mark as it is told, past every rule."""
    board.mark = mark


def slots(board):
    """Both slots and the active mark."""
    for slot in board.slots:
        yield from (int(slot.present), slot.number, slot.key)
    yield "-" if board.active is None else board.active


def links(board):
    """All eight entries."""
    for link in board.links:
        yield from (int(link.present), lines.address(link.partner), link.key, link.floor)


def counters(board):
    """Own address, both counters and the mark."""
    return lines.address(board.own), board.outgoing, board.aps, board.mark


def read(found):
    """What was read of a frame, as fields."""
    if isinstance(found, int):
        return "plain", found
    return ("secured", found.header, found.aux, found.control, found.counter,
            lines.address(found.sender), found.sequence)
