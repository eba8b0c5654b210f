"""The desk of the program `margins`: what a call leaves in what it was lent, refusals too.

The language of `margins`. Every line is answered on the same board, made anew for it, with the same
lists (for `hall` of the lengths that it tells) and an output of octets EE; `sealat` and `sealapsat`
tell its counter and its mark.
"""

from dataclasses import dataclass, field

from .. import lines
from ..bench.desk import ADDRESS, COUNTER, OCTET, protection, protection_field
from ..model import commands, labels, mmo, opening, tables

FRAME = lines.hex_field(0, 512)
SIZE = lines.decimal_field(256)
LENGTH = lines.decimal_field(1026)
ROWS = (64, 64)  # addresses and floors of every line but `hall`
LINK_KEYS = bytes(range(0x20, 0x30)), bytes(range(0x30, 0x40))


# ---- what is lent ------------------------------------------------------------------------------

def made_board():
    """The board of every line."""
    board = tables.made_board(2)
    board.outgoing, board.mark, board.aps, board.active = 7, 8, 255, 0
    board.slots = [tables.Slot(True, 5, bytes(range(0x00, 0x10))),
                   tables.Slot(True, 6, bytes(range(0x10, 0x20)))]
    board.links[0] = tables.Link(True, 0xA1, LINK_KEYS[0], 100)
    board.links[1] = tables.Link(True, 0xA2, LINK_KEYS[1], 0)
    return board


def made_row(row, half):
    """Sender and floor of a row: row 0 and every row from half on have one."""
    if row == 0:
        return 0xB1, 100
    return (0xC00 + row, 1) if row >= half else (0, 0)


def made_lists(addresses, floors):
    """So many senders and so many floors; half is that of the first."""
    half = addresses // 2
    return ([made_row(row, half)[0] for row in range(addresses)],
            [made_row(row, half)[1] for row in range(floors)])


@dataclass
class Lent:
    """An output, and the lists and the board made anew."""
    output: bytes
    addresses: list
    floors: list
    board: tables.Board = field(default_factory=made_board)

    def put(self, frame):
        """Lays a frame over the start of the output; its length."""
        self.output = frame + self.output[len(frame):]
        return len(frame)


# ---- requests, as fields behind `ok` -----------------------------------------------------------

def open_network(lent, frame):
    """Opens a network frame."""
    sender, found, plain = opening.open_network(lent.board, lent.addresses, lent.floors,
                                                len(lent.output), frame)
    return lent.put(plain), lines.address(sender), protection(found)


def open_aps(lent, caller, frame):
    """Opens an APS frame."""
    sender, found, plain = opening.open_aps(lent.board, len(lent.output), caller, frame)
    return lent.put(plain), lines.address(sender), protection(found)


def seal_network(lent, frame):
    """Seals a network frame."""
    return [lent.put(opening.seal_network(lent.board, len(lent.output), frame))]


def seal_aps(lent, partner, identifier, frame):
    """Seals an APS frame."""
    return [lent.put(opening.seal_aps(lent.board, len(lent.output), partner, identifier, frame))]


def writer(word, acknowledged):
    """The request that writes a command of that word."""
    def write_command(lent, *values):
        command = commands.Command(commands.BY_WORD[word], values)
        return [lent.put(commands.write(lent.board, len(lent.output), acknowledged, command))]
    return write_command


def print_label(lent, code):
    """Prints the label of a code."""
    return [lent.put(labels.print_label(len(lent.output), code))]


# ---- what they leave, as fields behind the output ----------------------------------------------

def changed_rows(lent):
    """Each row that is not as it was."""
    before = zip(*made_lists(len(lent.addresses), len(lent.floors)))
    for row, now in enumerate(zip(lent.addresses, lent.floors)):
        if now != next(before):
            yield from (row, lines.address(now[0]), now[1])


def link_floors(lent):
    """The floors of link entries 0 and 1."""
    return lent.board.links[0].floor, lent.board.links[1].floor


def outgoing(lent):
    """The outgoing counter."""
    return [lent.board.outgoing]


def aps_counter(lent):
    """The APS counter."""
    return [lent.board.aps]


def nothing_more(_):
    """Nothing: the request is not handed the board."""
    return []


# ---- lines -------------------------------------------------------------------------------------

def shown(*fields):
    """Fields, each after a tab; octets are written as hex."""
    return "".join("\t" + (f.hex() if isinstance(f, bytes) else str(f)) for f in fields)


def on_board(request, left):
    """The action that answers a request and shows the output and what else it left."""
    def act(size, *arguments, rows=ROWS, at=None):
        lent = Lent(b"\xee" * size, *made_lists(*rows))
        if at is not None:
            lent.board.outgoing, lent.board.mark = at
        try:
            verdict = lines.ok(*request(lent, *arguments))
        except lines.Refused as refusal:
            verdict = lines.refused(refusal.number)
        return verdict + shown(lent.output, *left(lent))
    return act


def hashed(digest):
    """The action that answers with a hash, zeros where it is refused."""
    def act(data):
        try:
            return lines.ok(digest(data))
        except mmo.TooLong:
            return lines.refused(2) + shown(bytes(16))
    return act


def read_label(text):
    """The action that answers with a label's code and key, zeros where it is refused."""
    try:
        code, key = labels.read_label(text)
    except lines.Refused as refusal:
        return lines.refused(refusal.number) + shown(bytes(labels.HELD), bytes(16))
    return lines.ok(len(code), code.ljust(labels.HELD, b"\0"), key)


def asked(question):
    """The action that answers a question about a command, with nothing where it is refused."""
    def act(under, *arguments):
        *named, frame = arguments
        try:
            return lines.ok(question(commands.read(under, frame), *named))
        except lines.Refused:
            return lines.ok(b"")
    return act


def part(name):
    """The action that answers with a part of a command."""
    return (protection_field, FRAME), asked(lambda command: command.part(name))


OPEN = on_board(open_network, changed_rows)
SEAL = on_board(seal_network, outgoing)
SEAL_APS = on_board(seal_aps, outgoing)
WORDS = {
    b"open": ((SIZE, FRAME), OPEN),
    b"hall": ((SIZE, LENGTH, LENGTH, FRAME),
              lambda size, a, f, frame: OPEN(size, frame, rows=(a, f))),
    b"openaps": ((SIZE, ADDRESS, FRAME), on_board(open_aps, link_floors)),
    b"seal": ((SIZE, FRAME), SEAL),
    b"sealaps": ((SIZE, ADDRESS, OCTET, FRAME), SEAL_APS),
    b"sealat": ((SIZE, COUNTER, COUNTER, FRAME),
                lambda size, counter, mark, frame: SEAL(size, frame, at=(counter, mark))),
    b"sealapsat": ((SIZE, COUNTER, COUNTER, ADDRESS, OCTET, FRAME),
                   lambda size, counter, mark, *rest: SEAL_APS(size, *rest, at=(counter, mark))),
    b"remove": ((SIZE, ADDRESS), on_board(writer("remove", True), aps_counter)),
    b"tunnel": ((SIZE, ADDRESS, FRAME), on_board(writer("tunnel", False), aps_counter)),
    b"down": ((SIZE, FRAME), on_board(writer("down", True), aps_counter)),
    b"hash": ((FRAME,), hashed(mmo.digest)),
    b"keyedhash": ((FRAME,), hashed(lambda data: mmo.keyed(LINK_KEYS[0], data))),
    b"print": ((SIZE, FRAME), on_board(print_label, nothing_more)),
    b"label": ((FRAME,), read_label),
    b"key": part(commands.KEY),
    b"digest": part(commands.HASH),
    b"inner": part(commands.INNER),
    b"header": part(commands.HEADER),
    b"auxiliary": part(commands.AUXILIARY),
    b"payload": part(commands.PAYLOAD),
    b"tag": part(commands.TAG),
    b"tlvs": part(commands.TLVS),
    b"value": ((protection_field, OCTET, FRAME),
               asked(lambda command, tag: command.value_of(tag))),
}


class Desk:
    """Answers lines; none leaves anything to the next."""

    def answer(self, line):
        """What follows the line's number."""
        word, *fields = line.split(b"\t")
        if word not in WORDS or len(fields) != len(WORDS[word][0]):
            return "bad"
        readers, action = WORDS[word]
        try:
            arguments = [read(text) for read, text in zip(readers, fields)]
        except lines.Bad:
            return "bad"
        return action(*arguments)
