"""The desk of the program `bench`: one board, its stored lists, and what is lent.

The bench language, "Lines", "Stale or forged", its table and the lines that document 02 brings;
DECISIONS, "The bench language", iii-row-numbers, v-lines and vi-board-finds-mark.
"""

from .. import lines
from ..model import commands, labels, mmo, opening, tables

STORED_ROWS = 1024
LENT = (116, 64, 64)  # at first: octets of output, addresses, floors
LENT_MOST = (256, STORED_ROWS, STORED_ROWS)

FRAME = lines.hex_field(0, 256)
TEXT = lines.text_field(256)
KEY = lines.hex_field(16, 16)
ADDRESS = lines.address_field
OCTET = lines.decimal_field(255)
SHORT = lines.decimal_field(65535)
COUNTER = lines.decimal_field(2**32 - 1)
SLOT = lines.decimal_field(tables.SLOTS - 1)
COMMAND_FIELDS = {commands.OCTET: OCTET, commands.SHORT: SHORT, commands.ADDRESS: ADDRESS}


def protection_field(field):
    """`none`, read as None, or an octet."""
    return None if field == b"none" else OCTET(field)


def protection(found):
    """A protection as it is written."""
    return "none" if found is None else found


class Desk:
    """Answers lines: a board, if one was made, its stored lists, and what is lent."""

    def __init__(self):
        self.board = None
        self.addresses = [0] * STORED_ROWS
        self.floors = [0] * STORED_ROWS
        self.lent = LENT
        self.words = {  # by word and number of fields
            (b"board", 1): ((ADDRESS,), self.make),
            (b"board", 2): ((ADDRESS, COUNTER), self.make),
            (b"lend", 3): ((SHORT, SHORT, SHORT), self.lend),
            (b"read", 2): ((protection_field, FRAME), self.read),
            (b"tlv", 3): ((protection_field, OCTET, FRAME), self.tlv),
            (b"route", 2): ((protection_field, FRAME), self.route),
            (b"hash", 1): ((FRAME,), lambda f: [mmo.digest(f)]),
            (b"keyedhash", 2): ((KEY, FRAME), self.keyed_hash),
            (b"label", 1): ((TEXT,), labels.read_label),
            (b"print", 1): ((FRAME,), self.print),
        }
        self.board_words = {
            (b"network", 3): ((OCTET, OCTET, KEY), self.install),
            (b"switch", 1): ((OCTET,), lambda n: tables.switch(self.board, n)),
            (b"link", 2): ((ADDRESS, KEY), lambda a, k: tables.add_link(self.board, a, k)),
            (b"unlink", 1): ((ADDRESS,), lambda a: tables.remove_link(self.board, a)),
            (b"forget", 2): ((OCTET, ADDRESS), self.forget),
            (b"open", 1): ((FRAME,), self.open),
            (b"openaps", 2): ((ADDRESS, FRAME), self.open_aps),
            (b"seal", 1): ((FRAME,), self.seal),
            (b"sealaps", 3): ((ADDRESS, OCTET, FRAME), self.seal_aps),
            (b"mark", 0): ((), lambda: [tables.next_mark(self.board)]),
            (b"marked", 1): ((COUNTER,), lambda c: tables.move_mark(self.board, c)),
            (b"state", 0): ((), self.state),
            (b"heard", 1): ((SLOT,), self.heard),
            (b"links", 0): ((), self.links),
        }

    def answer(self, line):
        """What follows the line's number."""
        try:
            return lines.ok(*(self.run(line) or ()))
        except lines.Bad:
            return "bad"
        except Stale as stale:
            return lines.refused(8) + ("\tgenuine" if stale.genuine else "\taltered")
        except lines.Refused as refusal:
            return lines.refused(refusal.number)

    def run(self, line):
        """The fields that a line is answered with."""
        word, *fields = line.split(b"\t")
        words = self.words if self.board is None else {**self.words, **self.board_words}
        if word == b"write" and self.board is not None:
            return self.write(fields)
        if (word, len(fields)) not in words:
            raise lines.Bad
        readers, action = words[word, len(fields)]
        return action(*[read(field) for read, field in zip(readers, fields)])

    # ---- the desk ----

    def make(self, own, found=0):
        """A board that finds that mark, with fresh lists; a refusal leaves what there was."""
        self.board = tables.made_board(own, found)
        self.addresses = [0] * STORED_ROWS
        self.floors = [0] * STORED_ROWS

    def lend(self, *lent):
        """What is lent from now on."""
        if any(size > most for size, most in zip(lent, LENT_MOST)):
            raise lines.Bad
        self.lent = lent

    def state(self):
        """Both counters, the active slot and the mark."""
        board = self.board
        active = "-" if board.active is None else board.active
        return board.outgoing, board.aps, active, board.mark

    def heard(self, slot):
        """The used rows of a slot of the lent lists, which alone are judged."""
        addresses, floors = self.lent_lists()
        tables.judge_lists(addresses, floors)
        for row in tables.rows_of(addresses, slot):
            if addresses[row]:
                yield from (row, lines.address(addresses[row]), floors[row])

    def links(self):
        """The present link entries."""
        for entry, link in enumerate(self.board.links):
            if link.present:
                yield from (entry, lines.address(link.partner), link.floor)

    # ---- keys and frames ----

    def lent_lists(self):
        """The lent part of the lists, apart from what is stored."""
        _, a, f = self.lent
        return self.addresses[:a], self.floors[:f]

    def on_lists(self, request):
        """The request's answer on the lent part of the lists; a refusal changes nothing of them."""
        addresses, floors = self.lent_lists()
        given = request(addresses, floors)
        self.addresses[:len(addresses)], self.floors[:len(floors)] = addresses, floors
        return given

    def install(self, slot, number, key):
        """Installs a network key."""
        return self.on_lists(lambda a, f: tables.install(self.board, a, f, slot, number, key))

    def forget(self, slot, sender):
        """Forgets a sender."""
        return self.on_lists(lambda a, f: tables.forget(a, f, slot, sender))

    def open(self, frame):
        """Opens a network frame."""
        def request(addresses, floors):
            return opening.open_network(self.board, addresses, floors, self.lent[0], frame)
        return opened(lambda: self.on_lists(request),
                      lambda: opening.genuine_network(self.board, frame))

    def open_aps(self, caller, frame):
        """Opens an APS frame."""
        return opened(lambda: opening.open_aps(self.board, self.lent[0], caller, frame),
                      lambda: opening.genuine_aps(self.board, caller, frame))

    def seal(self, frame):
        """Seals a network frame."""
        return [opening.seal_network(self.board, self.lent[0], frame)]

    def seal_aps(self, partner, identifier, frame):
        """Seals an APS frame."""
        return [opening.seal_aps(self.board, self.lent[0], partner, identifier, frame)]

    # ---- commands, hashes and labels ----

    def read(self, under, frame):
        """Reads a command."""
        command = commands.read(under, frame)
        values = [lines.address(value) if field == commands.ADDRESS else value
                  for field, value in zip(command.kind.fields, command.values)]
        return [command.kind.word, *values]

    def tlv(self, under, tag, frame):
        """The value of the first TLV of a tag, empty where the reader refuses."""
        try:
            return [commands.read(under, frame).value_of(tag)]
        except lines.Refused:
            return [b""]

    def route(self, under, frame):
        """Routes a Tunnel."""
        destination, *parts = commands.route(under, frame)
        return [lines.address(destination), *parts]

    def write(self, fields):
        """Writes a command."""
        kinds = {kind.word.encode("ascii"): kind for kind in commands.KINDS}
        if len(fields) < 2 or fields[0] not in (b"ack", b"noack") or fields[1] not in kinds:
            raise lines.Bad
        kind, texts = kinds[fields[1]], fields[2:]
        if len(texts) != len(kind.fields):
            raise lines.Bad
        values = [COMMAND_FIELDS.get(field, FRAME)(text)
                  for field, text in zip(kind.fields, texts)]
        command = commands.Command(kind, tuple(values))
        return [commands.write(self.board, self.lent[0], fields[0] == b"ack", command)]

    def keyed_hash(self, key, data):
        """The keyed hash."""
        lines.refuse_if(len(data) > mmo.KEYED_MOST, 2)
        return [mmo.keyed(key, data)]

    def print(self, code):
        """Prints a label; the text is answered as it stands."""
        return [labels.print_label(self.lent[0], code).decode("ascii")]


class Stale(Exception):
    """Refusal 8, with what the look at the frame said."""

    def __init__(self, genuine):
        super().__init__(genuine)
        self.genuine = genuine


def opened(request, look):
    """The fields of an opened frame; a stale one is looked at."""
    try:
        sender, found, plain = request()
    except lines.Refused as refusal:
        if refusal.number == 8:
            raise Stale(look()) from None
        raise
    return lines.address(sender), protection(found), plain
