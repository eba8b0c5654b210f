"""Benches that listen: the boards of one PAN, and one on which labels are tried.

A board has two network slots and eight link entries, one entry a partner. A key that finds no place
on the boards that there are gets a further one, and no key replaces another: so each keeps its
floors, and an old frame under an old key is still known to be old.
"""

LISTENER = "4c697374656e6572"   # the listening boards' own address, which no verdict depends on
OUTPUT, ROWS = 116, 1024        # what is lent: the lists as long as (iii) of document 02 allows
SLOTS, ENTRIES = 2, 8
ALIKE = ("2", "3", "4", "5")    # refusals that every board gives, whatever its keys
TELLS = ("6", "9", "7", "8")    # the others where no key fits, what tells most last


def opened(answer):
    """Whether a frame was opened under a key."""
    return answer[0] == "ok" and answer[2] != "none"


def fits(answer):
    """Whether the tag fitted a key that the board has."""
    return opened(answer) or answer[1] == "10" or answer[-1] == "genuine"


class Board:
    """One board, a bench of its own, and the keys that it was given."""

    def __init__(self, start):
        self.bench = start()
        self.bench.ok("lend", OUTPUT, ROWS, ROWS)
        self.bench.ok("board", LISTENER)
        self.numbers, self.partners = [], {}  # of the keys in the slots; link keys by partner

    def install(self, number, key):
        """Puts a network key into the next slot."""
        self.bench.ok("network", len(self.numbers), number, key)
        self.numbers.append(number)

    def link(self, partner, key):
        """Adds the link key of a partner."""
        self.bench.ok("link", partner, key)
        self.partners[partner] = key

    def unlink(self, partner):
        """Removes it."""
        self.bench.ok("unlink", partner)
        del self.partners[partner]


class Boards:
    """The boards that listen to one PAN, started as they are needed."""

    def __init__(self, start, network_keys=(), link_keys=()):
        self.start, self.boards = start, []
        self.network_keys, self.partners = [], {}  # the partners' boards, the newest first
        for number, key in network_keys:
            self.install(number, key)
        for partner, key in link_keys:
            self.link(partner, key)

    def first(self, has_room=lambda board: True):
        """The first board with room for something, a new one where none has."""
        for board in self.boards:
            if has_room(board):
                return board
        self.boards.append(Board(self.start))
        return self.boards[-1]

    def install(self, number, key):
        """Installs a network key; whether it is new here."""
        if (number, key) in self.network_keys:
            return False
        self.first(lambda board: len(board.numbers) < SLOTS
                   and number not in board.numbers).install(number, key)
        self.network_keys.append((number, key))
        return True

    def link(self, partner, key):
        """Adds a link key of a partner; whether it is new here."""
        if self.has_link(partner, key):
            return False
        board = self.first(lambda board: len(board.partners) < ENTRIES
                           and partner not in board.partners)
        board.link(partner, key)
        self.partners.setdefault(partner, []).insert(0, board)
        return True

    def has_link(self, partner, key):
        """Whether a board has this key of a partner."""
        return any(board.partners[partner] == key for board in self.partners.get(partner, ()))

    def open(self, frame):
        """What the boards say of a network frame."""
        with_keys = [board for board in reversed(self.boards) if board.numbers]
        return self.ask(with_keys, "open", frame)[0]

    def open_aps(self, sender, frame):
        """What the boards say of an APS frame from a sender, and the key that this goes by. A
        sender that isn't known is asked about as one of which no key is known."""
        answer, board = self.ask(self.partners.get(sender), "openaps", sender or LISTENER, frame)
        return answer, board.partners.get(sender)

    def ask(self, boards, *line):
        """The answer of the board whose key fits, and that board, the newest asked first. Where no
        key fits, a low counter tells more than a wrong tag, and that more than a missing key."""
        said = None
        for board in boards or [self.first()]:
            answer = board.bench.ask(*line)
            if answer[0] == "ok" or fits(answer) or answer[1] in ALIKE:
                return answer, board
            if said is None or TELLS.index(said[0][1]) < TELLS.index(answer[1]):
                said = answer, board
        return said

    def heard(self):
        """For each network key its number and the senders heard under it, with their floors."""
        for board in self.boards:
            for slot, number in enumerate(board.numbers):
                fields = board.bench.ok("heard", slot)
                yield number, list(zip(fields[1::3], map(int, fields[2::3])))

    def linked(self):
        """The partners of which something was opened, with their keys and floors."""
        for board in self.boards:
            fields = board.bench.ok("links")
            yield from ((partner, board.partners[partner], floor) for partner, floor
                        in zip(fields[1::3], map(int, fields[2::3])) if floor)

    def close(self):
        """Ends the benches."""
        for board in self.boards:
            board.bench.close()


class Trial:
    """A board on which it is tried whether a label's key opens a frame, before it is taken to be
    the sender's. What opens there leaves no floor."""

    def __init__(self, start):
        self.start, self.board = start, None

    def fits(self, sender, key, frame):
        """Whether the key opens the APS frame of the sender."""
        self.board = self.board or Board(self.start)
        partners = self.board.partners
        if sender not in partners and len(partners) == ENTRIES:
            self.board.unlink(next(iter(partners)))
        if partners.get(sender) != key:
            self.board.link(sender, key)
        if not opened(self.board.bench.ask("openaps", sender, frame)):
            return False
        self.board.unlink(sender)
        return True

    def close(self):
        """Ends the bench."""
        if self.board is not None:
            self.board.bench.close()
