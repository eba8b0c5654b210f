"""The script of `bench`: the mark, and what is left of it when the plug is pulled.

Document 02 (vi); the bench language for `board`, `mark`, `marked` and `state`; DECISIONS,
vi-top-mark, vi-idle-steps, vi-board-finds-mark and vi-otherwise-fresh. What is expected is written
out, or comes from a host that keeps store, counter and mark by itself.
"""

from ..lines import Chance, address, ok, run_of, sure
from .line_forms import WRONG_COUNTERS
from .tools import (COMMAND_HEADER, DATA_HEADER, GENUINE, NETWORK_HEADER, OWN, TOP, aps_frame, key,
                    network_frame, no, opened, put)

PARTNER, STRANGER = 0x00124B00AABBCCDD, 0x00124B00DEADBEEF
NUMBER = 5  # of the network key, key(1); the partner's link key is key(2)
FOUND = (None, 1, 70000, TOP - 1025, TOP - 1024, TOP - 1023, TOP - 1, TOP)


def give_keys(bench):
    """What a board has lost by a cut, or never had."""
    bench.network(0, NUMBER, key(1))
    bench.add("switch", NUMBER, expect="ok")
    bench.link(PARTNER, key(2))


def by_network(counter, payload=b""):
    """The secured network frame with that counter."""
    return network_frame(key(1), NUMBER, OWN, counter, payload)


def by_aps(identifier, counter, payload=b""):
    """The secured APS frame with that counter."""
    return aps_frame(key(2), identifier, OWN, counter, payload)


# ---- refused -----------------------------------------------------------------------------------

def add_not_moved(bench, number):
    """Frames that nothing is wrong with; the answer is one number at both layers."""
    for payload in (b"", run_of(20), run_of(90)):
        bench.seal(NETWORK_HEADER + payload, no(number))
    for identifier, plain in ((0, COMMAND_HEADER), (2, DATA_HEADER + run_of(83)),
                              (3, COMMAND_HEADER + run_of(20))):
        bench.seal_aps(PARTNER, identifier, plain, no(number))


def add_earlier(bench):
    """Every cause that is judged before the counter, at both layers."""
    bench.group("1, 2, 3, 4, 3, 14 and 6 come before 17")
    bench.lend(115)
    bench.seal(NETWORK_HEADER, no(1))
    bench.seal_aps(PARTNER, 0, COMMAND_HEADER, no(1))
    bench.lend()
    for frame, number in ((NETWORK_HEADER + bytes(91), 2), (b"", 3), (b"\x08", 3),
                          (put(NETWORK_HEADER, 1, 2), 4), (b"\x08\x02", 4),
                          (NETWORK_HEADER[:7], 3)):
        bench.seal(frame, no(number))
    for partner, identifier, frame, number in (
            (PARTNER, 0, DATA_HEADER + bytes(84), 2), (PARTNER, 0, b"", 3),
            (PARTNER, 2, b"\x61\x07", 4), (PARTNER, 2, b"\x03", 4), (PARTNER, 3, b"\x41", 3),
            (PARTNER, 1, COMMAND_HEADER, 14), (STRANGER, 4, COMMAND_HEADER, 14),
            (STRANGER, 0, COMMAND_HEADER, 6), (0, 3, COMMAND_HEADER, 6)):
        bench.seal_aps(partner, identifier, frame, no(number))


def add_new_board(bench):
    """A new board seals nothing before its first step, and a refusal changes nothing."""
    bench.group("02 (vi): a new board finds the mark 0; without a key to seal 6 comes before 17")
    bench.board()
    bench.state(0, 0, "-")
    bench.seal(NETWORK_HEADER, no(6))
    bench.seal_aps(PARTNER, 0, COMMAND_HEADER, no(6))
    bench.network(0, NUMBER, key(1))
    bench.seal(NETWORK_HEADER, no(6))
    give_keys(bench)
    bench.open(network_frame(key(1), NUMBER, STRANGER, 8), opened(STRANGER, 1, NETWORK_HEADER))
    bench.group("its first seal is 17, at both layers")
    add_not_moved(bench, 17)
    add_earlier(bench)
    bench.group("nothing was spent, and the first request moves nothing")
    bench.add("mark", expect=ok(1024))
    add_not_moved(bench, 17)
    bench.state(0, 0, 0)
    bench.heard(0, (0, STRANGER, 9))
    bench.links((0, PARTNER, 0))
    bench.group("only the second moves it: then counter 0 is spent")
    bench.add("marked", 1024, expect="ok")
    bench.seal(NETWORK_HEADER, ok(by_network(0)))
    bench.seal_aps(PARTNER, 2, COMMAND_HEADER, ok(by_aps(2, 1)))
    bench.add("state", expect=ok(2, 0, 0, 1024))


def add_top(bench):
    """The last counters, and 7 before 17."""
    bench.group("a board that finds the top: 6, then 7 and not 17; DECISIONS, vi-top-mark: the "
                "next mark is the same number, and being told it is accepted")
    bench.board(OWN, TOP)
    bench.seal(NETWORK_HEADER, no(6))
    give_keys(bench)
    add_not_moved(bench, 7)
    for _ in range(2):
        bench.step()
        bench.state(TOP, 0, 0)
        bench.seal(NETWORK_HEADER, no(7))
    bench.group("4294967290 is found: five frames, and then 7")
    bench.board(OWN, 4294967290)
    give_keys(bench)
    add_not_moved(bench, 17)
    bench.add("mark", expect=ok(4294967295))
    bench.add("marked", 4294967295, expect="ok")
    for counter in range(4294967290, 4294967294, 2):
        bench.seal(NETWORK_HEADER + b"\x01", ok(by_network(counter, b"\x01")))
        bench.seal_aps(PARTNER, 3, COMMAND_HEADER, ok(by_aps(3, counter + 1)))
    bench.seal(NETWORK_HEADER, ok(by_network(4294967294)))
    add_not_moved(bench, 7)
    bench.add("marked", 4294967295, expect="ok")
    bench.seal(NETWORK_HEADER, no(7))
    bench.add("state", expect=ok(4294967295, 0, 0, 4294967295))


# ---- steps -------------------------------------------------------------------------------------

def add_steps(bench):
    """The next mark of every kind of mark; others told, each 14."""
    for found in FOUND:
        mark = found or 0
        after = TOP if mark > TOP - 1024 else mark + 1024
        bench.group(f"the mark {mark}: the next one is {after}, asked for twice; told another: 14")
        bench.board(OWN, found)
        for _ in range(2):
            bench.add("mark", expect=ok(after))
        bench.state(mark, 0, "-")
        others = {mark, after - 1, after + 1, 0, mark + 2048, mark + 1, TOP} - {after}
        for turn, told in enumerate(sorted(other for other in others if other <= TOP)):
            bench.add("marked", told, expect=no(14))
            if turn % 2:
                bench.state(mark, 0, "-")
        bench.add("marked", after, expect="ok")
        bench.add("state", expect=ok(mark, 0, "-", after))
        bench.add("marked", after, expect="ok" if after == TOP else no(14))
        bench.add("mark", expect=ok(min(after + 1024, TOP)))
    bench.group("DECISIONS, vi-idle-steps: steps that nothing needs, without a first request")
    bench.board(OWN, 100)
    for mark in (1124, 2148, 3172):
        bench.add("marked", mark, expect="ok")
        bench.add("marked", 1124, expect=no(14))
        bench.add("state", expect=ok(100, 0, "-", mark))
    bench.group("the first request is not remembered: what it answered long ago is 14")
    bench.add("mark", expect=ok(4196))
    bench.add("marked", 4196, expect="ok")
    bench.add("marked", 4196, expect=no(14))
    bench.add("mark", expect=ok(5220))


def add_whole_step(bench):
    """All counters of one step, and the first ones of the next."""
    bench.group("a whole step: counters 0 to 1023 are sealed, 1024 is not below the mark")
    bench.board()
    give_keys(bench)
    bench.step()
    for counter in range(1024):
        if counter % 128 == 127:
            bench.seal(NETWORK_HEADER, ok(by_network(counter)))
        else:
            bench.seal_aps(PARTNER, 0, COMMAND_HEADER, ok(by_aps(0, counter)))
    add_not_moved(bench, 17)
    bench.add("state", expect=ok(1024, 0, 0, 1024))
    bench.group("over the step: nothing but the right second request helps")
    for told in (1024, 0, 1025, 2047, 2049, 3072, TOP):
        bench.add("marked", told, expect=no(14))
    bench.add("mark", expect=ok(2048))
    bench.seal(NETWORK_HEADER, no(17))
    bench.add("marked", 2048, expect="ok")
    bench.seal(NETWORK_HEADER, ok(by_network(1024)))
    bench.seal_aps(PARTNER, 0, COMMAND_HEADER, ok(by_aps(0, 1025)))
    bench.add("state", expect=ok(1026, 0, 0, 2048))


def add_unlooked(bench):
    """Requests that neither look at the mark nor move it."""
    bench.group("opening, keys and commands don't look at the mark, and leave it")
    for found, told in ((0, ()), (7, (1031,))):
        bench.board(OWN, found)
        for mark in told:
            bench.add("marked", mark, expect="ok")
        give_keys(bench)
        frame = network_frame(key(1), NUMBER, STRANGER, 3, b"\x01")
        bench.open(frame, opened(STRANGER, 1, NETWORK_HEADER + b"\x01"))
        bench.open(frame, GENUINE)
        bench.open_aps(0, aps_frame(key(2), 0, PARTNER, 4), opened(PARTNER, 0, COMMAND_HEADER))
        bench.add("forget", 0, address(STRANGER), expect="ok")
        bench.add("write", "ack", "request4", expect=ok("41000804"))
        bench.add("unlink", address(PARTNER), expect="ok")
        bench.network(0, NUMBER, key(3))
        bench.add("state", expect=ok(found, 1, 0, *(told or (found,))))
    bench.group("a refused board leaves the mark; a new one, with the same address, finds its own")
    for fields in ((0,), (0, 9), (2**64 - 1, TOP)):
        bench.add("board", address(fields[0]), *fields[1:], expect=no(14))
        bench.add("state", expect=ok(7, 1, 0, 1031))
    for found in (None, 1031, 7):
        bench.board(OWN, found)
        bench.state(found or 0, 0, "-")


# ---- the plug ----------------------------------------------------------------------------------

def add_fresh(bench):
    """What a cut leaves, and what it takes."""
    bench.group("DECISIONS, vi-otherwise-fresh: a cut leaves the mark, and takes keys, links, "
                "senders and the APS counter; so 6 comes before 17")
    heard = network_frame(key(1), NUMBER, STRANGER, 3)
    heard_aps = aps_frame(key(2), 0, PARTNER, 4)
    for found in (50, 1074):
        bench.board(OWN, found)
        bench.state(found, 0, "-")
        bench.heard(0)
        bench.links()
        bench.seal(NETWORK_HEADER, no(6))
        bench.seal_aps(PARTNER, 0, COMMAND_HEADER, no(6))
        bench.add("write", "ack", "request4", expect=ok("41000804"))
        give_keys(bench)
        bench.group("demand 3's second statement starts afresh: the same frames open once more")
        bench.open(heard, opened(STRANGER, 1, NETWORK_HEADER))
        bench.open_aps(0, heard_aps, opened(PARTNER, 0, COMMAND_HEADER))
        bench.seal(NETWORK_HEADER, no(17))
        bench.step()
        bench.seal(NETWORK_HEADER, ok(by_network(found)))
        bench.add("state", expect=ok(found + 1, 1, 0, found + 1024))


class Host:
    """A host with its store. What its board knows of counter and mark is kept here once more."""

    def __init__(self, bench, held):
        self.bench, self.held = bench, held
        self.sent = []  # the counters of the frames that were sealed, read off their octets
        self.start()

    def start(self):
        """Power comes, first or after a cut: the board finds what the store holds."""
        self.bench.board(OWN, self.held)
        give_keys(self.bench)
        self.counter = self.mark = self.held
        self.answered = None  # the next mark last answered

    def next_mark(self):
        """The mark that the board is to answer."""
        return TOP if self.mark > TOP - 1024 else self.mark + 1024

    def ask(self):
        """The first request."""
        self.answered = self.next_mark()
        self.bench.add("mark", expect=ok(self.answered))

    def write(self):
        """The store's write, which no line of the bench shows."""
        self.held = self.held if self.answered is None else self.answered

    def tell(self, told=None):
        """The second request: what the store holds, or another number, by mistake."""
        told = self.held if told is None else told
        good = told == self.next_mark()
        self.bench.add("marked", told, expect="ok" if good else no(14))
        self.mark = told if good else self.mark

    def step(self):
        """A whole step."""
        for act in (self.ask, self.write, self.tell):
            act()

    def seal(self, payload=b"", aps=False):
        """Seals a frame of one layer or the other, or is refused; what is sealed is remembered."""
        frame = by_aps(0, self.counter, payload) if aps else by_network(self.counter, payload)
        good = self.counter < self.mark and self.counter < TOP
        expect = ok(frame) if good else no(7 if self.counter == TOP else 17)
        if aps:
            answer = self.bench.seal_aps(PARTNER, 0, COMMAND_HEADER + payload, expect)
        else:
            answer = self.bench.seal(NETWORK_HEADER + payload, expect)
        if good:
            self.counter += 1
            place = len(COMMAND_HEADER if aps else NETWORK_HEADER) + 1
            octets = bytes.fromhex(answer.split("\t")[1])
            self.sent.append(int.from_bytes(octets[place:place + 4], "little"))

    def state(self):
        """Asks for the state."""
        self.bench.add("state", expect=ok(self.counter, 0, 0, self.mark))

    def check(self, least):
        """No counter was sealed twice, and each was above all that were sealed before it."""
        rising = all(a < b for a, b in zip(self.sent, self.sent[1:]))
        sure(rising and len(self.sent) >= least, "counters over cuts", self.sent)


MOMENTS = (("before the first request", ()), ("before the store's write", ("ask",)),
           ("between the write and the second request", ("ask", "write")),
           ("after the second request", ("ask", "write", "tell")),
           ("after two more frames", ("ask", "write", "tell", "seal", "seal")))


def add_cut(bench, held, used):
    """A cut at each moment of a step, on a board that has sealed before or that is new."""
    for title, acts in MOMENTS:
        bench.group(f"the plug is pulled {title}; the store held {held} at first")
        host = Host(bench, held)
        if used:
            host.step()
            host.seal(b"\x01")
            host.seal(b"\x02", aps=True)
        for act in acts:
            getattr(host, act)()
        host.start()
        host.state()
        host.seal(b"\x03")
        host.step()
        for aps in (False, True):
            host.seal(b"\x04", aps)
        host.check(4 if used else 2)


def add_cuts(bench):
    """Cuts at every moment, of a new board and of one near the top."""
    add_cut(bench, 0, used=False)
    add_cut(bench, TOP - 2500, used=True)
    bench.group("cut after cut: nothing sealed in between, and the counters left out stay out")
    host = Host(bench, 0)
    for acts in (("step", "seal"), ("ask",), ("ask", "write"), ("tell",), ("step", "seal", "step"),
                 ("step", "seal")):
        for act in acts:
            getattr(host, act)()
        host.start()
    host.state()
    host.check(3)


def add_chance(bench, seed, held, rounds):
    """Steps, halves of steps, mistakes, frames and cuts in any order."""
    bench.group(f"by chance, the store at {held}: steps, mistakes, frames and cuts, {rounds} "
                f"rounds, seed {seed}")
    chance = Chance(seed)
    host = Host(bench, held)

    def mistake():
        after = host.next_mark()
        told = chance.pick((0, TOP, host.mark, host.counter, after - 1, after + 1, after + 1024))
        if told <= TOP and told != after:
            host.tell(told)

    def frame():
        host.seal(run_of(chance.below(20), chance.below(256)), aps=chance.below(2) == 1)

    actions = ([frame] * 12 + [host.ask] * 2 + [host.write] * 2 + [host.tell] * 2 + [host.step] * 3
               + [mistake] * 2 + [host.state] + [host.start])
    for _ in range(rounds):
        chance.pick(actions)()
    host.state()
    host.check(rounds // 6)


# ---- bad lines ---------------------------------------------------------------------------------

def add_bad(bench):
    """Lines of the mark that are none; a good one behind them is answered as if they weren't."""
    bench.group("bad: `mark` has no field, `marked` has one, a decimal up to 4294967295")
    bench.board(OWN, 5)
    for line in ("mark\t", "mark\t0", "mark\t1029", "mark\t\t", "mark ", " mark", "mark\r",
                 "mark\0", "marked", "marked\t1029\t", "marked\t1029\t1029", "marked\t\t1029",
                 "marked\t1029 ", "marked\t1029\r", "marked\t01029", "marked\t0x405",
                 "marked\t1029.0", "marked\t1,029", "marked\tnone", "marked\t-", "Marked\t1029",
                 "markeD\t1029", "mark\tmarked\t1029", "seal\tmark"):
        bench.raw(line, "bad")
    for text in WRONG_COUNTERS[3:]:  # line_forms.py has the first ones
        bench.add("marked", text, expect="bad")
    bench.state(5, 0, "-")
    bench.step()
    bench.state(5, 0, "-")


def add_marks(bench):
    """All of this file."""
    for add in (add_new_board, add_top, add_steps, add_whole_step, add_unlooked, add_fresh,
                add_cuts):
        add(bench)
    for seed, held, rounds in ((6001, 0, 50), (6004, TOP - 6000, 50)):
        add_chance(bench, seed, held, rounds)
    add_bad(bench)
