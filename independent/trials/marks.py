"""The part of trials' script that moves the mark.

Document 02 (vi); DECISIONS, vi-top-mark and vi-idle-steps. `setmark` puts any mark, so that every
next one can be asked for and each of its neighbours told. What is expected is written out, or
counted here.
"""

from ..lines import Chance, ok, refused
from .keys import K, NO_SLOT, OWN, P1, fresh, links, rows, set_rows, show, slots

TOP = 4294967295
NEXT = (  # a mark and the next one
    (0, 1024), (1, 1025), (2, 1026), (1023, 2047), (1024, 2048), (1025, 2049), (2047, 3071),
    (65535, 66559), (65536, 66560), (2147482623, 2147483647), (2147482624, 2147483648),
    (2147483647, 2147484671), (4294965247, 4294966271), (4294966270, 4294967294),
    (4294966271, 4294967295), (4294966272, 4294967295), (4294966273, 4294967295),
    (4294967293, 4294967295), (4294967294, 4294967295), (4294967295, 4294967295))
SEED, ROUNDS = 6001, 60


def marked(script, mark):
    """Asks for own address and counters; the mark is the last of them."""
    script.add("counters", expect=ok(OWN, 0, 0, mark))


def add_steps(script):
    """Of each mark the next one, and the marks that it is not."""
    fresh(script, "a new board finds the mark 0")
    marked(script, 0)
    for mark, after in NEXT:
        script.group(f"the mark {mark}: the next one is {after}, and asking moves nothing")
        script.add("setmark", mark, expect="ok")
        script.add("mark", expect=ok(after))
        script.add("mark", expect=ok(after))
        marked(script, mark)
        others = {0, 1, mark - 1, mark, mark + 1, after - 1024, after - 1, after + 1, mark + 1023,
                  mark + 1025, mark + 2048, TOP - 1, TOP} - {after}
        for told in sorted(other for other in others if 0 <= other <= TOP):
            script.add("marked", told, expect=refused(14))
        marked(script, mark)
        script.add("marked", after, expect="ok")
        marked(script, after)


def add_chains(script):
    """Step after step, none of them needed, up to the top and there."""
    fresh(script, "steps one after another, asked for or not")
    for turn in range(1, 6):
        if turn % 2:
            script.add("mark", expect=ok(1024 * turn))
        script.add("marked", 1024 * turn, expect="ok")
        script.add("marked", 1024 * turn, expect=refused(14))
    marked(script, 5120)
    script.group("up to the top, where the step leads nowhere and is still answered")
    script.add("setmark", TOP - 2500, expect="ok")
    for mark in (TOP - 1476, TOP - 452, TOP, TOP, TOP):
        script.add("mark", expect=ok(mark))
        script.add("marked", mark, expect="ok")
        marked(script, mark)
    script.group("`setmark` goes back, past every rule")
    for mark in (TOP, 0, 7):
        script.add("setmark", mark, expect="ok")
        marked(script, mark)


def add_alone(script):
    """The mark and the rest of the board know nothing of each other."""
    fresh(script, "a step leaves keys, links and rows; they leave the mark")
    script.add("network", 1, 9, K, expect="ok")
    script.add("switch", 9, expect="ok")
    script.add("link", P1, K, expect="ok")
    set_rows(script, (0, P1, 1), (1025, P1, 5))
    script.add("lend", 3, 5, expect="ok")
    for told, expect in ((1024, "ok"), (1024, refused(14)), (2048, "ok")):
        script.add("marked", told, expect=expect)
    show(script, counters=ok(OWN, 0, 0, 2048), slots=slots(NO_SLOT, (1, 9, K), 1),
         links=links({0: (1, P1, K, 0)}), rows=rows((0, P1, 1), (1025, P1, 5)))
    script.add("lend", 64, 64, expect="ok")
    for line in (("forget", 0, P1), ("network", 0, 8, K), ("unlink", P1), ("switch", 8),
                 ("setactive", 255), ("setslot", 0, 0, 0, bytes(16))):
        script.add(*line, expect="ok")
    marked(script, 2048)
    script.group("a refused or a bad board leaves the mark, a new one finds 0")
    for own, expect in (("0" * 16, refused(14)), ("f" * 16, refused(14)), ("1", "bad")):
        script.add("board", own, expect=expect)
        marked(script, 2048)
    script.add("board", OWN, expect="ok")
    marked(script, 0)


def add_chance(script):
    """Marks by chance, mostly near one of the edges, and numbers told near the next one."""
    fresh(script, f"marks by chance, {ROUNDS} rounds, seed {SEED}")
    chance = Chance(SEED)
    for _ in range(ROUNDS):
        edge = chance.pick((0, 1024, 65536, 2**31, TOP - 1024, TOP))
        mark = edge + chance.below(2049) - 1024 if chance.below(3) else chance.below(TOP + 1)
        mark = min(max(mark, 0), TOP)
        after = TOP if TOP - mark < 1024 else mark + 1024
        told = after + chance.pick((-1, 0, 0, 0, 1, 1024, -1024, 256, -65536))
        script.add("setmark", mark, expect="ok")
        script.add("mark", expect=ok(after))
        if 0 <= told <= TOP:
            script.add("marked", told, expect="ok" if told == after else refused(14))
            marked(script, after if told == after else mark)


def add_marks(script):
    """All of this file."""
    for add in (add_steps, add_chains, add_alone, add_chance):
        add(script)
