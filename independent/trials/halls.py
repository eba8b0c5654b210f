"""The part of trials' script that lends lists of other lengths.

Document 02 (iii), and 01's rules on rows with half the length for its 32; DECISIONS, freed-row,
forget-without-key and iii-other-length.
"""

from ..lines import refused
from .keys import (FIRST, K, LAST, NO_SLOT, ONES, OTHER, OWN, P1, P2, P3, ZERO, fresh, links, rows,
                   set_rows, show, slots)

LENGTHS = (2, 4, 62, 64, 66, 1022, 1024)  # of both lists
REFUSED = ((0, 0), (1, 1), (3, 3), (63, 63), (65, 65), (1023, 1023), (1025, 1025), (1026, 1026),
           (64, 66), (66, 64), (2, 4), (4, 2), (1024, 1022), (1022, 1024), (62, 64), (64, 62),
           (0, 2), (2, 0), (1, 2), (1024, 1026), (1026, 1024), (1024, 1025), (2, 1026))
LAST_STORED = 1025


def sender(row):
    """A sender for each row."""
    return f"{0xd000 + row:016x}"


def lend(script, length):
    """Lends two lists of so many rows."""
    script.add("lend", length, length, expect="ok")


# ---- lengths that are not allowed ----------------------------------------------------------------

def add_refused_lists(script):
    """1 before all else, and nothing changes; the other requests don't judge lists."""
    fresh(script, "02 (iii): lists that are unequal, odd, too short or too long")
    script.add("setslot", 1, 1, 7, K, expect="ok")
    held = [(row, P1, 5 + row) for row in (0, 1, 2, 32, 512, 1023, 1024, LAST_STORED)]
    set_rows(script, *held)
    for addresses, floors in REFUSED:
        script.group(f"{addresses} addresses and {floors} floors: 1 before all else")
        script.add("lend", addresses, floors, expect="ok")
        for slot, number, key in ((0, 9, K), (2, 9, K), (0, 7, K), (1, 7, K), (1, 7, OTHER)):
            script.add("network", slot, number, key, expect=refused(1))
        for slot, a in ((0, P1), (1, P1), (2, P1), (1, ZERO), (0, P2)):
            script.add("forget", slot, a, expect=refused(1))
        script.add("switch", 7, expect="ok")
        script.add("switch", 8, expect=refused(13))
        script.add("link", P1, K, expect="ok")
        script.add("unlink", P1, expect="ok")
    script.group("nothing of the lists changed")
    show(script, slots=slots(NO_SLOT, (1, 7, K), 1), links=links({}), rows=rows(*held))
    lend(script, 64)
    script.add("forget", 1, P1, expect="ok")
    show(script, rows=rows(*(row for row in held if row[0] != 32)))


# ---- lengths that are allowed --------------------------------------------------------------------

def edges(length):
    """The rows of slot 0, of slot 1 and behind the lists that are used: the first and the last of
    each half, and in longer lists two that are free but have a floor."""
    half = length // 2
    odd = {1: 9, half + 1: 8} if half > 2 else {}
    used = sorted({0, half - 1, half, length - 1, length, LAST_STORED, *odd})
    held = [(row, ZERO, odd[row]) if row in odd else (row, sender(row), 100 + row) for row in used]
    return ([row for row in held if row[0] < half],
            [row for row in held if half <= row[0] < length],
            [row for row in held if row[0] >= length])


def add_install(script, length):
    """What installing frees of lists of one length."""
    half, (first, second, behind) = length // 2, edges(length)
    fresh(script, f"02 (iii): {length} rows: install frees rows 0 to {half - 1} for slot 0, "
                  f"{half} to {length - 1} for slot 1")
    lend(script, length)
    script.add("network", 0, 3, K, expect="ok")
    script.add("network", 1, 4, OTHER, expect="ok")
    set_rows(script, *first, *second, *behind)
    script.group("the same keys again, 14 for the slot and for the other's number: no row changes")
    script.add("network", 0, 3, K, expect="ok")
    script.add("network", 1, 4, OTHER, expect="ok")
    script.add("network", 2, 5, K, expect=refused(14))
    script.add("network", 0, 4, K, expect=refused(14))
    show(script, rows=rows(*first, *second, *behind))
    script.group("another key in slot 1, then in slot 0")
    script.add("network", 1, 4, LAST, expect="ok")
    show(script, rows=rows(*first, *behind))
    set_rows(script, *second)
    script.add("network", 0, 3, FIRST, expect="ok")
    show(script, rows=rows(*second, *behind))
    script.add("network", 1, 5, LAST, expect="ok")
    show(script, slots=slots((1, 3, FIRST), (1, 5, LAST), "-"), rows=rows(*behind))


def add_forget(script, length):
    """Who is forgotten of lists of one length: by the slot's own half, the lowest of several."""
    halves = edges(length)
    behind = halves[2]
    fresh(script, f"02 (iii): {length} rows: forget looks at the slot's own half")
    lend(script, length)
    set_rows(script, *halves[0], *halves[1], *behind)
    for slot in (1, 0):
        for _, a, _ in halves[slot]:
            if a != ZERO:
                script.add("forget", 1 - slot, a, expect=refused(13))
                script.add("forget", slot, a, expect="ok")
                script.add("forget", slot, a, expect=refused(13))
    for _, a, _ in behind:
        for slot in (0, 1):
            script.add("forget", slot, a, expect=refused(13))
    script.add("forget", 2, behind[0][1], expect=refused(14))
    script.add("forget", 1, ZERO, expect=refused(13))
    free = [row for row in halves[0] + halves[1] if row[1] == ZERO]
    show(script, rows=rows(*free, *behind))
    script.group("of several rows of a slot the lowest")
    half = length // 2
    twins = [(row, P3, 7) for row in sorted({half - 1, half, length - 1})]
    set_rows(script, *twins)
    script.add("forget", 1, P3, expect="ok")
    left = [row for row in twins if row[0] != half]
    show(script, rows=rows(*sorted(free + left), *behind))
    script.add("forget", 1, P3, expect="ok" if length > 2 else refused(13))
    script.add("forget", 1, P3, expect=refused(13))
    script.add("forget", 0, P3, expect="ok")
    show(script, rows=rows(*free, *behind))


# ---- one length after another --------------------------------------------------------------------

def add_other_length(script):
    """The same rows read as other slots."""
    fresh(script, "one length after another: row 40 is slot 1's of 64 rows, slot 0's of 128")
    held = {row: (row, sender(row), row) for row in (1, 2, 3, 31, 32, 40, 63, 64, 127, 512, 1024)}
    set_rows(script, *held.values())

    def left(*gone):
        """Shows the rows once these are free too."""
        for row in gone:
            del held[row]
        show(script, rows=rows(*held.values()))

    lend(script, 128)
    script.add("forget", 1, sender(40), expect=refused(13))
    lend(script, 64)
    script.add("forget", 0, sender(40), expect=refused(13))
    lend(script, 128)
    script.add("forget", 0, sender(40), expect="ok")
    left(40)
    script.group("a key in slot 1 of 4 rows frees rows 2 and 3; of 66 rows 33 to 65")
    lend(script, 4)
    script.add("network", 1, 1, K, expect="ok")
    left(2, 3)
    lend(script, 66)
    script.add("network", 1, 1, LAST, expect="ok")
    left(63, 64)
    script.group("the same key at another length frees nothing; another in slot 0 its half")
    lend(script, 1024)
    script.add("network", 1, 1, LAST, expect="ok")
    left()
    lend(script, 64)
    script.add("network", 0, 2, K, expect="ok")
    left(1, 31)
    lend(script, 1024)
    script.add("network", 0, 2, OTHER, expect="ok")
    left(32, 127)
    script.add("network", 1, 1, FIRST, expect="ok")
    left(512)
    script.group("all ones is looked up in the lent half like any address")
    set_rows(script, (511, ONES, 1))
    script.add("forget", 1, ONES, expect=refused(13))
    lend(script, 1022)
    script.add("forget", 0, ONES, expect=refused(13))
    script.add("forget", 1, ONES, expect="ok")
    left()
    lend(script, 64)
    script.add("board", OWN, expect="ok")
    show(script, rows="ok")


def add_halls(script):
    """All of this; at its end is lent what is lent at first."""
    add_refused_lists(script)
    for length in LENGTHS:
        add_install(script, length)
        add_forget(script, length)
    add_other_length(script)
