"""The part of trials' script that makes boards and changes keys."""

from ..lines import Chance, ok, refused

OWN = "00124b0001020304"
ZERO, ONES = "0" * 16, "f" * 16
P1, P2, P3 = "00000000000000a1", "a200000000000000", "00000000ffffffff"
K = bytes(range(0x10, 0x20))
LAST = K[:15] + b"\x1e"       # K but for its last octet
FIRST = b"\x90" + K[1:]       # K but for its first octet
OTHER = bytes(range(0xF0, 0x100))
NO_SLOT = (0, 0, bytes(16))
NO_LINK = (0, ZERO, bytes(16), 0)
SEED, STEPS = 1001, 240


# ---- answers as they are expected ----------------------------------------------------------------

def slots(first, second, active):
    """What `slots` answers."""
    return ok(*first, *second, active)


def links(entries):
    """What `links` answers, where all other entries are fresh."""
    return ok(*(field for i in range(8) for field in entries.get(i, NO_LINK)))


def rows(*triples):
    """What `rows` answers."""
    return ok(*(field for triple in triples for field in triple))


def set_rows(script, *triples):
    """Rows set as they are told."""
    for triple in triples:
        script.add("setrow", *triple, expect="ok")


def show(script, **tables):
    """Tables asked for, with what they are to be."""
    for table, expect in tables.items():
        script.add(table, expect=expect)


def fresh(script, title):
    """A group that starts from a fresh board."""
    script.group(title)
    script.add("board", OWN, expect="ok")


# ---- boards --------------------------------------------------------------------------------------

NEEDY = (("network", 0, 0, K), ("switch", 0), ("link", P1, K), ("unlink", P1), ("forget", 0, P1),
         ("setslot", 0, 1, 0, K), ("setlink", 0, 1, P1, K, 0), ("setrow", 0, P1, 1),
         ("setactive", 0), ("slots",), ("links",), ("rows",), ("counters",), ("mark",),
         ("marked", 1024), ("marked", 0), ("setmark", 0))


def add_no_board(script):
    """Before the first board."""
    script.group("no board yet: bad, refused or not")
    for line in NEEDY:
        script.add(*line, expect="bad")
    script.add("network", 2, 0, K, expect="bad")
    script.add("forget", 0, ZERO, expect="bad")
    script.group("these need none")
    script.add("lend", 64, 64, expect="ok")
    script.add("frame", "0800fcff00001e01", expect=ok("plain", 8))
    script.add("apsframe", ZERO, "0107", expect=ok("plain", 2))
    script.add("plainframe", "0800fcff00001e01", expect=ok("plain", 8))
    script.add("plainaps", "0107", expect=ok("plain", 2))
    script.add("nonce", ZERO, 0, 0, expect=ok("00" * 12 + "05"))
    script.add("aux", 0, 0, ZERO, 0, expect=ok("20" + "00" * 12))
    for word in ("auth", "clear", "raise"):
        script.add(word, 0, 0, "", expect=ok("ee" * 32))
    script.group("a refused board is none")
    for own in (ZERO, ONES):
        script.add("board", own, expect=refused(14))
        script.add("counters", expect="bad")
    script.add("setrow", 0, P1, 1, expect="bad")


def add_boards(script):
    """Fresh boards, and the refusals that leave the old one."""
    fresh(script, "a fresh board")
    show(script, counters=ok(OWN, 0, 0, 0), slots=slots(NO_SLOT, NO_SLOT, "-"), links=links({}),
         rows="ok")
    script.group("a refused or a bad board leaves the old one and its lists")
    set_rows(script, (0, P1, 1), (63, P2, 4294967295), (64, ONES, 2), (1025, ZERO, 3))
    script.add("setslot", 1, 1, 255, K, expect="ok")
    script.add("setlink", 7, 1, ONES, OTHER, 4294967295, expect="ok")
    script.add("setactive", 1, expect="ok")
    for own, expect in ((ZERO, refused(14)), (ONES, refused(14)), ("1", "bad")):
        script.add("board", own, expect=expect)
        show(script, counters=ok(OWN, 0, 0, 0), slots=slots(NO_SLOT, (1, 255, K), 1),
             links=links({7: (1, ONES, OTHER, 4294967295)}),
             rows=rows((0, P1, 1), (63, P2, 4294967295), (64, ONES, 2), (1025, ZERO, 3)))
    script.group("a new board is fresh in all 1026 rows, and the lend stays")
    script.add("lend", 10, 20, expect="ok")
    script.add("board", "fffffffffffffffe", expect="ok")
    show(script, counters=ok("fffffffffffffffe", 0, 0, 0), slots=slots(NO_SLOT, NO_SLOT, "-"),
         links=links({}), rows="ok")
    script.add("network", 0, 0, K, expect=refused(1))
    script.add("lend", 64, 64, expect="ok")
    script.group("the same address again is fresh too")
    script.add("link", P1, K, expect="ok")
    script.add("board", "fffffffffffffffe", expect="ok")
    show(script, links=links({}))
    script.add("board", "0000000000000001", expect="ok")
    show(script, counters=ok("0000000000000001", 0, 0, 0))


# ---- network keys --------------------------------------------------------------------------------

def add_install_order(script):
    """1 before 14 for the slot before 14 for the other slot's number, and the same for forget."""
    fresh(script, "lists of lengths that are not allowed: 1 before all else, and nothing changes")
    script.add("setslot", 1, 1, 7, K, expect="ok")
    set_rows(script, (0, P1, 5), (32, P2, 6), (63, P3, 7), (64, P1, 8))
    held = rows((0, P1, 5), (32, P2, 6), (63, P3, 7), (64, P1, 8))
    for lent in ((63, 64), (64, 63), (65, 64), (64, 65), (0, 0), (1026, 1026)):
        script.add("lend", *lent, expect="ok")
        for slot, number in ((0, 9), (2, 9), (0, 7)):
            script.add("network", slot, number, K, expect=refused(1))
        script.add("network", 1, 7, K, expect=refused(1))
        for slot, sender in ((0, P1), (2, P1), (1, ZERO)):
            script.add("forget", slot, sender, expect=refused(1))
    show(script, slots=slots(NO_SLOT, (1, 7, K), "-"), rows=held)
    script.add("switch", 7, expect="ok")
    script.add("link", P1, K, expect="ok")
    script.group("64 rows: 14 for the slot, then 14 for the other slot's number")
    script.add("lend", 64, 64, expect="ok")
    for slot in (2, 3, 32, 255):
        script.add("network", slot, 9, K, expect=refused(14))
        script.add("network", slot, 7, K, expect=refused(14))
    script.add("network", 0, 7, K, expect=refused(14))
    script.add("network", 0, 7, OTHER, expect=refused(14))
    show(script, slots=slots(NO_SLOT, (1, 7, K), 1), rows=held)
    script.add("network", 0, 9, K, expect="ok")
    show(script, slots=slots((1, 9, K), (1, 7, K), 1),
         rows=rows((32, P2, 6), (63, P3, 7), (64, P1, 8)))


SAMPLE = ((0, P1, 11), (5, ZERO, 9), (31, P2, 0), (32, P1, 12), (40, ZERO, 8), (63, P3, 0),
          (64, P1, 13), (1025, P2, 14))
HALVES = (SAMPLE[:3], SAMPLE[3:6])
BEYOND = SAMPLE[6:]


def kept_rows(slot):
    """What `rows` answers once that slot's rows are freed."""
    return rows(*HALVES[1 - slot], *BEYOND)


def add_install_again(script):
    """The same key keeps the rows; anything else frees that slot's, floors too."""
    fresh(script, "the same key and number again: nothing changes")
    script.add("network", 0, 3, K, expect="ok")
    script.add("network", 1, 4, OTHER, expect="ok")
    set_rows(script, *SAMPLE)
    script.add("network", 0, 3, K, expect="ok")
    script.add("network", 1, 4, OTHER, expect="ok")
    show(script, slots=slots((1, 3, K), (1, 4, OTHER), "-"), rows=rows(*SAMPLE))
    script.group("the other slot's key and octets: only its number counts")
    script.add("network", 0, 4, OTHER, expect=refused(14))
    script.add("network", 1, 3, K, expect=refused(14))
    show(script, slots=slots((1, 3, K), (1, 4, OTHER), "-"), rows=rows(*SAMPLE))
    for slot, old in ((0, K), (1, OTHER)):
        last = old[:15] + bytes([old[15] ^ 0x80])
        changes = ((3 + slot, last), (3 + slot, b"\x00" + last[1:]), (9 + slot, b"\x00" + last[1:]))
        for what, change in zip(("last octet", "first octet", "number"), changes):
            script.group(f"slot {slot}, another {what}: its 32 rows are freed")
            script.add("network", slot, *change, expect="ok")
            show(script, rows=kept_rows(slot))
            set_rows(script, *HALVES[slot])
            script.add("network", slot, *change, expect="ok")
            show(script, rows=rows(*SAMPLE))
    script.group("both slots may have the same octets under two numbers")
    script.add("network", 0, 8, K, expect="ok")
    script.add("network", 1, 7, K, expect="ok")
    show(script, slots=slots((1, 8, K), (1, 7, K), "-"), rows=rows(*BEYOND))


def add_all_rows(script):
    """All 1,026 rows, which is the longest answer; then each slot's 32 are freed and no others,
    and of the longest lists each slot's 512."""
    fresh(script, "all 1026 rows: the longest answer, then 32 freed at a time")
    held = [(row, "f" * 15 + f"{row % 15:x}", 4294967295 - row) for row in range(1026)]
    set_rows(script, *held)
    show(script, rows=rows(*held))
    script.add("network", 1, 6, K, expect="ok")
    show(script, rows=rows(*held[:32], *held[64:]))
    script.add("network", 0, 7, FIRST, expect="ok")
    show(script, rows=rows(*held[64:]))
    script.group("1024 rows are lent: 512 freed at a time, and the two behind them stay")
    script.add("lend", 1024, 1024, expect="ok")
    script.add("network", 0, 8, FIRST, expect="ok")
    show(script, rows=rows(*held[512:]))
    set_rows(script, held[0], held[511])
    script.add("network", 1, 9, K, expect="ok")
    show(script, rows=rows(held[0], held[511], *held[1024:]))
    script.add("lend", 64, 64, expect="ok")


def add_install_active(script):
    """The active mark stays, whatever it says."""
    fresh(script, "installing leaves the active mark")
    script.add("network", 0, 0, K, expect="ok")
    show(script, slots=slots((1, 0, K), NO_SLOT, "-"))
    for mark, slot, number, key in ((0, 0, 1, K), (0, 0, 1, LAST), (0, 1, 2, K), (1, 0, 3, K),
                                    (2, 1, 4, K), (7, 0, 5, OTHER), (254, 0, 5, OTHER)):
        script.add("setactive", mark, expect="ok")
        script.add("network", slot, number, key, expect="ok")
    show(script, slots=slots((1, 5, OTHER), (1, 4, K), 254))
    script.add("setactive", 255, expect="ok")
    script.add("network", 1, 6, LAST, expect="ok")
    show(script, slots=slots((1, 5, OTHER), (1, 6, LAST), "-"))
    script.add("switch", 6, expect="ok")
    script.add("network", 1, 7, LAST, expect="ok")
    show(script, slots=slots((1, 5, OTHER), (1, 7, LAST), 1))
    script.add("network", 2, 7, LAST, expect=refused(14))
    show(script, slots=slots((1, 5, OTHER), (1, 7, LAST), 1))


def add_install_other(script):
    """The other slot's number counts only if that slot is present."""
    fresh(script, "number 0 beside a fresh slot, whose number is 0")
    script.add("network", 0, 0, K, expect="ok")
    script.add("network", 1, 0, OTHER, expect=refused(14))
    script.add("network", 1, 1, OTHER, expect="ok")
    script.add("network", 0, 1, K, expect=refused(14))
    show(script, slots=slots((1, 0, K), (1, 1, OTHER), "-"))
    fresh(script, "the same for slot 1")
    script.add("network", 1, 0, K, expect="ok")
    script.add("network", 0, 0, K, expect=refused(14))
    show(script, slots=slots(NO_SLOT, (1, 0, K), "-"))
    fresh(script, "an absent slot that holds a number and a key")
    script.add("setslot", 1, 0, 9, K, expect="ok")
    set_rows(script, *SAMPLE)
    script.add("network", 0, 9, K, expect="ok")
    show(script, slots=slots((1, 9, K), (0, 9, K), "-"), rows=kept_rows(0))
    script.group("the key that an absent slot holds is installed like any other")
    script.add("setslot", 0, 0, 8, K, expect="ok")
    script.add("network", 1, 9, K, expect="ok")
    show(script, slots=slots((0, 8, K), (1, 9, K), "-"), rows=rows(*BEYOND))
    script.add("network", 0, 9, K, expect=refused(14))
    fresh(script, "both slots present under one number: 14, for the same key too")
    script.add("setslot", 0, 1, 5, K, expect="ok")
    script.add("setslot", 1, 1, 5, K, expect="ok")
    set_rows(script, *SAMPLE)
    for slot in (0, 1):
        script.add("network", slot, 5, K, expect=refused(14))
        script.add("network", slot, 5, OTHER, expect=refused(14))
    show(script, slots=slots((1, 5, K), (1, 5, K), "-"), rows=rows(*SAMPLE))
    script.add("network", 1, 6, K, expect="ok")
    show(script, slots=slots((1, 5, K), (1, 6, K), "-"), rows=kept_rows(1))


def add_switch(script):
    """The lowest present slot with the number, else 13."""
    fresh(script, "switch: nothing present, number 0 and others")
    for number in (0, 1, 255):
        script.add("switch", number, expect=refused(13))
    show(script, slots=slots(NO_SLOT, NO_SLOT, "-"))
    script.group("switch: either slot, and the same again")
    script.add("network", 0, 4, K, expect="ok")
    script.add("network", 1, 255, OTHER, expect="ok")
    for number, active in ((255, 1), (255, 1), (4, 0)):
        script.add("switch", number, expect="ok")
        show(script, slots=slots((1, 4, K), (1, 255, OTHER), active))
    script.group("switch: a number that is not there leaves the mark")
    for mark in (1, 9, 0):
        script.add("setactive", mark, expect="ok")
        script.add("switch", 5, expect=refused(13))
        show(script, slots=slots((1, 4, K), (1, 255, OTHER), mark))
    script.group("switch: of two with one number slot 0")
    script.add("setslot", 0, 1, 255, K, expect="ok")
    script.add("setactive", 1, expect="ok")
    script.add("switch", 255, expect="ok")
    show(script, slots=slots((1, 255, K), (1, 255, OTHER), 0))
    script.group("switch: an absent slot does not count")
    script.add("setslot", 0, 0, 255, K, expect="ok")
    script.add("switch", 255, expect="ok")
    show(script, slots=slots((0, 255, K), (1, 255, OTHER), 1))
    script.add("setslot", 1, 0, 255, K, expect="ok")
    script.add("switch", 255, expect=refused(13))
    show(script, slots=slots((0, 255, K), (0, 255, K), 1))


# ---- link keys -----------------------------------------------------------------------------------

def partner(i):
    """The i-th of many partners."""
    return f"{0xb0 + i:016x}"


def add_links(script):
    """Adding: 14 first, the same key again, other octets, the lowest free entry, 10."""
    fresh(script, "link: partner zero or all ones")
    for nobody in (ZERO, ONES):
        script.add("link", nobody, K, expect=refused(14))
    show(script, links=links({}))
    script.group("link: eight partners, then a ninth")
    for i in range(8):
        script.add("link", partner(i), K, expect="ok")
    full = {i: (1, partner(i), K, 0) for i in range(8)}
    script.add("link", partner(8), K, expect=refused(10))
    script.add("link", OWN, OTHER, expect=refused(10))
    show(script, links=links(full))
    script.group("link: 14 before 10, with nobody in the table too")
    script.add("setlink", 2, 1, ZERO, K, 5, expect="ok")
    script.add("setlink", 3, 1, ONES, K, 6, expect="ok")
    for nobody in (ZERO, ONES):
        for key in (K, OTHER):
            script.add("link", nobody, key, expect=refused(14))
    full.update({2: (1, ZERO, K, 5), 3: (1, ONES, K, 6)})
    show(script, links=links(full))
    add_links_again(script, full)


def add_links_again(script, full):
    """In a full table: the same key, other octets, and a place made free."""
    script.group("link: a partner's own entry is found; the same key keeps its floor")
    script.add("setlink", 6, 1, partner(6), K, 4294967295, expect="ok")
    script.add("link", partner(6), K, expect="ok")
    full[6] = (1, partner(6), K, 4294967295)
    show(script, links=links(full))
    for octets in (LAST, FIRST):
        script.group("link: one octet differs: replaced in the same entry, floor 0")
        script.add("setlink", 6, 1, partner(6), K, 77, expect="ok")
        script.add("link", partner(6), octets, expect="ok")
        full[6] = (1, partner(6), octets, 0)
        show(script, links=links(full))
    script.group("link: the lowest free entry, of two")
    for i in (5, 1):
        script.add("unlink", partner(i), expect="ok")
    script.add("link", P1, K, expect="ok")
    full.update({1: (1, P1, K, 0), 5: NO_LINK})
    show(script, links=links(full))
    script.add("link", OWN, K, expect="ok")
    full[5] = (1, OWN, K, 0)
    show(script, links=links(full))
    script.add("link", P2, K, expect=refused(10))


def add_twin_links(script):
    """Several entries of one partner: the lowest present one counts."""
    fresh(script, "link: two entries of one partner, the lowest counts")
    script.add("setlink", 2, 1, P1, K, 7, expect="ok")
    script.add("setlink", 5, 1, P1, OTHER, 8, expect="ok")
    script.add("link", P1, K, expect="ok")
    show(script, links=links({2: (1, P1, K, 7), 5: (1, P1, OTHER, 8)}))
    script.add("link", P1, OTHER, expect="ok")
    show(script, links=links({2: (1, P1, OTHER, 0), 5: (1, P1, OTHER, 8)}))
    script.group("unlink: one of two at a time, zeroed whole")
    script.add("unlink", P1, expect="ok")
    show(script, links=links({5: (1, P1, OTHER, 8)}))
    script.add("unlink", P1, expect="ok")
    show(script, links=links({}))
    script.add("unlink", P1, expect=refused(13))
    script.group("link: an absent entry's partner does not count, its place does")
    script.add("setlink", 0, 0, P1, K, 9, expect="ok")
    script.add("setlink", 4, 1, P1, K, 8, expect="ok")
    script.add("link", P1, K, expect="ok")
    show(script, links=links({0: (0, P1, K, 9), 4: (1, P1, K, 8)}))
    script.add("link", P1, LAST, expect="ok")
    show(script, links=links({0: (0, P1, K, 9), 4: (1, P1, LAST, 0)}))
    script.add("unlink", P1, expect="ok")
    show(script, links=links({0: (0, P1, K, 9)}))
    script.add("unlink", P1, expect=refused(13))
    script.add("link", P1, K, expect="ok")
    show(script, links=links({0: (1, P1, K, 0)}))
    script.group("link: the free entry of another partner is overwritten whole")
    script.add("setlink", 1, 0, P2, OTHER, 3, expect="ok")
    script.add("link", P3, K, expect="ok")
    show(script, links=links({0: (1, P1, K, 0), 1: (1, P3, K, 0)}))


def add_unlinks(script):
    """Removing: 13 if absent, address 0 always."""
    fresh(script, "unlink: absent, zero, all ones")
    for a in (ZERO, ONES, P1, OWN):
        script.add("unlink", a, expect=refused(13))
    script.add("link", P1, K, expect="ok")
    script.add("link", P2, K, expect="ok")
    script.group("unlink: the first and the last entry; what is removed is all zero")
    script.add("setlink", 7, 1, P3, OTHER, 4294967295, expect="ok")
    script.add("unlink", P3, expect="ok")
    script.add("unlink", P1, expect="ok")
    show(script, links=links({1: (1, P2, K, 0)}))
    script.group("unlink: a present entry of address 0 stays, one of all ones goes")
    script.add("setlink", 0, 1, ZERO, K, 1, expect="ok")
    script.add("setlink", 3, 1, ONES, K, 2, expect="ok")
    script.add("unlink", ZERO, expect=refused(13))
    show(script, links=links({0: (1, ZERO, K, 1), 1: (1, P2, K, 0), 3: (1, ONES, K, 2)}))
    script.add("unlink", ONES, expect="ok")
    show(script, links=links({0: (1, ZERO, K, 1), 1: (1, P2, K, 0)}))
    script.add("unlink", ONES, expect=refused(13))
    script.group("the link keys know nothing of the network's tables")
    show(script, slots=slots(NO_SLOT, NO_SLOT, "-"), rows="ok", counters=ok(OWN, 0, 0, 0))


# ---- senders -------------------------------------------------------------------------------------

def add_forget(script):
    """Forgetting: the lowest row of that slot, 13 if absent, address 0 always."""
    fresh(script, "forget: nothing there, in a slot without a key")
    for sender in (P1, ZERO, ONES):
        for slot in (0, 1):
            script.add("forget", slot, sender, expect=refused(13))
    script.group("forget: a slot above 1 first")
    for slot in (2, 255):
        for sender in (P1, ZERO):
            script.add("forget", slot, sender, expect=refused(14))
    script.group("forget: of several rows the lowest, of that slot alone")
    set_rows(script, (3, P1, 5), (9, P1, 6), (35, P1, 7), (64, P1, 8))
    script.add("forget", 0, P1, expect="ok")
    show(script, rows=rows((9, P1, 6), (35, P1, 7), (64, P1, 8)))
    script.add("forget", 0, P1, expect="ok")
    show(script, rows=rows((35, P1, 7), (64, P1, 8)))
    script.add("forget", 0, P1, expect=refused(13))
    script.add("forget", 1, P1, expect="ok")
    script.add("forget", 1, P1, expect=refused(13))
    show(script, rows=rows((64, P1, 8)))
    script.group("forget: the first and the last row of each slot")
    edges = ((0, 0, P1), (31, 0, P2), (32, 1, P3), (63, 1, partner(0)))
    set_rows(script, *((row, a, 1) for row, _, a in edges))
    for _, slot, a in edges:
        script.add("forget", 1 - slot, a, expect=refused(13))
        script.add("forget", slot, a, expect="ok")
    show(script, rows=rows((64, P1, 8)))
    for slot in (0, 1):
        script.add("forget", slot, P1, expect=refused(13))
    add_forget_nobody(script)


def add_forget_nobody(script):
    """Zero and all ones, and a slot with a key."""
    script.group("forget: address 0 is absent, free rows or not; all ones is looked up")
    set_rows(script, (0, ZERO, 9), (1, ONES, 10), (33, ONES, 0))
    for slot in (0, 1):
        script.add("forget", slot, ZERO, expect=refused(13))
    show(script, rows=rows((0, ZERO, 9), (1, ONES, 10), (33, ONES, 0), (64, P1, 8)))
    for slot in (1, 0):
        script.add("forget", slot, ONES, expect="ok")
        script.add("forget", slot, ONES, expect=refused(13))
    show(script, rows=rows((0, ZERO, 9), (64, P1, 8)))
    script.group("forget: under a key, which stays")
    script.add("network", 1, 4, K, expect="ok")
    set_rows(script, (40, P2, 3))
    script.add("forget", 1, P2, expect="ok")
    script.add("forget", 1, P2, expect=refused(13))
    show(script, slots=slots(NO_SLOT, (1, 4, K), "-"),
         rows=rows((0, ZERO, 9), (64, P1, 8)))


# ---- any order -----------------------------------------------------------------------------------

LENDS = (*((64, 64),) * 3, (2, 2), (4, 4), (62, 62), (66, 66), (1022, 1022), (1024, 1024),
         (63, 63), (64, 66), (1026, 1026))


def some_request(chance):
    """A random request, and the tables that it may change."""
    keys, numbers = (K, LAST, OTHER), (0, 1, 2, 255)
    addresses = (ZERO, ONES, P1, P2, P3, partner(0), partner(1), partner(2), partner(3))
    pick = chance.pick
    row = pick((0, 1, 2, 3, 30, 31, 32, 33, 63, 64, 510, 511, 512, 1023, 1024, 1025))
    return pick((
        (("network", pick((0, 0, 0, 1, 1, 1, 2)), pick(numbers), pick(keys)), ("slots", "rows")),
        (("switch", pick(numbers)), ("slots",)),
        (("link", pick(addresses), pick(keys)), ("links",)),
        (("link", pick(addresses), pick(keys)), ("links",)),
        (("unlink", pick(addresses)), ("links",)),
        (("forget", pick((0, 0, 0, 1, 1, 1, 2)), pick(addresses)), ("rows",)),
        (("setslot", pick((0, 1)), pick((0, 1)), pick(numbers), pick(keys)), ("slots",)),
        (("setlink", chance.below(8), pick((0, 1)), pick(addresses), pick(keys), 7), ("links",)),
        (("setrow", row, pick(addresses), pick((0, 1, 4294967295))), ()),
        (("setrow", row, pick(addresses), pick((0, 1, 4294967295))), ()),
        (("setactive", pick((0, 1, 2, 255))), ("slots",)),
        (("lend", *pick(LENDS)), ()),
        (("lend", *pick(LENDS)), ()),
    ))


def add_random_requests(script):
    """Requests in any order, on tables that get worse and worse and lists of many lengths."""
    fresh(script, f"any order, {STEPS} requests, seed {SEED}")
    chance = Chance(SEED)
    for _ in range(STEPS):
        line, tables = some_request(chance)
        script.add(*line)
        for table in tables:
            script.add(table)
    script.add("lend", 64, 64, expect="ok")


def add_keys(script):
    """All of this."""
    for add in (add_no_board, add_boards, add_install_order, add_install_again, add_all_rows,
                add_install_active, add_install_other, add_switch, add_links, add_twin_links,
                add_unlinks, add_forget, add_random_requests):
        add(script)
