"""The board's state, the requests that change keys, and the two that move the mark.

Document 01, "The state and the lists" and "Requests that change keys"; document 02 (iii) for the
lengths of the lists and (vi) for the mark; DECISIONS, freed-row, install-14-first,
forget-without-key, unlink-zero, iii-row-numbers, iii-other-length and those of (vi).
"""

from dataclasses import dataclass, field

from ..lines import Refused, refuse_if

LEAST_ROWS, MOST_ROWS = 2, 1024  # of a list
SLOTS = 2
LINKS = 8
ALL_ONES = 2**64 - 1
TOP = 2**32 - 1  # the counter that is neither sent nor accepted, and the last mark
MARK_STEP = 1024
NO_KEY = bytes(16)


@dataclass
class Slot:
    """A network slot."""
    present: bool = False
    number: int = 0
    key: bytes = NO_KEY


@dataclass
class Link:
    """A link entry."""
    present: bool = False
    partner: int = 0
    key: bytes = NO_KEY
    floor: int = 0


@dataclass
class Board:
    """The state; the heard senders stand in lists of their own."""
    own: int
    outgoing: int = 0
    mark: int = 0
    aps: int = 0
    slots: list = field(default_factory=lambda: [Slot() for _ in range(SLOTS)])
    active: int | None = None
    links: list = field(default_factory=lambda: [Link() for _ in range(LINKS)])


def nobody(address):
    """Whether no device can have the address: zero or all ones."""
    return address in (0, ALL_ONES)


def made_board(own, found=0):
    """A board that finds that mark in its store, otherwise fresh, or 14."""
    refuse_if(nobody(own), 14)
    return Board(own, outgoing=found, mark=found)


def judge_lists(addresses, floors):
    """1 unless both lists have one length, an even one from 2 to 1,024."""
    rows = len(addresses)
    refuse_if(len(floors) != rows or rows % SLOTS or not LEAST_ROWS <= rows <= MOST_ROWS, 1)


def lowest(places, fits):
    """The lowest of the places that fits, or None."""
    for place in places:
        if fits(place):
            return place
    return None


# ---- the mark ----------------------------------------------------------------------------------

def next_mark(board):
    """The first request of a step: the next mark. Nothing remembers that it was asked for."""
    return min(board.mark + MARK_STEP, TOP)


def move_mark(board, held):
    """The second request: the store now holds that mark. Another than the next one is 14."""
    refuse_if(held != next_mark(board), 14)
    board.mark = held


# ---- network keys ------------------------------------------------------------------------------

def rows_of(addresses, slot):
    """The rows that belong to a slot: the list's first half or its second."""
    half = len(addresses) // SLOTS
    return range(half * slot, half * (slot + 1))


def install(board, addresses, floors, slot, number, key):
    """Install network key."""
    judge_lists(addresses, floors)
    refuse_if(slot >= SLOTS, 14)
    other = board.slots[1 - slot]
    refuse_if(other.present and other.number == number, 14)
    wanted = Slot(True, number, key)
    if board.slots[slot] == wanted:
        return
    board.slots[slot] = wanted
    for row in rows_of(addresses, slot):
        addresses[row] = floors[row] = 0


def slot_numbered(board, number):
    """The lowest present slot with that sequence number, or None."""
    return lowest(range(SLOTS),
                  lambda s: board.slots[s].present and board.slots[s].number == number)


def switch(board, number):
    """Switch: makes a slot the active one."""
    slot = slot_numbered(board, number)
    refuse_if(slot is None, 13)
    board.active = slot


# ---- heard senders -----------------------------------------------------------------------------

def row_of(addresses, slot, sender):
    """The lowest row of the slot that has the sender's address, or None; 0 finds a free row."""
    return lowest(rows_of(addresses, slot), lambda row: addresses[row] == sender)


def forget(addresses, floors, slot, sender):
    """Forget sender of a slot."""
    judge_lists(addresses, floors)
    refuse_if(slot >= SLOTS, 14)
    row = None if sender == 0 else row_of(addresses, slot, sender)
    refuse_if(row is None, 13)
    addresses[row] = floors[row] = 0


# ---- link keys ---------------------------------------------------------------------------------

def entry_of(board, partner):
    """The lowest present entry of the partner, or None."""
    return lowest(range(LINKS),
                  lambda e: board.links[e].present and board.links[e].partner == partner)


def add_link(board, partner, key):
    """Add link key."""
    refuse_if(nobody(partner), 14)
    entry = entry_of(board, partner)
    if entry is None:
        entry = lowest(range(LINKS), lambda e: not board.links[e].present)
        if entry is None:
            raise Refused(10)
    elif board.links[entry].key == key:
        return
    board.links[entry] = Link(True, partner, key, 0)


def remove_link(board, partner):
    """Remove link key: its entry is zeroed."""
    entry = None if partner == 0 else entry_of(board, partner)
    refuse_if(entry is None, 13)
    board.links[entry] = Link()
