"""The script of `margins`: frames of both layers, opened.

Document 01, "Opening and sealing", "Bench cases" and "Slips we have seen on benches".
"""

from ..bench.aps import HEADERS
from ..bench.network import ODD_HEADERS, header_of
from ..bench.tools import (ALL_ONES, COMMAND_HEADER, DATA_HEADER, NETWORK_HEADER, TOP, aps_frame,
                           hashed, network_frame, put)
from ..lines import address, flip, run_of, sure
from .tools import A1, A2, A3, B1, KEYS, LINKS, OWN, STRANGER, Done


# ---- opening network frames --------------------------------------------------------------------

def network(sender, counter, payload=b"", number=5, **odd):
    """A frame under the key of a sequence number of the board."""
    return network_frame(KEYS[number], number, sender, counter, payload, **odd)


def copied(frame):
    """An unsecured frame: copied, and nothing changes."""
    return Done(frame, (address(0), "none"))


def heard(plain, sender, counter, row):
    """An opened network frame: the sender's row and floor."""
    return Done(plain, (address(sender), 1), (row, address(sender), counter + 1))


def add_open(script):
    """Frames that open."""
    script.group("open: unsecured frames are copied, what stands behind them and the lists stay")
    script.mostly("open", NETWORK_HEADER, gives=copied(NETWORK_HEADER))
    for frame in (NETWORK_HEADER + run_of(107), ODD_HEADERS[8], NETWORK_HEADER + b"\xee" * 20):
        script.once("open", frame, gives=copied(frame))
    for room in (116, 256):
        script.ask(room, "open", NETWORK_HEADER + run_of(108),
                   gives=copied(NETWORK_HEADER + run_of(108)))
    script.group("open: the sender of row 0, at its floor (M9): the floor is the counter plus 1; "
                 "payloads of 0 (M12: 26 octets), 16, 17 and 90 octets")
    plain = NETWORK_HEADER + run_of(20)
    script.everywhere("open", network(B1, 100, run_of(20)), gives=heard(plain, B1, 100, 0))
    for counter in (101, TOP - 1):
        script.once("open", network(B1, counter, run_of(20)), gives=heard(plain, B1, counter, 0))
    for length in (0, 16, 17, 90):
        script.once("open", network(B1, 200, run_of(length)),
                    gives=heard(NETWORK_HEADER + run_of(length), B1, 200, 0))
    add_open_rows(script)


def add_open_rows(script):
    """Senders with and without rows, headers and security controls."""
    plain = NETWORK_HEADER + run_of(20)
    script.group("open: a sender without a row takes the lowest free one of its slot; also where "
                 "slot 1 has it; a link partner; the board itself "
                 "(DECISIONS, own-address)")
    script.mostly("open", network(STRANGER, 0, run_of(20)), gives=heard(plain, STRANGER, 0, 1))
    for sender, counter in ((0xC20, 0), (A1, 99), (OWN, 7), (ALL_ONES - 1, 5), (STRANGER, TOP - 1)):
        script.once("open", network(sender, counter, run_of(20)),
                    gives=heard(plain, sender, counter, 1))
    script.group("open: slot 1 is full, but its senders are heard, each in its row")
    for row, counter in ((32, 1), (47, 100), (62, TOP - 1), (63, 1)):
        script.once("open", network(0xC00 + row, counter, run_of(20), number=6),
                    gives=heard(plain, 0xC00 + row, counter, row))
    script.group("open: long addresses, source routes, end device; the wire's level is read as "
                 "anything, bits 6 and 7 as received (DECISIONS, bits-6-and-7)")
    for header in ODD_HEADERS[2::3]:
        script.once("open", network(B1, 300, b"\x31\x32", header=header),
                    gives=heard(header + b"\x31\x32", B1, 300, 0))
    for control in (0x2F, 0xEA):
        script.once("open", network(B1, 300, b"\x33", control=control),
                    gives=heard(NETWORK_HEADER + b"\x33", B1, 300, 0))
    script.group("the board is made anew for every line: nothing is stale, no row is taken")
    for _ in range(2):
        script.once("open", network(STRANGER, 5), gives=heard(NETWORK_HEADER, STRANGER, 5, 1))


def network_refusals():
    """Each refusal of network opening: its number, what is shown, a first frame and others."""
    good = network(B1, 150, run_of(30))
    return (
        (2, "over 116 octets, genuine or not", network(B1, 150, run_of(91)),
         (NETWORK_HEADER + run_of(109), run_of(512))),
        (3, "M12: 25 octets; and other cuts (DECISIONS, unsecured-header)",
         network(B1, 150)[:25],
         (b"", good[:8], NETWORK_HEADER[:7], header_of(0x0408, 4)[:-1])),
        (4, "type, discovery, multicast, bit 14", put(good, 0, 0x0A),
         (put(good, 0, 0x88), put(good, 1, 0x03), put(good, 1, 0x42))),
        (5, "identifier, nonce bit, sender zero or all ones",
         network(B1, 150, run_of(30), control=0x20),
         (network(B1, 150, control=0x08), network(0, 150), network(ALL_ONES, 150))),
        (6, "no such sequence number", network_frame(KEYS[5], 4, B1, 150, run_of(30)),
         (network_frame(KEYS[6], 7, 0xC20, 150), network_frame(KEYS[5], 255, STRANGER, TOP))),
        (7, "the top counter (M11), also without a row, forged or in a full slot (DECISIONS, "
         "heard-top)",
         network(B1, TOP, run_of(30)),
         (network(STRANGER, TOP), network(STRANGER, TOP, number=6), flip(network(B1, TOP), 205))),
        (8, "replays below the floor, genuine or forged", network(B1, 99, run_of(30)),
         (network(B1, 0, run_of(90)), network(0xC3F, 0, number=6), flip(network(B1, 99), 205))),
        (9, "slip: half-deciphered octets: the longest frame with its last octet changed",
         flip(network(B1, 150, run_of(90)), 8 * 116 - 1), ()),
        (10, "slot 1 is full, a genuine stranger", network(STRANGER, 150, run_of(30), number=6),
         (network(STRANGER, 0, number=6), network(B1, 100, run_of(90), number=6))),
    )


def add_open_refusals(script):
    """Each refusal of network opening: a first frame with many outputs, then others."""
    for number, title, first, others in network_refusals():
        script.group(f"open, {number}: {title}")
        script.mostly("open", first, gives=number)
        for frame in others:
            script.once("open", frame, gives=number)


def add_open_forged(script):
    """One bit of a genuine frame changed, in each of its parts; and other forgeries."""
    good = network(B1, 150, run_of(10))
    sure(len(good) == 36, "octets of the network frame to alter", len(good))
    script.group("open, 9: each of the last 4 octets; header, auxiliary header, payload")
    for place in (*range(32, 36), 2, 4, 7, 9, 13, 22, 27, 31):
        script.once("open", flip(good, 8 * place), gives=9)
    for octets in (put(good, 0, 0x48), put(good, 8, 0x68), good[:-1], good + b"\xee"):
        script.once("open", octets, gives=9)
    script.group("a forged stranger takes no row; in a full slot 9 stands before 10; "
                 "the other slot's key; another sequence number; worked with the wire's level 0")
    for place in range(26, 30):
        script.once("open", flip(network(STRANGER, 150, b"\x01\x02\x03\x04"), 8 * place), gives=9)
    for octets in (flip(network(STRANGER, 150, number=6), 207), network_frame(KEYS[6], 5, B1, 150),
                   put(good, 21, 6), network(B1, 150, worked=0x28)):
        script.once("open", octets, gives=9)


# ---- opening APS frames ------------------------------------------------------------------------

def aps(sender, counter, payload=b"", identifier=0, key_of=None, **odd):
    """A frame under the link key of a partner, the sender's if not told otherwise."""
    return aps_frame(LINKS[key_of or sender], identifier, sender, counter, payload, **odd)


def heard_aps(plain, sender, counter, identifier=0):
    """An opened APS frame: the floors of both entries."""
    floors = {A1: (counter + 1, 0), A2: (100, counter + 1)}[sender]
    return Done(plain, (address(sender), identifier), floors)


def add_open_aps(script):
    """Frames that open."""
    script.group("openaps: unsecured frames are copied and no floor moves; DECISIONS, "
                 "room-for-aps: 116 octets of output; callers-sender: the caller's address has no "
                 "effect")
    script.mostly("openaps", address(A1), COMMAND_HEADER, gives=copied(COMMAND_HEADER))
    for caller, frame in ((0, DATA_HEADER + run_of(100)), (ALL_ONES, HEADERS[5]),
                          (A3, HEADERS[6] + b"\xee" * 20)):
        script.once("openaps", address(caller), frame, gives=copied(frame))
    script.group("openaps: partner a1 at its floor, 13 octets; partner a2 at 0, 5 octets")
    plain = COMMAND_HEADER + run_of(20)
    script.everywhere("openaps", address(0), aps(A1, 100, run_of(20)),
                      gives=heard_aps(plain, A1, 100))
    script.mostly("openaps", address(A2), aps(A2, 0, run_of(20), 2, carried=False),
                  gives=heard_aps(plain, A2, 0, 2))
    script.group("openaps: identifiers 0, 2 and 3, 13 and 5 octets; one floor for the three keys")
    for identifier in (0, 2, 3):
        for carried in (True, False):
            for sender, counter in ((A1, 101), (A2, TOP - 1)):
                frame = aps(sender, counter, run_of(20), identifier, carried=carried)
                script.once("openaps", address(sender), frame,
                            gives=heard_aps(plain, sender, counter, identifier))
    add_open_aps_forms(script)


def add_open_aps_forms(script):
    """Headers, lengths and callers."""
    script.group("openaps: each form of header; the longest frames of both auxiliary headers")
    for header in HEADERS:
        script.once("openaps", address(0), aps(A2, 40, b"\x41\x42", 3, header=header),
                    gives=heard_aps(header + b"\x41\x42", A2, 40, 3))
    for carried, length in ((True, 83), (False, 91)):
        frame = aps(A1, 100, run_of(length), header=DATA_HEADER, carried=carried)
        sure(len(frame) == 108, "octets of a frame that is to have 108", len(frame))
        script.ask(116, "openaps", address(A1), frame,
                   gives=heard_aps(DATA_HEADER + run_of(length), A1, 100))
    script.group("openaps: payloads of 0 and 17 octets; level, bits 6 and 7; DECISIONS, "
                 "callers-sender: a carried sender counts, not the caller's")
    for length in (0, 17):
        script.once("openaps", address(A1), aps(A1, 150, run_of(length), carried=False),
                    gives=heard_aps(COMMAND_HEADER + run_of(length), A1, 150))
    script.once("openaps", address(0), aps(A1, 150, b"\x43", bits=0xC7),
                gives=heard_aps(COMMAND_HEADER + b"\x43", A1, 150))
    for caller in (ALL_ONES, A2):
        script.once("openaps", address(caller), aps(A1, 150),
                    gives=heard_aps(COMMAND_HEADER, A1, 150))


def add_open_aps_refusals(script):
    """Each refusal of APS opening: a first caller and frame with many outputs, then others."""
    good = aps(A1, 150, run_of(30))
    short = aps(A1, 150, carried=False)
    cases = (
        (2, "over 108 octets, genuine or not", (A1, aps(A1, 150, run_of(84), header=DATA_HEADER)),
         ((A1, DATA_HEADER + run_of(101)), (0, run_of(512)))),
        (3, "cut short; the tag before the caller's address (DECISIONS, callers-sender)",
         (A1, aps(A1, 150)[:18]),
         ((A1, b""), (A1, good[:2]), (0, short[:-1]))),
        (4, "ack format, bit 7, type 3", (A1, put(good, 0, 0x71)),
         ((A1, put(good, 0, 0xE1)), (A1, put(good, 0, 0x63)))),
        (5, "identifier 1; sender or caller zero or all ones",
         (A1, aps(A1, 150, run_of(30), 1)),
         ((A1, aps(A1, 150, run_of(30), 1, carried=False)), (A1, aps(0, 150, key_of=A1)),
          (A1, aps(ALL_ONES, 150, key_of=A1)), (0, short))),
        (6, "no link entry", (A1, aps(A3, 150, run_of(30), key_of=A1)),
         ((A3, short), (A1, aps(OWN, TOP, key_of=A1)))),
        (7, "the top counter (M11), forged too", (A2, aps(A1, TOP, run_of(30))),
         ((A2, aps(A2, TOP, b"", 2, carried=False)), (A2, flip(aps(A2, TOP, b"", 3), 150)))),
        (8, "replays below the one floor", (A1, aps(A1, 99, run_of(30))),
         ((A1, aps(A1, 99, b"\x01", 2)), (A1, aps(A1, 99, b"\x01", 3)),
          (A1, aps(A1, 0, b"\x01", carried=False)), (A1, flip(aps(A1, 99), 150)))),
        (9, "slip: half-deciphered octets: the longest frame with its last octet changed",
         (A1, flip(aps(A1, 150, run_of(91), header=DATA_HEADER, carried=False), 8 * 108 - 1)), ()),
    )
    for number, title, (caller, first), others in cases:
        script.group(f"openaps, {number}: {title}")
        script.mostly("openaps", address(caller), first, gives=number)
        for caller, frame in others:
            script.once("openaps", address(caller), frame, gives=number)


def add_open_aps_forged(script):
    """One bit of genuine frames changed, in each of their parts; and other forgeries."""
    good = aps(A1, 150, run_of(10))
    sure(len(good) == 29, "octets of the APS frame to alter", len(good))
    script.group("openaps, 9: each of the last 4 octets; header, auxiliary header, payload; "
                 "the last 4 again under identifiers 2 and 3, 5 octets")
    for place in (*range(25, 29), 1, 6, 15, 20, 24):
        script.once("openaps", address(A1), flip(good, 8 * place), gives=9)
    for identifier in (2, 3):
        frame = aps(A2, 5, b"\x01\x02\x03\x04", identifier, carried=False)
        for place in range(11, 15):
            script.once("openaps", address(A2), flip(frame, 8 * place + 7), gives=9)
    script.group("other controls, identifiers and senders; DECISIONS, five-octet-form: the "
                 "caller's address is in the nonce only")
    for octets in (put(good, 0, 0x21), put(good, 2, 0x30), put(good, 2, 0x00), put(good, 7, A2),
                   good[:-1], good + b"\xee", aps_frame(hashed(LINKS[A1], 3), 0, A1, 150)):
        script.once("openaps", address(A1), octets, gives=9)
    script.once("openaps", address(A2), aps(A1, 150, carried=False), gives=9)
