"""The script of `margins`: frames sealed with counter and mark as a line tells them.

Document 02 (vi): refusal 17, judged after 7; it leaves output and counter as they were.
"""

from ..bench.tools import COMMAND_HEADER, DATA_HEADER, NETWORK_HEADER, TOP, put
from ..lines import Chance, address, run_of
from .opening import aps, network
from .tools import A1, A2, A3, OWN, Done

BELOW = (  # counter and mark: sealed
    (0, 1), (0, TOP), (6, 8), (1023, 1024), (1024, 2048), (255, 256), (65535, 65536),
    (2**31 - 1, 2**31), (TOP - 1025, TOP - 1024), (TOP - 2, TOP - 1), (TOP - 2, TOP),
    (TOP - 1, TOP))
NOT_BELOW = (  # 17
    (0, 0), (1, 0), (1, 1), (7, 7), (8, 7), (1024, 1024), (1025, 1024), (2048, 1024), (256, 255),
    (65536, 1), (2**31, 2**31), (2**31, 2**31 - 1), (TOP - 1, 0), (TOP - 1, TOP - 2),
    (TOP - 1, TOP - 1))
AT_TOP = ((TOP, 0), (TOP, 1), (TOP, TOP - 1), (TOP, TOP))  # 7
UNMOVED = ((5, 5), (9, 8), (TOP, 0), (TOP, TOP))           # for what is judged before both


def sealed(counter, payload=b"", header=NETWORK_HEADER):
    """A network frame with that counter, which is then raised by 1."""
    return Done(network(OWN, counter, payload, header=header), (), (counter + 1,))


def sealed_aps(counter, partner, identifier, payload=b"", header=COMMAND_HEADER):
    """An APS frame with that counter, which is then raised by 1."""
    frame = aps(OWN, counter, payload, identifier, key_of=partner, header=header)
    return Done(frame, (), (counter + 1,))


def add_verdicts(script, word, fields, done):
    """Counters below, at and above the mark, and at the top; done gives what a counter seals."""
    script.group(f"{word}: the counter just below the mark; other counters below their marks")
    script.everywhere(word, 7, 8, *fields, gives=done(7))
    for counter, mark in BELOW:
        script.once(word, counter, mark, *fields, gives=done(counter))
    script.group(f"{word}, 17: the counter at the mark, above it; nothing is spent or written")
    script.everywhere(word, 8, 8, *fields, gives=17)
    for counter, mark in NOT_BELOW:
        script.once(word, counter, mark, *fields, gives=17)
    script.group(f"{word}, 7: the counter at the top, whatever the mark: before 17")
    script.mostly(word, TOP, 0, *fields, gives=7)
    script.mostly(word, TOP, TOP, *fields, gives=7)
    for counter, mark in AT_TOP:
        script.once(word, counter, mark, *fields, gives=7)


def add_earlier(script, word, cases):
    """Causes that are judged before 7 and 17, each with several counters and marks."""
    for number, title, *lines in cases:
        script.group(f"{word}, {number}: {title}, with the counter not below the mark")
        script.mostly(word, *UNMOVED[0], *lines[0], gives=number)
        for fields in lines:
            for counter, mark in UNMOVED[1:]:
                script.once(word, counter, mark, *fields, gives=number)


def add_seal_at(script):
    """Network frames."""
    payload = run_of(20)
    add_verdicts(script, "sealat", (NETWORK_HEADER + payload,),
                 lambda counter: sealed(counter, payload))
    script.group("sealat: frames of other lengths, sealed and 17")
    for length in (0, 16, 17, 90):
        script.once("sealat", 1023, 1024, NETWORK_HEADER + run_of(length),
                    gives=sealed(1023, run_of(length)))
        script.once("sealat", 1024, 1024, NETWORK_HEADER + run_of(length), gives=17)
    add_earlier(script, "sealat", (
        (2, "99 octets", (NETWORK_HEADER + run_of(91),)),
        (3, "cut in the control or the header", (NETWORK_HEADER[:7],), (b"\x08",), (b"",)),
        (4, "the security bit set, or no form", (put(NETWORK_HEADER, 1, 2) + payload,),
         (b"\x08\x02",), (b"\x0a\x00",))))


def add_seal_aps_at(script):
    """APS frames."""
    payload = run_of(20)
    add_verdicts(script, "sealapsat", (address(A1), 0, COMMAND_HEADER + payload),
                 lambda counter: sealed_aps(counter, A1, 0, payload))
    script.group("sealapsat: other partners, identifiers and lengths, sealed and 17")
    for partner, identifier, length in ((A1, 2, 0), (A1, 3, 16), (A2, 0, 17), (A2, 3, 83)):
        plain = DATA_HEADER + run_of(length)
        script.once("sealapsat", 1023, 1024, address(partner), identifier, plain,
                    gives=sealed_aps(1023, partner, identifier, run_of(length), DATA_HEADER))
        script.once("sealapsat", 1024, 1024, address(partner), identifier, plain, gives=17)
    known, unknown = address(A1), address(A3)
    add_earlier(script, "sealapsat", (
        (2, "92 octets", (known, 0, DATA_HEADER + run_of(84))),
        (3, "cut in the control or the header", (known, 2, DATA_HEADER[:7]), (unknown, 1, b"")),
        (4, "the security bit set, or no form", (known, 3, b"\x61\x07" + payload),
         (unknown, 1, b"\x03")),
        (14, "identifiers 1 and 4", (known, 1, COMMAND_HEADER), (unknown, 4, COMMAND_HEADER)),
        (6, "no link entry", (unknown, 0, COMMAND_HEADER), (address(0), 3, COMMAND_HEADER))))


def add_at_chance(script):
    """Counters and marks by chance, mostly near each other."""
    script.group("by chance: counters and marks, mostly near each other")
    chance = Chance(6005)
    for _ in range(24):
        counter = chance.pick((0, 1020, 2**31 - 4, TOP - 8)) + chance.below(9)
        mark = min(max(counter + chance.below(7) - 3, 0), TOP)
        mark = chance.below(TOP + 1) if chance.below(4) == 0 else mark
        payload = run_of(chance.below(60), chance.below(256))
        verdict = 7 if counter == TOP else 17 if counter >= mark else None
        if chance.below(2):
            script.once("sealat", counter, mark, NETWORK_HEADER + payload,
                        gives=verdict or sealed(counter, payload))
        else:
            script.once("sealapsat", counter, mark, address(A2), 2, COMMAND_HEADER + payload,
                        gives=verdict or sealed_aps(counter, A2, 2, payload))


def add_marks(script):
    """All of this file."""
    for add in (add_seal_at, add_seal_aps_at, add_at_chance):
        add(script)
