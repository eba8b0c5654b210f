#!/usr/bin/env python3
"""A joiner's TLVs (source document 004, "Joiner TLVs"), written and read by name on three benches.

The joiner's parent, a router, tells the trust centre of it in an Update-Device, with the Joiner
Encapsulation "in its entirety". The centre asks for it by its tag, and for what is inside by name.

    centre  trust centre, 0x0000    router  0x3c08    joiner  end device, 0x0bee

    python3 tests/joiner.py           the repository's crates/bench/out/bench
    python3 tests/joiner.py -v        the same, with every line sent and answered
    python3 tests/joiner.py --bench 'python3 -m independent bench --answer'

The document has names and no octets; `named_tlvs.py` says which tags and values were taken. Then
come lines beyond it (`after`): an extra TLV, cut ones and such as have no value, the same TLVs
inside a Relay, and a TLV of source document 000 whose value is one octet.

The last line is `all TLVs as named`, and the exit code 0; at the first difference it is 1.
"""

import sys
from pathlib import Path

sys.path.insert(0, str(Path(__file__).resolve().parent.parent))

from bench_pipe import in_words
from boards import (JOINING, LINK, LOAD, NO_COMMAND, UNSECURED_JOIN, command, counted, run, same,
                    several, set_up_joining)
from named_tlvs import (ENCAPSULATION, FEATURES, FRAGMENTATION, JOINER, MANUFACTURER, METHODS,
                        RELAY_MESSAGE, TAGS, fields, tlv)

HEADER = 2                               # octets of a TLV before its value
EXTRA = tlv(MANUFACTURER, 0x1234, b"\xcc")
UNIQUE_KEY = bytes.fromhex("7e11c0de00000000000000000000a002")
OWN_OCTETS = {"update": 14, "down": 3}   # of a frame, before its TLVs
UNKNOWN_TAG = 0x7F
CUTS = (                                 # octets that are no TLVs
    ("without its last octet", JOINER[:-1]),
    ("cut to tag and length octet", JOINER[:HEADER]),
    ("cut to its tag", JOINER[:1]),
    ("with one octet behind it", JOINER + b"\x00"),
    ("with a tag and length octet 0 behind it, which is no empty value",
     JOINER + bytes([TAGS[FRAGMENTATION], 0])),
    ("with the value's length for its length octet",
     JOINER[:1] + bytes([len(JOINER) - HEADER]) + JOINER[HEADER:]))


def say(words):
    """A line of the document's own TLVs."""
    print(f"joining  {words}", flush=True)


def after(words):
    """A line on what the document doesn't have."""
    print(f"after    {words}", flush=True)


# ---- by name -----------------------------------------------------------------------------------

def value(board, protection, frame, name):
    """The value of the first TLV of that name in a command."""
    return board.octets("tlv", protection, TAGS[name], frame)


def named(board, protection, frame, name):
    """The same, in words."""
    found = fields(name, value(board, protection, frame, name)).items()
    shown = (f"{field} {of.hex() or '-' if isinstance(of, bytes) else hex(of)}"
             for field, of in found)
    return f"{name}: {', '.join(shown)}"


def update(joiner, tlvs):
    """The words of an Update-Device for the joiner."""
    return "update", joiner.address, joiner.short, UNSECURED_JOIN, tlvs


def opened_up(board, joiner, octets):
    """The TLVs inside of a value, as a command whose TLVs they are: a board doesn't look inside."""
    return board.write("noack", *update(joiner, octets))


# ---- the document's TLVs -----------------------------------------------------------------------

def told_of(centre, router, joiner):
    """The Update-Device with the Joiner Encapsulation, and what the centre finds in it."""
    say("joiner -> router  not played: Network Commissioning Request, which 01 doesn't build; the"
        " script hands its TLVs to the router")
    *_, frame = command([router, centre], LINK, *update(joiner, JOINER))
    whole = value(centre, LINK, frame, ENCAPSULATION)
    same("the encapsulation's value", [whole.hex()], JOINER[HEADER:])
    say(f"router -> centre  Update-Device under 0, with the Joiner Encapsulation,"
        f" {several(len(whole), 'octet')} of value: in its entirety")
    same("the methods asked for beside the encapsulation",
         [value(centre, LINK, frame, METHODS).hex()], "")
    inside = opened_up(centre, joiner, whole)
    for name, asked in ((MANUFACTURER, "manufacturer 0x1234, extra aabb"),
                        (FRAGMENTATION, "node 0x1, options 0x2, longest 0xa"),
                        (METHODS, "methods 0x3, secrets 0x5")):
        same("a TLV inside", [named(centre, LINK, inside, name)], f"{name}: {asked}")
        say(f"inside            {name}: {asked}")


# ---- after the document ------------------------------------------------------------------------

def extra(centre, router, joiner):
    """A TLV more: before the encapsulation, behind it, and inside."""
    for where, tlvs in (("before", EXTRA + JOINER), ("behind", JOINER + EXTRA)):
        *_, frame = command([router, centre], LINK, *update(joiner, tlvs))
        same(f"the encapsulation with an extra TLV {where} it",
             [value(centre, LINK, frame, ENCAPSULATION).hex()], JOINER[HEADER:])
        same(f"the extra TLV {where} it", [named(centre, LINK, frame, MANUFACTURER)],
             f"{MANUFACTURER}: manufacturer 0x1234, extra cc")
        after(f"an extra TLV {where} the encapsulation: each is found by its name")
    longer = tlv(ENCAPSULATION, JOINER[HEADER:] + EXTRA)
    *_, frame = command([router, centre], LINK, *update(joiner, longer))
    inside = opened_up(centre, joiner, value(centre, LINK, frame, ENCAPSULATION))
    same("the first of two with one tag", [named(centre, LINK, inside, MANUFACTURER)],
         f"{MANUFACTURER}: manufacturer 0x1234, extra aabb")
    after(f"an extra one inside: of two that are {MANUFACTURER} the first is found")


def refused(board, what, identifier, written, tlvs, frame):
    """Octets that are no TLVs: the writer and the reader refuse them, and no tag has a value."""
    same(f"{what}, written", board.ask("write", "ack", *written), *NO_COMMAND)
    wrong = frame[:OWN_OCTETS[written[0]]] + tlvs
    same(f"{what}, read", board.ask("read", identifier, wrong), *NO_COMMAND)
    for tag in sorted({*TAGS.values()}):
        same(f"{what}, a value of tag {tag}", board.ok("tlv", identifier, tag, wrong), "")
    after(f"{what}: 11 command, when it is written and when it is read; no value")


def cut(centre, router, joiner):
    """The encapsulation cut, and TLVs without a value."""
    frame = centre.write("ack", *update(joiner, JOINER))
    for what, octets in CUTS:
        refused(centre, f"the encapsulation {what}", LINK, update(joiner, octets), octets, frame)
    *_, frame = command([router, centre], LINK,
                        *update(joiner, tlv(ENCAPSULATION, JOINER[HEADER:-1])))
    inside = value(centre, LINK, frame, ENCAPSULATION)
    same("a cut TLV inside, opened up", centre.ask("write", "ack", *update(joiner, inside)),
         *NO_COMMAND)
    after("a cut TLV inside of the encapsulation: handed on as it is, and 11 command once it is"
          " opened up")


def missing(centre, router, joiner):
    """A tag that isn't there, and no TLVs at all, which may be."""
    *_, frame = command([router, centre], LINK, *update(joiner, JOINER))
    same("an unknown tag", centre.ok("tlv", LINK, UNKNOWN_TAG, frame), "")
    same("under another protection", centre.ok("tlv", LOAD, TAGS[ENCAPSULATION], frame), "")
    *_, frame = command([router, centre], LINK, *update(joiner, ""))
    same("of no TLVs", centre.ok("tlv", LINK, TAGS[ENCAPSULATION], frame), "")
    after("a tag that isn't there, a frame that is refused, no TLVs at all: no value each time")


def relay(path, word, identifier, message, frame):
    """The joiner's TLVs beside a Relay Message TLV."""
    receiver = path[-1]
    for tlvs in (message + JOINER, JOINER + message):
        *_, plain = command(path, identifier, word, tlvs)
        told = fields(RELAY_MESSAGE, value(receiver, identifier, plain, RELAY_MESSAGE))
        same("the message relayed", [f"{told['joiner']:016x}", told["message"].hex()],
             *frame)
        same("the encapsulation in a Relay",
             [value(receiver, identifier, plain, ENCAPSULATION).hex()], JOINER[HEADER:])


def relays(centre, router, joiner):
    """The same TLVs inside a Relay, down and up, which is ours and not the document's."""
    address = int(joiner.address, 16)
    request = joiner.write("ack", "request4")
    for message, what in ((request, f"a message of {several(len(request), 'octet')}"),
                          (b"", "none, only the joiner's address")):
        tell = tlv(RELAY_MESSAGE, address, message)
        for path, word in (([centre, router], "down"), ([router, centre], "up")):
            for identifier in (LINK, "none"):
                relay(path, word, identifier, tell, (joiner.address, message))
            after(f"Relay {word} with the encapsulation and a Relay Message ({what}): each found by"
                  " its name, under 0 and under none")
    short = bytes([TAGS[RELAY_MESSAGE], 6]) + bytes.fromhex(joiner.address)[:7]
    frame = centre.write("ack", "down", tell)
    refused(centre, "a Relay Message of seven octets beside it", LINK, ("down", short + JOINER),
            short + JOINER, frame)
    refused(centre, "a Relay with the encapsulation alone", LINK, ("down", JOINER), JOINER, frame)


def one_octet(centre, router):
    """The least TLV, which source document 000 has in a Transport-Key (4.4.11.1.4.1)."""
    least = tlv(FEATURES, 0x01)
    same("the least TLV", [least.hex()], "000001")
    *_, frame = command([centre, router], LOAD, "transport4", UNIQUE_KEY, router.address,
                        centre.address, least)
    same("a value of one octet", [named(router, LOAD, frame, FEATURES)],
         f"{FEATURES}: features 0x1")
    after(f"Transport-Key, type 4, with {FEATURES}, whose value is one octet (00 00 01): as named")


# ---- the whole ---------------------------------------------------------------------------------

def play(centre, router, joiner):
    """The document's TLVs, and what follows them here."""
    set_up_joining(centre, router, joiner)
    told_of(centre, router, joiner)
    extra(centre, router, joiner)
    cut(centre, router, joiner)
    missing(centre, router, joiner)
    relays(centre, router, joiner)
    one_octet(centre, router)
    for board in (centre, router):
        after(counted(board))


if __name__ == "__main__":
    sys.exit(in_words(lambda: run(__doc__, JOINING, play, "all TLVs as named")))
