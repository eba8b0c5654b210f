#!/usr/bin/env python3
"""Tunnelling in a secure network (source document 003, 5.8), played by three bench processes.

An end device joins through a router and has no network key. The trust centre seals a Transport-Key
for it, wraps it in a Tunnel for the router, and the router sends the inner frame on unchanged.

    centre  trust centre, 0x0000    router  0x3c08    joiner  end device, 0x0bee

    python3 tests/tunnel.py           the repository's crates/bench/out/bench
    python3 tests/tunnel.py -v        the same, with every line sent and answered
    python3 tests/tunnel.py --bench 'python3 -m independent bench --answer'

One line is printed for each packet, under its number; the document has no octets of them, so that
keys and long addresses are those of source document 001. "not played" is what document 01 doesn't
build, or what the document's text doesn't name. Then come lines beyond its packets (`after`): the
counters that the seal and the Tunnel spend, insides that the writer and the router refuse, altered
and repeated inner frames, the statuses of its Table 5-1, and the key of zeros that it speaks of.

The last line is `all packets as told`, and the exit code 0; at the first difference it is 1.
"""

import sys
from pathlib import Path

sys.path.insert(0, str(Path(__file__).resolve().parent.parent))

from bench_pipe import flipped, in_words, least
from boards import (FORGED, JOINING, LINK, NETWORK_KEY, NO_COMMAND, STALE_ALTERED, STALE_GENUINE,
                    TRANSPORT, UNSECURED_JOIN, announce, carry, carry_to_joiner, command, counted,
                    open_aps, run, same, sent_on, set_up_joining, take_network_key)

NO_KEY = bytes(16)
INSIDE = 11                  # where the inner frame starts in a Tunnel without security
SECURITY = INSIDE + 2        # its security control
STATUSES = range(8)          # Table 5-1
CAUSES = (                   # an octet of a Tunnel around a frame under identifier 2, and its bits
    ("an acknowledgement asked for inside", INSIDE, 0x40),
    ("no security inside", INSIDE, 0x20),
    ("data inside", INSIDE, 0x01),
    ("identifier 1 inside", SECURITY, 0x18),
    ("no extended nonce inside", SECURITY, 0x20))


def say(packet, words):
    """The line of one packet."""
    print(f"packet {packet}  {words}", flush=True)


def after(words):
    """A line on what the document doesn't have."""
    print(f"after      {words}", flush=True)


# ---- the packets -------------------------------------------------------------------------------

def spent(board, before, outgoing, aps, what):
    """The state now, the counters raised by so much since before."""
    now = board.ok("state")
    same(f"the counters after {what}", now, int(before[0]) + outgoing, int(before[1]) + aps, 0,
         board.mark)
    return now


def wrapped(centre, joiner, key):
    """A Transport-Key for the joiner, plain and sealed, and the Tunnel around it; each spends the
    counters that it should."""
    before = centre.ok("state")
    plain = centre.write("noack", "transport1", key, 0, joiner.address, centre.address)
    before = spent(centre, before, 0, 1, "the Transport-Key")
    inner = centre.seal_aps(joiner, TRANSPORT, plain)
    before = spent(centre, before, 1, 0, "the inner seal")
    tunnel = centre.write("noack", "tunnel", joiner.address, inner)
    spent(centre, before, 0, 1, "the Tunnel")
    return plain, inner, tunnel


def through(centre, router, tunnel, joiner, inner):
    """A Tunnel from the centre to the router, which reads it; the inner frame that is sent on."""
    plain = open_aps(centre, router, "none", carry([centre, router], tunnel), tunnel)
    same("the Tunnel read", router.ok("read", "none", plain), "tunnel", joiner.address, inner)
    return sent_on(router, plain, joiner, inner)


def not_named(packet):
    """A packet of which the text says nothing."""
    say(packet, "not played: the text doesn't name it")


def join(centre, router, joiner):
    """Packets 89 to 98; the Tunnel, and the inner frame as it was sealed."""
    say(89, "not played: association is a MAC sequence, which 01 doesn't build")
    command([router, centre], LINK, "update", joiner.address, joiner.short, UNSECURED_JOIN, "")
    say(91, "router -> centre  Update-Device, status 1, under 0 of the router's own link key:"
        " as told")
    not_named(92)
    plain, inner, tunnel = wrapped(centre, joiner, NETWORK_KEY)
    handed_on = through(centre, router, tunnel, joiner, inner)
    say(93, "centre -> router  Tunnel, not APS secured, around a Transport-Key under 2: as told")
    not_named(94)
    take_network_key(joiner, centre, carry_to_joiner(router, joiner, handed_on), plain)
    say(95, "router -> joiner  the inner frame as the centre sealed it, a Transport-Key with"
        " sequence number 0 and the network key: as told")
    not_named(96)
    announce([joiner, router, centre])
    say(97, "joiner -> 0xfffd  device announcement, sealed under the key that came: as told")
    say(98, "router -> 0xfffd  the same, opened and sealed anew for the centre: as told")
    return tunnel, inner


# ---- after the document ------------------------------------------------------------------------

def causes(centre, router, joiner, tunnel):
    """Insides that may not stand there, which the router and the writer refuse."""
    for what, place, bits in CAUSES:
        wrong = flipped(tunnel, place, bits)
        same(f"{what}, routed", router.ask("route", "none", wrong), *NO_COMMAND)
        same(f"{what}, written", centre.ask("write", "noack", "tunnel", joiner.address,
                                            wrong[INSIDE:]), *NO_COMMAND)
        after(f"{what}: 11 command, when it is routed and when it is written")
    plain = centre.write("ack", "transport1", NETWORK_KEY, 0, joiner.address, centre.address)
    inner = centre.seal_aps(joiner, TRANSPORT, plain)
    same("a sealed command that asks for an acknowledgement, written",
         centre.ask("write", "noack", "tunnel", joiner.address, inner), *NO_COMMAND)
    after("a genuine Transport-Key that asks for an acknowledgement: 11 command, no Tunnel is"
          " written around it")
    same("Update-Device routed", router.ask("route", "0", update_of(joiner)), *NO_COMMAND)
    after("another command handed to the router: 11 command")


def update_of(joiner):
    """An Update-Device, as octets."""
    return (b"\x41\x00\x06" + least(int(joiner.address, 16), 8) + least(joiner.short, 2)
            + bytes([UNSECURED_JOIN]))


def heard(what, joiner, centre, frame, asked):
    """The inner frame at the joiner."""
    same(what, joiner.ask("openaps", centre.address, frame)[:len(asked)], *asked)
    after(f"{what}: {' '.join(map(str, asked[1:])) or 'opened'}")


def altered(centre, router, joiner, old):
    """Inner frames repeated and altered: the router has no key, and the joiner can tell."""
    heard("the joiner hears the inner frame again", joiner, centre, old, STALE_GENUINE)
    heard("the joiner hears it altered", joiner, centre, flipped(old, len(old) - 1), STALE_ALTERED)
    _, inner, tunnel = wrapped(centre, joiner, NETWORK_KEY)
    heard("the router tries to open a new inner frame", router, centre, inner, FORGED)
    forged = flipped(inner, len(inner) - 5)
    sent_on(router, flipped(tunnel, len(tunnel) - 5), joiner, forged)
    after("a new inner frame, altered, in its Tunnel: the router hands it on, since it has no key")
    heard("the joiner hears that", joiner, centre, forged, FORGED)
    through(centre, router, tunnel, joiner, inner)
    sent_on(router, tunnel, joiner, inner)
    after("the new inner frame as it was sealed, routed twice: the same octets both times")
    heard("the joiner hears it", joiner, centre, inner, ("ok",))
    heard("and once more", joiner, centre, inner, STALE_GENUINE)


def other_joinings(centre, router, joiner):
    """The statuses of Table 5-1, and a joiner that has the network key already."""
    for status in STATUSES:
        command([router, centre], LINK, "update", joiner.address, joiner.short, status, "")
    after("Update-Device with each status of Table 5-1, 0 to 7: handed on as it is")
    plain, inner, tunnel = wrapped(centre, joiner, NO_KEY)
    frame = carry([router, joiner], through(centre, router, tunnel, joiner, inner))
    read = joiner.ok("read", TRANSPORT, open_aps(centre, joiner, TRANSPORT, frame, plain))
    same("the command read", read, "transport1", NO_KEY, 0, joiner.address, centre.address)
    after("a Transport-Key with a key of zeros, for a joiner that has the network key: through the"
          " Tunnel likewise")


def play(centre, router, joiner):
    """The packets of the document, and what follows them here."""
    set_up_joining(centre, router, joiner)
    tunnel, inner = join(centre, router, joiner)
    after("the inner seal spent one outgoing counter, the Tunnel none and one APS counter")
    causes(centre, router, joiner, tunnel)
    altered(centre, router, joiner, inner)
    other_joinings(centre, router, joiner)
    for board in (centre, router, joiner):
        after(counted(board))


if __name__ == "__main__":
    sys.exit(in_words(lambda: run(__doc__, JOINING, play, "all packets as told")))
