#!/usr/bin/env python3
"""The test case TP/R21/BV-08 (source document 001, 12.8), played by three bench processes.

"Trust Center Link-Key Update": a router joins the trust centre, an end device joins the router, and
each gets a network key, asks for a link key of its own, proves it and uses it.

    dutZC  coordinator and trust centre    gZR  router    gZED  end device, a child of gZR

    python3 tests/bv08.py           the repository's crates/bench/out/bench
    python3 tests/bv08.py -v        the same, with every line sent and answered
    python3 tests/bv08.py --bench 'python3 -m independent bench --answer'

Every command is written on one board, sealed there, handed over as octets, and opened and read on
the other, which learns keys and addresses from what it read and from nowhere else. Frames between
dutZC and gZED are opened and sealed anew by gZR. One line is printed for each verdict of the paper,
under its number. "not played" is what document 01 doesn't build; "waits for request" is what
document 02 asks for and the board doesn't have yet, so that the script stands in for it. Data
frames of the device and test profiles are put together here: cluster data has no meaning to the
board.

The last line is `all steps as asked`, and the exit code 0; at the first difference it is 1.
"""

import sys
from pathlib import Path

sys.path.insert(0, str(Path(__file__).resolve().parent.parent))

from bench_pipe import Differs, flipped, in_words, least
from boards import (DEVICE_PROFILE, FORGED, LINK, LOAD, NETWORK_KEY, SHARED_KEY, STALE_ALTERED,
                    STALE_GENUINE, TEST_PROFILE, TRANSPORT, UNSECURED_JOIN, announce,
                    carry_to_joiner, command, counted, data, network_frame, run, same, sent_on,
                    take_network_key)

UNIQUE_KEYS = {"gZR": bytes.fromhex("7e11c0de00000000000000000000a001"),
               "gZED": bytes.fromhex("7e11c0de00000000000000000000a002")}
TRUST_CENTRE_LINK_KEY = 4              # a key type
DEVICES = (("dutZC", "aaaaaaaaaaaaaaaa", 0x0000), ("gZR", "0000000100000000", 0x3C08),
           ("gZED", "0000000000000001", 0x0BEE))


# ---- what is said ------------------------------------------------------------------------------

def say(step, words):
    """The line of one verdict."""
    print(f"step {step:>2}  {words}", flush=True)


def waits(request, words):
    """A line on what a request of document 02 will do."""
    print(f"         waits for request ({request}): {words}")


# ---- the steps ---------------------------------------------------------------------------------

def join_centre(centre, router):
    """Steps 1 to 3: gZR joins dutZC."""
    say(1, "not played: beacons are MAC frames, which 01 doesn't build")
    say(2, "not played: association is a MAC sequence, which 01 doesn't build")
    plain = centre.write("ack", "transport1", NETWORK_KEY, 0, router.address, centre.address)
    frame = carry_to_joiner(centre, router, centre.seal_aps(router, TRANSPORT, plain))
    take_network_key(router, centre, frame, plain)
    say(3, "dutZC -> gZR    Transport-Key, network key, under 2 (key-transport key) of the shared"
        " link key: as asked")


def announced(step, path):
    """Steps 4 and 13: the device announcement, a broadcast."""
    announce(path)
    say(step, f"{path[0].name:5} -> 0xfffd device announcement, sealed at the network layer:"
        " as asked")


def ask_revision(step, path):
    """Steps 5 and 14: node_desc_req, node_desc_rsp, and the stack revision in it."""
    device, centre = path[0], path[-1]
    request = data(path, "none", DEVICE_PROFILE, 0x0002, bytes([device.data]) + bytes(2))
    server_mask = 23 << 9 | 1 << 6 | 1
    descriptor = bytes.fromhex("00408f0000525200") + least(server_mask, 2) + bytes.fromhex("520000")
    response = data(path[::-1], "none", DEVICE_PROFILE, 0x8002,
                    request[:1] + b"\x00" + least(centre.short, 2) + descriptor)
    revision = int.from_bytes(response[12:14], "little") >> 9
    if revision < 21:
        raise Differs(f"the stack revision is {revision}")
    say(step, f"{device.name:5} -> dutZC  node_desc_req, answered with revision {revision}:"
        " as asked")


def ask_link_key(steps, path, unique):
    """Steps 6, 7 and 15, 16: Request-Key, answered with a link key of the device's own."""
    device, centre = path[0], path[-1]
    command(path, LINK, "request4")
    say(steps[0], f"{device.name:5} -> dutZC  Request-Key, type 4, under 0 (shared link key):"
        " as asked")
    read, frame, _ = command(path[::-1], LOAD, "transport4", unique, device.address,
                             centre.address, "")
    if unique in frame:
        raise Differs("the link key can be read in the frame")
    device.ok("link", read[3], read[1])
    centre.ok("link", device.address, unique)
    say(steps[1], f"dutZC -> {device.name:5}  Transport-Key, type 4, under 3 (key-load key) of the"
        " shared link key: as asked")
    return read[1]


def prove_link_key(steps, path, unique, stranger):
    """Steps 8, 9 and 17, 18: Verify-Key, not secured by APS, and Confirm-Key under the new key."""
    device, centre = path[0], path[-1]
    own_hash = device.octets("keyedhash", unique, "03")
    read, _, _ = command(path, "none", "verify", TRUST_CENTRE_LINK_KEY, device.address, own_hash)
    hash_here = centre.octets("keyedhash", UNIQUE_KEYS[device.name], "03")
    same("the hash in Verify-Key", read[3:], hash_here)
    say(steps[0], f"{device.name:5} -> dutZC  Verify-Key, keyed hash over 03, not APS secured:"
        " as asked")
    waits("vii", "comparing the hash and sealing the answer as one call; here the script compares")
    _, frame, _ = command(path[::-1], LINK, "confirm", 0, read[1], read[2])
    same(f"Confirm-Key at {stranger.name}, which hasn't the new key",
         stranger.ask("openaps", centre.address, frame), *FORGED)
    say(steps[1], f"dutZC -> {device.name:5}  Confirm-Key, status 0, under 0 of the new link key:"
        " as asked")
    waits("vii", "the entry's standing, verified from here on, and refusal 18 before")


def join_router(centre, router, device):
    """Steps 10 to 12: gZED joins gZR, and gets the network key through a tunnel."""
    say(10, "not played: association is a MAC sequence, which 01 doesn't build")
    command([router, centre], LINK, "update", device.address, device.short, UNSECURED_JOIN, "")
    say(11, "gZR   -> dutZC  Update-Device, status 1, under 0 of gZR's own link key: as asked")
    plain = centre.write("noack", "transport1", NETWORK_KEY, 0, device.address, centre.address)
    inner = centre.seal_aps(device, TRANSPORT, plain)
    _, tunnel, _ = command([centre, router], "none", "tunnel", device.address, inner)
    say(12, "dutZC -> gZR    Tunnel, not APS secured, around a Transport-Key under 2: as asked")
    frame = carry_to_joiner(router, device, sent_on(router, tunnel, device, inner))
    take_network_key(device, centre, frame, plain)
    say(12, "gZR   -> gZED   the inner frame as dutZC sealed it, routed, opened and read: as asked")


def buffer_test(path):
    """Steps 19 and 20: buffer test request and response under the device's own link key."""
    request = data(path, LINK, TEST_PROFILE, 0x001C, b"\x10")
    say(19, "gZED  -> dutZC  Buffer test request under 0 of gZED's own link key: as asked")
    length = request[0]
    data(path[::-1], LINK, TEST_PROFILE, 0x0054, bytes([length, 0]) + bytes(range(length)))
    say(20, "dutZC -> gZED   Buffer test response under 0 of gZED's own link key: as asked")


# ---- after the paper ---------------------------------------------------------------------------

def hear_again(layer, heard, old, new):
    """Frames heard again and altered; the new one must still open after its forgery."""
    last = len(old) - 1
    for what, frame, asked in (("an old frame heard again", old, STALE_GENUINE),
                               ("an old frame, altered", flipped(old, last), STALE_ALTERED),
                               ("a new frame, altered", flipped(new, len(new) - 5), FORGED)):
        same(f"{layer}, {what}", heard(frame), *asked)
        print(f"after    {layer}, {what}: {' '.join(map(str, asked[1:]))}")
    same(f"{layer}, the new frame", heard(new)[:1], "ok")
    print(f"after    {layer}, the new frame as it was sent: opened")


def replays(centre, router):
    """Old and altered frames at both layers."""
    frames = [router.seal(network_frame(router, centre.short, b"410 Nm")) for _ in range(2)]
    centre.ok("open", frames[0])
    hear_again("network", lambda frame: centre.ask("open", frame), *frames)
    plain = bytes.fromhex("0001000404010109") + b"410 Nm"
    frames = [router.seal_aps(centre, LINK, plain) for _ in range(2)]
    centre.ok("openaps", router.address, frames[0])
    hear_again("APS", lambda frame: centre.ask("openaps", router.address, frame), *frames)


def counters(boards):
    """Each board's counters count what it sealed and wrote."""
    for board in boards:
        print(f"after    {counted(board)}")


# ---- the whole ---------------------------------------------------------------------------------

def set_up(centre, router, device):
    """The initial conditions: fresh boards, dutZC's network, the shared link key at all three."""
    for board in (centre, router, device):
        board.start()
    centre.ok("network", 0, 0, NETWORK_KEY)
    centre.ok("switch", 0)
    for joiner in (router, device):
        centre.ok("link", joiner.address, SHARED_KEY)
        joiner.ok("link", centre.address, SHARED_KEY)


def play(centre, router, device):
    """The test case from its first step to its last, and what follows it here."""
    set_up(centre, router, device)
    join_centre(centre, router)
    way = [router, centre]
    announced(4, way)
    ask_revision(5, way)
    unique = ask_link_key((6, 7), way, UNIQUE_KEYS["gZR"])
    prove_link_key((8, 9), way, unique, device)
    join_router(centre, router, device)
    way = [device, router, centre]
    announced(13, way)
    ask_revision(14, way)
    unique = ask_link_key((15, 16), way, UNIQUE_KEYS["gZED"])
    prove_link_key((17, 18), way, unique, router)
    buffer_test(way)
    replays(centre, router)
    counters((centre, router, device))


if __name__ == "__main__":
    sys.exit(in_words(lambda: run(__doc__, DEVICES, play, "all steps as asked")))
