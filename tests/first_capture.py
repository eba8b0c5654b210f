#!/usr/bin/env python3
"""Makes the shipped capture, examples/first-capture.pcapng, out of benches.

    python3 tests/first_capture.py            writes it
    python3 tests/first_capture.py --check    exits 1 if the stored one differs from what is made

A display joins a workshop's network: PAN 0x1aaa, with a trust centre and a router. It finds the
network by beacons, associates, gets the network key under the key of its label, announces itself,
and gets a link key of its own by the exchange of source document 001 (steps 3 to 9). Then a wrench
at the router tells it torques, ten a second, and it tells the centre what it shows, under its new
link key. Beside it is a stranger's network, of which nobody here has a key. Somebody alters one
reading, forges one, and an hour later sends an old one again.

Every secured octet is sealed by a bench; network sequence numbers, MAC frames, times and cluster
data are put together here. `--bench COMMAND` takes another program that speaks the bench language.
"""

import argparse
import sys
from pathlib import Path

sys.path.insert(0, str(Path(__file__).resolve().parent.parent))

import air
from bench_pipe import BENCH_HELP, ROOT, bench_words, flipped, in_words, least
from boards import (ANNOUNCEMENT, AWAKE, DEVICE_PROFILE, LINK, LOAD, NETWORK_KEY, ROUTERS_KEY,
                    TRANSPORT, Board, network_frame)

STORED = ROOT / "examples" / "first-capture.pcapng"
LABEL = "83 FE D3 40 7A 93 97 23 A5 C6 39 B2 69 16 D5 05 C3 B5"
DISPLAYS_KEY = bytes.fromhex("7e11c0de00000000000000000000a002")  # that it gets of its own
STRANGERS_KEY = bytes.fromhex("5742a6c0ffee00112233445566778899")
PAN, STRANGERS_PAN = 0x1AAA, 0x52B1
START = 1_763_280_000 * 10**9   # nanoseconds: a Sunday morning in November 2025
MILLISECOND, SECOND = 10**6, 10**9
TORQUE, WORKSHOP = 0x0405, 0x7F01   # a cluster and a profile of no meaning to the board
COORDINATORS = ("aaaaaaaaaaaaaaaa", "0000000100000000")
DEVICES = (("centre", COORDINATORS[0], 0x0000), ("router", COORDINATORS[1], 0x3C08),
           ("display", "0000000000000001", 0x0BEE), ("wrench", "0000000000000002", 0x7A11),
           ("stranger", "00124b0001020304", 0x0000))


class Air:
    """What the sniffer hears, and when."""

    def __init__(self):
        self.now, self.frames, self.numbers = START, [], {}

    def wait(self, time):
        """Lets time pass."""
        self.now += time

    def hear(self, frame):
        """A MAC frame is heard; it takes 32 microseconds an octet."""
        stored = air.with_checksum(frame)
        self.frames.append((self.now, stored))
        self.now += (6 + len(stored)) * 32_000

    def number(self, sender):
        """The next MAC sequence number of a sender."""
        self.numbers[sender] = self.numbers.get(sender, 0x20) + 1 & 255
        return self.numbers[sender]

    def mac(self, kind, destination, source, payload=b"", acked=True, **others):
        """A MAC frame, and its ack where it asks for one."""
        number = self.number(source)
        bits = air.ACKNOWLEDGED if acked else 0
        self.hear(air.mac(kind, number, others.pop("pan", PAN), destination, source, payload, bits,
                          **others))
        if acked:
            self.wait(192_000)
            self.hear(air.ack(number))
        self.wait(3 * MILLISECOND)

    def send(self, source, destination, frame, pan=PAN):
        """A network frame from a device to a neighbour, or to all."""
        self.mac(air.DATA, destination, source, frame, destination != air.ANY, pan=pan)


# ---- frames ------------------------------------------------------------------------------------

def aps_data(sender, cluster, payload, profile=WORKSHOP, broadcast=False):
    """A plain APS data frame."""
    sender.data += 1
    endpoint = bytes([0 if profile == DEVICE_PROFILE else 1])
    return (bytes([0x08 if broadcast else 0x00]) + endpoint + least(cluster, 2)
            + least(profile, 2) + endpoint + bytes([sender.data & 255]) + payload)


def secured(sender, receiver, payload):
    """A network frame to another device, sealed."""
    return sender.seal(network_frame(sender, receiver.short, payload))


def beacon(air_, source, depth):
    """A beacon of the Zigbee network, with its stack profile and extended PAN ID."""
    zigbee = bytes([0x00, 0x22, 0x84 | depth << 3 & 0x78]) + least(1, 8) + b"\xff\xff\xff\x00"
    air_.mac(air.BEACON, None, source, b"\xff\xcf\x00\x00" + zigbee, False)


# ---- the play ----------------------------------------------------------------------------------

def associate(heard, display):
    """Beacons of the centre and the router, and the association with the centre."""
    heard.mac(air.COMMAND, air.ANY, None, b"\x07", False, pan=air.ANY)
    beacon(heard, 0x0000, 0)
    heard.wait(11 * MILLISECOND)
    beacon(heard, 0x3C08, 1)
    heard.wait(300 * MILLISECOND)
    heard.mac(air.COMMAND, 0x0000, display.address, b"\x01\x8e", source_pan=air.ANY)
    heard.wait(490 * MILLISECOND)
    heard.mac(air.COMMAND, 0x0000, display.address, b"\x04")
    heard.mac(air.COMMAND, display.address, COORDINATORS[0],
              b"\x02" + least(display.short, 2) + b"\x00")


def bring_network_key(heard, centre, display):
    """Step 3: the Transport-Key under the label's key, in a network frame without security."""
    plain = centre.write("noack", "transport1", NETWORK_KEY, 0, display.address, centre.address)
    inner = centre.seal_aps(display, TRANSPORT, plain)
    heard.send(centre.short, display.short, network_frame(centre, display.short, inner))
    heard.wait(40 * MILLISECOND)


def announce(heard, display, router):
    """Step 4: the announcement, and the router that sends it on."""
    octets = b"\x01" + least(display.short, 2) + least(int(display.address, 16), 8) + b"\x8e"
    plain = network_frame(display, AWAKE, aps_data(display, ANNOUNCEMENT, octets, DEVICE_PROFILE,
                                                   True))
    heard.send(display.short, air.ANY, display.seal(plain))
    heard.wait(25 * MILLISECOND)
    heard.send(router.short, air.ANY, router.seal(plain[:6] + bytes([plain[6] - 1]) + plain[7:]))
    heard.wait(200 * MILLISECOND)


def ask_revision(heard, display, centre):
    """Step 5: the display asks for the centre's stack revision."""
    request = aps_data(display, 0x0002, b"\x02" + bytes(2), DEVICE_PROFILE)
    heard.send(display.short, centre.short, secured(display, centre, request))
    descriptor = bytes.fromhex("00408f0000525200") + least(23 << 9 | 1 << 6 | 1, 2) + b"\x52\0\0"
    answer = aps_data(centre, 0x8002, b"\x02\x00" + least(centre.short, 2) + descriptor,
                      DEVICE_PROFILE)
    heard.send(centre.short, display.short, secured(centre, display, answer))
    heard.wait(30 * MILLISECOND)


def command(heard, sender, receiver, identifier, *words):
    """A command between two devices, sealed at the network layer too."""
    plain = sender.write("noack", *words)
    inner = plain if identifier is None else sender.seal_aps(receiver, identifier, plain)
    heard.send(sender.short, receiver.short, secured(sender, receiver, inner))
    heard.wait(30 * MILLISECOND)


def exchange_link_key(heard, centre, display):
    """Steps 6 to 9: a link key of the display's own, asked for, brought, proved and confirmed."""
    command(heard, display, centre, LINK, "request4")
    command(heard, centre, display, LOAD, "transport4", DISPLAYS_KEY, display.address,
            centre.address, "")
    display.ok("link", centre.address, DISPLAYS_KEY)
    centre.ok("link", display.address, DISPLAYS_KEY)
    proof = display.octets("keyedhash", DISPLAYS_KEY, "03")
    command(heard, display, centre, None, "verify", 4, display.address, proof)
    command(heard, centre, display, LINK, "confirm", 0, 4, display.address)


def reading(wrench, display, torque):
    """A reading of the wrench in newton metres, sealed for the display."""
    return secured(wrench, display, aps_data(wrench, TORQUE, torque.to_bytes(2, "big")))


def shown(heard, display, centre, torque):
    """What the display shows, told to the centre under its link key."""
    plain = aps_data(display, TORQUE, torque.to_bytes(2, "big"))
    heard.send(display.short, centre.short,
               secured(display, centre, display.seal_aps(centre, LINK, plain)))


def tighten(heard, wrench, display, centre, torques):
    """Readings, ten a second; each tenth is told to the centre. The frames of the readings."""
    frames = []
    for turn, torque in enumerate(torques, 1):
        start = heard.now
        frames.append(reading(wrench, display, torque))
        heard.send(wrench.short, display.short, frames[-1])
        if turn % 10 == 0:
            shown(heard, display, centre, torque)
        heard.now = start + SECOND // 10
    return frames


def strangers(heard, stranger, count):
    """Frames of a network next door."""
    for turn in range(count):
        plain = network_frame(stranger, AWAKE, aps_data(stranger, 6, bytes([turn]), broadcast=True))
        heard.send(stranger.short, air.ANY, stranger.seal(plain), STRANGERS_PAN)
        heard.wait(37 * MILLISECOND)


def set_up(centre, router, display, wrench, stranger):
    """Who has which keys when the sniffer is started: router and wrench are in the network, and
    the centre was told the display's label."""
    for board in (centre, router, display, wrench, stranger):
        board.start()
    label_key = bytes.fromhex(display.ok("label", LABEL)[1])
    display.ok("link", centre.address, label_key)
    centre.ok("link", display.address, label_key)
    centre.ok("link", router.address, ROUTERS_KEY)
    for board in (centre, router, wrench, display, stranger):
        board.ok("network", 0, 0, STRANGERS_KEY if board is stranger else NETWORK_KEY)
        board.ok("switch", 0)


def play(centre, router, display, wrench, stranger):
    """The whole; the frames that the sniffer stores."""
    set_up(centre, router, display, wrench, stranger)
    heard = Air()
    strangers(heard, stranger, 2)
    associate(heard, display)
    bring_network_key(heard, centre, display)
    announce(heard, display, router)
    ask_revision(heard, display, centre)
    exchange_link_key(heard, centre, display)
    heard.now = START + 4 * SECOND
    first = tighten(heard, wrench, display, centre, range(20, 420, 10))
    strangers(heard, stranger, 2)
    heard.send(wrench.short, display.short, flipped(first[30], len(first[30]) - 6, 0x15))  # altered
    heard.wait(SECOND)
    second = tighten(heard, wrench, display, centre, range(25, 425, 20))
    forged = flipped(reading(wrench, display, 410), 26, 0xA5)
    heard.send(wrench.short, display.short, forged)
    heard.now += 3600 * SECOND
    heard.send(wrench.short, display.short, first[39])  # 410 newton metres, an hour old
    heard.wait(2 * SECOND)
    tighten(heard, wrench, display, centre, range(30, 330, 30))
    strangers(heard, stranger, 1)
    assert second
    return heard.frames


def made(words):
    """The file, as octets."""
    boards = [Board(words, *device, False) for device in DEVICES]
    try:
        return air.pcapng(play(*boards))
    finally:
        for board in boards:
            board.close()


def main():
    """Writes or compares; the exit code."""
    parser = argparse.ArgumentParser(description=__doc__,
                                     formatter_class=argparse.RawDescriptionHelpFormatter)
    parser.add_argument("--check", action="store_true", help="compare with the stored file")
    parser.add_argument("--bench", metavar="COMMAND", help=BENCH_HELP)
    given = parser.parse_args()
    octets = made(bench_words(given.bench))
    name = STORED.relative_to(ROOT)
    if not given.check:
        STORED.write_bytes(octets)
        print(f"{name}: {len(octets)} octets")
    elif not STORED.is_file() or STORED.read_bytes() != octets:
        print(f"{name} differs from what `python3 tests/first_capture.py` makes")
        return 1
    else:
        print(f"{name} is what is made")
    return 0


if __name__ == "__main__":
    sys.exit(in_words(main))
