#!/usr/bin/env python3
"""The listener of captures: what it says of frames, and which keys it takes.

    python3 tests/capture_listener.py           the repository's crates/bench/out/bench
    python3 tests/capture_listener.py --bench 'python3 -m independent bench --answer'

Each scene is a capture whose frames the independent model sealed, with the verdicts that its author
expects; the listener asks benches about it. A line for each scene, and at last `all scenes as
told`; the exit code is 0, 1 at the first difference, 2 where nothing could be run.
"""

import argparse
import sys
from pathlib import Path

sys.path.insert(0, str(Path(__file__).resolve().parent.parent))

import air
import sealing
from bench_pipe import BENCH_HELP, Bench, Differs, bench_words, flipped, in_words, least
from capture import files
from capture.listener import Listener
from capture.words import class_of, in_words as said_of, tsv
from independent.model import labels

PAN, OTHER_PAN = 0x1AAA, 0x52B1
CENTRE, JOINER, SECOND, STRANGER = ("aaaaaaaaaaaaaaaa", "0000000000000001", "0000000000000002",
                                    "00124b0001020304")
SHORTS = {CENTRE: 0x0000, JOINER: 0x0BEE, SECOND: 0x7A11, STRANGER: 0x4444}
KEYS = [bytes((37 * n + 11 * i + 1) % 256 for i in range(16)) for n in range(40)]
CODES = [bytes((91 * n + 7 * i + 5) % 256 for i in range(16)) for n in range(3)]
LABEL_KEYS = [labels.link_key(code) for code in CODES]
FORGED, NO_KEY, GENUINE, ALTERED = "9 forged", "6 nokey", "8 stale genuine", "8 stale altered"
DATA = bytes.fromhex("0001050401010109")   # an APS data header
ANYTHING = None


# ---- scenes ------------------------------------------------------------------------------------

class Scene:
    """Frames in the air, and what should be said of each."""

    def __init__(self, name, **keys):
        self.name, self.keys, self.packets, self.asked = name, keys, [], []
        self.counters = {}

    def count(self, sender):
        """The next counter of a sender."""
        self.counters[sender] = self.counters.get(sender, -1) + 1
        return self.counters[sender]

    def hear(self, octets, *asked):
        """A MAC frame, and its last five fields: network verdict, sender, counter, APS verdict and
        inside, ANYTHING where it doesn't matter."""
        number = len(self.packets) + 1
        self.packets.append(files.Packet(number, number * 10**6, 230, octets, len(octets)))
        self.asked.append(asked)

    def network(self, frame, *asked, pan=PAN, source=0x3C08):
        """A network frame."""
        self.hear(air.data(len(self.packets), pan, 0x0000, source, frame), *asked)

    def clear(self, sender, inner, aps, inside, pan=PAN, receiver=JOINER):
        """An APS frame in a network frame without security."""
        self.network(plain(sender, receiver, inner), "unsecured", "-", "-", aps, inside, pan=pan)

    def secured(self, key, number, sender, inner, aps, inside, receiver=CENTRE, pan=PAN):
        """An APS frame in a network frame that opens; the frame."""
        counter = self.count(sender)
        frame = sealing.network(key, number, sender, counter, plain(sender, receiver, inner))
        self.network(frame, "opened", sender, str(counter), aps, inside, pan=pan,
                     source=SHORTS.get(sender, 0x3C08))
        return frame

    def play(self, words):
        """Listens, and compares each frame; the listener and what it heard."""
        listener = Listener(lambda: Bench(words), **self.keys)
        try:
            heard = [listener.hear(packet) for packet in self.packets]
            for one, asked in zip(heard, self.asked):
                self.compare(one, asked)
            self.ends = {pan: list(known.boards.heard()) + list(known.boards.linked())
                         for pan, known in listener.pans.items() if known.boards}
            self.boards = {pan: len(known.boards.boards) for pan, known in listener.pans.items()
                           if known.boards}
        finally:
            listener.close()
        print(f"{self.name}: {len(heard)} frames as told", flush=True)
        return heard

    def compare(self, heard, asked):
        """One frame."""
        fields = tsv(heard).split("\t")
        found = (*fields[2:6], "\t".join(fields[6:]))
        if any(field is not ANYTHING and field != one for one, field in zip(found, asked)):
            raise Differs(f"{self.name}, frame {heard.number}: {found}, and not {asked}")


def plain(sender, receiver, payload, control=0x0008, number=7):
    """A plain network frame."""
    return (least(control, 2) + least(SHORTS.get(receiver, 0xFFFD), 2)
            + least(SHORTS.get(sender, 0x3C08), 2) + bytes([30, number]) + payload)


def address(digits):
    """An address as it is sent."""
    return least(int(digits, 16), 8)


def network_key_command(key, number, receiver=JOINER, sender=CENTRE):
    """A plain Transport-Key with a network key, and how the reader prints it."""
    octets = b"\x01\x10\x05\x01" + key + bytes([number]) + address(receiver) + address(sender)
    return octets, f"transport1 {key.hex()} {number} {receiver} {sender}"


def link_key_command(key, receiver=JOINER, sender=CENTRE):
    """A plain Transport-Key with a link key, and how the reader prints it."""
    octets = b"\x01\x11\x05\x04" + key + address(receiver) + address(sender)
    return octets, f"transport4 {key.hex()} {receiver} {sender} "


def bring(scene, link, key, number, receiver=JOINER, pan=PAN):
    """A Transport-Key with a network key that opens; the APS frame."""
    octets, read = network_key_command(key, number, receiver)
    frame = sealing.aps(link, 2, CENTRE, scene.count(CENTRE), octets)
    scene.clear(CENTRE, frame, "opened", read, pan, receiver)
    return frame


def joined(name, *others):
    """A scene in which the joiner has got its network key under its label's key."""
    scene = Scene(name, labels=[key.hex() for key in LABEL_KEYS[:1 + len(others)]])
    scene.first = bring(scene, LABEL_KEYS[0], KEYS[0], 0)
    return scene


# ---- what the scenes are -----------------------------------------------------------------------

def joining(words):
    """The label's key opens the Transport-Key; it is that of both ends; a type-4 key renews it."""
    scene = joined("a joining")
    scene.secured(KEYS[0], 0, JOINER, DATA + b"hello", "unsecured", b"hello".hex())
    ask = sealing.aps(LABEL_KEYS[0], 0, JOINER, scene.count(JOINER), b"\x01\x01\x08\x04")
    scene.secured(KEYS[0], 0, JOINER, ask, "opened", "request4")
    octets, read = link_key_command(KEYS[1])
    scene.secured(KEYS[0], 0, CENTRE, sealing.aps(LABEL_KEYS[0], 3, CENTRE, scene.count(CENTRE),
                                                  octets), "opened", read, JOINER)
    scene.clear(CENTRE, flipped(scene.first, 21), ALTERED, ANYTHING)
    for sender, receiver in ((JOINER, CENTRE), (CENTRE, JOINER)):
        inner = sealing.aps(KEYS[1], 0, sender, scene.count(sender), DATA + b"!", 8)
        scene.secured(KEYS[0], 0, sender, inner, "opened", b"!".hex(), receiver)
    scene.clear(CENTRE, scene.first, GENUINE, scene.first.hex())
    scene.clear(CENTRE, flipped(scene.first, 20), ALTERED, ANYTHING)
    late = sealing.aps(LABEL_KEYS[0], 0, JOINER, 99, b"\x01\x01\x08\x04")
    scene.secured(KEYS[0], 0, JOINER, late, "opened", "request4")
    heard = scene.play(words)
    if heard[7].repeats[0] != 1 or "frame 1 heard again" not in said_of(heard[7]):
        raise Differs(f"the Transport-Key heard again is said to be {said_of(heard[7])}")


def replays(words):
    """Heard again, altered, forged, and a counter at its top."""
    scene = joined("replays and forgeries")
    frames = [scene.secured(KEYS[0], 0, SECOND, DATA + bytes([n]), "unsecured", f"{n:02x}")
              for n in range(5)]
    scene.network(frames[3], GENUINE, SECOND, "3", "-", "-")
    scene.network(flipped(frames[3], len(frames[3]) - 1), ALTERED, SECOND, "3", "-", "-")
    top = sealing.network(KEYS[0], 0, SECOND, 2**32 - 1, plain(SECOND, CENTRE, DATA))
    scene.network(top, "7 top", SECOND, "4294967295", "-", "-")
    fresh = sealing.network(KEYS[0], 0, SECOND, 5, plain(SECOND, CENTRE, DATA))
    scene.network(flipped(fresh, len(fresh) - 1), FORGED, SECOND, "5", "-", "-")
    scene.network(flipped(fresh, 21, 3), NO_KEY, SECOND, "5", "-", "-")
    scene.network(fresh, "opened", SECOND, "5", "unsecured", "")
    other = sealing.network(KEYS[0], 0, SECOND, 2, plain(SECOND, CENTRE, DATA + b"other"))
    scene.network(other, GENUINE, SECOND, "2", "-", "-")
    heard = scene.play(words)
    if heard[6].repeats[0] != 5 or heard[-1].repeats is not None:
        raise Differs("a replay is not found by its octets")
    if [class_of(one) for one in heard[6:]] != ["genuine", "altered", "refused", "forged", "nokey",
                                               "opened", "genuine"]:
        raise Differs(f"classes are {[class_of(one) for one in heard[6:]]}")


def forms(words):
    """Frames that the layers refuse for their form, network commands, acks, empty payloads."""
    scene = joined("forms")
    scene.network(b"", "3 short", "-", "-", "-", "-")
    scene.network(bytes(300), "2 long", "-", "-", "-", "-")
    scene.network(bytes(117), "2 long", "-", "-", "-", "-")
    scene.network(b"\x0b\x00" + bytes(20), "4 form", "-", "-", "-", "-")
    unsent = sealing.network(KEYS[0], 0, "0" * 16, 9, plain(SECOND, CENTRE, DATA))
    scene.network(unsent, "5 security", "-", "-", "-", "-")
    scene.network(plain(SECOND, CENTRE, b"\x01\x02", 0x0009), "unsecured", "-", "-", "-", "0102")
    scene.network(plain(SECOND, CENTRE, b""), "unsecured", "-", "-", "3 short", "")
    scene.network(plain(SECOND, CENTRE, b"\x03"), "unsecured", "-", "-", "4 form", "03")
    scene.network(plain(SECOND, CENTRE, b"\x12\x09"), "unsecured", "-", "-", "unsecured", "")
    scene.network(plain(SECOND, CENTRE, DATA), "unsecured", "-", "-", "unsecured", "")
    frame = sealing.network(KEYS[0], 0, SECOND, 0, plain(SECOND, CENTRE, b"\x07\x01", 0x0009))
    scene.network(frame, "opened", SECOND, "0", "-", "0701")
    wrong = sealing.aps(LABEL_KEYS[0], 0, CENTRE, 77, b"\x01\x01\x0d")
    scene.secured(KEYS[0], 0, CENTRE, wrong, "opened", "11 command 0d")
    route = (plain(SECOND, CENTRE, b"", 0x1C08) + address(CENTRE) + address(SECOND)
             + b"\x01\x00\xee\x0b")
    frame = sealing.network(KEYS[0], 0, SECOND, 1, route + DATA + b"r", len(route))
    scene.network(frame, "opened", SECOND, "1", "unsecured", "72")
    scene.play(words)


def in_clear(words):
    """A Transport-Key in clear is 12, brings no key, and the log says how to go on."""
    scene = Scene("a key in clear")
    octets, _ = network_key_command(KEYS[0], 3)
    scene.clear(CENTRE, octets, "unsecured", f"12 protection {octets[2:].hex()}")
    frame = sealing.network(KEYS[0], 3, SECOND, 0, plain(SECOND, CENTRE, DATA))
    scene.network(frame, NO_KEY, SECOND, "0", "-", "-")
    more, _ = link_key_command(KEYS[1])
    scene.clear(CENTRE, more, "unsecured", f"12 protection {more[2:].hex()}")
    heard = scene.play(words)
    if not heard[0].notes[0].endswith(f"--network-key 3:{KEYS[0].hex()}"):
        raise Differs(f"the log says {heard[0].notes}")
    if f"--link-key {JOINER}:{KEYS[1].hex()}" not in heard[2].notes[0]:
        raise Differs(f"the log says {heard[2].notes}")


def second_key(words):
    """Network keys that follow are followed, a third and a same number on further boards; the old
    ones keep their floors."""
    scene = joined("further network keys")
    first = scene.secured(KEYS[0], 0, SECOND, DATA + b"0", "unsecured", "30")
    places = [(1, KEYS[2]), (2, KEYS[3]), (0, KEYS[4]), (1, KEYS[5])]
    for number, key in places:
        bring(scene, LABEL_KEYS[0], key, number)
        scene.secured(key, number, SECOND, DATA + b"n", "unsecured", "6e")
    switch = b"\x01\x12\x09\x01"
    scene.secured(KEYS[5], 1, CENTRE, switch, "unsecured", "switchkey 1")
    scene.secured(KEYS[0], 0, SECOND, DATA + b"o", "unsecured", "6f")
    scene.network(first, GENUINE, SECOND, "0", "-", "-")
    scene.network(flipped(first, 22), ALTERED, SECOND, "0", "-", "-")
    scene.play(words)
    if scene.boards[PAN] != 3:
        raise Differs(f"five network keys are on {scene.boards[PAN]} boards")


def two_labels(words):
    """Two joiners with labels of their own and one centre, whose frames go under either key."""
    scene = joined("two labels", CODES[1])
    bring(scene, LABEL_KEYS[1], KEYS[0], 0, SECOND)
    for link, receiver in zip(LABEL_KEYS, (JOINER, SECOND)):
        for sender in (receiver, CENTRE):
            inner = sealing.aps(link, 0, sender, scene.count(sender), DATA + b"x", 8)
            scene.secured(KEYS[0], 0, sender, inner, "opened", "78",
                          CENTRE if sender == receiver else receiver)
    unknown = sealing.aps(LABEL_KEYS[2], 2, STRANGER, 0, network_key_command(KEYS[7], 0)[0])
    scene.clear(STRANGER, unknown, NO_KEY, unknown.hex())
    foreign = sealing.aps(LABEL_KEYS[2], 2, CENTRE, 999, network_key_command(KEYS[7], 0)[0])
    scene.clear(CENTRE, foreign, FORGED, foreign.hex())
    scene.play(words)


def late_label(words):
    """A capture that has not the first Transport-Key: the label's key still opens what goes under
    it, with the network key given."""
    scene = Scene("a label without its Transport-Key", labels=[LABEL_KEYS[0].hex()],
                  network_keys=[(0, KEYS[0].hex())])
    octets, read = link_key_command(KEYS[1])
    inner = sealing.aps(LABEL_KEYS[0], 3, CENTRE, 40, octets)
    scene.secured(KEYS[0], 0, CENTRE, inner, "opened", read, JOINER)
    inner = sealing.aps(KEYS[1], 0, JOINER, 50, DATA + b"y", 8)
    scene.secured(KEYS[0], 0, JOINER, inner, "opened", "79")
    scene.play(words)


def many_partners(words):
    """Twenty devices with link keys of their own: further boards, each with its floors."""
    scene = Scene("twenty partners", labels=[LABEL_KEYS[0].hex()])
    bring(scene, LABEL_KEYS[0], KEYS[0], 0)
    devices = [f"{n:016x}" for n in range(0x100, 0x114)]
    old = []
    for device, key in zip(devices, KEYS[10:]):
        octets, read = link_key_command(key, device)
        inner = sealing.aps(LABEL_KEYS[0], 3, CENTRE, scene.count(CENTRE), octets)
        scene.secured(KEYS[0], 0, CENTRE, inner, "opened", read, JOINER)
        old.append(sealing.aps(key, 0, device, scene.count(device), DATA + b"d", 8))
        scene.secured(KEYS[0], 0, device, old[-1], "opened", "64")
    for device, frame in zip(devices, old):
        scene.secured(KEYS[0], 0, device, frame, GENUINE, frame.hex())
    inner = sealing.aps(KEYS[12], 0, CENTRE, scene.count(CENTRE), DATA + b"e", 8)
    scene.secured(KEYS[0], 0, CENTRE, inner, "opened", "65")
    scene.play(words)


def two_pans(words):
    """Each PAN has keys and floors of its own, also where the key is one."""
    scene = Scene("four PANs", labels=[LABEL_KEYS[0].hex()], network_keys=[(9, KEYS[9].hex())])
    bring(scene, LABEL_KEYS[0], KEYS[0], 0)
    frame = sealing.network(KEYS[0], 0, SECOND, 5, plain(SECOND, CENTRE, DATA))
    for _ in range(2):
        scene.network(frame, NO_KEY, SECOND, "5", "-", "-", pan=OTHER_PAN)
    scene.network(frame, "opened", SECOND, "5", "unsecured", "")
    known = sealing.network(KEYS[9], 9, SECOND, 5, plain(SECOND, CENTRE, DATA))
    for pan in (PAN, OTHER_PAN, 0x0003):
        scene.network(known, "opened", SECOND, "5", "unsecured", "", pan=pan)
        scene.network(known, GENUINE, SECOND, "5", "-", "-", pan=pan)
    other = sealing.network(KEYS[8], 9, SECOND, 6, plain(SECOND, CENTRE, DATA))
    for pan in (0x0003, 0x0004):
        scene.network(other, FORGED, SECOND, "6", "-", "-", pan=pan)
    heard = scene.play(words)
    if [class_of(one) for one in heard[-2:]] != ["forged", "nokey"]:
        raise Differs(f"{said_of(heard[-2])}; {said_of(heard[-1])}")
    if set(scene.ends) != {PAN, OTHER_PAN, 0x0003}:
        raise Differs(f"boards are kept for {set(scene.ends)}")


def short_form(words):
    """The short auxiliary header: the sender is the source's long address, announced or learnt."""
    scene = Scene("the short auxiliary header", network_keys=[(0, KEYS[0].hex())],
                  link_keys=[(JOINER, KEYS[1].hex()), (SECOND, KEYS[2].hex()),
                             (STRANGER, KEYS[3].hex()), (CENTRE, KEYS[4].hex())])

    def short(sender, key, aps, inside):
        inner = sealing.aps(key, 0, sender, scene.count(sender), DATA + b"s", 8, True)
        scene.counters["router"] = scene.counters.get("router", 0) + 1
        frame = sealing.network(KEYS[0], 0, "0000000100000000", scene.counters["router"],
                                plain(sender, CENTRE, inner))
        scene.network(frame, "opened", "0000000100000000", ANYTHING, aps, inside)

    short(JOINER, KEYS[1], NO_KEY, ANYTHING)
    announcement = (bytes.fromhex("0800130000000005") + b"\x01" + least(0x0BEE, 2)
                    + address(JOINER) + b"\x8e")
    scene.secured(KEYS[0], 0, CENTRE, announcement, "unsecured", ANYTHING)
    short(JOINER, KEYS[1], "opened", "73")
    short(SECOND, KEYS[2], NO_KEY, ANYTHING)
    scene.secured(KEYS[0], 0, SECOND, DATA, "unsecured", "")
    short(SECOND, KEYS[2], "opened", "73")
    inner = sealing.aps(KEYS[3], 0, STRANGER, scene.count(STRANGER), DATA + b"a", 8, True)
    front = plain(STRANGER, CENTRE, b"", 0x1008) + address(STRANGER)
    frame = sealing.network(KEYS[0], 0, "0000000100000000", 77, front + inner, 16)
    scene.network(frame, "opened", ANYTHING, "77", "opened", "61")
    scene.play(words)


def hall(words):
    """512 senders have rows; a genuine 513th is 10."""
    scene = Scene("a full hall", network_keys=[(0, KEYS[0].hex())])
    for n in range(514):
        sender = f"{n + 0x1000:016x}"
        frame = sealing.network(KEYS[0], 0, sender, n, plain(sender, CENTRE, DATA))
        if n < 512:
            scene.network(frame, "opened", sender, str(n), "unsecured", "")
        elif n == 512:
            scene.network(frame, "10 full", sender, str(n), "-", "-")
        else:
            scene.network(flipped(frame, len(frame) - 1), FORGED, sender, str(n), "-", "-")
    scene.play(words)


SCENES = (joining, replays, forms, in_clear, second_key, two_labels, late_label, many_partners,
          two_pans, short_form, hall)


def main():
    """Plays every scene; the exit code."""
    parser = argparse.ArgumentParser(description=__doc__,
                                     formatter_class=argparse.RawDescriptionHelpFormatter)
    parser.add_argument("--bench", metavar="COMMAND", help=BENCH_HELP)
    given = parser.parse_args()
    words = bench_words(given.bench)
    for scene in SCENES:
        scene(words)
    print("all scenes as told")
    return 0


if __name__ == "__main__":
    sys.exit(in_words(main))
