"""Boards that hand frames to each other: for bv08.py, tunnel.py and joiner.py, which start them.

Each board is a bench process. A command is written on one board, sealed there, handed over as
octets, and opened and read on the other. Network sequence numbers and radius, which are no part of
the board, are counted here.
"""

import argparse

from bench_pipe import BENCH_HELP, Bench, Differs, bench_words, least, text

SHARED_KEY = b"ZigBeeAlliance09"
NETWORK_KEY = bytes.fromhex("abcdef01234567890000000000000000")
LINK, TRANSPORT, LOAD = "0", "2", "3"  # key identifiers at the APS layer
UNSECURED_JOIN = 1                     # a status of Update-Device
AWAKE = 0xFFFD                         # the broadcast address of devices that listen
HEADER = 8                             # octets of the network header used here
DEVICE_PROFILE, TEST_PROFILE = 0x0000, 0x7F01
ANNOUNCEMENT = 0x0013                  # a cluster of the device profile
NOBODY = "0" * 16                      # the sender of an unsecured frame
STALE_GENUINE = ("refused", 8, "stale", "genuine")
STALE_ALTERED = ("refused", 8, "stale", "altered")
FORGED = ("refused", 9, "forged")
NO_COMMAND = ("refused", 11, "command")
ROUTERS_KEY = bytes.fromhex("7e11c0de00000000000000000000a001")
JOINING = (("centre", "aaaaaaaaaaaaaaaa", 0x0000), ("router", "0000000100000000", 0x3C08),
           ("joiner", "0000000000000001", 0x0BEE))


class Board(Bench):
    """A bench process that is one device, with what the paper says of it."""

    def __init__(self, words, name, address, short, log):
        super().__init__(words, name, log)
        self.address, self.short = address, short
        self.sequence = self.sealed = self.written = self.data = 0
        self.mark = None

    def start(self):
        """Makes the board, a new one, and moves its mark by a step, enough for all seals here."""
        self.ok("board", self.address)
        self.mark, = self.so_many(1, "mark")
        self.ok("marked", self.mark)

    def number(self):
        """The next sequence number of the network layer, which the board leaves to its host."""
        self.sequence = (self.sequence + 1) % 256
        return self.sequence

    def write(self, ack, *command):
        """A command, as its plain APS frame."""
        self.written += 1
        return self.octets("write", ack, *command)

    def seal(self, frame):
        """A network frame, secured."""
        self.sealed += 1
        return self.octets("seal", frame)

    def seal_aps(self, partner, identifier, frame):
        """An APS frame for another board, secured."""
        self.sealed += 1
        return self.octets("sealaps", partner.address, identifier, frame)


# ---- comparing ---------------------------------------------------------------------------------

def same(what, found, *asked):
    """The fields of an answer are those asked for."""
    if list(found) != [text(field) for field in asked]:
        raise Differs(f"{what}: {' '.join(found)}, and not {' '.join(map(text, asked))}")


# ---- frames from board to board ----------------------------------------------------------------

def network_frame(source, destination, payload):
    """A plain network data frame; a route is looked for only where it goes to one device."""
    control = 0x0008 if destination == AWAKE else 0x0048
    return (least(control, 2) + least(destination, 2) + least(source.short, 2) + bytes([30])
            + bytes([source.number()]) + payload)


def hand_over(here, there, frame):
    """A network frame sealed by one board and opened by the next; the plain frame."""
    opened = there.ok("open", here.seal(frame))
    same("the network frame opened", opened, here.address, 1, frame)
    return bytes.fromhex(opened[2])


def carry(path, payload, destination=None):
    """Octets along a path of boards, the radius one less at each; the octets that arrive."""
    destination = path[-1].short if destination is None else destination
    frame = network_frame(path[0], destination, payload)
    for here, there in zip(path, path[1:]):
        frame = hand_over(here, there, frame)
        frame = frame[:6] + bytes([frame[6] - 1]) + frame[7:]
    return frame[HEADER:]


def carry_to_joiner(here, joiner, payload):
    """Octets to a neighbour that has no network key yet: a network frame without security."""
    frame = network_frame(here, joiner.short, payload)
    opened = joiner.ok("open", frame)
    same("the unsecured frame opened", opened, NOBODY, "none", frame)
    return bytes.fromhex(opened[2])[HEADER:]


def open_aps(sender, receiver, identifier, secured, plain):
    """The plain frame of an APS frame, opened with the sender and protection it should have."""
    opened = receiver.ok("openaps", sender.address, secured)
    same("the APS frame opened", opened, NOBODY if identifier == "none" else sender.address,
         identifier, plain)
    return bytes.fromhex(opened[2])


def command(path, identifier, *words):
    """A command from the path's first board to its last; how that reads it, and the APS frame, as
    it arrived and opened."""
    sender, receiver = path[0], path[-1]
    plain = sender.write("ack", *words)
    frame = plain if identifier == "none" else sender.seal_aps(receiver, identifier, plain)
    arrived = carry(path, frame)
    opened = open_aps(sender, receiver, identifier, arrived, plain)
    read = receiver.ok("read", identifier, opened)
    same("the command read", read, *words)
    return read, arrived, opened


def sent_on(router, tunnel, destination, inner):
    """The inner frame that the router hands on of a Tunnel, octet for octet the one that was
    sealed, which its header, auxiliary header, payload and tag are too when joined."""
    to, handed_on, *parts = router.so_many(6, "route", "none", tunnel)
    same("the tunnel routed", [to, handed_on], destination.address, inner)
    same("the four parts joined", ["".join(parts)], inner)
    octets = [len(part) // 2 for part in parts]
    if octets != [2, 13, len(inner) - 19, 4]:
        raise Differs(f"the four parts have {octets} octets")
    return bytes.fromhex(handed_on)


def data(path, identifier, profile, cluster, payload, destination=None):
    """An APS data frame from the path's first board to its last; the payload that it opens."""
    sender, receiver = path[0], path[-1]
    sender.data += 1
    endpoint = bytes([0 if profile == DEVICE_PROFILE else 1])
    control = b"\x00" if destination is None else b"\x08"
    plain = (control + endpoint + least(cluster, 2) + least(profile, 2) + endpoint
             + bytes([sender.data]) + payload)
    frame = plain if identifier == "none" else sender.seal_aps(receiver, identifier, plain)
    return open_aps(sender, receiver, identifier, carry(path, frame, destination), plain)[8:]


# ---- what a joining has ------------------------------------------------------------------------

def set_up_joining(centre, router, joiner):
    """The router is in the centre's network and has a link key of its own; the joiner has only the
    link key that it shares with the centre."""
    for board in (centre, router, joiner):
        board.start()
    for board in (centre, router):
        board.ok("network", 0, 0, NETWORK_KEY)
        board.ok("switch", 0)
    centre.ok("link", router.address, ROUTERS_KEY)
    router.ok("link", centre.address, ROUTERS_KEY)
    centre.ok("link", joiner.address, SHARED_KEY)
    joiner.ok("link", centre.address, SHARED_KEY)


def take_network_key(joiner, centre, frame, plain):
    """A joiner opens and reads the Transport-Key with the network key, and installs it."""
    if NETWORK_KEY in frame:
        raise Differs("the network key can be read in the frame")
    read = joiner.ok("read", TRANSPORT, open_aps(centre, joiner, TRANSPORT, frame, plain))
    same("the command read", read, "transport1", NETWORK_KEY, 0, joiner.address, centre.address)
    joiner.ok("network", 0, read[2], read[1])
    joiner.ok("switch", read[2])


def announce(path):
    """The announcement of the path's first board, a broadcast of the device profile."""
    device = path[0]
    octets = (bytes([device.data]) + least(device.short, 2) + least(int(device.address, 16), 8)
              + b"\x8e")
    data(path, "none", DEVICE_PROFILE, ANNOUNCEMENT, octets, AWAKE)


def counted(board):
    """What a board sealed and wrote, in words; its counters must say the same."""
    same(f"the state of {board.name}", board.ok("state"), board.sealed, board.written, 0,
         board.mark)
    return (f"{board.name} sealed {several(board.sealed, 'frame')} and wrote "
            f"{several(board.written, 'command')}, as its counters say")


def several(number, what):
    """A number of things in words."""
    return f"{number} {what}{'' if number == 1 else 's'}"


# ---- the whole ---------------------------------------------------------------------------------

def run(description, devices, play, last):
    """Starts a bench for each device and plays; the exit code."""
    parser = argparse.ArgumentParser(description=description,
                                     formatter_class=argparse.RawDescriptionHelpFormatter)
    parser.add_argument("--bench", metavar="COMMAND", help=BENCH_HELP)
    parser.add_argument("-v", action="store_true",
                        help="print every line sent to a board (<) and answered by it (>)")
    given = parser.parse_args()
    words = bench_words(given.bench)
    boards = []
    try:
        for device in devices:
            boards.append(Board(words, *device, given.v))
        play(*boards)
    except Differs as difference:
        print(f"not as asked: {difference}")
        return 1
    finally:
        for board in boards:
            board.close()
    print(last)
    return 0
