"""The listener: asks benches about each frame of a capture, and keeps the keys that it hears.

It listens as a board would that was handed the keys on the labels. A Transport-Key that one of them
opens brings a network key, and later ones bring others and the link keys that follow; each PAN has
boards of its own. What it learns, it learns only from what a bench has opened.
"""

from collections import OrderedDict
from dataclasses import dataclass, field

from . import headers, links, mac
from .boards import ALIKE, Boards, Trial, fits, opened

MOST_FIELD = 256            # octets of a frame in a bench line; what is longer is 2 by its length
REMEMBERED = 4096           # opened frames of a layer that a replay is looked for among
NOBODY = ("0" * 16, "f" * 16)
ANNOUNCEMENT = bytes.fromhex("13000000")  # cluster and profile of a device announcement
SHORT = 4                                 # digits of a short address


@dataclass(slots=True)
class Heard:
    """A frame of the capture and what was found."""
    number: int
    time: int                 # nanoseconds since the capture's first frame
    pan: int = None
    source: str = ""          # the network layer's addresses, else the MAC layer's
    destination: str = ""
    sender: str = "-"         # of the network layer, as are counter and the first verdict
    counter: int = None
    network: str = "-"
    foreign: bool = False     # no network key is known to be this PAN's
    aps: str = "-"
    inside: str = "-"
    command: tuple = ()       # what the reader told of a command, in its fields
    repeats: tuple = None     # the number and the time of the frame that this one repeats
    notes: list = field(default_factory=list)


class Pan:
    """What is known of a PAN: its boards, once a key fitted there; whether a network key was found
    to be its own, and not only given; the long addresses behind short ones."""

    def __init__(self):
        self.boards, self.has_key, self.longs = None, False, {}

    def learn(self, short, long):
        """Remembers the long address behind a short one."""
        if len(short) == SHORT and long not in NOBODY:
            self.longs[short] = long


class Remembered:
    """The last frames of a layer that were opened."""

    def __init__(self):
        self.frames = OrderedDict()

    def keep(self, heard, octets):
        """Remembers an opened frame, and forgets the oldest where it is one too many."""
        self.frames[heard.pan, octets] = heard.number, heard.time
        if len(self.frames) > REMEMBERED:
            self.frames.popitem(last=False)

    def find(self, heard, octets):
        """The number and the time of the opened frame with these octets, or None."""
        return self.frames.get((heard.pan, octets))


class Listener:
    """Listens with the keys of labels, and with keys that are known; `start` starts a bench, and
    `by_chip` says that a chip's verdict stands in the checksum's place."""

    def __init__(self, start, labels=(), network_keys=(), link_keys=(), by_chip=False):
        self.start, self.labels, self.by_chip = start, labels, by_chip
        self.known, self.trial = (network_keys, link_keys), Trial(start)
        self.common, self.pans = None, {}
        self.first_time = None
        self.networks, self.links = Remembered(), Remembered()

    # ---- boards ----

    def boards(self, pan):
        """The boards to ask: the PAN's own, else those that have only the keys that were given."""
        if pan.boards is not None:
            return pan.boards
        if self.common is None:
            self.common = Boards(self.start, *self.known)
        return self.common

    def own(self, pan):
        """The PAN's own boards. As long as nothing was opened of a PAN, it shares those of all
        such PANs; they become its own with the first frame that they open."""
        if pan.boards is None:
            pan.boards, self.common = self.boards(pan), None
        return pan.boards

    def close(self):
        """Ends all benches."""
        self.trial.close()
        for boards in [self.common, *(pan.boards for pan in self.pans.values())]:
            if boards is not None:
                boards.close()

    def has_network_key(self):
        """Whether the network key of any PAN is known, and not only given."""
        return any(pan.has_key for pan in self.pans.values())

    # ---- a frame ----

    def hear(self, packet):
        """What is found of a frame of the capture."""
        if self.first_time is None:
            self.first_time = packet.time
        heard = Heard(packet.number, packet.time - self.first_time)
        try:
            frame = mac.read(links.frame_of(packet, self.by_chip))
        except links.Passed as passed:
            heard.inside = str(passed)
            return heard
        heard.pan, heard.source, heard.destination = frame.pan, frame.source, frame.destination
        if frame.name is None:
            self.hear_network(heard, frame)
        else:
            heard.inside = frame.name
        return heard

    def hear_network(self, heard, frame):
        """Asks about a network frame."""
        octets, header = frame.payload, headers.network(frame.payload)
        pan = self.pans.setdefault(frame.pan, Pan())
        answer = self.boards(pan).open(octets[:MOST_FIELD])
        heard.network, heard.foreign = verdict(answer), not pan.has_key
        if header is not None:
            heard.source, heard.destination = header.source, header.destination
            if header.secured and answer[1] not in ALIKE:
                heard.counter, heard.sender = headers.counter_and_sender(octets, header.size)
        if answer[0] != "ok":
            heard.repeats = self.networks.find(heard, octets) if fits(answer) else None
            return
        if opened(answer):
            self.own(pan)
            pan.has_key = True
            self.networks.keep(heard, octets)
            pan.learn(frame.source, answer[1])
            pan.learn(header.source, header.long_source or NOBODY[0])
        payload = bytes.fromhex(answer[3])[header.size:]
        heard.inside = payload.hex()
        if header.kind == headers.DATA:
            self.hear_aps(heard, pan, header, payload)

    # ---- the APS layer ----

    def hear_aps(self, heard, pan, header, octets):
        """Asks about the APS frame in a network frame."""
        sender = sender_of(pan, header, octets)
        answer, key = self.boards(pan).open_aps(sender, octets)
        if sender is not None and answer[0] != "ok" and not fits(answer):
            answer, key = self.try_labels(heard, pan, sender, octets) or (answer, key)
        heard.aps = verdict(answer)
        if answer[0] != "ok":
            heard.repeats = self.links.find(heard, octets) if fits(answer) else None
            if answer[1] == "6":
                heard.notes.append(f"its sender is {sender or 'not known'}")
            return
        if opened(answer):
            self.own(pan)
            self.links.keep(heard, octets)
            pan.learn(header.source, sender)
        plain, size = bytes.fromhex(answer[3]), headers.aps_size(octets)
        heard.inside = plain[size:].hex()
        if plain[0] & 3 == headers.COMMAND:
            self.read(heard, pan, answer, key)
        elif plain[0] & 3 == headers.DATA and plain[size - 6:size - 2] == ANNOUNCEMENT:
            announced(pan, plain[size:])

    def try_labels(self, heard, pan, sender, octets):
        """What the boards say once a label's key was found to fit, or None where none does."""
        for place, key in enumerate(self.labels, 1):
            if (sender not in NOBODY and not self.boards(pan).has_link(sender, key)
                    and self.trial.fits(sender, key, octets)):
                self.own(pan).link(sender, key)
                heard.notes.append("opened with the label's key" if len(self.labels) == 1
                                   else f"opened with the key of label {place}")
                return self.boards(pan).open_aps(sender, octets)
        return None

    # ---- commands ----

    def read(self, heard, pan, answer, key):
        """Reads a command, and takes the keys that it brings."""
        _, _, protection, plain = answer
        bench = self.boards(pan).first().bench
        word, *fields = bench.ask("read", protection, plain)
        if word != "ok":
            heard.inside = f"{' '.join(fields)} {heard.inside}"
            if fields[0] == "12":
                heard.notes.append(unwelcome(bench, protection, plain))
            return
        heard.command, heard.inside = tuple(fields), " ".join(fields)
        match fields:
            case ["transport1", new, number, destination, source]:
                self.share(pan, key, destination, source)
                pan.has_key = True
                if self.own(pan).install(int(number), new):
                    heard.notes.append(f"network key {number} is known from here on")
            case ["transport4", new, destination, source, _]:
                self.share(pan, key, destination, source)
                if self.share(pan, new, destination, source):
                    heard.notes.append("a new link key of both ends is known from here on")
            case ["transport3", new, partner, *_]:
                if self.share(pan, new, partner):
                    heard.notes.append(f"a link key of {partner} is known from here on")

    def share(self, pan, key, *ends):
        """A link key is that of each end; whether it is new to one of them."""
        return any([self.own(pan).link(end, key) for end in ends if end not in NOBODY])


# ---- what is read ------------------------------------------------------------------------------

def verdict(answer):
    """A bench's answer to an opening, in the log's words."""
    if answer[0] == "ok":
        return "opened" if opened(answer) else "unsecured"
    return " ".join(answer[1:])


def sender_of(pan, header, octets):
    """The sender of a secured APS frame: as the frame says, else the long address of its source,
    if that is known."""
    if not headers.aps_secured(octets):
        return None
    _, sender = headers.counter_and_sender(octets, headers.aps_size(octets))
    return sender or header.long_source or pan.longs.get(header.source)


def announced(pan, payload):
    """Learns from a device announcement: sequence number, short address, long address."""
    if len(payload) >= 11:
        pan.learn(headers.digits(payload[1:3]), headers.digits(payload[3:11]))


def unwelcome(bench, protection, plain):
    """Words on a command under another protection than 01 lists, and how to go on with a key."""
    words = "in clear" if protection == "none" else f"under key identifier {protection}"
    for other in ("2", "3", "0", "none"):
        match bench.ask("read", other, plain):
            case ["ok", "transport1", key, number, *_]:
                return (f"a network key {words}, which 01 doesn't trust; if you do: "
                        f"--network-key {number}:{key}")
            case ["ok", "transport4", key, destination, source, _]:
                return (f"a link key {words}, which 01 doesn't trust; if you do: "
                        f"--link-key {destination}:{key} --link-key {source}:{key}")
    return f"{words}, where 01 asks for another protection"
