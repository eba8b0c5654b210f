"""What can be read of network and APS frames without a key: addresses, sizes, who says it was them.

Document 01, "Layout of a network frame", "Layout of an APS frame" and "The auxiliary header". This
judges nothing: a frame that is cut or has another form gives None, and what is wrong with it the
bench says.
"""

from dataclasses import dataclass

DATA, COMMAND, ACK = range(3)  # types of both layers; the network has no acknowledgements
GROUP = 3                      # a delivery


@dataclass(slots=True)
class Network:
    """The header of a network frame."""
    kind: int
    destination: str        # addresses in hex digits, most significant first
    source: str
    long_destination: str   # empty where the frame doesn't announce it
    long_source: str
    secured: bool
    size: int


def digits(octets):
    """An address as it is written: most significant first."""
    return octets[::-1].hex()


def network(octets):
    """The header that a network frame starts with, or None."""
    if len(octets) < 8:
        return None
    control = octets[0] | octets[1] << 8
    size, longs = 8, []
    for bit in (11, 12):
        announced = control >> bit & 1
        longs.append(digits(octets[size:size + 8]) if announced else "")
        size += 8 * announced
    if control >> 10 & 1:
        if len(octets) < size + 2:
            return None
        size += 2 + 2 * octets[size]
    if len(octets) < size:
        return None
    return Network(control & 3, digits(octets[2:4]), digits(octets[4:6]), *longs,
                   bool(control >> 9 & 1), size)


def aps_size(octets):
    """The octets of an APS frame's header, or None where the form is none of 01's."""
    if not octets:
        return None
    kind, delivery = octets[0] & 3, octets[0] >> 2 & 3
    if kind == DATA:
        return 9 if delivery == GROUP else 8
    if kind == COMMAND:
        return 2
    if kind == ACK:
        return 2 if octets[0] >> 4 & 1 else 8
    return None


def aps_secured(octets):
    """Whether an APS frame says that it is secured."""
    return bool(octets and octets[0] >> 5 & 1)


def counter_and_sender(octets, start):
    """The counter and the sender of an auxiliary header; the sender is empty where the header has
    none, and both are None where it is cut."""
    if start is None or len(octets) < start + 5:
        return None, None
    counter = int.from_bytes(octets[start + 1:start + 5], "little")
    if not octets[start] >> 5 & 1:
        return counter, ""
    if len(octets) < start + 13:
        return None, None
    return counter, digits(octets[start + 5:start + 13])
