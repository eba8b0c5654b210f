"""The headers of both layers, the auxiliary header, the nonce and the authenticated octets.

Document 01, "Layout of a network frame", "Layout of an APS frame", "The auxiliary header and the
nonce", and the order of "Opening and sealing"; DECISIONS, route-and-payload, bits-6-and-7,
unsecured-header, callers-sender and five-octet-form.
"""

from dataclasses import dataclass

from ..lines import refuse_if
from .tables import nobody

NETWORK, APS = 0, 1
TAG = 4
LEVEL = 5
NETWORK_SECURITY = 1 << 9  # of the 16-bit network control
APS_SECURITY = 1 << 5      # of the APS control


@dataclass
class Secured:
    """What a secured frame announces."""
    header: int     # octets of the frame's header
    aux: int        # octets of the auxiliary header
    control: int    # the security control as received
    counter: int
    sender: int
    sequence: int   # 0 where there is none

    @property
    def identifier(self):
        """Bits 3 and 4 of the security control."""
        return self.control >> 3 & 3

    @property
    def start(self):
        """Where the payload starts."""
        return self.header + self.aux


def number(octets):
    """A number, least octet first."""
    return int.from_bytes(octets, "little")


def need(frame, length):
    """3 unless the frame has that many octets."""
    refuse_if(len(frame) < length, 3)


# ---- the network header ------------------------------------------------------------------------

def network_control(frame):
    """The control field, behind 3 and 4."""
    need(frame, 2)
    control = number(frame[:2])
    refuse_if(control & 3 not in (0, 1), 4)        # type: data or command
    refuse_if(control >> 2 & 15 != 2, 4)           # version
    refuse_if(control >> 6 & 3 not in (0, 1), 4)   # route discovery
    refuse_if(control >> 8 & 1, 4)                 # multicast
    refuse_if(control >> 14, 4)
    return control


def network_length(frame, control):
    """The header's length, behind 3 for all that it announces."""
    length = 8 + 8 * (control >> 11 & 1) + 8 * (control >> 12 & 1)
    if control >> 10 & 1:                          # source route: count, index, relays
        need(frame, length + 2)
        length += 2 + 2 * frame[length]
    need(frame, length)
    return length


def read_network(frame):
    """A network frame as opening reads it: its header's length, or what a secured one announces."""
    control = network_control(frame)
    header = network_length(frame, control)
    if not control & NETWORK_SECURITY:
        return header
    need(frame, header + 1)
    security = frame[header]
    refuse_if(security >> 3 & 3 != 1 or not security >> 5 & 1, 5)
    return read_auxiliary(frame, header, None)


def read_network_plain(frame):
    """The header's length of a network frame to seal."""
    control = network_control(frame)
    refuse_if(control & NETWORK_SECURITY, 4)
    return network_length(frame, control)


# ---- the APS header ----------------------------------------------------------------------------

def aps_form(control):
    """The header's length that an APS control announces, or None if the form is not listed."""
    kind, delivery, ack_format = control & 3, control >> 2 & 3, control >> 4 & 1
    if control >> 7:
        return None
    if kind == 2:
        return {(0, 0): 8, (0, 1): 2}.get((delivery, ack_format))
    if ack_format:
        return None
    return {(0, 0): 8, (0, 2): 8, (0, 3): 9, (1, 0): 2, (1, 2): 2}.get((kind, delivery))


def aps_control(frame):
    """Control and the header's length, behind 3 for the control field and 4."""
    need(frame, 1)
    length = aps_form(frame[0])
    refuse_if(length is None, 4)
    return frame[0], length


def read_aps(frame, caller):
    """An APS frame as opening reads it, the caller giving a sender for the 5-octet form."""
    control, header = aps_control(frame)
    need(frame, header)
    if not control & APS_SECURITY:
        return header
    need(frame, header + 1)
    refuse_if(frame[header] >> 3 & 3 == 1, 5)
    return read_auxiliary(frame, header, caller)


def read_aps_plain(frame):
    """The header's length of an APS frame to seal."""
    control, header = aps_control(frame)
    refuse_if(control & APS_SECURITY, 4)
    need(frame, header)
    return header


# ---- the auxiliary header ----------------------------------------------------------------------

def read_auxiliary(frame, header, caller):
    """The rest of the auxiliary header and the tag (3), then the sender (5)."""
    control = frame[header]
    long, numbered = control >> 5 & 1, control >> 3 & 3 == 1
    aux = 5 + 8 * long + numbered
    need(frame, header + aux + TAG)
    fields = frame[header + 1:header + aux]
    sender = number(fields[4:12]) if long else caller
    refuse_if(nobody(sender), 5)
    return Secured(header, aux, control, number(fields[:4]), sender,
                   fields[12] if numbered else 0)


def with_level(control):
    """The security control that is worked with: level 5, other bits as received."""
    return control & ~7 | LEVEL


def nonce(sender, counter, control):
    """Sender and counter in wire order, then the control with level 5."""
    return (sender.to_bytes(8, "little") + counter.to_bytes(4, "little")
            + bytes([with_level(control)]))


def auxiliary_header(identifier, counter, sender, sequence):
    """As sealed: level 0, extended nonce; the key sequence number if the identifier is 1."""
    return (bytes([0x20 | (identifier & 3) << 3]) + counter.to_bytes(4, "little")
            + sender.to_bytes(8, "little") + (bytes([sequence]) if identifier & 3 == 1 else b""))


# ---- octets laid onto an output ----------------------------------------------------------------
# What 01 says of these is for headers that the frame has and the output can hold. Other lengths
# leave the output as it is; that is the rule of the stored answers, not of 01.

def laid(output, frame, length, change):
    """The output with the frame's first octets, changed, laid over its start."""
    if length > len(frame) or length > len(output):
        return output
    return bytes(change(bytearray(frame[:length]))) + output[length:]


def authenticated(output, frame, header, end):
    """The frame's octets up to the auxiliary header's end, its control with level 5."""
    def change(octets):
        if header < len(octets):
            octets[header] = with_level(octets[header])
        return octets
    return laid(output, frame, end, change)


def marked(octets, layer, secured):
    """A header with its security bit set or cleared, where it has that octet."""
    place, bit = (1, NETWORK_SECURITY >> 8) if layer == NETWORK else (0, APS_SECURITY)
    if place < len(octets):
        octets[place] = octets[place] | bit if secured else octets[place] & ~bit
    return octets


def plain_header(output, layer, frame, header):
    """The header with its security bit cleared."""
    return laid(output, frame, header, lambda octets: marked(octets, layer, False))


def secured_header(output, layer, frame, header):
    """The header with its security bit set."""
    return laid(output, frame, header, lambda octets: marked(octets, layer, True))
