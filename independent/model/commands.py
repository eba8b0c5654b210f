"""The reader and the writer of APS commands, their parts and TLVs, and the router.

Document 01, "The commands" and the table of refusals; document 02 (i), and (iv) for the length of a
TLV; the fields' order is that of source document 000, 4.4.11.1 to 4.4.11.10; DECISIONS,
addresses-unjudged, relay-any-tlv, readers-header, parts-empty, writers-order, i-inner-order to
i-inner-parts, and iv-zero-tlvs to iv-empty.
"""

from dataclasses import dataclass

from . import headers
from ..lines import refuse_if

MOST = 108
ROOM = 108
LEAST_INNER = 20
INNER_HEADER, INNER_AUXILIARY = 2, 13              # octets
LEAST_TLV = 3                                      # tag, length octet, one octet of value
PROTECTIONS = (None, 0, 2, 3)

OCTET, SHORT, ADDRESS = 1, 2, 8                    # numbers, by their octets
KEY, HASH, INNER, TLVS = "key", "hash", "inner", "tlvs"
HEADER, AUXILIARY, PAYLOAD, TAG = "header", "auxiliary", "payload", "tag"  # of an inner frame
SIXTEEN = (KEY, HASH)


@dataclass(frozen=True)
class Kind:
    """A kind of command."""
    word: str
    start: bytes         # identifier, and the type octet where the type makes the kind
    fields: tuple        # in the order of the wire
    protections: tuple
    relay: bool = False


KINDS = (
    Kind("transport1", b"\x05\x01", (KEY, OCTET, ADDRESS, ADDRESS), (2,)),
    Kind("transport4", b"\x05\x04", (KEY, ADDRESS, ADDRESS, TLVS), (3,)),
    Kind("transport2", b"\x05\x02", (KEY, ADDRESS, OCTET, TLVS), (3,)),
    Kind("transport3", b"\x05\x03", (KEY, ADDRESS, OCTET, TLVS), (3,)),
    Kind("update", b"\x06", (ADDRESS, SHORT, OCTET, TLVS), (0,)),
    Kind("remove", b"\x07", (ADDRESS,), (0,)),
    Kind("request2", b"\x08\x02", (ADDRESS,), (0,)),
    Kind("request4", b"\x08\x04", (), (0,)),
    Kind("switchkey", b"\x09", (OCTET,), (None, 0)),
    Kind("tunnel", b"\x0e", (ADDRESS, INNER), (None,)),
    Kind("verify", b"\x0f", (OCTET, ADDRESS, HASH), (None,)),
    Kind("confirm", b"\x10", (OCTET, OCTET, ADDRESS), (0,)),
    Kind("down", b"\x11", (TLVS,), (None, 0), True),
    Kind("up", b"\x12", (TLVS,), (None, 0), True),
)
BY_WORD = {kind.word: kind for kind in KINDS}


# ---- TLVs --------------------------------------------------------------------------------------

def tlvs_of(octets):
    """The TLVs that fill the octets exactly, as pairs of tag and value, or None. "The length octet
    is the value's length minus one, so 0 means one octet, and no value is empty" (document 02)."""
    found = []
    while octets:
        if len(octets) < LEAST_TLV or len(octets) < LEAST_TLV + octets[1]:
            return None
        end = LEAST_TLV + octets[1]
        found.append((octets[0], octets[2:end]))
        octets = octets[end:]
    return found


def relays(tlvs):
    """Whether at least one TLV has tag 0 and a value of 8 or more octets."""
    return any(tag == 0 and len(value) >= 8 for tag, value in tlvs)


# ---- inside of a tunnel ------------------------------------------------------------------------

def stands_inside(inner):
    """Whether a Tunnel may hold the frame: after 01's size check, "the inner header is 2 octets for
    a command, secured, without acknowledgement", and "the inner security control names identifier
    0, 2 or 3 with extended nonce" (document 02). Sender, counter and tag are not judged."""
    if len(inner) < LEAST_INNER:
        return False
    control, security = inner[0], inner[INNER_HEADER]
    command = control & 3 == 1 and headers.aps_form(control) == INNER_HEADER
    secured = control >> 5 & 1 == 1
    acknowledged = control >> 6 & 1 == 1
    named = security >> 3 & 3 in (0, 2, 3)
    extended_nonce = security >> 5 & 1 == 1
    return command and secured and not acknowledged and named and extended_nonce


def inner_parts(inner):
    """The parts of a frame that stands inside, in the order of source document 000, 4.4.11.6."""
    start, end = INNER_HEADER + INNER_AUXILIARY, len(inner) - headers.TAG
    return {HEADER: inner[:INNER_HEADER], AUXILIARY: inner[INNER_HEADER:start],
            PAYLOAD: inner[start:end], TAG: inner[end:]}


# ---- parts -------------------------------------------------------------------------------------

def fits(kind, field, value):
    """Whether the octets of a key, hash, inner frame or of all TLVs are as in the list."""
    if field in SIXTEEN:
        return len(value) == 16
    if field == INNER:
        return stands_inside(value)
    tlvs = tlvs_of(value)
    return tlvs is not None and (relays(tlvs) or not kind.relay)


# ---- reading -----------------------------------------------------------------------------------

@dataclass(frozen=True)
class Command:
    """A command: its kind and the values of its fields, numbers or octets."""
    kind: Kind
    values: tuple

    def part(self, name):
        """The octets of a key, hash, inner frame, one of its parts, or of all TLVs; empty if there
        are none."""
        parts = dict(zip(self.kind.fields, self.values))
        if INNER in parts:
            parts.update(inner_parts(parts[INNER]))
        return parts.get(name, b"")

    def value_of(self, tag):
        """The value of the first TLV of a tag; empty if there is none, and only then."""
        return next((value for t, value in tlvs_of(self.part(TLVS)) if t == tag), b"")


def split(kind, octets):
    """The values of a kind's fields that the octets fill exactly, or None."""
    values = []
    for field in kind.fields:
        if isinstance(field, int):
            size = field
        elif field in SIXTEEN:
            size = 16
        else:
            size = len(octets)
        value, octets = octets[:size], octets[size:]
        if len(value) < size or not isinstance(field, int) and not fits(kind, field, value):
            return None
        values.append(headers.number(value) if isinstance(field, int) else value)
    return None if octets else tuple(values)


def command_of(octets):
    """The command that the octets from the identifier on are, or 11."""
    for kind in KINDS:
        if octets.startswith(kind.start):
            values = split(kind, octets[len(kind.start):])
            refuse_if(values is None, 11)
            return Command(kind, values)
    return refuse_if(True, 11)


def read(protection, frame):
    """The command in a plain APS frame that came under a protection (None: none)."""
    refuse_if(protection not in PROTECTIONS, 14)
    refuse_if(len(frame) > MOST, 2)
    control, header = headers.aps_control(frame)
    headers.need(frame, header)
    refuse_if(control & 3 != 1 or control & headers.APS_SECURITY, 4)
    command = command_of(frame[header:])
    refuse_if(protection not in command.kind.protections, 12)
    return command


# ---- routing -----------------------------------------------------------------------------------

def route(protection, frame):
    """What the router hands on of a Tunnel: destination, inner frame and the parts of it. Another
    command is 11, after the reader's refusals."""
    command = read(protection, frame)
    refuse_if(command.kind != BY_WORD["tunnel"], 11)
    destination, inner = command.values
    return destination, inner, *inner_parts(inner).values()


# ---- writing -----------------------------------------------------------------------------------

def write(board, room, acknowledged, command):
    """The frame of a command; stamps the APS counter and raises it."""
    refuse_if(room < ROOM, 1)
    octets = command.kind.start
    for field, value in zip(command.kind.fields, command.values):
        if isinstance(field, int):
            octets += value.to_bytes(field, "little")
        else:
            refuse_if(not fits(command.kind, field, value), 11)
            octets += value
    frame = bytes([0x41 if acknowledged else 0x01, board.aps]) + octets
    refuse_if(len(frame) > MOST, 2)
    board.aps = (board.aps + 1) % 256
    return frame
