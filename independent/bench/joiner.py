"""The script of `bench`: the TLVs that a joiner sends, in Update-Device and in Relay.

Source document 004, "Joiner TLVs"; document 02 (iv), whose length octet 004's code has too, in
`.u8Len = sizeof(tuFragParams) - 1 - ZPS_TLV_HDR_SIZE`. It names the TLVs and has no numbers for
their tags: here they are the ones that Wireshark 4.4 has for the specification's names. DECISIONS,
iv-inside, iv-joiner-tags, iv-joiner-values.
"""

from ..lines import address, ok, sure
from .commands import DEVICE, HASH, WIRE_DEVICE
from .tlvs import RELAYS, UPDATE, Carriers
from .tools import OWN, Station, key, opened, tlv

TAGS = {
    "Relay Message TLV": 0x00,  # of document 01's rule for Relay
    "Manufacturer Specific Global TLV": 0x40,
    "Supported Key Negotiation Methods Global TLV": 0x41,
    "Fragmentation Parameters Global TLV": 0x47,
    "Joiner Encapsulation Global TLV": 0x48,
}
MESSAGE, MAKER, METHODS, FRAGMENTS, JOINER = TAGS.values()

# The two masks have no value in document 004; these are the ones that it calls supported.
METHODS_MASK = 1 | 2                               # STATKEYREQ, SPEKEAES128
SECRETS_MASK = 1 | 4                               # SYMMETRIC, PASSCODE
FIELDS = {  # in the order of document 004's code: name, octets, value
    MAKER: (("u16ZigbeeManufId", 2, 0x1234), ("au8Extra[0]", 1, 0xAA), ("au8Extra[1]", 1, 0xBB)),
    FRAGMENTS: (("u16NodeId", 2, 1), ("u8FragOpt", 1, 2), ("u16InMaxLen", 2, 10)),
    METHODS: (("u8KeyNegotProtMask", 1, METHODS_MASK), ("u8SharedSecretsMask", 1, SECRETS_MASK)),
}
VALUES = {tag: b"".join(number.to_bytes(size, "little") for _, size, number in fields)
          for tag, fields in FIELDS.items()}
INSIDE = b"".join(tlv(tag, value) for tag, value in VALUES.items())
ENCAPSULATION = tlv(JOINER, INSIDE)
OTHER_MAKER = b"\x34\x12\xcc"  # tuTlvTestSpecific2, whose content document 004 doesn't have: ours
SECOND = tlv(MAKER, OTHER_MAKER)
NOTHING = dict.fromkeys(TAGS.values(), b"")
PARENT = 0x00124B0000000A11


def with_lengths(values):
    """TLVs with the value's length in the place of the length octet."""
    return b"".join(bytes([tag, len(value)]) + value for tag, value in values.items())


def add_update(bench):
    """The encapsulation in an Update-Device, and what it holds."""
    carriers = Carriers(bench)
    bench.group("source document 004: Update-Device with the Joiner Encapsulation; DECISIONS, "
                "iv-inside: TLVs inside of its value aren't looked at")
    carriers.each(UPDATE, ENCAPSULATION, NOTHING | {JOINER: INSIDE})
    bench.group("its value handed on as the TLVs of another Update-Device: each of them by its tag")
    carriers.each(UPDATE, INSIDE, NOTHING | VALUES)
    bench.group("a second manufacturer's TLV behind the encapsulation, before it, inside of it")
    carriers.each(UPDATE, ENCAPSULATION + SECOND, NOTHING | {JOINER: INSIDE, MAKER: OTHER_MAKER})
    carriers.each(UPDATE, SECOND + ENCAPSULATION, NOTHING | {JOINER: INSIDE, MAKER: OTHER_MAKER})
    carriers.each(UPDATE, tlv(JOINER, INSIDE + SECOND), NOTHING | {JOINER: INSIDE + SECOND})
    carriers.each(UPDATE, INSIDE + SECOND, VALUES)
    bench.group("two encapsulations, one after the other and one inside of the other; a "
                "rejoiner's, without Supported Key Negotiation Methods")
    carriers.each(UPDATE, tlv(JOINER, SECOND) + ENCAPSULATION, {JOINER: SECOND})
    carriers.each(UPDATE, tlv(JOINER, ENCAPSULATION), {JOINER: ENCAPSULATION})
    rejoining = tlv(FRAGMENTS, VALUES[FRAGMENTS])
    carriers.each(UPDATE, tlv(JOINER, rejoining), {JOINER: rejoining, METHODS: b""})
    carriers.counted()


def add_wrong(bench):
    """The encapsulation cut, and with its length octet as if it were the length."""
    carriers = Carriers(bench)
    bench.group("the encapsulation cut by one octet, to its header, to its tag; with an octet more")
    for tlvs in (ENCAPSULATION[:-1], ENCAPSULATION[:2], ENCAPSULATION[:1], ENCAPSULATION + b"\x40",
                 SECOND + ENCAPSULATION[:-1], ENCAPSULATION + SECOND[:-1]):
        carriers.refused(UPDATE, tlvs, JOINER, MAKER)
    bench.group("its length octet as if it were the length: it lacks an octet, or takes the next "
                "TLV's tag; where a single octet follows, that is its value's last")
    longer = with_lengths({JOINER: INSIDE})
    for tlvs in (longer, longer + SECOND, SECOND + longer):
        carriers.refused(UPDATE, tlvs, JOINER, MAKER)
    carriers.each(UPDATE, longer + b"\x40", NOTHING | {JOINER: INSIDE + b"\x40"})
    bench.group("length octets inside of it as if they were the lengths: not looked at there; "
                "handed on, 11")
    inside = with_lengths(VALUES)
    carriers.each(UPDATE, tlv(JOINER, inside), NOTHING | {JOINER: inside})
    carriers.refused(UPDATE, inside, *VALUES)
    carriers.counted()


def add_relayed(bench):
    """The encapsulation beside a Relay Message TLV: the joiner's address, then an APS frame."""
    carriers = Carriers(bench)
    verify_key = b"\x41\x02\x0f\x04" + WIRE_DEVICE + HASH
    bench.group("Relay with a Relay Message TLV, of the joiner's address alone or with an APS "
                "frame: the encapsulation behind it and before it")
    for message in (WIRE_DEVICE, WIRE_DEVICE + verify_key):
        relay = tlv(MESSAGE, message)
        for tlvs in (relay + ENCAPSULATION, ENCAPSULATION + relay):
            carriers.each(RELAYS, tlvs, {MESSAGE: message, JOINER: INSIDE, MAKER: b""})
    bench.group("Relay, 11: either one cut, behind and before; the encapsulation alone; seven "
                "octets of the address; the Relay Message TLV inside of the encapsulation; a "
                "length octet as if it were the length")
    relay, longer = tlv(MESSAGE, WIRE_DEVICE), with_lengths({MESSAGE: WIRE_DEVICE})
    for tlvs in (relay + ENCAPSULATION[:-1], ENCAPSULATION + relay[:-1],
                 relay[:-1] + ENCAPSULATION, ENCAPSULATION[:-1] + relay, ENCAPSULATION,
                 tlv(MESSAGE, WIRE_DEVICE[:7]) + ENCAPSULATION, tlv(JOINER, INSIDE + relay),
                 longer + ENCAPSULATION, ENCAPSULATION + longer,
                 relay + with_lengths({JOINER: INSIDE})):
        carriers.refused(RELAYS, tlvs, JOINER)
    carriers.counted()


def add_sealed(bench):
    """A parent's Update-Device with its joiner's TLVs, sealed; the centre opens and reads it."""
    bench.group("a parent's sealed Update-Device with the encapsulation, opened and read")
    bench.board(OWN)
    bench.link(PARENT, key(4))
    plain = b"\x41\x07\x06" + WIRE_DEVICE + b"\x08\x3c\x01" + ENCAPSULATION
    frame = Station(PARENT).link(OWN, key(4)).seal_aps(OWN, 0, plain)
    bench.open_aps(0, frame, opened(PARENT, 0, plain))
    bench.add("read", 0, plain, expect=ok("update", address(DEVICE), 0x3C08, 1, ENCAPSULATION))
    bench.add("tlv", 0, JOINER, plain, expect=ok(INSIDE))


def add_joiner(bench):
    """All of this file."""
    sure(ENCAPSULATION.hex(" ") == "48 10 40 03 34 12 aa bb 47 04 01 00 02 0a 00 41 01 03 05",
         "the octets of the encapsulation", ENCAPSULATION.hex(" "))
    for add in (add_update, add_wrong, add_relayed, add_sealed):
        add(bench)
