"""TLVs by name, made and read: for joiner.py and wireshark.py.

Source document 004 names a joiner's TLVs and their fields, and has neither octets nor tag numbers;
the tags are those that Wireshark 4.4 has for the same names (docs/DECISIONS.md, iv-joiner-tags).
Source document 000 has tag 0 of two commands, with their fields (4.4.11.1.4 and 4.4.11.9). Numbers
stand least octet first, fields in the documents' order.
"""

from bench_pipe import Differs, least

ENCAPSULATION = "Joiner Encapsulation"
FRAGMENTATION = "Fragmentation Parameters"
FEATURES = "Link-Key Features & Capabilities"
MANUFACTURER = "Manufacturer Specific"
METHODS = "Supported Key Negotiation Methods"
RELAY_MESSAGE = "Relay Message"

TAGS = {FEATURES: 0x00, RELAY_MESSAGE: 0x00, MANUFACTURER: 0x40, METHODS: 0x41,
        FRAGMENTATION: 0x47, ENCAPSULATION: 0x48}
REST = None                  # a field of all octets that are left, instead of a number
FIELDS = {
    ENCAPSULATION: {"TLVs": REST},
    FRAGMENTATION: {"node": 2, "options": 1, "longest": 2},
    FEATURES: {"features": 1},
    MANUFACTURER: {"manufacturer": 2, "extra": REST},
    METHODS: {"methods": 1, "secrets": 1},
    RELAY_MESSAGE: {"joiner": 8, "message": REST},
}
STATIC_KEY, SPEKE_AES = 1, 2   # methods (ZPS_TLV_G_SUPPKEYNEGMETH_…)
SYMMETRIC, PASS_CODE = 1, 4    # secrets (ZPS_TLV_G_PSK_…)


def of_octets(name, octets):
    """A TLV: its tag, one less than the octets of its value, and the value."""
    return bytes([TAGS[name], len(octets) - 1]) + octets


def tlv(name, *values):
    """A TLV whose value has these fields."""
    return of_octets(name, b"".join(value if size is REST else least(value, size) for size, value
                                    in zip(FIELDS[name].values(), values, strict=True)))


def fields(name, octets):
    """The fields of a value, by their names."""
    found = {}
    for field, size in FIELDS[name].items():
        part = octets if size is REST else octets[:size]
        if size is not REST and len(part) < size:
            raise Differs(f"the value of {name} is cut: {octets.hex()}")
        found[field] = part if size is REST else int.from_bytes(part, "little")
        octets = octets[len(part):]
    if octets:
        raise Differs(f"octets are left behind the fields of {name}: {octets.hex()}")
    return found


# ---- the joiner of document 004 ----------------------------------------------------------------

TEST_SPECIFIC = tlv(MANUFACTURER, 0x1234, b"\xaa\xbb")
FRAGMENTS = tlv(FRAGMENTATION, 1, 2, 10)
KEY_METHODS = tlv(METHODS, STATIC_KEY | SPEKE_AES, SYMMETRIC | PASS_CODE)
JOINER = tlv(ENCAPSULATION, TEST_SPECIFIC + FRAGMENTS + KEY_METHODS)
