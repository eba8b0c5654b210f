"""The part of trials' script that reads frames and lays headers."""

from ..lines import Chance, ok, refused

ZERO, ONES = "0" * 16, "f" * 16
SENDER, WIRE_SENDER = "0000000100000000", "0000000001000000"
GIVEN = "00124b00aabbccdd"
TAG = "c1c2c3c4"
PLAIN = "0800fcff00001e01"                         # a data frame of version 2, header alone
SECURED = "0802fcff00001e01"                       # the same with bit 9 set
AUX = "28" + "05000000" + WIRE_SENDER + "07"       # counter 5, key sequence number 7
APS_AUX = "20" + "05000000" + WIRE_SENDER
SHORT_AUX = "00" + "05000000"
LONGS = "1111111111111111" + "2222222222222222"    # two 64-bit addresses
READ_SEED, READS = 1002, 40


# ---- answers as they are expected ----------------------------------------------------------------

def plain(h):
    """An unsecured frame."""
    return ok("plain", h)


def network(h, control=0x28, counter=5, sender=SENDER, sequence=7):
    """A secured network frame."""
    return ok("secured", h, 14, control, counter, sender, sequence)


def aps(h, control=0x20, counter=5, sender=SENDER):
    """A secured APS frame that carries its sender."""
    return ok("secured", h, 13, control, counter, sender, 0)


def short_aps(h, control=0x00, counter=5, sender=GIVEN):
    """A secured APS frame that does not."""
    return ok("secured", h, 5, control, counter, sender, 0)


def add_cuts(script, title, line, frame, least, expect):
    """Every cut of a frame: 3 below so many octets."""
    script.group(title)
    for n in range(len(frame) // 2 + 1):
        script.add(*line, frame[:2 * n], expect=refused(3) if n < least else expect)


# ---- the network header --------------------------------------------------------------------------

def add_network_forms(script):
    """Control values one by one."""
    script.group("network: every type, version and discovery value")
    for low in ([0x08 + kind for kind in range(4)] + [4 * version for version in range(16)]
                + [0x08 + 0x40 * discovery for discovery in range(4)]
                + [0x49, 0x4A, 0x4B, 0x89, 0xC9, 0x88, 0x05, 0x09, 0x0D, 0x28, 0x18, 0xFF]):
        expect = plain(8) if low in (0x08, 0x09, 0x48, 0x49) else refused(4)
        script.add("frame", f"{low:02x}" + PLAIN[2:], expect=expect)
        if low % 4 != 0 or low >= 0x40:
            script.add("plainframe", f"{low:02x}" + PLAIN[2:], expect=expect)
    script.group("network: multicast and bits 14 and 15 are 4, whatever else; bit 13 is not judged")
    for high in (0x01, 0x40, 0x80, 0x03, 0x42, 0x82, 0xFF):
        script.add("frame", f"08{high:02x}" + SECURED[4:] + AUX + TAG, expect=refused(4))
        script.add("frame", f"08{high:02x}", expect=refused(4))
        script.add("plainframe", f"08{high:02x}" + PLAIN[4:], expect=refused(4))
    for word in ("frame", "plainframe"):
        script.add(word, "0820" + PLAIN[4:], expect=plain(8))
        script.add(word, "4920" + PLAIN[4:] + "aabb", expect=plain(8))
    script.add("frame", "0822" + SECURED[4:] + AUX + TAG, expect=network(8))


def network_frame(security, route, destination, source, end_device):
    """A header by its five free bits, with a route of two, and its length."""
    high = 2 * security + 4 * route + 8 * destination + 16 * source + 32 * end_device
    longs = LONGS[:16] * destination + LONGS[16:] * source
    header = f"08{high:02x}" + PLAIN[4:] + longs + "0200aaaabbbb" * route
    return header, len(header) // 2


def add_network_bits(script):
    """Every set of the five free bits: whole and one octet short."""
    for security in (0, 1):
        script.group(f"network: long addresses, routes and end device, security {security}")
        for bits in range(16):
            header, h = network_frame(security, bits & 1, bits >> 1 & 1, bits >> 2 & 1, bits >> 3)
            whole = header + (AUX + TAG) * security
            script.add("frame", whole, expect=network(h) if security else plain(h))
            script.add("frame", whole[:-2], expect=refused(3))
            if not security:
                script.add("plainframe", header, expect=plain(h))


def add_routes(script):
    """Source routes of every kind, up to where a frame of the language ends."""
    script.group("network: source routes; the index is not judged")
    header = "0804" + PLAIN[4:]
    for word in ("frame", "plainframe"):
        for n, index in ((0, 0), (0, 255), (1, 0), (2, 200), (123, 1)):
            route = f"{n:02x}{index:02x}" + "ab" * (2 * n)
            script.add(word, header + route, expect=plain(10 + 2 * n))
            script.add(word, header + route[:-2], expect=refused(3))
        for n in (124, 128, 255):
            script.add(word, header + f"{n:02x}00" + "ab" * 246, expect=refused(3))
        script.add(word, header, expect=refused(3))
        script.add(word, header + "00", expect=refused(3))
    script.group("network: secured behind a route")
    header = "0806" + PLAIN[4:]
    for n in (0, 1, 114):
        route = f"{n:02x}07" + "ab" * (2 * n)
        script.add("frame", header + route + AUX + TAG, expect=network(10 + 2 * n))
        script.add("frame", header + route + (AUX + TAG)[:-2], expect=refused(3))
    script.group("network: a route that eats the auxiliary header: what is left is judged as one")
    for n, expect in ((6, 5), (8, 5), (9, 3), (10, 3), (255, 3)):
        script.add("frame", header + f"{n:02x}00" + AUX + TAG, expect=refused(expect))
    script.group("network: long addresses of any value, zero and all ones too")
    for longs in ("00" * 16, "ff" * 16):
        script.add("frame", "081a" + SECURED[4:] + longs + AUX + TAG, expect=network(24))
        script.add("frame", "0818" + PLAIN[4:] + longs, expect=plain(24))


def add_network_security(script):
    """Every security control, and the sender."""
    script.group("network: every security control; the level and bits 6 and 7 are not judged")
    good = [*range(0x28, 0x30), *range(0x68, 0x70), *range(0xA8, 0xB0), *range(0xE8, 0xF0)]
    for control in range(256):
        script.add("frame", SECURED + f"{control:02x}" + AUX[2:] + TAG,
                   expect=network(8, control) if control in good else refused(5))
    script.group("network: senders")
    for wire, sender in (("00" * 8, None), ("ff" * 8, None), ("01" + "00" * 7, ZERO[:-1] + "1"),
                         ("00" * 7 + "01", "01" + ZERO[2:]), ("fe" + "ff" * 7, ONES[:-1] + "e"),
                         ("ff" * 7 + "7f", "7" + ONES[1:]),
                         ("0102030405060708", "0807060504030201")):
        script.add("frame", SECURED + AUX[:10] + wire + "07" + TAG,
                   expect=network(8, sender=sender) if sender else refused(5))
    script.group("network: counters and key sequence numbers of any value")
    for wire, counter, sequence in (("00000000", 0, 0), ("ffffffff", 4294967295, 255),
                                    ("01020304", 67305985, 128), ("feffffff", 4294967294, 1)):
        script.add("frame", SECURED + "28" + wire + WIRE_SENDER + f"{sequence:02x}" + TAG,
                   expect=network(8, 0x28, counter, SENDER, sequence))


def add_network_order(script):
    """Cuts, and which refusal comes first."""
    add_cuts(script, "network: every cut of a secured frame (M12: 25 octets are cut, 26 are not)",
             ("frame",), SECURED + AUX + TAG + "99", 26, network(8))
    header, h = network_frame(1, 1, 1, 1, 1)
    add_cuts(script, "network: every cut, with long addresses and a route", ("frame",),
             header + AUX + TAG, h + 18, network(h))
    header, h = network_frame(0, 1, 0, 1, 1)
    add_cuts(script, "network: every cut of an unsecured frame", ("frame",), header, h, plain(h))
    header, h = network_frame(0, 1, 0, 0, 0)
    add_cuts(script, "network: every cut of one to seal", ("plainframe",), header, h, plain(h))
    script.group("network: 3 for the control, then 4, then 3")
    for frame, expect in (("", 3), ("ff", 3), ("ffff", 4), ("0840", 4), ("0800", 3), ("0802", 3)):
        script.add("frame", frame, expect=refused(expect))
    script.group("network: 3 up to the security control, 5 for it, 3, 5 for the sender")
    for frame, expect in ((SECURED, 3), (SECURED + "00", 5), (SECURED + "08", 5),
                          (SECURED + "20", 5), (SECURED + "28", 3), (SECURED + "ff", 5),
                          (SECURED + "28" + "05000000" + "00" * 8 + "07" + TAG[:-2], 3),
                          (SECURED + "28" + "05000000" + "00" * 8 + "07" + TAG, 5),
                          (SECURED + "28" + "05000000" + "ff" * 8 + "07", 3),
                          (SECURED + "2d" + "05000000" + "ff" * 8 + "07" + TAG + "99", 5)):
        script.add("frame", frame, expect=refused(expect))
    script.group("network, to seal: a security bit is 4, before 3")
    for frame, expect in (("", 3), ("08", 3), ("0802", 4), (SECURED, 4), (SECURED + AUX + TAG, 4),
                          ("0806", 4), ("0800", 3), (PLAIN[:-2], 3)):
        script.add("plainframe", frame, expect=refused(expect))
    script.group("network: a frame of 256 octets is read; its length is the opening's to judge")
    script.add("frame", PLAIN + "55" * 248, expect=plain(8))
    script.add("frame", SECURED + AUX + "55" * 234, expect=network(8))
    script.add("plainframe", PLAIN + "55" * 248, expect=plain(8))


# ---- the APS header ------------------------------------------------------------------------------

# The seven listed forms by their control octet, and the length of each header. Bit 5 is security
# and bit 6 an acknowledgement request, either of which any of them may have.
FORMS = {0x00: 8, 0x08: 8, 0x0C: 9, 0x01: 2, 0x09: 2, 0x02: 8, 0x12: 2}


def add_aps_forms(script):
    """Every control octet. A frame of 0x20 alone has a security control of 0x20 anywhere."""
    script.group("aps: every control octet")
    filler = "20" * 25
    for control in range(256):
        h = None if control & 0x80 else FORMS.get(control & 0x1F)
        expect = refused(4)
        if h and control & 0x20:
            expect = aps(h, 0x20, 0x20202020, "20" * 8)
        elif h:
            expect = plain(h)
        script.add("apsframe", GIVEN, f"{control:02x}" + filler, expect=expect)
    script.group("aps, to seal: the listed forms with bits 5, 6 and 7, and some others")
    for form, h in FORMS.items():
        for more, expect in ((0x00, plain(h)), (0x40, plain(h)), (0x20, refused(4)),
                             (0x80, refused(4))):
            script.add("plainaps", f"{form + more:02x}" + "20" * 8, expect=expect)
    for control in (0x03, 0x04, 0x05, 0x06, 0x0A, 0x0D, 0x10, 0x11, 0x1C):
        script.add("plainaps", f"{control:02x}" + "20" * 8, expect=refused(4))
    script.group("aps: the listed forms, header alone and one octet short")
    for form, h in FORMS.items():
        for octets, expect in ((h, plain(h)), (h - 1, refused(3))):
            frame = f"{form:02x}" + "00" * (octets - 1)
            script.add("apsframe", ZERO, frame, expect=expect)
        secured = f"{form + 0x20:02x}" + "00" * (h - 1)
        script.add("apsframe", GIVEN, secured, expect=refused(3))
        script.add("apsframe", GIVEN, secured + APS_AUX + TAG, expect=aps(h))
        script.add("apsframe", GIVEN, secured + SHORT_AUX + TAG, expect=short_aps(h))
        script.add("apsframe", GIVEN, secured + SHORT_AUX + TAG[:-2], expect=refused(3))


def add_aps_security(script):
    """Every security control, and whose address counts."""
    script.group("aps: every security control, 13 octets and a tag behind the header")
    for control in range(256):
        identifier, extended = control >> 3 & 3, control >> 5 & 1
        expect = aps(2, control) if extended else short_aps(2, control)
        script.add("apsframe", GIVEN, "2199" + f"{control:02x}" + APS_AUX[2:] + TAG,
                   expect=refused(5) if identifier == 1 else expect)
    script.group("aps: 5 octets and a tag are enough only without the extended nonce; 5 before 3")
    for control in (0x00, 0x07, 0x08, 0x10, 0x18, 0x20, 0x28, 0x30, 0x38, 0x40, 0xDF, 0xFF):
        expect = refused(3) if control & 0x20 else short_aps(2, control)
        script.add("apsframe", GIVEN, "2199" + f"{control:02x}" + "05000000" + TAG,
                   expect=refused(5) if control & 0x18 == 0x08 else expect)
    script.group("aps: the frame's sender is judged, the caller's ignored")
    for given in (ZERO, ONES, GIVEN):
        script.add("apsframe", given, "2199" + APS_AUX + TAG, expect=aps(2))
        for wire in ("00" * 8, "ff" * 8):
            script.add("apsframe", given, "2199" + "20" + "05000000" + wire + TAG,
                       expect=refused(5))
    script.group("aps: without one, the caller's counts, behind 3 for the tag")
    for header, h in (("2199", 2), ("2c" + "00" * 8, 9)):
        for given in (ZERO, ONES, GIVEN, ZERO[:-1] + "1", "f" * 15 + "e"):
            nobody = given in (ZERO, ONES)
            script.add("apsframe", given, header + SHORT_AUX + TAG,
                       expect=refused(5) if nobody else short_aps(h, sender=given))
            script.add("apsframe", given, header + SHORT_AUX + TAG[:-2], expect=refused(3))
    script.group("aps: an unsecured frame, or one refused before, whatever the caller gives")
    for given in (ZERO, ONES):
        for frame, expect in (("0199", plain(2)), ("00" * 8, plain(8)), ("", refused(3)),
                              ("03", refused(4)), ("2199", refused(3)), ("219908", refused(5)),
                              ("219900", refused(3))):
            script.add("apsframe", given, frame, expect=expect)
    script.group("aps: counters of any value")
    for wire, counter in (("00000000", 0), ("ffffffff", 4294967295), ("01020304", 67305985)):
        script.add("apsframe", GIVEN, "2199" + "30" + wire + WIRE_SENDER + TAG,
                   expect=aps(2, 0x30, counter))
        script.add("apsframe", GIVEN, "2199" + "18" + wire + TAG,
                   expect=short_aps(2, 0x18, counter))


def add_aps_order(script):
    """Every cut."""
    add_cuts(script, "aps: every cut of a data frame for a group, 13 octets", ("apsframe", GIVEN),
             "2c" + "00" * 8 + APS_AUX + TAG + "99", 26, aps(9))
    add_cuts(script, "aps: every cut of a command, 5 octets", ("apsframe", GIVEN),
             "2199" + SHORT_AUX + TAG + "99", 11, short_aps(2))
    add_cuts(script, "aps: every cut of an unsecured data frame", ("apsframe", ZERO),
             "00" * 9, 8, plain(8))
    add_cuts(script, "aps: every cut of one to seal", ("plainaps",), "0c" + "00" * 9, 9, plain(9))
    script.group("aps: 3 for the control, then 4; to seal: a security bit is 4, before 3")
    for frame, expect in (("", 3), ("80", 4), ("03", 4), ("04", 4), ("20", 4), ("2199", 4),
                          ("2199" + APS_AUX + TAG, 4), ("01", 3), ("0c" + "00" * 7, 3)):
        script.add("plainaps", frame, expect=refused(expect))
    script.group("aps: a frame of 256 octets is read")
    script.add("apsframe", GIVEN, "2199" + APS_AUX + "55" * 241, expect=aps(2))
    script.add("plainaps", "0199" + "55" * 254, expect=plain(2))


# ---- what is made --------------------------------------------------------------------------------

def add_nonces(script):
    """Nonces and auxiliary headers."""
    script.group("nonce (M1 first): level 5, other bits as they are")
    script.add("nonce", SENDER, 5, 0x28, expect=ok("0000000001000000" + "05000000" + "2d"))
    for control, last in ((0x00, "05"), (0x05, "05"), (0x07, "05"), (0x08, "0d"), (0x20, "25"),
                          (0x2D, "2d"), (0x2F, "2d"), (0x30, "35"), (0x38, "3d"), (0xC7, "c5"),
                          (0xF8, "fd"), (0xFF, "fd")):
        script.add("nonce", "0102030405060708", 287454020, control,
                   expect=ok("0807060504030201" + "44332211" + last))
    script.add("nonce", ONES, 4294967295, 255, expect=ok("ff" * 12 + "fd"))
    script.add("nonce", ZERO, 0, 7, expect=ok("00" * 12 + "05"))
    script.group("aux: level 0 and extended nonce; an identifier has two bits, and 1 sends the "
                 "number")
    for identifier, first in ((0, "20"), (1, "28"), (2, "30"), (3, "38"), (4, "20"), (5, "28"),
                              (254, "30"), (255, "38")):
        script.add("aux", identifier, 287454020, "0102030405060708", 153,
                   expect=ok(first + "44332211" + "0807060504030201"
                             + ("99" if first == "28" else "")))
    script.add("aux", 1, 5, SENDER, 7, expect=ok(AUX))
    script.add("aux", 0, 4294967295, ONES, 255, expect=ok("20" + "ff" * 12))
    script.add("aux", 3, 0, ZERO, 0, expect=ok("38" + "00" * 12))


OCTETS = "".join(f"{o:02x}" for o in range(0x40, 0x80))  # 64 octets, all different


def padded(front):
    """The output of 32 octets with so much laid in front."""
    return ok(front + "ee" * (32 - len(front) // 2))


def add_authenticated(script):
    """Authenticated octets: any place, any count."""
    script.group("auth: headers of both layers")
    script.add("auth", 8, 22, SECURED + AUX + "5555" + TAG, expect=padded(SECURED + "2d" + AUX[2:]))
    script.add("auth", 2, 15, "2199" + APS_AUX + "5555" + TAG,
               expect=padded("2199" + "25" + APS_AUX[2:]))
    script.add("auth", 2, 7, "2199" + SHORT_AUX + TAG, expect=padded("2199" + "05" + "05000000"))
    script.group("auth: every level gives way to 5, other bits stay")
    for control, known in ((0x28, "2d"), (0x29, "2d"), (0x2A, "2d"), (0x2B, "2d"), (0x2C, "2d"),
                           (0x2D, "2d"), (0x2E, "2d"), (0x2F, "2d"), (0x00, "05"), (0xFF, "fd")):
        script.add("auth", 0, 2, f"{control:02x}aabb", expect=padded(known + "aa"))
    script.group("auth: the control in the first place, the last, and behind")
    script.add("auth", 0, 3, OCTETS, expect=padded("454142"))
    script.add("auth", 2, 3, OCTETS, expect=padded("404145"))
    for h in (3, 31, 32, 63, 64, 255):
        script.add("auth", h, 3, OCTETS, expect=padded("404142"))
    script.group("auth: no octets, all that fit, one more; more than the frame has")
    script.add("auth", 0, 0, OCTETS, expect=padded(""))
    script.add("auth", 0, 0, "", expect=padded(""))
    script.add("auth", 31, 32, OCTETS, expect=ok(OCTETS[:62] + "5d"))
    script.add("auth", 31, 32, OCTETS[:64], expect=ok(OCTETS[:62] + "5d"))
    script.add("auth", 31, 32, OCTETS[:62], expect=padded(""))
    for n in (33, 64, 255):
        script.add("auth", 0, n, OCTETS, expect=padded(""))
    for h, n, frame in ((0, 1, ""), (0, 4, OCTETS[:6]), (3, 4, OCTETS[:6]), (9, 255, OCTETS[:6])):
        script.add("auth", h, n, frame, expect=padded(""))


def add_headers(script):
    """Headers with their security bit cleared and set: any layer, any length."""
    script.group("clear and raise: bit 1 of octet 1 (network), bit 5 of octet 0 (aps)")
    for octet, clear, set_ in (("00", "00", "02"), ("02", "00", "02"), ("fd", "fd", "ff"),
                               ("ff", "fd", "ff"), ("2a", "28", "2a"), ("28", "28", "2a")):
        script.add("clear", 0, 4, f"ff{octet}ffff55", expect=padded(f"ff{clear}ffff"))
        script.add("raise", 0, 4, f"00{octet}000055", expect=padded(f"00{set_}0000"))
    for octet, clear, set_ in (("00", "00", "20"), ("20", "00", "20"), ("df", "df", "ff"),
                               ("ff", "df", "ff"), ("61", "41", "61"), ("41", "41", "61")):
        script.add("clear", 1, 2, f"{octet}ff55", expect=padded(f"{clear}ff"))
        script.add("raise", 1, 2, f"{octet}0055", expect=padded(f"{set_}00"))
    script.group("clear and raise: whole headers there and back")
    script.add("clear", 0, 8, SECURED + AUX + TAG, expect=padded(PLAIN))
    script.add("raise", 0, 8, PLAIN + "5555", expect=padded(SECURED))
    script.add("clear", 1, 2, "2199" + APS_AUX + TAG, expect=padded("0199"))
    script.add("raise", 1, 2, "0199", expect=padded("2199"))
    script.group("clear and raise: a header too short for its bit, no header")
    for layer, h, cleared, raised in ((0, 2, "2220", "0002"), (0, 1, "22", "00"), (0, 0, "", ""),
                                      (1, 1, "02", "20"), (1, 0, "", "")):
        script.add("clear", layer, h, "222222", expect=padded(cleared))
        script.add("raise", layer, h, "000000", expect=padded(raised))
    script.group("clear and raise: all that fit, one more; more than the frame has")
    for word in ("clear", "raise"):
        for layer in (0, 1):
            for h, octets in ((33, 64), (255, 64), (1, 0), (9, 8), (32, 31)):
                script.add(word, layer, h, OCTETS[:2 * octets], expect=padded(""))
    script.add("clear", 0, 32, OCTETS, expect=ok(OCTETS[:64]))
    script.add("raise", 0, 32, OCTETS[:64], expect=ok("4043" + OCTETS[4:64]))
    script.add("clear", 1, 32, OCTETS[:64], expect=ok(OCTETS[:64]))
    script.add("raise", 1, 32, OCTETS, expect=ok("60" + OCTETS[2:64]))


# ---- any octets ----------------------------------------------------------------------------------

WHOLE = (PLAIN + "55", SECURED + AUX + TAG, network_frame(1, 1, 1, 0, 0)[0] + AUX + TAG,
         network_frame(0, 1, 0, 1, 1)[0], "0199" + "08", "2199" + APS_AUX + TAG, "1299",
         "2c" + "00" * 8 + SHORT_AUX + TAG, "2012" + "00" * 6 + APS_AUX + TAG, "02" + "00" * 7)


def altered(chance, octets):
    """Octets with one or two changed, then perhaps cut."""
    octets = bytearray.fromhex(octets)
    for _ in range(chance.below(2) + 1):
        octets[chance.below(min(len(octets), 26))] = chance.pick((chance.below(256), 0, 0x20, 0x28))
    return bytes(octets[:chance.pick((len(octets), len(octets), chance.below(len(octets))))])


def add_random_frames(script):
    """Whole frames altered at random, to whichever reader."""
    script.group(f"{READS} altered frames, seed {READ_SEED}")
    chance = Chance(READ_SEED)
    for _ in range(READS):
        frame = altered(chance, chance.pick(WHOLE))
        given = chance.pick((ZERO, ONES, GIVEN))
        script.add(*chance.pick((("frame",), ("apsframe", given), ("plainframe",), ("plainaps",))),
                   frame)


def add_frames(script):
    """All of this."""
    for add in (add_network_forms, add_network_bits, add_routes, add_network_security,
                add_network_order, add_aps_forms, add_aps_security, add_aps_order, add_nonces,
                add_authenticated, add_headers, add_random_frames):
        add(script)
