"""The script of the program `vectors`: published values, and the edges of lengths and refusals."""

from ..lines import Script, flip, ok, refused, run_of
from ..model import ccm, mmo
from ..published import annexc, fips197, rfc3610
from .desk import MOST

KEY = bytes(range(0x10, 0x20))
N13 = bytes(range(0xA0, 0xAD))


def add_blocks(script):
    """FIPS 197, and blocks of equal octets."""
    script.group("FIPS 197, appendices B and C.1")
    for _, key, block, enciphered in fips197():
        script.add("aes", key, block, expect=ok(enciphered))
    script.group("aes: all zero, all ones")
    for key in (bytes(16), b"\xff" * 16):
        for block in (bytes(16), b"\xff" * 16):
            script.add("aes", key, block)


def add_rfc3610(script):
    """Each vector sealed, opened, and opened with a bit of the tag, then of text or A, flipped."""
    script.group("RFC 3610, packet vectors 1 to 24: sealed, opened, twice altered")
    for number, M, key, nonce, a, m, sealed in rfc3610():
        n, split = int(number), len(sealed) - M
        text, tag = sealed[:split], sealed[split:]
        script.add("seal", M, key, nonce, a, m, expect=ok(sealed))
        script.add("open", M, key, nonce, a, sealed, expect=ok(m))
        script.add("open", M, key, nonce, a, text + flip(tag, 11 * n), expect=refused(9))
        if n % 2:
            script.add("open", M, key, nonce, a, flip(text, 13 * n) + tag, expect=refused(9))
        else:
            script.add("open", M, key, nonce, flip(a, 5 * n), sealed, expect=refused(9))


def add_annexc(script):
    """Annex C of the 2005 edition."""
    script.group("Zigbee Annex C.3 to C.6, with the values printed between")
    for _, word, fields, result in annexc():
        script.add(word, *fields, expect=ok(result))


def add_hashes(script):
    """Lengths about the padding's edges and about the greatest allowed."""
    script.group("hash: lengths")
    for length in (0, 1, 13, 14, 15, 16, 17, 29, 30, 32, 240, 241, 256, 257, 512):
        script.add("hash", run_of(length), expect=refused(2) if length > 256 else None)
    script.group("keyedhash: lengths")
    for length in (0, 1, 13, 14, 16, 17, 239, 240, 241, 512):
        script.add("keyedhash", KEY, run_of(length), expect=refused(2) if length > 240 else None)
    script.group("keyedhash: the two octets that a link key is hashed over")
    for octet in (b"\x00", b"\x02"):
        script.add("keyedhash", b"ZigBeeAlliance09", octet)


A_LENGTHS = (0, 1, 13, 14, 15, 30, 31, 128, 129)
P_LENGTHS = (0, 1, 15, 16, 17, 31, 32, 90, 128, 129)


def add_lengths(script):
    """For every M each length of P once, against the lengths of A in turn."""
    for turn, M in enumerate(ccm.TAGS):
        script.group(f"M = {M}: lengths of A and P, sealed and opened")
        for i, p_length in enumerate(P_LENGTHS):
            a_length = A_LENGTHS[(i + turn) % len(A_LENGTHS)]
            key, nonce = run_of(16, 17 * M + i), run_of(13, 29 * i + M)
            a, p = run_of(a_length, 5), run_of(p_length, M)
            sealed = ccm.seal(M, key, nonce, a, p)
            long = a_length > MOST or p_length > MOST
            script.add("seal", M, key, nonce, a, p, expect=refused(2) if long else ok(sealed))
            script.add("open", M, key, nonce, a, sealed, expect=refused(2) if long else ok(p))


def add_forged(script):
    """For every M a wrong key or nonce, and the last bit; with M = 0 nothing is ever forged."""
    script.group("key or nonce altered, then the last bit, for every M")
    a, p = run_of(22), run_of(20, 9)
    for turn, M in enumerate(ccm.TAGS):
        sealed = ccm.seal(M, KEY, N13, a, p)
        expect = refused(9) if M else None
        key, nonce = (flip(KEY, 17 * M), N13) if turn % 2 else (KEY, flip(N13, 13 * M))
        script.add("open", M, key, nonce, a, sealed, expect=expect)
        script.add("open", M, KEY, N13, a, flip(sealed, -1), expect=expect)
    script.group("M = 0: a bit of the text, then of A, changed")
    sealed = ccm.seal(0, KEY, N13, a, p)
    script.add("open", 0, KEY, N13, a, flip(sealed, 8), expect=ok(flip(p, 8)))
    script.add("open", 0, KEY, N13, flip(a, 8), sealed, expect=ok(p))
    script.group("a tag cut for another M")
    for M, other in ((4, 6), (8, 4), (16, 0), (6, 8)):
        c = ccm.seal(M, KEY, N13, a, p)
        script.add("open", other, KEY, N13, a, c, expect=refused(9) if other else None)


def add_refusals(script):
    """Wrong M, too long, too short, and which refusal comes first."""
    p = run_of(20, 9)
    script.group("wrong M")
    for M in (1, 2, 3, 5, 17, 255):
        script.add("seal", M, KEY, N13, b"", p, expect=refused(14))
        script.add("open", M, KEY, N13, b"", p, expect=refused(14))
    script.group("14 before 2")
    script.add("seal", 3, KEY, N13, run_of(129), p, expect=refused(14))
    script.add("open", 3, KEY, N13, run_of(129), p, expect=refused(14))
    script.group("C shorter than M, then just the tag")
    for M in ccm.TAGS[1:]:
        script.add("open", M, KEY, N13, b"\x01", run_of(M - 1), expect=refused(3))
        script.add("open", M, KEY, N13, b"\x01", run_of(M), expect=refused(9))
    script.add("open", 4, KEY, N13, b"\x01", b"", expect=refused(3))
    script.add("open", 0, KEY, N13, b"\x01", b"", expect=ok(b""))
    script.group("2 before 3")
    script.add("open", 16, KEY, N13, run_of(129), b"\x00", expect=refused(2))
    script.group("the longest fields")
    long = run_of(256)
    script.add("seal", 4, KEY, N13, long, p, expect=refused(2))
    script.add("seal", 4, KEY, N13, b"", long, expect=refused(2))
    script.add("open", 4, KEY, N13, b"", long, expect=refused(2))
    script.add("seal", 4, KEY, N13, run_of(257), p, expect="bad")
    script.add("seal", 4, KEY, N13, b"", run_of(257), expect="bad")
    script.add("open", 4, KEY, N13, b"", run_of(257), expect="bad")
    script.add("hash", run_of(513), expect="bad")
    script.add("keyedhash", KEY, run_of(513), expect="bad")


def add_lends(script):
    """Lent outputs: exact, one octet short, none; and the refusals around 1."""
    a = run_of(22)
    for M, p_length in ((0, 20), (4, 0), (4, 20), (16, 128)):
        p = run_of(p_length, 9)
        c = ccm.seal(M, KEY, N13, a, p)
        script.group(f"M = {M}, {p_length} octets: exact room, one octet short")
        script.add("lend", len(c), expect="ok")
        script.add("seal", M, KEY, N13, a, p, expect=ok(c))
        script.add("lend", len(c) - 1, expect="ok")
        script.add("seal", M, KEY, N13, a, p, expect=refused(1))
        script.add("lend", p_length, expect="ok")
        script.add("open", M, KEY, N13, a, c, expect=ok(p))
        if p_length:
            script.add("lend", p_length - 1, expect="ok")
            script.add("open", M, KEY, N13, a, c, expect=refused(1))
    script.group("nothing lent: 14, 2 and 3 before 1, 1 before 9")
    p = run_of(20, 9)
    c = ccm.seal(8, KEY, N13, a, p)
    script.add("lend", 0, expect="ok")
    script.add("seal", 9, KEY, N13, a, p, expect=refused(14))
    script.add("open", 9, KEY, N13, a, c, expect=refused(14))
    script.add("seal", 8, KEY, N13, run_of(129), p, expect=refused(2))
    script.add("open", 8, KEY, N13, run_of(129), c, expect=refused(2))
    script.add("open", 8, KEY, N13, a, run_of(7), expect=refused(3))
    script.add("seal", 8, KEY, N13, a, p, expect=refused(1))
    script.add("open", 8, KEY, N13, a, flip(c, 0), expect=refused(1))
    script.add("seal", 0, KEY, N13, a, b"", expect=ok(b""))
    script.add("open", 8, KEY, N13, a, ccm.seal(8, KEY, N13, a, b""), expect=ok(b""))
    script.add("hash", b"\xc0")
    script.group("a bad lend changes nothing")
    script.add("lend", 27, expect="ok")
    script.add("lend", 257, expect="bad")
    script.add("seal", 8, KEY, N13, a, p, expect=refused(1))
    script.group("back to 256")
    script.add("lend", 256, expect="ok")
    script.add("seal", 8, KEY, N13, a, p, expect=ok(c))
    script.add("open", 8, KEY, N13, a, c, expect=ok(p))


def add_bad(script):
    """Lines that are not the language's."""
    key, nonce = KEY.hex(), N13.hex()
    script.group("bad: hex")
    for data in ("abc", "0g", "c0 ", " c0", "0xc0", "é0", "c0\r", "+c"):
        script.add("hash", data, expect="bad")
    script.group("bad: lengths of key, block and nonce")
    for wrong in (key[:-1], key + "0", key[:-2], key + "00", ""):
        script.add("aes", wrong, key, expect="bad")
    script.add("aes", key, key[:-2], expect="bad")
    script.add("aes", key, key + "00", expect="bad")
    script.add("keyedhash", key[:-2], "c0", expect="bad")
    script.add("seal", 4, key[:-1], nonce, "", "", expect="bad")
    script.add("open", 4, key + "00", nonce, "", "00", expect="bad")
    for wrong in (nonce[:-1], nonce[:-2], nonce + "00", ""):
        script.add("seal", 4, key, wrong, "", "", expect="bad")
    script.add("open", 4, key, nonce[:-2], "", "00", expect="bad")
    script.group("bad: decimals")
    for wrong in ("04", "00", "256", "18446744073709551620", "-4", "4 ", "", "a"):
        script.add("seal", wrong, key, nonce, "", "", expect="bad")
    script.add("open", "08", key, nonce, "", "", expect="bad")
    for wrong in ("007", "00", "4294967296", "+1", "", "256\r"):
        script.add("lend", wrong, expect="bad")
    script.group("bad: number of fields")
    for line in (f"aes\t{key}", f"aes\t{key}\t{key}\t", f"seal\t4\t{key}\t{nonce}\t",
                 f"seal\t4\t{key}\t{nonce}\t\t\t", f"open\t4\t{key}\t{nonce}\t",
                 f"open\t4\t{key}\t{nonce}\t\t\t", "hash", "hash\tc0\tc0", "hash\t\tc0", "hash c0",
                 f"keyedhash\t{key}", f"keyedhash\t{key}\tc0\tc0", "lend", "lend\t1\t1"):
        script.raw(line, "bad")
    script.group("bad: words")
    for line in ("sing\tc0", "HASH\tc0", "hashes\tc0", "has\tc0", " hash\tc0", "\thash\tc0", "\r",
                 " # no comment"):
        script.raw(line, "bad")


def add_fine(script):
    """Lines that only look bad."""
    key, nonce = KEY.hex(), N13.hex()
    c0 = ok(bytes.fromhex("ae3a102a28d43ee0d4a09e22788b206c"))  # Annex C.5.1
    script.group("fine: empty lines, comments, either case of hex, empty fields")
    script.raw("")
    script.raw("#")
    script.raw("#\thash\tc0")
    script.raw("")
    script.raw("hash\tC0", c0)
    script.raw("hash\tc0", c0)
    for _, block_key, block, enciphered in fips197():
        script.raw("aes\t" + block_key.hex().upper() + "\t" + block.hex().upper(), ok(enciphered))
    script.raw("hash\t", ok(mmo.digest(b"")))
    script.raw(f"keyedhash\t{key}\t", ok(mmo.keyed(KEY, b"")))
    script.raw(f"seal\t4\t{key}\t{nonce}\t\t", ok(ccm.seal(4, KEY, N13, b"", b"")))
    script.raw(f"seal\t0\t{key}\t{nonce}\t\t", ok(b""))
    script.raw(f"open\t0\t{key}\t{nonce}\t\t", ok(b""))
    script.group("the last line has no line feed")
    script.raw("hash\tc0", c0)


def make_script():
    """The whole script."""
    script = Script()
    for add in (add_blocks, add_rfc3610, add_annexc, add_hashes, add_lengths, add_forged,
                add_refusals, add_lends, add_bad, add_fine):
        add(script)
    return script
