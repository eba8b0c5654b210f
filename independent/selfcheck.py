"""Compares the model with published vectors and with another program."""

import binascii
import random
import struct

from .lines import Wrong, flip, ok, run_of
from .model import aes, ccm, labels, mmo, opening, tables
from .published import annexc, fips197, installcodes, rfc3610
from .vectors.desk import Desk

BLOCKS, CASES, FRAMES, CODES, SEED = 1500, 1000, 300, 1000, 3610


def same(what, ours, theirs):
    """Stops at the first difference."""
    if ours != theirs:
        raise Wrong(f"{what}: ours {ours!r}, expected {theirs!r}")


def published():
    """Every row of published/; the number of comparisons."""
    for name, key, block, enciphered in fips197():
        same(f"FIPS 197 {name}", aes.encipher(key, block), enciphered)
    for name, M, key, nonce, a, m, sealed in rfc3610():
        same(f"RFC 3610 {name} sealed", ccm.seal(M, key, nonce, a, m), sealed)
        same(f"RFC 3610 {name} opened", ccm.open(M, key, nonce, a, sealed), m)
    for clause, word, fields, result in annexc():
        line = "\t".join([word, *fields]).encode("ascii")
        same(f"Annex {clause}", Desk().answer(line), ok(result))
    return len(fips197()) + 2 * len(rfc3610()) + len(annexc())


def recovered_keys():
    """The keys that Annex C.6 leaves unprinted, from the values that it prints."""
    by_clause = {clause: (fields, result) for clause, _, fields, result in annexc()}
    key = bytes.fromhex(by_clause["C.6.1"][0][0])
    inner = bytes.fromhex(by_clause["C.6.1 step 4"][0][0])[:16]
    outer = bytes.fromhex(by_clause["C.6.1 step 8"][0][0])[:16]
    same("C.6.1, key from Key1", ccm.xor(inner, mmo.IPAD), key)
    same("C.6.1, key from Key2", ccm.xor(outer, mmo.OPAD), key)
    long_key = bytes.fromhex(by_clause["C.6.2 step 1"][0][0])
    key0 = bytes.fromhex(by_clause["C.6.2"][0][0])
    same("C.6.2, Key0 from the key", mmo.digest(long_key), key0)
    inner = bytes.fromhex(by_clause["C.6.2 step 5"][0][0])[:16]
    outer = bytes.fromhex(by_clause["C.6.2 step 9"][0][0])[:16]
    same("C.6.2, Key1", ccm.xor(key0, mmo.IPAD), inner)
    same("C.6.2, Key2", ccm.xor(key0, mmo.OPAD), outer)


def bench_cases():
    """M2 to M8 of document 01."""
    nonce = bytes.fromhex("0000000001000000050000002d")
    same("M2", ccm.b0(4, nonce, b"\x00", bytes(3)), b"\x49" + nonce + b"\x00\x03")
    same("M3", ccm.counter_block(nonce, 1), b"\x01" + nonce + b"\x00\x01")
    same("M4", ccm.auth_data(run_of(22), b"")[:2], b"\x00\x16")
    for name, length, whole, ending in (("M5", 13, 16, "800068"), ("M6", 14, 32, ""),
                                        ("M7", 17, 32, "0088"), ("M8", 32, 48, "0100")):
        padded = mmo.pad(run_of(length))
        same(name, (len(padded), padded[len(padded) - len(ending) // 2:].hex()), (whole, ending))


def tagless():
    """M = 0: the ciphertext of any other M, and nothing more (A.2.3)."""
    for length in (0, 1, 16, 33):
        key, nonce, a, m = run_of(16), run_of(13, 1), run_of(9), run_of(length, 2)
        sealed = ccm.seal(0, key, nonce, a, m)
        same("M = 0 sealed", sealed, ccm.seal(16, key, nonce, a, m)[:length])
        same("M = 0 opened", ccm.open(0, key, nonce, a, sealed), m)


def install_codes():
    """The published install codes, and the value that catalogues of CRCs give for this one; the
    number of comparisons."""
    same("CRC-16/X-25 of 123456789", labels.crc(b"123456789"), 0x906E)
    for length, code, crc, key in installcodes():
        same(f"install code of {length}, its length", len(code), length)
        same(f"install code of {length}, CRC", labels.with_crc(code), code + crc)
        same(f"install code of {length}, key", labels.link_key(code), key or labels.link_key(code))
        text = labels.print_label(256, code)
        same(f"install code of {length}, read back", labels.read_label(text)[0], code)
    return 1 + sum(2 if key else 1 for *_, key in installcodes())


def turned(number, bits):
    """The number's bits in the other order."""
    return int(f"{number:0{bits}b}"[::-1], 2)


def crcs_beside():
    """The CRC beside that of the standard library, whose bits stand the other way; what was
    compared."""
    rng = random.Random(SEED + 2)
    for i in range(CODES):
        octets = rng.randbytes(i % 40)
        theirs = binascii.crc_hqx(bytes(turned(octet, 8) for octet in octets), 0xFFFF)
        same(f"CRC {i}", labels.crc(octets), turned(theirs ^ 0xFFFF, 16))
    return f"{CODES} CRCs agree with module binascii"


def short_or_long(rng):
    """A length from 0 to 128, mostly a short one."""
    return rng.randint(0, 128) if rng.random() < 0.15 else rng.randint(0, 34)


def against_package():
    """AES and CCM beside the package `cryptography`; what was compared."""
    try:
        from cryptography.exceptions import InvalidTag
        from cryptography.hazmat.primitives.ciphers import Cipher, algorithms, modes
        from cryptography.hazmat.primitives.ciphers.aead import AESCCM
    except ImportError:
        return "package cryptography not found, nothing compared with it"

    def their_open(cipher, nonce, a, c):
        try:
            return cipher.decrypt(nonce, c, a)
        except InvalidTag:
            return None

    rng = random.Random(SEED)
    for i in range(BLOCKS):
        key, block = rng.randbytes(16), rng.randbytes(16)
        theirs = Cipher(algorithms.AES(key), modes.ECB()).encryptor().update(block)
        same(f"AES block {i}", aes.encipher(key, block), theirs)
    for i in range(CASES):
        M = ccm.TAGS[1 + i % 7]
        key, nonce = rng.randbytes(16), rng.randbytes(13)
        a, m = rng.randbytes(short_or_long(rng)), rng.randbytes(short_or_long(rng))
        cipher = AESCCM(key, tag_length=M)
        sealed = cipher.encrypt(nonce, m, a)
        same(f"CCM case {i} sealed", ccm.seal(M, key, nonce, a, m), sealed)
        same(f"CCM case {i} opened", ccm.open(M, key, nonce, a, sealed), m)
        altered = flip(sealed, rng.randrange(8 * len(sealed)))
        same(f"CCM case {i} altered", ccm.open(M, key, nonce, a, altered),
             their_open(cipher, nonce, a, altered))
    return f"{BLOCKS} AES blocks and {CASES} CCM cases agree with package cryptography"


def empty_lists(rng):
    """Two empty lists of some length that is allowed."""
    rows = 2 * rng.randint(tables.LEAST_ROWS // 2, tables.MOST_ROWS // 2)
    return [0] * rows, [0] * rows


def two_boards(rng, network_key, link_key):
    """A board that seals and one that opens, with the same keys, the first with some counter."""
    boards = []
    own, other = rng.randrange(1, 2**63), rng.randrange(2**63, 2**64 - 1)
    number = rng.randrange(256)
    for address, partner in ((own, other), (other, own)):
        board = tables.made_board(address)
        tables.install(board, *empty_lists(rng), 0, number, network_key)
        tables.switch(board, number)
        tables.add_link(board, partner, link_key)
        boards.append(board)
    boards[0].outgoing = boards[0].mark = rng.randrange(2**32 - 2)
    tables.move_mark(boards[0], tables.next_mark(boards[0]))
    return boards


def their_frame(cipher, sealing, header, control, end, payload):
    """A secured frame whose octets are put together here and sealed by the package."""
    fields = struct.pack("<IQ", sealing.outgoing, sealing.own)
    nonce = struct.pack("<QIB", sealing.own, sealing.outgoing, control + 5)
    text = cipher.encrypt(nonce, payload, header + bytes([control + 5]) + fields + end)
    return header + bytes([control]) + fields + end + text


def network_beside(cipher, lists, sealing, board, payload):
    """A network frame sealed beside the package, then opened."""
    theirs = their_frame(cipher, sealing, b"\x48\x02" + bytes(6), 0x28,
                         bytes([board.slots[0].number]), payload)
    plain = b"\x48\x00" + bytes(6) + payload
    same("network frame sealed", opening.seal_network(sealing, 116, plain), theirs)
    given = opening.open_network(board, *lists, 116, theirs)
    same("network frame opened", given, (sealing.own, 1, plain))


def aps_beside(cipher, sealing, board, identifier, payload):
    """An APS frame sealed beside the package, then opened."""
    theirs = their_frame(cipher, sealing, b"\x61\x11", 0x20 | identifier << 3, b"", payload)
    plain = b"\x41\x11" + payload
    same("APS frame sealed", opening.seal_aps(sealing, 116, board.own, identifier, plain), theirs)
    same("APS frame opened", opening.open_aps(board, 116, 0, theirs),
         (sealing.own, identifier, plain))


def frames_against_package():
    """Both layers beside the package; what was compared."""
    try:
        from cryptography.hazmat.primitives.ciphers.aead import AESCCM
    except ImportError:
        return "no frames"
    rng = random.Random(SEED + 1)
    for i in range(FRAMES):
        network_key, link_key, payload = rng.randbytes(16), rng.randbytes(16), rng.randbytes(i % 84)
        sealing, board = two_boards(rng, network_key, link_key)
        network_beside(AESCCM(network_key, tag_length=4), empty_lists(rng), sealing, board, payload)
        identifier = (0, 2, 3)[i % 3]
        over = {2: b"\x00", 3: b"\x02"}.get(identifier)
        octets = link_key if over is None else mmo.keyed(link_key, over)
        aps_beside(AESCCM(octets, tag_length=4), sealing, board, identifier, payload)
    return f"{FRAMES} frames of each layer sealed and opened beside it"


def run(arguments):
    """All comparisons, then one closing line; the exit code, or None where words are given."""
    if arguments:
        return None
    count = published() + install_codes()
    recovered_keys()
    bench_cases()
    tagless()
    print(f"selfcheck: {count} published comparisons hold; {against_package()}; "
          f"{frames_against_package()}; {crcs_beside()}")
    return 0
