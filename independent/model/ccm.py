"""CCM* of Annex A (Zigbee, 2005 edition) with L = 2 and AES-128."""

from .aes import encipher

L = 2
NONCE = 15 - L
TAGS = (0, 4, 6, 8, 10, 12, 14, 16)  # Annex A, prerequisite 4


def xor(x, y):
    """Octets added bit by bit, as many as the shorter has."""
    return bytes(a ^ b for a, b in zip(x, y))


def padded(octets):
    """The fewest zero octets appended that make whole blocks (A.2.1, steps 3 and 4)."""
    return octets + bytes(-len(octets) % 16)


def blocks(octets):
    """The 16-octet blocks of a padded string."""
    return [octets[i:i + 16] for i in range(0, len(octets), 16)]


def length_of_a(a):
    """L(a) (A.2.1 step 1, cases a and b)."""
    if len(a) >= 2**16 - 2**8:
        raise ValueError("authenticated octets beyond case b of A.2.1")
    return len(a).to_bytes(2, "big") if a else b""


def auth_data(a, m):
    """AuthData (A.2.1 step 5)."""
    return padded(length_of_a(a) + a) + padded(m)


def b0(M, nonce, a, m):
    """The block B_0 (A.2.2, steps 1 and 2)."""
    flags = (0x40 if a else 0) | ((M - 2) // 2 if M else 0) << 3 | L - 1
    return bytes([flags]) + nonce + len(m).to_bytes(L, "big")


def tag(M, key, nonce, a, m):
    """The tag T: the leftmost M octets of the CBC-MAC (A.2.2 step 3)."""
    x = bytes(16)
    for block in blocks(b0(M, nonce, a, m) + auth_data(a, m)):
        x = encipher(key, xor(x, block))
    return x[:M]


def counter_block(nonce, i):
    """The block A_i (A.2.3 step 1, equation 5)."""
    return bytes([L - 1]) + nonce + i.to_bytes(L, "big")


def crypt(key, nonce, text):
    """The text under the key stream of A_1, A_2, ... (A.2.3, equation 6)."""
    return b"".join(xor(encipher(key, counter_block(nonce, i)), block)
                    for i, block in enumerate(blocks(text), 1))


def crypt_tag(key, nonce, t):
    """The tag under the leftmost octets of S_0 (A.2.3, equation 7 and step 2)."""
    return xor(encipher(key, counter_block(nonce, 0)), t)


def check_shape(M, nonce, m_length):
    """The prerequisites of Annex A and the inputs' lengths of A.2 and A.3."""
    if M not in TAGS or len(nonce) != NONCE or m_length >= 2**(8 * L):
        raise ValueError("outside CCM* with L = 2")


def seal(M, key, nonce, a, m):
    """The forward transformation (A.2): ciphertext and encrypted tag."""
    check_shape(M, nonce, len(m))
    return crypt(key, nonce, m) + crypt_tag(key, nonce, tag(M, key, nonce, a, m))


def open(M, key, nonce, a, c):
    """The inverse transformation (A.3): the octets m, or None for 'invalid'."""
    check_shape(M, nonce, len(c) - M)
    if len(c) < M:
        return None
    split = len(c) - M
    m = crypt(key, nonce, c[:split])
    return m if crypt_tag(key, nonce, c[split:]) == tag(M, key, nonce, a, m) else None
