"""AES-128 encipherment as FIPS 197 defines it (clauses as numbered in its 2001 edition)."""

from functools import lru_cache

NK, NR = 4, 10  # key words and rounds of AES-128 (FIPS 197, clause 5)


def xtime(b):
    """b times x in GF(2^8), modulo x^8 + x^4 + x^3 + x + 1 (4.2.1)."""
    return (b << 1) ^ (0x11B if b & 0x80 else 0)


def product(a, b):
    """The product in GF(2^8) (4.2)."""
    total = 0
    while b:
        if b & 1:
            total ^= a
        a, b = xtime(a), b >> 1
    return total


def inverse(b):
    """The multiplicative inverse, 0 going to 0 (4.2, 5.1.1 step 1)."""
    return next((c for c in range(256) if product(b, c) == 1), 0)


def affine(b):
    """The affine map of the S-box over GF(2) (5.1.1 step 2, equation 5.1)."""
    def bit(i):
        return b >> (i % 8) & 1
    return sum((bit(i) ^ bit(i + 4) ^ bit(i + 5) ^ bit(i + 6) ^ bit(i + 7) ^ (0x63 >> i & 1)) << i
               for i in range(8))


SBOX = [affine(inverse(b)) for b in range(256)]
TIMES2 = [product(b, 2) for b in range(256)]
TIMES3 = [product(b, 3) for b in range(256)]


def sub_word(word):
    """SubWord (5.2)."""
    return [SBOX[b] for b in word]


def rot_word(word):
    """RotWord (5.2)."""
    return word[1:] + word[:1]


@lru_cache(maxsize=64)
def key_expansion(key):
    """KeyExpansion (5.2): the eleven round keys, 16 octets each."""
    words = [list(key[4 * i:4 * i + 4]) for i in range(NK)]
    rcon = 1
    for i in range(NK, 4 * (NR + 1)):
        temp = words[i - 1]
        if i % NK == 0:
            temp = sub_word(rot_word(temp))
            temp[0] ^= rcon
            rcon = xtime(rcon)
        words.append([a ^ b for a, b in zip(words[i - NK], temp)])
    return [sum(words[4 * r:4 * r + 4], []) for r in range(NR + 1)]


# The state is kept as 16 octets, s[r, c] standing at r + 4c (3.4).

def sub_bytes(state):
    """SubBytes (5.1.1)."""
    return [SBOX[b] for b in state]


def shift_rows(state):
    """ShiftRows (5.1.2): s'[r, c] = s[r, (c + r) mod 4]."""
    return [state[r + 4 * ((c + r) % 4)] for c in range(4) for r in range(4)]


def mix_columns(state):
    """MixColumns (5.1.3): each column times 3x^3 + x^2 + x + 2, modulo x^4 + 1."""
    mixed = []
    for c in range(0, 16, 4):
        s = state[c:c + 4]
        mixed += [TIMES2[s[r]] ^ TIMES3[s[(r + 1) % 4]] ^ s[(r + 2) % 4] ^ s[(r + 3) % 4]
                  for r in range(4)]
    return mixed


def add_round_key(state, round_key):
    """AddRoundKey (5.1.4)."""
    return [a ^ b for a, b in zip(state, round_key)]


def encipher(key, block):
    """Cipher (5.1): 16 octets enciphered under a key of 16 octets."""
    if len(key) != 16 or len(block) != 16:
        raise ValueError("AES-128 takes 16 octets of key and of block")
    round_keys = key_expansion(bytes(key))
    state = add_round_key(block, round_keys[0])
    for r in range(1, NR):
        state = add_round_key(mix_columns(shift_rows(sub_bytes(state))), round_keys[r])
    return bytes(add_round_key(shift_rows(sub_bytes(state)), round_keys[NR]))
