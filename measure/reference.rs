//! Ordinary optimised Rust for what `cipher` does, to be measured beside it: CCM*, AES-MMO and the keyed hash,
//! written once over a trait and compiled for three ciphers. Each expands the key at each call.
//!   Dbl   octets, an S-box, MixColumns by doubling and adding, round constants from a table
//!   Wrd   the same, with columns and round keys as 32-bit words, four octets doubled at once
//!   Tab   four tables of 32-bit words: the ordinary table program
//! Exported for C as dbl_seal, dbl_open, dbl_keyed_hash, and so on. An answer is a number: the octets made, or minus the
//! number of the refusal. frames.rs has whole network frames over the same three.
mod frames;

use std::slice::{from_raw_parts, from_raw_parts_mut};

static SBOX: [u8; 256] = [
    99, 124, 119, 123, 242, 107, 111, 197, 48, 1, 103, 43, 254, 215, 171, 118, 202, 130, 201, 125,
    250, 89, 71, 240, 173, 212, 162, 175, 156, 164, 114, 192, 183, 253, 147, 38, 54, 63, 247, 204,
    52, 165, 229, 241, 113, 216, 49, 21, 4, 199, 35, 195, 24, 150, 5, 154, 7, 18, 128, 226, 235,
    39, 178, 117, 9, 131, 44, 26, 27, 110, 90, 160, 82, 59, 214, 179, 41, 227, 47, 132, 83, 209, 0,
    237, 32, 252, 177, 91, 106, 203, 190, 57, 74, 76, 88, 207, 208, 239, 170, 251, 67, 77, 51, 133,
    69, 249, 2, 127, 80, 60, 159, 168, 81, 163, 64, 143, 146, 157, 56, 245, 188, 182, 218, 33, 16,
    255, 243, 210, 205, 12, 19, 236, 95, 151, 68, 23, 196, 167, 126, 61, 100, 93, 25, 115, 96, 129,
    79, 220, 34, 42, 144, 136, 70, 238, 184, 20, 222, 94, 11, 219, 224, 50, 58, 10, 73, 6, 36, 92,
    194, 211, 172, 98, 145, 149, 228, 121, 231, 200, 55, 109, 141, 213, 78, 169, 108, 86, 244, 234,
    101, 122, 174, 8, 186, 120, 37, 46, 28, 166, 180, 198, 232, 221, 116, 31, 75, 189, 139, 138,
    112, 62, 181, 102, 72, 3, 246, 14, 97, 53, 87, 185, 134, 193, 29, 158, 225, 248, 152, 17, 105,
    217, 142, 148, 155, 30, 135, 233, 206, 85, 40, 223, 140, 161, 137, 13, 191, 230, 66, 104, 65,
    153, 45, 15, 176, 84, 187, 22,
];

// Refusals by the numbers of docs/RULES.md 1.5.
#[derive(Clone, Copy)]
enum Refusal {
    Room = 1,
    Long = 2,
    Short = 3,
    Form = 4,
    Security = 5,
    NoKey = 6,
    Top = 7,
    Stale = 8,
    Forged = 9,
    Full = 10,
    Argument = 14,
    Mark = 17,
}

fn number(made: Result<usize, Refusal>) -> i64 {
    match made {
        Ok(octets) => octets as i64,
        Err(refusal) => -(refusal as i64),
    }
}

trait Cipher {
    fn expand(key: &[u8; 16]) -> Self;
    fn encipher(&self, block: &mut [u8; 16]);
}

// ---- octets, doubling and adding

struct Dbl([[u8; 16]; 11]);

static ROUND_CONSTANTS: [u8; 10] = [1, 2, 4, 8, 16, 32, 64, 128, 27, 54];

const fn doubled(a: u8) -> u8 {
    (a << 1) ^ (a >> 7) * 0x1b
}

fn add(a: &mut [u8; 16], b: &[u8; 16]) {
    for (x, y) in a.iter_mut().zip(b) {
        *x ^= y;
    }
}

fn sub_and_shift(s: &[u8; 16]) -> [u8; 16] {
    std::array::from_fn(|i| SBOX[s[(i + i % 4 * 4) % 16] as usize])
}

// {03}b is {02}b + b.
fn mix_columns(s: &[u8; 16]) -> [u8; 16] {
    let d = s.map(doubled);
    std::array::from_fn(|i| {
        let at = |k: usize| i / 4 * 4 + (i + k) % 4;
        d[at(0)] ^ d[at(1)] ^ s[at(1)] ^ s[at(2)] ^ s[at(3)]
    })
}

fn next_key(k: &[u8; 16], c: u8) -> [u8; 16] {
    let mut n = *k;
    for j in 0..4 {
        n[j] ^= SBOX[k[12 + (j + 1) % 4] as usize];
    }
    n[0] ^= c;
    for j in 4..16 {
        n[j] ^= n[j - 4];
    }
    n
}

impl Cipher for Dbl {
    fn expand(key: &[u8; 16]) -> Dbl {
        let mut w = [*key; 11];
        for r in 0..10 {
            w[r + 1] = next_key(&w[r], ROUND_CONSTANTS[r]);
        }
        Dbl(w)
    }

    fn encipher(&self, block: &mut [u8; 16]) {
        let [first, middle @ .., last] = &self.0;
        let mut s = *block;
        add(&mut s, first);
        for k in middle {
            s = mix_columns(&sub_and_shift(&s));
            add(&mut s, k);
        }
        *block = sub_and_shift(&s);
        add(block, last);
    }
}

// ---- words, doubling and adding

struct Wrd([[u32; 4]; 11]);

fn words(s: &[u8; 16]) -> [u32; 4] {
    std::array::from_fn(|i| u32::from_le_bytes(s[4 * i..4 * i + 4].try_into().unwrap()))
}

fn octets(w: [u32; 4]) -> [u8; 16] {
    std::array::from_fn(|i| w[i / 4].to_le_bytes()[i % 4])
}

fn sum(a: [u32; 4], b: &[u32; 4]) -> [u32; 4] {
    std::array::from_fn(|i| a[i] ^ b[i])
}

fn doubled_word(w: u32) -> u32 {
    ((w & 0x7f7f7f7f) << 1) ^ (w >> 7 & 0x01010101) * 0x1b
}

// {02}a + {03}b + c + d is {02}(a + b) + b + (c + d).
fn mix_column(w: u32) -> u32 {
    let next = w.rotate_right(8);
    let sum = w ^ next;
    doubled_word(sum) ^ next ^ sum.rotate_right(16)
}

fn next_words(k: &[u32; 4], c: u8) -> [u32; 4] {
    let turned = k[3].rotate_right(8).to_le_bytes().map(|x| SBOX[x as usize]);
    let mut n = *k;
    n[0] ^= u32::from_le_bytes(turned) ^ c as u32;
    for i in 1..4 {
        n[i] ^= n[i - 1];
    }
    n
}

impl Cipher for Wrd {
    fn expand(key: &[u8; 16]) -> Wrd {
        let mut w = [words(key); 11];
        for r in 0..10 {
            w[r + 1] = next_words(&w[r], ROUND_CONSTANTS[r]);
        }
        Wrd(w)
    }

    fn encipher(&self, block: &mut [u8; 16]) {
        let [first, middle @ .., last] = &self.0;
        let mut s = sum(words(block), first);
        for k in middle {
            s = sum(words(&sub_and_shift(&octets(s))).map(mix_column), k);
        }
        *block = octets(sum(words(&sub_and_shift(&octets(s))), last));
    }
}

// ---- four tables of words

struct Tab([u32; 44]);

static TABLES: [[u32; 256]; 4] = tables();

const fn tables() -> [[u32; 256]; 4] {
    let mut t = [[0; 256]; 4];
    let mut i = 0;
    while i < 256 {
        let s = SBOX[i];
        let d = doubled(s);
        let w = u32::from_be_bytes([d, s, s, d ^ s]);
        let mut j = 0;
        while j < 4 {
            t[j][i] = w.rotate_right(8 * j as u32);
            j += 1;
        }
        i += 1;
    }
    t
}

fn sub_word(a: u32, b: u32, c: u32, d: u32) -> u32 {
    let at = |x: u32| SBOX[(x & 255) as usize];
    u32::from_be_bytes([at(a >> 24), at(b >> 16), at(c >> 8), at(d)])
}

fn column(a: u32, b: u32, c: u32, d: u32) -> u32 {
    let at = |j: usize, x: u32| TABLES[j][(x & 255) as usize];
    at(0, a >> 24) ^ at(1, b >> 16) ^ at(2, c >> 8) ^ at(3, d)
}

impl Cipher for Tab {
    fn expand(key: &[u8; 16]) -> Tab {
        let mut w = [0; 44];
        for (x, k) in w.iter_mut().zip(key.chunks_exact(4)) {
            *x = u32::from_be_bytes(k.try_into().unwrap());
        }
        let mut c = 1;
        for i in 4..44 {
            let mut t = w[i - 1];
            if i % 4 == 0 {
                let r = t.rotate_left(8);
                t = sub_word(r, r, r, r) ^ (c as u32) << 24;
                c = doubled(c);
            }
            w[i] = w[i - 4] ^ t;
        }
        Tab(w)
    }

    fn encipher(&self, block: &mut [u8; 16]) {
        let mut s: [u32; 4] = std::array::from_fn(|i| {
            u32::from_be_bytes(block[4 * i..4 * i + 4].try_into().unwrap()) ^ self.0[i]
        });
        for k in self.0[4..40].chunks_exact(4) {
            s = std::array::from_fn(|i| {
                column(s[i], s[(i + 1) % 4], s[(i + 2) % 4], s[(i + 3) % 4]) ^ k[i]
            });
        }
        for i in 0..4 {
            let t = sub_word(s[i], s[(i + 1) % 4], s[(i + 2) % 4], s[(i + 3) % 4]) ^ self.0[40 + i];
            block[4 * i..4 * i + 4].copy_from_slice(&t.to_be_bytes());
        }
    }
}

// ---- CCM*

fn tag_length(m: usize) -> bool {
    matches!(m, 0 | 4 | 6 | 8 | 10 | 12 | 14 | 16)
}

fn field(flags: u8, nonce: &[u8; 13], i: usize) -> [u8; 16] {
    let mut b = [0; 16];
    b[0] = flags;
    b[1..14].copy_from_slice(nonce);
    b[14..].copy_from_slice(&(i as u16).to_be_bytes());
    b
}

fn absorb<C: Cipher>(c: &C, x: &mut [u8; 16], d: &[u8]) {
    let whole = d.chunks_exact(16);
    let rest = whole.remainder();
    for b in whole {
        add(x, b.try_into().unwrap());
        c.encipher(x);
    }
    if !rest.is_empty() {
        for (x, y) in x.iter_mut().zip(rest) {
            *x ^= y;
        }
        c.encipher(x);
    }
}

fn mac<C: Cipher>(c: &C, m: usize, nonce: &[u8; 13], a: &[u8], p: &[u8]) -> [u8; 16] {
    let flags =
        if a.is_empty() { 0 } else { 64 } + if m == 0 { 0 } else { (m as u8 - 2) / 2 * 8 } + 1;
    let mut x = field(flags, nonce, p.len());
    c.encipher(&mut x);
    if !a.is_empty() {
        let mut lead = [0; 16];
        let (first, rest) = a.split_at(a.len().min(14));
        lead[..2].copy_from_slice(&(a.len() as u16).to_be_bytes());
        lead[2..2 + first.len()].copy_from_slice(first);
        absorb(c, &mut x, &lead);
        absorb(c, &mut x, rest);
    }
    absorb(c, &mut x, p);
    x
}

fn stream<C: Cipher>(c: &C, nonce: &[u8; 13], d: &[u8], out: &mut [u8]) {
    let mut i = 1;
    let mut from = d.chunks_exact(16);
    let mut to = out[..d.len()].chunks_exact_mut(16);
    for (b, o) in (&mut from).zip(&mut to) {
        let mut s = field(1, nonce, i);
        c.encipher(&mut s);
        add(&mut s, b.try_into().unwrap());
        o.copy_from_slice(&s);
        i += 1;
    }
    let rest = from.remainder();
    if !rest.is_empty() {
        let mut s = field(1, nonce, i);
        c.encipher(&mut s);
        for ((o, b), s) in to.into_remainder().iter_mut().zip(rest).zip(s) {
            *o = b ^ s;
        }
    }
}

fn seal<C: Cipher>(
    m: usize,
    key: &[u8; 16],
    nonce: &[u8; 13],
    a: &[u8],
    p: &[u8],
    out: &mut [u8],
) -> Result<usize, Refusal> {
    if !tag_length(m) {
        return Err(Refusal::Argument);
    }
    if a.len() > 128 || p.len() > 128 {
        return Err(Refusal::Long);
    }
    if out.len() < p.len() + m {
        return Err(Refusal::Room);
    }
    let c = C::expand(key);
    stream(&c, nonce, p, out);
    let mut tag = field(1, nonce, 0);
    c.encipher(&mut tag);
    add(&mut tag, &mac(&c, m, nonce, a, p));
    out[p.len()..p.len() + m].copy_from_slice(&tag[..m]);
    Ok(p.len() + m)
}

fn open<C: Cipher>(
    m: usize,
    key: &[u8; 16],
    nonce: &[u8; 13],
    a: &[u8],
    c: &[u8],
    out: &mut [u8],
) -> Result<usize, Refusal> {
    if !tag_length(m) {
        return Err(Refusal::Argument);
    }
    if a.len() > 128 || c.len() > 128 + m {
        return Err(Refusal::Long);
    }
    if c.len() < m {
        return Err(Refusal::Short);
    }
    let (d, given) = c.split_at(c.len() - m);
    if out.len() < d.len() {
        return Err(Refusal::Room);
    }
    let e = C::expand(key);
    let mut scratch = [0; 128];
    let plain = &mut scratch[..d.len()];
    stream(&e, nonce, d, plain);
    let mut tag = field(1, nonce, 0);
    e.encipher(&mut tag);
    add(&mut tag, &mac(&e, m, nonce, a, plain));
    if tag
        .iter()
        .zip(given)
        .fold(0, |apart, (x, y)| apart | (x ^ y))
        != 0
    {
        return Err(Refusal::Forged);
    }
    out[..d.len()].copy_from_slice(plain);
    Ok(d.len())
}

// ---- AES-MMO and the keyed hash

fn hash_in<C: Cipher>(h: &mut [u8; 16], b: &[u8; 16]) {
    let c = C::expand(h);
    *h = *b;
    c.encipher(h);
    add(h, b);
}

// The hash from h on, over d, where `before` octets went before it.
fn hash_from<C: Cipher>(h: &mut [u8; 16], before: usize, d: &[u8]) {
    let whole = d.chunks_exact(16);
    let rest = whole.remainder();
    for b in whole {
        hash_in::<C>(h, b.try_into().unwrap());
    }
    let mut b = [0; 16];
    b[..rest.len()].copy_from_slice(rest);
    b[rest.len()] = 128;
    if rest.len() > 13 {
        hash_in::<C>(h, &b);
        b = [0; 16];
    }
    b[14..].copy_from_slice(&(8 * (before + d.len()) as u16).to_be_bytes());
    hash_in::<C>(h, &b);
}

fn keyed_hash<C: Cipher>(key: &[u8; 16], d: &[u8], out: &mut [u8; 16]) -> Result<usize, Refusal> {
    if d.len() > 240 {
        return Err(Refusal::Long);
    }
    let behind = |x: u8, d: &[u8]| {
        let mut h = [0; 16];
        hash_in::<C>(&mut h, &key.map(|k| k ^ x));
        hash_from::<C>(&mut h, 16, d);
        h
    };
    *out = behind(0x5c, &behind(0x36, d));
    Ok(16)
}

// ---- for C

macro_rules! export {
    ($c:ty, $seal:ident, $open:ident, $hash:ident) => {
        #[no_mangle]
        pub unsafe extern "C" fn $seal(
            m: usize,
            key: &[u8; 16],
            nonce: &[u8; 13],
            a: *const u8,
            al: usize,
            p: *const u8,
            pl: usize,
            out: *mut u8,
            ol: usize,
        ) -> i64 {
            number(seal::<$c>(
                m,
                key,
                nonce,
                from_raw_parts(a, al),
                from_raw_parts(p, pl),
                from_raw_parts_mut(out, ol),
            ))
        }
        #[no_mangle]
        pub unsafe extern "C" fn $open(
            m: usize,
            key: &[u8; 16],
            nonce: &[u8; 13],
            a: *const u8,
            al: usize,
            c: *const u8,
            cl: usize,
            out: *mut u8,
            ol: usize,
        ) -> i64 {
            number(open::<$c>(
                m,
                key,
                nonce,
                from_raw_parts(a, al),
                from_raw_parts(c, cl),
                from_raw_parts_mut(out, ol),
            ))
        }
        #[no_mangle]
        pub unsafe extern "C" fn $hash(
            key: &[u8; 16],
            d: *const u8,
            dl: usize,
            out: &mut [u8; 16],
        ) -> i64 {
            number(keyed_hash::<$c>(key, from_raw_parts(d, dl), out))
        }
    };
}

export!(Dbl, dbl_seal, dbl_open, dbl_keyed_hash);
export!(Wrd, wrd_seal, wrd_open, wrd_keyed_hash);
export!(Tab, tab_seal, tab_open, tab_keyed_hash);
