/* Sealing and opening 22 authenticated and 90 payload octets with a tag of 4, and the keyed hash of one octet: `cipher`
   beside the three Rust programs of reference.rs. Sixteen jobs are taken in turns, each with its own key, nonce and
   octets. */
#include "cases.h"
#include "rattle.h"
#include <string.h>

enum { M = 4, A = 22, P = 90, C = P + M, JOBS = 16 };

/* ---- `cipher`, whose five faults have the numbers of the refusals */
INLINE int64_t number(struct answer r) {
    static const int64_t faults[] = { -1, -2, -3, -9, -14 };
    return r.refused ? faults[r.refusal] : (int64_t)r.made;
}
#define FRAME                                                                                                  \
    size_t m, const uint8_t *key, const uint8_t *nonce, const uint8_t *a, size_t al, const uint8_t *d, size_t dl, \
        uint8_t *out, size_t ol
#define HASH const uint8_t *key, const uint8_t *d, size_t dl, uint8_t *out
INLINE int64_t our_seal(FRAME) {
    struct answer r;
    cipher__seal(&r, m, key, nonce, SLICE(a, al), SLICE(d, dl), SLICE(out, ol));
    return number(r);
}
INLINE int64_t our_open(FRAME) {
    struct answer r;
    cipher__unseal(&r, m, key, nonce, SLICE(a, al), SLICE(d, dl), SLICE(out, ol));
    return number(r);
}
INLINE int64_t our_keyed_hash(HASH) {
    struct hashed r;
    cipher__keyed_hash(&r, key, SLICE(d, dl));
    memcpy(out, r.octets, 16);
    return number(r.answer);
}

/* ---- the Rust programs */
int64_t dbl_seal(FRAME), dbl_open(FRAME), dbl_keyed_hash(HASH);
int64_t wrd_seal(FRAME), wrd_open(FRAME), wrd_keyed_hash(HASH);
int64_t tab_seal(FRAME), tab_open(FRAME), tab_keyed_hash(HASH);

/* ---- the jobs */
static struct job { uint8_t key[16], nonce[13], a[A], p[P], c[C]; } jobs[JOBS];
static uint8_t out[C];
static unsigned turn[18];

typedef int64_t frame_fn(FRAME);
typedef int64_t hash_fn(HASH);
INLINE uint64_t seal_by(frame_fn *f, unsigned *i) {
    const struct job *j = &jobs[(*i)++ % JOBS];
    int64_t n = f(M, j->key, j->nonce, j->a, A, j->p, P, out, C);
    return n + (out[0] << 8) + (out[C - 1] << 16);
}
INLINE uint64_t open_by(frame_fn *f, unsigned *i) {
    const struct job *j = &jobs[(*i)++ % JOBS];
    int64_t n = f(M, j->key, j->nonce, j->a, A, j->c, C, out, P);
    return n + (out[0] << 8) + (out[P - 1] << 16);
}
INLINE uint64_t hash_by(hash_fn *f, unsigned *i) {
    const struct job *j = &jobs[(*i)++ % JOBS];
    int64_t n = f(j->key, j->p, 1, out);
    return n + (out[0] << 8) + (out[15] << 16);
}

CASE(seal, rust_dbl, seal_by(our_seal, &turn[0]), seal_by(dbl_seal, &turn[1]))
CASE(open, rust_dbl, open_by(our_open, &turn[2]), open_by(dbl_open, &turn[3]))
CASE(keyed_hash, rust_dbl, hash_by(our_keyed_hash, &turn[4]), hash_by(dbl_keyed_hash, &turn[5]))
CASE(seal, rust_wrd, seal_by(our_seal, &turn[6]), seal_by(wrd_seal, &turn[7]))
CASE(open, rust_wrd, open_by(our_open, &turn[8]), open_by(wrd_open, &turn[9]))
CASE(keyed_hash, rust_wrd, hash_by(our_keyed_hash, &turn[10]), hash_by(wrd_keyed_hash, &turn[11]))
CASE(seal, rust_tab, seal_by(our_seal, &turn[12]), seal_by(tab_seal, &turn[13]))
CASE(open, rust_tab, open_by(our_open, &turn[14]), open_by(tab_open, &turn[15]))
CASE(keyed_hash, rust_tab, hash_by(our_keyed_hash, &turn[16]), hash_by(tab_keyed_hash, &turn[17]))

/* ---- before any measure: known answers, and all of what the four answer, not its ends alone */
static void frames_by(frame_fn *seal, frame_fn *open, const char *who) {
    for (int i = 0; i < JOBS; i++) {
        struct job j = jobs[i];
        uint8_t got[C], old[C];
        must(seal(M, j.key, j.nonce, j.a, A, j.p, P, got, C) == C && !memcmp(got, j.c, C), who);
        must(open(M, j.key, j.nonce, j.a, A, j.c, C, got, P) == P && !memcmp(got, j.p, P), who);
        j.c[i * 5] ^= 1;
        memcpy(old, got, C);
        must(open(M, j.key, j.nonce, j.a, A, j.c, C, got, P) == -9 && !memcmp(got, old, C), who);
        must(seal(M, j.key, j.nonce, j.a, A, j.p, P, got, C - 1) == -1, who);
        must(seal(5, j.key, j.nonce, j.a, A, j.p, P, got, C) == -14, who);
    }
}
static void hash_by_vector(hash_fn *hash, const char *who) { /* Annex C.6.1 */
    static const uint8_t want[16] = { 0x45, 0x12, 0x80, 0x7b, 0xf9, 0x4c, 0xb3, 0x40,
                                      0x0f, 0x0e, 0x2c, 0x25, 0xfb, 0x76, 0xe9, 0x99 };
    uint8_t key[16], d = 0xc0, got[16];
    for (int i = 0; i < 16; i++) key[i] = 0x40 + i;
    must(hash(key, &d, 1, got) == 16 && !memcmp(got, want, 16), who);
}
static void setup(void) {
    /* the first four and last eight octets of the first job, as Python's `cryptography` has them (AESCCM) */
    static const uint8_t head[4] = { 0x14, 0xcb, 0xcc, 0x8c };
    static const uint8_t tail[8] = { 0xdb, 0x48, 0xad, 0xfa, 0x7e, 0x29, 0xe2, 0x66 };
    uint8_t *o = (uint8_t *)jobs;
    for (size_t i = 0; i < sizeof jobs; i++) o[i] = (uint8_t)(i * i / 7 + 31 * i + 5);
    for (struct job *j = jobs; j < jobs + JOBS; j++)
        must(dbl_seal(M, j->key, j->nonce, j->a, A, j->p, P, j->c, C) == C, "dbl");
    must(!memcmp(jobs[0].c, head, 4) && !memcmp(jobs[0].c + C - 8, tail, 8), "AESCCM");
    frames_by(our_seal, our_open, "cipher");
    frames_by(dbl_seal, dbl_open, "dbl");
    frames_by(wrd_seal, wrd_open, "wrd");
    frames_by(tab_seal, tab_open, "tab");
    hash_by_vector(our_keyed_hash, "cipher");
    hash_by_vector(dbl_keyed_hash, "dbl");
    hash_by_vector(wrd_keyed_hash, "wrd");
    hash_by_vector(tab_keyed_hash, "tab");
}

MEASURED(setup(), ENTRY(seal, rust_dbl), ENTRY(open, rust_dbl), ENTRY(keyed_hash, rust_dbl), ENTRY(seal, rust_wrd),
         ENTRY(open, rust_wrd), ENTRY(keyed_hash, rust_wrd), ENTRY(seal, rust_tab), ENTRY(open, rust_tab),
         ENTRY(keyed_hash, rust_tab))
