/* The library's routines by Rattle's inner convention: a slice is a pointer to a pointer and a length, an array or a struct
   a pointer, and the place of a struct or an enum as result the first parameter. An enum begins with an octet that says
   which case it is, and the parts of the case follow, each where its size asks for it. All this is read off the module that
   the kit's compiler is handed. The kit promises none of it, so each harness checks answers before it measures. */
#ifndef RATTLE_H
#define RATTLE_H
#include <stddef.h>
#include <stdint.h>

typedef uint8_t u8;
struct slice { const void *at; size_t length; };
typedef const struct slice *lent;
#define SLICE(at, length) (&(struct slice){ at, length })

/* ---- answers. A refusal is told by its place in its enum, counted from 0. */
struct outcome { u8 refused, refusal; };
struct answer { u8 refused, refusal; size_t made; };
struct opened { struct answer answer; uint64_t sender; u8 secured, identifier; };
struct hashed { struct answer answer; u8 octets[16]; };
struct label { struct answer answer; u8 code[16], key[16]; };

/* ---- the board */
struct slot { u8 present, sequence, key[16]; };
struct link { u8 present; uint64_t partner; u8 key[16]; uint32_t floor; };
struct active { u8 is_slot; size_t slot; };
struct place { u8 absent; size_t at; };
struct board {
    uint64_t own;
    uint32_t outgoing, mark;
    u8 aps;
    struct slot slots[2];
    struct active active;
    struct link links[8];
};
struct after { struct outcome answer; struct board board; };
struct sent { struct answer answer; struct board board; };
struct received { struct opened answer; struct board board; };
_Static_assert(sizeof(struct board) == 392 && sizeof(struct received) == 424, "as the module has them");

/* ---- cipher */
typedef void ccm_routine(struct answer *, size_t m, const u8 *key, const u8 *nonce, lent a, lent d, lent out);
ccm_routine cipher__seal, cipher__unseal;
void cipher__keyed_hash(struct hashed *, const u8 *key, lent d);

/* ---- board */
void board__state__make(struct after *, uint64_t own, uint32_t found);
uint32_t board__mark__next_mark(const struct board *);
void board__mark__move_mark(struct after *, const struct board *, uint32_t stored);
void board__keys__install(struct after *, const struct board *, lent addresses, lent floors, size_t slot, u8 sequence,
                          const u8 *key);
void board__keys__switch(struct after *, const struct board *, u8 sequence);
void board__partners__add_link(struct after *, const struct board *, uint64_t partner, const u8 *key);
void board__partners__remove_link(struct after *, const struct board *, uint64_t partner);
void board__rows__forget(struct outcome *, lent addresses, lent floors, size_t slot, uint64_t sender);
void board__rows__find_row(struct place *, lent addresses, size_t from, size_t n, uint64_t address);

/* ---- network, aps */
typedef void seal_routine(struct sent *, const struct board *, lent frame, lent out);
typedef void open_routine(struct opened *, const struct board *, lent frame, lent addresses, lent floors, lent out);
seal_routine network__sealing__seal_frame;
open_routine network__opening__open_frame;
u8 network__looking__look_frame(const struct board *, lent frame);
void aps__sealing__seal_frame(struct sent *, const struct board *, lent frame, uint64_t partner, u8 identifier, lent out);
void aps__opening__open_frame(struct received *, const struct board *, lent frame, uint64_t caller, lent out);
u8 aps__looking__look_frame(const struct board *, lent frame, uint64_t caller);

/* ---- commands, router; of what they answer and are handed as an enum no part is named here */
void commands__writer__write_command(struct sent *, const struct board *, u8 acknowledged, const void *command, lent key,
                                     lent rest, lent out);
void commands__reader__read_command(void *, lent frame, const void *protection);
void router__routing__route(void *, lent frame, const void *protection);
void router__routing__portion_of(struct slice *, lent frame, const void *protection, const void *portion);

/* ---- labels */
void labels__reading__read_label(struct label *, lent text);
void labels__printing__print_label(struct answer *, lent code, lent out);
#endif
