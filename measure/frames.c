/* Whole network frames: `network::sealing::seal_frame` and `network::opening::open_frame`, with key look-up, counter, rows
   and floors, beside those of frames.rs; and, where BEFORE is defined, beside the same two routines of another revision,
   whose symbols begin with before__ and which may know lists of 64 rows alone. 98 octets are sealed to 116, and these
   opened. And the search for a row alone, `board::rows::find_row`.

   Eight jobs are taken in turns, each with its own board, two keys, frame and lists, and there is a set of eight for each
   place that the sender's row may have. The rows before it in its slot are others'. Counter and row are put back before
   each call, on every side. */
#include "cases.h"
#include "rattle.h"
#include <string.h>

#ifdef BEFORE
#define WHEN_BEFORE(...) __VA_ARGS__
#else
#define WHEN_BEFORE(...)
#endif

enum { HEADER = 8, AUXILIARY = 14, PLAIN = 98, SECURED = 116, ROOM = 136, LONGEST = 1024, MOST = LONGEST + 2, JOBS = 8 };

struct rust_board { uint64_t own; uint32_t outgoing, mark; }; /* and more, that Rust alone knows */
struct told { uint64_t sender; int64_t protection; };    /* of an opened frame; -1 is no protection */

/* The sender's row: in the middle of 32, in turns of slot 0 and 1; with the longest lists 0, 511 and 1023, and 511 for a new
   sender, where 511 others stand before it; and, not measured, with the shortest lists. */
enum set { MIDDLE, ROW_0, ROW_511, ROW_1023, NEW_511, SHORTEST, SETS };

static struct job {
    struct board board; /* of the library, now and before */
    struct rust_board *rust;
    uint32_t counter;
    size_t rows, row; /* of each list, and the sender's */
    uint64_t address; /* in that row before a frame is opened: the sender's, or 0 where it is new */
    uint64_t addresses[MOST];
    uint32_t floors[MOST];
    u8 plain[PLAIN], secured[SECURED];
} jobs[SETS][JOBS];
static u8 out[ROOM];

/* ---- the sides: both routines of each, on a job's board. An answer is a number: octets, or minus a refusal's number. */
#define SEAL struct job *j, const u8 *frame, size_t length, u8 *out, size_t room
#define OPEN                                                                                           \
    struct job *j, const u8 *frame, size_t length, uint64_t *addresses, size_t rows, uint32_t *floors, \
        size_t floor_rows, u8 *out, size_t room, struct told *told
#define FIND const uint64_t *addresses, size_t rows, size_t from, size_t n, uint64_t address
typedef int64_t seal_fn(SEAL);
typedef int64_t open_fn(OPEN);
typedef int64_t find_fn(FIND);

INLINE int64_t number(struct answer r) { return r.refused ? -(r.refusal + 1) : (int64_t)r.made; }

/* The board that is handed back is kept, as every caller must: who drops it has the old counter. */
INLINE int64_t rattle_seal(seal_routine *f, SEAL) {
    static struct sent sent;
    f(&sent, &j->board, SLICE(frame, length), SLICE(out, room));
    j->board = sent.board;
    return number(sent.answer);
}
INLINE int64_t rattle_open(open_routine *f, OPEN) {
    static struct opened opened;
    f(&opened, &j->board, SLICE(frame, length), SLICE(addresses, rows), SLICE(floors, floor_rows), SLICE(out, room));
    if (!opened.answer.refused) *told = (struct told){ opened.sender, opened.secured ? opened.identifier : -1 };
    return number(opened.answer);
}
#define LIBRARY(who, prefix)                                                                                \
    seal_routine prefix##network__sealing__seal_frame;                                                      \
    open_routine prefix##network__opening__open_frame;                                                      \
    INLINE int64_t who##_seal(SEAL) {                                                                       \
        return rattle_seal(prefix##network__sealing__seal_frame, j, frame, length, out, room);              \
    }                                                                                                       \
    INLINE int64_t who##_open(OPEN) {                                                                       \
        return rattle_open(prefix##network__opening__open_frame, j, frame, length, addresses, rows, floors, \
                           floor_rows, out, room, told);                                                    \
    }
LIBRARY(now, )
WHEN_BEFORE(LIBRARY(before, before__))
INLINE int64_t now_find(FIND) {
    struct place p;
    board__rows__find_row(&p, SLICE(addresses, rows), from, n, address);
    return p.absent ? -1 : (int64_t)p.at;
}

struct rust_board *rust_board(uint64_t own, u8 sequences[2], u8 keys[2][16], size_t active);
#define RUST(who)                                                                                              \
    int64_t who##_seal_frame(struct rust_board *, const u8 *, size_t, u8 *, size_t);                           \
    int64_t who##_open_frame(const struct rust_board *, const u8 *, size_t, uint64_t *, size_t, uint32_t *,    \
                             size_t, u8 *, size_t, struct told *);                                             \
    INLINE int64_t who##_seal(SEAL) { return who##_seal_frame(j->rust, frame, length, out, room); }            \
    INLINE int64_t who##_open(OPEN) {                                                                          \
        return who##_open_frame(j->rust, frame, length, addresses, rows, floors, floor_rows, out, room, told); \
    }
RUST(dbl)
RUST(wrd)
RUST(tab)
find_fn rust_find_row;

/* ---- what is measured */
INLINE uint64_t seal_by(seal_fn *f, unsigned *turn) {
    struct job *j = &jobs[MIDDLE][(*turn)++ % JOBS];
    int64_t n;
    j->board.outgoing = j->rust->outgoing = j->counter;
    n = f(j, j->plain, PLAIN, out, ROOM);
    return n + (out[HEADER] << 8) + (out[SECURED - 1] << 16);
}
INLINE uint64_t open_by(open_fn *f, enum set set, unsigned *turn) {
    static struct told told;
    struct job *j = &jobs[set][(*turn)++ % JOBS];
    int64_t n;
    j->addresses[j->row] = j->address;
    j->floors[j->row] = j->address ? j->counter : 0;
    n = f(j, j->secured, SECURED, j->addresses, j->rows, j->floors, j->rows, out, ROOM, &told);
    return n + (out[HEADER] << 8) + (out[PLAIN - 1] << 16) + told.sender;
}
INLINE uint64_t find_by(find_fn *f, unsigned *turn) {
    const struct job *j = &jobs[ROW_511][(*turn)++ % JOBS];
    return f(j->addresses, LONGEST, 0, LONGEST / 2, j->address);
}
/* Each case counts the turns of both its sides. */
#define SEAL_CASE(beside, who)        \
    static unsigned seal_##beside[2]; \
    CASE(seal, beside, seal_by(now_seal, seal_##beside), seal_by(who##_seal, seal_##beside + 1))
#define OPEN_CASE(name, beside, who, set) \
    static unsigned name##_##beside[2];   \
    CASE(name, beside, open_by(now_open, set, name##_##beside), open_by(who##_open, set, name##_##beside + 1))
#define CASES(beside, who)                          \
    SEAL_CASE(beside, who)                          \
    OPEN_CASE(open, beside, who, MIDDLE)            \
    OPEN_CASE(open_row_0, beside, who, ROW_0)       \
    OPEN_CASE(open_row_511, beside, who, ROW_511)   \
    OPEN_CASE(open_row_1023, beside, who, ROW_1023) \
    OPEN_CASE(open_new_511, beside, who, NEW_511)
#define ENTRIES(beside)                                                                                    \
    ENTRY(seal, beside), ENTRY(open, beside), ENTRY(open_row_0, beside), STEPS(open_row_511, beside, 511), \
        ENTRY(open_row_1023, beside), ENTRY(open_new_511, beside)
WHEN_BEFORE(SEAL_CASE(before, before) OPEN_CASE(open, before, before, MIDDLE))
CASES(rust_dbl, dbl)
CASES(rust_wrd, wrd)
CASES(rust_tab, tab)
static unsigned find[2];
CASE(find_row, rust, find_by(now_find, find), find_by(rust_find_row, find + 1))

/* ---- before any measure: on the same call all sides must answer and leave the same, and a refusal what there was */
static const struct {
    const char *name;
    seal_fn *seal;
    open_fn *open;
    size_t rows; /* of the only lists that it knows, if not 0 */
} sides[] = {
    { "now", now_seal, now_open, 0 },
    WHEN_BEFORE({ "before", before_seal, before_open, 64 },)
    { "dbl", dbl_seal, dbl_open, 0 },
    { "wrd", wrd_seal, wrd_open, 0 },
    { "tab", tab_seal, tab_open, 0 },
};

struct call { int opens; const u8 *frame; size_t length, room, rows, floor_rows; };
struct left { /* by a call; without padding, to be compared whole */
    int64_t answer;
    uint64_t outgoing, addresses[MOST];
    uint32_t floors[MOST];
    struct told told;
    u8 out[ROOM];
};

static struct left left_by_all(struct job *j, struct call c) {
    struct left old = { 0 }, first, new;
    memset(old.out, 0xee, ROOM);
    memcpy(old.addresses, j->addresses, sizeof old.addresses);
    memcpy(old.floors, j->floors, sizeof old.floors);
    for (size_t s = 0; s < sizeof sides / sizeof *sides; s++) {
        if (sides[s].rows && (c.rows != sides[s].rows || c.floor_rows != c.rows)) continue;
        new = old;
        j->board.outgoing = j->rust->outgoing = j->counter;
        new.answer = !c.opens ? sides[s].seal(j, c.frame, c.length, new.out, c.room)
                              : sides[s].open(j, c.frame, c.length, new.addresses, c.rows, new.floors, c.floor_rows, new.out,
                                              c.room, &new.told);
        new.outgoing = (uint64_t)j->board.outgoing + j->rust->outgoing; /* of which one side's alone may move */
        if (s == 0) first = new;
        must(!memcmp(&new, &first, sizeof new), sides[s].name);
    }
    if (first.answer < 0) {
        old.answer = first.answer;
        old.outgoing = 2 * (uint64_t)j->counter;
        must(!memcmp(&first, &old, sizeof old), "what a refusal leaves");
    }
    return first;
}
static int64_t sealing(struct job *j, const u8 *frame, size_t length) {
    return left_by_all(j, (struct call){ 0, frame, length, ROOM, j->rows, j->rows }).answer;
}
static int64_t opening_with(struct job *j, const u8 *frame, size_t length, size_t rows, size_t floor_rows) {
    return left_by_all(j, (struct call){ 1, frame, length, ROOM, rows, floor_rows }).answer;
}
static int64_t opening(struct job *j, const u8 *frame, size_t length) {
    return opening_with(j, frame, length, j->rows, j->rows);
}
/* With the i-th of the pairs of lengths that are refused. */
enum { UNFIT = 19 };
static int64_t opening_unfit(struct job *j, const u8 *frame, size_t length, int i) {
    static const size_t lists[UNFIT][2] = {
        { 0, 0 }, { 1, 1 }, { 3, 3 }, { 63, 63 }, { 65, 65 }, { 1023, 1023 }, { 1025, 1025 }, { 1026, 1026 }, { 0, 2 },
        { 2, 0 }, { 62, 64 }, { 64, 62 }, { 64, 65 }, { 2, 1024 }, { 1024, 2 }, { 1022, 1024 }, { 1024, 1023 },
        { 1024, 1026 }, { 1026, 1024 },
    };
    return opening_with(j, frame, length, lists[i][0], lists[i][1]);
}
/* Opens the job's frame with n octets of it changed. */
static int64_t changed(struct job *j, size_t at, size_t n, u8 change) {
    u8 frame[SECURED];
    memcpy(frame, j->secured, SECURED);
    for (size_t i = at; i < at + n; i++) frame[i] ^= change;
    return opening(j, frame, SECURED);
}

/* The full frame, sealed and opened, and all that these two change. */
static void full_frame(struct job *j) {
    struct left l = left_by_all(j, (struct call){ 0, j->plain, PLAIN, ROOM, j->rows, j->rows });
    must(l.answer == SECURED && l.out[SECURED] == 0xee && l.outgoing == 2 * (uint64_t)j->counter + 1, "sealing");
    memcpy(j->secured, l.out, SECURED);
    l = left_by_all(j, (struct call){ 1, j->secured, SECURED, ROOM, j->rows, j->rows });
    must(l.answer == PLAIN && !memcmp(l.out, j->plain, PLAIN) && l.out[PLAIN] == 0xee, "opening");
    must(l.told.sender == j->board.own && l.told.protection == 1, "the sender");
    must(l.addresses[j->row] == j->board.own && l.floors[j->row] == j->counter + 1, "the row");
    l.addresses[j->row] = j->addresses[j->row], l.floors[j->row] = j->floors[j->row];
    must(!memcmp(l.addresses, j->addresses, sizeof l.addresses), "the other addresses");
    must(!memcmp(l.floors, j->floors, sizeof l.floors), "the other floors");
}

/* Each refusal, of a copy of the job. */
static void refusals(struct job j) {
    u8 longer[SECURED + 1] = { 8 }, nobody[SECURED], sequences[2] = { 0 }, keys[2][16] = { { 0 } };
    struct after fresh;
    must(left_by_all(&j, (struct call){ 0, j.plain, PLAIN, SECURED - 1, j.rows, j.rows }).answer == -1, "1 to seal");
    must(left_by_all(&j, (struct call){ 1, j.secured, SECURED, SECURED - 1, j.rows, j.rows }).answer == -1, "1 to open");
    for (int i = 0; i < UNFIT; i++) {
        must(opening_unfit(&j, j.secured, SECURED, i) == -1, "1 of the lists");
        must(opening_unfit(&j, j.plain, PLAIN, i) == -1, "1 of the lists, without security");
        must(opening_unfit(&j, longer, SECURED + 1, i) == -1, "1 before 2");
    }
    must(sealing(&j, longer, PLAIN + 1) == -2 && opening(&j, longer, SECURED + 1) == -2, "2");
    must(sealing(&j, j.plain, 1) == -3 && sealing(&j, j.plain, HEADER - 1) == -3, "3 to seal");
    must(opening(&j, j.secured, HEADER) == -3 && opening(&j, j.secured, HEADER + AUXILIARY + 3) == -3, "3 to open");
    must(sealing(&j, j.secured, PLAIN) == -4 && changed(&j, 1, 1, 1) == -4, "4");
    must(changed(&j, HEADER, 1, 0x10) == -5 && changed(&j, HEADER, 1, 0x20) == -5, "5 of the control");
    memcpy(nobody, j.secured, SECURED);
    memset(nobody + HEADER + 5, 0, 8);
    must(opening(&j, nobody, SECURED) == -5, "5 of sender zero");
    memset(nobody + HEADER + 5, 0xff, 8);
    must(opening(&j, nobody, SECURED) == -5, "5 of sender all ones");
    must(changed(&j, HEADER + AUXILIARY - 1, 1, 0x80) == -6, "6");
    must(j.counter == 0 && changed(&j, HEADER + 1, 4, 0xff) == -7, "7");
    must(changed(&j, HEADER, 1, 5) == PLAIN && changed(&j, HEADER, 1, 0x40) == -9, "the level");
    must(changed(&j, SECURED - 1, 1, 1) == -9 && changed(&j, PLAIN, 1, 0x80) == -9, "9");
    j.addresses[j.row] = j.board.own, j.floors[j.row] = j.counter + 1;
    must(opening(&j, j.secured, SECURED) == -8 && changed(&j, SECURED - 1, 1, 1) == -8, "8");
    for (size_t r = 0; r < j.rows; r++) j.addresses[r] = r + 1;
    must(opening(&j, j.secured, SECURED) == -10 && changed(&j, SECURED - 1, 1, 1) == -9, "10");
    j.board.mark = j.rust->mark = j.counter;
    must(sealing(&j, j.plain, PLAIN) == -17, "17, at the mark");
    j.counter = UINT32_MAX;
    must(sealing(&j, j.plain, PLAIN) == -7, "7 to seal, before 17");
    j.rust->mark = UINT32_MAX; /* which the job's own board has too */
    board__state__make(&fresh, j.board.own, 0), j.board = fresh.board;
    j.rust = rust_board(j.board.own, sequences, keys, 2); /* there is no slot 2 to be active */
    must(sealing(&j, j.plain, PLAIN) == -6, "6 to seal");
}

static uint32_t any(uint32_t below) {
    static uint32_t seed;
    seed = seed * 1664525 + 1013904223;
    return (seed >> 8) % below;
}
/* The job's frame with a few bits changed, most of them in its headers, and of any length: all sides agree on it, and refuse
   it where the lists don't fit. */
static void odd_frames(struct job *j) {
    for (int i = 0; i < 250; i++) {
        u8 frame[SECURED];
        size_t length = any(2) ? SECURED : any(SECURED + 1);
        memcpy(frame, j->secured, SECURED);
        frame[1] ^= any(2) << 1;
        for (int bits = any(4); bits > 0; bits--) {
            size_t at = any(any(2) ? SECURED : HEADER + AUXILIARY);
            frame[at] ^= 1 << any(8);
        }
        opening(j, frame, length);
        must(opening_unfit(j, frame, length, any(UNFIT)) == -1, "1 of the lists, of an odd frame");
        sealing(j, frame, any(2) ? PLAIN : any(SECURED + 1));
    }
}

/* The job's frame with lists of any lengths, most of them legal, and in them others' rows, free ones and the sender's own in
   any number and order: all sides agree on the answer and the row, and both searches on any part of the list. */
static void odd_lists(struct job j, unsigned *seen) {
    for (int i = 0; i < 250; i++) {
        size_t rows = any(4) ? 2 + 2 * any(LONGEST / 2) : any(MOST + 1), floor_rows = any(8) ? rows : any(MOST + 1);
        size_t from = any(rows + 1), n = any(rows - from + 1);
        uint32_t seldom = 1 + any(1 + any(LONGEST));
        int64_t answer;
        for (size_t r = 0; r < MOST; r++) {
            j.addresses[r] = any(seldom) ? r + 1 : any(2) ? j.board.own : 0;
            j.floors[r] = j.counter + any(2);
        }
        answer = opening_with(&j, j.secured, SECURED, rows, floor_rows);
        seen[answer < 0 ? -answer : 0]++;
        for (int a = 0; a < 3; a++) {
            uint64_t address = a == 0 ? 0 : a == 1 ? j.board.own : any(MOST);
            int64_t found = rust_find_row(j.addresses, rows, from, n, address);
            must(now_find(j.addresses, rows, from, n, address) == found, "find_row");
        }
    }
}

/* A board with two keys, of which that of the row's slot is active, and its own address as the sender that was heard, if it
   is not new. */
static void make(struct job *j, size_t i, size_t rows, size_t row, int new) {
    uint64_t own = 0x0011223344556600 + i;
    u8 sequences[2] = { 2 * i, 2 * i + 1 }, keys[2][16];
    size_t half = rows / 2, slot = row / half;
    struct after a;
    lent addresses = SLICE(j->addresses, rows), floors = SLICE(j->floors, rows);
    for (int k = 0; k < 16; k++) keys[0][k] = 16 * i + k, keys[1][k] = ~keys[0][k];
    board__state__make(&a, own, 0), j->board = a.board;
    for (size_t s = 0; s < 2; s++)
        board__keys__install(&a, &j->board, addresses, floors, s, sequences[s], keys[s]), j->board = a.board;
    board__keys__switch(&a, &j->board, sequences[slot]), j->board = a.board;
    j->rust = rust_board(own, sequences, keys, slot);
    j->board.mark = j->rust->mark = UINT32_MAX;
    j->counter = 1000003 * i;
    j->rows = rows;
    j->row = row;
    j->address = new ? 0 : own;
    for (size_t r = 0; r < row % half; r++) /* of both slots */
        for (size_t s = 0; s < 2; s++) j->addresses[half * s + r] = own + JOBS + r, j->floors[half * s + r] = 7 * r + 1;
    j->addresses[row] = j->address;
    j->floors[row] = new ? 0 : j->counter;
    for (size_t o = 0; o < PLAIN; o++) j->plain[o] = 31 * i + 7 * o;
    j->plain[0] = 8, j->plain[1] = 0; /* data, version 2, no security */
}

static void setup(void) {
    /* the last eight octets of the last job's frame, as Python's `cryptography` has them (AESCCM) */
    static const u8 tail[8] = { 0x5e, 0x05, 0xf9, 0x9b, 0x9e, 0x8c, 0x9d, 0x74 };
    unsigned seen[11] = { 0 };
    for (size_t i = 0; i < JOBS; i++) {
        make(&jobs[MIDDLE][i], i, 64, 32 * (i % 2) + 16, 0);
        make(&jobs[ROW_0][i], i, LONGEST, 0, 0);
        make(&jobs[ROW_511][i], i, LONGEST, 511, 0);
        make(&jobs[ROW_1023][i], i, LONGEST, 1023, 0);
        make(&jobs[NEW_511][i], i, LONGEST, 511, 1);
        make(&jobs[SHORTEST][i], i, 2, i % 2, 0);
        for (int s = 0; s < SETS; s++) {
            full_frame(&jobs[s][i]);
            odd_frames(&jobs[s][i]);
        }
        odd_lists(jobs[MIDDLE][i], seen);
    }
    must(seen[0] && seen[1] && seen[8] && seen[10], "0, 1, 8 and 10 with odd lists");
    for (int s = 0; s < SETS; s++) refusals(jobs[s][0]); /* whose counter is 0 */
    must(!memcmp(jobs[MIDDLE][JOBS - 1].secured + SECURED - 8, tail, 8), "AESCCM");
}

MEASURED(setup(), WHEN_BEFORE(ENTRY(seal, before), ENTRY(open, before),) ENTRIES(rust_dbl), ENTRIES(rust_wrd),
         ENTRIES(rust_tab), ENTRY(find_row, rust))
