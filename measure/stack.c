/* What each of the board's calls takes of the stack, at full frames: sealing and opening at both layers (APS under key
   identifier 3, with its keyed hash), looking, the requests that change keys, a step of the mark, a command written and read,
   a tunnel routed, a label read and printed; with the longest lists, in which 511 others stand before the sender. And the
   memory that a board with such lists asks for. */
#define _GNU_SOURCE
#include "cases.h"
#include "rattle.h"
#include <stdio.h>
#include <string.h>

/* ---- what is lent. Zeros are a Transport-Key of type 1, no protection, and of a tunnel's portions the inner frame. */
#define OWN 0x1122334455667788ull
enum { NETWORK = 98, NETWORK_SEALED = 116, APS = 91, APS_SEALED = 108, COMMAND = 37, TUNNEL = 108, ROWS = 1024 };
enum { LAST = ROWS / 2 - 1, OTHER_LAST = ROWS - 1 }; /* the rows of the sender in slot 0, and of sender 6 in slot 1 */
static const u8 key[16] = "0123456789abcdef", zeros[256];
static union {
    struct outcome outcome;
    struct after after;
    struct sent sent;
    struct opened opened;
    struct received received;
    struct label label;
    struct answer answer;
    u8 octets[2048];
} answer;
static struct board board;
static uint64_t addresses[ROWS];
static uint32_t floors[ROWS];
static u8 plain[NETWORK], aps[APS], sealed[NETWORK_SEALED], aps_sealed[APS_SEALED], written[COMMAND];
static u8 tunnel[TUNNEL] = { 0x01, 0, 0x0e, 1, 2, 3, 4, 5, 6, 7, 8, 0x21, 0, 0x20 };
static const char text[] = "83 FE D3 40 7A 93 97 23 A5 C6 39 B2 69 16 D5 05 C3 B5";
static const u8 code[16] = { 0x83, 0xfe, 0xd3, 0x40, 0x7a, 0x93, 0x97, 0x23, 0xa5, 0xc6, 0x39, 0xb2, 0x69, 0x16, 0xd5, 0x05 };
static u8 out[NETWORK_SEALED];
static struct slice a = { addresses, ROWS }, f = { floors, ROWS }, o = { out, sizeof out }, handed;

/* ---- the calls */
#define DONE(CALLED) (CALLED, 0)
CALL(open_network, (addresses[LAST] = floors[LAST] = 0, /* the row that the call before has taken */
                    DONE(network__opening__open_frame(&answer.opened, &board, SLICE(sealed, NETWORK_SEALED), &a, &f, &o))))
CALL(open_full, (addresses[LAST] = 7, /* so that there is no row for the sender */
                 DONE(network__opening__open_frame(&answer.opened, &board, SLICE(sealed, NETWORK_SEALED), &a, &f, &o))))
CALL(open_aps, DONE(aps__opening__open_frame(&answer.received, &board, SLICE(aps_sealed, APS_SEALED), 0, &o)))
CALL(seal_network, DONE(network__sealing__seal_frame(&answer.sent, &board, SLICE(plain, NETWORK), &o)))
CALL(seal_aps, DONE(aps__sealing__seal_frame(&answer.sent, &board, SLICE(aps, APS), OWN, 3, &o)))
CALL(look_network, DONE(network__looking__look_frame(&board, SLICE(sealed, NETWORK_SEALED))))
CALL(look_aps, DONE(aps__looking__look_frame(&board, SLICE(aps_sealed, APS_SEALED), 0)))
CALL(add_link, DONE(board__partners__add_link(&answer.after, &board, 77, key)))
CALL(write_command,
     DONE(commands__writer__write_command(&answer.sent, &board, 1, zeros, SLICE(key, 16), SLICE(key, 0), &o)))
CALL(install, DONE(board__keys__install(&answer.after, &board, &a, &f, 1, 6, key)))
CALL(remove_link, DONE(board__partners__remove_link(&answer.after, &board, OWN)))
CALL(switch_key, DONE(board__keys__switch(&answer.after, &board, 5)))
CALL(read_command, DONE(commands__reader__read_command(answer.octets, SLICE(written, COMMAND), zeros)))
CALL(route, DONE(router__routing__route(answer.octets, SLICE(tunnel, TUNNEL), zeros)))
CALL(portion, DONE(router__routing__portion_of(&handed, SLICE(tunnel, TUNNEL), zeros, zeros)))
CALL(read_label, DONE(labels__reading__read_label(&answer.label, SLICE(text, sizeof text - 1))))
CALL(print_label, DONE(labels__printing__print_label(&answer.answer, SLICE(code, 16), &o)))
CALL(make, DONE(board__state__make(&answer.after, OWN, 0)))
CALL(next_mark, board__mark__next_mark(&board))
CALL(move_mark, DONE(board__mark__move_mark(&answer.after, &board, 1024)))
CALL(forget, (addresses[OTHER_LAST] = 6, DONE(board__rows__forget(&answer.outcome, &a, &f, 1, 6))))

static void keep(void) {
    must(!answer.after.answer.refused && answer.after.board.own == OWN, "the board");
    board = answer.after.board;
}
/* A board with a network key and itself as its partner, and a full frame of each layer, which must open again. */
static void setup(void) {
    board__state__make(&answer.after, OWN, 0); keep();
    must(next_mark_rattle() == 1024, "the next mark");
    move_mark_rattle(); keep();
    board__keys__install(&answer.after, &board, &a, &f, 0, 5, key); keep();
    board__keys__switch(&answer.after, &board, 5); keep();
    board__partners__add_link(&answer.after, &board, OWN, key); keep();
    for (int r = 0; r < ROWS; r++) addresses[r] = 1000 + r, floors[r] = 1;
    addresses[LAST] = floors[LAST] = 0;
    install_rattle();
    for (int r = 0; r < ROWS; r++) must(!addresses[r] == (r >= LAST) && !floors[r] == (r >= LAST), "what installing frees");
    for (int r = LAST + 1; r < ROWS; r++) addresses[r] = 1000 + r;
    forget_rattle();
    must(!answer.outcome.refused && !addresses[OTHER_LAST] && addresses[OTHER_LAST - 1], "what forgetting frees");
    plain[0] = 8;
    for (int i = 2; i < NETWORK; i++) plain[i] = i;
    for (int i = 1; i < APS; i++) aps[i] = i;
    seal_network_rattle(); memcpy(sealed, out, NETWORK_SEALED);
    seal_aps_rattle(); memcpy(aps_sealed, out, APS_SEALED);
    write_command_rattle(); memcpy(written, out, COMMAND);
    must(written[0] == 0x41 && written[2] == 5 && written[3] == 1, "the command");
    route_rattle();
    must(memmem(answer.octets, 32, tunnel + 3, 8) != NULL, "the tunnel");
    portion_rattle();
    must(handed.at == tunnel + 11 && handed.length == TUNNEL - 11, "the inner frame");
    read_label_rattle();
    must(!answer.label.answer.refused && answer.label.answer.made == 16 && !memcmp(answer.label.code, code, 16) &&
         answer.label.key[0] == 0x66 && answer.label.key[15] == 0xbb, "the label");
    memset(out, 0xee, sizeof out); print_label_rattle();
    must(answer.answer.made == sizeof text - 1 && !memcmp(out, text, sizeof text - 1) && out[sizeof text - 1] == 0xee, "the print");
    memset(out, 0xee, sizeof out); open_network_rattle();
    must(!memcmp(out, plain, NETWORK) && addresses[LAST] == OWN && floors[LAST] == 1, "the network frame");
    memset(out, 0xee, sizeof out); open_aps_rattle();
    must(!memcmp(out, aps, APS), "the APS frame");
    open_full_rattle();
    must(answer.opened.answer.refused && answer.opened.answer.refusal == 9, "the tenth refusal, of full lists");
}

/* ---- the memory: all that a caller keeps for the call with the deepest stack. The lists stay, whatever the call; the code
   has no variables of its own. */
static void sum(const char *what, size_t octets, const char *says) { printf("%-16s %9zu%s\n", what, octets, says); }
static const char *within(size_t octets) { return octets < 16384 ? "   under 16384" : "   NOT UNDER 16384"; }
static void memory(void) {
    size_t lists = sizeof addresses + sizeof floors, all = lists + sizeof board + sizeof sealed + sizeof out + deepest;
    printf("%-16s %9s   octets of a board with %d rows\n", "memory", "now", ROWS);
    sum("lists", lists, "");
    sum("state", sizeof board, "");
    sum("frame", sizeof sealed, "");
    sum("output", sizeof out, "");
    sum("deepest stack", deepest, "");
    sum("together", all, within(all));
    sum("answer", sizeof answer.received, "   the largest, with the state that is handed back");
    sum("with it", all + sizeof answer.received, within(all + sizeof answer.received));
}

static const struct measured calls[] = {
    ALONE(open_network), ALONE(open_full), ALONE(open_aps), ALONE(seal_network), ALONE(seal_aps), ALONE(look_network),
    ALONE(look_aps), ALONE(add_link), ALONE(write_command), ALONE(install), ALONE(remove_link), ALONE(switch_key),
    ALONE(read_command), ALONE(route), ALONE(portion), ALONE(read_label), ALONE(print_label), ALONE(make), ALONE(forget),
    ALONE(next_mark), ALONE(move_mark),
};
int main(int argc, char **argv) {
    int code;
    setup();
    code = measure(argc, argv, calls, sizeof calls / sizeof *calls);
    if (deepest) memory();
    return code;
}
