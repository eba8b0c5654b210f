/* The measuring of cases.h: nanoseconds, octets of stack, and marks between which callgrind counts instructions. */
#define _GNU_SOURCE
#include "cases.h"
#include <sched.h>
#include <stdio.h>
#include <stdlib.h>
#include <string.h>
#include <sys/mman.h>
#include <time.h>
#include <ucontext.h>
#if __has_include(<valgrind/callgrind.h>)
#include <valgrind/callgrind.h>
#else
#define CALLGRIND_DUMP_STATS_AT(label)
#endif

enum { ROUNDS = 41, STACK = 1 << 20 };

static volatile uint64_t sink; /* so that no call is left out */

void must(int right, const char *what) {
    if (!right) {
        printf("%s: a wrong answer\n", what);
        exit(1);
    }
}

/* Whether a case is the first that is compared with its reference, and so is led by a head of its own. */
static int leads(const struct measured *cases, size_t i) { return i == 0 || strcmp(cases[i].beside, cases[i - 1].beside); }

__attribute__((noinline)) static uint64_t nothing(void) { return 0; }

/* ---- time: both sides in turns, on one core */

static double now(void) {
    struct timespec t;
    clock_gettime(CLOCK_MONOTONIC, &t);
    return t.tv_sec * 1e9 + t.tv_nsec;
}

static double batch(side *f, size_t n) {
    uint64_t sum = 0;
    double start = now(), spent;
    for (size_t i = 0; i < n; i++) sum += f();
    spent = now() - start;
    sink += sum;
    return spent / n;
}

static int by_size(const void *a, const void *b) {
    double x = *(const double *)a, y = *(const double *)b;
    return (x > y) - (x < y);
}

static void time_case(const struct measured *c) {
    static double our_last, their_last; /* of the case before */
    double ours[ROUNDS], theirs[ROUNDS], ratio[ROUNDS], our_step, their_step;
    size_t n = 1; /* calls of a batch, a millisecond or more */
    while (n < 1u << 24 && batch(c->rattle, n) * n < 1e6) n *= 2;
    for (int r = 0; r < ROUNDS; r++) {
        if (r % 2) theirs[r] = batch(c->reference, n);
        ours[r] = batch(c->rattle, n);
        if (r % 2 == 0) theirs[r] = batch(c->reference, n);
        ratio[r] = ours[r] / theirs[r];
    }
    qsort(ours, ROUNDS, sizeof *ours, by_size);
    qsort(theirs, ROUNDS, sizeof *theirs, by_size);
    qsort(ratio, ROUNDS, sizeof *ratio, by_size);
    printf("%-16s %9.0f %9.0f %7.2f %7.2f\n", c->name, ours[0], theirs[0], ours[0] / theirs[0], ratio[ROUNDS / 2]);
    if (c->steps) {
        our_step = (ours[0] - our_last) / c->steps, their_step = (theirs[0] - their_last) / c->steps;
        printf("  each of %-6u %9.3f %9.3f %7.2f\n", c->steps, our_step, their_step, our_step / their_step);
    }
    our_last = ours[0], their_last = theirs[0];
}

static void time_all(const struct measured *cases, size_t n) {
    cpu_set_t one;
    CPU_ZERO(&one);
    CPU_SET(sched_getcpu(), &one);
    sched_setaffinity(0, sizeof one, &one);
    for (size_t i = 0; i < n; i++) {
        if (leads(cases, i))
            printf("%-16s %9s %9s %7s %7s   ns a call, the least of %d rounds; their ratio, and the median of the rounds'\n",
                   "time", "now", cases[i].beside, "ratio", "median", ROUNDS);
        time_case(&cases[i]);
    }
}

/* ---- stack: the call runs on a stack of its own, painted before; what is no longer paint was touched. Two paints, since
   a call may write one of them. */

static unsigned char *stack;
static ucontext_t back, there;
static side *on_stack;
static void entered(void) { sink += on_stack(); }

static size_t touched(side *f) {
    static const int paints[] = { 0x5a, 0xa5 };
    size_t most = 0;
    for (int p = 0; p < 2; p++) {
        size_t left = 0;
        memset(stack, paints[p], STACK);
        getcontext(&there);
        there.uc_stack.ss_sp = stack;
        there.uc_stack.ss_size = STACK;
        there.uc_link = &back;
        on_stack = f;
        makecontext(&there, entered, 0);
        swapcontext(&back, &there);
        while (left < STACK && stack[left] == paints[p]) left++;
        if (STACK - left > most) most = STACK - left;
    }
    return most;
}

size_t deepest;

static int stack_all(const struct measured *cases, size_t n, const char *bar) {
    size_t base, largest = 0;
    stack = mmap(0, STACK, PROT_READ | PROT_WRITE, MAP_PRIVATE | MAP_ANONYMOUS, -1, 0);
    if (stack == MAP_FAILED) {
        puts("no memory for a stack");
        return 2;
    }
    base = touched(nothing);
    for (size_t i = 0; i < n; i++) {
        size_t ours = touched(cases[i].rattle) - base;
        if (leads(cases, i))
            printf("%-16s %9s %9s   octets touched by a call with its callees\n", "stack", "now", cases[i].beside);
        printf("%-16s %9zu", cases[i].name, ours);
        if (cases[i].reference) printf(" %9zu", touched(cases[i].reference) - base);
        putchar('\n');
        if (ours > deepest) deepest = ours, largest = i;
    }
    if (bar)
        printf("The largest, %s with %zu octets, is %s %s.\n", cases[largest].name, deepest,
               deepest <= strtoul(bar, 0, 10) ? "within" : "OVER", bar);
    return 0;
}

/* ---- count: callgrind writes down what it counted since the mark before; the first pair is of a call of nothing */

__attribute__((noinline)) static void mark(void) { CALLGRIND_DUMP_STATS_AT("mark"); }

static void marked(side *f) {
    sink += f(); /* a first call, that is not counted */
    mark();
    sink += f();
    mark();
}

/* ---- the whole */

int measure(int argc, char **argv, const struct measured *cases, size_t n) {
    const char *mode = argc > 1 ? argv[1] : "";
    for (size_t i = 0; i < n; i++)
        if (cases[i].reference && cases[i].rattle() != cases[i].reference()) {
            printf("%s: the answers now and of %s differ\n", cases[i].name, cases[i].beside);
            return 1;
        }
    if (!strcmp(mode, "time")) time_all(cases, n);
    else if (!strcmp(mode, "stack")) return stack_all(cases, n, argc > 2 ? argv[2] : 0);
    else if (!strcmp(mode, "names"))
        for (size_t i = 0; i < n; i++) printf("%s %s %u\n", cases[i].name, cases[i].beside, cases[i].steps);
    else if (!strcmp(mode, "count")) {
        marked(nothing);
        for (size_t i = 0; i < n; i++) {
            marked(cases[i].rattle);
            marked(cases[i].reference);
        }
    } else {
        puts("time, stack, count or names?");
        return 2;
    }
    return 0;
}
