/* What a harness is made of: cases, each one expression that calls the Rattle code and, beside it, one that calls what it is
   compared with. Both give a number, and cases.c compares the two before it measures. */
#ifndef CASES_H
#define CASES_H
#include <stddef.h>
#include <stdint.h>

#define INLINE static inline __attribute__((always_inline))

typedef uint64_t side(void);

struct measured {
    const char *name, *beside; /* the second says what the reference is, and heads its column */
    side *rattle;
    side *reference; /* null where there is none */
    unsigned steps;  /* if not 0, it takes so many steps more than the case before it, and what one costs is printed too */
};

/* Measures as argv[1] says: time, stack (with a bar as argv[2], says whether all of Rattle is within it), count (between
   two marks that callgrind sees) or names. The exit code. */
int measure(int argc, char **argv, const struct measured *cases, size_t n);

/* What the largest of Rattle's calls took of the stack, once that was measured. */
extern size_t deepest;

/* Ends the program where an answer is wrong. */
void must(int right, const char *what);

/* At file level CASE(seal, rust, ours(x), theirs(x)), or CALL(seal, ours(x)) where only the stack is asked for;
   ENTRY(seal, rust), STEPS(seal, rust, 511) or ALONE(seal) in the table of MEASURED. */
#define CALL(name, RATTLE) \
    static uint64_t name##_rattle(void) { return (uint64_t)(RATTLE); }
#define CASE(name, beside, RATTLE, REFERENCE) \
    CALL(name##_##beside, RATTLE)             \
    static uint64_t name##_##beside##_reference(void) { return (uint64_t)(REFERENCE); }
#define STEPS(name, beside, steps) { #name, #beside, name##_##beside##_rattle, name##_##beside##_reference, steps }
#define ENTRY(name, beside) STEPS(name, beside, 0)
#define ALONE(name) { #name, "", name##_rattle, 0, 0 }
#define MEASURED(SETUP, ...)                                               \
    int main(int argc, char **argv) {                                      \
        static const struct measured cases[] = { __VA_ARGS__ };            \
        SETUP;                                                             \
        return measure(argc, argv, cases, sizeof cases / sizeof cases[0]); \
    }
#endif
