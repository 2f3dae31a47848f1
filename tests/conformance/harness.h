/*
 * What a test of the conformance suite is written with. The rules of the bench, a test or more for each, are in the files whose names begin with the
 * letter of a chapter; read in the order in which rows.c lists the chapters they describe the bench. Numbers of codes, states and statuses are those
 * of include/chirpsteeple.h.
 *
 * A guest holds the four slices that the calls are lent, each allocated to its last byte, and beside each what the next call should leave in it.
 * What a test sets (set, PAGE ..) is set in both; what it expects (expect, EXPECT_PAGE ..) only in the second. A call is then one line:
 *
 *     PASSES(g, WRITE, .page = 5, .mark = 9);        answers 0
 *     ANSWERS(g, 2, DSCAN, .count = 3, .budget = 9); answers 2
 *     REFUSED(g, 45, ADD, .page = 5);                answers 45, no page and no other number, and touches nothing
 *
 * PASSES and ANSWERS compare every byte of all four slices with what was expected, so what a test does not mention must stay as it was.
 * RUNS is for a step on the way: it looks at the code alone (of a refusal at everything).
 */
#ifndef HARNESS_H
#define HARNESS_H

#include <chirpsteeple.h>
#include <stddef.h>
#include <stdint.h>

/* ---- tests ---- */

typedef struct test {
    const char *name; /* the row's id, and what it says in short */
    const char *rule; /* the row in full */
    void (*body)(void);
    struct test *next;
} test;

void list_test(test *t);

#define TEST(name, rule)                                         \
    static void name(void);                                      \
    __attribute__((constructor)) static void name##_listed(void) \
    {                                                            \
        static test entry = {#name, rule, name, NULL};           \
        list_test(&entry);                                       \
    }                                                            \
    static void name(void)

/* Runs the test here and frees its guests; whether it made checks and all of them held. */
int test_holds(const test *t);

/* Where a check stands. */
typedef struct { const char *file; int line; } place;
#define HERE ((place){__FILE__, __LINE__})

#define EQUAL(got, expected) check_equal(HERE, #got, (got), (expected))
void check_equal(place at, const char *what, uint64_t got, uint64_t expected);

/* Runs the statement behind it with v as each of the numbers in turn. */
#define EACH(v, ...)                                                                                                      \
    for (uint64_t v##_all[] = {__VA_ARGS__}, v##_i = 0, v = 0;                                                            \
         v##_i < sizeof v##_all / sizeof *v##_all && (v = v##_all[v##_i], 1); v##_i++)

/* ---- guests ---- */

enum { IDLE, LIVE, BLACKOUT, DONE };

typedef enum { SESSION, TABLE, LIST, BUFFER, PARTS } part;

typedef struct { uint8_t *bytes; size_t len; } slice;

typedef struct guest { slice now[PARTS], expected[PARTS]; struct guest *next; } guest;

/*
 * A guest of so many free pages in the phase, TLB epoch 2, migration epoch 0 in Idle and 1 elsewhere, N 5, check at page 0, streams at rest.
 * List and buffer have 4 words each, full of bits. The guest lasts until the test ends.
 */
guest *guest_in(uint64_t phase, size_t pages);

/* Gives the part another length. Bytes that are new are full of bits. */
void resize(guest *g, part p, size_t bytes);
/* List and buffer of so many words, all of them 2^64-1. */
void lists_of(guest *g, size_t words);

uint64_t word(const guest *g, part p, size_t i);
void set_word(guest *g, part p, size_t i, uint64_t w);
void expect_word(guest *g, part p, size_t i, uint64_t w);

/* The session's words. */
enum { PHASE, COUNT, TLB, MIG, N, PLACE, COMPLETE, FAILED, STREAMS, STREAM_WORDS = 5, SESSION_WORDS = 48 };

uint64_t get(const guest *g, size_t field);
void set(guest *g, size_t field, uint64_t value);
void expect(guest *g, size_t field, uint64_t value);

/* Stream i interrupted: INTERRUPT(g, 0, .next = 2, .last = 5). */
typedef struct { uint64_t next, last, errors, data; } interruption;
#define INTERRUPT(g, i, ...) set_interrupted((g), (i), (interruption){__VA_ARGS__})
#define EXPECT_INTERRUPTED(g, i, ...) expect_interrupted((g), (i), (interruption){__VA_ARGS__})
void set_interrupted(guest *g, size_t i, interruption s);
void expect_interrupted(guest *g, size_t i, interruption s);
void expect_at_rest(guest *g, size_t i);

/* A page by its fields; `spare` is or-ed into word 0: bits 15:10 and 63:48 make the record strange. */
typedef struct { uint64_t state, dirty, cached, stamp, epoch, mark, spare; } page;
#define PAGE(g, i, ...) set_page((g), (i), (page){__VA_ARGS__})
#define EXPECT_PAGE(g, i, ...) expect_page((g), (i), (page){__VA_ARGS__})
uint64_t record(page p);
void set_page(guest *g, size_t i, page p);
void expect_page(guest *g, size_t i, page p);
uint64_t state_of(const guest *g, size_t i);

/* Word 0 of strange records: state numbers that the base does not use, listed and unlisted ones, then states of the base with one spare bit. */
#define STRANGE                                                                                                       \
    0x5, 0x6, 0x7, 0x8, 0x1c, 0x20, 0x40, 0x81, 0xff, 0x400, 0x401, 0x8004, 0x2018, 0x1000000000019, 0x8000000000000004, \
        0x400000000000001f

/* A list entry that asks for the page, or with another operation than 1, and an info word. */
uint64_t entry(uint64_t page_number);
uint64_t entry_op(uint64_t page_number, uint64_t operation);
uint64_t info(uint64_t first, uint64_t last);

/* ---- calls ---- */

typedef enum {
    NEW, WRITE, ADD, ACCEPT, BLOCK, UNBLOCK, REMOVE, TRACK, START, PAUSE, ABORT, NEW_EPOCH, RESET, TOKEN, DSCAN, DCHECK, EXPORT, RESTORE, CALLS
} call;

#define ALL UINT64_MAX /* a budget that lasts */

/* What a call is given beside the guest; each reads its own. */
typedef struct { uint64_t streams, page, mark, first, count, budget, stream, resume, info; } operands;
/* Operands that no call finds fault with. */
#define ORDINARY .streams = 2, .count = 1, .budget = ALL

/* Every number that any call answers; 0 where a call has it not. */
typedef struct { uint64_t code, page, next, first, last, info, errors, buffers; } answer;

#define PASSES(g, call, ...) answers(HERE, (g), 0, (call), (operands){__VA_ARGS__})
#define ANSWERS(g, code, call, ...) answers(HERE, (g), (code), (call), (operands){__VA_ARGS__})
#define REFUSED(g, code, call, ...) refused(HERE, (g), (code), (call), (operands){__VA_ARGS__})
#define RUNS(g, code, call, ...) runs(HERE, (g), (code), (call), (operands){__VA_ARGS__})
answer answers(place at, guest *g, uint64_t code, call c, operands o);
answer refused(place at, guest *g, uint64_t code, call c, operands o);
answer runs(place at, guest *g, uint64_t code, call c, operands o);

/* The numbers that a scan, or an export, answers beside its code. */
#define SCANNED(a, next, first, last) check_scan(HERE, (a), (next), (first), (last))
#define EXPORTED(a, info, errors, buffers) check_export(HERE, (a), (info), (errors), (buffers))
void check_scan(place at, answer a, uint64_t next, uint64_t first, uint64_t last);
void check_export(place at, answer a, uint64_t info_word, uint64_t errors, uint64_t buffers);

/* Checks that every call but New finds the guest's session or table malformed, whatever its phase and operands: 40. */
#define MALFORMED(g) check_malformed(HERE, (g))
/* Checks that no call does: 41 (or 49) where the call does not come in the phase, 42 for faulty operands elsewhere. Leaves the guest as it was. */
#define WELL_FORMED(g) check_well_formed(HERE, (g))
void check_malformed(place at, guest *g);
void check_well_formed(place at, guest *g);

#endif
