/*
 * What tests of scans, exports and restores are written with beside harness.h: list words by their fields, and scans and entries with what should
 * come of them.
 */
#ifndef LISTS_H
#define LISTS_H

#include "harness.h"

/* A list entry by its fields; the reserved ones are named after their lowest bits. ENTRY(.page = 5, .operation = 1) is entry(5). */
typedef struct {
    uint64_t level, pending, state, reserved5, l2_map, mig_type, page, operation, reserved54, status, reserved61;
} entry_fields;
#define ENTRY(...) entry_of((entry_fields){__VA_ARGS__})
uint64_t entry_of(entry_fields e);

enum { MIGRATE = 1, CANCEL, REMIGRATE };

/* Pages 0, 1, 2 .. in these states, their other fields 0. */
#define STATES(g, ...) set_states((g), (const uint64_t[]){__VA_ARGS__}, sizeof (const uint64_t[]){__VA_ARGS__} / sizeof(uint64_t))
void set_states(guest *g, const uint64_t *states, size_t count);

/* ---- scans ---- */

/* A guest of so many free pages in the phase in which the scan comes, and the code with which it comes to its end. */
guest *guest_for(call scan, size_t pages);
uint64_t end_of(call scan);

/* Expects that page p, which is in 4, is listed as entry i: the word, and the page's new stamp. */
void expect_listed(guest *g, size_t i, size_t p);

/*
 * Scans from the page `first` to the table's end, or `count` pages: the answer has that code and next page, and tells of that many words written.
 * After a DCHECK the check's place is the next page, complete with 3 and failed with 51; all other bytes are as expected.
 */
typedef struct { uint64_t first, count, budget, code, next, written; } scan_run;
#define SCANS(g, scan, ...) scans(HERE, (g), (scan), (scan_run){__VA_ARGS__})
void scans(place at, guest *g, call scan, scan_run r);

/* ---- exports ---- */

/* A guest of 8 pages of which page 5 is as given, with a list of one entry that asks for it. Its TLB epoch is 2, so that stamp 1 is tracked. */
#define ASKING(phase, ...) asking((phase), (page){__VA_ARGS__})
guest *asking(uint64_t phase, page p);

/* Such a guest whose page 5 has nothing but its state in the way of an export: tracked, exported in no epoch, Dirty where the state wants it. */
guest *ready_in(uint64_t phase, uint64_t state);
/* Such a guest with page 5 in 4, whose list has this word instead. */
guest *asked_by(uint64_t phase, uint64_t w);

/*
 * Exports the list's first entry alone. It comes back as this word, with this buffer word; errors and buffers are those of the word that is
 * expected. All other bytes are as expected.
 */
#define TAKES(g, out, buffer_word) takes(HERE, (g), (out), (buffer_word))
void takes(place at, guest *g, uint64_t out, uint64_t buffer_word);

/* The same for an entry that asks for page 5 and gets this status, which is no success. */
#define STOPS(g, s) TAKES(g, ENTRY(.page = 5, .status = (s)), 0)

/* The same where it is exported: page 5 is then in the state `to` with the current epoch, its other bits and its mark stay; the entry's fields follow. */
#define MOVES(g, to, ...) moves(HERE, (g), (to), (entry_fields){.page = 5, __VA_ARGS__})
void moves(place at, guest *g, uint64_t to, entry_fields out);

/* A list of so many entries, each with OPERATION 0, and as long a buffer. */
void list_of_skips(guest *g, size_t words);
/* Expects that the entries from..to-1, with OPERATION 0, are taken: status 1, buffer word 0. */
void expect_skipped(guest *g, size_t from, size_t to);

/* ---- restores ---- */

/*
 * A guest in Idle as an abort may leave it: so many pages in 24, Cached, stamp 1, epoch 3, each with its number as mark. The list asks for each page
 * in turn, and the STATUS of its entries is full of bits.
 */
guest *aborted_with(size_t pages);
/* Expects that the entries from..to-1 of that list are taken: status 0, and their pages are back in 4. */
void expect_restored(guest *g, size_t from, size_t to);

/* Restores the list's first entry alone. It comes back as this word, and all other bytes are as expected. */
#define RETURNS(g, out) returns(HERE, (g), (out))
void returns(place at, guest *g, uint64_t out);

#endif
