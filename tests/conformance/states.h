/* What tests over all states are written with. */
#ifndef STATES_H
#define STATES_H

#include "harness.h"

/* The twelve states that the base uses. */
#define BASE 0, 1, 2, 3, 4, 24, 25, 26, 27, 29, 30, 31
int is_of_the_base(uint64_t state);

/* The seven of them that exports lead to: an abort leaves such a page to RESTORE. */
#define TO_RESTORE 24, 25, 26, 27, 29, 30, 31
int is_to_restore(uint64_t state);

/* A guest of one page. */
#define ONE(phase, ...) one_page((phase), (page){__VA_ARGS__})
guest *one_page(uint64_t phase, page p);

/* The page that crowd_in makes for the state: Dirty, Cached, stamp 1, epoch 9 and a mark of its own. */
page crowded(uint64_t state);
/* A guest of 256 pages, page i in state i as `crowded` says. Those outside the base are strange. */
guest *crowd_in(uint64_t phase);

/* The states that a call takes a page from, and to; and what it does to the page's other fields. */
typedef struct { uint64_t from, to; } move;
typedef page change(page before);

/*
 * Checks over all 256 states, in Idle and in Live, that a one-page call moves exactly the pages that it should, changed so, and refuses every other
 * page with the code; also pages in a state that it moves, but with a spare bit. In Idle it refuses those that are to be restored with 45.
 */
#define ONLY_MOVES(c, code, change, ...) check_moves(HERE, (c), (code), (change), (const move[]){__VA_ARGS__, {ALL, ALL}})
void check_moves(place at, call c, uint64_t code, change *changed, const move *moves);

#endif
