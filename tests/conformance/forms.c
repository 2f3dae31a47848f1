/* Whether a session and a table are taken, as each of the calls sees it. */
#include "harness.h"

enum { TAKES_PAGE = 1, TAKES_LIST = 2 };

typedef struct { call c; int operands; unsigned phases; } arrangement;

#define IN(phase) (1u << (phase))

/* Every call but New, the operands that can be at fault, and the phases in which it comes. */
static const arrangement arrangements[] = {
    {WRITE, TAKES_PAGE, IN(IDLE) | IN(LIVE)},
    {ADD, TAKES_PAGE, IN(IDLE) | IN(LIVE)},
    {ACCEPT, TAKES_PAGE, IN(IDLE) | IN(LIVE)},
    {BLOCK, TAKES_PAGE, IN(IDLE) | IN(LIVE)},
    {UNBLOCK, TAKES_PAGE, IN(IDLE) | IN(LIVE)},
    {REMOVE, TAKES_PAGE, IN(IDLE) | IN(LIVE)},
    {TRACK, 0, IN(IDLE) | IN(LIVE)},
    {START, 0, IN(IDLE)},
    {PAUSE, 0, IN(LIVE)},
    {ABORT, 0, IN(LIVE) | IN(BLACKOUT)},
    {NEW_EPOCH, 0, IN(LIVE) | IN(BLACKOUT)},
    {RESET, 0, IN(LIVE) | IN(BLACKOUT)},
    {TOKEN, 0, IN(BLACKOUT)},
    {DSCAN, TAKES_PAGE | TAKES_LIST, IN(LIVE)},
    {DCHECK, TAKES_LIST, IN(BLACKOUT)},
    {EXPORT, TAKES_LIST, IN(LIVE) | IN(BLACKOUT)},
    {RESTORE, TAKES_LIST, IN(IDLE)},
};

#define FAULTY .page = ALL, .first = ALL, .stream = ALL

void check_malformed(place at, guest *g)
{
    for (size_t i = 0; i < sizeof arrangements / sizeof *arrangements; i++) {
        refused(at, g, 40, arrangements[i].c, (operands){ORDINARY});
        refused(at, g, 40, arrangements[i].c, (operands){FAULTY});
    }
}

static uint64_t code_for_faulty(arrangement a, uint64_t phase)
{
    if (a.phases & IN(phase))
        return 42;
    return a.c == BLOCK && phase == BLACKOUT ? 49 : 41;
}

void check_well_formed(place at, guest *g)
{
    const size_t list_bytes = g->now[LIST].len;
    const uint64_t phase = get(g, PHASE);
    resize(g, LIST, 8 * 513);
    for (size_t i = 0; i < sizeof arrangements / sizeof *arrangements; i++) {
        arrangement a = arrangements[i];
        if (a.operands || !(a.phases & IN(phase)))
            refused(at, g, code_for_faulty(a, phase), a.c, (operands){FAULTY});
    }
    resize(g, LIST, list_bytes);
}
