#include "states.h"

int is_of_the_base(uint64_t state)
{
    EACH(s, BASE)
        if (s == state)
            return 1;
    return 0;
}

int is_to_restore(uint64_t state)
{
    EACH(s, TO_RESTORE)
        if (s == state)
            return 1;
    return 0;
}

guest *one_page(uint64_t phase, page p)
{
    guest *g = guest_in(phase, 1);
    set_page(g, 0, p);
    return g;
}

page crowded(uint64_t state) { return (page){.state = state, .dirty = 1, .cached = 1, .stamp = 1, .epoch = 9, .mark = 1000 + state}; }

guest *crowd_in(uint64_t phase)
{
    guest *g = guest_in(phase, 256);
    for (size_t i = 0; i < 256; i++)
        set_page(g, i, crowded(i));
    return g;
}

static const move *move_from(const move *moves, uint64_t state)
{
    while (moves->from != ALL && moves->from != state)
        moves++;
    return moves->from == state ? moves : NULL;
}

/* Checks the call on page i, as it is given: moved and changed, or refused where there is no move for it. */
static void check_move(place at, guest *g, call c, uint64_t code, change *changed, const move *m, page before)
{
    const size_t i = before.state;
    set_page(g, i, before);
    if (!m) {
        refused(at, g, code, c, (operands){.page = i});
        return;
    }
    page after = changed(before);
    after.state = m->to;
    expect_page(g, i, after);
    answers(at, g, 0, c, (operands){.page = i});
}

void check_moves(place at, call c, uint64_t code, change *changed, const move *moves)
{
    EACH(phase, IDLE, LIVE) {
        guest *g = crowd_in(phase);
        for (uint64_t state = 0; state < 256; state++) {
            const int waits = phase == IDLE && is_to_restore(state);
            const move *m = waits ? NULL : move_from(moves, state);
            const uint64_t otherwise = waits ? 45 : code;
            page strange = crowded(state);
            strange.spare = 0x8000;
            check_move(at, g, c, code, changed, NULL, strange);
            check_move(at, g, c, otherwise, changed, m, (page){.state = state, .stamp = 1});
            check_move(at, g, c, otherwise, changed, m, crowded(state));
        }
    }
}
