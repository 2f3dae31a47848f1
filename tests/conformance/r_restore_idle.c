/* Restore of a list: what a page has to wait for in Idle until it is restored, and the start behind it. */
#include "lists.h"
#include "states.h"

/* A guest of one page as an export may have left it: bit 0 of `bits` is Dirty, bit 1 Cached. */
static guest *left_in(uint64_t phase, uint64_t state, uint64_t bits, uint64_t stamp)
{
    return ONE(phase, .state = state, .dirty = bits & 1, .cached = bits >> 1, .stamp = stamp, .epoch = 3, .mark = 9);
}

/* Each of these states, with every Dirty and Cached, and stamps on both sides of the TLB epoch, which is 2. */
#define EACH_LEFT(state, bits, stamp) \
    EACH(state, TO_RESTORE)           \
        EACH(bits, 0, 1, 2, 3)        \
            EACH(stamp, 0, 1, 2, 65535)

TEST(R35_no_add_accept_or_block_in_idle, "In Idle add, accept and block are 45 on a page in 24 to 27 or 29 to 31.")
{
    EACH_LEFT(state, bits, stamp)
        EACH(c, ADD, ACCEPT, BLOCK)
            REFUSED(left_in(IDLE, state, bits, stamp), 45, c);
}

TEST(R36_no_unblock_or_remove_in_idle, "In Idle unblock and remove are 45 on a page in 24 to 27 or 29 to 31: in place of 46, and before 47.")
{
    EACH_LEFT(state, bits, stamp)
        EACH(c, UNBLOCK, REMOVE)
            REFUSED(left_in(IDLE, state, bits, stamp), 45, c);
}

TEST(R37_a_strange_page_in_idle, "In Idle a strange page is 46 for unblock and remove, and 45 for add, accept and block, as in Live.")
{
    EACH(phase, IDLE, LIVE)
        EACH(stamp, 0, 1, 2) {
            EACH(strange, STRANGE) {
                EACH(c, UNBLOCK, REMOVE)
                    REFUSED(ONE(phase, .state = strange, .stamp = stamp, .mark = 9), 46, c);
                EACH(c, ADD, ACCEPT, BLOCK)
                    REFUSED(ONE(phase, .state = strange, .stamp = stamp, .mark = 9), 45, c);
            }
            EACH(state, TO_RESTORE)
                EACH(spare, 1ull << 10, 1ull << 63) {
                    EACH(c, UNBLOCK, REMOVE)
                        REFUSED(ONE(phase, .state = state, .stamp = stamp, .mark = 9, .spare = spare), 46, c);
                    EACH(c, ADD, ACCEPT, BLOCK)
                        REFUSED(ONE(phase, .state = state, .stamp = stamp, .mark = 9, .spare = spare), 45, c);
                }
        }
}

/* What the five calls do in Live with a page whose stamp is 1 at TLB epoch 2: where it goes, or their code. */
typedef struct { uint64_t state; struct { uint64_t code, to; } by[REMOVE + 1]; } live_page;
static const live_page live_pages[] = {
    {24, {[ADD] = {45, 0}, [ACCEPT] = {45, 0}, [BLOCK] = {0, 26}, [UNBLOCK] = {46, 0}, [REMOVE] = {46, 0}}},
    {25, {[ADD] = {45, 0}, [ACCEPT] = {45, 0}, [BLOCK] = {0, 26}, [UNBLOCK] = {46, 0}, [REMOVE] = {46, 0}}},
    {26, {[ADD] = {45, 0}, [ACCEPT] = {45, 0}, [BLOCK] = {45, 0}, [UNBLOCK] = {0, 25}, [REMOVE] = {0, 27}}},
    {27, {[ADD] = {45, 0}, [ACCEPT] = {45, 0}, [BLOCK] = {45, 0}, [UNBLOCK] = {46, 0}, [REMOVE] = {46, 0}}},
    {29, {[ADD] = {45, 0}, [ACCEPT] = {0, 25}, [BLOCK] = {0, 31}, [UNBLOCK] = {46, 0}, [REMOVE] = {46, 0}}},
    {30, {[ADD] = {45, 0}, [ACCEPT] = {0, 25}, [BLOCK] = {0, 31}, [UNBLOCK] = {46, 0}, [REMOVE] = {46, 0}}},
    {31, {[ADD] = {45, 0}, [ACCEPT] = {45, 0}, [BLOCK] = {45, 0}, [UNBLOCK] = {0, 30}, [REMOVE] = {0, 27}}},
};

TEST(R38_in_live_nothing_waits, "All this is so in Idle alone: in Live the five calls do with these pages what they always did.")
{
    for (size_t i = 0; i < sizeof live_pages / sizeof *live_pages; i++)
        for (call c = ADD; c <= REMOVE; c++) {
            guest *g = left_in(LIVE, live_pages[i].state, 3, 1);
            RUNS(g, live_pages[i].by[c].code, c);
            EQUAL(state_of(g, 0), live_pages[i].by[c].code ? live_pages[i].state : live_pages[i].by[c].to);
            REFUSED(left_in(IDLE, live_pages[i].state, 3, 1), 45, c);
        }
    EACH(state, 26, 31)
        EACH(c, UNBLOCK, REMOVE)
            EACH(stamp, 0, 2, 65535)
                REFUSED(left_in(LIVE, state, 0, stamp), 47, c);
}

TEST(R38_a_restored_page_waits_no_longer, "Once it is restored a page takes in Idle the calls of the state that it is now in.")
{
    const struct { uint64_t state; call c; uint64_t to; } rows[] = {{24, BLOCK, 1}, {25, BLOCK, 1}, {26, UNBLOCK, 4}, {26, REMOVE, 0}, {27, ADD, 2},
                                                                    {29, ACCEPT, 4}, {30, BLOCK, 3}, {31, UNBLOCK, 2}, {31, REMOVE, 0}};
    for (size_t i = 0; i < sizeof rows / sizeof *rows; i++) {
        guest *g = left_in(IDLE, rows[i].state, 0, 1);
        REFUSED(g, 45, rows[i].c);
        set_word(g, LIST, 0, entry(0));
        RUNS(g, 0, RESTORE, .budget = 1);
        RUNS(g, 0, rows[i].c);
        EQUAL(state_of(g, 0), rows[i].to);
    }
}

TEST(R39_writes_in_idle, "Writes are in Idle as they were: they land in 24 and 25, in 26 only if Cached, else 45, and change no state.")
{
    EACH_LEFT(state, bits, stamp) {
        const uint64_t dirty = bits & 1, cached = bits >> 1;
        guest *g = left_in(IDLE, state, bits, stamp);
        if (state == 24 || state == 25)
            EXPECT_PAGE(g, 0, .state = state, .dirty = dirty | !cached, .cached = 1, .stamp = stamp, .epoch = 3, .mark = 8);
        else if (state == 26 && cached)
            EXPECT_PAGE(g, 0, .state = 26, .dirty = dirty, .cached = 1, .stamp = stamp, .epoch = 3, .mark = 8);
        else {
            REFUSED(g, 45, WRITE, .mark = 8);
            continue;
        }
        PASSES(g, WRITE, .mark = 8);
    }
    guest *g = left_in(IDLE, 24, 0, 1);
    RUNS(g, 0, WRITE, .mark = 8);
    set_word(g, LIST, 0, entry(0));
    EXPECT_PAGE(g, 0, .state = 4, .dirty = 1, .cached = 1, .mark = 8);
    RETURNS(g, entry(0));
}

TEST(R40_track_in_idle, "Track in Idle clears the Cached bit of these pages too, and changes nothing else of them.")
{
    EACH_LEFT(state, bits, stamp) {
        guest *g = left_in(IDLE, state, bits, stamp);
        EXPECT_PAGE(g, 0, .state = state, .dirty = bits & 1, .stamp = stamp, .epoch = 3, .mark = 9);
        expect(g, TLB, 3);
        PASSES(g, TRACK);
    }
}

TEST(R41_start_waits_for_every_page, "After an abort start is 45 until every page is back in 0 to 4; a strange page is never back.")
{
    EACH(phase, LIVE, BLACKOUT) {
        const uint64_t states[] = {TO_RESTORE};
        guest *g = guest_in(phase, 9);
        lists_of(g, 7);
        for (size_t i = 0; i < 7; i++) {
            PAGE(g, 1 + i, .state = states[i], .stamp = 1, .epoch = 1);
            set_word(g, LIST, i, entry(1 + i));
        }
        RUNS(g, 0, ABORT);
        for (uint64_t back = 0; back < 7; back++) {
            REFUSED(g, 45, START);
            RUNS(g, back < 6, RESTORE, .info = info(back, 6), .budget = 1);
        }
        RUNS(g, 0, START);
    }
    EACH(state, TO_RESTORE)
        EACH(where, 0, 4, 8) {
            guest *g = guest_in(LIVE, 9);
            PAGE(g, where, .state = state, .stamp = 1, .epoch = 1);
            RUNS(g, 0, ABORT);
            REFUSED(g, 45, START);
            set_word(g, LIST, 0, entry(where));
            RUNS(g, 0, RESTORE, .budget = 1);
            RUNS(g, 0, START);
        }
    guest *strange = guest_in(LIVE, 2);
    PAGE(strange, 1, .state = 24, .epoch = 1, .spare = 0x400);
    set_word(strange, LIST, 0, entry(1));
    RUNS(strange, 0, ABORT);
    RETURNS(strange, ENTRY(.page = 1, .status = 4));
    REFUSED(strange, 45, START);
}

TEST(R42_start_clears_what_an_abort_leaves,
     "Abort leaves the epochs and stamps of pages in 0 to 4; start clears them, the stamps of 1 and 3 apart, so the new migration begins afresh.")
{
    EACH(phase, LIVE, BLACKOUT) {
        guest *g = guest_in(phase, 5);
        for (size_t state = 0; state <= 4; state++)
            PAGE(g, state, .state = state, .stamp = 1, .epoch = 1, .mark = 9);
        expect(g, PHASE, IDLE);
        expect(g, MIG, 0);
        PASSES(g, ABORT);
        for (size_t state = 0; state <= 4; state++)
            EXPECT_PAGE(g, state, .state = state, .stamp = state == 1 || state == 3 ? 1 : 0, .mark = 9);
        expect(g, PHASE, LIVE);
        expect(g, MIG, 1);
        PASSES(g, START);
    }
}

/* Exports page 0 in Live after a scan and a track; the status of its entry. */
static uint64_t sent(guest *g)
{
    RUNS(g, 0, DSCAN, .count = 1, .budget = ALL);
    RUNS(g, 0, TRACK);
    set_word(g, LIST, 0, entry(0));
    RUNS(g, 0, EXPORT, .budget = ALL);
    return word(g, LIST, 0) >> 56;
}

TEST(R42_a_guest_that_starts_again,
     "Export, abort, write, restore, start: the page is sent anew in the first epoch, with its latest mark, and the token is granted.")
{
    EACH(paused, 0, 1) {
        guest *g = ONE(IDLE, .state = 4, .mark = 7);
        lists_of(g, 1);
        RUNS(g, 0, START);
        EQUAL(sent(g), 0);
        EQUAL(word(g, BUFFER, 0), 7);
        if (paused)
            RUNS(g, 0, PAUSE);
        RUNS(g, 0, ABORT);
        RUNS(g, 0, WRITE, .mark = 8);
        REFUSED(g, 45, START);
        EXPECT_PAGE(g, 0, .state = 4, .dirty = 1, .cached = 1, .mark = 8);
        RETURNS(g, entry(0));
        RUNS(g, 0, START);
        EQUAL(sent(g), 0);
        EQUAL(word(g, BUFFER, 0), 8);
        RUNS(g, 0, PAUSE);
        RUNS(g, 3, DCHECK, .budget = ALL);
        RUNS(g, 0, TOKEN);
    }
    guest *g = ONE(LIVE, .state = 4, .stamp = 1, .epoch = 1);
    RUNS(g, 0, ABORT);
    RUNS(g, 0, START);
    EQUAL(sent(g), 0);
}
