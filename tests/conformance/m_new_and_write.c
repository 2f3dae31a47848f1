/* Guest and memory calls: New, their phases, and write. */
#include "states.h"

#include <string.h>

static void fill(guest *g, part p, uint8_t byte) { memset(g->now[p].bytes, byte, g->now[p].len); }

/* What New makes of any session and any table. */
static void expect_new(guest *g, uint64_t pages, uint64_t n)
{
    for (size_t i = 0; i < SESSION_WORDS; i++)
        expect(g, i, 0);
    for (size_t i = 0; i < 2 * pages; i++)
        expect_word(g, TABLE, i, 0);
    expect(g, COUNT, pages);
    expect(g, TLB, 1);
    expect(g, N, n);
}

TEST(M1_new_makes_an_idle_guest,
     "New zeroes all words and returns Idle, page count half the words, TLB epoch 1, migration epoch 0, the given N, check at 0, streams at rest.")
{
    EACH(pages, 1, 2, 3, 4095, 4096) {
        guest *g = guest_in(BLACKOUT, pages);
        set(g, PLACE, pages);
        set(g, COMPLETE, 1);
        INTERRUPT(g, 3, .next = 1, .last = 2, .errors = 1);
        fill(g, TABLE, 0xff);
        expect_new(g, pages, 9);
        PASSES(g, NEW, .streams = 9);
    }
    for (uint64_t n = 2; n <= 9; n++) {
        guest *g = guest_in(IDLE, 3);
        expect_new(g, 3, n);
        PASSES(g, NEW, .streams = n);
    }
}

TEST(M2_new_length_before_n, "New: a table length that is odd, 0 or above 8,192 words is 40, before N outside 2 to 9, which is 42.")
{
    guest *g = guest_in(IDLE, 1);
    EACH(n, 0, 1, 10, 256 + 2, 1ULL << 32, UINT64_MAX) {
        EACH(words, 0, 1, 3, 8193, 8194) {
            resize(g, TABLE, 8 * words);
            REFUSED(g, 40, NEW, .streams = n);
            REFUSED(g, 40, NEW, .streams = 2);
        }
        EACH(words, 2, 8192) {
            resize(g, TABLE, 8 * words);
            REFUSED(g, 42, NEW, .streams = n);
        }
    }
    EACH(words, 2, 8192)
        EACH(n, 2, 9) {
            resize(g, TABLE, 8 * words);
            expect_new(g, words / 2, n);
            PASSES(g, NEW, .streams = n);
        }
}

TEST(M3_new_comes_in_any_phase, "New comes in any phase; it is never 41.")
{
    EACH(phase, IDLE, LIVE, BLACKOUT, DONE, 4) {
        guest *g = guest_in(phase, 3);
        PAGE(g, 2, .state = 24, .mark = 5);
        REFUSED(g, 42, NEW, .streams = 1);
        expect_new(g, 3, 2);
        PASSES(g, NEW, .streams = 2);
    }
}

TEST(M4_new_ignores_the_session, "New ignores the session, whatever its contents and page count.")
{
    for (size_t i = 0; i < SESSION_WORDS; i++)
        EACH(odd, 0, 4097, UINT64_MAX) {
            guest *g = guest_in(LIVE, 3);
            set(g, i, odd);
            expect_new(g, 3, 5);
            PASSES(g, NEW, .streams = 5);
        }
    guest *other_size = guest_in(LIVE, 3);
    set(other_size, COUNT, 2);
    expect_new(other_size, 3, 5);
    PASSES(other_size, NEW, .streams = 5);
}

TEST(M5_a_refused_new_leaves_all, "A refused New leaves the table, and returns the session as it came, malformed or not.")
{
    EACH(byte, 0x00, 0x01, 0xa5, 0xff) {
        guest *g = guest_in(IDLE, 2);
        fill(g, TABLE, 0x5a);
        REFUSED(g, 42, NEW, .streams = 1);
        fill(g, SESSION, (uint8_t)byte);
        REFUSED(g, 42, NEW, .streams = 10);
        resize(g, TABLE, 24);
        REFUSED(g, 40, NEW, .streams = 2);
    }
}

TEST(M6_guest_calls_come_in_idle_and_live, "Write, add, accept, unblock, remove and track come in Idle and Live; in Blackout and Done they are 41.")
{
    const struct { call c; uint64_t state; } taken[] = {{WRITE, 4}, {ADD, 0}, {ACCEPT, 2}, {UNBLOCK, 1}, {REMOVE, 1}, {TRACK, 4}};
    for (size_t i = 0; i < sizeof taken / sizeof *taken; i++) {
        EACH(phase, IDLE, LIVE)
            RUNS(ONE(phase, .state = taken[i].state, .stamp = 1), 0, taken[i].c, .mark = 9);
        EACH(phase, BLACKOUT, DONE)
            EACH(state, BASE)
                REFUSED(ONE(phase, .state = state, .cached = 1, .stamp = 1), 41, taken[i].c, .mark = 9);
    }
}

TEST(M7_idle_is_like_live_but_for_exported_pages,
     "These and block do in Idle what they do in Live; on a page in 24 to 27 or 29 to 31 only write does, and the other five are 45 in Idle.")
{
    const struct { call c; page before, after; } rows[] = {
        {ADD, {.state = 0}, {.state = 2}},
        {ACCEPT, {.state = 2}, {.state = 4}},
        {ACCEPT, {.state = 29}, {.state = 25}},
        {ACCEPT, {.state = 30}, {.state = 25}},
        {BLOCK, {.state = 2}, {.state = 3, .stamp = 2}},
        {BLOCK, {.state = 24}, {.state = 26, .stamp = 2}},
        {BLOCK, {.state = 30}, {.state = 31, .stamp = 2}},
        {UNBLOCK, {.state = 3, .stamp = 1}, {.state = 2}},
        {UNBLOCK, {.state = 26, .stamp = 1}, {.state = 25}},
        {REMOVE, {.state = 1, .stamp = 1}, {.state = 0}},
        {REMOVE, {.state = 31, .stamp = 1}, {.state = 27}},
        {WRITE, {.state = 24}, {.state = 24, .dirty = 1, .cached = 1}},
        {WRITE, {.state = 26, .cached = 1}, {.state = 26, .cached = 1}},
    };
    for (size_t i = 0; i < sizeof rows / sizeof *rows; i++)
        EACH(phase, IDLE, LIVE) {
            guest *g = one_page(phase, rows[i].before);
            if (phase == IDLE && rows[i].c != WRITE && is_to_restore(rows[i].before.state)) {
                REFUSED(g, 45, rows[i].c);
                continue;
            }
            expect_page(g, 0, rows[i].after);
            PASSES(g, rows[i].c);
        }
}

TEST(M8_a_page_call_changes_its_page_alone, "The six one-page calls change no other page and no session field.")
{
    const struct { call c; uint64_t from, to, stamp; } rows[] = {
        {WRITE, 4, 4, 1}, {ADD, 0, 2, 0}, {ACCEPT, 2, 4, 0}, {BLOCK, 4, 1, 2}, {UNBLOCK, 1, 4, 0}, {REMOVE, 1, 0, 0}};
    for (size_t i = 0; i < sizeof rows / sizeof *rows; i++)
        EACH(number, 0, 100, 255) {
            guest *g = crowd_in(LIVE);
            set(g, PLACE, 77);
            set(g, FAILED, 1);
            INTERRUPT(g, 3, .next = 3, .last = 9, .errors = 2, .data = 1);
            PAGE(g, number, .state = rows[i].from, .stamp = 1);
            const uint64_t written = rows[i].c == WRITE;
            EXPECT_PAGE(g, number, .state = rows[i].to, .dirty = written, .cached = written, .stamp = rows[i].stamp);
            PASSES(g, rows[i].c, .page = number);
        }
}

/* Writes 9 over the mark 8 of such a page and checks what becomes of it. */
static void writes(place at, page before, page after)
{
    EACH(phase, IDLE, LIVE) {
        before.mark = 8;
        after.mark = 9;
        guest *g = one_page(phase, before);
        expect_page(g, 0, after);
        answers(at, g, 0, WRITE, (operands){.mark = 9});
    }
}

TEST(M9_write_stores_the_mark, "Write in 4, 24, 25: the mark is stored; state, stamp and epoch stay.")
{
    EACH(state, 4, 24, 25)
        EACH(stamp, 0, 1, 3, 65535)
            writes(HERE, (page){.state = state, .cached = 1, .stamp = stamp, .epoch = stamp},
                   (page){.state = state, .cached = 1, .stamp = stamp, .epoch = stamp});
}

TEST(M10_write_without_cached_sets_dirty_and_cached, "There, with Cached clear, Dirty is set, and then Cached is set.")
{
    EACH(state, 4, 24, 25)
        EACH(dirty, 0, 1)
            writes(HERE, (page){.state = state, .dirty = dirty, .stamp = 3}, (page){.state = state, .dirty = 1, .cached = 1, .stamp = 3});
}

TEST(M11_write_with_cached_leaves_dirty, "There, with Cached set, Dirty stays as it was, clear or set.")
{
    EACH(state, 4, 24, 25)
        EACH(dirty, 0, 1)
            writes(HERE, (page){.state = state, .dirty = dirty, .cached = 1}, (page){.state = state, .dirty = dirty, .cached = 1});
}

TEST(M12_write_to_a_blocked_page_lands_if_cached,
     "Write in 1 and 26: with Cached set the mark is stored and no bit of word 0 changes; with Cached clear it is 45.")
{
    EACH(state, 1, 26)
        EACH(dirty, 0, 1) {
            writes(HERE, (page){.state = state, .dirty = dirty, .cached = 1, .stamp = 2, .epoch = 1},
                   (page){.state = state, .dirty = dirty, .cached = 1, .stamp = 2, .epoch = 1});
            EACH(phase, IDLE, LIVE)
                REFUSED(ONE(phase, .state = state, .dirty = dirty, .stamp = 2, .mark = 8), 45, WRITE, .mark = 9);
        }
}

TEST(M13_write_elsewhere_is_refused, "Write in 0, 2, 3, 27, 29, 30, 31 or strange is 45, with Cached set too.")
{
    EACH(phase, IDLE, LIVE)
        EACH(cached, 0, 1) {
            EACH(state, 0, 2, 3, 27, 29, 30, 31)
                REFUSED(ONE(phase, .state = state, .cached = cached, .mark = 8), 45, WRITE, .mark = 9);
            EACH(state, BASE)
                REFUSED(ONE(phase, .state = state, .cached = cached, .mark = 8, .spare = 0x400), 45, WRITE, .mark = 9);
            for (uint64_t state = 0; state < 256; state++)
                if (!is_of_the_base(state))
                    REFUSED(ONE(phase, .state = state, .cached = cached, .mark = 8), 45, WRITE, .mark = 9);
        }
}
