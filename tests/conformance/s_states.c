/* State numbers and strange records. */
#include "states.h"

#define SPARE_BITS 10, 11, 12, 13, 14, 15, 48, 49, 50, 51, 52, 53, 54, 55, 56, 57, 58, 59, 60, 61, 62, 63

/* A guest of one page whose record is the word, the mark 5. */
static guest *guest_with(uint64_t phase, uint64_t record_word)
{
    guest *g = guest_in(phase, 1);
    set_word(g, TABLE, 0, record_word);
    set_word(g, TABLE, 1, 5);
    return g;
}

TEST(S5_twelve_states_and_no_other, "The base uses twelve states: 0 to 4, 24 to 27, 29 to 31; a record in any other, listed or not, is strange.")
{
    guest *g = guest_in(LIVE, 256);
    for (size_t state = 0; state < 256; state++) {
        PAGE(g, state, .state = state, .cached = 1, .epoch = 1);
        EXPECT_PAGE(g, state, .state = state, .cached = !is_of_the_base(state), .epoch = 1);
    }
    expect(g, TLB, 3);
    PASSES(g, TRACK);
    RUNS(g, 0, ABORT);
    lists_of(g, 256);
    for (size_t state = 0; state < 256; state++)
        set_word(g, LIST, state, entry(state));
    RUNS(g, 0, RESTORE, .info = info(0, 255), .budget = ALL);
    for (size_t state = 0; state < 256; state++)
        EQUAL(word(g, TABLE, 2 * state) >> 32, !is_to_restore(state));
}

TEST(S5_a_listed_number_is_strange_like_any_other, "A record in 5, 6, 28 or 64 is not free, and one in 8 or 32 not mapped.")
{
    EACH(state, 5, 6, 28, 64)
        REFUSED(guest_with(IDLE, state), 45, ADD);
    EACH(state, 8, 32, 68, 97) {
        REFUSED(guest_with(IDLE, state), 45, WRITE, .mark = 9);
        REFUSED(guest_with(IDLE, state), 45, BLOCK);
        REFUSED(guest_with(IDLE, state), 45, START);
    }
}

TEST(S6_a_spare_bit_makes_a_record_strange, "A record with any bit of 15:10 or 63:48 is strange whatever its state.")
{
    EACH(bit, SPARE_BITS) {
        EACH(state, BASE) {
            guest *g = guest_with(LIVE, state | 1ULL << bit | 0x200);
            expect(g, TLB, 3);
            PASSES(g, TRACK);
        }
        guest *mapped = guest_with(LIVE, 4 | 1ULL << bit | 1ULL << 16);
        REFUSED(mapped, 45, WRITE, .mark = 9);
        SCANNED(PASSES(mapped, DSCAN, .count = 1, .budget = ALL), 1, 511, 0);
        lists_of(mapped, 1);
        set_word(mapped, LIST, 0, entry(0));
        expect_word(mapped, LIST, 0, 0x0400000000000000);
        expect_word(mapped, BUFFER, 0, 0);
        EXPORTED(PASSES(mapped, EXPORT, .budget = ALL), info(1, 0), 1, 2);
    }
}

TEST(S7_nothing_else_makes_a_record_strange, "Odd Dirty, Cached, stamp, epoch or mark make no record strange.")
{
    EACH(state, BASE) {
        guest *g = guest_in(LIVE, 1);
        PAGE(g, 0, .state = state, .dirty = 1, .cached = 1, .stamp = 65535, .epoch = 65535, .mark = UINT64_MAX);
        EXPECT_PAGE(g, 0, .state = state, .dirty = 1, .cached = 0, .stamp = 65535, .epoch = 65535, .mark = UINT64_MAX);
        expect(g, TLB, 3);
        PASSES(g, TRACK);
    }
    guest *g = guest_in(IDLE, 1);
    PAGE(g, 0, .state = 0, .dirty = 1, .epoch = 9);
    EXPECT_PAGE(g, 0, .state = 2, .epoch = 9);
    PASSES(g, ADD);
    PAGE(g, 0, .state = 4, .stamp = 9, .epoch = 9);
    EXPECT_PAGE(g, 0, .state = 4, .dirty = 1, .cached = 1, .stamp = 9, .epoch = 9, .mark = 1);
    PASSES(g, WRITE, .mark = 1);
}

/* In Blackout with a complete check, so that a token looks at the page. */
static guest *checked_with(uint64_t record_word)
{
    guest *g = guest_with(BLACKOUT, record_word);
    set(g, PLACE, 1);
    set(g, COMPLETE, 1);
    return g;
}

TEST(S8_a_strange_record_is_in_no_state, "A strange record counts as in none of the states, so not as free, blocked, dirty or exported either.")
{
    EACH(spare, 1ULL << 10, 1ULL << 15, 1ULL << 48, 1ULL << 63) {
        EACH(state, BASE)
            EACH(dirty, 0, 0x100)
                EQUAL(REFUSED(checked_with(state | dirty | spare), 54, TOKEN).page, 0);
        EACH(state, 1, 3, 26, 31) {
            guest *g = guest_with(LIVE, state | spare);
            expect(g, PHASE, BLACKOUT);
            PASSES(g, PAUSE);
        }
        REFUSED(guest_with(LIVE, spare), 45, ADD);
    }
}

TEST(S9_scans_pass_a_strange_record, "Scans pass a strange record: not listed, not blocked, not changed.")
{
    EACH(strange, STRANGE, 0x401, 0x8000000000000004, 0x118 | 0x400, 0x11d | 0x400) {
        SCANNED(PASSES(guest_with(LIVE, strange), DSCAN, .count = 1, .budget = ALL), 1, 511, 0);
        guest *g = guest_with(BLACKOUT, strange);
        expect(g, PLACE, 1);
        expect(g, COMPLETE, 1);
        SCANNED(ANSWERS(g, 3, DCHECK, .budget = ALL), 1, 511, 0);
    }
}

TEST(S10_no_call_but_new_changes_a_strange_record, "No call but New changes a strange record, neither of its words; New zeroes it.")
{
    EACH(strange, STRANGE) {
        const uint64_t busy = strange | 0x0000000900090300;
        EACH(phase, IDLE, LIVE) {
            EACH(c, WRITE, ADD, ACCEPT, BLOCK)
                REFUSED(guest_with(phase, busy), 45, c, .mark = 9);
            EACH(c, UNBLOCK, REMOVE)
                REFUSED(guest_with(phase, busy), 46, c);
        }
        REFUSED(guest_with(IDLE, busy), 45, START);
        guest *g = guest_with(LIVE, busy);
        EACH(c, TRACK, NEW_EPOCH, RESET, DSCAN, EXPORT, PAUSE, NEW_EPOCH, EXPORT, ABORT, RESTORE) {
            set_word(g, LIST, 0, entry(0));
            RUNS(g, 0, c, ORDINARY);
            EQUAL(word(g, TABLE, 0), busy);
            EQUAL(word(g, TABLE, 1), 5);
        }
        REFUSED(checked_with(busy), 54, TOKEN);
        RUNS(g, 0, NEW, .streams = 2);
        EQUAL(word(g, TABLE, 0), 0);
        EQUAL(word(g, TABLE, 1), 0);
    }
}

TEST(S10_restore_goes_on_past_a_strange_record,
     "Abort leaves a strange record like any other; RESTORE leaves it and goes on with the entries behind it.")
{
    guest *g = guest_in(LIVE, 3);
    lists_of(g, 3);
    for (size_t i = 0; i < 3; i++) {
        PAGE(g, i, .state = 24, .stamp = 1, .epoch = 1, .spare = i == 1 ? 0x400 : 0);
        set_word(g, LIST, i, entry(i));
    }
    expect(g, PHASE, IDLE);
    expect(g, MIG, 0);
    PASSES(g, ABORT);
    EXPECT_PAGE(g, 0, .state = 4);
    EXPECT_PAGE(g, 2, .state = 4);
    expect_word(g, LIST, 1, 0x0400000000001000);
    PASSES(g, RESTORE, .info = info(0, 2), .budget = ALL);
}

TEST(S11_track_and_pause_leave_a_strange_cached_bit,
     "Track and pause clear every Cached bit but that of a strange record, which no call but New changes.")
{
    guest *g = guest_in(LIVE, 2);
    PAGE(g, 0, .state = 4, .cached = 1, .spare = 0x400);
    PAGE(g, 1, .state = 4, .cached = 1);
    EXPECT_PAGE(g, 1, .state = 4);
    expect(g, TLB, 3);
    PASSES(g, TRACK);
    PAGE(g, 1, .state = 4, .cached = 1);
    EXPECT_PAGE(g, 1, .state = 4);
    expect(g, PHASE, BLACKOUT);
    PASSES(g, PAUSE);
}
