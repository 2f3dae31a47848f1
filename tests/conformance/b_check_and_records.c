/* The bench: the session's check, and what a table may hold. */
#include "harness.h"

static guest *checked(uint64_t phase, uint64_t place_word, uint64_t complete, uint64_t failed)
{
    guest *g = guest_in(phase, 4);
    set(g, PLACE, place_word);
    set(g, COMPLETE, complete);
    set(g, FAILED, failed);
    return g;
}

TEST(B12_the_check_is_at_most_at_the_page_count, "The check's place is at most the page count.")
{
    EACH(phase, IDLE, LIVE, BLACKOUT, DONE) {
        EACH(at, 0, 3, 4)
            WELL_FORMED(checked(phase, at, 0, 0));
        EACH(at, 5, 256, 1ULL << 32, UINT64_MAX)
            MALFORMED(checked(phase, at, 0, 0));
    }
}

TEST(B13_complete_is_at_the_count_and_not_failed,
     "A check that is complete at another place than the page count, or together with failed, is malformed.")
{
    EACH(phase, IDLE, LIVE, BLACKOUT, DONE) {
        WELL_FORMED(checked(phase, 4, 1, 0));
        EACH(at, 0, 3, 5)
            MALFORMED(checked(phase, at, 1, 0));
        EACH(at, 0, 3, 4)
            MALFORMED(checked(phase, at, 1, 1));
    }
}

TEST(B14_no_other_check_is_malformed,
     "Place = count without complete, failed at any place up to the count, and a complete or failed check in any phase are well-formed.")
{
    EACH(phase, IDLE, LIVE, BLACKOUT, DONE) {
        WELL_FORMED(checked(phase, 3, 0, 0));
        WELL_FORMED(checked(phase, 4, 0, 0));
        WELL_FORMED(checked(phase, 4, 1, 0));
        EACH(at, 0, 1, 3, 4)
            WELL_FORMED(checked(phase, at, 0, 1));
    }
}

TEST(B15_no_word_of_a_table_is_malformed, "No word of a table makes a call 40; only its length does.")
{
    EACH(filling, UINT64_MAX, 0xff, 0xffffffffffffff04, 0x0000ffffffff031f)
        EACH(phase, IDLE, LIVE, BLACKOUT, DONE) {
            guest *g = guest_in(phase, 4);
            for (size_t i = 0; i < 8; i++)
                set_word(g, TABLE, i, filling);
            WELL_FORMED(g);
        }
    guest *g = guest_in(LIVE, 4);
    for (size_t i = 0; i < 8; i++)
        set_word(g, TABLE, i, UINT64_MAX);
    expect(g, TLB, 3);
    PASSES(g, TRACK);
}
