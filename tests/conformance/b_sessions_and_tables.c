/* The bench: which sessions and tables there are. */
#include "harness.h"

TEST(B1_an_interrupted_export_counts_nothing,
     "Where the draft ABI text is silent, vague or says otherwise, the bench's rules decide: an interrupted export tells 0 errors and 0 buffers.")
{
    guest *g = guest_in(LIVE, 2);
    PAGE(g, 0, .state = 4, .stamp = 1, .mark = 7);
    PAGE(g, 1, .state = 4, .stamp = 1);
    set_word(g, LIST, 0, entry(0));
    EXPECT_PAGE(g, 0, .state = 24, .stamp = 1, .epoch = 1, .mark = 7);
    expect_word(g, BUFFER, 0, 7);
    EXPECT_INTERRUPTED(g, 0, .next = 1, .last = 1, .data = 1);
    EXPORTED(ANSWERS(g, 1, EXPORT, .info = info(0, 1), .budget = 1), info(1, 1), 0, 0);
}

TEST(B2_page_i_is_words_2i_and_2i_plus_1, "Page i has byte address 4,096*i, and is words 2i (record) and 2i+1 (mark) of the table.")
{
    guest *g = guest_in(IDLE, 8);
    for (size_t i = 0; i < 8; i++)
        PAGE(g, i, .state = 4, .mark = 100 + i);
    expect_word(g, TABLE, 2, 0x304);
    expect_word(g, TABLE, 3, 9);
    PASSES(g, WRITE, .page = 1, .mark = 9);

    EACH(number, 0, 1, 5, 4095) {
        guest *big = guest_in(BLACKOUT, 4096);
        for (size_t i = 0; i < 4096; i++)
            PAGE(big, i, .state = 4, .mark = 100 + i);
        lists_of(big, 1);
        set_word(big, LIST, 0, 0x0010000000000000 | 4096 * number);
        expect_word(big, TABLE, 2 * number, 0x100000018);
        expect_word(big, BUFFER, 0, 100 + number);
        PASSES(big, EXPORT, .budget = ALL);
    }
}

TEST(B3_a_record_is_state_bits_stamp_and_epoch,
     "Word 0: state 7:0, Dirty 8, Cached 9, stamp 31:16, epoch 47:32; bits 15:10 and 63:48 stay 0 in every record that a call writes.")
{
    guest *g = guest_in(LIVE, 1);
    set_word(g, TABLE, 0, 0x4);
    expect_word(g, TABLE, 0, 0x20001);
    PASSES(g, BLOCK);

    set(g, TLB, 65535);
    set(g, MIG, 65535);
    set_word(g, TABLE, 0, 0x0000ffff00000004);
    expect_word(g, TABLE, 0, 0x0000ffffffff0001);
    PASSES(g, BLOCK);

    set_word(g, TABLE, 0, 0x0000fffffffe0004);
    expect_word(g, TABLE, 0, 0x0000fffffffe0304);
    PASSES(g, WRITE);

    expect_word(g, TABLE, 0, 0x0000ffffffff0204);
    expect_word(g, LIST, 0, 0x0010000000000000);
    PASSES(g, DSCAN, .count = 1, .budget = 1);

    set_word(g, TABLE, 0, 0x0000fffefffe0204);
    lists_of(g, 1);
    set_word(g, LIST, 0, entry(0));
    expect_word(g, TABLE, 0, 0x0000fffffffe0218);
    expect_word(g, BUFFER, 0, 0);
    PASSES(g, EXPORT, .budget = 1);
}

TEST(B4_a_mark_is_any_64_bit_number, "The mark is any 64-bit number, kept and exported whole.")
{
    EACH(mark, 0, 1, 0x0123456789abcdef, 1ULL << 63, UINT64_MAX) {
        guest *g = guest_in(LIVE, 1);
        PAGE(g, 0, .state = 4);
        RUNS(g, 0, WRITE, .page = 0, .mark = mark);
        EQUAL(word(g, TABLE, 1), mark);
        RUNS(g, 0, DSCAN, .count = 1, .budget = 1);
        RUNS(g, 0, TRACK);
        RUNS(g, 0, EXPORT, .budget = 1);
        EQUAL(word(g, BUFFER, 0), mark);
        EQUAL(word(g, TABLE, 1), mark);
    }
}

TEST(B5_phase_count_and_n_have_bounds, "Phase is one of four; page count 1 to 4,096; N 2 to 9; else 40.")
{
    EACH(phase, IDLE, LIVE, BLACKOUT, DONE) {
        WELL_FORMED(guest_in(phase, 1));
        WELL_FORMED(guest_in(phase, 4096));
        EACH(n, 2, 9) {
            guest *g = guest_in(phase, 1);
            set(g, N, n);
            WELL_FORMED(g);
        }
        EACH(n, 0, 1, 10, 256 + 2, UINT64_MAX) {
            guest *g = guest_in(phase, 1);
            set(g, N, n);
            MALFORMED(g);
        }
        EACH(count, 0, 4097)
            MALFORMED(guest_in(phase, count));
    }
    EACH(phase, 4, 5, 256, 1ULL << 32, UINT64_MAX)
        MALFORMED(guest_in(phase, 1));
}

TEST(B6_tlb_epoch_has_bounds, "The TLB epoch is 1 to 65,535.")
{
    EACH(phase, IDLE, LIVE, BLACKOUT, DONE) {
        guest *g = guest_in(phase, 1);
        EACH(tlb, 1, 65535) {
            set(g, TLB, tlb);
            WELL_FORMED(g);
        }
        EACH(tlb, 0, 65536, 65537, 1ULL << 32, UINT64_MAX) {
            set(g, TLB, tlb);
            MALFORMED(g);
        }
    }
}

TEST(B7_migration_epoch_is_0_in_idle_alone, "The migration epoch is 0 in Idle, and 1 to 65,535 in Live, Blackout and Done.")
{
    guest *idle = guest_in(IDLE, 1);
    WELL_FORMED(idle);
    EACH(mig, 1, 65535, 65536, UINT64_MAX) {
        set(idle, MIG, mig);
        MALFORMED(idle);
    }
    EACH(phase, LIVE, BLACKOUT, DONE) {
        guest *g = guest_in(phase, 1);
        EACH(mig, 1, 65535) {
            set(g, MIG, mig);
            WELL_FORMED(g);
        }
        EACH(mig, 0, 65536, 65537, UINT64_MAX) {
            set(g, MIG, mig);
            MALFORMED(g);
        }
    }
}

TEST(B8_eight_places_for_streams, "The session holds eight places for streams whatever N is; those at N-1 and above are unusable.")
{
    EACH(n, 2, 9) {
        EACH(stream, 0, n - 2) {
            guest *g = guest_in(LIVE, 1);
            set(g, N, n);
            EXPECT_INTERRUPTED(g, stream, .next = 0, .last = 3);
            ANSWERS(g, 1, EXPORT, .stream = stream, .info = info(0, 3), .budget = 0);
        }
        guest *g = guest_in(LIVE, 1);
        set(g, N, n);
        REFUSED(g, 42, EXPORT, .stream = n - 1, .budget = ALL);
        REFUSED(g, 42, EXPORT, .stream = 8, .budget = ALL);
        EACH(places, 7, 9) {
            resize(g, SESSION, 8 * (STREAMS + STREAM_WORDS * places));
            MALFORMED(g);
        }
    }
}

TEST(B9_an_interrupted_stream_has_bounds, "Interrupted: next <= last <= 511, errors <= next, data pages <= next.")
{
    EACH(phase, LIVE, BLACKOUT) {
        guest *g = guest_in(phase, 1);
        const interruption fine[] = {{.next = 0, .last = 0}, {.next = 3, .last = 3}, {.next = 0, .last = 511}, {.next = 511, .last = 511},
                                     {.next = 2, .last = 5, .errors = 2}, {.next = 2, .last = 5, .data = 2}, {511, 511, 511, 0}};
        const interruption bad[] = {{.next = 4, .last = 3}, {.next = 0, .last = 512}, {.next = 512, .last = 512}, {.next = 1, .last = 0},
                                    {.next = 2, .last = 5, .errors = 3}, {.next = 2, .last = 5, .data = 3}, {.next = UINT64_MAX, .last = 5},
                                    {.last = UINT64_MAX}, {.last = 5, .errors = 1}, {.last = 5, .data = 1},
                                    {.next = 2, .last = 5, .errors = UINT64_MAX}, {.next = 2, .last = 5, .data = 1ULL << 32}};
        for (size_t i = 0; i < sizeof fine / sizeof *fine; i++) {
            set_interrupted(g, 3, fine[i]);
            WELL_FORMED(g);
        }
        for (size_t i = 0; i < sizeof bad / sizeof *bad; i++) {
            set_interrupted(g, 3, bad[i]);
            MALFORMED(g);
        }
    }
}

TEST(B10_errors_and_data_pages_are_bounded_apart, "Errors and data pages are each at most next; their sum is not bounded.")
{
    EACH(next, 1, 511) {
        guest *g = guest_in(LIVE, 1);
        INTERRUPT(g, 0, .next = next, .last = 511, .errors = next, .data = next);
        WELL_FORMED(g);
    }
}

TEST(B11_only_a_usable_stream_in_live_or_blackout_is_interrupted,
     "An interrupted stream that is unusable, or in Idle or Done, is malformed: 40, not 41.")
{
    EACH(phase, IDLE, LIVE, BLACKOUT, DONE)
        EACH(n, 2, 3, 8, 9)
            for (size_t i = 0; i < 8; i++) {
                guest *g = guest_in(phase, 1);
                set(g, N, n);
                INTERRUPT(g, i, .last = 3);
                if ((phase == LIVE || phase == BLACKOUT) && i < n - 1)
                    WELL_FORMED(g);
                else
                    MALFORMED(g);
            }
}
