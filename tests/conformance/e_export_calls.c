/* Export of a list: when it comes, its operands, new and resumed calls, the budget. */
#include "lists.h"

/* A guest in Live of 8 free pages with a list of 6 entries, all OPERATION 0; stream 0 is interrupted at entry 2 of an operation whose last entry is 4. */
static guest *interrupted_at_2_of_4(void)
{
    guest *g = guest_in(LIVE, 8);
    list_of_skips(g, 6);
    INTERRUPT(g, 0, .next = 2, .last = 4);
    return g;
}

TEST(E1_export_comes_in_live_and_blackout, "Export comes in Live and Blackout; in Idle and Done it is 41, before any 42.")
{
    EACH(phase, IDLE, DONE) {
        guest *g = ASKING(phase, .state = 4);
        REFUSED(g, 41, EXPORT, .budget = ALL);
        REFUSED(g, 41, EXPORT, .stream = 99, .budget = ALL);
        REFUSED(g, 41, EXPORT, .resume = 2, .info = info(3, 9) | 1, .budget = ALL);
        lists_of(g, 0);
        REFUSED(g, 41, EXPORT, .budget = ALL);
    }
    EACH(phase, LIVE, BLACKOUT)
        MOVES(ASKING(phase, .state = 4, .stamp = 1), 24, .operation = MIGRATE);
}

TEST(E2_a_stream_below_N_less_1_is_usable, "42: a stream number of N-1 or more, up to 2^64-1.")
{
    for (uint64_t created = 2; created <= 9; created++) {
        guest *g = ASKING(LIVE, .state = 4, .stamp = 1);
        set(g, N, created);
        EACH(stream, created - 1, created, 8, 9, 1ull << 32, 1ull << 63, (1ull << 63) + 1, ALL)
            REFUSED(g, 42, EXPORT, .stream = stream, .budget = ALL);
        for (uint64_t stream = 0; stream < created - 1; stream++) {
            EXPECT_INTERRUPTED(g, stream, .next = 0, .last = 0);
            ANSWERS(g, 1, EXPORT, .stream = stream, .budget = 0);
        }
    }
}

TEST(E3_a_list_has_1_to_512_words, "42: a list of 0 or more than 512 words.")
{
    guest *g = guest_in(LIVE, 8);
    EACH(words, 0, 513, 514, 1024) {
        lists_of(g, words);
        REFUSED(g, 42, EXPORT, .budget = ALL);
    }
    EACH(words, 1, 511, 512) {
        list_of_skips(g, words);
        expect_skipped(g, 0, words);
        PASSES(g, EXPORT, .info = info(0, words - 1), .budget = ALL);
    }
}

TEST(E4_a_buffer_is_as_long_as_its_list, "42: a buffer of another length than the list, shorter or longer.")
{
    guest *g = guest_in(LIVE, 8);
    list_of_skips(g, 2);
    EACH(bytes, 0, 8, 15, 17, 24, 32, 16 + 4096) {
        resize(g, BUFFER, bytes);
        REFUSED(g, 42, EXPORT, .budget = ALL);
    }
    resize(g, BUFFER, 16);
    expect_skipped(g, 0, 2);
    PASSES(g, EXPORT, .info = info(0, 1), .budget = ALL);
}

TEST(E5_format_and_bits_54_52_are_0, "42: FORMAT not 0, or any of bits 54:52 set.")
{
    guest *g = ASKING(LIVE, .state = 4, .stamp = 1);
    EACH(bits, 1, 2, 3, 4, 5, 6, 7) {
        REFUSED(g, 42, EXPORT, .info = bits, .budget = ALL);
        REFUSED(g, 42, EXPORT, .info = bits << 52, .budget = ALL);
    }
    MOVES(g, 24, .operation = MIGRATE);
}

TEST(E6_the_last_entry_is_within_the_list, "42: LAST at or above the list's length; a list longer than LAST + 1 is fine.")
{
    guest *g = guest_in(LIVE, 8);
    EACH(words, 1, 4, 511) {
        list_of_skips(g, words);
        EACH(last, words, 511)
            REFUSED(g, 42, EXPORT, .info = info(0, last), .budget = ALL);
        expect_skipped(g, 0, words);
        PASSES(g, EXPORT, .info = info(0, words - 1), .budget = ALL);
    }
    list_of_skips(g, 512);
    expect_skipped(g, 0, 1);
    PASSES(g, EXPORT, .info = info(0, 0), .budget = ALL);
}

TEST(E7_a_stream_at_rest_is_not_resumed, "44: resume on a stream at rest, whatever FIRST is.")
{
    guest *g = guest_in(LIVE, 8);
    EACH(first, 0, 1, 3)
        REFUSED(g, 44, EXPORT, .resume = 1, .info = info(first, 3), .budget = ALL);
}

TEST(E8_a_resume_has_the_streams_first_and_last, "44: resume with another FIRST than the stream's next, or another LAST than its last.")
{
    guest *g = interrupted_at_2_of_4();
    EACH(first, 0, 1, 3, 4, 5, 258, 511)
        REFUSED(g, 44, EXPORT, .resume = 1, .info = info(first, 4), .budget = ALL);
    EACH(last, 0, 2, 3, 5)
        REFUSED(g, 44, EXPORT, .resume = 1, .info = info(2, last), .budget = ALL);
    expect_skipped(g, 2, 5);
    expect_at_rest(g, 0);
    PASSES(g, EXPORT, .resume = 1, .info = info(2, 4), .budget = ALL);
}

TEST(E9_an_interrupted_stream_takes_no_new_call, "44: a new call on an interrupted stream.")
{
    EACH(phase, LIVE, BLACKOUT)
        EACH(next, 0, 2) {
            guest *g = guest_in(phase, 8);
            INTERRUPT(g, 0, .next = next, .last = 3);
            EACH(last, 0, 3)
                REFUSED(g, 44, EXPORT, .info = info(0, last), .budget = ALL);
        }
}

TEST(E10_the_first_42s_come_before_44, "The first group of 42 comes before 44.")
{
    EACH(at_rest, 0, 1) {
        guest *g = at_rest ? guest_in(LIVE, 8) : interrupted_at_2_of_4();
        list_of_skips(g, 4);
        REFUSED(g, 42, EXPORT, .resume = at_rest, .info = 1, .budget = ALL);
        REFUSED(g, 42, EXPORT, .resume = at_rest, .info = 1ull << 54, .budget = ALL);
        REFUSED(g, 42, EXPORT, .resume = at_rest, .info = info(0, 4), .budget = ALL);
        REFUSED(g, 42, EXPORT, .resume = 2, .budget = ALL);
        REFUSED(g, 44, EXPORT, .resume = at_rest, .budget = ALL);
        resize(g, BUFFER, 40);
        REFUSED(g, 42, EXPORT, .resume = at_rest, .budget = ALL);
        lists_of(g, 0);
        REFUSED(g, 42, EXPORT, .resume = at_rest, .budget = ALL);
        lists_of(g, 513);
        REFUSED(g, 42, EXPORT, .resume = at_rest, .budget = ALL);
    }
}

TEST(E11_a_new_call_begins_at_entry_0, "A new call with FIRST not 0 is 42, but only after 44.")
{
    guest *g = interrupted_at_2_of_4();
    EACH(first, 1, 2, 3, 256, 511) {
        REFUSED(g, 44, EXPORT, .info = info(first, 4), .budget = ALL);
        REFUSED(g, 42, EXPORT, .stream = 1, .info = info(first, 4), .budget = ALL);
    }
    expect_skipped(g, 0, 5);
    PASSES(g, EXPORT, .stream = 1, .info = info(0, 4), .budget = ALL);
}

TEST(E12_a_resume_compares_first_and_last_alone,
     "A resume compares FIRST and LAST alone: list, buffer, their length above LAST, and HPA may be others than before.")
{
    EACH(words, 5, 6, 512) {
        guest *g = interrupted_at_2_of_4();
        list_of_skips(g, words);
        PAGE(g, 6, .state = 4, .stamp = 1, .mark = 9);
        set_word(g, LIST, 3, entry(6));
        EXPECT_PAGE(g, 6, .state = 24, .stamp = 1, .epoch = 1, .mark = 9);
        expect_skipped(g, 2, 5);
        expect_word(g, LIST, 3, ENTRY(.page = 6, .operation = MIGRATE));
        expect_word(g, BUFFER, 3, 9);
        expect_at_rest(g, 0);
        uint64_t hpa = 0xabcdef0123000;
        EXPORTED(PASSES(g, EXPORT, .resume = 1, .info = info(2, 4) | hpa, .budget = ALL), info(5, 4) | hpa, 0, 3);
    }
}

TEST(E13_streams_do_not_stop_each_other, "Other streams' interruptions do not matter, and their records stay; export never gives 43.")
{
    guest *g = interrupted_at_2_of_4();
    INTERRUPT(g, 1, .next = 1, .last = 511, .errors = 1, .data = 1);
    INTERRUPT(g, 3, .next = 0, .last = 0);
    expect_skipped(g, 0, 1);
    EXPECT_INTERRUPTED(g, 2, .next = 1, .last = 5);
    ANSWERS(g, 1, EXPORT, .stream = 2, .info = info(0, 5), .budget = 1);
    expect_skipped(g, 2, 5);
    expect_at_rest(g, 0);
    PASSES(g, EXPORT, .resume = 1, .info = info(2, 4), .budget = ALL);
}

TEST(E14_a_faulty_entry_is_a_status, "A faulty entry is a status, never a refusal of the call: the entries after it are taken as well.")
{
    guest *g = guest_in(BLACKOUT, 8);
    PAGE(g, 5, .state = 4, .mark = 9);
    const uint64_t faulty[] = {ALL, entry(5) | 1 << 5, entry(1ull << 39)};
    for (size_t i = 0; i < 3; i++)
        set_word(g, LIST, i, faulty[i]);
    set_word(g, LIST, 3, entry(5));
    EXPORTED(RUNS(g, 0, EXPORT, .info = info(0, 3), .budget = ALL), info(4, 3), 3, 3);
    EACH(i, 0, 1, 2, 3)
        EQUAL(word(g, LIST, i) >> 56 & 31, i == 3 ? 0 : i == 2 ? 2 : 15);
}

TEST(E15_all_done_is_tested_before_the_budget, "All done is tested before the budget: a budget of exactly the entries that are left suffices.")
{
    EACH(budget, 3, 4, 5) {
        guest *g = guest_in(LIVE, 8);
        list_of_skips(g, 4);
        expect_skipped(g, 0, budget < 4 ? budget : 4);
        if (budget < 4)
            EXPECT_INTERRUPTED(g, 0, .next = 3, .last = 3);
        ANSWERS(g, budget < 4 ? 1 : 0, EXPORT, .info = info(0, 3), .budget = budget);
    }
    guest *g = interrupted_at_2_of_4();
    expect_skipped(g, 2, 5);
    expect_at_rest(g, 0);
    PASSES(g, EXPORT, .resume = 1, .info = info(2, 4), .budget = 3);
}

TEST(E16_budget_0_takes_no_entry, "Budget 0 answers 1; a new call leaves its stream interrupted at entry 0, a resumed one its record as it was.")
{
    guest *g = guest_in(LIVE, 8);
    list_of_skips(g, 4);
    EXPECT_INTERRUPTED(g, 1, .next = 0, .last = 3);
    EXPORTED(ANSWERS(g, 1, EXPORT, .stream = 1, .info = info(0, 3), .budget = 0), info(0, 3), 0, 0);
    EXPORTED(ANSWERS(g, 1, EXPORT, .stream = 1, .resume = 1, .info = info(0, 3), .budget = 0), info(0, 3), 0, 0);
    INTERRUPT(g, 1, .next = 2, .last = 3, .errors = 2, .data = 1);
    EXPORTED(ANSWERS(g, 1, EXPORT, .stream = 1, .resume = 1, .info = info(2, 3), .budget = 0), info(2, 3), 0, 0);
}

TEST(E17_every_entry_taken_costs_budget, "Every entry taken costs one of the budget, skipped and faulty ones too; any budget up to 2^64-1 works.")
{
    EACH(asked, entry_op(5, 0), entry(5), entry(9), entry(5) | 1) {
        guest *g = guest_in(LIVE, 8);
        EACH(i, 0, 1, 2)
            set_word(g, LIST, i, asked);
        EXPORTED(RUNS(g, 1, EXPORT, .info = info(0, 2), .budget = 2), info(2, 2), 0, 0);
        EQUAL(word(g, LIST, 2), asked);
    }
    EACH(budget, 1ull << 32, 1ull << 63, ALL - 1, ALL) {
        guest *g = interrupted_at_2_of_4();
        expect_skipped(g, 2, 5);
        expect_at_rest(g, 0);
        PASSES(g, EXPORT, .resume = 1, .info = info(2, 4), .budget = budget);
    }
}
