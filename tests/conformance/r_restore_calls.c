/* Restore of a list: when it comes, its list and info word, the budget, and what it answers. */
#include "lists.h"

/* The info word that a restore answers beside its code. */
#define RESTORED(a, info_word) EQUAL((a).info, (info_word))

TEST(R1_restore_comes_in_idle, "RESTORE comes in Idle alone; in Live, Blackout and Done it is 41, after 40 and before any 42.")
{
    EACH(phase, LIVE, BLACKOUT, DONE) {
        guest *g = ASKING(phase, .state = 24);
        EACH(budget, 0, 1, ALL)
            REFUSED(g, 41, RESTORE, .budget = budget);
        REFUSED(g, 41, RESTORE, .info = info(3, 2) | 1 | 1ull << 52, .budget = ALL);
        EACH(bytes, 0, 7, 8 * 513) {
            resize(g, LIST, bytes);
            REFUSED(g, 41, RESTORE, .budget = ALL);
        }
        set(g, TLB, 0);
        REFUSED(g, 40, RESTORE, .budget = ALL);
    }
    guest *g = aborted_with(1);
    expect_restored(g, 0, 1);
    RESTORED(PASSES(g, RESTORE, .budget = ALL), info(1, 0));
}

TEST(R2_a_list_is_in_whole_words, "42: a list not in whole words, right after 40 and 41.")
{
    EACH(bytes, 1, 7, 9, 12, 15, 17, 31, 4095, 4097, 4103) {
        guest *g = aborted_with(2);
        resize(g, LIST, bytes);
        EACH(budget, 0, ALL)
            REFUSED(g, 42, RESTORE, .budget = budget);
        set(g, N, 10);
        REFUSED(g, 40, RESTORE, .budget = ALL);
        set(g, N, 5);
        set(g, MIG, 1);
        EACH(phase, LIVE, BLACKOUT, DONE) {
            set(g, PHASE, phase);
            REFUSED(g, 41, RESTORE, .budget = ALL);
        }
    }
    EACH(words, 1, 2) {
        guest *g = aborted_with(words);
        expect_restored(g, 0, 1);
        PASSES(g, RESTORE, .budget = ALL);
    }
}

TEST(R3_a_list_has_1_to_512_words, "42: a list of 0 or more than 512 words; 1 to 512 are taken.")
{
    EACH(words, 0, 513, 514, 1024) {
        guest *g = aborted_with(1);
        resize(g, LIST, 8 * words);
        EACH(last, 0, 511)
            REFUSED(g, 42, RESTORE, .info = info(0, last), .budget = ALL);
    }
    EACH(words, 1, 2, 511, 512) {
        guest *g = aborted_with(words);
        expect_restored(g, 0, words);
        RESTORED(PASSES(g, RESTORE, .info = info(0, words - 1), .budget = ALL), info(words % 512, words - 1));
    }
}

TEST(R4_format_and_bits_54_52_are_0, "42: FORMAT not 0, or any of bits 54:52 set.")
{
    guest *g = aborted_with(4);
    EACH(bits, 1, 2, 3, 4, 5, 6, 7) {
        REFUSED(g, 42, RESTORE, .info = info(0, 3) | bits, .budget = ALL);
        REFUSED(g, 42, RESTORE, .info = info(0, 3) | bits << 52, .budget = ALL);
        REFUSED(g, 42, RESTORE, .info = bits << 52, .budget = 0);
    }
    expect_restored(g, 0, 4);
    PASSES(g, RESTORE, .info = info(0, 3), .budget = ALL);
}

TEST(R5_the_last_entry_is_within_the_list,
     "42: LAST at or above the list's length; LAST = length - 1 is taken, and a list longer than LAST + 1 is fine.")
{
    EACH(words, 1, 4, 256, 511) {
        guest *g = aborted_with(words);
        EACH(last, words, 511)
            EACH(first, 0, last)
                REFUSED(g, 42, RESTORE, .info = info(first, last), .budget = ALL);
        expect_restored(g, 0, words);
        PASSES(g, RESTORE, .info = info(0, words - 1), .budget = ALL);
    }
    guest *g = aborted_with(512);
    expect_restored(g, 0, 3);
    RESTORED(PASSES(g, RESTORE, .info = info(0, 2), .budget = ALL), info(3, 2));
}

TEST(R6_the_first_entry_is_not_behind_the_last, "42: FIRST above LAST; FIRST = LAST takes that one entry.")
{
    guest *g = aborted_with(512);
    EACH(last, 0, 1, 254, 510)
        EACH(first, last + 1, 511)
            EACH(budget, 0, 1, ALL)
                REFUSED(g, 42, RESTORE, .info = info(first, last), .budget = budget);
    EACH(both, 0, 1, 255, 256, 511) {
        expect_restored(g, both, both + 1);
        RESTORED(PASSES(g, RESTORE, .info = info(both, both), .budget = ALL), info((both + 1) % 512, both));
    }
}

TEST(R7_no_stream_and_no_buffer,
     "RESTORE has no stream and no buffer: it begins at any FIRST, whatever call came before, never gives 43 or 44, and stands in no call's way.")
{
    guest *g = aborted_with(6);
    expect_restored(g, 4, 6);
    PASSES(g, RESTORE, .info = info(4, 5), .budget = ALL);
    expect_restored(g, 0, 1);
    RESTORED(ANSWERS(g, 1, RESTORE, .info = info(0, 3), .budget = 1), info(1, 3));
    RUNS(g, 0, TRACK);
    for (size_t i = 0; i < 6; i++)
        PAGE(g, i, .state = i == 2 ? 25 : 4);
    set_word(g, LIST, 2, entry(2));
    EXPECT_PAGE(g, 2, .state = 4);
    PASSES(g, RESTORE, .info = info(2, 2), .budget = ALL);
    RUNS(g, 0, START);
    guest *small = aborted_with(2);
    EACH(bytes, 0, 1, 8, 4096) {
        resize(small, BUFFER, bytes);
        RESTORED(ANSWERS(small, 1, RESTORE, .stream = 99, .resume = 2, .info = info(0, 1), .budget = 0), info(0, 1));
    }
}

TEST(R8_entries_from_first_to_last, "Entries FIRST to LAST are taken; those below FIRST and past LAST stay, and so do their pages.")
{
    EACH(first, 0, 1, 3, 7)
        EACH(last, first, 7) {
            guest *g = aborted_with(9);
            expect_restored(g, first, last + 1);
            RESTORED(PASSES(g, RESTORE, .info = info(first, last), .budget = ALL), info(last + 1, last));
        }
}

TEST(R8_entries_are_taken_in_turn, "Entries are taken in turn, on the table as the earlier ones left it.")
{
    guest *g = aborted_with(3);
    const uint64_t asked[] = {2, 0, 2};
    for (size_t i = 0; i < 3; i++)
        set_word(g, LIST, i, entry(asked[i]));
    EACH(p, 0, 2)
        EXPECT_PAGE(g, p, .state = 4, .cached = 1, .mark = p);
    expect_word(g, LIST, 2, ENTRY(.page = 2, .status = 4));
    PASSES(g, RESTORE, .info = info(0, 2), .budget = ALL);
}

TEST(R9_all_done_is_tested_before_the_budget,
     "All done is tested before the budget: a budget of exactly the entries that are left suffices, one fewer is code 1.")
{
    EACH(first, 0, 2)
        EACH(budget, 5 - first, 6 - first, 7 - first) {
            guest *g = aborted_with(6);
            const uint64_t code = budget < 6 - first, next = code ? 5 : 6;
            expect_restored(g, first, next);
            RESTORED(ANSWERS(g, code, RESTORE, .info = info(first, 5), .budget = budget), info(next, 5));
        }
}

TEST(R10_budget_0_takes_no_entry, "Budget 0 is code 1: the info word comes back as it was given, and nothing changes.")
{
    guest *g = aborted_with(512);
    EACH(last, 0, 3, 511)
        EACH(first, 0, last / 2, last)
            EACH(hpa, 0, 0xffffffffff000)
                RESTORED(ANSWERS(g, 1, RESTORE, .info = info(first, last) | hpa, .budget = 0), info(first, last) | hpa);
}

TEST(R11_every_entry_taken_costs_budget,
     "Every entry taken costs one of the budget, skipped, faulty and useless ones too; entries past the budget stay. Any budget up to 2^64-1 works.")
{
    const struct { uint64_t asked, status; } rows[] = {
        {entry_op(0, 0), 1}, {entry_op(0, 2), 1}, {entry(0) | 1, 15}, {entry(8), 2}, {entry(0), 4}, {entry_op(0, 3), 4}};
    for (size_t row = 0; row < sizeof rows / sizeof *rows; row++) {
        guest *g = guest_in(IDLE, 8);
        EACH(i, 0, 1, 2)
            set_word(g, LIST, i, rows[row].asked);
        RESTORED(RUNS(g, 1, RESTORE, .info = info(0, 2), .budget = 2), info(2, 2));
        EACH(i, 0, 1)
            EQUAL(word(g, LIST, i) >> 56, rows[row].status);
        EQUAL(word(g, LIST, 2), rows[row].asked);
    }
    for (uint64_t budget = 1; budget < 6; budget++) {
        guest *g = aborted_with(6);
        expect_restored(g, 0, budget);
        RESTORED(ANSWERS(g, 1, RESTORE, .info = info(0, 5), .budget = budget), info(budget, 5));
    }
    EACH(budget, 1ull << 32, 1ull << 63, ALL - 1, ALL) {
        guest *g = aborted_with(6);
        expect_restored(g, 0, 6);
        PASSES(g, RESTORE, .info = info(0, 5), .budget = budget);
    }
}

TEST(R12_first_comes_back_as_the_next_index, "Info out: FIRST is the next index, with code 0 (LAST+1) mod 512, so 0 where LAST is 511.")
{
    EACH(last, 0, 1, 254, 255, 256, 510, 511) {
        guest *g = aborted_with(512);
        EACH(first, 0, last / 2, last) {
            RESTORED(RUNS(g, first < last, RESTORE, .info = info(first, last), .budget = 1), info((first + 1) % 512, last));
            RESTORED(RUNS(g, 0, RESTORE, .info = info(first, last), .budget = ALL), info(last == 511 ? 0 : last + 1, last));
        }
    }
}

TEST(R13_the_rest_of_the_info_word_comes_back, "HPA is ignored on the way in; HPA and LAST come back as they were given.")
{
    EACH(hpa, 1ull << 12, 1ull << 51, 0xabcdef0123000, 0xffffffffff000)
        EACH(last, 0, 3, 511) {
            guest *g = aborted_with(512);
            expect_restored(g, 0, last + 1);
            RESTORED(PASSES(g, RESTORE, .info = info(0, last) | hpa, .budget = ALL), info((last + 1) % 512, last) | hpa);
            RESTORED(RUNS(g, 1, RESTORE, .info = info(0, last) | hpa, .budget = 0), info(0, last) | hpa);
        }
    guest *g = aborted_with(512);
    expect_restored(g, 0, 512);
    RESTORED(PASSES(g, RESTORE, .info = 0xff8ffffffffff000, .budget = ALL), 0xff8ffffffffff000);
}

TEST(R14_a_refused_restore_answers_zeros, "A refused RESTORE answers its code and info word 0, and touches nothing.")
{
    const uint64_t hpa = 0x000abcdef1234000;
    guest *g = aborted_with(4);
    REFUSED(g, 42, RESTORE, .info = info(0, 4) | hpa, .budget = ALL);
    REFUSED(g, 42, RESTORE, .info = info(2, 1) | hpa, .budget = ALL);
    REFUSED(g, 42, RESTORE, .info = info(0, 3) | hpa | 1, .budget = ALL);
    REFUSED(g, 42, RESTORE, .info = info(0, 3) | hpa | 1ull << 54, .budget = ALL);
    resize(g, LIST, 31);
    REFUSED(g, 42, RESTORE, .info = info(0, 2) | hpa, .budget = ALL);
    resize(g, LIST, 0);
    REFUSED(g, 42, RESTORE, .info = hpa, .budget = ALL);
    REFUSED(guest_in(LIVE, 1), 41, RESTORE, .info = info(0, 3) | hpa, .budget = ALL);
    set(g, N, 0);
    REFUSED(g, 40, RESTORE, .info = hpa, .budget = ALL);
}

TEST(R15_the_session_comes_back_as_it_came, "RESTORE changes no byte of the session, with code 0 or 1: phase, epochs, N, check and streams stay.")
{
    EACH(check, 0, 1, 2)
        EACH(budget, 0, 1, 2, ALL) {
            guest *g = aborted_with(2);
            set(g, TLB, 65535);
            set(g, N, 9);
            set(g, PLACE, check ? 2 : 1);
            set(g, COMPLETE, check == 1);
            set(g, FAILED, check == 2);
            expect_restored(g, 0, budget < 2 ? budget : 2);
            ANSWERS(g, budget < 2, RESTORE, .info = info(0, 1), .budget = budget);
        }
}

/* Pages 0 to 7 in 24 to 27, 29 to 31 and 4, and a list with every status: each page in turn, page 2 again, a NOP, a faulty entry, and page 8. */
static guest *of_every_kind(void)
{
    const uint64_t states[] = {24, 25, 26, 27, 29, 30, 31, 4};
    guest *g = guest_in(IDLE, 8);
    lists_of(g, 12);
    for (size_t i = 0; i < 8; i++) {
        PAGE(g, i, .state = states[i], .dirty = i % 2, .cached = i / 2 % 2, .stamp = 1 + i, .epoch = 7, .mark = 10 + i);
        set_word(g, LIST, i, entry_op(i, i % 2 ? 3 : 1));
    }
    set_word(g, LIST, 8, entry(2));
    set_word(g, LIST, 9, entry_op(1, 2));
    set_word(g, LIST, 10, entry(1) | 1 << 3);
    set_word(g, LIST, 11, entry(8));
    return g;
}

TEST(R16_called_again_it_goes_on,
     "Called again with the info word that it answered, RESTORE goes on: however the calls cut the list, it comes to the same.")
{
    guest *whole = of_every_kind();
    RESTORED(RUNS(whole, 0, RESTORE, .info = info(0, 11), .budget = ALL), info(12, 11));
    const uint64_t status[] = {0, 0, 0, 0, 0, 0, 0, 4, 4, 1, 15, 2};
    for (size_t i = 0; i < 12; i++)
        EQUAL(word(whole, LIST, i) >> 56 & 31, status[i]);
    for (uint64_t budget = 1; budget <= 12; budget++) {
        guest *g = of_every_kind();
        uint64_t at = info(0, 11);
        for (uint64_t taken = budget; taken < 12; taken += budget)
            at = RUNS(g, 1, RESTORE, .info = at, .budget = budget).info;
        RESTORED(RUNS(g, 0, RESTORE, .info = at, .budget = budget), info(12, 11));
        for (size_t i = 0; i < 12; i++)
            EQUAL(word(g, LIST, i), word(whole, LIST, i));
        for (size_t i = 0; i < 16; i++)
            EQUAL(word(g, TABLE, i), word(whole, TABLE, i));
    }
}
