/* Scans: when they come, what they are given, and what is tested first at each page. */
#include "lists.h"

TEST(N1_each_scan_has_its_phase, "DSCAN comes in Live alone, DCHECK in Blackout alone, reset in Live and Blackout; else 41.")
{
    EACH(phase, IDLE, LIVE, BLACKOUT, DONE) {
        guest *g = guest_in(phase, 1);
        RUNS(g, phase == LIVE ? 0 : 41, DSCAN, .count = 1, .budget = ALL);
        RUNS(g, phase == BLACKOUT ? 3 : 41, DCHECK, .budget = ALL);
        RUNS(g, phase == LIVE || phase == BLACKOUT ? 0 : 41, RESET);
    }
}

TEST(N2_a_dscan_stays_within_the_table, "DSCAN takes a first page below the count and 1 page or more, all within the table, without wrap; else 42.")
{
    guest *g = guest_in(LIVE, 8);
    STATES(g, 4, 4, 4, 4, 4, 4, 4, 4);
    lists_of(g, 8);
    EACH(count, 0, 9, 1ull << 32, (1ull << 60) + 1, 1ull << 63, ALL)
        REFUSED(g, 42, DSCAN, .first = 0, .count = count, .budget = ALL);
    EACH(first, 8, 9, 1ull << 32, 1ull << 60, 1ull << 63, ALL)
        EACH(count, 0, 1, 2, ALL - first + 1, ALL - first + 2)
            REFUSED(g, 42, DSCAN, .first = first, .count = count, .budget = ALL);
    REFUSED(g, 42, DSCAN, .first = 7, .count = 2, .budget = ALL);
    REFUSED(g, 42, DSCAN, .first = 7, .count = 0, .budget = ALL);
    REFUSED(g, 42, DSCAN, .first = 1, .count = 8, .budget = ALL);
    REFUSED(g, 42, DSCAN, .first = 1, .count = ALL, .budget = ALL);
    expect_listed(g, 0, 7);
    SCANS(g, DSCAN, .first = 7, .count = 1, .budget = ALL, .next = 8, .written = 1);
    for (size_t i = 0; i < 8; i++)
        expect_listed(g, i, i);
    SCANS(g, DSCAN, .count = 8, .budget = ALL, .next = 8, .written = 8);
    guest *largest = guest_in(LIVE, 4096);
    SCANS(largest, DSCAN, .count = 4096, .budget = ALL, .next = 4096);
    SCANS(largest, DSCAN, .first = 4095, .count = 1, .budget = ALL, .next = 4096);
    REFUSED(largest, 42, DSCAN, .first = 4096, .count = 1, .budget = ALL);
    REFUSED(largest, 42, DSCAN, .count = 4097, .budget = ALL);
}

TEST(N3_a_scan_takes_a_list_of_0_to_512_words, "Both scans take a list of 0 to 512 words; a longer one is 42.")
{
    EACH(scan, DSCAN, DCHECK) {
        guest *g = guest_for(scan, 513);
        EACH(words, 513, 514, 1024, 4096) {
            lists_of(g, words);
            REFUSED(g, 42, scan, .count = 513, .budget = ALL);
        }
        lists_of(g, 512);
        for (size_t i = 0; i < 513; i++)
            PAGE(g, i, .state = 4);
        for (size_t i = 0; i < 512; i++)
            expect_listed(g, i, i);
        SCANS(g, scan, .budget = ALL, .code = 2, .next = 512, .written = 512);
        guest *without = guest_for(scan, 3);
        lists_of(without, 0);
        SCANS(without, scan, .budget = ALL, .code = end_of(scan), .next = 3);
    }
}

TEST(N4_a_finished_check_asks_for_a_reset,
     "DCHECK on a complete or a failed check is 50, and 42 comes before it. DSCAN never gives 50, on a session that holds such a check either.")
{
    EACH(blocked, 0, 1) {
        guest *g = guest_in(BLACKOUT, 3);
        PAGE(g, 2, .state = blocked);
        SCANS(g, DCHECK, .budget = ALL, .code = blocked ? 51 : 3, .next = blocked ? 2 : 3);
        EACH(budget, 0, 1, ALL)
            REFUSED(g, 50, DCHECK, .budget = budget);
        EACH(bytes, 12, 8 * 513) {
            resize(g, LIST, bytes);
            REFUSED(g, 42, DCHECK, .budget = ALL);
        }
        lists_of(g, 0);
        RUNS(g, 0, RESET);
        SCANS(g, DCHECK, .budget = 2, .code = 1, .next = 2);
    }
    EACH(reached, 0, 1, 3) {
        guest *failed = guest_in(BLACKOUT, 3);
        set(failed, PLACE, reached);
        set(failed, FAILED, 1);
        REFUSED(failed, 50, DCHECK, .budget = ALL);
        set(failed, PHASE, LIVE);
        SCANS(failed, DSCAN, .budget = ALL, .next = 3);
    }
    guest *complete = guest_in(LIVE, 3);
    set(complete, PLACE, 3);
    set(complete, COMPLETE, 1);
    SCANS(complete, DSCAN, .budget = ALL, .next = 3);
}

TEST(N5_reset_returns_the_check_to_page_0,
     "Reset sets the check's place to 0, neither complete nor failed, and nothing else. An interrupted stream stops neither reset nor scans.")
{
    EACH(phase, LIVE, BLACKOUT) {
        EACH(failed, 0, 1) {
            guest *g = guest_in(phase, 3);
            PAGE(g, 1, .state = 24, .dirty = 1, .cached = 1, .stamp = 2, .epoch = 1, .mark = 9);
            INTERRUPT(g, 2, .next = 2, .last = 5, .errors = 1, .data = 1);
            set(g, PLACE, 3);
            set(g, failed ? FAILED : COMPLETE, 1);
            expect(g, PLACE, 0);
            expect(g, failed ? FAILED : COMPLETE, 0);
            PASSES(g, RESET);
            set(g, PLACE, 2);
            expect(g, PLACE, 0);
            PASSES(g, RESET);
        }
    }
    EACH(scan, DSCAN, DCHECK) {
        guest *g = guest_for(scan, 3);
        INTERRUPT(g, 0, .next = 0, .last = 0);
        SCANS(g, scan, .budget = ALL, .code = end_of(scan), .next = 3);
    }
}

TEST(N6_dcheck_goes_on_from_its_place, "DCHECK goes on from the session's place and looks at no earlier page.")
{
    guest *g = guest_in(BLACKOUT, 6);
    STATES(g, 26, 4, 1, 0, 4, 4);
    set(g, PLACE, 3);
    expect_listed(g, 0, 4);
    SCANS(g, DCHECK, .budget = 2, .code = 1, .next = 5, .written = 1);
    expect_listed(g, 0, 5);
    SCANS(g, DCHECK, .budget = ALL, .code = 3, .next = 6, .written = 1);
}

TEST(N7_the_end_is_tested_before_the_budget,
     "Past the end is tested before the budget: a budget of exactly the pages that are left suffices, and DCHECK at the page count answers 3 with budget 0.")
{
    EACH(scan, DSCAN, DCHECK) {
        guest *g = guest_for(scan, 5);
        SCANS(g, scan, .budget = 4, .code = 1, .next = 4);
        RUNS(g, 0, RESET);
        SCANS(g, scan, .budget = 5, .code = end_of(scan), .next = 5);
    }
    guest *g = guest_in(BLACKOUT, 5);
    lists_of(g, 0);
    set(g, PLACE, 5);
    SCANS(g, DCHECK, .budget = 0, .code = 3, .next = 5);
}

TEST(N8_the_budget_is_tested_before_blocked_pages_and_room, "The budget is tested before 51 and before the room.")
{
    EACH(state, 1, 3, 26, 31) {
        guest *g = guest_in(BLACKOUT, 2);
        STATES(g, state, 0);
        SCANS(g, DCHECK, .budget = 0, .code = 1, .next = 0);
        STATES(g, 0, state);
        SCANS(g, DCHECK, .budget = 1, .code = 1, .next = 1);
        SCANS(g, DCHECK, .budget = 1, .code = 51, .next = 1);
    }
    EACH(scan, DSCAN, DCHECK) {
        guest *g = guest_for(scan, 2);
        STATES(g, 4, 4);
        lists_of(g, 0);
        SCANS(g, scan, .budget = 0, .code = 1, .next = 0);
        SCANS(g, scan, .budget = 1, .code = 2, .next = 0);
    }
}

TEST(N9_a_blocked_page_needs_no_room, "In DCHECK 51 comes after the budget and before the room: a blocked page is not listed, so it needs no room.")
{
    EACH(state, 1, 3, 26, 31) {
        guest *g = guest_in(BLACKOUT, 2);
        STATES(g, state, 4);
        lists_of(g, 0);
        SCANS(g, DCHECK, .budget = ALL, .code = 51, .next = 0);
        RUNS(g, 0, RESET);
        STATES(g, 4, state);
        lists_of(g, 1);
        expect_listed(g, 0, 0);
        SCANS(g, DCHECK, .budget = ALL, .code = 51, .next = 1, .written = 1);
    }
}

TEST(N10_only_a_listed_page_needs_room, "Only a page that would be listed needs room: a full list runs on over all others.")
{
    EACH(scan, DSCAN, DCHECK) {
        guest *g = guest_for(scan, 5);
        STATES(g, 0, 24, 29, 8, 0x404);
        lists_of(g, 0);
        SCANS(g, scan, .budget = ALL, .code = end_of(scan), .next = 5);
        RUNS(g, 0, RESET);
        lists_of(g, 1);
        STATES(g, 4);
        expect_listed(g, 0, 0);
        SCANS(g, scan, .budget = ALL, .code = end_of(scan), .next = 5, .written = 1);
    }
    guest *g = guest_in(LIVE, 3);
    STATES(g, 1, 3, 4);
    lists_of(g, 0);
    SCANS(g, DSCAN, .budget = ALL, .code = 2, .next = 2);
}

TEST(N11_a_page_without_room_is_untouched, "A page that would be listed and finds no room is untouched, and the next page is that page.")
{
    EACH(scan, DSCAN, DCHECK) {
        EACH(state, 2, 4, 24, 25, 27, 29, 30) {
            guest *g = guest_for(scan, 3);
            PAGE(g, 1, .state = state, .dirty = 1, .cached = 1, .stamp = 1, .epoch = 1, .mark = 9);
            lists_of(g, 0);
            SCANS(g, scan, .budget = ALL, .code = 2, .next = 1);
            PAGE(g, 0, .state = 4);
            RUNS(g, 0, RESET);
            lists_of(g, 1);
            expect_listed(g, 0, 0);
            SCANS(g, scan, .budget = ALL, .code = 2, .next = 1, .written = 1);
        }
    }
    EACH(state, 26, 31) {
        guest *g = guest_in(LIVE, 1);
        PAGE(g, 0, .state = state, .dirty = 1, .stamp = 1);
        lists_of(g, 0);
        SCANS(g, DSCAN, .budget = ALL, .code = 2, .next = 0);
    }
}

TEST(N12_every_page_passed_costs_budget, "Every page passed costs one of the budget, unlisted and strange ones too; any budget up to 2^64-1 works.")
{
    EACH(scan, DSCAN, DCHECK) {
        EACH(state, 0, 24, 29, STRANGE) {
            guest *g = guest_for(scan, 3);
            STATES(g, state, state, 4);
            SCANS(g, scan, .budget = 2, .code = 1, .next = 2);
        }
        EACH(budget, 3, 1ull << 32, 1ull << 63, ALL - 1, ALL) {
            guest *g = guest_for(scan, 4);
            set(g, PLACE, scan == DCHECK);
            STATES(g, 0, 4, 4, 4);
            for (size_t i = 0; i < 3; i++)
                expect_listed(g, i, 1 + i);
            SCANS(g, scan, .first = 1, .budget = budget, .code = end_of(scan), .next = 4, .written = 3);
        }
    }
}
