/* Scans: which pages are listed and how, what changes in them, and what the scan answers. */
#include "lists.h"

/* Scans page 5 of 8 as given, the others being free: it is listed as this word. What becomes of its record is the test's to expect. */
#define LISTS(g, scan, w) lists_page_5(HERE, (g), (scan), (w))
static void lists_page_5(place at, guest *g, call scan, uint64_t w)
{
    expect_word(g, LIST, 0, w);
    scans(at, g, scan, (scan_run){.budget = ALL, .code = end_of(scan), .next = 8, .written = 1});
}

#define PAGE_5(scan, ...) page_5((scan), (page){__VA_ARGS__})
static guest *page_5(call scan, page p)
{
    guest *g = guest_for(scan, 8);
    set_page(g, 5, p);
    return g;
}

TEST(N13_a_listed_word, "A listed word has OPERATION 1, the page's GPA, the hint in STATE, PENDING 1 for 2, 29, 30, 31, and every other bit 0.")
{
    EACH(scan, DSCAN, DCHECK) {
        guest *g = guest_for(scan, 4096);
        lists_of(g, 10);
        STATES(g, 30, 2, 0, 25, 29, 4, 24, 27);
        PAGE(g, 4, .state = 29, .dirty = 1);
        PAGE(g, 6, .state = 24, .dirty = 1);
        PAGE(g, 4095, .state = 2);
        RUNS(g, end_of(scan), scan, .count = 4096, .budget = ALL);
        EQUAL(word(g, LIST, 0), 0x001000000000000C);
        EQUAL(word(g, LIST, 1), 0x0010000000001004);
        EQUAL(word(g, LIST, 2), 0x0010000000003008);
        EQUAL(word(g, LIST, 3), 0x001000000000400C);
        EQUAL(word(g, LIST, 4), 0x0010000000005000);
        EQUAL(word(g, LIST, 5), 0x0010000000006008);
        EQUAL(word(g, LIST, 6), 0x0010000000007018);
        EQUAL(word(g, LIST, 7), 0x0010000000FFF004);
        EQUAL(word(g, LIST, 8), ALL);
    }
    guest *g = guest_in(LIVE, 2);
    STATES(g, 26, 31);
    RUNS(g, 0, DSCAN, .count = 2, .budget = ALL);
    EQUAL(word(g, LIST, 0), 0x0010000000000010);
    EQUAL(word(g, LIST, 1), 0x0010000000001014);
}

TEST(N14_unexported_pages_are_always_listed, "2 and 4 are listed with hint 0, whatever their Dirty, Cached, stamp and epoch.")
{
    EACH(scan, DSCAN, DCHECK)
        EACH(state, 2, 4)
            EACH(bits, 0, 1, 2, 3)
                EACH(stamp, 0, 1, 2, 3, 65535)
                    EACH(epoch, 0, 1, 2, 65535) {
                        guest *g = PAGE_5(scan, .state = state, .dirty = bits & 1, .cached = bits >> 1, .stamp = stamp, .epoch = epoch, .mark = 9);
                        EXPECT_PAGE(g, 5, .state = state, .cached = bits >> 1, .stamp = 2, .epoch = epoch, .mark = 9);
                        LISTS(g, scan, ENTRY(.operation = 1, .page = 5, .pending = state == 2));
                    }
}

TEST(N15_modified_pages_are_listed, "25 and 30 are listed with hint 1 always; 24 and 29 only with Dirty.")
{
    EACH(scan, DSCAN, DCHECK)
        EACH(state, 24, 25, 29, 30)
            EACH(dirty, 0, 1) {
                uint64_t pending = state >= 29, modified = pending ? 30 : 25;
                guest *g = PAGE_5(scan, .state = state, .dirty = dirty, .cached = 1, .stamp = 1, .epoch = 1);
                if (dirty || state == modified) {
                    EXPECT_PAGE(g, 5, .state = modified, .cached = 1, .stamp = 2, .epoch = 1);
                    LISTS(g, scan, ENTRY(.operation = 1, .page = 5, .state = 1, .pending = pending));
                } else
                    SCANS(g, scan, .budget = ALL, .code = end_of(scan), .next = 8);
            }
}

TEST(N16_removed_and_blocked_pages_are_listed, "27 is listed with hint 3 in both scans; DSCAN lists 26 and 31 with hint 2.")
{
    EACH(scan, DSCAN, DCHECK)
        LISTS(PAGE_5(scan, .state = 27), scan, ENTRY(.operation = 1, .page = 5, .state = 3));
    LISTS(PAGE_5(DSCAN, .state = 26), DSCAN, ENTRY(.operation = 1, .page = 5, .state = 2));
    LISTS(PAGE_5(DSCAN, .state = 31), DSCAN, ENTRY(.operation = 1, .page = 5, .state = 2, .pending = 1));
}

TEST(N17_pages_that_are_passed, "Not listed and not changed are 0, and 24 and 29 without Dirty; in DSCAN also 1 and 3.")
{
    EACH(scan, DSCAN, DCHECK)
        EACH(stamp, 0, 1, 2, 3)
            EACH(cached, 0, 1) {
                guest *g = guest_for(scan, 3);
                PAGE(g, 0, .state = 0, .dirty = 1, .cached = cached, .stamp = stamp, .epoch = 1, .mark = 9);
                PAGE(g, 1, .state = 24, .cached = cached, .stamp = stamp, .epoch = 1, .mark = 9);
                PAGE(g, 2, .state = 29, .cached = cached, .stamp = stamp, .epoch = 1, .mark = 9);
                SCANS(g, scan, .budget = ALL, .code = end_of(scan), .next = 3);
            }
    EACH(state, 1, 3)
        EACH(dirty, 0, 1) {
            guest *g = PAGE_5(DSCAN, .state = state, .dirty = dirty, .cached = 1, .stamp = 1, .mark = 9);
            SCANS(g, DSCAN, .budget = ALL, .next = 8);
        }
}

TEST(N18_dcheck_fails_at_a_blocked_page, "DCHECK at 1, 3, 26 or 31 answers 51: the check has failed, its place and the next page are that page.")
{
    EACH(state, 1, 3, 26, 31)
        EACH(blocked, 0, 3, 7) {
            guest *g = guest_in(BLACKOUT, 8);
            PAGE(g, blocked, .state = state, .dirty = 1, .cached = 1, .stamp = 1, .epoch = 1, .mark = 9);
            SCANS(g, DCHECK, .budget = ALL, .code = 51, .next = blocked);
        }
}

TEST(N19_a_failed_check_keeps_what_it_listed, "At 51 the earlier pages of the call stay listed and changed, and first and last entry tell them.")
{
    guest *g = guest_in(BLACKOUT, 5);
    STATES(g, 4, 0, 24, 1, 4);
    PAGE(g, 2, .state = 24, .dirty = 1, .stamp = 1, .epoch = 1, .mark = 9);
    expect_listed(g, 0, 0);
    EXPECT_PAGE(g, 2, .state = 25, .stamp = 2, .epoch = 1, .mark = 9);
    expect_word(g, LIST, 1, ENTRY(.operation = 1, .page = 2, .state = 1));
    SCANS(g, DCHECK, .budget = ALL, .code = 51, .next = 3, .written = 2);
}

TEST(N20_a_listed_exported_page_is_modified, "A listed 24 becomes 25, a listed 29 becomes 30; so the export that follows sends it again.")
{
    EACH(scan, DSCAN, DCHECK)
        EACH(state, 24, 29) {
            guest *g = PAGE_5(scan, .state = state, .dirty = 1, .mark = 9);
            EXPECT_PAGE(g, 5, .state = state + 1, .stamp = 2, .mark = 9);
            LISTS(g, scan, ENTRY(.operation = 1, .page = 5, .state = 1, .pending = state == 29));
            if (scan == DSCAN)
                RUNS(g, 0, TRACK);
            MOVES(g, state, .operation = REMIGRATE, .pending = state == 29);
        }
}

TEST(N21_a_listed_page_is_clean_and_stamped, "A listed page that is then in 2, 4, 25 or 30 has Dirty 0 and the TLB epoch as its stamp.")
{
    EACH(scan, DSCAN, DCHECK)
        EACH(state, 2, 4, 24, 25, 29, 30)
            EACH(tlb, 1, 3, 65535)
                EACH(stamp, 0, 1, 3, 65535) {
                    uint64_t pending = state == 2 || state >= 29, exported = state >= 24;
                    guest *g = PAGE_5(scan, .state = state, .dirty = 1, .stamp = stamp);
                    set(g, TLB, tlb);
                    EXPECT_PAGE(g, 5, .state = state + (state == 24 || state == 29), .stamp = tlb);
                    LISTS(g, scan, ENTRY(.operation = 1, .page = 5, .state = exported, .pending = pending));
                }
}

TEST(N22_a_listed_page_to_cancel_keeps_its_record, "A listed 26, 27 or 31 keeps its whole record.")
{
    EACH(state, 26, 27, 31) {
        guest *g = PAGE_5(DSCAN, .state = state, .dirty = 1, .cached = 1, .stamp = 1, .epoch = 1, .mark = 9);
        LISTS(g, DSCAN, ENTRY(.operation = 1, .page = 5, .state = state == 27 ? 3 : 2, .pending = state == 31));
    }
    guest *g = PAGE_5(DCHECK, .state = 27, .dirty = 1, .cached = 1, .stamp = 1, .epoch = 1, .mark = 9);
    LISTS(g, DCHECK, ENTRY(.operation = 1, .page = 5, .state = 3));
}

TEST(N23_scans_keep_cached_epoch_and_mark, "Scans never change Cached, epoch or mark.")
{
    const uint64_t states[] = {0, 2, 4, 24, 25, 27, 29, 30, 8, 1, 3, 26, 31};
    EACH(scan, DSCAN, DCHECK)
        EACH(dirty, 0, 1) {
            size_t pages = scan == DSCAN ? 13 : 9;
            guest *g = guest_for(scan, pages);
            lists_of(g, pages);
            for (size_t i = 0; i < pages; i++)
                PAGE(g, i, .state = states[i], .dirty = dirty, .cached = i % 2, .epoch = i, .mark = ALL - i);
            RUNS(g, end_of(scan), scan, .count = pages, .budget = ALL);
            for (size_t i = 0; i < pages; i++) {
                EQUAL(word(g, TABLE, 2 * i) >> 9 & 1, i % 2);
                EQUAL(word(g, TABLE, 2 * i) >> 32, i);
                EQUAL(word(g, TABLE, 2 * i + 1), ALL - i);
            }
        }
    guest *g = PAGE_5(DSCAN, .state = 4, .cached = 1);
    RUNS(g, 0, DSCAN, .count = 8, .budget = ALL);
    EXPECT_PAGE(g, 5, .state = 4, .cached = 1, .stamp = 2, .mark = 7);
    PASSES(g, WRITE, .page = 5, .mark = 7);
}

TEST(N24_words_are_written_in_page_order, "Words are written from index 0 in page order; those past the written count stay.")
{
    EACH(scan, DSCAN, DCHECK) {
        guest *g = guest_for(scan, 6);
        lists_of(g, 3);
        STATES(g, 0, 0, 4);
        expect_listed(g, 0, 2);
        SCANS(g, scan, .budget = ALL, .code = end_of(scan), .next = 6, .written = 1);
        RUNS(g, 0, RESET);
        lists_of(g, 4);
        STATES(g, 0, 4, 0, 4, 0, 4);
        for (size_t i = 0; i < 3; i++)
            expect_listed(g, i, 2 * i + 1);
        SCANS(g, scan, .budget = ALL, .code = end_of(scan), .next = 6, .written = 3);
    }
}

TEST(N25_the_next_page_counts_from_the_tables_start,
     "The next page of a scan counts from page 0 of the table, wherever its part begins; past the table's last page it is the page count.")
{
    guest *g = guest_in(LIVE, 20);
    lists_of(g, 1);
    SCANS(g, DSCAN, .first = 10, .count = 5, .budget = ALL, .next = 15);
    SCANS(g, DSCAN, .first = 10, .count = 5, .budget = 2, .code = 1, .next = 12);
    SCANS(g, DSCAN, .first = 10, .count = 5, .budget = 0, .code = 1, .next = 10);
    SCANS(g, DSCAN, .first = 15, .count = 5, .budget = ALL, .next = 20);
    SCANS(guest_for(DCHECK, 20), DCHECK, .budget = ALL, .code = 3, .next = 20);
    PAGE(g, 11, .state = 4);
    PAGE(g, 13, .state = 4);
    expect_listed(g, 0, 11);
    SCANS(g, DSCAN, .first = 10, .count = 5, .budget = ALL, .code = 2, .next = 13, .written = 1);
}

TEST(N26_first_and_last_entry,
     "First and last entry are 0 and the written count less 1; 511 and 0 when nothing was written, with every code of a scan that ran.")
{
    EACH(scan, DSCAN, DCHECK)
        EACH(pages, 1, 2, 3, 512) {
            guest *g = guest_for(scan, pages);
            lists_of(g, pages);
            for (size_t i = 0; i < pages; i++)
                PAGE(g, i, .state = 4);
            SCANNED(RUNS(g, end_of(scan), scan, .count = pages, .budget = ALL), pages, 0, pages - 1);
        }
    guest *g = guest_in(LIVE, 2);
    lists_of(g, 0);
    SCANNED(RUNS(g, 0, DSCAN, .count = 2, .budget = 2), 2, 511, 0);
    SCANNED(RUNS(g, 1, DSCAN, .count = 2, .budget = 1), 1, 511, 0);
    STATES(g, 0, 4);
    SCANNED(RUNS(g, 2, DSCAN, .count = 2, .budget = 2), 1, 511, 0);
    RUNS(g, 0, PAUSE);
    SCANNED(RUNS(g, 1, DCHECK, .budget = 1), 1, 511, 0);
    SCANNED(RUNS(g, 2, DCHECK, .budget = 2), 1, 511, 0);
    STATES(g, 0, 1);
    SCANNED(RUNS(g, 51, DCHECK, .budget = 2), 1, 511, 0);
    STATES(g, 0, 0);
    RUNS(g, 0, RESET);
    SCANNED(RUNS(g, 3, DCHECK, .budget = 2), 2, 511, 0);
}

TEST(N27_a_dscan_touches_its_part_alone, "DSCAN touches no page outside its part, and leaves the whole session as it was.")
{
    guest *g = guest_in(LIVE, 8);
    for (size_t i = 0; i < 8; i++)
        PAGE(g, i, .state = 4, .dirty = 1);
    set(g, MIG, 9);
    set(g, PLACE, 4);
    set(g, FAILED, 1);
    INTERRUPT(g, 3, .next = 2, .last = 5, .errors = 1, .data = 1);
    expect_listed(g, 0, 3);
    expect_listed(g, 1, 4);
    SCANS(g, DSCAN, .first = 3, .count = 2, .budget = ALL, .next = 5, .written = 2);
}

TEST(N28_dcheck_moves_its_place,
     "DCHECK sets the check's place to the next page; complete only with 3, failed only with 51; the session's other fields stay.")
{
    guest *g = guest_in(BLACKOUT, 4);
    STATES(g, 0, 0, 0, 4);
    lists_of(g, 0);
    set(g, TLB, 7);
    set(g, MIG, 9);
    INTERRUPT(g, 3, .next = 2, .last = 5, .errors = 1, .data = 1);
    SCANS(g, DCHECK, .budget = 1, .code = 1, .next = 1);
    SCANS(g, DCHECK, .budget = ALL, .code = 2, .next = 3);
    RUNS(g, 0, RESET);
    SCANS(g, DCHECK, .budget = 3, .code = 1, .next = 3);
    lists_of(g, 1);
    expect_listed(g, 0, 3);
    SCANS(g, DCHECK, .budget = 1, .code = 3, .next = 4, .written = 1);
    RUNS(g, 0, RESET);
    STATES(g, 0, 3);
    SCANS(g, DCHECK, .budget = ALL, .code = 51, .next = 1);
}
