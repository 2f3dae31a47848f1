/* Slips that a class makes: short histories that show what the bench does instead. */
#include "lists.h"

/* The status of an export of page 0 alone. */
static uint64_t exported_status(guest *g)
{
    set_word(g, LIST, 0, entry(0));
    RUNS(g, 0, EXPORT, .budget = ALL);
    return word(g, LIST, 0) >> 56;
}

static void scan_and_track(guest *g)
{
    RUNS(g, 0, DSCAN, .count = 1, .budget = ALL);
    RUNS(g, 0, TRACK);
}

/* A new guest of one page in 4 with the mark 7, in Live; the page is Dirty and Cached, and has been exported in no epoch. */
static guest *live_with_one_page(void)
{
    guest *g = guest_in(IDLE, 1);
    RUNS(g, 0, NEW, .streams = 2);
    RUNS(g, 0, ADD, .page = 0);
    RUNS(g, 0, ACCEPT, .page = 0);
    RUNS(g, 0, START);
    RUNS(g, 0, WRITE, .page = 0, .mark = 7);
    return g;
}

TEST(P1_an_epoch_outlives_remove_and_add,
     "A page's epoch outlives remove and add, so one epoch never holds its CANCEL and its MIGRATE: the second answers 7 until a new epoch is opened.")
{
    guest *g = live_with_one_page();
    scan_and_track(g);
    EQUAL(exported_status(g), 0);
    EQUAL(word(g, LIST, 0) >> 52 & 3, MIGRATE);
    RUNS(g, 0, NEW_EPOCH);
    RUNS(g, 0, BLOCK, .page = 0);
    RUNS(g, 0, TRACK);
    RUNS(g, 0, REMOVE, .page = 0);
    EQUAL(exported_status(g), 0);
    EQUAL(word(g, LIST, 0) >> 52 & 3, CANCEL);
    RUNS(g, 0, ADD, .page = 0);
    RUNS(g, 0, ACCEPT, .page = 0);
    scan_and_track(g);
    EQUAL(exported_status(g), 7);
    RUNS(g, 0, NEW_EPOCH);
    EQUAL(exported_status(g), 0);
}

TEST(P2_a_write_through_an_old_translation_sets_no_dirty,
     "Not every write sets Dirty, so the old-translation hole shows: after write, scan and write the export answers 5, until a track.")
{
    guest *g = live_with_one_page();
    RUNS(g, 0, DSCAN, .count = 1, .budget = ALL);
    RUNS(g, 0, WRITE, .page = 0, .mark = 8);
    EQUAL(word(g, TABLE, 0) >> 8 & 1, 0);
    EQUAL(exported_status(g), 5);
    RUNS(g, 0, TRACK);
    EQUAL(exported_status(g), 0);
    EQUAL(word(g, BUFFER, 0), 8);
}

TEST(P3_a_full_list_is_found_before_dirty_is_cleared, "A full list is found before Dirty is cleared: the page that found no room is listed by the next scan.")
{
    guest *g = guest_in(LIVE, 2);
    lists_of(g, 1);
    EACH(i, 0, 1)
        PAGE(g, i, .state = 24, .dirty = 1, .stamp = 1, .epoch = 1, .mark = 7 + i);
    EXPECT_PAGE(g, 0, .state = 25, .stamp = 2, .epoch = 1, .mark = 7);
    expect_word(g, LIST, 0, ENTRY(.page = 0, .operation = 1, .state = 1));
    SCANS(g, DSCAN, .budget = ALL, .code = 2, .next = 1, .written = 1);
    EXPECT_PAGE(g, 1, .state = 25, .stamp = 2, .epoch = 1, .mark = 8);
    expect_word(g, LIST, 0, ENTRY(.page = 1, .operation = 1, .state = 1));
    SCANS(g, DSCAN, .first = 1, .budget = ALL, .next = 2, .written = 1);
}

TEST(P4_errors_count_over_all_interruptions, "Errors count over all interruptions of an operation, not only from the last one.")
{
    guest *g = guest_in(BLACKOUT, 4);
    for (size_t i = 0; i < 4; i++) {
        PAGE(g, i, .state = i ? 4 : 0, .mark = i);
        set_word(g, LIST, i, entry(i));
    }
    for (uint64_t taken = 0; taken < 3; taken++)
        EXPORTED(RUNS(g, 1, EXPORT, .resume = taken > 0, .info = info(taken, 3), .budget = 1), info(taken + 1, 3), 0, 0);
    EXPORTED(RUNS(g, 0, EXPORT, .resume = 1, .info = info(3, 3), .budget = 1), info(4, 3), 1, 5);
}
