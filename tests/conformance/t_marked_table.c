/* The marked table: page 5 of 4,096, migration epoch 1, the page's own 0 and Dirty clear unless said; each line is an entry as it comes back. */
#include "lists.h"

#define MAPPED CHIRP_STATE_MAPPED
#define ASKED 0x0010000000005000

/* The entry `in` comes back as `out`, page 5 being as given. */
#define LINE(phase, in, out, ...) check_line(HERE, (phase), (in), (out), (page){__VA_ARGS__})
static void check_line(place at, uint64_t phase, uint64_t in, uint64_t out, page p)
{
    guest *g = guest_in(phase, 4096);
    set_page(g, 5, p);
    set_word(g, LIST, 0, in);
    runs(at, g, 0, EXPORT, (operands){.budget = ALL});
    check_equal(at, "the entry that comes back", word(g, LIST, 0), out);
}

/* The same where the line says neither phase nor stamp. */
#define LINE_ANYWHERE(in, out, ...)     \
    EACH(phase, LIVE, BLACKOUT)         \
        EACH(any_stamp, 0, 1, 2, 65535) \
            LINE(phase, in, out, .stamp = any_stamp, __VA_ARGS__)

TEST(T1_a_tracked_mapped_page, "MAPPED, stamp 1, TLB epoch 2, Live: unchanged word.")
{
    LINE(LIVE, ASKED, ASKED, .state = MAPPED, .stamp = 1);
}

TEST(T2_an_untracked_mapped_page, "As T1 with stamp 2: 0x0500000000005000.")
{
    LINE(LIVE, ASKED, 0x0500000000005000, .state = MAPPED, .stamp = 2);
}

TEST(T3_a_dirty_mapped_page, "As T1 with Dirty: 0x1100000000005000.")
{
    LINE(LIVE, ASKED, 0x1100000000005000, .state = MAPPED, .stamp = 1, .dirty = 1);
}

TEST(T4_a_pending_page, "PENDING, Blackout: 0x0010000000005004.")
{
    EACH(stamp, 0, 1, 2, 65535)
        LINE(BLACKOUT, ASKED, 0x0010000000005004, .state = CHIRP_STATE_PENDING, .stamp = stamp);
}

TEST(T5_a_modified_page, "MODIFIED (25), Blackout: 0x0030000000005000.")
{
    EACH(stamp, 0, 1, 2, 65535)
        LINE(BLACKOUT, ASKED, 0x0030000000005000, .state = CHIRP_STATE_EXPORTED_MODIFIED, .stamp = stamp);
}

TEST(T6_a_removed_page, "REMOVED (27): 0x0020000000005000, in Live and in Blackout with any stamp.")
{
    LINE_ANYWHERE(ASKED, 0x0020000000005000, .state = CHIRP_STATE_EXPORTED_REMOVED);
}

TEST(T7_a_page_migrated_this_epoch, "Migrated this epoch, MAPPED: 0x0700000000005000, in Live and in Blackout with any stamp.")
{
    LINE_ANYWHERE(ASKED, 0x0700000000005000, .state = MAPPED, .epoch = 1);
}

TEST(T8_a_page_number_where_an_address_belongs, "Input 0x5: 0x0F00000000000001 (LEVEL kept, PENDING gone, OPERATION 0), whatever the page.")
{
    EACH(state, 0, 4, 27)
        LINE_ANYWHERE(0x5, 0x0F00000000000001, .state = state);
}

TEST(T9_a_page_beyond_the_table, "Input 0x0010000005000000: 0x0200000005000000, whatever the page.")
{
    EACH(state, 0, 4, 27)
        LINE_ANYWHERE(0x0010000005000000, 0x0200000005000000, .state = state);
}

TEST(T10_a_skipped_entry, "Input 0x5000: 0x0100000000005000, whatever the page.")
{
    EACH(state, 0, 4, 27)
        LINE_ANYWHERE(0x5000, 0x0100000000005000, .state = state);
}

TEST(T12_buffers_of_full_lists, "LAST 0, one data page: 3 buffers; LAST 255, all data: 258; LAST 256, all: 260.")
{
    EACH(last, 0, 255, 256) {
        guest *g = guest_in(BLACKOUT, 4096);
        lists_of(g, last + 1);
        for (size_t i = 0; i <= last; i++) {
            PAGE(g, i, .state = MAPPED, .mark = i);
            set_word(g, LIST, i, entry(i));
        }
        EQUAL(RUNS(g, 0, EXPORT, .info = info(0, last), .budget = ALL).buffers, last == 0 ? 3 : last == 255 ? 258 : 260);
    }
}

TEST(T13_a_dirty_exported_page_is_listed, "DSCAN of EXPORTED Dirty page 5 writes 0x0010000000005008.")
{
    guest *g = guest_in(LIVE, 4096);
    PAGE(g, 5, .state = CHIRP_STATE_EXPORTED, .dirty = 1);
    RUNS(g, 0, DSCAN, .first = 5, .count = 1, .budget = 1);
    EQUAL(word(g, LIST, 0), 0x0010000000005008);
}
