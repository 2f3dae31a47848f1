/* Restore of a list: what becomes of an entry and of its page. */
#include "lists.h"
#include "states.h"

/* A guest in Idle of 8 pages of which page 5 is in 25, and would be restored; the list has this word. */
static guest *asked_back(uint64_t w)
{
    guest *g = ASKING(IDLE, .state = 25, .dirty = 1, .cached = 1, .stamp = 1, .epoch = 3, .mark = 9);
    set_word(g, LIST, 0, w);
    return g;
}

/* Expects that its page 5 is restored. */
static guest *restoring(guest *g)
{
    EXPECT_PAGE(g, 5, .state = 4, .dirty = 1, .cached = 1, .mark = 9);
    return g;
}

TEST(R17_reserved_bits_are_0, "Status 15: any bit of 6:5, 55:54 or 63:61, with every OPERATION.")
{
    EACH(bit, 5, 6, 54, 55, 61, 62, 63)
        EACH(operation, 0, 1, 2, 3)
            RETURNS(asked_back(entry_op(5, operation) | 1ull << bit), ENTRY(.page = 5, .status = 15) | 1ull << bit);
}

TEST(R18_level_and_type_are_0, "Status 15: LEVEL not 0, or MIG_TYPE not 0, with every OPERATION.")
{
    EACH(number, 1, 2, 3)
        EACH(operation, 0, 1, 2, 3) {
            RETURNS(asked_back(entry_op(5, operation) | number), ENTRY(.page = 5, .status = 15, .level = number));
            RETURNS(asked_back(entry_op(5, operation) | number << 10), ENTRY(.page = 5, .status = 15, .mig_type = number));
        }
}

TEST(R19_state_is_0, "Status 15: STATE not 0, with every OPERATION; so the hints of a scan have to be taken out.")
{
    EACH(hint, 1, 2, 3)
        EACH(operation, 0, 1, 2, 3)
            RETURNS(asked_back(entry_op(5, operation) | hint << 3), ENTRY(.page = 5, .status = 15, .state = hint));
    guest *g = ASKING(LIVE, .state = 25, .mark = 9);
    RUNS(g, 0, DSCAN, .first = 5, .count = 1, .budget = ALL);
    RUNS(g, 0, ABORT);
    RETURNS(g, ENTRY(.page = 5, .status = 15, .state = 1));
}

TEST(R20_no_operation_is_a_fault, "No OPERATION is a fault: of an entry without fault 0 and 2 are status 1, and 1 and 3 restore.")
{
    EACH(operation, 0, 2)
        RETURNS(asked_back(entry_op(5, operation)), ENTRY(.page = 5, .status = 1));
    EACH(operation, 1, 3)
        RETURNS(restoring(asked_back(entry_op(5, operation))), ENTRY(.page = 5, .operation = 1));
}

TEST(R21_a_faulty_entry_is_15_before_all, "15 comes before 1, so that a faulty NOP is 15; and before 2 and 4.")
{
    EACH(fault, 1, 1ull << 3, 1ull << 5, 1ull << 10, 1ull << 54, 1ull << 61)
        EACH(operation, 0, 1, 2, 3)
            EACH(asked, 4, 5, 8, (1ull << 40) - 1)
                RETURNS(asked_back(entry_op(asked, operation) | fault), ENTRY(.page = asked, .status = 15) | fault);
}

TEST(R22_what_restore_ignores, "PENDING, L2_MAP and STATUS are ignored on the way in; PENDING and L2_MAP come back as they came.")
{
    EACH(bit, 2, 7, 8, 9) {
        EACH(operation, 1, 3)
            RETURNS(restoring(asked_back(entry_op(5, operation) | 1ull << bit)), ENTRY(.page = 5, .operation = 1) | 1ull << bit);
        EACH(operation, 0, 2)
            RETURNS(asked_back(entry_op(5, operation) | 1ull << bit), ENTRY(.page = 5, .status = 1) | 1ull << bit);
    }
    for (uint64_t status = 0; status < 32; status++)
        RETURNS(restoring(asked_back(ENTRY(.page = 5, .operation = 1, .status = status))), ENTRY(.page = 5, .operation = 1));
    RETURNS(restoring(asked_back(ENTRY(.page = 5, .operation = 3, .pending = 1, .l2_map = 7, .status = 31))),
            ENTRY(.page = 5, .operation = 1, .pending = 1, .l2_map = 7));
}

TEST(R23_a_nop_is_skipped,
     "Status 1: OPERATION 0 or 2, whatever the page: to be restored or not, strange, or beyond the table, so 1 comes before 2 and 4.")
{
    EACH(operation, 0, 2) {
        EACH(state, BASE, STRANGE) {
            guest *g = ASKING(IDLE, .state = state, .stamp = 1, .epoch = 3, .mark = 9);
            set_word(g, LIST, 0, entry_op(5, operation));
            RETURNS(g, ENTRY(.page = 5, .status = 1));
        }
        EACH(beyond, 8, 9, (1ull << 40) - 1)
            RETURNS(asked_back(entry_op(beyond, operation)), ENTRY(.page = beyond, .status = 1));
    }
}

TEST(R24_a_page_beyond_the_table,
     "Status 2: a page at or beyond the count, read with all its 40 bits, whatever state stands elsewhere; page count - 1 is restored.")
{
    EACH(pages, 1, 8, 4095, 4096)
        EACH(operation, 1, 3) {
            guest *g = guest_in(IDLE, pages);
            PAGE(g, 0, .state = 24, .epoch = 3);
            PAGE(g, pages - 1, .state = 24, .stamp = 1, .epoch = 3, .mark = 9);
            EACH(beyond, pages, pages + 1, 2 * pages, 4096, 4096 + pages - 1, 1ull << 32, (1ull << 32) + pages - 1, 1ull << 39, (1ull << 40) - 1) {
                set_word(g, LIST, 0, entry_op(beyond, operation));
                RETURNS(g, ENTRY(.page = beyond, .status = 2));
            }
            set_word(g, LIST, 0, entry_op(pages - 1, operation));
            EXPECT_PAGE(g, pages - 1, .state = 4, .mark = 9);
            RETURNS(g, ENTRY(.page = pages - 1, .operation = 1));
        }
}

TEST(R25_a_page_with_nothing_to_restore, "Status 4: a page in 0 to 4, whatever its other fields; none of them changes.")
{
    EACH(state, 0, 1, 2, 3, 4)
        EACH(operation, 1, 3)
            EACH(bits, 0, 1, 2, 3)
                EACH(number, 0, 1, 2, 65535) {
                    guest *g = ASKING(IDLE, .state = state, .dirty = bits & 1, .cached = bits >> 1, .stamp = number, .epoch = number, .mark = 9);
                    set_word(g, LIST, 0, entry_op(5, operation));
                    RETURNS(g, ENTRY(.page = 5, .status = 4));
                }
}

TEST(R26_a_strange_page, "Status 4: a strange page, in a state that is not of the base or with a spare bit; neither of its words changes.")
{
    EACH(strange, STRANGE)
        EACH(operation, 1, 3) {
            guest *g = ASKING(IDLE, .state = strange, .dirty = 1, .cached = 1, .stamp = 1, .epoch = 3, .mark = 9);
            set_word(g, LIST, 0, entry_op(5, operation));
            RETURNS(g, ENTRY(.page = 5, .status = 4));
        }
    for (uint64_t state = 0; state < 256; state++)
        if (!is_of_the_base(state))
            RETURNS(ASKING(IDLE, .state = state, .stamp = 1, .epoch = 3, .mark = 9), ENTRY(.page = 5, .status = 4));
    EACH(state, TO_RESTORE)
        EACH(bit, 10, 11, 12, 13, 14, 15, 48, 49, 50, 51, 52, 53, 54, 55, 56, 57, 58, 59, 60, 61, 62, 63)
            RETURNS(ASKING(IDLE, .state = state, .stamp = 1, .epoch = 3, .mark = 9, .spare = 1ull << bit), ENTRY(.page = 5, .status = 4));
}

/* Where a page goes that is restored. */
static const move restores[] = {{24, 4}, {25, 4}, {29, 2}, {30, 2}, {26, 1}, {31, 3}, {27, 0}};
enum { RESTORES = sizeof restores / sizeof *restores };

TEST(R27_restored_states, "Status 0: 24 and 25 become 4, 29 and 30 become 2, 26 becomes 1, 31 becomes 3, 27 becomes 0, with OPERATION 1 and 3 alike.")
{
    for (size_t i = 0; i < RESTORES; i++)
        EACH(operation, 1, 3) {
            guest *g = ASKING(IDLE, .state = restores[i].from);
            set_word(g, LIST, 0, entry_op(5, operation));
            EXPECT_PAGE(g, 5, .state = restores[i].to);
            RETURNS(g, ENTRY(.page = 5, .operation = 1));
        }
}

TEST(R28_the_epoch_is_cleared, "A restored page's epoch becomes 0.")
{
    for (size_t i = 0; i < RESTORES; i++)
        EACH(epoch, 1, 2, 256, 65535) {
            guest *g = ASKING(IDLE, .state = restores[i].from, .epoch = epoch);
            EXPECT_PAGE(g, 5, .state = restores[i].to);
            RETURNS(g, ENTRY(.page = 5, .operation = 1));
        }
}

TEST(R29_the_stamp_is_cleared_but_of_blocked_pages, "A restored page's stamp becomes 0, except in what is now 1 or 3, where it stays.")
{
    for (size_t i = 0; i < RESTORES; i++)
        EACH(stamp, 0, 1, 2, 3, 65535) {
            const int blocked = restores[i].to == 1 || restores[i].to == 3;
            guest *g = ASKING(IDLE, .state = restores[i].from, .stamp = stamp, .epoch = 3);
            EXPECT_PAGE(g, 5, .state = restores[i].to, .stamp = blocked ? stamp : 0);
            RETURNS(g, ENTRY(.page = 5, .operation = 1));
            if (blocked)
                RUNS(g, stamp == 1 ? 0 : 47, UNBLOCK, .page = 5);
        }
}

TEST(R30_mark_dirty_and_cached_stay, "A restored page's mark, Dirty and Cached stay.")
{
    for (size_t i = 0; i < RESTORES; i++)
        EACH(bits, 0, 1, 2, 3)
            EACH(mark, 0, 9, 1ull << 63, ALL) {
                guest *g = ASKING(IDLE, .state = restores[i].from, .dirty = bits & 1, .cached = bits >> 1, .epoch = 3, .mark = mark);
                EXPECT_PAGE(g, 5, .state = restores[i].to, .dirty = bits & 1, .cached = bits >> 1, .mark = mark);
                RETURNS(g, ENTRY(.page = 5, .operation = 1));
            }
}

TEST(R31_a_restore_changes_its_page_alone,
     "A restored page is the one that its entry names, and no other page changes; an entry without success changes none.")
{
    for (size_t i = 0; i < RESTORES; i++) {
        guest *g = crowd_in(IDLE);
        page after = crowded(restores[i].from);
        after.state = restores[i].to;
        after.epoch = 0;
        after.stamp = after.state == 1 || after.state == 3 ? after.stamp : 0;
        expect_page(g, restores[i].from, after);
        set_word(g, LIST, 0, entry(restores[i].from));
        RETURNS(g, ENTRY(.page = restores[i].from, .operation = 1));
    }
    guest *g = crowd_in(IDLE);
    lists_of(g, 512);
    for (size_t i = 0; i < 512; i++) {
        const int skipped = i < 256 && is_to_restore(i);
        set_word(g, LIST, i, entry_op(i, skipped ? 2 : 1));
        expect_word(g, LIST, i, ENTRY(.page = i, .status = skipped ? 1 : i < 256 ? 4 : 2));
    }
    PASSES(g, RESTORE, .info = info(0, 511), .budget = ALL);
}

TEST(R32_the_operation_is_1_if_restored, "OPERATION comes back 1 with status 0, for 1 and 3 alike, and 0 with every other status.")
{
    EACH(operation, 1, 3) {
        RETURNS(restoring(asked_back(entry_op(5, operation))), ENTRY(.page = 5, .operation = 1));
        RETURNS(asked_back(entry_op(4, operation)), ENTRY(.page = 4, .status = 4));
        RETURNS(asked_back(entry_op(8, operation)), ENTRY(.page = 8, .status = 2));
    }
    EACH(operation, 0, 2)
        EACH(asked, 4, 5, 8)
            RETURNS(asked_back(entry_op(asked, operation)), ENTRY(.page = asked, .status = 1));
    EACH(operation, 0, 1, 2, 3)
        RETURNS(asked_back(entry_op(5, operation) | 1ull << 63), ENTRY(.page = 5, .status = 15) | 1ull << 63);
}

TEST(R33_operation_and_status_alone_change,
     "Of an entry's word OPERATION and STATUS alone change, whatever stands in it; so PENDING, STATE and L2_MAP stay too.")
{
    const uint64_t set_by_restore = ENTRY(.operation = 3, .status = 31);
    const uint64_t must_be_0 = ENTRY(.level = 3, .state = 3, .reserved5 = 3, .mig_type = 3, .reserved54 = 3, .reserved61 = 7);
    uint64_t w = ALL;
    for (int i = 0; i < 200; i++) {
        const uint64_t faulty = w | ENTRY(.state = 1), beyond = (w & ~must_be_0) | ENTRY(.page = 8);
        const uint64_t kept = (w & ENTRY(.pending = 1, .l2_map = 7)) | ENTRY(.page = 5);
        RETURNS(asked_back(faulty), (faulty & ~set_by_restore) | ENTRY(.status = 15));
        RETURNS(asked_back(beyond), (beyond & ~set_by_restore) | ENTRY(.status = beyond >> 52 & 1 ? 2 : 1));
        RETURNS(restoring(asked_back(kept | (w & set_by_restore) | ENTRY(.operation = 1))), kept | ENTRY(.operation = 1));
        w = w * 6364136223846793005 + 1442695040888963407;
    }
}

TEST(R34_a_page_named_twice, "A page named twice is restored once: its second entry is status 4, in the same call or the next.")
{
    EACH(state, TO_RESTORE)
        EACH(budget, 1, ALL)
            EACH(operation, 1, 3) {
                guest *g = ASKING(IDLE, .state = state, .stamp = 1, .epoch = 3, .mark = 9);
                lists_of(g, 2);
                EACH(i, 0, 1)
                    set_word(g, LIST, i, entry_op(5, operation));
                if (budget == 1)
                    RUNS(g, 1, RESTORE, .info = info(0, 1), .budget = 1);
                RUNS(g, 0, RESTORE, .info = info(budget == 1, 1), .budget = budget);
                EQUAL(word(g, LIST, 0), ENTRY(.page = 5, .operation = 1));
                EQUAL(word(g, LIST, 1), ENTRY(.page = 5, .status = 4));
            }
}
