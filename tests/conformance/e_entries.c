/* Export of a list: what becomes of an entry and of its page. */
#include "lists.h"

TEST(E18_reserved_bits_level_and_type_are_0, "Status 15: any bit of 6:5, 55:54 or 63:61; LEVEL not 0; MIG_TYPE not 0.")
{
    EACH(phase, LIVE, BLACKOUT) {
        EACH(bit, 5, 6, 54, 55, 61, 62, 63)
            TAKES(asked_by(phase, entry(5) | 1ull << bit), ENTRY(.page = 5, .status = 15) | 1ull << bit, 0);
        EACH(number, 1, 2, 3) {
            TAKES(asked_by(phase, entry(5) | number), ENTRY(.page = 5, .status = 15, .level = number), 0);
            TAKES(asked_by(phase, entry(5) | number << 10), ENTRY(.page = 5, .status = 15, .mig_type = number), 0);
        }
    }
}

TEST(E19_operation_2_and_3_are_no_requests, "Status 15: OPERATION 2 or 3, whatever could be done with the page.")
{
    EACH(phase, LIVE, BLACKOUT)
        EACH(state, 0, 1, 2, 3, 4, 24, 25, 26, 27, 29, 30, 31)
            EACH(operation, 2, 3) {
                guest *g = ready_in(phase, state);
                set_word(g, LIST, 0, entry_op(5, operation));
                STOPS(g, 15);
            }
}

TEST(E20_what_export_ignores, "PENDING, STATE, L2_MAP and STATUS are ignored on the way in.")
{
    EACH(number, 1, 2, 3, 5, 7) {
        MOVES(asked_by(LIVE, entry(5) | (number & 1) << 2), 24, .operation = MIGRATE);
        MOVES(asked_by(LIVE, entry(5) | (number & 3) << 3), 24, .operation = MIGRATE);
        MOVES(asked_by(LIVE, entry(5) | number << 7), 24, .operation = MIGRATE);
        MOVES(asked_by(LIVE, entry(5) | number << 56), 24, .operation = MIGRATE);
    }
    MOVES(asked_by(LIVE, ENTRY(.page = 5, .operation = 1, .pending = 1, .state = 3, .l2_map = 7, .status = 31)), 24, .operation = MIGRATE);
}

TEST(E21_faults_then_skips_then_the_table, "15 comes before 1, and 1 (OPERATION 0) before 2.")
{
    EACH(asked, 5, 8)
        EACH(operation, 0, 1) {
            uint64_t faulty = ENTRY(.page = asked, .reserved5 = 1);
            TAKES(asked_by(LIVE, faulty | operation << 52), faulty | 15ull << 56, 0);
        }
    TAKES(asked_by(LIVE, entry_op(5, 0)), ENTRY(.page = 5, .status = 1), 0);
    TAKES(asked_by(LIVE, entry_op(8, 0)), ENTRY(.page = 8, .status = 1), 0);
}

TEST(E22_a_page_beyond_the_table, "A page at or beyond the count is status 2.")
{
    EACH(pages, 1, 8, 4096)
        EACH(beyond, 0, 1, 4096, (1ull << 32) - 1, (1ull << 40) - 1 - pages) {
            guest *g = guest_in(BLACKOUT, pages);
            PAGE(g, pages - 1, .state = 4, .mark = 9);
            set_word(g, LIST, 0, entry(pages + beyond));
            TAKES(g, ENTRY(.page = pages + beyond, .status = 2), 0);
            set_word(g, LIST, 0, entry(pages - 1));
            EXPECT_PAGE(g, pages - 1, .state = 24, .epoch = 1, .mark = 9);
            TAKES(g, ENTRY(.page = pages - 1, .operation = MIGRATE), 9);
        }
}

TEST(E23_states_that_are_not_exported, "Status 4: strange, 0, 1, 3.")
{
    EACH(phase, LIVE, BLACKOUT)
        EACH(state, 0, 1, 3, STRANGE)
            EACH(dirty, 0, 1)
                EACH(epoch, 0, 1)
                    STOPS(ASKING(phase, .state = state, .dirty = dirty, .cached = 1, .stamp = 1, .epoch = epoch, .mark = 9), 4);
}

TEST(E24_a_clean_exported_page, "Status 4: 24 and 29 without Dirty, before 7.")
{
    EACH(phase, LIVE, BLACKOUT)
        EACH(state, 24, 29)
            EACH(stamp, 0, 1, 2)
                EACH(epoch, 0, 1)
                    STOPS(ASKING(phase, .state = state, .stamp = stamp, .epoch = epoch, .mark = 9), 4);
}

TEST(E25_a_page_exported_in_this_epoch, "Status 7: the page's epoch equals the migration epoch, in every state that passed 4, those to cancel too.")
{
    EACH(phase, LIVE, BLACKOUT)
        EACH(state, 2, 4, 24, 25, 26, 27, 29, 30, 31)
            EACH(mig, 1, 2, 65535) {
                guest *g = ASKING(phase, .state = state, .dirty = state == 24 || state == 29, .stamp = 1, .epoch = mig, .mark = 9);
                set(g, MIG, mig);
                STOPS(g, 7);
            }
}

TEST(E26_another_epoch_is_no_obstacle, "7 is equality, not order: a page whose epoch is above the migration epoch is exported.")
{
    EACH(phase, LIVE, BLACKOUT)
        EACH(epoch, 0, 1, 2, 4, 5, 65535) {
            guest *g = ASKING(phase, .state = 4, .stamp = 1, .epoch = epoch, .mark = 9);
            set(g, MIG, 3);
            MOVES(g, 24, .operation = MIGRATE);
        }
}

TEST(E27_a_dirty_page, "Status 17: Dirty in 2, 4, 24, 25, 29, 30, in Live and in Blackout.")
{
    EACH(phase, LIVE, BLACKOUT)
        EACH(state, 2, 4, 24, 25, 29, 30)
            STOPS(ASKING(phase, .state = state, .dirty = 1, .stamp = 1, .mark = 9), 17);
}

TEST(E28_epoch_then_dirty_then_stamp, "7 comes before 17, and 17 before 5.")
{
    EACH(state, 2, 4, 24, 25, 29, 30)
        EACH(stamp, 0, 2, 3) {
            STOPS(ASKING(LIVE, .state = state, .dirty = 1, .stamp = stamp, .epoch = 1), 7);
            STOPS(ASKING(LIVE, .state = state, .dirty = 1, .stamp = stamp), 17);
        }
    EACH(state, 2, 4, 25, 30)
        STOPS(ASKING(LIVE, .state = state, .stamp = 2, .epoch = 1), 7);
}

TEST(E29_an_untracked_page, "Status 5 in Live: stamp 0 or at least the TLB epoch, in 2, 4, 25, 30; a stamp from 1 to the TLB epoch less 1 passes.")
{
    EACH(tlb, 1, 2, 3, 65535)
        EACH(stamp, 0, 1, tlb - 1, tlb, 65535) {
            int tracked = stamp > 0 && stamp < tlb;
            EACH(state, 2, 4, 25, 30) {
                guest *g = ASKING(LIVE, .state = state, .stamp = stamp, .mark = 9);
                uint64_t pending = state == 2 || state == 30;
                set(g, TLB, tlb);
                if (tracked)
                    MOVES(g, pending ? 29 : 24, .operation = state < 24 ? MIGRATE : REMIGRATE, .pending = pending);
                else
                    STOPS(g, 5);
            }
        }
}

TEST(E30_blackout_looks_at_no_stamp, "In Blackout stamps are not looked at.")
{
    EACH(stamp, 0, 1, 2, 3, 65535) {
        MOVES(ASKING(BLACKOUT, .state = 4, .stamp = stamp), 24, .operation = MIGRATE);
        MOVES(ASKING(BLACKOUT, .state = 2, .stamp = stamp), 29, .operation = MIGRATE, .pending = 1);
        MOVES(ASKING(BLACKOUT, .state = 25, .stamp = stamp), 24, .operation = REMIGRATE);
        MOVES(ASKING(BLACKOUT, .state = 30, .stamp = stamp), 29, .operation = REMIGRATE, .pending = 1);
    }
}

TEST(E31_a_page_to_cancel_may_be_dirty_and_untracked, "26, 27 and 31 skip the tests of 17 and 5.")
{
    EACH(phase, LIVE, BLACKOUT)
        EACH(dirty, 0, 1)
            EACH(stamp, 0, 1, 2, 65535) {
                MOVES(ASKING(phase, .state = 26, .dirty = dirty, .stamp = stamp), 1, .operation = CANCEL);
                MOVES(ASKING(phase, .state = 31, .dirty = dirty, .stamp = stamp), 3, .operation = CANCEL, .pending = 1);
                MOVES(ASKING(phase, .state = 27, .dirty = dirty, .stamp = stamp), 0, .operation = CANCEL);
            }
}

TEST(E32_migrate_and_remigrate, "4 to 24 and 2 to 29 are MIGRATE (1); 25 to 24 and 30 to 29 are REMIGRATE (3).")
{
    EACH(phase, LIVE, BLACKOUT) {
        MOVES(ready_in(phase, 4), 24, .operation = MIGRATE);
        MOVES(ready_in(phase, 2), 29, .operation = MIGRATE, .pending = 1);
        MOVES(ready_in(phase, 25), 24, .operation = REMIGRATE);
        MOVES(ready_in(phase, 30), 29, .operation = REMIGRATE, .pending = 1);
    }
}

TEST(E33_cancel, "26 to 1, 31 to 3 and 27 to 0 are CANCEL (2).")
{
    EACH(phase, LIVE, BLACKOUT) {
        MOVES(ready_in(phase, 26), 1, .operation = CANCEL);
        MOVES(ready_in(phase, 31), 3, .operation = CANCEL, .pending = 1);
        MOVES(ready_in(phase, 27), 0, .operation = CANCEL);
    }
}

TEST(E34_a_success_changes_state_and_epoch_alone,
     "A success changes the page's state and sets its epoch to the migration epoch, and nothing else: mark, Dirty, Cached, stamp stay.")
{
    EACH(cached, 0, 1)
        EACH(mig, 1, 65535)
            EACH(state, 4, 25, 26) {
                int cancelled = state == 26;
                guest *g = ASKING(LIVE, .state = state, .dirty = cancelled, .cached = cached, .stamp = 1, .epoch = 7, .mark = ALL);
                set(g, MIG, mig);
                EXPECT_PAGE(g, 5, .state = cancelled ? 1 : 24, .dirty = cancelled, .cached = cached, .stamp = 1, .epoch = mig, .mark = ALL);
                TAKES(g, ENTRY(.page = 5, .operation = cancelled ? CANCEL : state == 4 ? MIGRATE : REMIGRATE), cancelled ? 0 : ALL);
                if (cancelled)
                    RUNS(g, 0, UNBLOCK, .page = 5);
            }
}

TEST(E35_an_entry_without_success_changes_no_page, "An entry without success changes no page, with any status.")
{
    guest *g = guest_in(LIVE, 8);
    PAGE(g, 1, .state = 1, .cached = 1, .stamp = 1, .mark = 1);
    PAGE(g, 2, .state = 4, .cached = 1, .stamp = 1, .epoch = 1, .mark = 2);
    PAGE(g, 3, .state = 4, .dirty = 1, .cached = 1, .stamp = 1, .mark = 3);
    PAGE(g, 4, .state = 25, .cached = 1, .stamp = 2, .mark = 4);
    PAGE(g, 5, .state = 4, .stamp = 1, .mark = 5);
    const uint64_t asked[] = {entry(1), entry(2), entry(3), entry(4), entry_op(5, 2), entry_op(5, 0), entry(8)};
    const uint64_t status[] = {4, 7, 17, 5, 15, 1, 2};
    lists_of(g, 7);
    for (size_t i = 0; i < 7; i++) {
        set_word(g, LIST, i, asked[i]);
        expect_word(g, LIST, i, ENTRY(.page = asked[i] >> 12 & 15, .status = status[i]));
        expect_word(g, BUFFER, i, 0);
    }
    EXPORTED(PASSES(g, EXPORT, .info = info(0, 6), .budget = ALL), info(7, 6), 6, 2);
}

TEST(E36_entries_are_taken_in_turn, "Entries are taken in turn on the table as the earlier ones left it: a page listed twice has statuses 0 and 4.")
{
    EACH(phase, LIVE, BLACKOUT)
        EACH(budget, 1, ALL)
            EACH(state, 2, 4, 25, 26, 27, 30, 31) {
                guest *g = ready_in(phase, state);
                lists_of(g, 2);
                EACH(i, 0, 1)
                    set_word(g, LIST, i, entry(5));
                if (budget == 1)
                    RUNS(g, 1, EXPORT, .info = info(0, 1), .budget = 1);
                RUNS(g, 0, EXPORT, .resume = budget == 1, .info = info(budget == 1, 1), .budget = budget);
                EQUAL(word(g, LIST, 0) >> 56, 0);
                EQUAL(word(g, LIST, 1), ENTRY(.page = 5, .status = 4));
            }
}
