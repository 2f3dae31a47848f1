/* Session calls: start, pause, abort and new epoch. */
#include "states.h"

TEST(X1_start_comes_in_idle, "Start comes in Idle alone.")
{
    EACH(phase, LIVE, BLACKOUT, DONE)
        EACH(state, 0, 4, 24)
            REFUSED(ONE(phase, .state = state), 41, START);
    RUNS(ONE(IDLE, .state = 4), 0, START);
}

TEST(X2_start_takes_states_0_to_4,
     "Start: a page in 24 to 27, 29 to 31, or strange, is 45, wherever it stands; 0 to 4, blocked ones too, are fine.")
{
    for (uint64_t state = 0; state < 256; state++)
        EACH(where, 0, 4, 8) {
            guest *g = guest_in(IDLE, 9);
            for (size_t i = 0; i < 9; i++)
                PAGE(g, i, .state = i % 5, .cached = 1, .epoch = 3);
            PAGE(g, where, .state = state);
            RUNS(g, state <= 4 ? 0 : 45, START);
            set(g, PHASE, IDLE);
            set(g, MIG, 0);
            PAGE(g, where, .state = state, .spare = 1ULL << 48);
            REFUSED(g, 45, START);
        }
}

TEST(X3_start_opens_the_first_epoch, "Start: Live, migration epoch 1, check reset, streams at rest; TLB epoch, N and page count stay.")
{
    EACH(complete, 0, 1) {
        guest *g = guest_in(IDLE, 3);
        set(g, TLB, 7);
        set(g, N, 9);
        set(g, PLACE, 3);
        set(g, COMPLETE, complete);
        set(g, FAILED, !complete);
        expect(g, PHASE, LIVE);
        expect(g, MIG, 1);
        EACH(field, PLACE, COMPLETE, FAILED)
            expect(g, field, 0);
        PASSES(g, START);
    }
}

TEST(X4_start_clears_the_epochs, "Start sets every page's epoch to 0, in all five states.")
{
    guest *g = guest_in(IDLE, 5);
    for (size_t state = 0; state <= 4; state++) {
        PAGE(g, state, .state = state, .epoch = 1 + 16383 * state);
        EXPECT_PAGE(g, state, .state = state);
    }
    expect(g, PHASE, LIVE);
    expect(g, MIG, 1);
    PASSES(g, START);
}

TEST(X5_start_clears_the_stamps_of_pages_that_are_not_blocked, "Start clears the stamp except in 1 and 3, where it stays.")
{
    EACH(stamp, 1, 2, 65535) {
        guest *g = guest_in(IDLE, 5);
        for (size_t state = 0; state <= 4; state++) {
            PAGE(g, state, .state = state, .stamp = stamp);
            EXPECT_PAGE(g, state, .state = state, .stamp = state == 1 || state == 3 ? stamp : 0);
        }
        expect(g, PHASE, LIVE);
        expect(g, MIG, 1);
        PASSES(g, START);
        EACH(blocked, 1, 3)
            RUNS(g, stamp == 1 ? 0 : 47, UNBLOCK, .page = blocked);
        set_word(g, LIST, 0, entry(4));
        RUNS(g, 0, EXPORT, .budget = ALL);
        EQUAL(word(g, LIST, 0), 0x0500000000004000);
    }
}

TEST(X6_start_keeps_the_rest, "Start keeps state, mark, Dirty and Cached.")
{
    EACH(bits, 0, 1, 2, 3) {
        guest *g = guest_in(IDLE, 5);
        for (size_t state = 0; state <= 4; state++)
            PAGE(g, state, .state = state, .dirty = bits & 1, .cached = bits >> 1, .mark = UINT64_MAX - state);
        expect(g, PHASE, LIVE);
        expect(g, MIG, 1);
        PASSES(g, START);
    }
}

TEST(X7_pause_waits_for_blocked_pages, "Pause comes in Live alone; any page in 1, 3, 26 or 31 is 48, each of the four.")
{
    for (uint64_t state = 0; state < 256; state++)
        EACH(where, 0, 4, 8) {
            guest *g = guest_in(LIVE, 9);
            PAGE(g, where, .state = state);
            const int blocked = state == 1 || state == 3 || state == 26 || state == 31;
            RUNS(g, blocked ? 48 : 0, PAUSE);
        }
    EACH(phase, IDLE, BLACKOUT, DONE)
        EACH(state, 0, 1)
            REFUSED(ONE(phase, .state = state), 41, PAUSE);
}

TEST(X8_pause_blocked_before_busy, "Pause: 48 comes before 43.")
{
    guest *g = guest_in(LIVE, 2);
    INTERRUPT(g, 2, .last = 3);
    REFUSED(g, 43, PAUSE);
    EACH(state, 1, 3, 26, 31) {
        PAGE(g, 1, .state = state);
        REFUSED(g, 48, PAUSE);
    }
}

TEST(X9_pause_clears_cached, "Pause: Blackout, and every plain record's Cached cleared; all else stays, the check too, complete or not.")
{
    EACH(check, 0, 1, 2) {
        guest *g = crowd_in(LIVE);
        EACH(blocked, 1, 3, 26, 31)
            PAGE(g, blocked, .state = 4);
        EACH(state, 0, 2, 4, 24, 25, 27, 29, 30) {
            page after = crowded(state);
            after.cached = 0;
            expect_page(g, state, after);
        }
        set(g, MIG, 3);
        set(g, PLACE, 256);
        set(g, COMPLETE, check == 1);
        set(g, FAILED, check == 2);
        expect(g, PHASE, BLACKOUT);
        PASSES(g, PAUSE);
    }
}

TEST(X10_abort_comes_in_live_and_blackout, "Abort comes in Live and Blackout; in Idle and Done it is 41.")
{
    EACH(state, BASE) {
        EACH(phase, LIVE, BLACKOUT)
            RUNS(ONE(phase, .state = state), 0, ABORT);
        EACH(phase, IDLE, DONE)
            REFUSED(ONE(phase, .state = state), 41, ABORT);
    }
}

/* Aborts, and checks that of the session phase and migration epoch change and of the table nothing. */
static void abort_keeps_the_table(place at, guest *g)
{
    expect(g, PHASE, IDLE);
    expect(g, MIG, 0);
    answers(at, g, 0, ABORT, (operands){ORDINARY});
}

TEST(X11_abort_keeps_every_state, "Abort changes no record: a page in 24 to 27 or 29 to 31 stays there, and so does any other, strange or not.")
{
    EACH(phase, LIVE, BLACKOUT) {
        abort_keeps_the_table(HERE, crowd_in(phase));
        abort_keeps_the_table(HERE, guest_in(phase, 4096));
        EACH(state, BASE)
            abort_keeps_the_table(HERE, ONE(phase, .state = state));
    }
}

TEST(X12_abort_keeps_epochs_and_stamps, "Abort keeps the epoch and the stamp of every page, in 0 to 4 too.")
{
    EACH(phase, LIVE, BLACKOUT)
        EACH(state, BASE)
            EACH(number, 1, 2, 3, 65535) {
                abort_keeps_the_table(HERE, ONE(phase, .state = state, .stamp = number));
                abort_keeps_the_table(HERE, ONE(phase, .state = state, .epoch = number));
                abort_keeps_the_table(HERE, ONE(phase, .state = state, .stamp = number, .epoch = number));
            }
}

TEST(X13_abort_keeps_the_rest, "Abort keeps mark, Dirty and Cached.")
{
    EACH(phase, LIVE, BLACKOUT)
        EACH(state, BASE)
            EACH(bits, 0, 1, 2, 3)
                abort_keeps_the_table(HERE, ONE(phase, .state = state, .dirty = bits & 1, .cached = bits >> 1, .mark = UINT64_MAX - state));
}

TEST(X14_abort_ends_the_session,
     "Abort: Idle, migration epoch 0, streams at rest, check reset; TLB epoch, N and count stay. An interrupted stream is no obstacle.")
{
    EACH(phase, LIVE, BLACKOUT)
        EACH(complete, 0, 1) {
            guest *g = guest_in(phase, 3);
            set(g, TLB, 9);
            set(g, MIG, 65535);
            set(g, N, 9);
            set(g, PLACE, 3);
            set(g, COMPLETE, complete);
            set(g, FAILED, !complete);
            for (size_t i = 0; i < 8; i++) {
                INTERRUPT(g, i, .next = 2, .last = 3, .errors = 1, .data = 2);
                expect_at_rest(g, i);
            }
            EACH(field, PHASE, MIG, PLACE, COMPLETE, FAILED)
                expect(g, field, 0);
            PASSES(g, ABORT);
        }
}

TEST(X15_new_epoch_busy_before_overflow, "New epoch comes in Live and Blackout; 43 comes before 55.")
{
    EACH(phase, LIVE, BLACKOUT) {
        guest *g = guest_in(phase, 1);
        set(g, MIG, 65535);
        REFUSED(g, 55, NEW_EPOCH);
        INTERRUPT(g, 0, .last = 1);
        REFUSED(g, 43, NEW_EPOCH);
    }
    EACH(phase, IDLE, DONE)
        REFUSED(guest_in(phase, 1), 41, NEW_EPOCH);
}

TEST(X16_new_epoch_ends_at_65535, "New epoch at 65,535 is 55; at 65,534 it gives 65,535. Only the migration epoch changes.")
{
    EACH(phase, LIVE, BLACKOUT)
        EACH(mig, 1, 9, 65534) {
            guest *g = crowd_in(phase);
            set(g, PLACE, 256);
            set(g, COMPLETE, 1);
            set(g, MIG, mig);
            expect(g, MIG, mig + 1);
            PASSES(g, NEW_EPOCH);
            set(g, MIG, 65535);
            REFUSED(g, 55, NEW_EPOCH);
        }
}
