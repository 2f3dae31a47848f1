/* Guest and memory calls: add, accept, block, unblock, remove and track. */
#include "states.h"

static page cleared(page p) { return (page){.epoch = p.epoch}; }

static page stamped_2(page p)
{
    p.stamp = 2;
    return p;
}

static page unstamped(page p)
{
    p.stamp = 0;
    return p;
}

TEST(M14_add, "Add: 0 becomes 2, everything else and strange is 45.") { ONLY_MOVES(ADD, 45, cleared, {0, 2}); }

TEST(M15_accept, "Accept: 2 becomes 4; in Live 29 and 30 become 25; everything else and strange is 45.")
{
    ONLY_MOVES(ACCEPT, 45, cleared, {2, 4}, {29, 25}, {30, 25});
}

TEST(M16_add_and_accept_clear_all_but_the_epoch, "Add and accept clear mark, Dirty, Cached and stamp, and keep the page's epoch.")
{
    const struct { call c; uint64_t from, to; } rows[] = {{ADD, 0, 2}, {ACCEPT, 2, 4}, {ACCEPT, 29, 25}, {ACCEPT, 30, 25}};
    for (size_t i = 0; i < sizeof rows / sizeof *rows; i++)
        EACH(epoch, 0, 1, 2, 65535) {
            guest *g = ONE(LIVE, .state = rows[i].from, .dirty = 1, .cached = 1, .stamp = 65535, .epoch = epoch, .mark = UINT64_MAX);
            EXPECT_PAGE(g, 0, .state = rows[i].to, .epoch = epoch);
            PASSES(g, rows[i].c);
        }
}

TEST(M16_an_accepted_page_is_to_be_scanned_again, "A page in 30 with a tracked stamp, accepted, has no stamp: its export in Live is status 5.")
{
    guest *g = ONE(LIVE, .state = 30, .stamp = 1);
    RUNS(g, 0, ACCEPT);
    set_word(g, LIST, 0, entry(0));
    RUNS(g, 0, EXPORT, .budget = 1);
    EQUAL(word(g, LIST, 0), 0x0500000000000000);
}

TEST(M17_block, "Block: 4 becomes 1, 2 becomes 3; in Live 24 and 25 become 26, 29 and 30 become 31; Dirty or not; else and strange 45.")
{
    ONLY_MOVES(BLOCK, 45, stamped_2, {4, 1}, {2, 3}, {24, 26}, {25, 26}, {29, 31}, {30, 31});
    EACH(state, 2, 4, 24, 25, 29, 30)
        EACH(dirty, 0, 1)
            RUNS(ONE(LIVE, .state = state, .dirty = dirty), 0, BLOCK);
}

TEST(M18_block_sets_the_stamp_alone, "Block sets the stamp to the TLB epoch and keeps mark, Dirty, Cached and epoch.")
{
    EACH(tlb, 1, 3, 65535)
        EACH(bit, 0, 1)
            EACH(stamp, 0, 1, 65535) {
                guest *g = ONE(LIVE, .state = 4, .dirty = bit, .cached = !bit, .stamp = stamp, .epoch = 7, .mark = UINT64_MAX);
                set(g, TLB, tlb);
                EXPECT_PAGE(g, 0, .state = 1, .dirty = bit, .cached = !bit, .stamp = tlb, .epoch = 7, .mark = UINT64_MAX);
                PASSES(g, BLOCK);
            }
}

TEST(M19_block_is_disallowed_in_blackout, "Block in Blackout is 49, in 41's place, so before 42; in Done it is 41.")
{
    EACH(number, 0, 1, 2, UINT64_MAX)
        EACH(state, 0, 1, 4, 24) {
            REFUSED(ONE(BLACKOUT, .state = state), 49, BLOCK, .page = number);
            REFUSED(ONE(DONE, .state = state), 41, BLOCK, .page = number);
        }
    EACH(phase, BLACKOUT, DONE) {
        guest *malformed = guest_in(phase, 1);
        set(malformed, TLB, 0);
        REFUSED(malformed, 40, BLOCK);
    }
}

TEST(M20_unblock, "Unblock: 1 becomes 4, 3 becomes 2; in Live 26 becomes 25, 31 becomes 30; stamp 0; mark, Dirty, Cached and epoch stay.")
{
    ONLY_MOVES(UNBLOCK, 46, unstamped, {1, 4}, {3, 2}, {26, 25}, {31, 30});
}

TEST(M20_an_unblocked_page_is_to_be_scanned_again,
     "Block, track, unblock: the stamp is gone, so that an export in Live without a scan is status 5.")
{
    guest *g = ONE(LIVE, .state = 4, .stamp = 1);
    RUNS(g, 0, BLOCK);
    RUNS(g, 0, TRACK);
    RUNS(g, 0, UNBLOCK);
    set_word(g, LIST, 0, entry(0));
    RUNS(g, 0, EXPORT, .budget = 1);
    EQUAL(word(g, LIST, 0), 0x0500000000000000);
}

TEST(M21_remove, "Remove: 1 and 3 become 0; in Live 26 and 31 become 27; mark, Dirty, Cached, stamp 0; the epoch stays.")
{
    ONLY_MOVES(REMOVE, 46, cleared, {1, 0}, {3, 0}, {26, 27}, {31, 27});
}

TEST(M22_not_blocked_comes_before_not_tracked,
     "Unblock and remove in any other state than 1, 3, 26, 31, or strange, are 46, and 46 comes before 47; in Idle 24 to 27 and 29 to 31 are 45.")
{
    EACH(phase, IDLE, LIVE)
        EACH(c, UNBLOCK, REMOVE)
            EACH(stamp, 0, 1, 2, 3) {
                EACH(state, 0, 2, 4, 5, 28, 255)
                    REFUSED(ONE(phase, .state = state, .stamp = stamp), 46, c);
                EACH(state, 24, 25, 27, 29, 30)
                    REFUSED(ONE(phase, .state = state, .stamp = stamp), phase == IDLE ? 45 : 46, c);
                EACH(spare, 1ULL << 10, 1ULL << 63)
                    REFUSED(ONE(phase, .state = 1, .stamp = stamp, .spare = spare), 46, c);
            }
}

TEST(M23_blocked_but_not_tracked, "Stamp 0, or stamp at or above the TLB epoch, is 47; a stamp from 1 to one below the TLB epoch passes.")
{
    EACH(c, UNBLOCK, REMOVE)
        EACH(state, 1, 3, 26, 31)
            EACH(tlb, 1, 2, 3, 65535) {
                EACH(stamp, 0, tlb, tlb == 65535 ? tlb : tlb + 1, 65535) {
                    guest *g = ONE(LIVE, .state = state, .stamp = stamp);
                    set(g, TLB, tlb);
                    REFUSED(g, 47, c);
                }
                EACH(phase, IDLE, LIVE)
                    EACH(stamp, 1, tlb - 1) {
                        guest *g = ONE(phase, .state = state, .stamp = stamp);
                        set(g, TLB, tlb);
                        if (tlb > 1)
                            RUNS(g, phase == IDLE && is_to_restore(state) ? 45 : 0, c);
                    }
            }
}

TEST(M24_track_clears_every_cached_bit,
     "Track raises the TLB epoch by one and clears Cached on every plain record of every state; nothing else changes.")
{
    EACH(phase, IDLE, LIVE) {
        guest *g = crowd_in(phase);
        set(g, PLACE, 256);
        set(g, COMPLETE, 1);
        if (phase == LIVE)
            INTERRUPT(g, 1, .next = 2, .last = 3, .errors = 1, .data = 1);
        for (size_t i = 0; i < 256; i++) {
            page after = crowded(i);
            after.cached = !is_of_the_base(i);
            expect_page(g, i, after);
        }
        expect(g, TLB, 3);
        PASSES(g, TRACK);
    }
    guest *big = guest_in(IDLE, 4096);
    for (size_t i = 0; i < 4096; i++) {
        PAGE(big, i, .state = 4, .cached = 1);
        EXPECT_PAGE(big, i, .state = 4);
    }
    expect(big, TLB, 3);
    PASSES(big, TRACK);
}

TEST(M25_track_ends_at_65535, "Track at TLB epoch 65,535 is 56; at 65,534 it gives 65,535.")
{
    EACH(phase, IDLE, LIVE) {
        guest *g = ONE(phase, .state = 4, .cached = 1);
        set(g, TLB, 65535);
        REFUSED(g, 56, TRACK);
        set(g, TLB, 65534);
        expect(g, TLB, 65535);
        EXPECT_PAGE(g, 0, .state = 4);
        PASSES(g, TRACK);
        REFUSED(g, 56, TRACK);
    }
}
