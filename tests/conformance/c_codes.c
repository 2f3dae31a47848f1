/* Codes and their order. */
#include "states.h"

TEST(C1_codes_of_calls_that_ran,
     "0 done, 1 interrupted, 2 list full, 3 check complete, 51 the check met a blocked page; no other number but a refusal's.")
{
    guest *g = ONE(LIVE, .state = 4);
    RUNS(g, 0, TRACK);
    RUNS(g, 1, DSCAN, .count = 1, .budget = 0);
    RUNS(g, 0, DSCAN, .count = 1, .budget = 1);
    RUNS(g, 1, EXPORT, .budget = 0);
    RUNS(g, 0, EXPORT, .resume = 1, .budget = 1);
    lists_of(g, 0);
    RUNS(g, 2, DSCAN, .count = 1, .budget = 1);
    RUNS(g, 0, PAUSE);
    RUNS(g, 1, DCHECK, .budget = 0);
    RUNS(g, 2, DCHECK, .budget = 1);
    lists_of(g, 1);
    RUNS(g, 3, DCHECK, .budget = 1);
    RUNS(g, 0, RESET);
    PAGE(g, 0, .state = 1);
    RUNS(g, 51, DCHECK, .budget = 1);
    RUNS(g, 0, ABORT);
    RUNS(g, 1, RESTORE, .budget = 0);
    RUNS(g, 0, RESTORE, .budget = 1);
}

TEST(C1_codes_of_refusals,
     "40 malformed, 41 wrong phase, 42 operand, 43 busy, 44 resumption, 45 state, 46 not blocked, 47 not tracked, 48 blocked memory, "
     "49 no blocking, 50 reset the check, 52 check not done, 53 dirty pages, 54 unexported pages, 55 and 56 epochs at their limits.")
{
    guest *g = ONE(LIVE, .state = 4);
    REFUSED(g, 41, START);
    REFUSED(g, 42, WRITE, .page = 1);
    REFUSED(g, 44, EXPORT, .resume = 1, .budget = 1);
    REFUSED(g, 45, ADD);
    REFUSED(g, 46, UNBLOCK);
    RUNS(g, 0, BLOCK);
    REFUSED(g, 47, UNBLOCK);
    REFUSED(g, 48, PAUSE);
    RUNS(g, 0, TRACK);
    RUNS(g, 0, UNBLOCK);
    set(g, TLB, 65535);
    REFUSED(g, 56, TRACK);
    set(g, MIG, 65535);
    REFUSED(g, 55, NEW_EPOCH);
    INTERRUPT(g, 0, .last = 0);
    REFUSED(g, 43, PAUSE);
    RUNS(g, 0, EXPORT, .resume = 1, .budget = 1);
    RUNS(g, 0, PAUSE);
    REFUSED(g, 49, BLOCK);
    REFUSED(g, 52, TOKEN);
    RUNS(g, 3, DCHECK, .budget = 1);
    REFUSED(g, 50, DCHECK, .budget = 1);
    REFUSED(g, 54, TOKEN);
    PAGE(g, 0, .state = 25);
    REFUSED(g, 53, TOKEN);
    set(g, N, 1);
    REFUSED(g, 40, TOKEN);
}

TEST(C2_the_table_is_the_sessions, "40: table length odd, 0, above 8,192 words, or not twice the session's page count.")
{
    EACH(words, 2, 8192)
        WELL_FORMED(guest_in(LIVE, words / 2));
    EACH(words, 0, 1, 3, 8191, 8193, 8194)
        EACH(count, 1, words / 2, 4096) {
            guest *g = guest_in(LIVE, 1);
            set(g, COUNT, count);
            resize(g, TABLE, 8 * words);
            MALFORMED(g);
        }
    EACH(count, 1, 4095) {
        guest *shorter = guest_in(BLACKOUT, count), *longer = guest_in(BLACKOUT, count + 1);
        set(shorter, COUNT, count + 1);
        MALFORMED(shorter);
        set(longer, COUNT, count);
        MALFORMED(longer);
    }
}

TEST(C3_40_comes_before_41, "40 comes before 41 in every call but New.")
{
    EACH(phase, IDLE, LIVE, BLACKOUT, DONE) {
        guest *g = guest_in(phase, 1);
        set(g, TLB, 0);
        MALFORMED(g);
        set(g, TLB, 2);
        WELL_FORMED(g);
        resize(g, TABLE, 24);
        MALFORMED(g);
    }
    guest *done = guest_in(DONE, 1), *idle = guest_in(IDLE, 1);
    REFUSED(done, 41, PAUSE);
    set(done, N, 10);
    REFUSED(done, 40, PAUSE);
    REFUSED(idle, 41, TOKEN);
    resize(idle, TABLE, 24);
    REFUSED(idle, 40, TOKEN);
}

TEST(C4_41_comes_before_42, "41 comes before 42.")
{
    EACH(phase, BLACKOUT, DONE) {
        guest *g = guest_in(phase, 3);
        EACH(c, WRITE, ADD, ACCEPT, UNBLOCK, REMOVE)
            REFUSED(g, 41, c, .page = 3);
        REFUSED(g, 41, DSCAN, .first = 3, .count = 0);
    }
    EACH(phase, LIVE, BLACKOUT, DONE)
        EACH(words, 0, 513) {
            guest *g = guest_in(phase, 3);
            lists_of(g, words);
            REFUSED(g, 41, RESTORE, .info = 7, .budget = ALL);
        }
    EACH(phase, IDLE, DONE) {
        guest *g = guest_in(phase, 3);
        EACH(words, 0, 513) {
            lists_of(g, words);
            REFUSED(g, 41, EXPORT, .budget = ALL);
            REFUSED(g, 41, EXPORT, .stream = 9, .info = 7, .budget = ALL);
            REFUSED(g, 41, DCHECK, .budget = ALL);
            REFUSED(g, 41, DSCAN, .count = 0);
        }
    }
}

TEST(C5_a_page_beyond_the_table, "42 for a page number at or beyond the page count, up to 2^64-1, with no wrap.")
{
    EACH(phase, IDLE, LIVE)
        EACH(c, WRITE, ADD, ACCEPT, BLOCK, UNBLOCK, REMOVE)
            EACH(beyond, 3, 4, 4096, 1ULL << 32, 1ULL << 52, 1ULL << 60, (1ULL << 60) + 1, 1ULL << 61, 1ULL << 63, (1ULL << 63) + 2, UINT64_MAX)
                EACH(state, 0, 1, 2, 4) {
                    guest *g = guest_in(phase, 3);
                    for (size_t i = 0; i < 3; i++)
                        PAGE(g, i, .state = state, .stamp = 1);
                    REFUSED(g, 42, c, .page = beyond);
                }
}

TEST(C5_the_last_page_is_a_page, "The last page, count-1, is taken.")
{
    const struct { call c; uint64_t from, to; } moves[] = {{ADD, 0, 2},     {ACCEPT, 2, 4}, {BLOCK, 4, 1},
                                                           {UNBLOCK, 1, 4}, {REMOVE, 1, 0}, {WRITE, 4, 4}};
    EACH(count, 1, 3, 4096)
        for (size_t i = 0; i < sizeof moves / sizeof *moves; i++) {
            guest *g = guest_in(IDLE, count);
            PAGE(g, count - 1, .state = moves[i].from, .stamp = 1);
            RUNS(g, 0, moves[i].c, .page = count - 1);
            EQUAL(state_of(g, count - 1), moves[i].to);
        }
}

TEST(C6_any_interrupted_stream_is_busy, "43 means that some stream is interrupted, whichever it is.")
{
    for (size_t i = 0; i < 8; i++) {
        guest *live = guest_in(LIVE, 1), *blackout = guest_in(BLACKOUT, 1);
        EACH(in_live, 0, 1) {
            guest *g = in_live ? live : blackout;
            set(g, N, 9);
            INTERRUPT(g, i, .last = 3);
            REFUSED(g, 43, NEW_EPOCH);
        }
        REFUSED(live, 43, PAUSE);
        REFUSED(blackout, 43, TOKEN);
    }
}

TEST(C7_a_refusal_leaves_everything, "40 to 50 and 52 to 56 leave everything untouched.")
{
    guest *live = crowd_in(LIVE);
    REFUSED(live, 41, START);
    REFUSED(live, 42, WRITE, .page = 256);
    REFUSED(live, 45, WRITE, .page = 2);
    REFUSED(live, 46, UNBLOCK, .page = 4);
    REFUSED(live, 48, PAUSE);
    guest *idle = crowd_in(IDLE);
    REFUSED(idle, 45, START);
    REFUSED(idle, 45, REMOVE, .page = 26);
    REFUSED(idle, 42, RESTORE, .info = info(1, 0), .budget = ALL);
    INTERRUPT(live, 2, .next = 3, .last = 5, .errors = 1, .data = 2);
    REFUSED(live, 43, NEW_EPOCH);
    REFUSED(live, 44, EXPORT, .stream = 2, .resume = 1, .info = info(3, 3), .budget = ALL);
    set(live, TLB, 1);
    REFUSED(live, 47, REMOVE, .page = 1);
    set(live, TLB, 65535);
    REFUSED(live, 56, TRACK);
    set(live, COUNT, 255);
    MALFORMED(live);

    guest *blackout = crowd_in(BLACKOUT);
    REFUSED(blackout, 49, BLOCK, .page = 4);
    REFUSED(blackout, 52, TOKEN);
    set(blackout, PLACE, 256);
    set(blackout, COMPLETE, 1);
    REFUSED(blackout, 50, DCHECK, .budget = ALL);
    EQUAL(REFUSED(blackout, 53, TOKEN).page, 24);
    set(blackout, MIG, 65535);
    REFUSED(blackout, 55, NEW_EPOCH);

    guest *g = guest_in(LIVE, 3);
    PAGE(g, 0, .state = 4, .cached = 1);
    PAGE(g, 2, .state = 1);
    REFUSED(g, 48, PAUSE);
}

TEST(C8_51_is_no_refusal, "51 marks the check failed with its place at the blocked page, and keeps what the call did before.")
{
    EACH(blocked, 1, 3, 26, 31) {
        guest *g = guest_in(BLACKOUT, 4);
        PAGE(g, 0, .state = 24, .dirty = 1, .stamp = 1, .mark = 3);
        PAGE(g, 2, .state = blocked, .dirty = 1, .stamp = 1);
        EXPECT_PAGE(g, 0, .state = 25, .stamp = 2, .mark = 3);
        expect_word(g, LIST, 0, 0x0010000000000008);
        expect(g, PLACE, 2);
        expect(g, FAILED, 1);
        SCANNED(ANSWERS(g, 51, DCHECK, .budget = ALL), 2, 0, 0);
    }
}

TEST(C9_a_refused_scan_answers_zeros, "A refused scan answers next 0, first 0, last 0; 511 is for scans that ran.")
{
    guest *g = guest_in(LIVE, 3);
    set(g, PLACE, 2);
    REFUSED(g, 42, DSCAN, .first = 2, .count = 2, .budget = ALL);
    REFUSED(g, 41, DCHECK, .budget = ALL);
    SCANNED(PASSES(g, DSCAN, .first = 1, .count = 2, .budget = ALL), 3, 511, 0);
    set(g, PHASE, BLACKOUT);
    set(g, FAILED, 1);
    REFUSED(g, 50, DCHECK, .budget = ALL);
    REFUSED(g, 41, DSCAN, .first = 1, .count = 2, .budget = ALL);
    lists_of(g, 513);
    REFUSED(g, 42, DCHECK, .budget = ALL);
    set(g, TLB, 0);
    REFUSED(g, 40, DCHECK, .budget = ALL);
    REFUSED(g, 40, DSCAN, .first = 1, .count = 2, .budget = ALL);
}

TEST(C10_a_refused_export_answers_zeros, "A refused export answers info word 0, errors 0, buffers 0.")
{
    const uint64_t hpa = 0x000abcdef1234000;
    guest *g = guest_in(LIVE, 1);
    REFUSED(g, 42, EXPORT, .info = info(0, 4) | hpa, .budget = ALL);
    REFUSED(g, 42, EXPORT, .info = info(1, 3) | hpa, .budget = ALL);
    REFUSED(g, 44, EXPORT, .resume = 1, .info = info(0, 3) | hpa, .budget = ALL);
    INTERRUPT(g, 0, .next = 2, .last = 3, .errors = 1, .data = 1);
    REFUSED(g, 44, EXPORT, .info = info(0, 3) | hpa, .budget = ALL);
    REFUSED(guest_in(IDLE, 1), 41, EXPORT, .info = info(0, 3) | hpa, .budget = ALL);
    set(g, N, 0);
    REFUSED(g, 40, EXPORT, .info = info(0, 3) | hpa, .budget = ALL);
}

TEST(C11_a_page_for_53_and_54_alone, "A page stands in the token's answer for 53 and 54 alone.")
{
    guest *g = guest_in(BLACKOUT, 4);
    PAGE(g, 1, .state = 4);
    PAGE(g, 2, .state = 25);
    set(g, PLACE, 3);
    REFUSED(g, 52, TOKEN);
    INTERRUPT(g, 1, .last = 1);
    REFUSED(g, 43, TOKEN);
    RUNS(g, 0, EXPORT, .stream = 1, .resume = 1, .info = info(0, 1), .budget = ALL);
    set(g, PLACE, 4);
    set(g, COMPLETE, 1);
    EQUAL(REFUSED(g, 53, TOKEN).page, 2);
    PAGE(g, 2, .state = 24);
    EQUAL(REFUSED(g, 54, TOKEN).page, 1);
    PAGE(g, 1, .state = 29);
    expect(g, PHASE, DONE);
    EQUAL(PASSES(g, TOKEN).page, 0);
    REFUSED(g, 41, TOKEN);
    set(g, N, 0);
    REFUSED(g, 40, TOKEN);
}
