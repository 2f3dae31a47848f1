/* Session calls: the start token. */
#include "states.h"

/* In Blackout with a complete check: the pages alone decide about the token. */
static guest *checked(size_t pages)
{
    guest *g = guest_in(BLACKOUT, pages);
    set(g, PLACE, pages);
    set(g, COMPLETE, 1);
    return g;
}

static guest *checked_one(page p)
{
    guest *g = checked(1);
    set_page(g, 0, p);
    return g;
}
#define CHECKED(...) checked_one((page){__VA_ARGS__})

static void granted(place at, guest *g)
{
    expect(g, PHASE, DONE);
    check_equal(at, "page of a grant", answers(at, g, 0, TOKEN, (operands){ORDINARY}).page, 0);
}

TEST(X17_token_comes_in_blackout, "The token comes in Blackout alone; 43 comes before 52.")
{
    EACH(phase, IDLE, LIVE, DONE) {
        guest *g = guest_in(phase, 1);
        set(g, PLACE, 1);
        set(g, COMPLETE, 1);
        EACH(state, 0, 24, 25) {
            PAGE(g, 0, .state = state);
            REFUSED(g, 41, TOKEN);
        }
    }
    guest *g = guest_in(BLACKOUT, 1);
    REFUSED(g, 52, TOKEN);
    INTERRUPT(g, 3, .last = 0);
    REFUSED(g, 43, TOKEN);
    set(g, PLACE, 1);
    set(g, COMPLETE, 1);
    REFUSED(g, 43, TOKEN);
    granted(HERE, checked(1));
}

TEST(X18_token_wants_a_complete_check, "52 while the check is not complete, failed ones included, before any page is looked at.")
{
    EACH(state, 0, 4, 24, 25)
        EACH(at, 0, 1, 2)
            EACH(failed, 0, 1) {
                guest *g = guest_in(BLACKOUT, 2);
                PAGE(g, 1, .state = state);
                set(g, PLACE, at);
                set(g, FAILED, failed);
                REFUSED(g, 52, TOKEN);
            }
}

TEST(X19_token_53_for_what_is_to_be_sent_again, "53 for a page in 25, 26, 27, 30, 31.")
{
    EACH(state, 25, 26, 27, 30, 31)
        EACH(dirty, 0, 1)
            EACH(where, 0, 2) {
                guest *g = checked(3);
                PAGE(g, where, .state = state, .dirty = dirty);
                EQUAL(REFUSED(g, 53, TOKEN).page, where);
            }
}

TEST(X20_token_53_for_dirty_exports, "53 for 24 and 29 with Dirty; without it they are no obstacle.")
{
    EACH(state, 24, 29)
        EACH(cached, 0, 1)
            EACH(number, 0, 1, 65535) {
                EQUAL(REFUSED(CHECKED(.state = state, .dirty = 1, .cached = cached, .stamp = number, .epoch = number), 53, TOKEN).page, 0);
                granted(HERE, CHECKED(.state = state, .cached = cached, .stamp = number, .epoch = number, .mark = number));
            }
}

TEST(X21_token_54_for_what_was_never_sent, "54 for a page in 1, 2, 3, 4, or strange.")
{
    EACH(dirty, 0, 1) {
        EACH(state, 1, 2, 3, 4)
            EQUAL(REFUSED(CHECKED(.state = state, .dirty = dirty), 54, TOKEN).page, 0);
        EACH(state, BASE)
            EACH(spare, 1ULL << 10, 1ULL << 63)
                REFUSED(CHECKED(.state = state, .dirty = dirty, .spare = spare), 54, TOKEN);
        for (uint64_t state = 0; state < 256; state++)
            if (!is_of_the_base(state))
                REFUSED(CHECKED(.state = state, .dirty = dirty), 54, TOKEN);
    }
}

TEST(X22_token_53_comes_before_54, "A 53 anywhere comes before a 54 anywhere.")
{
    guest *g = checked(10);
    PAGE(g, 0, .state = 4);
    PAGE(g, 1, .state = 4, .spare = 0x400);
    PAGE(g, 9, .state = 25);
    EQUAL(REFUSED(g, 53, TOKEN).page, 9);
    PAGE(g, 9, .state = 29, .dirty = 1);
    EQUAL(REFUSED(g, 53, TOKEN).page, 9);
    PAGE(g, 9, .state = 29);
    EQUAL(REFUSED(g, 54, TOKEN).page, 0);
}

TEST(X23_token_tells_the_lowest_page, "53 and 54 carry the lowest page of their own kind.")
{
    guest *g = checked(4096);
    PAGE(g, 0, .state = 24);
    PAGE(g, 2, .state = 4);
    EQUAL(REFUSED(g, 54, TOKEN).page, 2);
    PAGE(g, 4095, .state = 30);
    EQUAL(REFUSED(g, 53, TOKEN).page, 4095);
    PAGE(g, 7, .state = 30);
    EQUAL(REFUSED(g, 53, TOKEN).page, 7);
    PAGE(g, 3, .state = 24, .dirty = 1);
    EQUAL(REFUSED(g, 53, TOKEN).page, 3);
    EACH(sent, 3, 7, 4095)
        PAGE(g, sent, .state = 29);
    PAGE(g, 1, .state = 5);
    EQUAL(REFUSED(g, 54, TOKEN).page, 1);
}

TEST(X24_a_grant_changes_the_phase_alone, "Grant: phase Done and nothing else changes; the token opens no epoch and never gives 55.")
{
    EACH(mig, 1, 65534, 65535)
        EACH(tlb, 1, 65535) {
            guest *g = checked(3);
            set(g, MIG, mig);
            set(g, TLB, tlb);
            set(g, N, 9);
            PAGE(g, 0, .state = 24, .cached = 1, .stamp = 1, .epoch = 1, .mark = 7);
            PAGE(g, 1, .state = 29, .stamp = 2, .epoch = 2);
            PAGE(g, 2, .state = 0, .dirty = 1, .epoch = 3, .mark = 9);
            granted(HERE, g);
        }
}

TEST(X25_only_state_0_is_free,
     "Free in the grant is state 0 alone, whatever its Dirty, Cached, stamp, epoch and mark: 27 is 53, and 5, 6, 28, 64 are strange, so 54.")
{
    EACH(bit, 0, 1)
        EACH(number, 0, 1, 65535) {
            granted(HERE, CHECKED(.state = 0, .dirty = bit, .cached = !bit, .stamp = number, .epoch = number, .mark = number));
            EQUAL(REFUSED(CHECKED(.state = 27, .dirty = bit, .epoch = number), 53, TOKEN).page, 0);
            EACH(state, 5, 6, 28, 64)
                EQUAL(REFUSED(CHECKED(.state = state, .dirty = bit, .epoch = number), 54, TOKEN).page, 0);
        }
}

TEST(X26_no_token_for_a_malformed_session, "The token is granted exactly when these hold, of calls that pass 40.")
{
    const struct { size_t field; uint64_t wrong; } rows[] = {{TLB, 0}, {MIG, 0}, {N, 10}, {PLACE, 3}, {FAILED, 1}, {STREAMS + 1, 1}};
    for (size_t i = 0; i < sizeof rows / sizeof *rows; i++) {
        guest *g = checked(4);
        set(g, rows[i].field, rows[i].wrong);
        REFUSED(g, 40, TOKEN);
    }
    granted(HERE, checked(4));
}

TEST(X27_nothing_comes_in_done_but_new, "In Done every call but New is 41, after 40.")
{
    guest *g = crowd_in(DONE);
    EACH(words, 0, 4, 513) {
        lists_of(g, words);
        for (call c = WRITE; c < CALLS; c++) {
            REFUSED(g, 41, c, ORDINARY);
            REFUSED(g, 41, c, .page = ALL, .first = ALL, .stream = ALL, .resume = 2);
        }
    }
    set(g, MIG, 0);
    MALFORMED(g);
    RUNS(g, 0, NEW, .streams = 2);
}
