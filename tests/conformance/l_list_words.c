/* List words: an entry's fields and an info word's fields, each seen by what it does. */
#include "lists.h"

TEST(L1_the_fields_of_an_entry,
     "Entry: LEVEL 1:0, PENDING 2, STATE 4:3, reserved 6:5, L2_MAP 9:7, MIG_TYPE 11:10, GPA 51:12, OPERATION 53:52, reserved 55:54, STATUS 60:56, "
     "reserved 63:61.")
{
    EACH(faulty, 0, 1, 5, 6, 10, 11, 54, 55, 61, 62, 63)
        TAKES(asked_by(LIVE, entry(5) | 1ull << faulty), ENTRY(.page = 5, .status = 15) | 1ull << faulty, 0);
    EACH(ignored, 2, 3, 4, 7, 8, 9, 56, 57, 58, 59, 60)
        MOVES(asked_by(LIVE, entry(5) | 1ull << ignored), 24, .operation = MIGRATE);
    for (uint64_t bit = 15; bit <= 51; bit++)
        TAKES(asked_by(LIVE, entry(5) | 1ull << bit), ENTRY(.page = 5, .status = 2) | 1ull << bit, 0);
    TAKES(asked_by(LIVE, entry(5) ^ 1ull << 12), ENTRY(.page = 4, .status = 4), 0);
    TAKES(asked_by(LIVE, entry(5) ^ 1ull << 13), ENTRY(.page = 7, .status = 4), 0);
    TAKES(asked_by(LIVE, entry(5) ^ 1ull << 14), ENTRY(.page = 1, .status = 4), 0);
    TAKES(asked_by(LIVE, entry(5) ^ 1ull << 52), ENTRY(.page = 5, .status = 1), 0);
    TAKES(asked_by(LIVE, entry(5) ^ 1ull << 53), ENTRY(.page = 5, .status = 15), 0);
}

TEST(L2_the_gpa_has_40_bits, "GPA is read with all its 40 bits.")
{
    for (uint64_t bit = 0; bit < 40; bit++) {
        guest *g = guest_in(BLACKOUT, 4096);
        uint64_t asked = 1ull << bit;
        int within = asked < 4096;
        PAGE(g, 0, .state = 4, .mark = 8);
        set_word(g, LIST, 0, entry(asked));
        if (within) {
            PAGE(g, asked, .state = 4, .mark = bit);
            EXPECT_PAGE(g, asked, .state = 24, .epoch = 1, .mark = bit);
        }
        TAKES(g, ENTRY(.page = asked, .operation = within, .status = within ? 0 : 2), within ? bit : 0);
    }
    guest *g = guest_in(BLACKOUT, 4096);
    PAGE(g, 4095, .state = 4);
    set_word(g, LIST, 0, entry((1ull << 40) - 1));
    TAKES(g, ENTRY(.page = (1ull << 40) - 1, .status = 2), 0);
}

TEST(L3_the_fields_of_an_info_word, "Info: FORMAT 2:0, FIRST 11:3, HPA 51:12, zero 54:52, LAST 63:55.")
{
    guest *g = guest_in(LIVE, 8);
    list_of_skips(g, 512);
    EACH(refused_bit, 0, 1, 2, 52, 53, 54)
        REFUSED(g, 42, EXPORT, .info = info(0, 511) | 1ull << refused_bit, .budget = ALL);
    EACH(first, 1, 2, 4, 8, 16, 32, 64, 128, 256, 511) {
        INTERRUPT(g, 0, .next = first, .last = 511);
        REFUSED(g, 44, EXPORT, .resume = 1, .info = info(first - 1, 511), .budget = 0);
        EXPORTED(ANSWERS(g, 1, EXPORT, .resume = 1, .info = first << 3 | 0x1ffull << 55, .budget = 0), info(first, 511), 0, 0);
    }
    EACH(last, 1, 2, 4, 8, 16, 32, 64, 128, 256, 511) {
        guest *taken = guest_in(LIVE, 8);
        list_of_skips(taken, 512);
        expect_skipped(taken, 0, last + 1);
        uint64_t first_after = (last + 1) % 512;
        EXPORTED(PASSES(taken, EXPORT, .info = last << 55, .budget = ALL), first_after << 3 | last << 55, 0, last < 256 ? 2 : 3);
    }
}

TEST(L4_the_hpa_is_ignored, "HPA is ignored on the way in, and comes back.")
{
    EACH(hpa, 1ull << 12, 1ull << 51, 0xffffffffff000) {
        guest *g = ready_in(LIVE, 4);
        EXPECT_PAGE(g, 5, .state = 24, .stamp = 1, .epoch = 1, .mark = 9);
        expect_word(g, LIST, 0, ENTRY(.page = 5, .operation = MIGRATE));
        expect_word(g, BUFFER, 0, 9);
        EXPORTED(PASSES(g, EXPORT, .info = hpa, .budget = ALL), info(1, 0) | hpa, 0, 3);
    }
}

TEST(L5_a_field_is_set_alone, "Setting one field changes that field alone: of an entry taken PENDING, STATE, L2_MAP, OPERATION, STATUS; of an info word FIRST.")
{
    const uint64_t set_by_export = ENTRY(.pending = 1, .state = 3, .l2_map = 7, .operation = 3, .status = 31);
    uint64_t w = ALL;
    for (int i = 0; i < 200; i++) {
        TAKES(asked_by(LIVE, w | 1), ((w | 1) & ~set_by_export) | 15ull << 56, 0);
        w = w * 6364136223846793005 + 1442695040888963407;
    }
    guest *g = guest_in(LIVE, 8);
    list_of_skips(g, 512);
    set_word(g, LIST, 511, ALL);
    expect_skipped(g, 0, 511);
    expect_word(g, LIST, 511, (ALL & ~set_by_export) | 15ull << 56);
    expect_word(g, BUFFER, 511, 0);
    uint64_t all_but_first = 0xff8ffffffffff000;
    EXPORTED(PASSES(g, EXPORT, .info = all_but_first, .budget = ALL), all_but_first, 1, 3);
}
