/* Export of a list: what comes back in the list, in the buffer, in the answer and in the session. */
#include "lists.h"

/* In Live: pages 0 to 2 in 4 with marks 10 to 12 and ready, pages 3 and 4 in 2 and 27, the rest free. The list asks for pages 0 to 7 in turn. */
static guest *eight_asked(void)
{
    guest *g = guest_in(LIVE, 8);
    lists_of(g, 8);
    for (size_t i = 0; i < 8; i++) {
        PAGE(g, i, .state = i < 3 ? 4 : i == 3 ? 2 : i == 4 ? 27 : 0, .stamp = 1, .mark = 10 + i);
        set_word(g, LIST, i, entry(i));
    }
    return g;
}

/* Expects that the entries from..to-1 of that list are taken. */
static void expect_eight(guest *g, size_t from, size_t to)
{
    const uint64_t operation[] = {MIGRATE, MIGRATE, MIGRATE, MIGRATE, CANCEL, 0, 0, 0};
    for (size_t i = from; i < to; i++) {
        expect_word(g, LIST, i, ENTRY(.page = i, .operation = operation[i], .pending = i == 3, .status = i < 5 ? 0 : 4));
        expect_word(g, BUFFER, i, i < 3 ? 10 + i : 0);
        if (i < 5)
            EXPECT_PAGE(g, i, .state = i < 3 ? 24 : i == 3 ? 29 : 0, .stamp = 1, .epoch = 1, .mark = 10 + i);
    }
}

/* A list in Blackout of as many entries as pages, each page in 4 with its number as mark, and each entry asking for its page. */
static guest *all_data(size_t pages)
{
    guest *g = guest_in(BLACKOUT, pages);
    lists_of(g, pages);
    for (size_t i = 0; i < pages; i++) {
        PAGE(g, i, .state = 4, .mark = i);
        set_word(g, LIST, i, entry(i));
    }
    return g;
}

/* One entry in Live for page 5 as given: what comes back of it in list and buffer. */
typedef struct { uint64_t entry, buffer; } returned;
#define RETURNED(asked, ...) returned_for((asked), (page){__VA_ARGS__})
static returned returned_for(uint64_t asked, page p)
{
    guest *g = asking(LIVE, p);
    set_word(g, LIST, 0, asked);
    RUNS(g, 0, EXPORT, .budget = ALL);
    return (returned){word(g, LIST, 0), word(g, BUFFER, 0)};
}

TEST(E37_the_operation_is_what_was_done, "OPERATION comes back as what was done, else 0.")
{
    EQUAL(RETURNED(entry(5), .state = 4, .stamp = 1).entry >> 52 & 3, MIGRATE);
    EQUAL(RETURNED(entry(5), .state = 2, .stamp = 1).entry >> 52 & 3, MIGRATE);
    EQUAL(RETURNED(entry(5), .state = 25, .stamp = 1).entry >> 52 & 3, REMIGRATE);
    EQUAL(RETURNED(entry(5), .state = 30, .stamp = 1).entry >> 52 & 3, REMIGRATE);
    EACH(cancelled, 26, 27, 31)
        EQUAL(RETURNED(entry(5), .state = cancelled).entry >> 52 & 3, CANCEL);
    EACH(asked, entry_op(5, 0), entry_op(5, 2), entry_op(5, 3), entry(5) | 1, entry(8))
        EQUAL(RETURNED(asked, .state = 4, .stamp = 1).entry >> 52 & 3, 0);
    EQUAL(RETURNED(entry(5), .state = 0).entry >> 52 & 3, 0);
    EQUAL(RETURNED(entry(5), .state = 4, .stamp = 1, .epoch = 1).entry >> 52 & 3, 0);
    EQUAL(RETURNED(entry(5), .state = 4, .stamp = 1, .dirty = 1).entry >> 52 & 3, 0);
    EQUAL(RETURNED(entry(5), .state = 4, .stamp = 2).entry >> 52 & 3, 0);
}

TEST(E38_pending_comes_back_for_pending_successes, "PENDING is 1 for successes from 2, 30, 31, and 0 in every other entry taken, however it came.")
{
    EACH(pending, 0, 1) {
        uint64_t came = pending << 2;
        EACH(state, 2, 30, 31)
            EQUAL(RETURNED(entry(5) | came, .state = state, .stamp = 1).entry >> 2 & 1, 1);
        EACH(state, 4, 25, 26, 27)
            EQUAL(RETURNED(entry(5) | came, .state = state, .stamp = 1).entry >> 2 & 1, 0);
        EACH(asked, entry_op(5, 0), entry_op(5, 2), entry(5) | 1, entry(8))
            EQUAL(RETURNED(asked | came, .state = 2, .stamp = 1).entry >> 2 & 1, 0);
        EACH(state, 0, 1, 3, 29, 8)
            EQUAL(RETURNED(entry(5) | came, .state = state).entry >> 2 & 1, 0);
        EQUAL(RETURNED(entry(5) | came, .state = 2, .stamp = 1, .epoch = 1).entry >> 2 & 1, 0);
        EQUAL(RETURNED(entry(5) | came, .state = 30, .stamp = 1, .dirty = 1).entry >> 2 & 1, 0);
        EQUAL(RETURNED(entry(5) | came, .state = 2, .stamp = 2).entry >> 2 & 1, 0);
    }
}

TEST(E39_state_and_map_are_0_and_status_is_new, "STATE and L2_MAP are 0 in every entry taken, and STATUS replaces what stood there.")
{
    const uint64_t full = ENTRY(.state = 3, .l2_map = 7, .status = 31);
    EQUAL(RETURNED(entry(5) | full, .state = 4, .stamp = 1).entry, ENTRY(.page = 5, .operation = MIGRATE));
    EQUAL(RETURNED(entry(5) | full, .state = 27).entry, ENTRY(.page = 5, .operation = CANCEL));
    EQUAL(RETURNED(entry_op(5, 0) | full, .state = 4).entry, ENTRY(.page = 5, .status = 1));
    EQUAL(RETURNED(entry(8) | full, .state = 4).entry, ENTRY(.page = 8, .status = 2));
    EQUAL(RETURNED(entry(5) | full, .state = 0).entry, ENTRY(.page = 5, .status = 4));
    EQUAL(RETURNED(entry(5) | full, .state = 4).entry, ENTRY(.page = 5, .status = 5));
    EQUAL(RETURNED(entry(5) | full, .state = 4, .epoch = 1).entry, ENTRY(.page = 5, .status = 7));
    EQUAL(RETURNED(entry_op(5, 2) | full, .state = 4).entry, ENTRY(.page = 5, .status = 15));
    EQUAL(RETURNED(entry(5) | full, .state = 4, .dirty = 1).entry, ENTRY(.page = 5, .status = 17));
}

TEST(E40_the_rest_of_an_entry_is_kept, "LEVEL, MIG_TYPE, the reserved bits and GPA are kept, faulty ones too.")
{
    const uint64_t kept[] = {
        ENTRY(.level = 3), ENTRY(.mig_type = 3), ENTRY(.reserved5 = 3), ENTRY(.reserved54 = 3), ENTRY(.reserved61 = 7), ENTRY(.page = (1ull << 40) - 1),
        ENTRY(.level = 2, .mig_type = 1, .reserved5 = 1, .reserved54 = 2, .reserved61 = 5, .page = 0x123456789a),
    };
    for (size_t i = 0; i < sizeof kept / sizeof *kept; i++) {
        uint64_t status = kept[i] == ENTRY(.page = (1ull << 40) - 1) ? 2 : 15;
        EQUAL(RETURNED(kept[i] | ENTRY(.operation = 1), .state = 4, .stamp = 1).entry, kept[i] | ENTRY(.status = status));
    }
}

TEST(E41_the_buffer_word, "Buffer word: the mark for a success from 4 or 25, 0 for every other entry taken: pending, CANCEL, errors, skipped.")
{
    EACH(mark, 0, 1, 0x0123456789abcdef, ALL) {
        EACH(state, 4, 25)
            EQUAL(RETURNED(entry(5), .state = state, .stamp = 1, .mark = mark).buffer, mark);
        EACH(state, 2, 30, 26, 27, 31, 0, 1, 3, 24, 29, 8)
            EQUAL(RETURNED(entry(5), .state = state, .stamp = 1, .mark = mark).buffer, 0);
        EACH(asked, entry_op(5, 0), entry_op(5, 2), entry_op(5, 3), entry(5) | 1, entry(8))
            EQUAL(RETURNED(asked, .state = 4, .stamp = 1, .mark = mark).buffer, 0);
        EQUAL(RETURNED(entry(5), .state = 4, .stamp = 1, .epoch = 1, .mark = mark).buffer, 0);
        EQUAL(RETURNED(entry(5), .state = 4, .stamp = 1, .dirty = 1, .mark = mark).buffer, 0);
        EQUAL(RETURNED(entry(5), .state = 25, .stamp = 2, .mark = mark).buffer, 0);
    }
}

TEST(E42_words_not_reached_stay, "Words and buffer words not reached stay, and so do their pages: past the budget, past LAST, before FIRST of a resumed call.")
{
    guest *g = eight_asked();
    expect_eight(g, 0, 1);
    EXPECT_INTERRUPTED(g, 0, .next = 1, .last = 5, .data = 1);
    ANSWERS(g, 1, EXPORT, .info = info(0, 5), .budget = 1);
    set_word(g, LIST, 0, entry(1));
    set_word(g, BUFFER, 0, 77);
    expect_eight(g, 1, 6);
    expect_at_rest(g, 0);
    PASSES(g, EXPORT, .resume = 1, .info = info(1, 5), .budget = ALL);
}

TEST(E43_the_info_word_comes_back, "Info out: FIRST is the next index, at the end (LAST+1) mod 512; HPA and LAST stay.")
{
    EACH(last, 0, 1, 254, 255, 256, 510, 511)
        EACH(hpa, 0, 0xffffffffff000)
            EACH(taken, 0, last / 2, last) {
                guest *g = guest_in(LIVE, 8);
                list_of_skips(g, 512);
                EXPORTED(RUNS(g, 1, EXPORT, .info = info(0, last) | hpa, .budget = taken), info(taken, last) | hpa, 0, 0);
                answer a = RUNS(g, 0, EXPORT, .resume = 1, .info = info(taken, last) | hpa, .budget = ALL);
                EQUAL(a.info, info((last + 1) % 512, last) | hpa);
            }
}

TEST(E44_errors_are_statuses_other_than_0_and_1, "Errors count the entries with a status other than 0 and 1.")
{
    guest *g = eight_asked();
    set_word(g, LIST, 0, entry_op(0, 0));
    EXPORTED(RUNS(g, 0, EXPORT, .info = info(0, 7), .budget = ALL), info(8, 7), 3, 4);
    guest *each = guest_in(LIVE, 8);
    PAGE(each, 2, .state = 4, .stamp = 1, .epoch = 1);
    PAGE(each, 3, .state = 4, .stamp = 1, .dirty = 1);
    PAGE(each, 4, .state = 4, .stamp = 2);
    const uint64_t asked[] = {entry_op(5, 0), entry_op(5, 3), entry(8), entry(0), entry(2), entry(3), entry(4), entry_op(8, 0)};
    lists_of(each, 8);
    for (size_t i = 0; i < 8; i++)
        set_word(each, LIST, i, asked[i]);
    EXPORTED(RUNS(each, 0, EXPORT, .info = info(0, 7), .budget = ALL), info(8, 7), 6, 2);
}

TEST(E45_buffers_are_list_macs_and_data,
     "Buffers: 1 for the list, 1 for MACs (2 if LAST is 256 or more), and the data pages of the whole operation, wherever it was resumed.")
{
    EACH(pages, 1, 2, 255, 256, 257, 512) {
        uint64_t last = pages - 1, expected = 1 + (last < 256 ? 1 : 2) + pages;
        EXPORTED(RUNS(all_data(pages), 0, EXPORT, .info = info(0, last), .budget = ALL), info(pages % 512, last), 0, expected);
        guest *g = all_data(pages);
        RUNS(g, 1, EXPORT, .info = info(0, last), .budget = last);
        EXPORTED(RUNS(g, 0, EXPORT, .resume = 1, .info = info(last, last), .budget = 1), info(pages % 512, last), 0, expected);
    }
}

TEST(E46_data_pages, "Data pages are successes from 4 or 25, with mark 0 too; pending pages and CANCEL do not count.")
{
    EACH(mark, 0, 9)
        EACH(state, 4, 25, 2, 30, 26, 27, 31, 24) {
            guest *g = ASKING(BLACKOUT, .state = state, .mark = mark);
            EXPORTED(RUNS(g, 0, EXPORT, .budget = ALL), info(1, 0), state == 24, 2 + (state == 4 || state == 25));
        }
}

TEST(E47_an_interrupted_export_keeps_its_counts,
     "With code 1 errors and buffers are 0, and the stream holds next, LAST, errors and data pages so far; with code 0 it is at rest.")
{
    for (uint64_t taken = 0; taken < 8; taken++) {
        guest *g = eight_asked();
        uint64_t errors = taken > 5 ? taken - 5 : 0, data = taken < 3 ? taken : 3;
        expect_eight(g, 0, taken);
        EXPECT_INTERRUPTED(g, 3, .next = taken, .last = 7, .errors = errors, .data = data);
        EXPORTED(ANSWERS(g, 1, EXPORT, .stream = 3, .info = info(0, 7), .budget = taken), info(taken, 7), 0, 0);
        expect_eight(g, taken, 8);
        expect_at_rest(g, 3);
        EXPORTED(PASSES(g, EXPORT, .stream = 3, .resume = 1, .info = info(taken, 7), .budget = ALL), info(8, 7), 3, 5);
    }
}

TEST(E48_a_resume_counts_on, "A resume counts on from the session's numbers, handed ones too.")
{
    guest *g = eight_asked();
    set_word(g, LIST, 3, entry(0));
    INTERRUPT(g, 0, .next = 3, .last = 5, .errors = 2, .data = 1);
    RUNS(g, 1, EXPORT, .resume = 1, .info = info(3, 5), .budget = 1);
    EXPORTED(RUNS(g, 0, EXPORT, .resume = 1, .info = info(4, 5), .budget = ALL), info(6, 5), 3, 4);
    guest *most = all_data(512);
    INTERRUPT(most, 0, .next = 511, .last = 511, .errors = 511, .data = 511);
    EXPORTED(RUNS(most, 0, EXPORT, .resume = 1, .info = info(511, 511), .budget = 1), info(0, 511), 511, 515);
}

TEST(E49_export_changes_its_stream_alone, "Phase, epochs, check and N stay, and so do the other streams.")
{
    EACH(phase, LIVE, BLACKOUT)
        EACH(failed, 0, 1) {
            guest *g = ASKING(phase, .state = 4, .stamp = 1, .mark = 9);
            set(g, TLB, 7);
            set(g, MIG, 9);
            set(g, N, 9);
            set(g, PLACE, 8);
            set(g, failed ? FAILED : COMPLETE, 1);
            INTERRUPT(g, 7, .next = 2, .last = 5, .errors = 1, .data = 1);
            MOVES(g, 24, .operation = MIGRATE);
        }
}
