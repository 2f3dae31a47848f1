/* The bench: bytes, as a C host lends them. */
#include "harness.h"

#include <string.h>

static void check_bytes(place at, const guest *g, part p, size_t offset, const uint8_t expected[8])
{
    for (size_t i = 0; i < 8; i++)
        check_equal(at, "byte", g->now[p].bytes[offset + i], expected[i]);
}
#define BYTES(g, p, offset, ...) check_bytes(HERE, (g), (p), (offset), (const uint8_t[8]){__VA_ARGS__})

TEST(B16_words_are_little_endian, "Session and words are little-endian, in the layout that include/chirpsteeple.h gives.")
{
    guest *g = guest_in(LIVE, 6);
    PAGE(g, 0, .state = 4);
    RUNS(g, 0, BLOCK, .page = 0);
    BYTES(g, TABLE, 0, 0x01, 0, 0x02);

    set(g, TLB, 0x0102);
    RUNS(g, 0, TRACK);
    BYTES(g, SESSION, 16, 0x03, 0x01);

    PAGE(g, 5, .state = 4, .mark = 0x1112131415161718);
    lists_of(g, 1);
    RUNS(g, 0, DSCAN, .count = 6, .budget = ALL);
    BYTES(g, LIST, 0, 0, 0x50, 0, 0, 0, 0, 0x10);
    RUNS(g, 0, TRACK);
    RUNS(g, 0, EXPORT, .budget = ALL);
    BYTES(g, BUFFER, 0, 0x18, 0x17, 0x16, 0x15, 0x14, 0x13, 0x12, 0x11);
    BYTES(g, TABLE, 80, 0x18, 0, 0x03, 0x01, 0x01);
    BYTES(g, TABLE, 88, 0x18, 0x17, 0x16, 0x15, 0x14, 0x13, 0x12, 0x11);
}

TEST(B16_each_session_word_has_its_place,
     "Words of the session: phase, page count, TLB epoch, migration epoch, N, check's place, complete, failed, and five for each of eight streams.")
{
    guest *g = guest_in(IDLE, 3);
    memset(g->now[SESSION].bytes, 0xff, 384);
    RUNS(g, 0, NEW, .streams = 7);
    PAGE(g, 1, .state = 4);
    RUNS(g, 0, TRACK);
    RUNS(g, 0, START);
    RUNS(g, 0, NEW_EPOCH);
    RUNS(g, 0, NEW_EPOCH);
    RUNS(g, 0, PAUSE);
    lists_of(g, 6);
    set_word(g, LIST, 2, entry(1));
    RUNS(g, 1, EXPORT, .stream = 5, .info = info(0, 5), .budget = 3);
    PAGE(g, 2, .state = 1);
    RUNS(g, 51, DCHECK, .budget = ALL);
    const uint64_t expected[] = {2, 3, 2, 3, 7, 2, 0, 1};
    for (size_t i = 0; i < 8; i++)
        EQUAL(word(g, SESSION, i), expected[i]);
    const uint64_t stream_5[] = {1, 3, 5, 2, 1};
    for (size_t i = 8; i < 48; i++)
        EQUAL(word(g, SESSION, i), i >= 33 && i < 38 ? stream_5[i - 33] : 0);
}

TEST(B17_a_table_has_16_bytes_for_each_page, "The table takes 1 to 4,096 pages of 16 bytes; any other number of bytes is 40.")
{
    EACH(pages, 1, 4096) {
        WELL_FORMED(guest_in(LIVE, pages));
        guest *g = guest_in(IDLE, pages);
        expect(g, TLB, 3);
        PASSES(g, TRACK);
        RUNS(g, 0, NEW, .streams = 2);
    }
    EACH(bytes, 0, 1, 8, 15, 17, 24, 65535, 65537, 65544, 65552, 131072)
        EACH(count, 0, 1, bytes / 16, 4096) {
            guest *g = guest_in(IDLE, 1);
            set(g, COUNT, count);
            resize(g, TABLE, bytes);
            MALFORMED(g);
            REFUSED(g, 40, NEW, .streams = 2);
        }
}

TEST(B18_a_session_of_another_length_is_malformed, "Session bytes that fit no layout are 40: a session is 384 bytes, no fewer and no more.")
{
    EACH(phase, IDLE, LIVE, BLACKOUT, DONE)
        EACH(bytes, 0, 1, 64, 376, 383, 385, 392, 768) {
            guest *g = guest_in(phase, 1);
            resize(g, SESSION, bytes);
            MALFORMED(g);
        }
}

TEST(B18_phase_and_flags_have_no_other_values, "Session bytes that fit no layout are 40: a phase above 3, a flag above 1.")
{
    EACH(wrong, 2, 255, 256, 1ULL << 63, UINT64_MAX)
        EACH(flag, COMPLETE, FAILED, STREAMS) {
            guest *g = guest_in(LIVE, 1);
            if (flag == COMPLETE)
                set(g, PLACE, 1);
            set(g, flag, 1);
            WELL_FORMED(g);
            set(g, flag, wrong);
            MALFORMED(g);
        }
    EACH(phase, 4, UINT64_MAX)
        MALFORMED(guest_in(phase, 1));
}

TEST(B18_a_stream_at_rest_has_no_numbers, "Session bytes that fit no layout are 40: a stream at rest, usable or not, with another word than 0.")
{
    EACH(phase, IDLE, LIVE, BLACKOUT, DONE)
        for (size_t i = STREAMS; i < SESSION_WORDS; i++) {
            guest *g = guest_in(phase, 1);
            if ((i - STREAMS) % STREAM_WORDS == 0)
                continue;
            set(g, i, 1);
            MALFORMED(g);
            set(g, i, 0);
            WELL_FORMED(g);
        }
}

TEST(B19_lists_in_whole_words, "List or buffer bytes not in whole words are 42, in 42's place: after 40 and 41, before 44 and 50.")
{
    EACH(bytes, 1, 7, 9, 12, 31, 4095) {
        EACH(phase, IDLE, LIVE, BLACKOUT, DONE)
            EACH(ragged, LIST, BUFFER) {
                guest *g = guest_in(phase, 1);
                resize(g, ragged, bytes);
                REFUSED(g, phase == LIVE || phase == BLACKOUT ? 42 : 41, EXPORT, .budget = ALL);
                if (phase == LIVE || phase == BLACKOUT)
                    INTERRUPT(g, 0, .last = 0);
                REFUSED(g, phase == LIVE || phase == BLACKOUT ? 42 : 41, EXPORT, .budget = ALL);
                set(g, TLB, 0);
                REFUSED(g, 40, EXPORT, .budget = ALL);
            }
        guest *idle = guest_in(IDLE, 1);
        resize(idle, LIST, bytes);
        REFUSED(idle, 42, RESTORE, .budget = ALL);
        guest *g = guest_in(LIVE, 1);
        resize(g, LIST, bytes);
        REFUSED(g, 41, RESTORE, .budget = ALL);
        REFUSED(g, 42, DSCAN, .count = 1, .budget = ALL);
        REFUSED(g, 41, DCHECK, .budget = ALL);
        set(g, PHASE, BLACKOUT);
        REFUSED(g, 41, DSCAN, .count = 1, .budget = ALL);
        REFUSED(g, 42, DCHECK, .budget = ALL);
        set(g, FAILED, 1);
        REFUSED(g, 42, DCHECK, .budget = ALL);
        resize(g, LIST, bytes - bytes % 8);
        REFUSED(g, 50, DCHECK, .budget = ALL);
    }
}

TEST(B19_two_ragged_slices_of_one_length, "List and buffer that are ragged alike are 42 too; in whole words they are taken.")
{
    guest *g = guest_in(LIVE, 1);
    lists_of(g, 2);
    EACH(p, LIST, BUFFER)
        resize(g, p, 12);
    REFUSED(g, 42, EXPORT, .budget = ALL);
    lists_of(g, 1);
    set_word(g, LIST, 0, 0);
    expect_word(g, LIST, 0, 0x0100000000000000);
    expect_word(g, BUFFER, 0, 0);
    EXPORTED(PASSES(g, EXPORT, .budget = ALL), info(1, 0), 0, 2);
}

TEST(B20_a_refusal_writes_no_byte, "A refusal writes no byte in any of the slices.")
{
    EACH(bytes, 0, 12, 40, 8 * 513) {
        guest *g = guest_in(LIVE, 3);
        for (size_t i = 0; i < 3; i++)
            PAGE(g, i, .state = 24, .dirty = 1, .cached = 1, .stamp = 1, .mark = 5);
        INTERRUPT(g, 1, .next = 1, .last = 2, .errors = 1);
        resize(g, LIST, bytes);
        REFUSED(g, 42, EXPORT, .budget = ALL);
        REFUSED(g, 42, EXPORT, .stream = 4, .budget = ALL);
        REFUSED(g, 42, DSCAN, .first = 1, .count = 3, .budget = ALL);
        REFUSED(g, 43, PAUSE);
        REFUSED(g, 43, NEW_EPOCH);
        set(g, PHASE, BLACKOUT);
        set(g, FAILED, 1);
        REFUSED(g, bytes == 0 || bytes == 40 ? 50 : 42, DCHECK, .budget = ALL);
        resize(g, SESSION, 383);
        MALFORMED(g);
        REFUSED(g, 40, NEW, .streams = 2);
    }
}

TEST(B21_new_looks_at_the_session_bytes_length_alone, "New looks at the length of the session's bytes (40), never at their contents.")
{
    EACH(byte, 0, 0x01, 0xa5, 0xff) {
        guest *g = guest_in(IDLE, 2);
        memset(g->now[SESSION].bytes, (int)byte, 384);
        for (size_t i = 0; i < SESSION_WORDS; i++)
            expect(g, i, 0);
        expect(g, COUNT, 2);
        expect(g, TLB, 1);
        expect(g, N, 3);
        PASSES(g, NEW, .streams = 3);
    }
    EACH(bytes, 0, 376, 383, 385, 392) {
        guest *g = guest_in(IDLE, 2);
        resize(g, SESSION, bytes);
        REFUSED(g, 40, NEW, .streams = 3);
        REFUSED(g, 40, NEW, .streams = 1);
    }
}

TEST(B22_resume_is_0_or_1, "resume is 0 or 1; above 1 is 42, in the first group of 42, so before 44.")
{
    guest *at_rest = guest_in(LIVE, 1), *interrupted = guest_in(LIVE, 1), *idle = guest_in(IDLE, 1);
    INTERRUPT(interrupted, 0, .next = 1, .last = 1);
    EACH(resume, 2, 3, 256, 1ULL << 32, (1ULL << 32) + 1, UINT64_MAX) {
        REFUSED(idle, 41, EXPORT, .resume = resume, .budget = ALL);
        REFUSED(at_rest, 42, EXPORT, .resume = resume, .budget = ALL);
        REFUSED(interrupted, 42, EXPORT, .resume = resume, .info = info(1, 1), .budget = ALL);
    }
    REFUSED(at_rest, 44, EXPORT, .resume = 1, .budget = ALL);
    REFUSED(interrupted, 44, EXPORT, .resume = 0, .info = info(1, 1), .budget = ALL);
    RUNS(at_rest, 0, EXPORT, .resume = 0, .budget = ALL);
    RUNS(interrupted, 0, EXPORT, .resume = 1, .info = info(1, 1), .budget = ALL);
}
