/* Slices of the wrong length, of none, and lists at both sides of their bounds. */
#include "tests.h"

#include <stdlib.h>
#include <string.h>

/* More pages than a list holds, so that every list is filled. */
enum { PAGES = 600 };

/* A call that is refused: its code, all other numbers 0, and every byte as it was. */
static void expect_refusal(enum call call, const struct bench *bench, uint64_t code)
{
    const struct slice slices[] = {bench->session, bench->table, bench->list, bench->buffer};
    uint8_t *before[4];
    for (unsigned i = 0; i < 4; i++) {
        before[i] = malloc(slices[i].length + 1);
        if (slices[i].length > 0)
            memcpy(before[i], slices[i].bytes, slices[i].length);
    }
    expect_answer(call, bench, (struct answer){code, {0}});
    for (unsigned i = 0; i < 4; i++) {
        CHECK(slices[i].length == 0 || memcmp(before[i], slices[i].bytes, slices[i].length) == 0);
        free(before[i]);
    }
}

static struct bench idle_bench(void)
{
    struct bench bench = heap_bench(PAGES, 0, 0);
    fill(&bench);
    bench.page = 0;
    return bench;
}

static struct bench live_bench(void)
{
    struct bench bench = idle_bench();
    expect_code(START, &bench, CHIRP_DONE);
    return bench;
}

static struct bench blackout_bench(void)
{
    struct bench bench = live_bench();
    expect_code(PAUSE, &bench, CHIRP_DONE);
    return bench;
}

static void expect_malformed(enum call first, const struct bench *bench)
{
    for (enum call call = first; call < CALLS; call++)
        expect_refusal(call, bench, CHIRP_MALFORMED);
}

void null_pointers_with_length_0(void)
{
    struct bench empty = {.streams = 2, .count = 1};
    expect_malformed(NEW, &empty);
    struct bench bench = live_bench();
    struct bench no_table = {.session = bench.session, .streams = 2, .count = 1};
    expect_malformed(NEW, &no_table);
    expect_answer(DSCAN, &bench, (struct answer){CHIRP_LIST_FULL, {0, 511, 0}});
    expect_refusal(EXPORT, &bench, CHIRP_OPERAND_INVALID);
    expect_code(PAUSE, &bench, CHIRP_DONE);
    expect_answer(DCHECK, &bench, (struct answer){CHIRP_LIST_FULL, {0, 511, 0}});
    expect_code(ABORT, &bench, CHIRP_DONE);
    expect_refusal(RESTORE, &bench, CHIRP_OPERAND_INVALID);
    free_bench(&bench);
}

/* The same bytes in an allocation of another length: cut off, or with zeros behind them. */
static struct slice of_length(struct slice slice, size_t length)
{
    struct slice other = heap_slice(length, 0);
    if (length > 0)
        memcpy(other.bytes, slice.bytes, length < slice.length ? length : slice.length);
    return other;
}

static void expect_malformed_table(enum call first, struct bench bench, size_t length)
{
    bench.table = of_length(bench.table, length);
    expect_malformed(first, &bench);
    free_slice(&bench.table);
}

void lengths_of_sessions_and_tables(void)
{
    static const size_t sessions[] = {0, 1, 8, 376, 383, 385, 392}, no_tables[] = {0, 8, 15, 17, 65535, 65537, 65552};
    static const size_t other_tables[] = {16, (PAGES - 1) * CHIRP_PAGE_BYTES, (PAGES + 1) * CHIRP_PAGE_BYTES, 65536};
    struct bench bench = live_bench();
    for (unsigned i = 0; i < sizeof sessions / sizeof *sessions; i++) {
        struct bench other = bench;
        other.session = of_length(bench.session, sessions[i]);
        expect_malformed(NEW, &other);
        free_slice(&other.session);
    }
    for (unsigned i = 0; i < sizeof no_tables / sizeof *no_tables; i++)
        expect_malformed_table(NEW, bench, no_tables[i]);
    for (unsigned i = 0; i < sizeof other_tables / sizeof *other_tables; i++)
        expect_malformed_table(WRITE, bench, other_tables[i]);
    free_bench(&bench);
}

/* Where lists and buffers lie: on the heap with an offset, or in mapped memory. */
struct memory {
    bool mapped;
    struct place place;
};

static struct memory on_the_heap(size_t offset) { return (struct memory){.place = {.distance = offset}}; }

static struct slice slice_in(struct memory memory, size_t length)
{
    return memory.mapped ? mapped_slice(length, memory.place) : heap_slice(length, memory.place.distance);
}

/* Gives the bench a list and a buffer of these lengths, with no byte to spare, filled with 1 bits. */
static void lend(struct bench *bench, size_t list, size_t buffer, struct memory memory)
{
    free_slice(&bench->list);
    free_slice(&bench->buffer);
    bench->list = slice_in(memory, list);
    bench->buffer = slice_in(memory, buffer);
    if (list > 0)
        memset(bench->list.bytes, 0xff, list);
    if (buffer > 0)
        memset(bench->buffer.bytes, 0xff, buffer);
}

/* A scan over a list of so many words fills it. */
static void expect_filled(enum call call, struct bench *bench, uint64_t words, uint64_t from)
{
    struct answer wanted = {CHIRP_LIST_FULL, {from + words, words == 0 ? 511 : 0, words == 0 ? 0 : words - 1}};
    expect_answer(call, bench, wanted);
    for (uint64_t i = 0; i < words; i++)
        EQUAL(word_at(bench->list.bytes, i), entry_for(from + i));
}

/* An export of pages that were never scanned: all are Dirty, and the entries say so. */
static void expect_dirty(struct bench *bench, uint64_t words)
{
    for (uint64_t i = 0; i < words; i++)
        put_word(bench->list.bytes, i, entry_for(i));
    bench->info = info_for(0, words - 1);
    expect_answer(EXPORT, bench, (struct answer){CHIRP_DONE, {info_for(words % 512, words - 1), words, words > 256 ? 3 : 2}});
    for (uint64_t i = 0; i < words; i++) {
        EQUAL(entry_status(word_at(bench->list.bytes, i)), CHIRP_STATUS_PAGE_DIRTY);
        EQUAL(word_at(bench->buffer.bytes, i), 0);
    }
}

/* A restore of pages that are exported, all but the last: that one has nothing to restore. */
static void expect_restored(struct bench *bench, uint64_t words)
{
    for (uint64_t i = 0; i < words; i++) {
        put_word(bench->list.bytes, i, entry_for(i));
        set_record(bench, i, i + 1 < words ? CHIRP_STATE_EXPORTED : CHIRP_STATE_MAPPED);
    }
    bench->info = info_for(0, words - 1);
    expect_answer(RESTORE, bench, (struct answer){CHIRP_DONE, {info_for(words % 512, words - 1), 0, 0}});
    for (uint64_t i = 0; i < words; i++) {
        uint64_t status = i + 1 < words ? CHIRP_STATUS_SUCCESS : CHIRP_STATUS_SEPT_ENTRY_STATE_INCORRECT;
        EQUAL(entry_status(word_at(bench->list.bytes, i)), status);
        EQUAL(record_at(bench->table.bytes, i), CHIRP_STATE_MAPPED);
    }
}

static const uint64_t list_words[] = {0, 1, 255, 256, 257, 511, 512};
enum { LISTS = sizeof list_words / sizeof *list_words };

static void expect_unwritten_around(const struct bench *bench)
{
    CHECK(unwritten_around(&bench->list));
    CHECK(unwritten_around(&bench->buffer));
}

/* Exports, checks, restores and scans with lists and buffers of all these lengths. */
static void lists_in(struct memory memory)
{
    struct bench idle = idle_bench(), live = live_bench(), paused = blackout_bench();
    for (unsigned i = 0; i < LISTS; i++) {
        uint64_t words = list_words[i], bytes = words * CHIRP_WORD_BYTES;
        lend(&live, bytes, bytes, memory);
        if (words > 0)
            expect_dirty(&live, words);
        expect_unwritten_around(&live);
        lend(&paused, bytes, 0, memory);
        expect_code(RESET, &paused, CHIRP_DONE);
        expect_filled(DCHECK, &paused, words, 0);
        expect_unwritten_around(&paused);
        lend(&idle, bytes, 0, memory);
        if (words > 0)
            expect_restored(&idle, words);
        else
            expect_refusal(RESTORE, &idle, CHIRP_OPERAND_INVALID);
        expect_unwritten_around(&idle);
    }
    for (unsigned i = 0; i < LISTS; i++) {
        lend(&live, list_words[i] * CHIRP_WORD_BYTES, 0, memory);
        live.first = PAGES - CHIRP_MAX_ENTRIES - 1;
        live.count = CHIRP_MAX_ENTRIES + 1;
        expect_filled(DSCAN, &live, list_words[i], live.first);
        expect_unwritten_around(&live);
    }
    free_bench(&idle);
    free_bench(&live);
    free_bench(&paused);
}

void lists_of_every_length(void)
{
    for (size_t offset = 0; offset < 2; offset++)
        lists_in(on_the_heap(offset));
}

void lists_beside_a_guard_page(void)
{
    for (size_t distance = 0; distance < CHIRP_WORD_BYTES; distance++)
        for (unsigned from_start = 0; from_start < 2; from_start++)
            lists_in((struct memory){true, {distance, from_start}});
}

/* A bench in each phase in which some call takes a list. */
struct phases {
    struct bench idle, live, paused;
};

static void lend_bytes(struct bench *bench, size_t bytes, size_t offset)
{
    lend(bench, bytes, bytes, on_the_heap(offset));
    bench->info = info_for(0, 0);
}

/* All four calls that take a list refuse one of this many bytes. */
static void expect_refused_list(struct phases *in, size_t bytes, size_t offset)
{
    lend_bytes(&in->idle, bytes, offset);
    lend_bytes(&in->live, bytes, offset);
    lend_bytes(&in->paused, bytes, offset);
    expect_refusal(RESTORE, &in->idle, CHIRP_OPERAND_INVALID);
    expect_refusal(DSCAN, &in->live, CHIRP_OPERAND_INVALID);
    expect_refusal(EXPORT, &in->live, CHIRP_OPERAND_INVALID);
    expect_refusal(DCHECK, &in->paused, CHIRP_OPERAND_INVALID);
    expect_refusal(EXPORT, &in->paused, CHIRP_OPERAND_INVALID);
}

void ragged_lists(void)
{
    static const size_t whole[] = {0, 8, 4088, 4096};
    struct phases in = {idle_bench(), live_bench(), blackout_bench()};
    for (unsigned i = 0; i < sizeof whole / sizeof *whole; i++)
        for (size_t more = 1; more < CHIRP_WORD_BYTES; more++)
            expect_refused_list(&in, whole[i] + more, more % 2);
    expect_refused_list(&in, (CHIRP_MAX_ENTRIES + 1) * CHIRP_WORD_BYTES, 0);
    free_bench(&in.idle);
    free_bench(&in.live);
    free_bench(&in.paused);
}

void buffers_of_another_length(void)
{
    static const size_t buffers[] = {0, 1, 4087, 4088, 4095, 4097, 4104};
    struct bench live = live_bench();
    for (unsigned i = 0; i < sizeof buffers / sizeof *buffers; i++) {
        lend(&live, CHIRP_MAX_ENTRIES * CHIRP_WORD_BYTES, buffers[i], on_the_heap(0));
        live.info = info_for(0, 0);
        expect_refusal(EXPORT, &live, CHIRP_OPERAND_INVALID);
    }
    free_bench(&live);
}
