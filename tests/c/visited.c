/*
 * Scans touch the pages that they visit, exports and restores those that their entries name; a page that is not listed, not exported or not restored
 * is only read.
 */
#define _GNU_SOURCE
#include "tests.h"

#include <string.h>
#include <sys/mman.h>

/* What a call may touch of the operating system's pages that the table lies in: it may write some from the first on, and read some behind those. */
struct reach {
    size_t first, written, read;
};

static uint64_t first_page(size_t os_page) { return os_page * PAGES_IN_OS_PAGE; }

/* A table of 4,096 pages, all with one record but those that may only be read; TLB epoch 3, migration epoch 2, or 0 in Idle. */
static struct bench bench_in(uint64_t phase, uint64_t room, uint64_t record, struct reach reach, uint64_t record_read)
{
    struct bench bench = mapped_bench(CHIRP_MAX_PAGES, room, (struct place){0});
    uint64_t from = first_page(reach.first + reach.written), to = from + first_page(reach.read);
    expect_code(NEW, &bench, CHIRP_DONE);
    set_session(&bench, CHIRP_SESSION_PHASE, phase);
    set_session(&bench, CHIRP_SESSION_TLB_EPOCH, 3);
    set_session(&bench, CHIRP_SESSION_MIGRATION_EPOCH, phase == CHIRP_PHASE_IDLE ? 0 : 2);
    for (uint64_t page = 0; page < CHIRP_MAX_PAGES; page++) {
        set_record(&bench, page, page >= from && page < to ? record_read : record);
        put_word(bench.table.bytes, 2 * page + 1, 1000 + page);
    }
    return bench;
}

static struct slice copy_of(struct slice slice)
{
    struct slice copy = mapped_slice(slice.length, (struct place){0});
    memcpy(copy.bytes, slice.bytes, slice.length);
    return copy;
}

static void expect_same(struct slice slice, struct slice other)
{
    CHECK(memcmp(slice.bytes, other.bytes, slice.length) == 0);
}

/* The call answers and leaves the same whether all of the table can be written or only this. Frees the bench. */
static void expect_within(struct reach reach, enum call call, struct bench bench, struct answer wanted)
{
    struct bench other = bench;
    other.session = copy_of(bench.session);
    other.table = copy_of(bench.table);
    other.list = copy_of(bench.list);
    other.buffer = copy_of(bench.buffer);
    expect_answer(call, &other, wanted);
    protect(&bench.table, PROT_NONE);
    protect_pages(&bench.table, reach.first, reach.written, PROT_READ | PROT_WRITE);
    protect_pages(&bench.table, reach.first + reach.written, reach.read, PROT_READ);
    if (call == DSCAN || call == RESTORE)
        protect(&bench.session, PROT_READ);
    expect_answer(call, &bench, wanted);
    protect(&bench.table, PROT_READ);
    expect_same(bench.session, other.session);
    expect_same(bench.table, other.table);
    expect_same(bench.list, other.list);
    expect_same(bench.buffer, other.buffer);
    free_bench(&bench);
    free_bench(&other);
}

/* ---- Scans ---- */

struct scan {
    enum call call;
    uint64_t first, count, room, budget;
    uint64_t record_read; /* all other pages are to be listed */
    struct reach reach;
    struct answer wanted;
};

enum { MAPPED = 1 << 16 | CHIRP_STATE_MAPPED, CLEAN = 1 << 16 | CHIRP_STATE_EXPORTED, BLOCKED = 1 << 16 | CHIRP_STATE_BLOCKED };
enum { PART = 5 * PAGES_IN_OS_PAGE, BEHIND = PART + PAGES_IN_OS_PAGE, LATE = 14 * PAGES_IN_OS_PAGE, LAST = LATE + PAGES_IN_OS_PAGE };
enum { ALL = CHIRP_MAX_PAGES, ROOM = CHIRP_MAX_ENTRIES };

/* Pages 1,280 to 1,535 lie in the operating system's page 5. A DCHECK has no count: it goes to the table's end. */
static const struct scan scans[] = {
    /* a part that is the whole of it, its first page, its last */
    {DSCAN, PART, 256, ROOM, ALL, 0, {5, 1, 0}, {CHIRP_DONE, {BEHIND, 0, 255}}},
    {DSCAN, PART, 1, ROOM, ALL, 0, {5, 1, 0}, {CHIRP_DONE, {PART + 1, 0, 0}}},
    {DSCAN, BEHIND - 1, 1, ROOM, ALL, 0, {5, 1, 0}, {CHIRP_DONE, {BEHIND, 0, 0}}},
    /* the budget ends before the next one */
    {DSCAN, PART + 100, 2000, ROOM, 156, 0, {5, 1, 0}, {CHIRP_INTERRUPTED, {BEHIND, 0, 155}}},
    {DCHECK, PART + 100, 0, ROOM, 156, 0, {5, 1, 0}, {CHIRP_INTERRUPTED, {BEHIND, 0, 155}}},
    /* the list is full before, and at a page that is looked at and not touched */
    {DSCAN, PART, 2000, 10, ALL, 0, {5, 1, 0}, {CHIRP_LIST_FULL, {PART + 10, 0, 9}}},
    {DCHECK, PART, 0, 10, ALL, 0, {5, 1, 0}, {CHIRP_LIST_FULL, {PART + 10, 0, 9}}},
    {DSCAN, PART, 2000, 256, ALL, MAPPED, {5, 1, 1}, {CHIRP_LIST_FULL, {BEHIND, 0, 255}}},
    {DCHECK, PART, 0, 256, ALL, MAPPED, {5, 1, 1}, {CHIRP_LIST_FULL, {BEHIND, 0, 255}}},
    {DSCAN, BEHIND, 256, 0, ALL, MAPPED, {6, 0, 1}, {CHIRP_LIST_FULL, {BEHIND, 511, 0}}},
    {DCHECK, BEHIND, 0, 0, ALL, MAPPED, {6, 0, 1}, {CHIRP_LIST_FULL, {BEHIND, 511, 0}}},
    /* pages that are not listed */
    {DSCAN, PART + 200, 312, ROOM, ALL, CLEAN, {5, 1, 1}, {CHIRP_DONE, {BEHIND + 256, 0, 55}}},
    {DSCAN, BEHIND, 256, ROOM, ALL, CLEAN, {6, 0, 1}, {CHIRP_DONE, {BEHIND + 256, 511, 0}}},
    {DCHECK, LATE + 200, 0, ROOM, ALL, CLEAN, {14, 1, 1}, {CHIRP_CHECK_COMPLETE, {ALL, 0, 55}}},
    {DCHECK, LAST, 0, ROOM, ALL, CLEAN, {15, 0, 1}, {CHIRP_CHECK_COMPLETE, {ALL, 511, 0}}},
    {DCHECK, LAST, 0, ROOM, ALL, 0, {15, 1, 0}, {CHIRP_CHECK_COMPLETE, {ALL, 0, 255}}},
    /* a page at which the check fails */
    {DCHECK, PART + 200, 0, ROOM, ALL, BLOCKED, {5, 1, 1}, {CHIRP_MEM_SCAN_FAILED_BLOCKED_RANGE, {BEHIND, 0, 55}}},
};

void scans_touch_the_pages_that_they_visit(void)
{
    for (unsigned i = 0; i < sizeof scans / sizeof *scans; i++) {
        const struct scan *scan = &scans[i];
        uint64_t phase = scan->call == DSCAN ? CHIRP_PHASE_LIVE : CHIRP_PHASE_BLACKOUT;
        struct bench bench = bench_in(phase, scan->room, MAPPED, scan->reach, scan->record_read);
        set_session(&bench, CHIRP_SESSION_CHECK_NEXT, scan->call == DCHECK ? scan->first : 0);
        bench.first = scan->first;
        bench.count = scan->count;
        bench.budget = scan->budget;
        expect_within(scan->reach, scan->call, bench, scan->wanted);
    }
}

/* ---- Exports ---- */

/* Gives the bench a list of so many entries for the pages of two operating system's pages in turn. */
static struct bench asking(struct bench bench, uint64_t entries, size_t even, size_t odd)
{
    for (uint64_t i = 0; i < entries; i++)
        put_word(bench.list.bytes, i, entry_for(first_page(i % 2 == 0 ? even : odd) + i % PAGES_IN_OS_PAGE));
    bench.info = info_for(0, entries - 1);
    return bench;
}

static struct bench export_bench(uint64_t entries, struct reach reach, size_t even, size_t odd)
{
    return asking(bench_in(CHIRP_PHASE_LIVE, entries, MAPPED, reach, DIRTY | MAPPED), entries, even, odd);
}

/* Every page of one of the operating system's pages is exported. */
static void expect_one_os_page(size_t os_page)
{
    struct reach reach = {os_page, 1, 0};
    expect_within(reach, EXPORT, export_bench(256, reach, os_page, os_page), (struct answer){CHIRP_DONE, {info_for(256, 255), 0, 2 + 256}});
}

void exports_touch_the_pages_that_their_entries_name(void)
{
    expect_one_os_page(0);
    expect_one_os_page(5);
    expect_one_os_page(15);

    /* Of the pages that may only be read none is exported: they are Dirty. */
    struct reach two = {5, 1, 1};
    expect_within(two, EXPORT, export_bench(256, two, 5, 6), (struct answer){CHIRP_DONE, {info_for(256, 255), 128, 2 + 128}});
    struct reach read = {6, 0, 1};
    expect_within(read, EXPORT, export_bench(256, read, 6, 6), (struct answer){CHIRP_DONE, {info_for(256, 255), 256, 2}});

    /* Entries that are not taken, since the budget is spent or LAST is before them, and pages beyond the table. */
    struct reach one = {5, 1, 0};
    struct bench bench = export_bench(2, one, 5, 9);
    bench.budget = 1;
    expect_within(one, EXPORT, bench, (struct answer){CHIRP_INTERRUPTED, {info_for(1, 1), 0, 0}});
    bench = export_bench(2, one, 5, 9);
    bench.info = info_for(0, 0);
    expect_within(one, EXPORT, bench, (struct answer){CHIRP_DONE, {info_for(1, 0), 0, 2 + 1}});
    bench = export_bench(2, one, 5, CHIRP_MAX_PAGES / PAGES_IN_OS_PAGE);
    expect_within(one, EXPORT, bench, (struct answer){CHIRP_DONE, {info_for(2, 1), 1, 2 + 1}});
}

/* ---- Restores ---- */

/* Every page waits for a restore, but those that may only be read: these have nothing to restore. No restore touches a buffer. */
static struct bench restore_bench(uint64_t entries, struct reach reach, size_t even, size_t odd)
{
    struct bench bench = asking(bench_in(CHIRP_PHASE_IDLE, entries, CLEAN, reach, MAPPED), entries, even, odd);
    protect(&bench.buffer, PROT_READ);
    return bench;
}

static struct answer restored(uint64_t code, uint64_t first, uint64_t last) { return (struct answer){code, {info_for(first, last), 0, 0}}; }

void restores_touch_the_pages_that_their_entries_name(void)
{
    for (size_t os_page = 0; os_page < 16; os_page += 5) {
        struct reach reach = {os_page, 1, 0};
        expect_within(reach, RESTORE, restore_bench(256, reach, os_page, os_page), restored(CHIRP_DONE, 256, 255));
    }

    /* Pages with nothing to restore, among others and alone. */
    struct reach two = {5, 1, 1};
    expect_within(two, RESTORE, restore_bench(256, two, 5, 6), restored(CHIRP_DONE, 256, 255));
    struct reach read = {6, 0, 1};
    expect_within(read, RESTORE, restore_bench(256, read, 6, 6), restored(CHIRP_DONE, 256, 255));

    /* Entries that are not taken: the budget is spent, LAST is before them, FIRST behind them. Then a page beyond the table. */
    struct reach one = {5, 1, 0};
    struct bench bench = restore_bench(2, one, 5, 9);
    bench.budget = 1;
    expect_within(one, RESTORE, bench, restored(CHIRP_INTERRUPTED, 1, 1));
    bench = restore_bench(2, one, 5, 9);
    bench.info = info_for(0, 0);
    expect_within(one, RESTORE, bench, restored(CHIRP_DONE, 1, 0));
    bench = restore_bench(2, one, 9, 5);
    bench.info = info_for(1, 1);
    expect_within(one, RESTORE, bench, restored(CHIRP_DONE, 2, 1));
    bench = restore_bench(2, one, 5, CHIRP_MAX_PAGES / PAGES_IN_OS_PAGE);
    expect_within(one, RESTORE, bench, restored(CHIRP_DONE, 2, 1));

    /* With budget 0 no page is touched, and no word of the list is written. */
    struct reach none = {0};
    bench = restore_bench(2, none, 5, 9);
    bench.budget = 0;
    protect(&bench.list, PROT_READ);
    expect_within(none, RESTORE, bench, restored(CHIRP_INTERRUPTED, 0, 1));
}
