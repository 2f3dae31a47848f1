/* Every call once and done, on slices that lie at an end of their memory, and with little stack. */
#include "tests.h"

enum { SMALL = 2, LARGE = CHIRP_MAX_PAGES };

static uint64_t entries_of(const struct bench *bench) { return bench->list.length / CHIRP_WORD_BYTES; }
static uint64_t pages_of(const struct bench *bench) { return bench->table.length / CHIRP_PAGE_BYTES; }

/* Blocks the last page, tracks, and unblocks it; or removes it, and puts it back. */
static void block_and_back(struct bench *bench)
{
    bench->page = pages_of(bench) - 1;
    expect_code(BLOCK, bench, CHIRP_DONE);
    expect_code(TRACK, bench, CHIRP_DONE);
    expect_code(UNBLOCK, bench, CHIRP_DONE);
    EQUAL(record_at(bench->table.bytes, bench->page), DIRTY | CHIRP_STATE_MAPPED);
    expect_code(BLOCK, bench, CHIRP_DONE);
    expect_code(TRACK, bench, CHIRP_DONE);
    expect_code(REMOVE, bench, CHIRP_DONE);
    EQUAL(record_at(bench->table.bytes, bench->page), CHIRP_STATE_FREE);
    bench->mark = 1000 + bench->page;
    expect_code(ADD, bench, CHIRP_DONE);
    expect_code(ACCEPT, bench, CHIRP_DONE);
    expect_code(WRITE, bench, CHIRP_DONE);
}

/* A scan of the whole table: it fills the list. */
static void scan_all(struct bench *bench)
{
    uint64_t listed = entries_of(bench);
    uint64_t code = listed < pages_of(bench) ? CHIRP_LIST_FULL : CHIRP_DONE;
    expect_answer(DSCAN, bench, (struct answer){code, {listed, 0, listed - 1}});
    for (uint64_t i = 0; i < listed; i++)
        EQUAL(word_at(bench->list.bytes, i), entry_for(i));
}

/* An export of the list, its first entry in a call of its own. */
static void export_all(struct bench *bench)
{
    uint64_t last = entries_of(bench) - 1;
    bench->info = info_for(0, last);
    if (last > 0) {
        bench->budget = 1;
        expect_answer(EXPORT, bench, (struct answer){CHIRP_INTERRUPTED, {info_for(1, last), 0, 0}});
        bench->info = info_for(1, last);
        bench->resume = 1;
        bench->budget = UINT64_MAX;
    }
    uint64_t mac_pages = last >= 256 ? 2 : 1;
    expect_answer(EXPORT, bench, (struct answer){CHIRP_DONE, {info_for((last + 1) % 512, last), 0, 1 + mac_pages + last + 1}});
    for (uint64_t i = 0; i <= last; i++) {
        EQUAL(word_at(bench->list.bytes, i), entry_for(i));
        EQUAL(word_at(bench->buffer.bytes, i), 1000 + i);
    }
    bench->resume = 0;
}

static void send_list(struct bench *bench)
{
    expect_code(START, bench, CHIRP_DONE);
    scan_all(bench);
    expect_code(TRACK, bench, CHIRP_DONE);
    export_all(bench);
}

/* Abort, and a restore of the list as the export returned it, its first entry in a call of its own: until it is done there is no start. */
static void abort_and_restore(struct bench *bench)
{
    uint64_t last = entries_of(bench) - 1;
    expect_code(ABORT, bench, CHIRP_DONE);
    bench->info = info_for(0, last);
    if (last > 0) {
        bench->budget = 1;
        expect_answer(RESTORE, bench, (struct answer){CHIRP_INTERRUPTED, {info_for(1, last), 0, 0}});
        bench->info = info_for(1, last);
        bench->budget = UINT64_MAX;
    }
    expect_code(START, bench, CHIRP_EPT_ENTRY_STATE_INCORRECT);
    expect_answer(RESTORE, bench, (struct answer){CHIRP_DONE, {info_for((last + 1) % 512, last), 0, 0}});
    for (uint64_t i = 0; i <= last; i++) {
        EQUAL(word_at(bench->list.bytes, i), entry_for(i));
        EQUAL(record_at(bench->table.bytes, i), CHIRP_STATE_MAPPED);
        EQUAL(mark_at(bench->table.bytes, i), 1000 + i);
    }
}

/* Pause, check, token: granted if all pages fitted in one list. */
static void finish(struct bench *bench)
{
    uint64_t pages = pages_of(bench), sent = entries_of(bench);
    expect_code(NEW_EPOCH, bench, CHIRP_DONE);
    expect_code(PAUSE, bench, CHIRP_DONE);
    expect_code(RESET, bench, CHIRP_DONE);
    if (sent < pages) {
        expect_answer(DCHECK, bench, (struct answer){CHIRP_LIST_FULL, {2 * sent, 0, sent - 1}});
        expect_answer(START_TOKEN, bench, (struct answer){CHIRP_MEM_SCAN_DCHECK_NOT_DONE, {0}});
        return;
    }
    expect_answer(DCHECK, bench, (struct answer){CHIRP_CHECK_COMPLETE, {pages, 511, 0}});
    expect_answer(START_TOKEN, bench, (struct answer){CHIRP_DONE, {0}});
    EQUAL(word_at(bench->session.bytes, CHIRP_SESSION_PHASE), CHIRP_PHASE_DONE);
}

static void every_call(struct bench bench)
{
    fill(&bench);
    block_and_back(&bench);
    send_list(&bench);
    abort_and_restore(&bench);
    send_list(&bench);
    finish(&bench);
    CHECK(unwritten_around(&bench.session));
    CHECK(unwritten_around(&bench.table));
    CHECK(unwritten_around(&bench.list));
    CHECK(unwritten_around(&bench.buffer));
    free_bench(&bench);
}

static uint64_t list_for(uint64_t pages) { return pages < CHIRP_MAX_ENTRIES ? pages : CHIRP_MAX_ENTRIES; }

static const uint64_t tables[] = {1, SMALL, LARGE};
enum { TABLES = sizeof tables / sizeof *tables };

void every_call_on_the_heap(void)
{
    for (unsigned i = 0; i < TABLES; i++)
        every_call(heap_bench(tables[i], list_for(tables[i]), 0));
}

void every_call_at_odd_addresses(void)
{
    for (unsigned i = 0; i < TABLES; i++)
        for (unsigned offset = 1; offset < CHIRP_WORD_BYTES; offset += 2)
            every_call(heap_bench(tables[i], list_for(tables[i]), offset));
}

/* At every distance from a word's bound. */
static void every_call_mapped(bool from_start)
{
    for (unsigned i = 0; i < TABLES; i++)
        for (size_t distance = 0; distance < CHIRP_WORD_BYTES; distance++)
            every_call(mapped_bench(tables[i], list_for(tables[i]), (struct place){distance, from_start}));
}

void every_call_before_a_guard_page(void) { every_call_mapped(false); }
void every_call_behind_a_guard_page(void) { every_call_mapped(true); }

/* What the header says of the stack. */
void every_call_on_a_stack_of_8_KiB(void)
{
    for (unsigned i = 0; i < TABLES; i++) {
        struct bench bench = heap_bench(tables[i], list_for(tables[i]), 0);
        bench.on_small_stack = true;
        every_call(bench);
    }
}
