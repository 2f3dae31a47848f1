/*
 * Memory that must not be touched cannot be: a refused call writes no byte, a call on one page looks at no other and changes no byte of the session,
 * those on the session look at no byte of the table, and the token changes none.
 */
#define _GNU_SOURCE
#include "tests.h"

#include <stdlib.h>
#include <string.h>
#include <sys/mman.h>

/* ---- Refused calls on read-only memory ---- */

/* Pages of the bench that is refused; it is Live, TLB epoch 2, migration epoch 1. */
enum { MAPPED, PENDING, FREE, BLOCKED, PAGES };

static void as_it_is(struct bench *bench) { (void)bench; }
static void session_damaged(struct bench *bench) { set_session(bench, CHIRP_SESSION_TLB_EPOCH, 0); }
static void session_short(struct bench *bench) { bench->session.length--; }
static void table_short(struct bench *bench) { bench->table.length -= CHIRP_PAGE_BYTES; }
static void table_ragged(struct bench *bench) { bench->table.length--; }
static void one_stream(struct bench *bench) { bench->streams = 1; }
static void in_done(struct bench *bench) { set_session(bench, CHIRP_SESSION_PHASE, CHIRP_PHASE_DONE); }
static void in_blackout(struct bench *bench) { set_session(bench, CHIRP_SESSION_PHASE, CHIRP_PHASE_BLACKOUT); }
static void page_beyond(struct bench *bench) { bench->page = PAGES; }
static void page_free(struct bench *bench) { bench->page = FREE; }
static void page_pending(struct bench *bench) { bench->page = PENDING; }
static void page_blocked(struct bench *bench) { bench->page = BLOCKED; }
static void tlb_epoch_at_limit(struct bench *bench) { set_session(bench, CHIRP_SESSION_TLB_EPOCH, 65535); }
static void migration_epoch_at_limit(struct bench *bench) { set_session(bench, CHIRP_SESSION_MIGRATION_EPOCH, 65535); }
static void no_pages(struct bench *bench) { bench->count = 0; }
static void list_ragged(struct bench *bench) { bench->list.length--; }
static void stream_unusable(struct bench *bench) { bench->stream = 1; }
static void resume_2(struct bench *bench) { bench->resume = 2; }
static void resume_at_rest(struct bench *bench) { bench->resume = 1; }
static void first_not_0(struct bench *bench) { bench->info = info_for(1, 1); }

static void in_idle(struct bench *bench)
{
    set_session(bench, CHIRP_SESSION_PHASE, CHIRP_PHASE_IDLE);
    set_session(bench, CHIRP_SESSION_MIGRATION_EPOCH, 0);
}

static void idle_with_exported(struct bench *bench)
{
    in_idle(bench);
    set_record(bench, BLOCKED, CHIRP_STATE_EXPORTED);
}

/* A page that was exported and blocked, and tracked since. */
static void idle_page_exported(struct bench *bench)
{
    in_idle(bench);
    set_record(bench, BLOCKED, 1 << 16 | CHIRP_STATE_EXPORTED_BLOCKED);
    page_blocked(bench);
}

/* A list that asks for the page that is exported, so that a restore would change both. */
static void restorable(struct bench *bench)
{
    idle_with_exported(bench);
    put_word(bench->list.bytes, 0, entry_for(BLOCKED));
    put_word(bench->list.bytes, 1, entry_for(BLOCKED));
}

static void restorable_ragged(struct bench *bench)
{
    restorable(bench);
    list_ragged(bench);
}

static void restorable_empty(struct bench *bench)
{
    restorable(bench);
    bench->list.length = 0;
}

static void restorable_format_1(struct bench *bench)
{
    restorable(bench);
    bench->info |= 1;
}

static void restorable_bit_52(struct bench *bench)
{
    restorable(bench);
    bench->info |= UINT64_C(1) << 52;
}

static void restorable_last_beyond(struct bench *bench)
{
    restorable(bench);
    bench->info = info_for(0, 2);
}

static void restorable_first_above_last(struct bench *bench)
{
    restorable(bench);
    bench->info = info_for(1, 0);
}

static void stream_interrupted(struct bench *bench)
{
    set_session(bench, CHIRP_SESSION_STREAM_0, 1);
    set_record(bench, BLOCKED, CHIRP_STATE_FREE);
}

static void blackout_interrupted(struct bench *bench)
{
    in_blackout(bench);
    stream_interrupted(bench);
}

static void blackout_ragged(struct bench *bench)
{
    in_blackout(bench);
    list_ragged(bench);
}

static void check_failed(struct bench *bench)
{
    in_blackout(bench);
    set_session(bench, CHIRP_SESSION_CHECK_FAILED, 1);
}

static void check_complete(struct bench *bench)
{
    in_blackout(bench);
    set_session(bench, CHIRP_SESSION_CHECK_NEXT, PAGES);
    set_session(bench, CHIRP_SESSION_CHECK_COMPLETE, 1);
}

static void checked_modified(struct bench *bench)
{
    check_complete(bench);
    set_record(bench, BLOCKED, CHIRP_STATE_EXPORTED_MODIFIED);
}

static void checked_unexported(struct bench *bench)
{
    check_complete(bench);
    set_record(bench, MAPPED, CHIRP_STATE_EXPORTED);
}

struct refusal {
    enum call call;
    uint64_t code;
    void (*prepare)(struct bench *bench);
    uint64_t page; /* in the answer, for 53 and 54 */
};

/* Beside those of expect_refused_early. */
static const struct refusal refusals[] = {
    {NEW, 40, session_short, 0}, {NEW, 40, table_ragged, 0}, {NEW, 42, one_stream, 0},
    {WRITE, 42, page_beyond, 0}, {WRITE, 45, page_free, 0}, {WRITE, 45, page_pending, 0},
    {ADD, 42, page_beyond, 0}, {ADD, 45, as_it_is, 0},
    {ACCEPT, 42, page_beyond, 0}, {ACCEPT, 45, as_it_is, 0}, {ACCEPT, 45, idle_page_exported, 0},
    {BLOCK, 49, in_blackout, 0}, {BLOCK, 42, page_beyond, 0}, {BLOCK, 45, page_free, 0}, {BLOCK, 45, page_blocked, 0},
    {UNBLOCK, 42, page_beyond, 0}, {UNBLOCK, 45, idle_page_exported, 0}, {UNBLOCK, 46, as_it_is, 0}, {UNBLOCK, 47, page_blocked, 0},
    {REMOVE, 42, page_beyond, 0}, {REMOVE, 45, idle_page_exported, 0}, {REMOVE, 46, as_it_is, 0}, {REMOVE, 47, page_blocked, 0},
    {TRACK, 56, tlb_epoch_at_limit, 0},
    {START, 41, as_it_is, 0}, {START, 45, idle_with_exported, 0},
    {PAUSE, 48, as_it_is, 0}, {PAUSE, 43, stream_interrupted, 0},
    {ABORT, 41, in_idle, 0},
    {NEW_EPOCH, 43, stream_interrupted, 0}, {NEW_EPOCH, 55, migration_epoch_at_limit, 0},
    {START_TOKEN, 41, as_it_is, 0}, {START_TOKEN, 43, blackout_interrupted, 0}, {START_TOKEN, 52, in_blackout, 0},
    {START_TOKEN, 53, checked_modified, BLOCKED}, {START_TOKEN, 54, checked_unexported, PENDING},
    {DSCAN, 41, in_blackout, 0}, {DSCAN, 42, no_pages, 0}, {DSCAN, 42, list_ragged, 0},
    {DCHECK, 41, as_it_is, 0}, {DCHECK, 42, blackout_ragged, 0}, {DCHECK, 50, check_failed, 0}, {DCHECK, 50, check_complete, 0},
    {EXPORT, 42, stream_unusable, 0}, {EXPORT, 42, list_ragged, 0}, {EXPORT, 42, resume_2, 0}, {EXPORT, 42, first_not_0, 0},
    {EXPORT, 44, resume_at_rest, 0}, {EXPORT, 44, stream_interrupted, 0},
    {RESTORE, 41, as_it_is, 0}, {RESTORE, 41, in_blackout, 0}, {RESTORE, 42, restorable_ragged, 0}, {RESTORE, 42, restorable_empty, 0},
    {RESTORE, 42, restorable_format_1, 0}, {RESTORE, 42, restorable_bit_52, 0}, {RESTORE, 42, restorable_last_beyond, 0},
    {RESTORE, 42, restorable_first_above_last, 0},
};

static struct bench refused_bench(void)
{
    struct bench bench = mapped_bench(PAGES, 2, (struct place){0});
    expect_code(NEW, &bench, CHIRP_DONE);
    set_session(&bench, CHIRP_SESSION_PHASE, CHIRP_PHASE_LIVE);
    set_session(&bench, CHIRP_SESSION_TLB_EPOCH, 2);
    set_session(&bench, CHIRP_SESSION_MIGRATION_EPOCH, 1);
    set_record(&bench, MAPPED, CHIRP_STATE_MAPPED);
    set_record(&bench, PENDING, CHIRP_STATE_PENDING);
    set_record(&bench, BLOCKED, 2 << 16 | CHIRP_STATE_BLOCKED);
    bench.info = info_for(0, 1);
    return bench;
}

static void expect_refused(struct refusal refusal, int table)
{
    struct bench bench = refused_bench();
    refusal.prepare(&bench);
    protect(&bench.session, PROT_READ);
    protect(&bench.table, table);
    protect(&bench.list, PROT_READ);
    protect(&bench.buffer, PROT_READ);
    expect_answer(refusal.call, &bench, (struct answer){refusal.code, {refusal.page, 0, 0}});
    free_bench(&bench);
}

/* 40 and 41, which every call but New has. */
static void expect_refused_early(enum call call, int table)
{
    expect_refused((struct refusal){call, CHIRP_MALFORMED, session_damaged, 0}, table);
    expect_refused((struct refusal){call, CHIRP_MALFORMED, session_short, 0}, table);
    expect_refused((struct refusal){call, CHIRP_MALFORMED, table_short, 0}, table);
    expect_refused((struct refusal){call, CHIRP_MALFORMED, table_ragged, 0}, table);
    expect_refused((struct refusal){call, CHIRP_OP_STATE_INCORRECT, in_done, 0}, table);
}

void refused_calls_on_read_only_memory(void)
{
    for (enum call call = WRITE; call < CALLS; call++)
        expect_refused_early(call, PROT_READ);
    for (unsigned i = 0; i < sizeof refusals / sizeof *refusals; i++)
        expect_refused(refusals[i], PROT_READ);
}

/* Whether some page has a part in the refusal: pause looks for blocked pages before it asks for streams. */
static bool is_for_a_page(const struct refusal *refusal)
{
    switch (refusal->code) {
    case 45: case 48: case 53: case 54: return true;
    case 43: return refusal->call == PAUSE;
    default: return false;
    }
}

/* Of the calls on one page each may read its page before it is refused. */
void other_refused_calls_look_at_no_page_without_need(void)
{
    for (enum call call = TRACK; call < CALLS; call++)
        expect_refused_early(call, PROT_NONE);
    for (unsigned i = 0; i < sizeof refusals / sizeof *refusals; i++)
        if (refusals[i].call >= TRACK && !is_for_a_page(&refusals[i]))
            expect_refused(refusals[i], PROT_NONE);
}

/* ---- Calls on one page ---- */

struct move {
    enum call call;
    uint64_t before, code, after;
};

/* At TLB epoch 2. Stamps are in bits 31:16. */
static const struct move moves_in_live[] = {
    {ADD, CHIRP_STATE_FREE, 0, CHIRP_STATE_PENDING},
    {ADD, CHIRP_STATE_MAPPED, 45, CHIRP_STATE_MAPPED},
    {ACCEPT, CHIRP_STATE_PENDING, 0, CHIRP_STATE_MAPPED},
    {ACCEPT, CHIRP_STATE_PENDING_BLOCKED, 45, CHIRP_STATE_PENDING_BLOCKED},
    {WRITE, CHIRP_STATE_MAPPED, 0, DIRTY | CACHED | CHIRP_STATE_MAPPED},
    {WRITE, CHIRP_STATE_PENDING, 45, CHIRP_STATE_PENDING},
    {BLOCK, CHIRP_STATE_EXPORTED, 0, 2 << 16 | CHIRP_STATE_EXPORTED_BLOCKED},
    {BLOCK, CHIRP_STATE_FREE, 45, CHIRP_STATE_FREE},
    {UNBLOCK, 1 << 16 | CHIRP_STATE_BLOCKED, 0, CHIRP_STATE_MAPPED},
    {UNBLOCK, CHIRP_STATE_MAPPED, 46, CHIRP_STATE_MAPPED},
    {REMOVE, 1 << 16 | CHIRP_STATE_EXPORTED_BLOCKED, 0, CHIRP_STATE_EXPORTED_REMOVED},
    {REMOVE, 2 << 16 | CHIRP_STATE_BLOCKED, 47, 2 << 16 | CHIRP_STATE_BLOCKED},
};

/* In Idle an exported page waits for its restore. */
static const struct move moves_in_idle[] = {
    {ADD, CHIRP_STATE_FREE, 0, CHIRP_STATE_PENDING},
    {ADD, CHIRP_STATE_EXPORTED_REMOVED, 45, CHIRP_STATE_EXPORTED_REMOVED},
    {ACCEPT, CHIRP_STATE_PENDING, 0, CHIRP_STATE_MAPPED},
    {ACCEPT, CHIRP_STATE_PENDING_EXPORTED, 45, CHIRP_STATE_PENDING_EXPORTED},
    {WRITE, CHIRP_STATE_EXPORTED, 0, DIRTY | CACHED | CHIRP_STATE_EXPORTED},
    {WRITE, CHIRP_STATE_EXPORTED_BLOCKED, 45, CHIRP_STATE_EXPORTED_BLOCKED},
    {BLOCK, CHIRP_STATE_MAPPED, 0, 2 << 16 | CHIRP_STATE_BLOCKED},
    {BLOCK, CHIRP_STATE_EXPORTED, 45, CHIRP_STATE_EXPORTED},
    {UNBLOCK, 1 << 16 | CHIRP_STATE_BLOCKED, 0, CHIRP_STATE_MAPPED},
    {UNBLOCK, 1 << 16 | CHIRP_STATE_EXPORTED_BLOCKED, 45, 1 << 16 | CHIRP_STATE_EXPORTED_BLOCKED},
    {REMOVE, 1 << 16 | CHIRP_STATE_PENDING_BLOCKED, 0, CHIRP_STATE_FREE},
    {REMOVE, 1 << 16 | CHIRP_STATE_PENDING_EXPORTED_BLOCKED, 45, 1 << 16 | CHIRP_STATE_PENDING_EXPORTED_BLOCKED},
};

/* The largest table, in Idle or Live. Its session may only be read: no call on one page changes it. */
static struct bench large_bench(uint64_t phase)
{
    struct bench bench = mapped_bench(CHIRP_MAX_PAGES, 0, (struct place){0});
    expect_code(NEW, &bench, CHIRP_DONE);
    set_session(&bench, CHIRP_SESSION_PHASE, phase);
    set_session(&bench, CHIRP_SESSION_TLB_EPOCH, 2);
    set_session(&bench, CHIRP_SESSION_MIGRATION_EPOCH, phase == CHIRP_PHASE_IDLE ? 0 : 1);
    protect(&bench.session, PROT_READ);
    return bench;
}

/* Calls with all of the table out of reach but the operating system's page that holds the bench's page. */
static void expect_move(struct bench *bench, const struct move *move)
{
    uint64_t mark = bench->mark = 77 + bench->page;
    set_record(bench, bench->page, move->before);
    put_word(bench->table.bytes, 2 * bench->page + 1, 5);
    protect(&bench->table, PROT_NONE);
    protect_pages(&bench->table, bench->page / PAGES_IN_OS_PAGE, 1, PROT_READ | PROT_WRITE);
    expect_code(move->call, bench, move->code);
    protect(&bench->table, PROT_READ | PROT_WRITE);
    EQUAL(record_at(bench->table.bytes, bench->page), move->after);
    uint64_t kept = move->code != 0 || move->call == BLOCK || move->call == UNBLOCK ? 5 : 0;
    EQUAL(mark_at(bench->table.bytes, bench->page), move->call == WRITE && move->code == 0 ? mark : kept);
}

static void expect_moves(uint64_t phase, const struct move *moves, unsigned count)
{
    struct bench bench = large_bench(phase);
    uint8_t *others = calloc(1, bench.table.length);
    for (uint64_t os_page = 0; os_page < CHIRP_MAX_PAGES / PAGES_IN_OS_PAGE; os_page++)
        for (unsigned last = 0; last < 2; last++)
            for (unsigned i = 0; i < count; i++) {
                bench.page = os_page * PAGES_IN_OS_PAGE + last * (PAGES_IN_OS_PAGE - 1);
                expect_move(&bench, &moves[i]);
                set_record(&bench, bench.page, 0);
                put_word(bench.table.bytes, 2 * bench.page + 1, 0);
                CHECK(memcmp(bench.table.bytes, others, bench.table.length) == 0);
            }
    free(others);
    free_bench(&bench);
}

void one_page_calls_touch_their_page_alone(void)
{
    expect_moves(CHIRP_PHASE_LIVE, moves_in_live, sizeof moves_in_live / sizeof *moves_in_live);
    expect_moves(CHIRP_PHASE_IDLE, moves_in_idle, sizeof moves_in_idle / sizeof *moves_in_idle);
}

void a_page_beyond_the_table_touches_nothing(void)
{
    static const uint64_t beyond[] = {CHIRP_MAX_PAGES, CHIRP_MAX_PAGES + 1, UINT64_C(1) << 60, UINT64_C(1) << 63, UINT64_MAX};
    for (uint64_t phase = CHIRP_PHASE_IDLE; phase <= CHIRP_PHASE_LIVE; phase++) {
        struct bench bench = large_bench(phase);
        protect(&bench.table, PROT_NONE);
        for (unsigned i = 0; i < sizeof beyond / sizeof *beyond; i++)
            for (enum call call = WRITE; call <= REMOVE; call++) {
                bench.page = beyond[i];
                expect_code(call, &bench, CHIRP_OPERAND_INVALID);
            }
        free_bench(&bench);
    }
}

/* ---- Calls on the session ---- */

/* These ask for the table's length alone. */
void session_calls_touch_no_byte_of_the_table(void)
{
    for (uint64_t phase = CHIRP_PHASE_LIVE; phase <= CHIRP_PHASE_BLACKOUT; phase++) {
        struct bench bench = refused_bench();
        set_session(&bench, CHIRP_SESSION_PHASE, phase);
        protect(&bench.table, PROT_NONE);
        expect_code(NEW_EPOCH, &bench, CHIRP_DONE);
        expect_code(RESET, &bench, CHIRP_DONE);
        expect_code(ABORT, &bench, CHIRP_DONE);
        EQUAL(word_at(bench.session.bytes, CHIRP_SESSION_PHASE), CHIRP_PHASE_IDLE);
        free_bench(&bench);
    }
}

void the_token_changes_no_byte_of_the_table(void)
{
    struct bench bench = refused_bench();
    check_complete(&bench);
    for (uint64_t page = 0; page < PAGES; page++)
        set_record(&bench, page, CHIRP_STATE_EXPORTED);
    protect(&bench.table, PROT_READ);
    expect_code(START_TOKEN, &bench, CHIRP_DONE);
    free_bench(&bench);
}
