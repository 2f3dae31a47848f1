#define _GNU_SOURCE
#include "harness.h"

#include <stdio.h>
#include <stdlib.h>
#include <string.h>
#include <sys/mman.h>
#include <ucontext.h>

const char *const call_names[CALLS] = {
    "new", "write", "add", "accept", "block", "unblock", "remove", "track", "start", "pause", "abort", "new epoch", "reset", "start token", "dscan",
    "dcheck", "export", "restore"};

/* Memory that is there, or the end: without it no test would say anything. */
static void *or_end(void *memory)
{
    if (memory == NULL || memory == MAP_FAILED) {
        perror("memory");
        exit(2);
    }
    return memory;
}

/* Memory of whole pages with one before it and one behind it that cannot be touched. */
static uint8_t *guarded(size_t length)
{
    uint8_t *memory = or_end(mmap(NULL, length + 2 * OS_PAGE, PROT_NONE, MAP_PRIVATE | MAP_ANONYMOUS, -1, 0));
    return mprotect(memory + OS_PAGE, length, PROT_READ | PROT_WRITE) == 0 ? memory + OS_PAGE : or_end(NULL);
}

struct slice heap_slice(size_t length, size_t offset)
{
    if (length + offset == 0)
        return (struct slice){0};
    uint8_t *memory = or_end(calloc(1, length + offset));
    return (struct slice){.bytes = memory + offset, .length = length, .memory = memory};
}

static const uint8_t AROUND = 0xa5;

struct slice mapped_slice(size_t length, struct place place)
{
    size_t pages = (length + place.distance + OS_PAGE - 1) / OS_PAGE, mapped = (pages > 0 ? pages : 1) * OS_PAGE;
    uint8_t *memory = guarded(mapped);
    uint8_t *bytes = place.from_start ? memory + place.distance : memory + mapped - place.distance - length;
    memset(memory, AROUND, mapped);
    memset(bytes, 0, length);
    return (struct slice){.bytes = bytes, .length = length, .memory = memory, .mapped = mapped};
}

bool unwritten_around(const struct slice *slice)
{
    for (uint8_t *byte = slice->memory; byte < slice->memory + slice->mapped; byte++)
        if ((byte < slice->bytes || byte >= slice->bytes + slice->length) && *byte != AROUND)
            return false;
    return true;
}

void protect_pages(const struct slice *slice, size_t first, size_t count, int protection)
{
    if (count > 0 && mprotect(slice->memory + first * OS_PAGE, count * OS_PAGE, protection) != 0)
        or_end(NULL);
}

void protect(const struct slice *slice, int protection) { protect_pages(slice, 0, slice->mapped / OS_PAGE, protection); }

void free_slice(struct slice *slice)
{
    if (slice->mapped)
        munmap(slice->memory - OS_PAGE, slice->mapped + 2 * OS_PAGE);
    else
        free(slice->memory);
    *slice = (struct slice){0};
}

static struct bench with_operands(struct bench bench)
{
    bench.streams = 2;
    bench.count = bench.table.length / CHIRP_PAGE_BYTES;
    bench.budget = UINT64_MAX;
    return bench;
}

struct bench heap_bench(size_t pages, size_t entries, size_t offset)
{
    return with_operands((struct bench){
        .session = heap_slice(CHIRP_SESSION_BYTES, offset),
        .table = heap_slice(pages * CHIRP_PAGE_BYTES, offset),
        .list = heap_slice(entries * CHIRP_WORD_BYTES, offset),
        .buffer = heap_slice(entries * CHIRP_WORD_BYTES, offset),
    });
}

struct bench mapped_bench(size_t pages, size_t entries, struct place place)
{
    return with_operands((struct bench){
        .session = mapped_slice(CHIRP_SESSION_BYTES, place),
        .table = mapped_slice(pages * CHIRP_PAGE_BYTES, place),
        .list = mapped_slice(entries * CHIRP_WORD_BYTES, place),
        .buffer = mapped_slice(entries * CHIRP_WORD_BYTES, place),
    });
}

void free_bench(struct bench *bench)
{
    free_slice(&bench->session);
    free_slice(&bench->table);
    free_slice(&bench->list);
    free_slice(&bench->buffer);
}

void set_session(struct bench *bench, size_t word, uint64_t value) { put_word(bench->session.bytes, word, value); }
void set_record(struct bench *bench, uint64_t page, uint64_t record) { put_word(bench->table.bytes, 2 * page, record); }

static struct answer scan_answer(chirp_scan_answer answer) { return (struct answer){answer.code, {answer.next, answer.first, answer.last}}; }

#define SLICE(slice) (slice).bytes, (slice).length
#define BOTH SLICE(bench->session), SLICE(bench->table)

static struct answer list_answer(enum call call, const struct bench *bench)
{
    if (call == DSCAN)
        return scan_answer(chirp_dscan(BOTH, bench->first, bench->count, SLICE(bench->list), bench->budget));
    if (call == DCHECK)
        return scan_answer(chirp_dcheck(BOTH, SLICE(bench->list), bench->budget));
    if (call == RESTORE) {
        chirp_list_answer answer = chirp_restore(BOTH, SLICE(bench->list), bench->info, bench->budget);
        return (struct answer){answer.code, {answer.info, 0, 0}};
    }
    chirp_export_answer answer =
        chirp_export(BOTH, SLICE(bench->list), SLICE(bench->buffer), bench->stream, bench->resume, bench->info, bench->budget);
    return (struct answer){answer.code, {answer.info, answer.errors, answer.buffers}};
}

static struct answer called(enum call call, const struct bench *bench)
{
    chirp_token_answer token;
    switch (call) {
    case NEW: return (struct answer){chirp_new(BOTH, bench->streams), {0}};
    case WRITE: return (struct answer){chirp_write(BOTH, bench->page, bench->mark), {0}};
    case ADD: return (struct answer){chirp_add(BOTH, bench->page), {0}};
    case ACCEPT: return (struct answer){chirp_accept(BOTH, bench->page), {0}};
    case BLOCK: return (struct answer){chirp_block(BOTH, bench->page), {0}};
    case UNBLOCK: return (struct answer){chirp_unblock(BOTH, bench->page), {0}};
    case REMOVE: return (struct answer){chirp_remove(BOTH, bench->page), {0}};
    case TRACK: return (struct answer){chirp_track(BOTH), {0}};
    case START: return (struct answer){chirp_start(BOTH), {0}};
    case PAUSE: return (struct answer){chirp_pause(BOTH), {0}};
    case ABORT: return (struct answer){chirp_abort(BOTH), {0}};
    case NEW_EPOCH: return (struct answer){chirp_new_epoch(BOTH), {0}};
    case RESET: return (struct answer){chirp_reset(BOTH), {0}};
    case START_TOKEN: token = chirp_start_token(BOTH); return (struct answer){token.code, {token.page, 0, 0}};
    default: return list_answer(call, bench);
    }
}

/* What is called on the small stack, and its answer: a context takes no pointers. */
static struct {
    enum call call;
    const struct bench *bench;
    struct answer answer;
} on_stack;

static void call_on_stack(void) { on_stack.answer = called(on_stack.call, on_stack.bench); }

static struct answer called_on_small_stack(enum call call, const struct bench *bench)
{
    enum { BYTES = 8 * 1024 };
    static uint8_t *stack;
    static ucontext_t here, there;
    if (stack == NULL)
        stack = guarded(BYTES);
    getcontext(&there);
    there.uc_stack.ss_sp = stack;
    there.uc_stack.ss_size = BYTES;
    there.uc_link = &here;
    makecontext(&there, call_on_stack, 0);
    on_stack.call = call;
    on_stack.bench = bench;
    swapcontext(&here, &there);
    return on_stack.answer;
}

struct answer answer_of(enum call call, const struct bench *bench)
{
    return bench->on_small_stack ? called_on_small_stack(call, bench) : called(call, bench);
}
