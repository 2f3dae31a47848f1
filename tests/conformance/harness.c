#include "harness.h"

#include <inttypes.h>
#include <stdio.h>
#include <stdlib.h>
#include <string.h>

/* ---- tests and checks ---- */

static guest *guests;
static unsigned long checks, failures;

static void free_guests(void)
{
    while (guests) {
        guest *g = guests;
        guests = g->next;
        for (part p = SESSION; p < PARTS; p++) {
            free(g->now[p].bytes);
            free(g->expected[p].bytes);
        }
        free(g);
    }
}

int test_holds(const test *t)
{
    checks = failures = 0;
    t->body();
    free_guests();
    if (!checks)
        printf("  %s made no check\n", t->name);
    return checks > 0 && failures == 0;
}

void check_equal(place at, const char *what, uint64_t got, uint64_t expected)
{
    checks++;
    if (got == expected)
        return;
    failures++;
    printf("  %s:%d: %s: expected %" PRIu64 " (0x%" PRIx64 "), got %" PRIu64 " (0x%" PRIx64 ")\n", at.file, at.line, what, expected, expected,
           got, got);
}

/* ---- slices ---- */

static const char *const part_names[PARTS] = {"session", "table", "list", "buffer"};

static void *allocated(size_t bytes)
{
    void *memory = malloc(bytes);
    if (!memory)
        abort();
    return memory;
}

/* The slice with another length, in an allocation that ends at its last byte. */
static slice resized(slice s, size_t len)
{
    slice made = {allocated(len), len};
    size_t kept = s.len < len ? s.len : len;
    memset(made.bytes, 0xff, len);
    if (kept)
        memcpy(made.bytes, s.bytes, kept);
    free(s.bytes);
    return made;
}

/* The little-endian number in at most 8 bytes from the offset. */
static uint64_t number_at(slice s, size_t offset)
{
    uint64_t w = 0;
    for (size_t i = 0; i < 8 && offset + i < s.len; i++)
        w |= (uint64_t)s.bytes[offset + i] << (8 * i);
    return w;
}

static void put_word(slice s, size_t i, uint64_t w)
{
    if (8 * i + 8 > s.len) {
        printf("  the test itself is wrong: word %zu of a slice of %zu bytes\n", i, s.len);
        abort();
    }
    for (size_t b = 0; b < 8; b++)
        s.bytes[8 * i + b] = (uint8_t)(w >> (8 * b));
}

/* Checks that each part is as expected, telling the first word of it that is not; then what is there is what is expected. */
static void check_parts(place at, guest *g)
{
    for (part p = SESSION; p < PARTS; p++) {
        slice now = g->now[p], expected = g->expected[p];
        size_t i = 0;
        checks++;
        while (i < now.len && now.bytes[i] == expected.bytes[i])
            i++;
        if (i == now.len)
            continue;
        failures++;
        i -= i % 8;
        printf("  %s:%d: %s word %zu: expected 0x%016" PRIx64 ", got 0x%016" PRIx64 "\n", at.file, at.line, part_names[p], i / 8,
               number_at(expected, i), number_at(now, i));
    }
}

static void expect_what_is(guest *g)
{
    for (part p = SESSION; p < PARTS; p++)
        if (g->now[p].len)
            memcpy(g->expected[p].bytes, g->now[p].bytes, g->now[p].len);
}

/* ---- guests ---- */

guest *guest_in(uint64_t phase, size_t pages)
{
    guest *g = allocated(sizeof *g);
    *g = (guest){.next = guests};
    guests = g;
    resize(g, SESSION, 8 * SESSION_WORDS);
    resize(g, TABLE, 16 * pages);
    lists_of(g, 4);
    for (size_t i = 0; i < SESSION_WORDS; i++)
        set(g, i, 0);
    for (size_t i = 0; i < 2 * pages; i++)
        set_word(g, TABLE, i, 0);
    set(g, PHASE, phase);
    set(g, COUNT, pages);
    set(g, TLB, 2);
    set(g, MIG, phase == IDLE ? 0 : 1);
    set(g, N, 5);
    return g;
}

void resize(guest *g, part p, size_t bytes)
{
    g->now[p] = resized(g->now[p], bytes);
    g->expected[p] = resized(g->expected[p], bytes);
}

void lists_of(guest *g, size_t words)
{
    for (part p = LIST; p <= BUFFER; p++) {
        resize(g, p, 0);
        resize(g, p, 8 * words);
    }
}

uint64_t word(const guest *g, part p, size_t i) { return number_at(g->now[p], 8 * i); }

void expect_word(guest *g, part p, size_t i, uint64_t w) { put_word(g->expected[p], i, w); }

void set_word(guest *g, part p, size_t i, uint64_t w)
{
    put_word(g->now[p], i, w);
    expect_word(g, p, i, w);
}

uint64_t get(const guest *g, size_t field) { return word(g, SESSION, field); }
void set(guest *g, size_t field, uint64_t value) { set_word(g, SESSION, field, value); }
void expect(guest *g, size_t field, uint64_t value) { expect_word(g, SESSION, field, value); }

void expect_interrupted(guest *g, size_t i, interruption s)
{
    const uint64_t words[STREAM_WORDS] = {1, s.next, s.last, s.errors, s.data};
    for (size_t w = 0; w < STREAM_WORDS; w++)
        expect(g, STREAMS + STREAM_WORDS * i + w, words[w]);
}

void set_interrupted(guest *g, size_t i, interruption s)
{
    expect_interrupted(g, i, s);
    for (size_t w = STREAMS + STREAM_WORDS * i; w < STREAMS + STREAM_WORDS * (i + 1); w++)
        set(g, w, number_at(g->expected[SESSION], 8 * w));
}

void expect_at_rest(guest *g, size_t i)
{
    for (size_t w = 0; w < STREAM_WORDS; w++)
        expect(g, STREAMS + STREAM_WORDS * i + w, 0);
}

uint64_t record(page p) { return p.state | p.dirty << 8 | p.cached << 9 | p.stamp << 16 | p.epoch << 32 | p.spare; }

void expect_page(guest *g, size_t i, page p)
{
    expect_word(g, TABLE, 2 * i, record(p));
    expect_word(g, TABLE, 2 * i + 1, p.mark);
}

void set_page(guest *g, size_t i, page p)
{
    set_word(g, TABLE, 2 * i, record(p));
    set_word(g, TABLE, 2 * i + 1, p.mark);
}

uint64_t state_of(const guest *g, size_t i) { return word(g, TABLE, 2 * i) & 0xff; }

uint64_t entry(uint64_t page_number) { return entry_op(page_number, 1); }
uint64_t entry_op(uint64_t page_number, uint64_t operation) { return page_number << 12 | operation << 52; }
uint64_t info(uint64_t first, uint64_t last) { return first << 3 | last << 55; }

/* ---- calls ---- */

#define LENT(p) g->now[p].bytes, g->now[p].len
#define GUEST LENT(SESSION), LENT(TABLE)

static answer of_token(chirp_token_answer a) { return (answer){.code = a.code, .page = a.page}; }
static answer of_scan(chirp_scan_answer a) { return (answer){.code = a.code, .next = a.next, .first = a.first, .last = a.last}; }
static answer of_export(chirp_export_answer a)
{
    return (answer){.code = a.code, .info = a.info, .errors = a.errors, .buffers = a.buffers};
}

static answer of_list(chirp_list_answer a) { return (answer){.code = a.code, .info = a.info}; }

static answer perform(guest *g, call c, operands o)
{
    switch (c) {
    case NEW: return (answer){.code = chirp_new(GUEST, o.streams)};
    case WRITE: return (answer){.code = chirp_write(GUEST, o.page, o.mark)};
    case ADD: return (answer){.code = chirp_add(GUEST, o.page)};
    case ACCEPT: return (answer){.code = chirp_accept(GUEST, o.page)};
    case BLOCK: return (answer){.code = chirp_block(GUEST, o.page)};
    case UNBLOCK: return (answer){.code = chirp_unblock(GUEST, o.page)};
    case REMOVE: return (answer){.code = chirp_remove(GUEST, o.page)};
    case TRACK: return (answer){.code = chirp_track(GUEST)};
    case START: return (answer){.code = chirp_start(GUEST)};
    case PAUSE: return (answer){.code = chirp_pause(GUEST)};
    case ABORT: return (answer){.code = chirp_abort(GUEST)};
    case NEW_EPOCH: return (answer){.code = chirp_new_epoch(GUEST)};
    case RESET: return (answer){.code = chirp_reset(GUEST)};
    case TOKEN: return of_token(chirp_start_token(GUEST));
    case DSCAN: return of_scan(chirp_dscan(GUEST, o.first, o.count, LENT(LIST), o.budget));
    case DCHECK: return of_scan(chirp_dcheck(GUEST, LENT(LIST), o.budget));
    case EXPORT: return of_export(chirp_export(GUEST, LENT(LIST), LENT(BUFFER), o.stream, o.resume, o.info, o.budget));
    case RESTORE: return of_list(chirp_restore(GUEST, LENT(LIST), o.info, o.budget));
    default: abort();
    }
}

static int is_refusal(uint64_t code) { return code >= 40 && code != 51; }

/* Performs the call and checks its code, and of a refusal that it answers nothing else and leaves every byte. */
answer runs(place at, guest *g, uint64_t code, call c, operands o)
{
    if (is_refusal(code))
        return refused(at, g, code, c, o);
    answer a = perform(g, c, o);
    check_equal(at, "code", a.code, code);
    expect_what_is(g);
    return a;
}

answer answers(place at, guest *g, uint64_t code, call c, operands o)
{
    answer a = perform(g, c, o);
    check_equal(at, "code", a.code, code);
    check_parts(at, g);
    expect_what_is(g);
    return a;
}

answer refused(place at, guest *g, uint64_t code, call c, operands o)
{
    expect_what_is(g);
    answer a = answers(at, g, code, c, o);
    if (code != 53 && code != 54)
        check_equal(at, "page of a refusal", a.page, 0);
    check_scan(at, a, 0, 0, 0);
    check_export(at, a, 0, 0, 0);
    return a;
}

void check_scan(place at, answer a, uint64_t next, uint64_t first, uint64_t last)
{
    check_equal(at, "next page", a.next, next);
    check_equal(at, "first entry", a.first, first);
    check_equal(at, "last entry", a.last, last);
}

void check_export(place at, answer a, uint64_t info_word, uint64_t errors, uint64_t buffers)
{
    check_equal(at, "info word", a.info, info_word);
    check_equal(at, "errors", a.errors, errors);
    check_equal(at, "buffers", a.buffers, buffers);
}
