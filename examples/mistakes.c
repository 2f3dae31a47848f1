/*
 * Three mistakes that students make, what the bench answered, and what would have been lost.
 *
 *   gcc -std=c11 -Iinclude examples/mistakes.c target/staticlib/libchirpsteeple.a -o mistakes && ./mistakes
 *
 * On another processor than x86-64, .ci/x86-64 gcc .. and .ci/x86-64 ./mistakes.
 *
 * The exit status is 0 if the bench answered as is told here.
 */
#include "must.h"

enum { PAGES = 9, BUDGET = 1000 };

struct bench {
    uint8_t session[CHIRP_SESSION_BYTES], table[PAGES * CHIRP_PAGE_BYTES];
    uint8_t list[PAGES * CHIRP_WORD_BYTES], buffer[PAGES * CHIRP_WORD_BYTES];
    uint64_t destination[PAGES]; /* what was last sent of each page */
};

#define LIST(bench) (bench)->list, sizeof(bench)->list

/* Says what a call answered, and ends if it is not what this text tells. */
static void told(const char *call, uint64_t code, uint64_t wanted)
{
    printf("  %-12s answers %2u, %s\n", call, (unsigned)code, code_name(code));
    expect(call, code, wanted);
}

static void silent(uint64_t code) { must_be_done(code, "a call on the way"); }

/* Exports the list's first entries, and hands on to the destination what was sent. */
static chirp_export_answer export_entries(struct bench *bench, uint64_t entries)
{
    size_t bytes = entries * CHIRP_WORD_BYTES;
    chirp_export_answer answer = chirp_export(BENCH(bench), bench->list, bytes, bench->buffer, bytes, 0, 0, info_for(0, entries - 1), BUDGET);
    silent(answer.code);
    for (uint64_t i = 0; i < entries; i++) {
        uint64_t entry = word_at(bench->list, i);
        if (entry_status(entry) == CHIRP_STATUS_SUCCESS)
            bench->destination[entry_page(entry)] = word_at(bench->buffer, i);
    }
    return answer;
}

static chirp_scan_answer scan(struct bench *bench) { return chirp_dscan(BENCH(bench), 0, PAGES, LIST(bench), BUDGET); }

/* A guest with every page present, its migration begun; page i holds 100 + i. */
static void begin(struct bench *bench)
{
    *bench = (struct bench){0};
    silent(chirp_new(BENCH(bench), 2));
    for (uint64_t page = 0; page < PAGES; page++) {
        silent(chirp_add(BENCH(bench), page));
        silent(chirp_accept(BENCH(bench), page));
        silent(chirp_write(BENCH(bench), page, 100 + page));
    }
    silent(chirp_start(BENCH(bench)));
}

/* A first round as it should be: scan, track, export. */
static void first_round(struct bench *bench)
{
    silent(scan(bench).code);
    silent(chirp_track(BENCH(bench)));
    expect("errors of the first round", export_entries(bench, PAGES).errors, 0);
    silent(chirp_new_epoch(BENCH(bench)));
}

static void page_numbers_for_addresses(void)
{
    struct bench bench;
    printf("1. A page number where a byte address belongs\n"
           "  All %d pages are to be sent. The student writes entries for pages 0 to %d with the page's number as the address: 5, not 0x5000.\n",
           PAGES, PAGES - 1);
    begin(&bench);
    silent(scan(&bench).code);
    silent(chirp_track(BENCH(&bench)));
    for (uint64_t page = 0; page < PAGES; page++)
        put_word(bench.list, page, entry_for(0) | page);
    chirp_export_answer answer = export_entries(&bench, PAGES);
    told("export", answer.code, CHIRP_DONE);
    printf("  A student who stops reading here thinks that the pages are sent. But errors are %u, and the entries tell:\n", (unsigned)answer.errors);
    unsigned right = 0;
    for (uint64_t page = 0; page < PAGES; page++) {
        uint64_t entry = word_at(bench.list, page);
        printf("    meant page %u: about page %u, status %2u %s\n", (unsigned)page, (unsigned)entry_page(entry), entry_status(entry),
               status_name(entry_status(entry)));
        right += entry_status(entry) == CHIRP_STATUS_SUCCESS;
    }
    expect("errors", answer.errors, PAGES - 1);
    expect("entries sent", right, 1);
    printf("  The number lands in the entry's low bits: 1 is LEVEL 1, 4 is PENDING, 8 is STATE 1. PENDING and STATE are ignored on the way in, so 4\n"
           "  and 8 speak of page 0 again, which has just been sent. Only page 0 was right, and by accident. The guest is paused and checked:\n");
    told("pause", chirp_pause(BENCH(&bench)), CHIRP_DONE);
    told("dcheck", chirp_dcheck(BENCH(&bench), LIST(&bench), BUDGET).code, CHIRP_CHECK_COMPLETE);
    chirp_token_answer token = chirp_start_token(BENCH(&bench));
    told("start token", token.code, CHIRP_UNEXPORTED_MEMORY_REMAINS);
    expect("page", token.page, 1);
    printf("  It names page %u. Lost would have been: pages 1 to %d, all that they hold.\n\n", (unsigned)token.page, PAGES - 1);
}

/* What a module that does not ask for tracking would have made of an export of the page: sent, exported in this epoch, all else as it was. */
static void let_through(struct bench *bench, uint64_t page)
{
    bench->destination[page] = mark_at(bench->table, page);
    uint64_t epoch = word_at(bench->session, CHIRP_SESSION_MIGRATION_EPOCH);
    uint64_t kept = record_at(bench->table, page) & ~(UINT64_C(0xffff) << 32 | 0xff);
    put_word(bench->table, 2 * page, epoch << 32 | kept | CHIRP_STATE_EXPORTED);
}

/* A processor that still holds the old translation writes to the page, and no Dirty bit tells. */
static void unseen_write(struct bench *bench, uint64_t page, uint64_t mark)
{
    silent(chirp_write(BENCH(bench), page, mark));
    expect("Dirty after a write through the old translation", record_at(bench->table, page) & DIRTY, 0);
}

/* How it goes on where the page was let through. */
static void lost_unseen(struct bench *bench)
{
    let_through(bench, 3);
    unseen_write(bench, 3, 501);
    printf("  Had it let it go (here we write into a copy of the table what it would have written), %u would have been sent. Then a processor that\n"
           "  still holds the old translation writes 501, and Dirty stays clear. The guest is paused:\n",
           (unsigned)bench->destination[3]);
    silent(chirp_pause(BENCH(bench)));
    chirp_scan_answer check = chirp_dcheck(BENCH(bench), LIST(bench), BUDGET);
    told("dcheck", check.code, CHIRP_CHECK_COMPLETE);
    expect("first of an empty list", check.first, CHIRP_MAX_ENTRIES - 1);
    told("start token", chirp_start_token(BENCH(bench)).code, CHIRP_DONE);
    printf("  The check lists nothing, the token is granted, and the destination wakes with %u where the guest had %u.\n",
           (unsigned)bench->destination[3], (unsigned)mark_at(bench->table, 3));
    expect("sent", bench->destination[3], 500);
    expect("the guest's", mark_at(bench->table, 3), 501);
}

static void copied_at_once(void)
{
    struct bench bench;
    printf("2. Dirty cleared, and the page copied at once\n"
           "  The pages have been sent once. Page 3, the payroll, is written again: 500. The scan lists it and clears Dirty, and the student exports\n"
           "  it at once.\n");
    begin(&bench);
    first_round(&bench);
    silent(chirp_write(BENCH(&bench), 3, 500));
    silent(scan(&bench).code);
    expect("the page listed", word_at(bench.list, 0), entry_for(3) | CHIRP_HINT_EXPORTED_MODIFIED << 3);
    expect("Dirty after the scan", record_at(bench.table, 3) & DIRTY, 0);
    struct bench careless = bench;

    chirp_export_answer answer = export_entries(&bench, 1);
    unsigned status = entry_status(word_at(bench.list, 0));
    printf("  The export's entry has status %u, %s: the bench does not let the page go.\n", status, status_name(status));
    expect("status", status, CHIRP_STATUS_TLB_TRACKING_NOT_DONE);
    expect("errors", answer.errors, 1);

    lost_unseen(&careless);

    unseen_write(&bench, 3, 501);
    silent(chirp_track(BENCH(&bench)));
    put_word(bench.list, 0, entry_for(3));
    expect("errors", export_entries(&bench, 1).errors, 0);
    printf("  On the bench the same write goes unseen too. But after a track the old translation is gone, and only now the page is let go: the export\n"
           "  sends %u.\n\n",
           (unsigned)bench.destination[3]);
    expect("sent", bench.destination[3], 501);
}

static void paused_and_done(void)
{
    struct bench bench;
    printf("3. Pausing is not finishing\n"
           "  The pages have been sent once. The guest writes 502 to page 2 and 507 to page 7; the student pauses and asks for the token.\n");
    begin(&bench);
    first_round(&bench);
    silent(chirp_write(BENCH(&bench), 2, 502));
    silent(chirp_write(BENCH(&bench), 7, 507));
    told("pause", chirp_pause(BENCH(&bench)), CHIRP_DONE);
    told("start token", chirp_start_token(BENCH(&bench)).code, CHIRP_MEM_SCAN_DCHECK_NOT_DONE);
    chirp_scan_answer check = chirp_dcheck(BENCH(&bench), LIST(&bench), BUDGET);
    told("dcheck", check.code, CHIRP_CHECK_COMPLETE);
    printf("  It lists %u pages, and listing them sends nothing:\n", (unsigned)check.last + 1);
    chirp_token_answer token = chirp_start_token(BENCH(&bench));
    told("start token", token.code, CHIRP_EXPORTED_DIRTY_PAGES_REMAIN);
    expect("page", token.page, 2);
    expect("entries listed", check.last + 1, 2);
    printf("  It names page %u. Lost would have been:\n", (unsigned)token.page);
    for (uint64_t i = 0; i <= check.last; i++) {
        uint64_t page = entry_page(word_at(bench.list, i));
        printf("    page %u: the guest has %u, the destination %u\n", (unsigned)page, (unsigned)mark_at(bench.table, page),
               (unsigned)bench.destination[page]);
    }
    chirp_export_answer answer = export_entries(&bench, check.last + 1);
    told("export", answer.code, CHIRP_DONE);
    expect("errors", answer.errors, 0);
    told("start token", chirp_start_token(BENCH(&bench)).code, CHIRP_DONE);
}

int main(void)
{
    page_numbers_for_addresses();
    copied_at_once();
    paused_and_done();
    return 0;
}
