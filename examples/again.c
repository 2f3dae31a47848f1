/*
 * A migration that is given up halfway, and done again: abort, restore, start, token.
 *
 *   gcc -std=c11 -Iinclude examples/again.c target/staticlib/libchirpsteeple.a -o again && ./again
 *
 * On another processor than x86-64, .ci/x86-64 gcc .. and .ci/x86-64 ./again.
 *
 * An abort ends the migration and changes no page: what was exported is left so, and a start is refused until all of it is restored. The guest works
 * on meanwhile. The exit status is 0 if the second migration moved the guest.
 */
#include "driver.h"

#include <string.h>

/* A setting more, beside those of driver.h. */
#ifndef RESTORE_BUDGET
#define RESTORE_BUDGET 200 /* entries in a call, so that a restore can be interrupted */
#endif

/* Pages that were exported, and are not back. */
static unsigned left_exported(const struct guest *guest)
{
    unsigned left = 0;
    for (uint64_t page = 0; page < PAGES; page++)
        left += state_at(guest->table, page) >= CHIRP_STATE_EXPORTED;
    return left;
}

/* In the second round, after one call on a stream: some pages are removed and not yet cancelled at the destination, others blocked. */
static void give_up(struct driver *driver)
{
    static uint8_t table[sizeof driver->guest.table];
    struct guest *guest = &driver->guest;
    size_t before = driver->sent;
    begin_round(driver, 2);
    begin(driver, &driver->operations[0], 0);
    if (driver->operations[0].running)
        step(driver, 0);
    host_blocks(guest);
    driver->left -= driver->sent - before;
    print_round(driver, "round 2", driver->sent - before);
    memcpy(table, guest->table, sizeof table);
    must_be_done(chirp_abort(BENCH(guest)), "abort");
    expect("whether the abort changed the table", memcmp(table, guest->table, sizeof table) != 0, 0);
    printf("aborted, stream 0 %s; %u pages are left exported\n", driver->operations[0].running ? "interrupted" : "at rest", left_exported(guest));
}

/* The guest need not wait: an exported page takes its writes. */
static void write_lands(struct guest *guest)
{
    for (uint64_t page = 0; page < PAGES; page++)
        if (state_at(guest->table, page) == CHIRP_STATE_EXPORTED) {
            guest_writes(guest, page);
            expect("what the page holds", mark_at(guest->table, page), guest->memory[page].contents);
            printf("a write to page %u lands while Idle, in state %u\n", (unsigned)page, state_at(guest->table, page));
            return;
        }
}

/* Tries to start again, which is refused as long as a page is left exported. */
static bool starts(struct guest *guest)
{
    uint64_t wanted = left_exported(guest) > 0 ? CHIRP_EPT_ENTRY_STATE_INCORRECT : CHIRP_DONE;
    uint64_t code = chirp_start(BENCH(guest));
    printf("start answers %u, %s\n", (unsigned)code, code_name(code));
    expect("start", code, wanted);
    return code == CHIRP_DONE;
}

/*
 * Restores a list of what was sent, from message next on; returns how many entries it has. An entry goes in as it came out of the export: MIGRATE and
 * REMIGRATE ask for the page, CANCEL does not. A page that was sent twice, or cancelled later, is back already: status 4. The session keeps nothing of
 * an interrupted restore, which goes on at FIRST of the info word that it returned.
 */
static size_t restore_list(struct driver *driver, unsigned number, size_t next)
{
    uint8_t list[CHIRP_MAX_ENTRIES * CHIRP_WORD_BYTES];
    size_t entries = driver->sent - next < CHIRP_MAX_ENTRIES ? driver->sent - next : CHIRP_MAX_ENTRIES;
    for (size_t i = 0; i < entries; i++)
        put_word(list, i, driver->line[next + i].entry);
    chirp_list_answer answer = {.info = info_for(0, entries - 1)};
    unsigned calls = 0;
    do {
        answer = chirp_restore(BENCH(&driver->guest), list, entries * CHIRP_WORD_BYTES, answer.info, RESTORE_BUDGET);
        must(answer.code <= CHIRP_INTERRUPTED, "restore", answer.code);
        guest_works(&driver->guest, GUEST_MOVES);
        calls++;
    } while (answer.code == CHIRP_INTERRUPTED);
    for (size_t i = 0; i < entries; i++)
        driver->statuses[entry_status(word_at(list, i))]++;
    printf("list %-6u entries %3zu  calls %3u  restored %3u  left %4u", number, entries, calls, driver->statuses[CHIRP_STATUS_SUCCESS],
           left_exported(&driver->guest));
    print_errors(driver);
    return entries;
}

static void restore_and_start(struct driver *driver)
{
    size_t next = 0;
    for (unsigned number = 1; !starts(&driver->guest); number++) {
        must(next < driver->sent, "start after the last list", CHIRP_EPT_ENTRY_STATE_INCORRECT);
        next += restore_list(driver, number, next);
    }
}

int main(void)
{
    static struct driver first, again;
    guest_boots(&first.guest, STREAMS);
    must_be_done(chirp_start(BENCH(&first.guest)), "start");
    first_scan(&first);
    pre_copy_round(&first, 1);
    give_up(&first);
    write_lands(&first.guest);
    restore_and_start(&first);
    /* What the first driver sent is void: the second has the guest and nothing else of it. The host goes on with the pages that it had blocked. */
    again.guest = first.guest;
    must_be_done(chirp_track(BENCH(&again.guest)), "track");
    host_removes(&again.guest);
    return migrate(&again) ? 0 : 1;
}
