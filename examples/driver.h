/*
 * A migration driver: what it keeps, its scans and exports, its rounds, the pause with the last lists, and the destination.
 *
 * Pre-copy rounds: scan, track, export, until a scan finds little. Then pause, check, the last lists, token.
 */
#ifndef DRIVER_H
#define DRIVER_H

#include "guest.h"

/* Settings, to be changed here or for the compiler, as -DLIST=512; guest.h has PAGES. */
#ifndef STREAMS
#define STREAMS 3 /* created, 2 to 9; all but one are usable */
#endif
#ifndef LIST
#define LIST 128 /* entries in a list, 1 to 512 */
#endif
#ifndef SCAN_BUDGET
#define SCAN_BUDGET 500 /* pages in a call, so that a scan can be interrupted */
#endif
#ifndef EXPORT_BUDGET
#define EXPORT_BUDGET 50 /* entries in a call, so that streams are interrupted */
#endif

enum {
    USABLE = STREAMS - 1,
    GUEST_MOVES = 25,    /* of the guest, while a call on a stream is under way */
    LITTLE = 75,         /* pages left that a pause can bear */
    ROUNDS = 20,         /* a guest that writes faster than we send is paused all the same */
    MAC_ENTRIES = 256,   /* whose MACs are in one buffer */
    STATUSES = 32
};

/* What goes over the line for one entry: the entry as the export returned it, and its buffer word. */
struct message {
    uint64_t epoch, entry, contents;
};

/* One export of a list on a stream. It may take several calls; errors and data pages are counted over all of them. */
struct operation {
    uint8_t list[LIST * CHIRP_WORD_BYTES], buffer[LIST * CHIRP_WORD_BYTES];
    size_t entries;
    uint64_t resume, info, errors, data;
    bool running;
};

struct driver {
    struct guest guest;
    uint64_t listed[PAGES]; /* entries that the last scan found */
    size_t left;            /* how many; after an export, those of them that were not sent */
    struct operation operations[USABLE];
    struct message line[(ROUNDS + 1) * PAGES]; /* no page goes twice in an epoch, and each round has one, and the last lists */
    size_t sent;
    struct page destination[PAGES];
    unsigned statuses[STATUSES];
};

static inline uint64_t migration_epoch(const struct driver *driver) { return word_at(driver->guest.session, CHIRP_SESSION_MIGRATION_EPOCH); }

/* ---- Scans ---- */

/* An empty answer is first 511 and last 0. */
static inline void take_listed(struct driver *driver, chirp_scan_answer answer, const uint8_t *list)
{
    for (uint64_t i = answer.first; i <= answer.last; i++)
        driver->listed[driver->left++] = word_at(list, i);
}

static inline void scan(struct driver *driver)
{
    uint8_t list[LIST * CHIRP_WORD_BYTES];
    chirp_scan_answer answer = {.next = 0};
    driver->left = 0;
    do {
        answer = chirp_dscan(BENCH(&driver->guest), answer.next, PAGES - answer.next, list, sizeof list, SCAN_BUDGET);
        must(answer.code <= CHIRP_LIST_FULL, "dscan", answer.code);
        take_listed(driver, answer, list);
        guest_works(&driver->guest, 4);
    } while (answer.code != CHIRP_DONE);
}

static inline unsigned check(struct driver *driver)
{
    uint8_t list[LIST * CHIRP_WORD_BYTES];
    chirp_scan_answer answer;
    unsigned calls = 0;
    driver->left = 0;
    do {
        answer = chirp_dcheck(BENCH(&driver->guest), list, sizeof list, SCAN_BUDGET);
        must(answer.code <= CHIRP_CHECK_COMPLETE, "dcheck", answer.code);
        take_listed(driver, answer, list);
        calls++;
    } while (answer.code != CHIRP_CHECK_COMPLETE);
    return calls;
}

/* ---- Export ---- */

/* Only an entry with status 0 was exported. Any other page stays as it was; if it still has to go, a later scan lists it again. */
static inline void read_back(struct driver *driver, struct operation *operation, uint64_t from, uint64_t to)
{
    for (uint64_t i = from; i < to; i++) {
        uint64_t entry = word_at(operation->list, i);
        unsigned status = entry_status(entry);
        driver->statuses[status]++;
        if (status != CHIRP_STATUS_SUCCESS) {
            operation->errors += status != CHIRP_STATUS_SKIPPED;
            continue;
        }
        operation->data += entry_operation(entry) != CHIRP_OPERATION_CANCEL && !entry_pending(entry);
        driver->line[driver->sent++] = (struct message){migration_epoch(driver), entry, word_at(operation->buffer, i)};
    }
}

/* Takes up to a list of entries from those that the scan listed, beginning at next; returns how many. */
static inline size_t begin(struct driver *driver, struct operation *operation, size_t next)
{
    size_t entries = driver->left - next < LIST ? driver->left - next : LIST;
    for (size_t i = 0; i < entries; i++)
        put_word(operation->list, i, driver->listed[next + i]);
    operation->entries = entries;
    operation->resume = operation->errors = operation->data = 0;
    operation->running = entries > 0;
    if (operation->running)
        operation->info = info_for(0, entries - 1);
    return entries;
}

/* One call on a stream: as many entries as the budget allows. */
static inline void step(struct driver *driver, uint64_t stream)
{
    struct operation *operation = &driver->operations[stream];
    size_t bytes = operation->entries * CHIRP_WORD_BYTES;
    chirp_export_answer answer = chirp_export(BENCH(&driver->guest), operation->list, bytes, operation->buffer, bytes, stream, operation->resume,
                                              operation->info, EXPORT_BUDGET);
    must(answer.code <= CHIRP_INTERRUPTED, "export", answer.code);
    operation->running = answer.code == CHIRP_INTERRUPTED;
    read_back(driver, operation, info_first(operation->info), operation->running ? info_first(answer.info) : operation->entries);
    operation->resume = 1;
    operation->info = answer.info;
    if (!operation->running) {
        expect("errors that the export counted", answer.errors, operation->errors);
        uint64_t macs = (operation->entries + MAC_ENTRIES - 1) / MAC_ENTRIES;
        expect("buffers that the export counted", answer.buffers, 1 + macs + operation->data);
    }
}

/* Exports all that was listed, on the usable streams by turns, while the guest works if it may. Returns how many entries were sent. */
static inline size_t export_all(struct driver *driver, unsigned moves)
{
    size_t before = driver->sent, next = 0;
    bool running;
    do {
        running = false;
        for (uint64_t stream = 0; stream < USABLE; stream++) {
            if (!driver->operations[stream].running)
                next += begin(driver, &driver->operations[stream], next);
            if (driver->operations[stream].running)
                step(driver, stream);
            running |= driver->operations[stream].running;
            guest_works(&driver->guest, moves);
        }
    } while (running || next < driver->left);
    driver->left -= driver->sent - before;
    return driver->sent - before;
}

/* ---- The migration ---- */

/* The errors among the statuses that were counted; from here on they are counted anew. */
static inline void print_errors(struct driver *driver)
{
    const char *separator = " ";
    printf("  errors:");
    for (unsigned status = 2; status < STATUSES; status++)
        if (driver->statuses[status]) {
            printf("%s%u %s", separator, driver->statuses[status], status_name(status));
            separator = ", ";
        }
    printf("%s\n", *separator == ',' ? "" : " none");
    for (unsigned status = 0; status < STATUSES; status++)
        driver->statuses[status] = 0;
}

static inline void print_round(struct driver *driver, const char *name, size_t sent)
{
    printf("%-11s epoch %2u  sent %4zu  left %4zu", name, (unsigned)migration_epoch(driver), sent, driver->left);
    print_errors(driver);
}

/* Between the scan and the export comes a track: until then a processor may write through an old translation, and no Dirty bit would tell. */
static inline void begin_round(struct driver *driver, unsigned round)
{
    struct guest *guest = &driver->guest;
    if (round > 1)
        must_be_done(chirp_new_epoch(BENCH(guest)), "new epoch");
    host_blocks(guest);
    must_be_done(chirp_track(BENCH(guest)), "track");
    host_removes(guest);
}

/* Sends what the last scan found, and scans again. */
static inline void pre_copy_round(struct driver *driver, unsigned round)
{
    char name[24];
    snprintf(name, sizeof name, "round %u", round);
    begin_round(driver, round);
    size_t sent = export_all(driver, GUEST_MOVES);
    scan(driver);
    print_round(driver, name, sent);
}

static inline void first_scan(struct driver *driver)
{
    scan(driver);
    print_round(driver, "first scan", 0);
}

static inline void pre_copy(struct driver *driver)
{
    first_scan(driver);
    for (unsigned round = 1; driver->left > LITTLE && round <= ROUNDS; round++)
        pre_copy_round(driver, round);
}

/* Pausing finishes nothing: the check finds what is left, and a page that was sent in this epoch can be sent again only in a new one. */
static inline bool blackout(struct driver *driver)
{
    struct guest *guest = &driver->guest;
    must_be_done(chirp_pause(BENCH(guest)), "pause");
    unsigned calls = check(driver);
    printf("paused; the check lists %zu pages in %u calls\n", driver->left, calls);
    must_be_done(chirp_new_epoch(BENCH(guest)), "new epoch");
    size_t sent = export_all(driver, 0);
    print_round(driver, "last lists", sent);
    chirp_token_answer token = chirp_start_token(BENCH(guest));
    if (token.code == CHIRP_DONE)
        printf("token granted\n");
    else
        printf("token refused: %u %s, page %u\n", (unsigned)token.code, code_name(token.code), (unsigned)token.page);
    return token.code == CHIRP_DONE;
}

/* ---- The destination ---- */

static inline void receive(struct driver *driver, const struct message *message)
{
    struct page *page = &driver->destination[entry_page(message->entry)];
    if (entry_operation(message->entry) == CHIRP_OPERATION_CANCEL)
        *page = (struct page){ABSENT, 0};
    else
        *page = (struct page){entry_pending(message->entry) ? PENDING : PRESENT, message->contents};
}

/* Epochs arrive in order; within one, streams may overtake each other. No page is twice in an epoch, so any order will do: here, backwards. */
static inline void replay(struct driver *driver)
{
    size_t end = 0;
    for (size_t begin = 0; begin < driver->sent; begin = end) {
        while (end < driver->sent && driver->line[end].epoch == driver->line[begin].epoch)
            end++;
        for (size_t i = end; i-- > begin;)
            receive(driver, &driver->line[i]);
    }
}

static inline bool compare(const struct driver *driver)
{
    unsigned kinds[PRESENT + 1] = {0}, different = 0;
    for (size_t i = 0; i < PAGES; i++) {
        const struct page *ours = &driver->guest.memory[i], *theirs = &driver->destination[i];
        different += ours->kind != theirs->kind || ours->contents != theirs->contents;
        kinds[theirs->kind]++;
    }
    printf("destination: %u present, %u pending, %u absent; of %d pages %u differ\n", kinds[PRESENT], kinds[PENDING], kinds[ABSENT], PAGES, different);
    return different == 0;
}

/* From the start on to the end. Whether the guest has moved: the token was granted, and the destination has its memory. */
static inline bool migrate(struct driver *driver)
{
    pre_copy(driver);
    bool granted = blackout(driver);
    replay(driver);
    bool moved = compare(driver) && granted;
    printf("%s\n", moved ? "the guest has moved" : "the guest has NOT moved");
    return moved;
}

#endif
