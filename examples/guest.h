/* A guest that works while it is moved, and the memory that it has: what the driver must carry over, and never looks at before the end. */
#ifndef GUEST_H
#define GUEST_H

#include "must.h"

#ifndef PAGES
#define PAGES 2000 /* 1 to 4,096 */
#endif

enum { WORKING_SET = PAGES < 90 ? PAGES : 90, BLOCKED_AT_ONCE = 6 };

struct page {
    enum { ABSENT, PENDING, PRESENT } kind;
    uint64_t contents; /* 0 unless present */
};

struct guest {
    uint8_t session[CHIRP_SESSION_BYTES];
    uint8_t table[PAGES * CHIRP_PAGE_BYTES];
    struct page memory[PAGES];
    uint64_t blocked[BLOCKED_AT_ONCE];
    size_t blocked_count;
    uint64_t random;
};

/* A number below the bound (xorshift; the same in every run). */
static inline uint64_t draw(struct guest *guest, uint64_t bound)
{
    guest->random ^= guest->random << 13;
    guest->random ^= guest->random >> 7;
    guest->random ^= guest->random << 17;
    return (guest->random >> 16) % bound;
}

/*
 * Whether the page may answer 45 to its guest: blocked by the host; removed, and not yet cancelled at the destination; or pending, and left exported
 * by an abort, so that it cannot be accepted before it is restored.
 */
static inline bool out_of_reach(const struct guest *guest, uint64_t page)
{
    switch (state_at(guest->table, page)) {
    case CHIRP_STATE_BLOCKED:
    case CHIRP_STATE_PENDING_BLOCKED:
    case CHIRP_STATE_EXPORTED_BLOCKED:
    case CHIRP_STATE_PENDING_EXPORTED_BLOCKED:
    case CHIRP_STATE_EXPORTED_REMOVED: return true;
    case CHIRP_STATE_PENDING_EXPORTED:
    case CHIRP_STATE_PENDING_EXPORTED_MODIFIED: return word_at(guest->session, CHIRP_SESSION_PHASE) == CHIRP_PHASE_IDLE;
    default: return false;
    }
}

/* A page gets its new kind and contents if the call was done; a refusal is only right for a page out of reach. */
static inline void settle(struct guest *guest, uint64_t page, uint64_t code, struct page after)
{
    if (code == CHIRP_DONE)
        guest->memory[page] = after;
    else
        must(code == CHIRP_EPT_ENTRY_STATE_INCORRECT && out_of_reach(guest, page), "a guest's move", code);
}

static inline void guest_writes(struct guest *guest, uint64_t page)
{
    uint64_t mark = draw(guest, UINT64_MAX);
    settle(guest, page, chirp_write(BENCH(guest), page, mark), (struct page){PRESENT, mark});
}

static inline void guest_accepts(struct guest *guest, uint64_t page)
{
    settle(guest, page, chirp_accept(BENCH(guest), page), (struct page){PRESENT, 0});
}

static inline void host_adds(struct guest *guest, uint64_t page)
{
    settle(guest, page, chirp_add(BENCH(guest), page), (struct page){PENDING, 0});
}

/* The guest goes on with its work: mostly writes, and most of them to a small working set. */
static inline void guest_works(struct guest *guest, unsigned moves)
{
    while (moves-- > 0) {
        uint64_t dice = draw(guest, 100);
        uint64_t page = draw(guest, dice < 70 ? WORKING_SET : PAGES);
        switch (guest->memory[page].kind) {
        case PRESENT: guest_writes(guest, page); break;
        case PENDING: guest_accepts(guest, page); break;
        case ABSENT:
            if (dice >= 95)
                host_adds(guest, page);
            break;
        }
    }
}

/* The host wants some pages back, if it finds them: it blocks them, and has to wait for the next track. */
static inline void host_blocks(struct guest *guest)
{
    for (unsigned looks = 0; looks < 100 && guest->blocked_count < BLOCKED_AT_ONCE; looks++) {
        uint64_t page = draw(guest, PAGES);
        if (guest->memory[page].kind == ABSENT || out_of_reach(guest, page))
            continue;
        must_be_done(chirp_block(BENCH(guest), page), "block");
        guest->blocked[guest->blocked_count++] = page;
    }
}

/* After a track it removes them, but one that it gives back. */
static inline void host_removes(struct guest *guest)
{
    while (guest->blocked_count > 1) {
        uint64_t page = guest->blocked[--guest->blocked_count];
        must_be_done(chirp_remove(BENCH(guest), page), "remove");
        guest->memory[page] = (struct page){ABSENT, 0};
    }
    if (guest->blocked_count > 0)
        must_be_done(chirp_unblock(BENCH(guest), guest->blocked[--guest->blocked_count]), "unblock");
}

/* A guest that has run for a while: of ten pages seven are present, one is pending and two are free. */
static inline void guest_boots(struct guest *guest, uint64_t streams)
{
    *guest = (struct guest){.random = 88172645463325252u};
    must_be_done(chirp_new(BENCH(guest), streams), "new");
    for (uint64_t page = 0; page < PAGES; page++) {
        uint64_t dice = draw(guest, 10);
        if (dice < 8)
            host_adds(guest, page);
        if (dice < 7)
            guest_accepts(guest, page);
        if (dice < 7)
            guest_writes(guest, page);
    }
}

#endif
