/*
 * Chirpsteeple: a bench that plays the TDX module's export side to a migration driver.
 *
 * One guest of 1 to 4,096 private pages of 4 KiB; page i has byte address 4,096*i. The bench keeps nothing of its own: session, table, list and
 * buffer are bytes that the caller lends for the time of a call. All numbers in them are little-endian; a word is 8 bytes, at any alignment. A call
 * takes less than 8 KiB of its thread's stack.
 *
 * A slice is a pointer and a length in bytes; it is const where no call of the kind changes it. No two slices of a call may overlap, and none may be
 * null with a length other than 0: nothing can test that. Every other operand may be anything and gets an answer.
 *
 * A refused call (codes 40 to 50 and 52 to 56) writes no byte anywhere. It answers its code; all other numbers in its answer are 0, but the page
 * for 53 and 54. The codes of a call stand below in the order in which they are tested: the first that applies is the answer.
 */
#ifndef CHIRPSTEEPLE_H
#define CHIRPSTEEPLE_H

#include <stddef.h>
#include <stdint.h>

#ifdef __cplusplus
extern "C" {
#endif

/* Sizes. */
enum {
    CHIRP_SESSION_BYTES = 384, /* a session, always */
    CHIRP_PAGE_BYTES = 16,     /* of the table for each page */
    CHIRP_WORD_BYTES = 8,      /* an entry of a list, a word of a buffer */
    CHIRP_MAX_PAGES = 4096,
    CHIRP_MAX_ENTRIES = 512,
    CHIRP_MAX_STREAMS = 8      /* places for streams in a session */
};

/* Codes. 51 is no refusal: see chirp_dcheck. */
enum {
    CHIRP_DONE = 0,
    CHIRP_INTERRUPTED = 1,                    /* the budget is spent: call again */
    CHIRP_LIST_FULL = 2,                      /* a scan's list has no room for the next page: call again with an empty one */
    CHIRP_CHECK_COMPLETE = 3,
    CHIRP_MALFORMED = 40,                     /* the session fits no layout, or the table's length is illegal or not the session's */
    CHIRP_OP_STATE_INCORRECT = 41,            /* not in this phase */
    CHIRP_OPERAND_INVALID = 42,
    CHIRP_OPERAND_BUSY = 43,                  /* some stream is interrupted */
    CHIRP_INVALID_RESUMPTION = 44,
    CHIRP_EPT_ENTRY_STATE_INCORRECT = 45,     /* the page's state, or that of some page, does not allow it */
    CHIRP_GPA_RANGE_NOT_BLOCKED = 46,
    CHIRP_TLB_TRACKING_NOT_DONE = 47,         /* blocked, but not tracked since */
    CHIRP_BLOCKED_MEMORY_EXISTS = 48,
    CHIRP_BLOCKING_DISALLOWED = 49,           /* block in Blackout */
    CHIRP_MEM_SCAN_RESET_REQUIRED = 50,       /* the check is complete or has failed */
    CHIRP_MEM_SCAN_FAILED_BLOCKED_RANGE = 51, /* the check met a blocked page, and has failed */
    CHIRP_MEM_SCAN_DCHECK_NOT_DONE = 52,      /* the check is not complete */
    CHIRP_EXPORTED_DIRTY_PAGES_REMAIN = 53,   /* with the lowest such page */
    CHIRP_UNEXPORTED_MEMORY_REMAINS = 54,     /* with the lowest such page */
    CHIRP_MIGRATION_EPOCH_OVERFLOW = 55,
    CHIRP_TLB_EPOCH_AT_LIMIT = 56
};

/*
 * The session: 48 words.
 *
 *   word 0               phase
 *   word 1               page count, 1 to 4,096
 *   word 2               TLB epoch, 1 to 65,535
 *   word 3               migration epoch, 0 in Idle, else 1 to 65,535
 *   word 4               N, the number of created streams, 2 to 9; stream i is usable if i < N-1
 *   word 5               check: next page, at most the page count
 *   word 6               check complete, 0 or 1; 1 only if the next page is the page count
 *   word 7               check failed, 0 or 1; not together with complete
 *   words 8+5i to 12+5i  stream i, for i in 0 to 7: interrupted (0 or 1), next entry, last entry, errors, data pages. All five are 0 at rest.
 *                        Interrupted: next <= last <= 511, errors <= next, data pages <= next; only a usable stream, only in Live or Blackout.
 *
 * Anything else is malformed (40). Every byte of a well-formed session is determined by what it says. A driver reads sessions; it has no need to
 * write them, since chirp_new makes the first.
 */
enum {
    CHIRP_SESSION_PHASE = 0,
    CHIRP_SESSION_PAGE_COUNT = 1,
    CHIRP_SESSION_TLB_EPOCH = 2,
    CHIRP_SESSION_MIGRATION_EPOCH = 3,
    CHIRP_SESSION_CREATED_STREAMS = 4,
    CHIRP_SESSION_CHECK_NEXT = 5,
    CHIRP_SESSION_CHECK_COMPLETE = 6,
    CHIRP_SESSION_CHECK_FAILED = 7,
    CHIRP_SESSION_STREAM_0 = 8,
    CHIRP_SESSION_STREAM_WORDS = 5
};

/* Phases. */
enum { CHIRP_PHASE_IDLE = 0, CHIRP_PHASE_LIVE = 1, CHIRP_PHASE_BLACKOUT = 2, CHIRP_PHASE_DONE = 3 };

/*
 * The table: two words a page, page 0 first.
 *
 *   word 0, the record   bits 7:0 state, 8 Dirty, 9 Cached, 31:16 stamp, 47:32 the migration epoch of the page's last export; other bits 0
 *   word 1, the mark     one number that stands for the page's contents
 *
 * The stamp is the TLB epoch in which the page was blocked or last listed by a scan. Cached says that some processor may still hold the
 * translation: a write through it sets no Dirty bit, until a track or a pause. A record in another state than these twelve, or with any of the
 * bits 15:10 and 63:48 set, is strange: it is in none of these states, scans pass it, and no call but New changes it. No word in a table makes a
 * call 40.
 */
enum {
    CHIRP_STATE_FREE = 0,
    CHIRP_STATE_BLOCKED = 1,
    CHIRP_STATE_PENDING = 2,
    CHIRP_STATE_PENDING_BLOCKED = 3,
    CHIRP_STATE_MAPPED = 4,
    CHIRP_STATE_EXPORTED = 24,
    CHIRP_STATE_EXPORTED_MODIFIED = 25,
    CHIRP_STATE_EXPORTED_BLOCKED = 26,
    CHIRP_STATE_EXPORTED_REMOVED = 27,
    CHIRP_STATE_PENDING_EXPORTED = 29,
    CHIRP_STATE_PENDING_EXPORTED_MODIFIED = 30,
    CHIRP_STATE_PENDING_EXPORTED_BLOCKED = 31
};

/*
 * A list: words, each an entry. Lists have at most 512 entries. Beside an export's list stands the buffer, one word an entry: the contents that go
 * with it.
 *
 *   bits 1:0    LEVEL       must be 0
 *   bit  2      PENDING     the page has no contents yet; ignored on the way in
 *   bits 4:3    STATE       a scan's hint; ignored on the way into an export, which returns 0; must be 0 on the way into a restore
 *   bits 6:5    reserved    must be 0
 *   bits 9:7    L2_MAP      ignored on the way in; an export returns 0
 *   bits 11:10  MIG_TYPE    must be 0
 *   bits 51:12  GPA         the page's number, which is bits 51:12 of its byte address: page 5 is 0x5000, and not 5
 *   bits 53:52  OPERATION   on the way into an export: 0 skip, 1 export; into a restore: 0 and 2 skip, 1 and 3 restore; on the way out: what was done
 *   bits 55:54  reserved    must be 0
 *   bits 60:56  STATUS      ignored on the way in
 *   bits 63:61  reserved    must be 0
 *
 * STATE, the hint.
 */
enum { CHIRP_HINT_NOT_EXPORTED = 0, CHIRP_HINT_EXPORTED_MODIFIED = 1, CHIRP_HINT_EXPORTED_BLOCKED = 2, CHIRP_HINT_EXPORTED_REMOVED = 3 };

/*
 * OPERATION of an export. MIGRATE and REMIGRATE make the page present at the destination, pending or with the buffer's word; CANCEL makes it absent.
 */
enum { CHIRP_OPERATION_NOP = 0, CHIRP_OPERATION_MIGRATE = 1, CHIRP_OPERATION_CANCEL = 2, CHIRP_OPERATION_REMIGRATE = 3 };

/* OPERATION of a restore: this or NOP. On the way in 3 is RESTORE as well, and 2 is NOP; out come 1 and 0 alone. */
enum { CHIRP_OPERATION_RESTORE = 1 };

/* STATUS of an export, in the order in which it is tested. A restore gives 15, 1, 2, 4 and 0 by tests of its own: see chirp_restore. */
enum {
    CHIRP_STATUS_GPA_LIST_ENTRY_INVALID = 15,    /* reserved bits, LEVEL or MIG_TYPE not 0, or OPERATION 2 or 3 */
    CHIRP_STATUS_SKIPPED = 1,                    /* OPERATION 0; no error */
    CHIRP_STATUS_SEPT_WALK_FAILED = 2,           /* the page is beyond the table */
    CHIRP_STATUS_SEPT_ENTRY_STATE_INCORRECT = 4, /* strange, 0, 1, 3, or 24 or 29 without Dirty */
    CHIRP_STATUS_MIGRATED_IN_CURRENT_EPOCH = 7,  /* exported or cancelled in this migration epoch already */
    CHIRP_STATUS_PAGE_DIRTY = 17,                /* Dirty: scan it again; not for 26, 27, 31 */
    CHIRP_STATUS_TLB_TRACKING_NOT_DONE = 5,      /* in Live, stamp 0 or not below the TLB epoch: scan, then track; not for 26, 27, 31 */
    CHIRP_STATUS_SUCCESS = 0
};

/*
 * The info word of an export or a restore.
 *
 *   bits 2:0    FORMAT   must be 0
 *   bits 11:3   FIRST    the entry to begin with: 0 in a new export, the answer's in a resumed one; in a restore any up to LAST
 *   bits 51:12  HPA      ignored, and returned as it came
 *   bits 54:52  zero     must be 0
 *   bits 63:55  LAST     the last entry of the operation
 */

typedef struct { uint64_t code, page; } chirp_token_answer;                  /* page: for 53 and 54 */
typedef struct { uint64_t code, next, first, last; } chirp_scan_answer;      /* next page; first and last entry written */
typedef struct { uint64_t code, info, errors, buffers; } chirp_export_answer;
typedef struct { uint64_t code, info; } chirp_list_answer;                   /* of a restore */

/* ---- Guest and memory calls ---- */

/*
 * New bench over the table, with N = streams. Table words all 0; session: Idle, the table's page count, TLB epoch 1, migration epoch 0, N, check
 * at page 0, neither complete nor failed, streams at rest. Comes in any phase; the session's bytes are not read, only their length is tested.
 * 40: session_len not 384; table_len not a multiple of 16, 0 or above 65,536. 42: N not 2 to 9. 0.
 */
uint64_t chirp_new(uint8_t *session, size_t session_len, uint8_t *table, size_t table_len, uint64_t streams);

/*
 * The six calls on one page touch that page alone, and change no byte of the session. They come in Idle and Live. In Idle a page in 24 to 27 or 29
 * to 31 waits for chirp_restore: write goes there as in Live, the other five are 45.
 * 40. 41: Blackout or Done (block: 49 in Blackout, 41 in Done). 42: page beyond the table. Then as said with each; then 0.
 */

/*
 * The guest writes mark to the page. In 4, 24, 25: the mark is stored; Dirty is set only if Cached is clear; then Cached is set. In 1 and 26 with
 * Cached set the mark is stored and nothing else changes. 45: any other case.
 */
uint64_t chirp_write(const uint8_t *session, size_t session_len, uint8_t *table, size_t table_len, uint64_t page, uint64_t mark);

/* The host adds a page: 0 becomes 2. Mark, Dirty, Cached and stamp become 0; the migration epoch stays. 45: any other state. */
uint64_t chirp_add(const uint8_t *session, size_t session_len, uint8_t *table, size_t table_len, uint64_t page);

/*
 * The guest accepts it: 2 becomes 4; in Live also 29 and 30, which become 25. Mark, Dirty, Cached and stamp become 0; the migration epoch stays.
 * 45: any other state.
 */
uint64_t chirp_accept(const uint8_t *session, size_t session_len, uint8_t *table, size_t table_len, uint64_t page);

/*
 * 4 becomes 1, 2 becomes 3; in Live also 24 and 25, which become 26, and 29 and 30, which become 31. Stamp = TLB epoch; all else stays.
 * 45: any other state.
 */
uint64_t chirp_block(const uint8_t *session, size_t session_len, uint8_t *table, size_t table_len, uint64_t page);

/*
 * 1 becomes 4, 3 becomes 2; in Live also 26, which becomes 25, and 31, which becomes 30. Stamp 0; all else stays.
 * 45: in Idle, a page in 24 to 27 or 29 to 31. 46: any other state. 47: stamp 0 or not below the TLB epoch.
 */
uint64_t chirp_unblock(const uint8_t *session, size_t session_len, uint8_t *table, size_t table_len, uint64_t page);

/*
 * 1 and 3 become 0; in Live also 26 and 31, which become 27. Mark, Dirty, Cached and stamp become 0; the migration epoch stays.
 * 45: in Idle, a page in 24 to 27 or 29 to 31. 46: any other state. 47: stamp 0 or not below the TLB epoch.
 */
uint64_t chirp_remove(const uint8_t *session, size_t session_len, uint8_t *table, size_t table_len, uint64_t page);

/*
 * Tracking with all processors interrupted: the TLB epoch plus one, and Cached cleared on every page that is not strange; all else stays.
 * 40. 41: Blackout or Done. 56: TLB epoch 65,535. 0.
 */
uint64_t chirp_track(uint8_t *session, size_t session_len, uint8_t *table, size_t table_len);

/* ---- Session calls ---- */

/*
 * Idle to Live: migration epoch 1, check reset, streams at rest; every page's migration epoch 0, and stamp 0 except in 1 and 3; all else stays.
 * 40. 41: not Idle. 45: some page in a state above 4, or strange; so after an abort until chirp_restore has brought every page back. 0.
 */
uint64_t chirp_start(uint8_t *session, size_t session_len, uint8_t *table, size_t table_len);

/*
 * Live to Blackout: Cached cleared on every page that is not strange; all else stays, the check's place too. It finishes nothing: DCHECK and token
 * are still to come.
 * 40. 41: not Live. 48: some page in 1, 3, 26 or 31. 43: some stream interrupted. 0.
 */
uint64_t chirp_pause(uint8_t *session, size_t session_len, uint8_t *table, size_t table_len);

/*
 * Live or Blackout to Idle: migration epoch 0, streams at rest, check reset; all else, and the whole table, stays. No page is looked at: what was
 * exported is left as it is, for chirp_restore.
 * 40. 41: Idle or Done. 0.
 */
uint64_t chirp_abort(uint8_t *session, size_t session_len, const uint8_t *table, size_t table_len);

/* The migration epoch plus one; all else, and the whole table, stays. 40. 41: Idle or Done. 43: some stream interrupted. 55: epoch 65,535. 0. */
uint64_t chirp_new_epoch(uint8_t *session, size_t session_len, const uint8_t *table, size_t table_len);

/* The check back to page 0, neither complete nor failed; all else, and the whole table, stays. 40. 41: Idle or Done. 0. */
uint64_t chirp_reset(uint8_t *session, size_t session_len, const uint8_t *table, size_t table_len);

/*
 * Blackout to Done, if every page is free (0), or exported and clean (24 or 29 without Dirty); nothing but the phase changes.
 * In Done every call but New is 41.
 * 40. 41: not Blackout. 43: some stream interrupted. 52: check not complete. 53: a page in 25, 26, 27, 30, 31, or in 24 or 29 with Dirty.
 * 54: a page in 1 to 4, or strange. 0. The answer's page is the lowest one that 53 or 54 speaks of.
 */
chirp_token_answer chirp_start_token(uint8_t *session, size_t session_len, const uint8_t *table, size_t table_len);

/* ---- Scans ---- */

/*
 * A scan visits pages in order and lists those that have to be exported, from entry 0 on; entries past those written stay. A list of 0 entries is
 * allowed. A listed entry has OPERATION 1, the page, the hint in STATE, PENDING 1 for 2, 29, 30, 31, and all other bits 0:
 *   hint 0: 2, 4.  hint 1: 25, 30, and 24, 29 with Dirty.  hint 2: 26, 31 (DSCAN alone).  hint 3: 27.
 * A listed 24 becomes 25, a listed 29 becomes 30; a listed page that is then in 2, 4, 25 or 30 gets Dirty 0 and stamp = TLB epoch. Nothing else in
 * the table changes: Cached stays, so track before you export. Every page visited costs 1 of the budget, listed or not.
 * In the answer, next counts from page 0 of the table, also for a scan that began at another page: past its last page it is first + count, so that a
 * DSCAN of pages 10 to 14 answers 15, and of a DCHECK the page count. First and last are 0 and the written count less 1; 511 and 0 if nothing was
 * written. Look at the code first: in a refusal first and last are both 0.
 */

/*
 * DSCAN of count pages from page first on, in Live. The session stays as it was: go on at next, with what is left of the count.
 * 40. 41: not Live. 42: the part is empty or not within the table; list not in whole words, or above 512.
 * Then at each page: 0 past the end, 1 if the budget is spent, 2 if the page is to be listed and there is no room (it is not touched then).
 */
chirp_scan_answer chirp_dscan(const uint8_t *session, size_t session_len, uint8_t *table, size_t table_len,
                              uint64_t first, uint64_t count, uint8_t *list, size_t list_len, uint64_t budget);

/*
 * DCHECK, in Blackout, from the check's place to the table's end; the place goes on to the answer's next, and nothing in the session but the check
 * changes.
 * 40. 41: not Blackout. 42: list not in whole words, or above 512. 50: check complete or failed (chirp_reset).
 * Then at each page: 3 past the end, and the check is complete; 1 if the budget is spent; 51 at a page in 1, 3, 26 or 31, and the check has failed
 * (what was listed before it stays listed); 2 if the page is to be listed and there is no room (it is not touched then).
 */
chirp_scan_answer chirp_dcheck(uint8_t *session, size_t session_len, uint8_t *table, size_t table_len,
                               uint8_t *list, size_t list_len, uint64_t budget);

/* ---- Export ---- */

/*
 * Export the entries FIRST to LAST of the list on a stream, in Live or Blackout. Resume is 0 for a new call, 1 for a resumed one. Each entry
 * costs 1 of the budget.
 * 40. 41: Idle or Done. 42: stream not usable; list not in whole words, empty or above 512; buffer not in whole words, or of another length than the
 * list; resume above 1; FORMAT or bits 54:52 not 0; LAST not within the list. 44: resume on a stream at rest, or with another FIRST or LAST than the
 * stream's; a new call on an interrupted stream. 42: a new call with FIRST not 0. Then 0 if all entries are done, 1 if the budget is spent first.
 *
 * An entry with status 0: 4 becomes 24 and 2 becomes 29 (MIGRATE); 25 becomes 24 and 30 becomes 29 (REMIGRATE); 26 becomes 1, 31 becomes 3, 27
 * becomes 0 (CANCEL). The page's migration epoch becomes the session's; nothing else in the table changes. Any other status changes no page.
 * Of each entry taken: OPERATION is what was done, or 0; PENDING 1 for successes from 2, 30, 31, else 0; STATE and L2_MAP 0; STATUS; the rest as it
 * came. Its buffer word is the mark for successes from 4 and 25, else 0. Entries and buffer words not taken stay.
 *
 * The answer's info is the info word given, with FIRST the next entry: at the end (LAST+1) mod 512. With code 0 the stream is at rest, errors are
 * the entries with a status other than 0 and 1 over the whole operation, all its calls together, and buffers are 1, plus 1 (2 if LAST >= 256), plus
 * the entries exported from 4 and 25. With code 1 both are 0, and the stream is interrupted: call again with resume 1 and the answer's info. Nothing
 * else in the session changes.
 */
chirp_export_answer chirp_export(uint8_t *session, size_t session_len, uint8_t *table, size_t table_len,
                                 uint8_t *list, size_t list_len, uint8_t *buffer, size_t buffer_len,
                                 uint64_t stream, uint64_t resume, uint64_t info, uint64_t budget);

/* ---- Restore ---- */

/*
 * Take back what was exported of the pages that the entries FIRST to LAST of the list name, in Idle. There is no stream and no buffer, and the
 * session is only read: it keeps no record of the call. Each entry costs 1 of the budget. A list that an export returned can be given as it is; in
 * one of a scan the hints have to be taken out.
 * 40. 41: not Idle. 42: list not in whole words, empty or above 512; FORMAT or bits 54:52 not 0; LAST not within the list; FIRST above LAST. Then 0
 * if all entries are done, 1 if the budget is spent first: budget 0 is 1, and nothing changes.
 *
 * The status of an entry is the first of these that holds:
 *   15  reserved bits, LEVEL, MIG_TYPE or STATE not 0, whatever the OPERATION
 *    1  OPERATION 0 or 2
 *    2  the page is beyond the table
 *    4  the page is in 0 to 4, also if an entry before has brought it back, or strange
 *    0  24 and 25 become 4; 29 and 30 become 2; 26 becomes 1; 31 becomes 3; 27 becomes 0
 * With status 0 the page's migration epoch becomes 0, and its stamp 0 except in what is now 1 or 3; mark, Dirty and Cached stay. Any other status
 * changes no page, and a page that no entry taken names is not touched.
 * Of each entry taken: OPERATION is 1 with status 0, else 0; STATUS; the rest as it came. Entries not taken stay.
 *
 * The answer's info is the info word given, with FIRST the next entry: at the end (LAST+1) mod 512. With code 1 call again with the answer's info.
 */
chirp_list_answer chirp_restore(const uint8_t *session, size_t session_len, uint8_t *table, size_t table_len,
                                uint8_t *list, size_t list_len, uint64_t info, uint64_t budget);

#ifdef __cplusplus
}
#endif

#endif
