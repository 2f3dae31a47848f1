/* Words as bytes, the fields of list words, and names to print: what every driver over chirpsteeple.h needs. */
#ifndef WORDS_H
#define WORDS_H

#include "chirpsteeple.h"

#include <stddef.h>
#include <stdint.h>

/* Session and table, as every call takes them, of a struct that holds both as arrays. */
#define BENCH(owner) (owner)->session, sizeof(owner)->session, (owner)->table, sizeof(owner)->table

enum { DIRTY = 1 << 8, CACHED = 1 << 9 };

static inline uint64_t word_at(const uint8_t *bytes, size_t index)
{
    uint64_t word = 0;
    for (size_t i = CHIRP_WORD_BYTES; i-- > 0;)
        word = word << 8 | bytes[index * CHIRP_WORD_BYTES + i];
    return word;
}

static inline void put_word(uint8_t *bytes, size_t index, uint64_t word)
{
    for (size_t i = 0; i < CHIRP_WORD_BYTES; i++)
        bytes[index * CHIRP_WORD_BYTES + i] = (uint8_t)(word >> 8 * i);
}

static inline uint64_t record_at(const uint8_t *table, uint64_t page) { return word_at(table, 2 * page); }
static inline uint64_t mark_at(const uint8_t *table, uint64_t page) { return word_at(table, 2 * page + 1); }
static inline unsigned state_at(const uint8_t *table, uint64_t page) { return table[page * CHIRP_PAGE_BYTES]; }

static inline uint64_t field(uint64_t word, unsigned low, unsigned width) { return word >> low & ((UINT64_C(1) << width) - 1); }

/* An entry that asks for the export of a page, or in a restore for its return: OPERATION is 1 in both. */
static inline uint64_t entry_for(uint64_t page) { return UINT64_C(1) << 52 | page << 12; }

static inline unsigned entry_pending(uint64_t entry) { return (unsigned)field(entry, 2, 1); }
static inline uint64_t entry_page(uint64_t entry) { return field(entry, 12, 40); }
static inline unsigned entry_operation(uint64_t entry) { return (unsigned)field(entry, 52, 2); }
static inline unsigned entry_status(uint64_t entry) { return (unsigned)field(entry, 56, 5); }

static inline uint64_t info_for(uint64_t first, uint64_t last) { return last << 55 | first << 3; }
static inline uint64_t info_first(uint64_t info) { return field(info, 3, 9); }

static inline const char *code_name(uint64_t code)
{
    static const char *const names[] = {
        [CHIRP_DONE] = "done",
        [CHIRP_INTERRUPTED] = "interrupted",
        [CHIRP_LIST_FULL] = "list full",
        [CHIRP_CHECK_COMPLETE] = "check complete",
        [CHIRP_MALFORMED] = "session or table malformed",
        [CHIRP_OP_STATE_INCORRECT] = "OP_STATE_INCORRECT",
        [CHIRP_OPERAND_INVALID] = "OPERAND_INVALID",
        [CHIRP_OPERAND_BUSY] = "OPERAND_BUSY",
        [CHIRP_INVALID_RESUMPTION] = "INVALID_RESUMPTION",
        [CHIRP_EPT_ENTRY_STATE_INCORRECT] = "EPT_ENTRY_STATE_INCORRECT",
        [CHIRP_GPA_RANGE_NOT_BLOCKED] = "GPA_RANGE_NOT_BLOCKED",
        [CHIRP_TLB_TRACKING_NOT_DONE] = "TLB_TRACKING_NOT_DONE",
        [CHIRP_BLOCKED_MEMORY_EXISTS] = "BLOCKED_MEMORY_EXISTS",
        [CHIRP_BLOCKING_DISALLOWED] = "BLOCKING_DISALLOWED",
        [CHIRP_MEM_SCAN_RESET_REQUIRED] = "MEM_SCAN_RESET_REQUIRED",
        [CHIRP_MEM_SCAN_FAILED_BLOCKED_RANGE] = "MEM_SCAN_FAILED_BLOCKED_RANGE",
        [CHIRP_MEM_SCAN_DCHECK_NOT_DONE] = "MEM_SCAN_DCHECK_NOT_DONE",
        [CHIRP_EXPORTED_DIRTY_PAGES_REMAIN] = "EXPORTED_DIRTY_PAGES_REMAIN",
        [CHIRP_UNEXPORTED_MEMORY_REMAINS] = "UNEXPORTED_MEMORY_REMAINS",
        [CHIRP_MIGRATION_EPOCH_OVERFLOW] = "MIGRATION_EPOCH_OVERFLOW",
        [CHIRP_TLB_EPOCH_AT_LIMIT] = "TLB epoch at limit",
    };
    const char *name = code < sizeof names / sizeof *names ? names[code] : NULL;
    return name ? name : "no code of the bench";
}

static inline const char *status_name(unsigned status)
{
    switch (status) {
    case CHIRP_STATUS_SUCCESS: return "SUCCESS";
    case CHIRP_STATUS_SKIPPED: return "SKIPPED";
    case CHIRP_STATUS_SEPT_WALK_FAILED: return "SEPT_WALK_FAILED";
    case CHIRP_STATUS_SEPT_ENTRY_STATE_INCORRECT: return "SEPT_ENTRY_STATE_INCORRECT";
    case CHIRP_STATUS_TLB_TRACKING_NOT_DONE: return "TLB_TRACKING_NOT_DONE";
    case CHIRP_STATUS_MIGRATED_IN_CURRENT_EPOCH: return "MIGRATED_IN_CURRENT_EPOCH";
    case CHIRP_STATUS_GPA_LIST_ENTRY_INVALID: return "GPA_LIST_ENTRY_INVALID";
    case CHIRP_STATUS_PAGE_DIRTY: return "PAGE_DIRTY";
    default: return "no status of the bench";
    }
}

#endif
