/* A bench whose slices lie at an end of their memory, and every call on it by name. */
#ifndef HARNESS_H
#define HARNESS_H

#include "chirpsteeple.h"
#include "words.h"

#include <stdbool.h>

/* An operating system's page. */
enum { OS_PAGE = 4096, PAGES_IN_OS_PAGE = OS_PAGE / CHIRP_PAGE_BYTES };

struct slice {
    uint8_t *bytes;
    size_t length;
    uint8_t *memory;
    size_t mapped; /* bytes of memory that is mapped, 0 if it is allocated */
};

/* Heap: allocated so that the slice begins at a multiple of 16 plus the offset and ends with the allocation. */
struct slice heap_slice(size_t length, size_t offset);

/* A place in mapped memory: so many bytes from its end, or from its start. */
struct place {
    size_t distance;
    bool from_start;
};

/* Mapped: before the memory and behind it lies a page of the operating system's that cannot be touched. */
struct slice mapped_slice(size_t length, struct place place);

/* Whether the bytes of mapped memory on both sides of the slice are as they were made. */
bool unwritten_around(const struct slice *slice);

/* What is allowed in a mapped slice from now on: as mprotect has it, in all its memory, or in some of the operating system's pages of it. */
void protect(const struct slice *slice, int protection);
void protect_pages(const struct slice *slice, size_t first, size_t count, int protection);

void free_slice(struct slice *slice);

enum call {
    NEW, WRITE, ADD, ACCEPT, BLOCK, UNBLOCK, REMOVE, TRACK, START, PAUSE, ABORT, NEW_EPOCH, RESET, START_TOKEN, DSCAN, DCHECK, EXPORT, RESTORE, CALLS
};

extern const char *const call_names[CALLS];

struct bench {
    struct slice session, table, list, buffer;
    uint64_t streams, page, mark, first, count, stream, resume, info, budget;
    bool on_small_stack; /* calls have 8 KiB of stack, and behind it a page that cannot be touched */
};

/* The numbers of an answer in the order of its struct; 0 where the call has none. */
struct answer {
    uint64_t code, numbers[3];
};

struct answer answer_of(enum call call, const struct bench *bench);

/* A bench with a slice of each kind from the heap: bytes all 0, operands that fit. */
struct bench heap_bench(size_t pages, size_t entries, size_t offset);
struct bench mapped_bench(size_t pages, size_t entries, struct place place);
void free_bench(struct bench *bench);

void set_session(struct bench *bench, size_t word, uint64_t value);
void set_record(struct bench *bench, uint64_t page, uint64_t record);

#endif
