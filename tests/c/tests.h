/* The tests, one file for each kind. */
#ifndef TESTS_H
#define TESTS_H

#include "harness.h"
#include "check.h"

/* Calls and checks its code. */
struct answer expect_code(enum call call, const struct bench *bench, uint64_t code);

/* Checks the code and the other numbers of the answer. */
void expect_answer(enum call call, const struct bench *bench, struct answer wanted);

/* Fills the bench with present pages: page i has mark 1000 + i, Dirty and Cached. Idle. */
void fill(struct bench *bench);

void every_call_on_the_heap(void);
void every_call_at_odd_addresses(void);
void every_call_before_a_guard_page(void);
void every_call_behind_a_guard_page(void);
void every_call_on_a_stack_of_8_KiB(void);

void null_pointers_with_length_0(void);
void lengths_of_sessions_and_tables(void);
void lists_of_every_length(void);
void lists_beside_a_guard_page(void);
void ragged_lists(void);
void buffers_of_another_length(void);

void refused_calls_on_read_only_memory(void);
void other_refused_calls_look_at_no_page_without_need(void);
void one_page_calls_touch_their_page_alone(void);
void a_page_beyond_the_table_touches_nothing(void);
void session_calls_touch_no_byte_of_the_table(void);
void the_token_changes_no_byte_of_the_table(void);

void scans_touch_the_pages_that_they_visit(void);
void exports_touch_the_pages_that_their_entries_name(void);
void restores_touch_the_pages_that_their_entries_name(void);

#endif
