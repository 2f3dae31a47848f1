#include "tests.h"

struct answer expect_code(enum call call, const struct bench *bench, uint64_t code)
{
    checking("%s, %zu bytes of table, %zu of list", call_names[call], bench->table.length, bench->list.length);
    struct answer answer = answer_of(call, bench);
    EQUAL(answer.code, code);
    return answer;
}

void expect_answer(enum call call, const struct bench *bench, struct answer wanted)
{
    struct answer answer = expect_code(call, bench, wanted.code);
    for (unsigned i = 0; i < 3; i++)
        EQUAL(answer.numbers[i], wanted.numbers[i]);
}

void fill(struct bench *bench)
{
    uint64_t pages = bench->table.length / CHIRP_PAGE_BYTES;
    expect_code(NEW, bench, CHIRP_DONE);
    for (bench->page = 0; bench->page < pages; bench->page++) {
        bench->mark = 1000 + bench->page;
        expect_code(ADD, bench, CHIRP_DONE);
        expect_code(ACCEPT, bench, CHIRP_DONE);
        expect_code(WRITE, bench, CHIRP_DONE);
        EQUAL(record_at(bench->table.bytes, bench->page), DIRTY | CACHED | CHIRP_STATE_MAPPED);
        EQUAL(mark_at(bench->table.bytes, bench->page), bench->mark);
    }
}

#define TEST(name) {#name, name}

int main(void)
{
    static const struct test tests[] = {
        TEST(every_call_on_the_heap),
        TEST(every_call_at_odd_addresses),
        TEST(every_call_before_a_guard_page),
        TEST(every_call_behind_a_guard_page),
        TEST(every_call_on_a_stack_of_8_KiB),
        TEST(null_pointers_with_length_0),
        TEST(lengths_of_sessions_and_tables),
        TEST(lists_of_every_length),
        TEST(lists_beside_a_guard_page),
        TEST(ragged_lists),
        TEST(buffers_of_another_length),
        TEST(refused_calls_on_read_only_memory),
        TEST(other_refused_calls_look_at_no_page_without_need),
        TEST(one_page_calls_touch_their_page_alone),
        TEST(a_page_beyond_the_table_touches_nothing),
        TEST(session_calls_touch_no_byte_of_the_table),
        TEST(the_token_changes_no_byte_of_the_table),
        TEST(scans_touch_the_pages_that_they_visit),
        TEST(exports_touch_the_pages_that_their_entries_name),
        TEST(restores_touch_the_pages_that_their_entries_name),
    };
    return run_tests(tests, sizeof tests / sizeof *tests);
}
