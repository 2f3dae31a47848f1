/* Tests by name; a test passes if it made a check and none failed. */
#ifndef CHECK_H
#define CHECK_H

#include <inttypes.h>
#include <stdbool.h>

struct test {
    const char *name;
    void (*run)(void);
};

/* Runs the tests, those whose accesses fault included, and prints 'N passed, M failed' at the end. */
int run_tests(const struct test *tests, unsigned count);

void check(bool holds, const char *what, const char *file, int line);
void check_equal(uint64_t got, uint64_t wanted, const char *what, const char *file, int line);

/* What is being checked, for the messages: a call, a length. */
void checking(const char *format, ...) __attribute__((format(printf, 1, 2)));

#define CHECK(condition) check(condition, #condition, __FILE__, __LINE__)
#define EQUAL(got, wanted) check_equal(got, wanted, #got, __FILE__, __LINE__)

#endif
