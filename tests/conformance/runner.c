/*
 * conformance [-l] [PREFIX]: runs the tests whose names begin with PREFIX, or with -l lists them with their rules.
 * Each test runs in a process of its own, so that one in which the library traps or does not end fails like any other.
 */
#define _POSIX_C_SOURCE 200809L
#include "harness.h"
#include "rows.h"

#include <stdio.h>
#include <stdlib.h>
#include <string.h>
#include <sys/wait.h>
#include <unistd.h>

enum { SECONDS_A_TEST = 120 };

static test *tests;

enum { NO_ROW = 1000 * 1000 };

/* Where a name stands: by its chapter, then by its row's number. */
static int rank(const char *name)
{
    for (size_t c = 0; c < chapter_count; c++) {
        int row = atoi(name + 1);
        if (chapters[c].letter == name[0] && row >= 1 && row <= chapters[c].rows)
            return (int)c * 1000 + row;
    }
    return NO_ROW;
}

/* Keeps the list in the order of rows, and tests of one row in the order in which they came. */
void list_test(test *t)
{
    test **at = &tests;
    while (*at && rank((*at)->name) <= rank(t->name))
        at = &(*at)->next;
    t->next = *at;
    *at = t;
}

static int begins_with(const char *name, const char *prefix) { return strncmp(name, prefix, strlen(prefix)) == 0; }

static int has_test(const char *row)
{
    for (const test *t = tests; t; t = t->next)
        if (begins_with(t->name, row) && t->name[strlen(row)] == '_')
            return 1;
    return 0;
}

static int is_unseen(char letter, int row)
{
    for (size_t i = 0; i < unseen_count; i++)
        if (unseen_rows[i].letter == letter && unseen_rows[i].from <= row && row <= unseen_rows[i].to)
            return 1;
    return 0;
}

TEST(rows_are_all_here, "Every row has a test, or stands among those that cannot be seen from outside, with the reason.")
{
    for (size_t c = 0; c < chapter_count; c++)
        for (int n = 1; n <= chapters[c].rows; n++) {
            char row[16];
            snprintf(row, sizeof row, "%c%d", chapters[c].letter, n);
            check_equal(HERE, row, (uint64_t)(has_test(row) + is_unseen(chapters[c].letter, n)), 1);
        }
    for (const test *t = tests; t; t = t->next)
        check_equal(HERE, t->name, rank(t->name) == NO_ROW, t->body == rows_are_all_here);
}

static int holds(const test *t)
{
    int status = 0;
    fflush(stdout);
    pid_t child = fork();
    if (child == 0) {
        alarm(SECONDS_A_TEST);
        exit(test_holds(t) ? EXIT_SUCCESS : EXIT_FAILURE);
    }
    if (child < 0 || waitpid(child, &status, 0) != child) {
        perror("conformance");
        exit(2);
    }
    if (WIFSIGNALED(status))
        printf("  ended by signal %d\n", WTERMSIG(status));
    if (WIFEXITED(status) && WEXITSTATUS(status) == EXIT_SUCCESS)
        return 1;
    printf("FAILED %s: %s\n", t->name, t->rule);
    return 0;
}

static void list(const char *prefix)
{
    for (const test *t = tests; t; t = t->next)
        if (begins_with(t->name, prefix))
            printf("%s: %s\n", t->name, t->rule);
    for (size_t i = 0; i < unseen_count; i++) {
        unseen u = unseen_rows[i];
        if (prefix[0] == '\0' || prefix[0] == u.letter)
            printf("%c%d to %c%d: not seen from outside: %s\n", u.letter, u.from, u.letter, u.to, u.reason);
    }
}

int main(int argc, char **argv)
{
    int listing = argc > 1 && strcmp(argv[1], "-l") == 0;
    const char *prefix = argc > 1 + listing ? argv[1 + listing] : "";
    int passed = 0, failed = 0;
    if (listing) {
        list(prefix);
        return EXIT_SUCCESS;
    }
    for (const test *t = tests; t; t = t->next)
        if (begins_with(t->name, prefix))
            *(holds(t) ? &passed : &failed) += 1;
    if (passed + failed == 0) {
        printf("no test begins with '%s'\n", prefix);
        failed = 1;
    }
    printf("%d passed, %d failed\n", passed, failed);
    return failed ? EXIT_FAILURE : EXIT_SUCCESS;
}
