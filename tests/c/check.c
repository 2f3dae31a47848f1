#define _XOPEN_SOURCE 700
#include "check.h"

#include <setjmp.h>
#include <signal.h>
#include <stdarg.h>
#include <stdio.h>

static unsigned made, missed;
static char subject[200];
static sigjmp_buf test_start;

void checking(const char *format, ...)
{
    va_list arguments;
    va_start(arguments, format);
    vsnprintf(subject, sizeof subject, format, arguments);
    va_end(arguments);
}

static void report(const char *file, int line, const char *what)
{
    missed++;
    printf("%s:%d: %s: %s", file, line, subject, what);
}

void check(bool holds, const char *what, const char *file, int line)
{
    made++;
    if (holds)
        return;
    report(file, line, what);
    printf(" does not hold\n");
}

void check_equal(uint64_t got, uint64_t wanted, const char *what, const char *file, int line)
{
    made++;
    if (got == wanted)
        return;
    report(file, line, what);
    printf(" is %" PRIu64 " (0x%" PRIx64 "), not %" PRIu64 " (0x%" PRIx64 ")\n", got, got, wanted, wanted);
}

static void faulted(int number)
{
    siglongjmp(test_start, number);
}

static bool passes(const struct test *test)
{
    made = missed = 0;
    checking("%s", test->name);
    if (sigsetjmp(test_start, 1) == 0) {
        test->run();
    } else {
        missed++;
        printf("%s: touches a byte that it must not touch\n", subject);
    }
    if (made == 0)
        printf("no check was made\n");
    bool passed = made > 0 && missed == 0;
    printf("%-8s %s\n", passed ? "ok" : "FAILED", test->name);
    return passed;
}

int run_tests(const struct test *tests, unsigned count)
{
    static uint8_t stack[64 * 1024]; /* for the handler: a fault may mean that the test's own is at its end */
    stack_t handlers = {.ss_sp = stack, .ss_size = sizeof stack};
    struct sigaction action = {.sa_handler = faulted, .sa_flags = SA_ONSTACK};
    unsigned passed = 0;
    setvbuf(stdout, NULL, _IOLBF, 0); /* what was said is kept if a test ends the program */
    sigaltstack(&handlers, NULL);
    sigaction(SIGSEGV, &action, NULL);
    sigaction(SIGBUS, &action, NULL);
    for (unsigned i = 0; i < count; i++)
        passed += passes(&tests[i]);
    printf("%u passed, %u failed\n", passed, count - passed);
    return passed == count ? 0 : 1;
}
