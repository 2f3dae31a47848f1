/* What has to hold in an example: if it does not, the program says what it found instead and ends. */
#ifndef MUST_H
#define MUST_H

#include "words.h"

#include <inttypes.h>
#include <stdbool.h>
#include <stdio.h>
#include <stdlib.h>

/* Whether a call's code is as it has to be. */
static inline void must(bool holds, const char *what, uint64_t code)
{
    if (holds)
        return;
    printf("%s: answered %" PRIu64 ", %s\n", what, code, code_name(code));
    exit(1);
}

static inline void must_be_done(uint64_t code, const char *what) { must(code == CHIRP_DONE, what, code); }

static inline void expect(const char *what, uint64_t got, uint64_t wanted)
{
    if (got == wanted)
        return;
    printf("%s: %" PRIu64 " and not %" PRIu64 "\n", what, got, wanted);
    exit(1);
}

#endif
