/* Which rules there are, so that none is left out without a word. */
#ifndef ROWS_H
#define ROWS_H

#include <stddef.h>

/* The rules come in chapters: letter B has the rows B1 to B23. */
typedef struct { char letter; int rows; } chapter;

/* Rows of a chapter that no caller of the C interface can see kept or broken. */
typedef struct { char letter; int from, to; const char *reason; } unseen;

extern const chapter chapters[];
extern const size_t chapter_count;
extern const unseen unseen_rows[];
extern const size_t unseen_count;

#endif
