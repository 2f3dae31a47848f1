#include "rows.h"

const chapter chapters[] = {
    {'B', 23}, /* the bench: session, table and their bytes */
    {'S', 11}, /* state numbers and strange records */
    {'C', 11}, /* codes and their order */
    {'M', 25}, /* guest and memory calls */
    {'X', 27}, /* session calls */
    {'N', 28}, /* scans */
    {'L', 5},  /* list words */
    {'E', 49}, /* export of a list */
    {'R', 42}, /* restore of a list, and what Idle has to wait for until then */
    {'T', 13}, /* the marked table: ten entries and what comes back */
    {'P', 4},  /* slips that a class makes */
    {'F', 11}, /* the form of the code */
    {'K', 13}, /* how much the contracts say */
};
const size_t chapter_count = sizeof chapters / sizeof *chapters;

const unseen unseen_rows[] = {
    {'B', 23, 23, "about fields that later requests add, and there are none yet"},
    {'S', 1, 4, "about the class of a state number, which no call tells"},
    {'T', 11, 11, "about how lines 1 to 10 are proved"},
    {'F', 1, 11, "for readers of the engine's code"},
    {'K', 1, 13, "proved of the engine's contracts"},
};
const size_t unseen_count = sizeof unseen_rows / sizeof *unseen_rows;
