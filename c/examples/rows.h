/* What the worked rows compare by, and the rows that stand in a file of their own. */
#ifndef ROWS_H
#define ROWS_H
#include "../apa.h"

/* How many comparisons failed. */
extern int failed;

void expect(const char *what, uint64_t came, uint64_t expected);

/* The moves of the last event as TASK:FROM>TO, where - is nowhere. */
void expect_moves(apa *a, const char *what, const char *expected);

/* The rows of tasks that come and go in slots. */
void rows_of_slots(void);

#endif
