/* The line of an entry: an event and the reply to it, in the words of a schedule text. */
#ifndef REPLIES_H
#define REPLIES_H
#include "mirror.h"

void write_set(FILE *out, uint64_t set); /* 0-2,5, or - where it is empty */
void write_entry(FILE *out, const struct mirror *m, const struct noted *e);
#endif
