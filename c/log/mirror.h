/* The state that the events of an apa give, and the schedule text of them. */
#ifndef MIRROR_H
#define MIRROR_H
#include "apa.h"
#include <stdbool.h>
#include <stdio.h>

enum { MIRROR_TASKS = 1024, MIRROR_PROCESSORS = 64, MIRROR_NAME = 33 };

/* One event, with what the apa answered. */
struct noted {
    uint32_t kind, number, answer, moves;
    uint64_t mask, reached, back;
    apa_move move[APA_MOST_MOVES];
};

struct mirrored {
    char name[MIRROR_NAME];
    bool in_use, ready;
    uint32_t priority, of; /* of: the processor on which it is linked, or APA_NONE */
    uint64_t mask;
    uint64_t units, stints, moves, trail; /* its context in this text */
    uint32_t last;
};

struct mirror {
    uint32_t processors, tasks; /* tasks: one more than the greatest number that was ever in use */
    uint64_t on_line;
    uint32_t on[MIRROR_PROCESSORS];
    struct mirrored task[MIRROR_TASKS];
};

/* What an event came to, as apa_apply has just answered it. */
struct noted note_of(apa *a, uint32_t kind, uint32_t number, uint64_t mask, uint32_t answer);

void mirror_begin(struct mirror *m, uint32_t processors);
/* A text begins here: contexts begin anew, with the tasks that are linked. */
void mirror_begin_text(struct mirror *m);
/* How many entries the beginning of a text takes, and its lines up to these. */
unsigned long mirror_entries(const struct mirror *m);
void mirror_write_head(const struct mirror *m, FILE *out, unsigned long entries);
/* One entry; the state is then as after it. */
void mirror_write_entry(struct mirror *m, FILE *out, const struct noted *e);
/* The entry of a tick: so many units pass for who is linked. */
void mirror_write_tick(struct mirror *m, FILE *out, uint64_t units);
void mirror_write_contexts(const struct mirror *m, FILE *out);
#endif
