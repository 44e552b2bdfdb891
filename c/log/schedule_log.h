/* A log of what an apa is told, as schedule texts that `apa check` accepts.
 *
 * The caller notes each event after it was applied. A thread of its own keeps the state that these events give and writes
 * the texts NAME.0, NAME.1 .. of at most 20,000 entries each; a text begins with the state at its first event: who is off
 * line, who is linked and where, who waits. The caller takes no memory, waits for nobody and writes no file. Where the
 * thread falls too far behind, or a file cannot be written, the log ends there, and says so once.
 *
 * A change of the mask of a ready task is noted as three events: it departs, its mask is set, it arrives. */
#ifndef SCHEDULE_LOG_H
#define SCHEDULE_LOG_H
#include "apa.h"
#include <stdbool.h>

struct schedule_log;

/* NULL, with errno, where memory, a thread or the first file is refused. All processors are on line, and there is no task. */
struct schedule_log *schedule_log_open(const char *name, uint32_t processors);
/* A task that is absent has a number, a name of at most 32 bytes, a priority and a mask. A new text begins. */
void schedule_log_admit(struct schedule_log *log, uint32_t number, const char *name, uint32_t priority, uint64_t mask);
/* An absent task goes. A new text begins. */
void schedule_log_retire(struct schedule_log *log, uint32_t number);
/* An event that apa_apply took, with its answer; its moves and sets are read from the apa. */
void schedule_log_note(struct schedule_log *log, apa *a, uint32_t kind, uint32_t number, uint64_t mask, uint32_t answer);
/* Writes what is left. Answers how many texts there are, and how many events they hold. */
void schedule_log_close(struct schedule_log *log, unsigned long *texts, unsigned long *events);
#endif
