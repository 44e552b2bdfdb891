/* Threads of the guest's workloads. */
#ifndef THREADS_H
#define THREADS_H
#include <stdbool.h>
#include <stdint.h>
#include <sys/types.h>

double seconds_of(int clock);
void burn(double seconds);            /* of the thread's own processor time */
void sleep_to(double at);             /* of CLOCK_MONOTONIC */
bool set_mask(pid_t thread, uint64_t mask); /* false: the thread has ended, or no processor of the mask is on line */
/* Rank 1 is the most urgent. fifo: SCHED_FIFO; ext: SCHED_EXT by nice; other: the fair class by nice. */
bool set_class(const char *kind, int rank);
/* What TASKS and the kernel's traces say of such a thread: lower is more urgent. */
int priority_of(const char *kind, int rank);
#endif
