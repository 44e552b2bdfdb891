#include "threads.h"

#include <sched.h>
#include <stdio.h>
#include <string.h>
#include <sys/resource.h>
#include <sys/syscall.h>
#include <time.h>
#include <unistd.h>

enum { EXT = 7 };

double seconds_of(int clock) {
    struct timespec t;
    clock_gettime(clock, &t);
    return (double)t.tv_sec + (double)t.tv_nsec * 1e-9;
}

void burn(double seconds) {
    double end = seconds_of(CLOCK_THREAD_CPUTIME_ID) + seconds;
    while (seconds_of(CLOCK_THREAD_CPUTIME_ID) < end) continue;
}

void sleep_to(double at) {
    struct timespec t = {(time_t)at, (long)((at - (double)(time_t)at) * 1e9)};
    while (clock_nanosleep(CLOCK_MONOTONIC, TIMER_ABSTIME, &t, NULL)) continue;
}

bool set_mask(pid_t thread, uint64_t mask) { return syscall(SYS_sched_setaffinity, thread, sizeof mask, &mask) == 0; }

bool set_class(const char *kind, int rank) {
    struct sched_param none = {0}, urgent = {.sched_priority = 50 - rank};
    if (!strcmp(kind, "fifo")) return sched_setscheduler(0, SCHED_FIFO, &urgent) == 0;
    if (setpriority(PRIO_PROCESS, 0, -18 + 2 * rank)) return false;
    return strcmp(kind, "ext") || sched_setscheduler(0, EXT, &none) == 0;
}

int priority_of(const char *kind, int rank) { return strcmp(kind, "fifo") ? 102 + 2 * rank : 49 + rank; }
