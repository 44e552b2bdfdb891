/* What the program in the kernel tells the agent: one event of one listed thread. */
#ifndef WATCH_H
#define WATCH_H

enum watched { WOKEN = 1, SWITCHED_OUT, SWITCHED_IN, MIGRATED, EXITED, FORKED };

/* What the kernel's half keeps of a listed thread. */
enum { THREAD_BLOCKS, THREAD_RUNS, THREAD_WAITS };

struct watched_event {
    unsigned long long stamp; /* nanoseconds of CLOCK_MONOTONIC */
    unsigned int what;        /* enum watched */
    unsigned int processor;
    int thread;
    int other; /* FORKED: the child. SWITCHED_OUT: 1 where the thread blocked, 0 where it stays ready */
};
#endif
