/* What the recorder's program in the kernel tells: one line of a trace. */
#ifndef RECORDED_H
#define RECORDED_H

enum recorded { RECORDED_SWITCH = 1, RECORDED_WAKEUP, RECORDED_WAKEUP_NEW, RECORDED_MIGRATION };

struct recorded_thread {
    int thread, priority; /* priority: the kernel's, 99 less that of SCHED_FIFO; -1 of SCHED_DEADLINE */
    char name[16];
};

struct recorded_line {
    unsigned long long stamp; /* nanoseconds of CLOCK_MONOTONIC */
    unsigned int what;        /* enum recorded */
    unsigned int processor;   /* on which it happened */
    unsigned int state;       /* of a switch: the state of the thread that stops; 0 where it stays ready */
    unsigned int target;      /* of a wakeup: the processor on whose queue the thread is; of a migration: the new one */
    unsigned int from;        /* of a migration: the old one */
    struct recorded_thread current, other; /* who runs, or ran; who is woken, moved, or runs next */
};
#endif
