/* What the kernel's half and the agent say to each other. */
#ifndef SCX_H
#define SCX_H

/* The first five are the kinds of apa_apply. */
enum said { ARRIVES = 0, DEPARTS = 1, MASK_IS = 2, OFF_LINE = 3, ON_LINE = 4, JOINS = 5, LEAVES = 6, NICE_IS = 7, HELD = 8, FREE = 9 };

struct said_event {
    unsigned int what, number; /* number: a thread, or a processor of OFF_LINE, ON_LINE, HELD and FREE */
    unsigned long long mask;
    unsigned long long stamp; /* nanoseconds of CLOCK_MONOTONIC */
    unsigned int priority;    /* the static one: 100 for nice -20 to 139 for nice 19 */
    char name[16];
};

/* The processors that look anew, in this order: where moves form a chain, its end first. */
struct kicks {
    unsigned int count;
    unsigned int processor[64];
};
#endif
