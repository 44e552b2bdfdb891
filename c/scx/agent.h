/* What the parts of the agent for sched_ext share. */
#ifndef SCX_AGENT_H
#define SCX_AGENT_H
#include "apa.h"
#include "schedule_log.h"
#include "scx.h"

#include <stdbool.h>
#include <stdint.h>

enum { MOST_SLOTS = 1024, MOST_PROCESSORS = 64 };

struct options {
    const char *log;
    long slots, processor, priority, held, timeout, seconds; /* processor: -1 for any; held, timeout: milliseconds */
};

struct slot {
    int thread; /* 0: free */
    char name[33];
    uint32_t priority; /* the kernel's static one: nice */
};

struct agent {
    struct options options;
    apa *machine;
    struct schedule_log *log;
    uint32_t processors, slots;
    uint64_t off_line, held; /* processors that left, and those that a higher class holds */
    struct slot slot[MOST_SLOTS];
    unsigned long events, refused, admitted, unknown;
    bool fault; /* the library refuses what the kernel says: this ends, and the kernel takes the threads back */
};
extern struct agent agent;

uint64_t now(void);
void say(const char *form, ...) __attribute__((format(printf, 1, 2)));

/* ---- options.c */
bool read_options(int count, char **words); /* false: it has said why */

/* ---- threads.c: what the kernel's half says becomes events of the apa */
void hear(const struct said_event *e);

/* ---- places.c: who is to run where, for the kernel's half */
struct apa_scx;
bool show_places(struct apa_scx *kernel); /* false: the kernel's half is gone */
#endif
