/* What the parts of apa-agent share. One thread, the loop, calls all of this; the numbers of tasks are those of the apa. */
#ifndef AGENT_H
#define AGENT_H
#include "apa.h"
#include "schedule_log.h"
#include "watch.h"

#include <stdbool.h>
#include <stdint.h>
#include <sys/types.h>

enum { MOST_TASKS = 512, MOST_PROCESSORS = 64, NO_TASK = -1 };

struct options {
    const char *list;        /* the file TASKS */
    const char *log;         /* schedule texts go into log.0, log.1 .. */
    const char *state;       /* the masks of the user, for whoever has to put them back */
    const char *lock;        /* one agent a machine */
    int processor, priority; /* processor: -1 where the agent may choose */
    unsigned seconds;        /* 0: until it is told to end */
    unsigned ring;           /* bytes of the ring of events, or of each processor's by perf */
    bool watch, restore, perf;
};

struct task {
    bool in_use;
    char name[33];
    uint32_t priority; /* 99 less the thread's priority of SCHED_FIFO: the lower, the more urgent */
    pid_t thread;
    uint64_t start;    /* when the thread began, so that a later one with its number is not taken for it */
    uint64_t user;     /* the mask that the user set last */
    uint64_t stamp;    /* of its last event */
    uint64_t narrow;   /* the mask that the agent gave it; 0 where it has the user's */
    uint64_t since;    /* when it was given that */
    int processor;     /* on whose queue it is, as far as events say */
    bool ready, fixed; /* fixed: its mask cannot be set */
    unsigned long moved, lost;
    unsigned long blocked, voluntary, first; /* how often it blocked by events, and by the kernel's own count now and at first */
};

struct agent {
    struct options options;
    apa *machine;
    struct schedule_log *log;
    struct task task[MOST_TASKS];
    int tasks; /* one more than the greatest number in use */
    uint32_t processors;
    uint64_t all, on_line;
    uint64_t last; /* the stamp of the last event */
};
extern struct agent agent;

uint64_t now(void); /* nanoseconds of CLOCK_MONOTONIC */
void say(const char *form, ...) __attribute__((format(printf, 1, 2)));

/* ---- options.c */
bool read_options(int count, char **words); /* false: it is refused, and why was said */

/* ---- list.c: the file TASKS, and what /proc says of a thread */
struct thread_state {
    char state;
    int processor;
    uint64_t start;
};
bool read_thread(pid_t thread, struct thread_state *is);
unsigned long voluntary_switches(pid_t thread); /* how often it has blocked; 0 where it is gone */
uint64_t read_on_line(void);
bool read_list(void); /* fills the apa before it starts, or afterwards admits who is new and lets go who is not listed */
int task_of(pid_t thread);

/* ---- guard.c: who puts masks back */
bool guard_lock(void);
int guard_restore(void); /* how many masks of an agent that did not end well were put back */
bool guard_open(void);
void guard_keep(int t);                       /* thread and user's mask of t, or that it is gone */
void guard_next(int t, uint64_t mask);        /* before a mask is narrowed */
void guard_narrow(int t, uint64_t mask);      /* after it was narrowed; 0 after it was widened */
void guard_close(void);

/* ---- masks.c: the hand */
uint64_t mask_of(pid_t thread);
int set_mask(pid_t thread, uint64_t mask); /* 0 or an errno */
bool move_to(int t, uint32_t processor);
void widen(bool all);       /* those that were moved a while ago, or have blocked, or all */
bool adopt_mask(int t);     /* somebody else set its mask: it is the user's now. True where that was so */
void keep_off_pinned(void); /* the agent's own mask */
void mend_child(int t, pid_t child);

/* ---- decisions.c: what the apa is told, and what it answers */
uint32_t tell(uint32_t kind, uint32_t number, uint64_t mask);
void set_user_mask(int t, uint64_t mask);
int admit(const struct task *of);
void leave(int t); /* its thread has ended */
void handle(const struct watched_event *e);
bool settle(void); /* true where something was moved */
void look_at_threads(void);
void look_at_processors(void);

/* ---- the sources of events */
struct source {
    const char *name;
    bool (*open)(void);
    bool (*list)(pid_t thread, bool listed);
    int (*descriptors)(int *list, int room);
    bool (*drain)(void); /* hands each event to handle; false where events were lost */
};
extern const struct source bpf_source, perf_source;
extern const struct source *source;
extern bool source_is_open;

/* ---- figures.c */
enum figure { EVENTS, STALE, BATCHES, WAKEUPS, DECISIONS, CHAINS, LONGEST, MOVES, WIDENED, VOID, WOULD_MOVE, LOOKS, HEALED,
              LOSSES, FOREIGN, CHILDREN, EXITS, ADMITTED, FIGURES };
extern unsigned long figure[FIGURES];
enum delay { TO_AWAKE, TO_DECIDED, TO_APPLIED, DELAYS };
void keep_delay(enum delay which, uint64_t nanoseconds);
void note_error(int error);
void print_figures(double wall, double used);
#endif
