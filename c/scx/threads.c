/* Threads of SCHED_EXT are tasks of the apa: the number of one is its slot, its priority is its nice value, and of equal ones the
 * lower slot goes first. */
#include "agent.h"

#include <ctype.h>
#include <errno.h>
#include <inttypes.h>
#include <sched.h>
#include <stdio.h>
#include <string.h>

static uint32_t slot_of(uint32_t thread) {
    for (uint32_t t = 0; t < agent.slots; t++)
        if (agent.slot[t].thread == (int)thread) return t;
    return APA_NONE;
}

/* Never seen: what the kernel says and what the library has would then be of two machines. */
static void give_up(const char *what, uint32_t number, uint32_t answer) {
    say("the library refuses %s of %" PRIu32 ", with %" PRIu32 ": the kernel takes the threads back", what, number, answer);
    agent.fault = true;
}

static void tell(uint32_t kind, uint32_t number, uint64_t mask) {
    static const char *const words[] = {"the arrival", "the departure", "the mask", "the end", "the return"};
    uint32_t answer = apa_apply(agent.machine, kind, number, mask);
    if (answer >= 16) schedule_log_note(agent.log, agent.machine, kind, number, mask, answer);
    else give_up(words[kind], number, answer);
}

static uint32_t rank(uint32_t priority, uint32_t t) { return priority * 1024 + t; }

/* The thread's own name and its number, as a text takes names: a letter or _, and then letters, digits, _, . and -. */
static void name_slot(uint32_t t, const struct said_event *e) {
    char *name = agent.slot[t].name;
    bool begins = isalpha((unsigned char)e->name[0]) || e->name[0] == '_';
    snprintf(name, sizeof agent.slot[t].name, "%s%.15s_%" PRIu32, begins ? "" : "_", e->name, e->number);
    for (char *c = name; *c; c++)
        if (!isalnum((unsigned char)*c) && !strchr("_.-", *c)) *c = '_';
}

/* A thread that gets no slot must not starve here: it goes back to the fair class. */
static void send_back(const struct said_event *e, uint32_t answer) {
    struct sched_param none = {0};
    agent.refused++;
    if (sched_setscheduler((pid_t)e->number, SCHED_OTHER, &none))
        say("thread %" PRIu32 " has no slot (%" PRIu32 "), and cannot be sent back: %s", e->number, answer, strerror(errno));
    else say("thread %" PRIu32 " has no slot (%" PRIu32 "): it goes back to the fair class", e->number, answer);
}

static void set_priority(uint32_t t, uint32_t priority) {
    uint32_t answer = apa_set_priority(agent.machine, t, rank(priority, t));
    if (answer != APA_DONE) give_up("the priority", t, answer);
    agent.slot[t].priority = priority;
}

static void join(const struct said_event *e, uint64_t mask) {
    uint32_t answer = apa_admit(agent.machine, APA_NONE, mask);
    if (answer < APA_SLOT) {
        send_back(e, answer);
        return;
    }
    uint32_t t = answer - APA_SLOT;
    agent.slot[t].thread = (int)e->number;
    name_slot(t, e);
    set_priority(t, e->priority);
    schedule_log_admit(agent.log, t, agent.slot[t].name, rank(e->priority, t), mask);
    agent.admitted++;
}

static void leave(uint32_t t) {
    uint32_t answer = apa_retire(agent.machine, t);
    if (answer != APA_DONE) give_up("the leave", t, answer);
    schedule_log_retire(agent.log, t);
    agent.slot[t].thread = 0;
}

static void change_priority(uint32_t t, uint32_t priority) {
    if (priority == agent.slot[t].priority) return;
    set_priority(t, priority);
    schedule_log_retire(agent.log, t);
    schedule_log_admit(agent.log, t, agent.slot[t].name, rank(priority, t), apa_mask(agent.machine, t));
}

/* A thread that changes is absent for that moment, and comes back if it was ready. */
static void change(uint32_t t, const struct said_event *e, uint64_t mask) {
    bool ready = apa_is_ready(agent.machine, t);
    if (e->what == MASK_IS && mask == apa_mask(agent.machine, t)) return;
    if (ready) tell(DEPARTS, t, 0);
    if (e->what == LEAVES) {
        leave(t);
        return;
    }
    if (e->what == MASK_IS) tell(MASK_IS, t, mask);
    else change_priority(t, e->priority);
    if (ready) tell(ARRIVES, t, 0);
}

/* A processor is on line for the apa where it has not left, and no higher class holds it. */
static void change_processor(const struct said_event *e) {
    uint64_t bit = (uint64_t)1 << e->number, before = agent.off_line | agent.held;
    if (e->what == OFF_LINE) agent.off_line |= bit;
    if (e->what == ON_LINE) agent.off_line &= ~bit;
    if (e->what == HELD) agent.held |= bit;
    if (e->what == FREE || e->what == OFF_LINE) agent.held &= ~bit;
    uint64_t after = agent.off_line | agent.held;
    if ((before ^ after) & bit) tell(after & bit ? OFF_LINE : ON_LINE, e->number, 0);
}

void hear(const struct said_event *e) {
    uint64_t all = agent.processors == 64 ? ~(uint64_t)0 : ((uint64_t)1 << agent.processors) - 1;
    agent.events++;
    if (e->what == OFF_LINE || e->what == ON_LINE || e->what == HELD || e->what == FREE) {
        change_processor(e);
        return;
    }
    uint32_t t = slot_of(e->number);
    if (e->what == JOINS) {
        if (t == APA_NONE) join(e, e->mask & all);
    } else if (t == APA_NONE) agent.unknown++;
    else if (e->what == ARRIVES || e->what == DEPARTS) tell(e->what, t, 0);
    else change(t, e, e->mask & all);
}
