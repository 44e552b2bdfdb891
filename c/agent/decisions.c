/* What the apa is told of the threads, and what it answers: who of the best set has no processor, and a shortest chain of moves
 * that gives it one. */
#include "agent.h"

#include <string.h>

enum { ARRIVE, DEPART, AFFINITY, OFFLINE, ONLINE }; /* the kinds of apa_apply */

uint32_t tell(uint32_t kind, uint32_t number, uint64_t mask) {
    uint32_t answer = apa_apply(agent.machine, kind, number, mask);
    if (answer < 16) say("the library refuses the event %u of %u: %u", kind, number, answer);
    else schedule_log_note(agent.log, agent.machine, kind, number, mask, answer);
    figure[DECISIONS]++;
    return answer;
}

/* The log knows a change of the mask of an absent task alone: who is ready leaves for it, and comes back. */
void set_user_mask(int t, uint64_t mask) {
    bool ready = agent.task[t].ready;
    agent.task[t].user = mask;
    guard_keep(t);
    if (ready) tell(DEPART, (uint32_t)t, 0);
    tell(AFFINITY, (uint32_t)t, mask);
    if (ready) tell(ARRIVE, (uint32_t)t, 0);
}

/* The number of the task is that of the slot which the apa gives it; NO_TASK where it is refused, and why was said. */
int admit(const struct task *of) {
    uint32_t answer = apa_admit(agent.machine, of->priority, of->user);
    if (answer < APA_SLOT) {
        if (answer == APA_NO_SLOT) say("%s: more than %d tasks", of->name, MOST_TASKS);
        else say("the library refuses %s: %u", of->name, answer);
        return NO_TASK;
    }
    int t = (int)(answer - APA_SLOT);
    if (source_is_open && !source->list(of->thread, true)) {
        apa_retire(agent.machine, (uint32_t)t);
        return NO_TASK;
    }
    agent.task[t] = *of;
    agent.task[t].in_use = true;
    if (t >= agent.tasks) agent.tasks = t + 1;
    schedule_log_admit(agent.log, (uint32_t)t, of->name, of->priority, of->user);
    guard_keep(t);
    figure[ADMITTED]++;
    return t;
}

void leave(int t) {
    struct task *of = &agent.task[t];
    if (!of->in_use) return;
    if (of->ready) tell(DEPART, (uint32_t)t, 0);
    if (of->narrow) set_mask(of->thread, of->user);
    apa_retire(agent.machine, (uint32_t)t);
    schedule_log_retire(agent.log, (uint32_t)t);
    if (source_is_open) source->list(of->thread, false);
    memset(of, 0, sizeof *of);
    guard_narrow(t, 0);
    guard_keep(t);
    figure[EXITS]++;
}

/* ---- events */

static void is_on(int t, int processor) {
    struct task *of = &agent.task[t];
    bool moved = of->processor != processor;
    of->processor = processor;
    if (of->fixed && moved) set_user_mask(t, (uint64_t)1 << processor); /* nobody but the kernel moves it */
    apa_seen(agent.machine, (uint32_t)t, (uint32_t)processor);
}

static void arrives(int t, int processor) {
    is_on(t, processor);
    if (agent.task[t].ready) return;
    agent.task[t].ready = true;
    tell(ARRIVE, (uint32_t)t, 0);
}

static void departs(int t) {
    if (!agent.task[t].ready) return;
    agent.task[t].ready = false;
    tell(DEPART, (uint32_t)t, 0);
}

void handle(const struct watched_event *e) {
    int t = task_of(e->thread);
    if (t == NO_TASK) return;
    struct task *of = &agent.task[t];
    figure[EVENTS]++;
    agent.last = e->stamp;
    if (e->what == FORKED) {
        mend_child(t, e->other);
        return;
    }
    if (e->stamp < of->stamp) { /* a look at /proc has told more since */
        figure[STALE]++;
        return;
    }
    of->stamp = e->stamp;
    switch (e->what) {
    case SWITCHED_OUT:
        of->blocked += e->other != 0;
        if (e->other) departs(t);
        else arrives(t, (int)e->processor);
        break;
    case MIGRATED: is_on(t, (int)e->processor); break;
    case EXITED: leave(t); break;
    default: arrives(t, (int)e->processor);
    }
}

/* ---- what is done */

/* A move failed: the apa thinks that the tasks of the chain are where they were to go. */
static void say_where_they_are(void) {
    for (int t = 0; t < agent.tasks; t++)
        if (agent.task[t].in_use) apa_seen(agent.machine, (uint32_t)t, (uint32_t)agent.task[t].processor);
    figure[VOID]++;
}

/* The moves of one chain, its free end first. */
static bool help(uint32_t lost) {
    apa_move moves[APA_MOST_MOVES];
    agent.task[lost].lost++;
    if (apa_help(agent.machine) == APA_NONE) return false;
    uint32_t count = apa_moves(agent.machine);
    for (uint32_t i = 0; i < count; i++) moves[i] = apa_get_move(agent.machine, i);
    figure[CHAINS]++;
    if (count > figure[LONGEST]) figure[LONGEST] = count;
    for (uint32_t i = 0; i < count; i++) {
        int t = (int)moves[i].task;
        if (agent.task[t].processor == (int)moves[i].to) continue;
        if (!move_to(t, moves[i].to)) {
            say_where_they_are();
            return false;
        }
    }
    return true;
}

bool settle(void) {
    unsigned long before = figure[MOVES];
    uint32_t lost;
    if (!agent.options.watch) widen(false);
    while ((lost = apa_lost(agent.machine)) != APA_NONE)
        if (!help(lost)) break;
    return figure[MOVES] != before;
}

/* ---- looks: at the threads each second, since records can be lost, and at the processors */

void look_at_threads(void) {
    unsigned long before = figure[DECISIONS];
    figure[LOOKS]++;
    for (int t = 0; t < agent.tasks; t++) {
        struct task *of = &agent.task[t];
        struct thread_state is;
        if (!of->in_use) continue;
        uint64_t at = now();
        if (!read_thread(of->thread, &is) || is.start != of->start) {
            leave(t);
            continue;
        }
        of->stamp = at;
        of->voluntary = voluntary_switches(of->thread);
        if (figure[LOOKS] == 1) of->first = of->voluntary;
        if (is.state == 'R') arrives(t, is.processor);
        else departs(t);
    }
    figure[HEALED] += figure[DECISIONS] - before;
}

void look_at_processors(void) {
    uint64_t on_line = read_on_line();
    for (uint32_t p = 0; p < agent.processors; p++) {
        if (!((on_line ^ agent.on_line) >> p & 1)) continue;
        say("processor %u is %s line", p, on_line >> p & 1 ? "on" : "off");
        tell(on_line >> p & 1 ? ONLINE : OFFLINE, p, 0);
    }
    agent.on_line = on_line;
}
