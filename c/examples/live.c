/* Threads on real processors, scheduled by an apa: its history is written as a schedule text, which `apa check` judges.
 *     live [EVENTS] > FILE     ends after so many events, 4,000 where no number is given and 9,000 at most
 *
 * The tasks are threads, and the processors of the apa are CPUs that this process may use, eight at most. A worker naps, says that it
 * is ready, runs for a while when it is started, and says that it has blocked. One agent takes these events from a queue, asks the
 * apa, and does the moves: it pins a thread to a CPU by pthread_setaffinity_np and starts it by a semaphore; it asks a thread to
 * stop, and does no move to the processor that the thread leaves before the thread has said that it has stopped. Nothing but a
 * signal stops a thread from outside, so workers look whether they are asked. Some events are the agent's own: masks change, and
 * processors go off line and come back.
 *
 * Before each event the agent enters a tick of the microseconds since the event before. c/log writes the text. */
#define _GNU_SOURCE
#include "live.h"
#include "mirror.h"

#include <inttypes.h>
#include <sched.h>
#include <stdbool.h>
#include <stdio.h>
#include <time.h>

#define MOST_EVENTS 9000 /* a schedule has 20,000 entries at most, and a tick stands before each event */
#define OWN_EVENTS 20    /* each so many-th event is the agent's own */

static uint64_t all_processors(void) { return (1ull << processors) - 1; }

/* Task 0 may run everywhere, and the others on one processor, on two or on all, by turns. */
static uint64_t first_mask(uint32_t t) {
    uint64_t one = 1ull << t % processors, next = 1ull << (t + 1) % processors;
    return t % 5 == 0 ? all_processors() : t % 5 < 3 ? one | next : one;
}

/* ---- The log: what the events came to, as a schedule text */
static struct mirror log_state, log_begun;
static FILE *entries;
static unsigned long entry_count;

static void tick(uint64_t units) {
    mirror_write_tick(&log_state, entries, units);
    entry_count++;
}

static void begin_log(void) {
    mirror_begin(&log_state, processors);
    log_state.tasks = tasks;
    for (uint32_t t = 0; t < tasks; t++) {
        struct mirrored *of = &log_state.task[t];
        snprintf(of->name, sizeof of->name, "w%" PRIu32, t);
        of->in_use = true;
        of->priority = t;
        of->mask = first_mask(t);
    }
    mirror_begin_text(&log_state);
    log_begun = log_state;
}

/* The whole text: the head, which says how many entries there are, comes before them. */
static void write_schedule(const char *lines) {
    mirror_write_head(&log_begun, stdout, entry_count);
    fputs(lines, stdout);
    mirror_write_contexts(&log_state, stdout);
}

/* ---- The agent */
static uint32_t leaves[MOST_PROCESSORS]; /* who was asked to stop there, and has not been waited for */
static unsigned long stops, starts, void_starts, shifts;

static void wait_until_left(uint32_t processor) {
    if (leaves[processor] == APA_NONE) return;
    wait_for(&task[leaves[processor]].stopped);
    leaves[processor] = APA_NONE;
}

static void stop(uint32_t t, uint32_t from) {
    int was = RUNS;
    wait_until_left(from);
    if (atomic_compare_exchange_strong(&task[t].state, &was, ASKED)) leaves[from] = t;
    stops++;
}

static void pin(uint32_t t, uint32_t processor) {
    cpu_set_t set;
    CPU_ZERO(&set);
    CPU_SET((size_t)cpus[processor], &set);
    if (pthread_setaffinity_np(task[t].thread, sizeof set, &set)) fprintf(stderr, "live: CPU %d is gone\n", cpus[processor]);
}

/* A task that has blocked since it was ready stays parked: its departure is in the queue. */
static void start(uint32_t t, uint32_t to) {
    for (uint32_t p = 0; p < processors; p++)
        if (leaves[p] == t || p == to) wait_until_left(p);
    starts++;
    if (atomic_load(&task[t].state) != PARKED) {
        void_starts++;
        return;
    }
    atomic_fetch_add(&task[t].changes, 1);
    pin(t, to);
    atomic_store(&task[t].place, (int)to);
    atomic_store(&task[t].state, RUNS);
    atomic_fetch_add(&task[t].changes, 1);
    sem_post(&task[t].go);
}

/* It goes on running, unless it parks in the meantime. */
static void shift(uint32_t t, uint32_t from, uint32_t to) {
    int was = (int)from;
    wait_until_left(to);
    atomic_fetch_add(&task[t].changes, 1);
    pin(t, to);
    atomic_compare_exchange_strong(&task[t].place, &was, (int)to);
    atomic_fetch_add(&task[t].changes, 1);
    shifts++;
}

static void do_moves(apa *a) {
    for (uint32_t i = 0; i < apa_moves(a); i++) {
        apa_move move = apa_get_move(a, i);
        if (move.to == APA_NONE)
            stop(move.task, move.from);
        else if (move.from == APA_NONE)
            start(move.task, move.to);
        else
            shift(move.task, move.from, move.to);
    }
}

/* A change of the agent's own. Task 0 keeps its mask of all processors, and half of the processors stay on line: somebody runs. */
static struct event own_event(apa *a, uint64_t *seed) {
    uint32_t p = (uint32_t)draw(seed, processors), t = 1 + (uint32_t)draw(seed, tasks - 1);
    if (draw(seed, 2)) return (struct event){2, t, 1 + draw(seed, all_processors())};
    bool may_go = 2 * (uint32_t)__builtin_popcountll(apa_on_line(a) & ~(1ull << p)) >= processors;
    return (struct event){may_go && draw(seed, 2) ? 3 : 4, p, 0};
}

/* One event: its entry, and its moves; false where the apa refuses it. */
static bool apply(apa *a, struct event event) {
    uint32_t answer = apa_apply(a, event.kind, event.number, event.mask);
    if (answer < 16) return false;
    struct noted noted = note_of(a, event.kind, event.number, event.mask, answer);
    mirror_write_entry(&log_state, entries, &noted);
    entry_count++;
    do_moves(a);
    return true;
}

/* A ready task leaves, has its mask changed, and comes back: a reply to a change of the mask of a ready task names also who came in
 * meanwhile and went again, and of these there is no move. */
static bool change_mask(apa *a, struct event event) {
    struct event leaves = {1, event.number, 0}, comes = {0, event.number, 0};
    if (!apa_is_ready(a, event.number)) return apply(a, event);
    return apply(a, leaves) && apply(a, event) && apply(a, comes);
}

/* Applies so many events; false where the apa refuses one. */
static bool serve(apa *a, unsigned long events) {
    uint64_t seed = 5, last = microseconds();
    for (unsigned long i = 1; i <= events; i++) {
        struct event event = i % OWN_EVENTS ? take() : own_event(a, &seed);
        uint64_t units = microseconds() - last;
        if (units > 1000000) units = 1000000;
        if (units > 0) tick(units);
        last += units;
        if (event.kind == 1) atomic_store(&task[event.number].state, PARKED);
        if (!(event.kind == 2 ? change_mask(a, event) : apply(a, event))) return false;
    }
    return true;
}

/* ---- The whole */
static void find_cpus(void) {
    cpu_set_t set;
    if (sched_getaffinity(0, sizeof set, &set)) return;
    for (int cpu = 0; cpu < CPU_SETSIZE && processors < MOST_PROCESSORS; cpu++)
        if (CPU_ISSET((size_t)cpu, &set)) cpus[processors++] = cpu;
    tasks = processors * TASKS_OF_A_PROCESSOR;
}

static bool begin(apa *a) {
    for (uint32_t t = 0; t < tasks; t++)
        if (apa_add_task(a, t, first_mask(t)) != APA_DONE) return false;
    if (apa_start(a) != APA_DONE) return false;
    for (uint32_t p = 0; p < processors; p++) leaves[p] = APA_NONE;
    begin_log();
    for (uint32_t t = 0; t < tasks; t++) {
        atomic_store(&task[t].place, NOWHERE);
        if (sem_init(&task[t].go, 0, 0) || sem_init(&task[t].stopped, 0, 0)) return false;
    }
    for (uint32_t t = 0; t < tasks; t++)
        if (pthread_create(&task[t].thread, NULL, work, (void *)(uintptr_t)t)) return false;
    return true;
}

/* Wakes all threads, each of which ends, and counts what they saw. */
static bool end(void) {
    unsigned long looks = 0, elsewhere = 0, together = 0;
    atomic_store(&over, true);
    for (uint32_t t = 0; t < tasks; t++) sem_post(&task[t].go);
    for (uint32_t t = 0; t < tasks; t++) pthread_join(task[t].thread, NULL);
    for (uint32_t t = 0; t < tasks; t++) {
        looks += task[t].looks;
        elsewhere += task[t].elsewhere;
        together += task[t].together;
    }
    fprintf(stderr, "live: %lu starts, %lu of them void, %lu stops, %lu shifts; of %lu looks %lu found another CPU, and %lu another task\n",
            starts, void_starts, stops, shifts, looks, elsewhere, together);
    return elsewhere == 0 && together == 0;
}

int main(int argc, char **argv) {
    unsigned long events = argc > 1 ? strtoul(argv[1], NULL, 10) : 4000;
    char *lines = NULL;
    size_t length = 0;
    find_cpus();
    apa *a = apa_new(processors);
    entries = open_memstream(&lines, &length);
    if (!a || !entries || !begin(a)) return 2;
    bool served = serve(a, events > MOST_EVENTS ? MOST_EVENTS : events), alone = end();
    apa_free(a);
    if (fclose(entries)) return 2;
    write_schedule(lines);
    free(lines);
    return !served || !alone;
}
