/* apa-agent: strong APA scheduling for the SCHED_FIFO threads that a list names, on a stock Linux kernel.
 *
 *     apa-agent [OPTIONS] TASKS
 *
 * The kernel goes on scheduling by priority. The agent learns who wakes, blocks and migrates, asks the library who of the best
 * set has no processor, and gives it one by a shortest chain of moves, never outside of a mask that the user set. */
#include "agent.h"

#include <errno.h>
#include <poll.h>
#include <sched.h>
#include <signal.h>
#include <stdarg.h>
#include <stdio.h>
#include <string.h>
#include <sys/mman.h>
#include <time.h>
#include <unistd.h>

enum { LOOK_EACH = 50000000, THREADS_EACH = 1000000000 }; /* nanoseconds */
enum { MOST_BATCHES = 64 };                                /* before the agent looks around, however much comes */

struct agent agent;
const struct source *source;
bool source_is_open;
static volatile sig_atomic_t to_end, to_read;

uint64_t now(void) {
    struct timespec t;
    clock_gettime(CLOCK_MONOTONIC, &t);
    return (uint64_t)t.tv_sec * 1000000000 + (uint64_t)t.tv_nsec;
}

void say(const char *form, ...) {
    va_list list;
    va_start(list, form);
    fputs("apa-agent: ", stderr);
    vfprintf(stderr, form, list);
    fputc('\n', stderr);
    va_end(list);
}

/* One batch: all that came, then what it changes. */
static bool take_batch(uint64_t awake) {
    unsigned long before = figure[EVENTS];
    if (!source->drain()) {
        say("events were lost: all threads are looked at anew");
        look_at_threads();
    }
    if (figure[EVENTS] == before) return false;
    uint64_t last = agent.last, decided = now();
    bool moved = settle();
    figure[BATCHES]++;
    keep_delay(TO_AWAKE, awake > last ? awake - last : 0);
    keep_delay(TO_DECIDED, decided - last);
    if (moved) keep_delay(TO_APPLIED, now() - last);
    return true;
}

/* Twenty times a second: processors and masks; once a second: threads. */
static void look_around(uint64_t at) {
    static uint64_t last_look, last_threads;
    if (at - last_look < LOOK_EACH) return;
    last_look = at;
    look_at_processors();
    for (int t = 0; t < agent.tasks && !agent.options.watch; t++)
        if (agent.task[t].in_use && !agent.task[t].fixed) adopt_mask(t);
    if (at - last_threads >= THREADS_EACH) {
        last_threads = at;
        look_at_threads();
    }
    if (to_read) {
        to_read = 0;
        read_list();
    }
    keep_off_pinned();
    settle();
}

static void loop(void) {
    struct pollfd wait[MOST_PROCESSORS];
    int descriptors[MOST_PROCESSORS], count = source->descriptors(descriptors, MOST_PROCESSORS);
    uint64_t end = agent.options.seconds ? now() + (uint64_t)agent.options.seconds * 1000000000 : UINT64_MAX;
    for (int i = 0; i < count; i++) wait[i] = (struct pollfd){descriptors[i], POLLIN, 0};
    while (!to_end && now() < end) {
        poll(wait, (nfds_t)count, LOOK_EACH / 1000000);
        figure[WAKEUPS]++;
        uint64_t awake = now();
        for (int batches = 0; batches < MOST_BATCHES && take_batch(awake); batches++) awake = now();
        look_around(now());
    }
}

/* ---- before and after */

static bool start_machine(void) {
    agent.machine = apa_new(agent.processors);
    if (!agent.machine || apa_start_with_slots(agent.machine, MOST_TASKS) != APA_DONE) {
        say("no memory for %u processors", agent.processors);
        return false;
    }
    if (!agent.options.log) return true;
    agent.log = schedule_log_open(agent.options.log, agent.processors);
    if (!agent.log) say("the log %s.0 cannot be written: %s", agent.options.log, strerror(errno));
    return agent.log != NULL;
}

static bool be_urgent(void) {
    struct sched_param param = {.sched_priority = agent.options.priority};
    mlockall(MCL_CURRENT | MCL_FUTURE);
    if (agent.options.processor >= 0) {
        cpu_set_t set;
        CPU_ZERO(&set);
        CPU_SET((size_t)agent.options.processor, &set);
        if (sched_setaffinity(0, sizeof set, &set)) {
            say("the agent cannot run on processor %d: %s", agent.options.processor, strerror(errno));
            return false;
        }
    }
    if (agent.options.watch || sched_setscheduler(0, SCHED_FIFO, &param) == 0) return true; /* who only watches pushes nobody away */
    say("the agent cannot be SCHED_FIFO: %s (CAP_SYS_NICE is needed)", strerror(errno));
    return false;
}

static void on_signal(int number) {
    if (number == SIGHUP) to_read = 1;
    else to_end = 1;
}

static bool start(void) {
    struct sigaction action = {.sa_handler = on_signal};
    agent.processors = (uint32_t)sysconf(_SC_NPROCESSORS_CONF);
    if (agent.processors > MOST_PROCESSORS) {
        say("this machine has %u processors, and 64 are the most", agent.processors);
        return false;
    }
    agent.all = agent.processors == 64 ? ~(uint64_t)0 : ((uint64_t)1 << agent.processors) - 1;
    agent.on_line = agent.all;
    if (!guard_lock()) return false;
    int restored = guard_restore();
    if (restored) say("an earlier agent did not end well: %d masks put back", restored);
    if (!guard_open() || !start_machine() || !read_list()) return false;
    look_at_processors();
    if (!source->open()) return false;
    source_is_open = true;
    if (!be_urgent()) return false;
    sigaction(SIGTERM, &action, NULL);
    sigaction(SIGINT, &action, NULL);
    sigaction(SIGHUP, &action, NULL);
    return true;
}

static void end(uint64_t begun) {
    struct timespec used;
    struct sched_param none = {0};
    unsigned long texts = 0, events = 0;
    clock_gettime(CLOCK_PROCESS_CPUTIME_ID, &used);
    double wall = (double)(now() - begun) / 1e9;
    if (!agent.options.watch) widen(true);
    sched_setscheduler(0, SCHED_OTHER, &none);
    guard_close();
    print_figures(wall, (double)used.tv_sec + (double)used.tv_nsec / 1e9);
    if (agent.log) {
        schedule_log_close(agent.log, &texts, &events);
        printf("log %s: %lu texts, %lu events\n", agent.options.log, texts, events);
    }
    apa_free(agent.machine);
}

int main(int count, char **words) {
    if (!read_options(count, words)) return 2;
    if (agent.options.restore) {
        if (!guard_lock()) return 2;
        printf("%d masks put back\n", guard_restore());
        return 0;
    }
    source = agent.options.perf ? &perf_source : &bpf_source;
    if (!start()) {
        guard_close();
        return 2;
    }
    uint64_t begun = now();
    look_at_threads();
    keep_off_pinned();
    settle();
    printf("apa-agent %d: %d tasks, %u processors, events by %s%s\n", getpid(), agent.tasks, agent.processors, source->name,
           agent.options.watch ? ", it only watches" : "");
    fflush(stdout);
    loop();
    end(begun);
    return 0;
}
