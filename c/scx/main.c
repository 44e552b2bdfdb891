/* apa-scx: a sched_ext scheduler of Linux, decided by the library. Threads join by taking the policy SCHED_EXT, and their nice value
 * is their urgency. The kernel's half says what happens to them; this asks the apa who is to run where, and says so. */
#include "agent.h"
#include "kernel.h"

#include <bpf/bpf.h>
#include <errno.h>
#include <inttypes.h>
#include <sched.h>
#include <signal.h>
#include <stdarg.h>
#include <stdio.h>
#include <stdlib.h>
#include <string.h>
#include <sys/mman.h>
#include <time.h>
#include <unistd.h>

struct agent agent;
static volatile sig_atomic_t to_end;

uint64_t now(void) {
    struct timespec t;
    clock_gettime(CLOCK_MONOTONIC, &t);
    return (uint64_t)t.tv_sec * 1000000000 + (uint64_t)t.tv_nsec;
}

void say(const char *form, ...) {
    va_list list;
    va_start(list, form);
    fputs("apa-scx: ", stderr);
    vfprintf(stderr, form, list);
    fputc('\n', stderr);
    va_end(list);
}

/* At most so many events between two looks at the places: what the agent says is not put off by a flood of them. */
enum { BATCH = 32 };

static int take_event(void *context, void *data, size_t size) {
    (void)context;
    if (size >= sizeof(struct said_event)) hear(data);
    return agent.events % BATCH ? 0 : -EAGAIN;
}

static int say_error(enum libbpf_print_level level, const char *form, va_list list) {
    return level == LIBBPF_WARN ? vfprintf(stderr, form, list) : 0;
}

static void on_signal(int number) { to_end = number; }

/* More urgent than what may keep it from its work, and where the user wants it. */
static bool take_its_place(void) {
    struct sched_param param = {.sched_priority = (int)agent.options.priority};
    cpu_set_t set;
    CPU_ZERO(&set);
    if (agent.options.processor >= 0) CPU_SET((unsigned)agent.options.processor, &set);
    if (agent.options.processor >= 0 && sched_setaffinity(0, sizeof set, &set)) {
        say("it cannot go to processor %ld: %s", agent.options.processor, strerror(errno));
        return false;
    }
    if (agent.options.priority == 0 || sched_setscheduler(0, SCHED_FIFO, &param) == 0) return true;
    say("SCHED_FIFO %ld is refused: %s (--priority 0 does without)", agent.options.priority, strerror(errno));
    return false;
}

static bool start_machine(void) {
    agent.processors = (uint32_t)sysconf(_SC_NPROCESSORS_CONF);
    agent.slots = (uint32_t)agent.options.slots;
    agent.machine = apa_new(agent.processors);
    if (!agent.machine || apa_start_with_slots(agent.machine, agent.slots) != APA_DONE) {
        say("no memory, or more than 64 processors: %u", agent.processors);
        return false;
    }
    if (!agent.options.log) return true;
    agent.log = schedule_log_open(agent.options.log, agent.processors);
    if (!agent.log) say("the log %s.0 cannot be written: %s", agent.options.log, strerror(errno));
    return agent.log != NULL;
}

static struct apa_scx *load(void) {
    libbpf_set_print(say_error);
    struct apa_scx *kernel = apa_scx__open();
    if (!kernel) {
        say("libbpf refuses the kernel's half: %s (1.4 is tested)", strerror(errno));
        return NULL;
    }
    kernel->rodata->processors = agent.processors;
    kernel->rodata->held_after = (uint64_t)agent.options.held * 1000000;
    kernel->struct_ops.apa_ops->timeout_ms = (uint32_t)agent.options.timeout;
    if (apa_scx__load(kernel) == 0) return kernel;
    say("the kernel refuses the scheduler: %s (sched_ext is needed, and root)", strerror(errno));
    return NULL;
}

/* What tells of processors that leave comes first: apa_init looks at those that have left in between. */
static struct bpf_link *attach(struct apa_scx *kernel) {
    struct bpf_link *link = NULL;
    if (bpf_program__attach(kernel->progs.apa_leaves) && bpf_program__attach(kernel->progs.apa_stays))
        link = bpf_map__attach_struct_ops(kernel->maps.apa_ops);
    if (!link) say("the scheduler cannot be attached: %s", strerror(errno));
    return link;
}

/* The beat tells the kernel's half that this lives, twenty times a second at least. */
static void loop(struct apa_scx *kernel, struct ring_buffer *ring) {
    uint64_t end = agent.options.seconds ? now() + (uint64_t)agent.options.seconds * 1000000000 : UINT64_MAX;
    while (!to_end && !kernel->bss->exit_kind && now() < end) {
        kernel->bss->beat = now();
        int got = ring_buffer__poll(ring, 50);
        if (got < 0 && got != -EINTR && got != -EAGAIN) agent.fault = true;
        if (agent.fault || (got != 0 && !show_places(kernel))) break;
    }
}

static void end_log(void) {
    unsigned long texts, events;
    if (!agent.log) return;
    schedule_log_close(agent.log, &texts, &events);
    printf("log %s: %lu texts, %lu events\n", agent.options.log, texts, events);
}

int main(int count, char **words) {
    struct sigaction action = {.sa_handler = on_signal};
    if (!read_options(count, words) || !start_machine() || !take_its_place()) return 2;
    struct apa_scx *kernel = load();
    if (!kernel) return 2;
    struct ring_buffer *ring = ring_buffer__new(bpf_map__fd(kernel->maps.events), take_event, NULL, NULL);
    if (!ring) say("the events cannot be read: %s", strerror(errno));
    sigaction(SIGTERM, &action, NULL);
    sigaction(SIGINT, &action, NULL);
    mlockall(MCL_CURRENT | MCL_FUTURE);
    struct bpf_link *link = ring ? attach(kernel) : NULL;
    if (!link) return 2;
    printf("apa-scx: %u processors, %u slots\n", agent.processors, agent.slots);
    fflush(stdout);
    loop(kernel, ring);
    int kind = kernel->bss->exit_kind;
    if (kind) say("the kernel ended it: %s: %s", kernel->bss->exit_reason, kernel->bss->exit_message);
    bpf_link__destroy(link);
    printf("events %lu, threads admitted %lu, sent back %lu, of others %lu; dispatched %" PRIu64 ", parked %" PRIu64
           ", put back %" PRIu64 ", strays %" PRIu64 ", cancelled %" PRIu64 "\n",
           agent.events, agent.admitted, agent.refused, agent.unknown, kernel->bss->dispatched, kernel->bss->parked, kernel->bss->put_back,
           kernel->bss->strays, kernel->bss->cancelled);
    end_log();
    return kind || agent.fault ? 1 : 0;
}
