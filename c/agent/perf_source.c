/* Events by perf: a ring a processor, into which the tracepoints of the scheduler write. A fallback for kernels without BTF. On
 * idle processors perf was seen to miss events without a word; at the end the agent says how many switches of its threads it
 * had no record of. A record is raw: its fields stand where the kernel's format files say. */
#include "agent.h"

#include <errno.h>
#include <fcntl.h>
#include <linux/perf_event.h>
#include <stdio.h>
#include <stdlib.h>
#include <string.h>
#include <sys/ioctl.h>
#include <sys/mman.h>
#include <sys/syscall.h>
#include <time.h>
#include <unistd.h>

enum { MOST_EVENTS = 16384 }; /* of a batch */
enum { SWITCH, WAKEUP, WAKEUP_NEW, MIGRATE, EXIT, FORK, POINTS };

static struct point {
    const char *name, *first, *second, *third; /* the fields that are read */
    const char *thread, *or_thread;            /* those that name a listed thread */
    int id, at[3];
} point[POINTS] = {
    {"sched_switch", "prev_pid", "prev_state", "next_pid", "prev_pid", "next_pid", 0, {0}},
    {"sched_wakeup", "pid", "target_cpu", NULL, "pid", NULL, 0, {0}},
    {"sched_wakeup_new", "pid", "target_cpu", NULL, "pid", NULL, 0, {0}},
    {"sched_migrate_task", "pid", "dest_cpu", NULL, "pid", NULL, 0, {0}},
    {"sched_process_exit", "pid", NULL, NULL, "pid", NULL, 0, {0}},
    {"sched_process_fork", "parent_pid", "child_pid", NULL, "parent_pid", NULL, 0, {0}},
};

static struct perf_ring {
    int descriptor[POINTS];
    struct perf_event_mmap_page *head;
    const char *data;
    uint64_t size;
} ring[MOST_PROCESSORS];

static struct watched_event batch[MOST_EVENTS];
static size_t count;
static bool whole;

/* ---- where the fields stand */

static int offset_of(const char *text, const char *field) {
    char wanted[64];
    snprintf(wanted, sizeof wanted, " %s;", field);
    const char *at = strstr(text, wanted);
    at = at ? strstr(at, "offset:") : NULL;
    return at ? atoi(at + strlen("offset:")) : -1;
}

static bool read_format(struct point *of) {
    static const char *const places[] = {"/sys/kernel/tracing", "/sys/kernel/debug/tracing"};
    char path[256], text[8192];
    ssize_t length = -1;
    for (size_t i = 0; i < 2 && length <= 0; i++) {
        snprintf(path, sizeof path, "%s/events/sched/%s/format", places[i], of->name);
        int f = open(path, O_RDONLY | O_CLOEXEC);
        if (f < 0) continue;
        length = read(f, text, sizeof text - 1);
        close(f);
    }
    text[length > 0 ? length : 0] = 0;
    const char *id = strstr(text, "ID: "), *fields[] = {of->first, of->second, of->third};
    of->id = id ? atoi(id + strlen("ID: ")) : 0;
    bool found = of->id > 0;
    for (int i = 0; i < 3 && fields[i]; i++) {
        of->at[i] = offset_of(text, fields[i]);
        found &= of->at[i] >= 0;
    }
    if (!found) say("%s cannot be read: `mount -t tracefs nodev /sys/kernel/tracing` mounts it, root may read it", path);
    return found;
}

/* ---- the filter in the kernel: events of listed threads, but for the steps of the agent itself */

static char *add_threads(char *at, const char *field) {
    const char *either = "";
    *at++ = '(';
    for (int t = 0; t < agent.tasks; t++) {
        if (!agent.task[t].in_use) continue;
        at += sprintf(at, "%s%s==%d", either, field, agent.task[t].thread);
        either = "||";
    }
    at += sprintf(at, "%s)", *either ? "" : "common_pid==-2");
    return at;
}

static char *filter_of(const struct point *of) {
    char *text = malloc(64 * MOST_TASKS + 256), *at = text;
    if (!text) return NULL;
    at = add_threads(at, of->thread);
    if (of->or_thread) {
        at += sprintf(at, " && (next_pid != %d || prev_state & 255) || ", getpid());
        at = add_threads(at, of->or_thread);
        sprintf(at, " && prev_pid != %d", getpid());
    }
    return text;
}

static bool set_filters(void) {
    for (int i = 0; i < POINTS; i++) {
        char *filter = filter_of(&point[i]);
        bool set = filter != NULL;
        for (uint32_t p = 0; p < agent.processors && set; p++)
            if (ring[p].data && ioctl(ring[p].descriptor[i], PERF_EVENT_IOC_SET_FILTER, filter)) set = false;
        free(filter);
        if (set) continue;
        say("perf refuses a filter of %s: %s", point[i].name, strerror(errno));
        return false;
    }
    return true;
}

/* A filter is set once: who leaves is heard no more, and who comes cannot be heard. */
static bool perf_list(pid_t thread, bool listed) {
    if (listed) say("thread %d: with --source perf no thread can come later; start the agent anew", thread);
    return !listed;
}

/* ---- rings */

static int open_event(uint32_t processor, int id) {
    struct perf_event_attr attributes = {.type = PERF_TYPE_TRACEPOINT, .size = sizeof attributes, .config = (uint64_t)id,
                                         .sample_period = 1, .sample_type = PERF_SAMPLE_TIME | PERF_SAMPLE_RAW,
                                         .wakeup_events = 1, .use_clockid = 1, .clockid = CLOCK_MONOTONIC};
    return (int)syscall(SYS_perf_event_open, &attributes, -1, (int)processor, -1, PERF_FLAG_FD_CLOEXEC);
}

static bool open_ring(uint32_t processor) {
    struct perf_ring *of = &ring[processor];
    for (int i = 0; i < POINTS; i++) {
        int descriptor = of->descriptor[i] = open_event(processor, point[i].id);
        if (descriptor < 0 || (i > 0 && ioctl(descriptor, PERF_EVENT_IOC_SET_OUTPUT, of->descriptor[0]))) {
            say("perf refuses %s on processor %u: %s (CAP_PERFMON is needed)", point[i].name, processor, strerror(errno));
            return false;
        }
        if (i > 0) continue;
        of->size = agent.options.ring;
        void *at = mmap(NULL, of->size + 4096, PROT_READ | PROT_WRITE, MAP_SHARED, descriptor, 0);
        if (at == MAP_FAILED) {
            say("no ring of perf for processor %u: %s (CAP_IPC_LOCK is needed)", processor, strerror(errno));
            return false;
        }
        of->head = at;
        of->data = (const char *)at + 4096;
    }
    return true;
}

static bool perf_open(void) {
    for (int i = 0; i < POINTS; i++)
        if (!read_format(&point[i])) return false;
    for (uint32_t p = 0; p < agent.processors; p++)
        if (agent.on_line >> p & 1 && !open_ring(p)) return false;
    return set_filters();
}

static int perf_descriptors(int *list, int room) {
    int found = 0;
    for (uint32_t p = 0; p < agent.processors && found < room; p++)
        if (ring[p].data) list[found++] = ring[p].descriptor[0];
    return found;
}

/* ---- records */

static void put(uint64_t stamp, enum watched what, uint32_t processor, int thread, int other) {
    if (count == MOST_EVENTS) whole = false;
    else batch[count++] = (struct watched_event){stamp, what, processor, thread, other};
}

static int32_t number_at(const char *raw, int offset) {
    int32_t number;
    memcpy(&number, raw + offset, sizeof number);
    return number;
}

static void read_sample(uint32_t processor, uint64_t stamp, const char *raw) {
    uint16_t id;
    int i = 0;
    memcpy(&id, raw, sizeof id);
    while (i < POINTS && point[i].id != id) i++;
    if (i == POINTS) return;
    int32_t first = number_at(raw, point[i].at[0]), second = point[i].second ? number_at(raw, point[i].at[1]) : 0;
    switch (i) {
    case SWITCH:
        put(stamp, SWITCHED_OUT, processor, first, (second & 255) != 0);
        put(stamp, SWITCHED_IN, processor, number_at(raw, point[i].at[2]), 0);
        break;
    case MIGRATE: put(stamp, MIGRATED, (uint32_t)second, first, 0); break;
    case EXIT: put(stamp, EXITED, processor, first, 0); break;
    case FORK: put(stamp, FORKED, processor, first, second); break;
    default: put(stamp, WOKEN, (uint32_t)second, first, 0);
    }
}

/* Records are of 8 bytes each, so a head never wraps; a body may. */
static void drain_ring(uint32_t processor) {
    static char copy[65536];
    struct perf_ring *of = &ring[processor];
    uint64_t head = __atomic_load_n(&of->head->data_head, __ATOMIC_ACQUIRE), tail = of->head->data_tail;
    while (tail < head) {
        struct perf_event_header record;
        uint64_t at = tail % of->size;
        const char *body = of->data + at;
        memcpy(&record, body, sizeof record);
        if (at + record.size > of->size) {
            memcpy(copy, body, of->size - at);
            memcpy(copy + (of->size - at), of->data, record.size - (of->size - at));
            body = copy;
        }
        if (record.type == PERF_RECORD_LOST) {
            whole = false;
            figure[LOSSES]++;
        } else if (record.type == PERF_RECORD_SAMPLE) { /* the stamp, the size of the raw bytes, and these */
            uint64_t stamp;
            memcpy(&stamp, body + sizeof record, sizeof stamp);
            read_sample(processor, stamp, body + sizeof record + sizeof stamp + 4);
        }
        tail += record.size;
    }
    __atomic_store_n(&of->head->data_tail, tail, __ATOMIC_RELEASE);
}

static int by_stamp(const void *a, const void *b) {
    const struct watched_event *x = a, *y = b;
    if (x->stamp != y->stamp) return x->stamp < y->stamp ? -1 : 1;
    return (int)x->what - (int)y->what;
}

static bool perf_drain(void) {
    count = 0;
    whole = true;
    for (uint32_t p = 0; p < agent.processors; p++)
        if (ring[p].data) drain_ring(p);
    qsort(batch, count, sizeof *batch, by_stamp);
    for (size_t i = 0; i < count; i++) handle(&batch[i]);
    return whole;
}

const struct source perf_source = {"perf", perf_open, perf_list, perf_descriptors, perf_drain};
