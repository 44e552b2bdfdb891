/* The file TASKS: lines `task NAME PRIORITY LIST THREAD`, as `apa tasks` writes them, and `processors M`; others are passed over.
 * The priority that counts is the thread's own. */
#include "agent.h"

#include <errno.h>
#include <fcntl.h>
#include <sched.h>
#include <stdio.h>
#include <stdlib.h>
#include <string.h>
#include <unistd.h>

static bool read_set(const char *text, uint64_t *set) {
    *set = 0;
    while (*text && *text != '\n') {
        char *end;
        unsigned long first = strtoul(text, &end, 10), last = first;
        if (end == text) return false;
        if (*end == '-') {
            text = end + 1;
            last = strtoul(text, &end, 10);
            if (end == text) return false;
        }
        if (first > last || last > 63) return false;
        for (; first <= last; first++) *set |= (uint64_t)1 << first;
        text = *end == ',' ? end + 1 : end;
        if (*end && *end != ',' && *end != '\n') return false;
    }
    return *set != 0;
}

static ssize_t read_file(const char *path, char *text, size_t room) {
    int f = open(path, O_RDONLY | O_CLOEXEC);
    if (f < 0) return -1;
    ssize_t length = read(f, text, room - 1);
    close(f);
    text[length > 0 ? length : 0] = 0;
    return length;
}

uint64_t read_on_line(void) {
    char text[256];
    uint64_t set;
    if (read_file("/sys/devices/system/cpu/online", text, sizeof text) <= 0 || !read_set(text, &set)) return agent.all;
    return set & agent.all;
}

/* The fields of /proc/THREAD/stat after the name, which is in brackets: the state is field 3, its beginning 22, its processor 39. */
bool read_thread(pid_t thread, struct thread_state *is) {
    char path[64], text[1024];
    snprintf(path, sizeof path, "/proc/%d/stat", thread);
    if (read_file(path, text, sizeof text) <= 0) return false;
    char *at = strrchr(text, ')');
    if (!at || !at[1] || !at[2]) return false;
    at += 2;
    is->state = *at;
    for (int field = 3; field < 39; field++) {
        if (field == 22) is->start = strtoull(at, NULL, 10);
        at = strchr(at, ' ');
        if (!at) return false;
        at++;
    }
    is->processor = atoi(at);
    return is->state != 'X' && is->state != 'Z';
}

unsigned long voluntary_switches(pid_t thread) {
    static const char line[] = "\nvoluntary_ctxt_switches:";
    char path[64], text[4096];
    snprintf(path, sizeof path, "/proc/%d/status", thread);
    const char *at = read_file(path, text, sizeof text) > 0 ? strstr(text, line) : NULL;
    return at ? strtoul(at + strlen(line), NULL, 10) : 0;
}

int task_of(pid_t thread) {
    for (int t = 0; t < agent.tasks; t++)
        if (agent.task[t].in_use && agent.task[t].thread == thread) return t;
    return NO_TASK;
}

static int task_with(uint32_t priority) {
    for (int t = 0; t < agent.tasks; t++)
        if (agent.task[t].in_use && agent.task[t].priority == priority) return t;
    return NO_TASK;
}

/* Whether a thread can be governed; if not, why not is said. */
static bool may_be_listed(struct task *of) {
    struct sched_param param;
    int policy = sched_getscheduler(of->thread);
    if (policy < 0 || sched_getparam(of->thread, &param)) {
        say("%s (thread %d): %s", of->name, of->thread, strerror(errno));
        return false;
    }
    if ((policy & ~SCHED_RESET_ON_FORK) != SCHED_FIFO) {
        say("%s (thread %d) is not SCHED_FIFO: `chrt -f -p PRIORITY %d` makes it so", of->name, of->thread, of->thread);
        return false;
    }
    if (param.sched_priority >= agent.options.priority) {
        say("%s (thread %d) has the priority %d, and the agent %d: the agent has to be more urgent (--priority)", of->name,
            of->thread, param.sched_priority, agent.options.priority);
        return false;
    }
    of->priority = 99 - (uint32_t)param.sched_priority;
    int other = task_with(of->priority);
    if (other == NO_TASK) return true;
    say("%s and %s have one priority, %d: no two tasks may", agent.task[other].name, of->name, param.sched_priority);
    return false;
}

/* The mask is what the kernel has; it lies within the list, or the list is not this thread's. */
static bool has_listed_mask(struct task *of, const char *list) {
    uint64_t listed, mask = mask_of(of->thread) & agent.all;
    if (!read_set(list, &listed)) {
        say("%s: %s is not a processor list, as 0-2,5", of->name, list);
        return false;
    }
    if (mask == 0) {
        say("%s (thread %d) may run on no processor of the first %u", of->name, of->thread, agent.processors);
        return false;
    }
    if (mask & ~listed) {
        say("%s (thread %d) may run outside of its list %s now: `taskset -pc %s %d` sets it", of->name, of->thread, list, list, of->thread);
        return false;
    }
    of->user = mask;
    return true;
}

/* One line. The task is in *of. 1: a task, 0: none, -1: it is refused, and why was said. */
static int read_line(const char *line, struct task *of, char *list) {
    unsigned priority;
    memset(of, 0, sizeof *of);
    int read = sscanf(line, "task %32s %u %1023s %d", of->name, &priority, list, &of->thread);
    if (read < 1) return 0;
    if (read != 4) {
        say("a line of a task is NAME PRIORITY LIST THREAD: %.100s", line);
        return -1;
    }
    struct thread_state is = {0};
    if (!read_thread(of->thread, &is)) {
        say("%s: there is no thread %d", of->name, of->thread);
        return -1;
    }
    of->start = is.start;
    of->processor = is.processor;
    return 1;
}

static bool is_known(const struct task *of) {
    int t = task_of(of->thread);
    return t != NO_TASK && agent.task[t].start == of->start;
}

/* Each line; before the apa has started a refused one refuses the whole list. */
static bool read_lines(FILE *file, bool *listed, bool first) {
    char line[4096], list[1024];
    bool good = true;
    while (fgets(line, sizeof line, file)) {
        struct task of;
        int read = read_line(line, &of, list);
        if (read == 0) continue;
        bool taken = read > 0 && (is_known(&of) || (may_be_listed(&of) && has_listed_mask(&of, list) && admit(&of) != NO_TASK));
        if (taken) listed[task_of(of.thread)] = true;
        good &= taken;
        if (!good && first) return false;
    }
    return good;
}

bool read_list(void) {
    bool listed[MOST_TASKS] = {0}, first = agent.tasks == 0;
    FILE *file = fopen(agent.options.list, "re");
    if (!file) {
        say("cannot read %s: %s", agent.options.list, strerror(errno));
        return false;
    }
    bool good = read_lines(file, listed, first);
    fclose(file);
    for (int t = 0; t < agent.tasks && !first; t++)
        if (agent.task[t].in_use && !listed[t]) leave(t);
    if (agent.tasks == 0 && good) say("%s lists no task: `apa tasks > %s` lists those of this machine", agent.options.list, agent.options.list);
    return good && agent.tasks > 0;
}
