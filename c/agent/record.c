/* apa-record: the switches, wakeups and migrations of all real-time threads of this machine for some seconds, as the text that
 * ftrace would print of them.
 *
 *     apa-record [--say] SECONDS > system.trace
 *
 * With --say it says `recording` on standard error when it has begun. It ends early at ^C or SIGTERM, with what there is. Where an event found no room nothing is written, and the status is 2. */
#include "recorded.h"

#include <bpf/bpf.h>
#include <bpf/libbpf.h>
#include <errno.h>
#include <signal.h>
#include <stdarg.h>
#include <stdbool.h>
#include <stdint.h>
#include <stdio.h>
#include <stdlib.h>
#include <string.h>
#include <time.h>
#include <unistd.h>

extern const char _binary_record_bpf_o_start[], _binary_record_bpf_o_end[];

static struct recorded_line *lines;
static size_t count, room;
static bool no_memory;
static volatile sig_atomic_t to_end;

static void on_signal(int number) { to_end = number; }

static int refuse(const char *what) {
    fprintf(stderr, "apa-record: %s: %s\n", what, strerror(errno));
    return 2;
}

static int say_nothing(enum libbpf_print_level level, const char *form, va_list list) {
    (void)level, (void)form, (void)list;
    return 0;
}

static int take_line(void *context, void *data, size_t size) {
    (void)context;
    if (size < sizeof *lines || no_memory) return 0;
    if (count == room) {
        size_t more = room ? 2 * room : 65536;
        struct recorded_line *list = realloc(lines, more * sizeof *lines);
        if (!list) {
            no_memory = true;
            return 0;
        }
        lines = list;
        room = more;
    }
    memcpy(&lines[count++], data, sizeof *lines);
    return 0;
}

/* Two processors may take their places in the ring in another order than their stamps. */
static int by_stamp(const void *a, const void *b) {
    const struct recorded_line *x = a, *y = b;
    return x->stamp < y->stamp ? -1 : x->stamp > y->stamp;
}

/* ---- text */

/* The letter of ftrace for a state that is not ready. */
static char letter_of(unsigned state) {
    static const char letters[] = "SDTtXZPI";
    for (int bit = 0; bit < 8; bit++)
        if (state >> bit & 1) return state == 0x402 ? 'I' : letters[bit];
    return 'S';
}

/* A blank in a name would end a field of the line: an underscore stands for it. */
static const char *name_of(const struct recorded_thread *of) {
    static char names[4][16];
    static unsigned turn;
    char *name = names[turn++ % 4];
    if (of->thread == 0) return "swapper";
    for (int i = 0; i < 16; i++) name[i] = of->name[i] == ' ' || of->name[i] == '=' ? '_' : of->name[i];
    return name;
}

static void print_line(const struct recorded_line *line) {
    static const char *const events[] = {"", "sched_switch", "sched_wakeup", "sched_wakeup_new", "sched_migrate_task"};
    const struct recorded_thread *current = &line->current, *other = &line->other;
    printf("%16s-%-7d [%03u] d..2. %5llu.%06llu: %s: ", current->thread ? name_of(current) : "<idle>", current->thread,
           line->processor, line->stamp / 1000000000, line->stamp / 1000 % 1000000, events[line->what]);
    if (line->what == RECORDED_SWITCH) {
        printf("prev_comm=%s prev_pid=%d prev_prio=%d prev_state=%c ==> next_comm=%s next_pid=%d next_prio=%d\n", name_of(current),
               current->thread, current->priority, line->state ? letter_of(line->state) : 'R', name_of(other), other->thread,
               other->priority);
        return;
    }
    printf("comm=%s pid=%d prio=%d ", name_of(other), other->thread, other->priority);
    if (line->what == RECORDED_MIGRATION) printf("orig_cpu=%u dest_cpu=%u\n", line->from, line->target);
    else printf("target_cpu=%03u\n", line->target);
}

static int print_all(void) {
    qsort(lines, count, sizeof *lines, by_stamp);
    printf("# tracer: nop\n#\n# entries-in-buffer/entries-written: %zu/%zu   #P:%ld\n#\n", count, count, sysconf(_SC_NPROCESSORS_CONF));
    for (size_t i = 0; i < count; i++) print_line(&lines[i]);
    return fflush(stdout) == 0 ? 0 : refuse("the trace cannot be written");
}

/* ---- the program in the kernel */

static uint64_t count_of_lost(struct bpf_object *object) {
    uint32_t first = 0;
    uint64_t lost = 0;
    int map = bpf_object__find_map_fd_by_name(object, ".bss.lost");
    return map < 0 || bpf_map_lookup_elem(map, &first, &lost) ? 1 : lost;
}

static struct bpf_object *load(void) {
    struct bpf_object *object;
    libbpf_set_print(say_nothing);
    object = bpf_object__open_mem(_binary_record_bpf_o_start, (size_t)(_binary_record_bpf_o_end - _binary_record_bpf_o_start), NULL);
    if (!object || bpf_object__load(object)) return NULL;
    return object;
}

static bool attach_all(struct bpf_object *object) {
    struct bpf_program *program;
    bpf_object__for_each_program(program, object)
        if (!bpf_program__attach(program)) return false;
    return true;
}

static void listen_for(struct ring_buffer *ring, double seconds) {
    struct timespec now, end, nap = {0, 2000000};
    clock_gettime(CLOCK_MONOTONIC, &end);
    double until = (double)end.tv_sec + (double)end.tv_nsec / 1e9 + seconds;
    do {
        nanosleep(&nap, NULL);
        ring_buffer__consume(ring);
        clock_gettime(CLOCK_MONOTONIC, &now);
    } while (!to_end && (double)now.tv_sec + (double)now.tv_nsec / 1e9 < until);
}

int main(int words, char **word) {
    struct sigaction action = {.sa_handler = on_signal};
    char *end = NULL;
    bool says = words > 1 && !strcmp(word[1], "--say");
    double seconds = words == 2 + says ? strtod(word[1 + says], &end) : 0;
    if (words != 2 + says || *end || !(seconds > 0 && seconds <= 3600)) {
        fputs("apa-record [--say] SECONDS > system.trace      at most 3600 seconds\n", stderr);
        return 2;
    }
    sigaction(SIGINT, &action, NULL);
    sigaction(SIGTERM, &action, NULL);
    struct bpf_object *object = load();
    if (!object) return refuse("the kernel refuses the program that records (CAP_BPF and CAP_PERFMON are needed, and BTF)");
    struct ring_buffer *ring = ring_buffer__new(bpf_object__find_map_fd_by_name(object, "ring"), take_line, NULL, NULL);
    if (!ring || !attach_all(object)) return refuse("the tracepoints cannot be listened to");
    if (says) fputs("recording\n", stderr);
    listen_for(ring, seconds);
    uint64_t lost = count_of_lost(object);
    if (lost || no_memory) {
        fprintf(stderr, "apa-record: %s; nothing is written\n", no_memory ? "no memory" : "events found no room in the ring");
        return 2;
    }
    return print_all();
}
