/* Events by a program in the kernel, which the linker put into this one: one ring, in the order in which they happened. */
#include "agent.h"

#include <bpf/bpf.h>
#include <bpf/libbpf.h>
#include <errno.h>
#include <string.h>
#include <sys/mman.h>
#include <unistd.h>

extern const char _binary_watch_bpf_o_start[], _binary_watch_bpf_o_end[]; /* as `ld -r -b binary watch.bpf.o` names them */

static struct bpf_object *object;
static struct ring_buffer *ring;
static const uint64_t *lost; /* the kernel's count */
static int listed;

static int say_nothing(enum libbpf_print_level level, const char *form, va_list list) {
    (void)level, (void)form, (void)list;
    return 0;
}

static int take_event(void *context, void *data, size_t size) {
    (void)context;
    if (size >= sizeof(struct watched_event)) handle(data);
    return 0;
}

/* The program in the kernel knows the agent's thread, whose steps are no events. */
static bool tell_own_thread(void) {
    int32_t own = (int32_t)getpid();
    struct bpf_map *map = bpf_object__find_map_by_name(object, ".rodata.agent");
    return map && bpf_map__set_initial_value(map, &own, sizeof own) == 0;
}

/* Where the kernel counts the events that found no room: its memory, mapped. */
static const uint64_t *count_of_lost(void) {
    int map = bpf_object__find_map_fd_by_name(object, ".bss.lost");
    void *at = map < 0 ? MAP_FAILED : mmap(NULL, 4096, PROT_READ, MAP_SHARED, map, 0);
    return at == MAP_FAILED ? NULL : at;
}

static bool attach_all(void) {
    struct bpf_program *program;
    bpf_object__for_each_program(program, object) {
        if (bpf_program__attach(program)) continue;
        say("the kernel does not let %s be attached: %s", bpf_program__name(program), strerror(errno));
        return false;
    }
    return true;
}

static bool bpf_list(pid_t thread, bool is_listed) {
    uint64_t blocks = THREAD_BLOCKS;
    int32_t key = thread;
    if (!is_listed) return bpf_map_delete_elem(listed, &key) == 0;
    return bpf_map_update_elem(listed, &key, &blocks, BPF_ANY) == 0;
}

static bool bpf_open(void) {
    libbpf_set_print(say_nothing);
    object = bpf_object__open_mem(_binary_watch_bpf_o_start, (size_t)(_binary_watch_bpf_o_end - _binary_watch_bpf_o_start), NULL);
    if (!object || !tell_own_thread()) {
        say("the program for the kernel cannot be opened: %s", strerror(errno));
        return false;
    }
    if (bpf_map__set_max_entries(bpf_object__find_map_by_name(object, "ring"), agent.options.ring) || bpf_object__load(object)) {
        say("the kernel refuses the program that listens to its tracepoints: %s (CAP_BPF and CAP_PERFMON are needed, and a kernel "
            "with BTF, /sys/kernel/btf/vmlinux)", strerror(errno));
        return false;
    }
    listed = bpf_object__find_map_fd_by_name(object, "listed");
    lost = count_of_lost();
    for (int t = 0; t < agent.tasks; t++)
        if (agent.task[t].in_use) bpf_list(agent.task[t].thread, true);
    ring = ring_buffer__new(bpf_object__find_map_fd_by_name(object, "ring"), take_event, NULL, NULL);
    if (!ring || !lost) {
        say("no ring for events: %s", strerror(errno));
        return false;
    }
    return attach_all();
}

static int bpf_descriptors(int *list, int room) {
    if (room < 1) return 0;
    list[0] = ring_buffer__epoll_fd(ring);
    return 1;
}

static bool bpf_drain(void) {
    static uint64_t known;
    ring_buffer__consume(ring);
    uint64_t count = __atomic_load_n(lost, __ATOMIC_SEQ_CST);
    figure[LOSSES] += count - known;
    bool whole = count == known;
    known = count;
    return whole;
}

const struct source bpf_source = {"BPF", bpf_open, bpf_list, bpf_descriptors, bpf_drain};
