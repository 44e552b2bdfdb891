/* The kernel's half of a sched_ext scheduler: it decides nothing. It tells the agent what happens to the threads of SCHED_EXT, and
 * runs on processor p the thread that place[p] names, and nobody else. A thread that does not run is in no queue at all, and is
 * found by its number when processor p looks for whom its place names.
 *
 * Where an event finds no room, or the agent does not beat for a second, the scheduler leaves: the kernel then takes all threads
 * back into its fair class. */
#include "vmlinux.h"
#include <bpf/bpf_helpers.h>
#include <bpf/bpf_tracing.h>
#include <bpf/bpf_core_read.h>

#include "scx.h"

char licence[] SEC("license") = "GPL";

enum { MOST = 64, LOOK_EACH = 5000000, DEAD_AFTER = 1000000000, MOMENT = 1000000, MONOTONIC = 1, POLICY_EXT = 7 };

volatile s32 place[MOST]; /* written by the agent: a thread, or 0 for nobody */
volatile u64 beat;        /* written by the agent: when it was last seen, nanoseconds of CLOCK_MONOTONIC */
const volatile u32 processors = 4;
const volatile u64 held_after = 20000000; /* nanoseconds for which a higher class may hold a processor on which a thread waits */

volatile u64 dispatched, parked, put_back, strays, cancelled, too_early; /* for the agent's last line */
u64 held_since[MOST]; /* since which look a higher class has kept the thread of a place from its processor; 0: it does not */
u32 is_held[MOST];    /* told to the agent as held */
u32 is_gone[MOST];    /* told to the agent as off line */
volatile s32 exit_kind;
char exit_reason[128], exit_message[256];

struct {
    __uint(type, BPF_MAP_TYPE_RINGBUF);
    __uint(max_entries, 1 << 20);
} events SEC(".maps");

struct clock {
    struct bpf_timer timer;
};
struct {
    __uint(type, BPF_MAP_TYPE_ARRAY);
    __uint(max_entries, 1);
    __type(key, u32);
    __type(value, struct clock);
} clocks SEC(".maps");

static char no_room[] = "the agent is behind: an event was lost", no_beat[] = "the agent does not beat";

static __always_inline void leave(char *why) {
    u64 none = 0;
    scx_bpf_error_bstr(why, &none, 0);
}

static __always_inline void say(u32 what, u32 number, u64 mask, struct task_struct *p) {
    struct said_event *e = bpf_ringbuf_reserve(&events, sizeof *e, 0);
    if (!e) {
        leave(no_room);
        return;
    }
    e->what = what;
    e->number = number;
    e->mask = mask;
    e->stamp = bpf_ktime_get_ns();
    e->priority = 0;
    e->name[0] = 0;
    if (p) {
        e->priority = p->static_prio;
        BPF_CORE_READ_STR_INTO(&e->name, p, comm);
    }
    bpf_ringbuf_submit(e, 0);
}

static __always_inline void set_gone(u32 at) {
    if (is_gone[at]) return;
    is_gone[at] = 1;
    say(OFF_LINE, at, 0, 0);
}

static __always_inline void set_back(u32 at) {
    is_gone[at] = 0;
    say(ON_LINE, at, 0, 0);
}

static __always_inline u64 bits_of(const struct cpumask *mask) { return BPF_CORE_READ(mask, bits[0]); }

/* The processor whose place names this thread, or -1. */
static __always_inline s32 place_of(s32 thread) {
    s32 found = -1;
    for (u32 i = 0; i < MOST && i < processors; i++)
        if (place[i] == thread) found = i;
    return found;
}

SEC("struct_ops/apa_select_cpu")
s32 BPF_PROG(apa_select_cpu, struct task_struct *p, s32 previous, u64 flags) {
    s32 processor = place_of(p->pid);
    return processor >= 0 ? processor : previous;
}

/* One that the kernel holds on its processor for a moment, and one that has ended but for its last steps, which its number may not
 * find any more: they go on where they are, whatever the places say. */
static __always_inline bool has_to_stay(struct task_struct *p) {
    u32 held = p->migration_disabled; /* this program itself counts for one in the thread that it interrupts */
    return p->exit_state || held > 1 || (held == 1 && p != bpf_get_current_task_btf());
}

static __always_inline bool may_go_to(struct task_struct *p, s32 processor) {
    return (processor == scx_bpf_task_cpu(p) || !has_to_stay(p)) && bpf_cpumask_test_cpu(processor, p->cpus_ptr);
}

SEC("struct_ops/apa_enqueue")
void BPF_PROG(apa_enqueue, struct task_struct *p, u64 flags) {
    s32 processor = place_of(p->pid);
    if (has_to_stay(p) && processor != scx_bpf_task_cpu(p)) {
        scx_bpf_dsq_insert(p, SCX_DSQ_LOCAL, MOMENT, flags | SCX_ENQ_HEAD | SCX_ENQ_PREEMPT);
        return;
    }
    if (processor < 0 || !may_go_to(p, processor)) {
        parked++;
        return;
    }
    if (is_gone[processor & (MOST - 1)]) return; /* the agent is told, and has another place for it soon */
    if (flags & SCX_ENQ_REENQ) { /* a higher class has the processor: who looks there next finds this thread */
        put_back++;
        scx_bpf_kick_cpu(processor, SCX_KICK_IDLE);
        return;
    }
    scx_bpf_dsq_insert(p, SCX_DSQ_LOCAL_ON | processor, SCX_SLICE_INF, flags | SCX_ENQ_PREEMPT | SCX_ENQ_IMMED);
}

static __always_inline void set_free(u32 at) {
    held_since[at] = 0;
    if (!is_held[at]) return;
    is_held[at] = 0;
    say(FREE, at, 0, 0);
}

/* Only what is in custody, or on its way there, can be taken. Who runs elsewhere comes by apa_enqueue when it is put down; to try
 * to take it would have the kernel call here again at once, without end. */
static __always_inline void take(struct task_struct *p, s32 processor) {
    u64 state = BPF_CORE_READ(p, scx.ops_state.counter) & 3;
    if (state != SCX_OPSS_QUEUED && state != SCX_OPSS_QUEUEING) {
        too_early++;
        return;
    }
    dispatched++;
    scx_bpf_dsq_insert(p, SCX_DSQ_LOCAL, SCX_SLICE_INF, SCX_ENQ_IMMED);
    if (!may_go_to(p, processor)) { /* taken first, then looked at: its mask may change in between */
        cancelled++;
        scx_bpf_dispatch_cancel();
    }
}

SEC("struct_ops/apa_dispatch")
void BPF_PROG(apa_dispatch, s32 processor, struct task_struct *previous) {
    u32 at = processor & (MOST - 1);
    s32 thread = place[at];
    set_free(at); /* no higher class runs here any more */
    if (!thread) return;
    if (previous && previous->pid == thread) {
        scx_bpf_task_set_slice(previous, SCX_SLICE_INF);
        return;
    }
    struct task_struct *p = bpf_task_from_pid(thread);
    if (!p) return;
    take(p, processor);
    bpf_task_release(p);
}

SEC("struct_ops/apa_running")
void BPF_PROG(apa_running, struct task_struct *p) {
    s32 processor = bpf_get_smp_processor_id();
    u32 at = processor & (MOST - 1);
    held_since[at] = 0;
    if (place[at] == p->pid || has_to_stay(p)) return;
    strays++;
    scx_bpf_kick_cpu(processor, SCX_KICK_PREEMPT);
}

SEC("struct_ops/apa_runnable")
void BPF_PROG(apa_runnable, struct task_struct *p, u64 flags) { say(ARRIVES, p->pid, 0, p); }

SEC("struct_ops/apa_quiescent")
void BPF_PROG(apa_quiescent, struct task_struct *p, u64 flags) { say(DEPARTS, p->pid, 0, p); }

SEC("struct_ops/apa_set_cpumask")
void BPF_PROG(apa_set_cpumask, struct task_struct *p, const struct cpumask *mask) { say(MASK_IS, p->pid, bits_of(mask), p); }

SEC("struct_ops/apa_set_weight")
void BPF_PROG(apa_set_weight, struct task_struct *p, u32 weight) { say(NICE_IS, p->pid, 0, p); }

SEC("struct_ops/apa_enable")
void BPF_PROG(apa_enable, struct task_struct *p) { say(JOINS, p->pid, bits_of(p->cpus_ptr), p); }

SEC("struct_ops/apa_disable")
void BPF_PROG(apa_disable, struct task_struct *p) { say(LEAVES, p->pid, 0, p); }

SEC("struct_ops/apa_cpu_online")
void BPF_PROG(apa_cpu_online, s32 processor) { set_back(processor & (MOST - 1)); }

SEC("struct_ops/apa_cpu_offline")
void BPF_PROG(apa_cpu_offline, s32 processor) { set_gone(processor & (MOST - 1)); }

/* A processor begins to go off line. From here on no thread begins there, and apa_cpu_offline is called only after a grace period of
 * RCU, which may wait for the very thread that may not run there any more. So it is told here. */
SEC("tp_btf/cpuhp_enter")
int BPF_PROG(apa_leaves, u32 processor, int target, int step, void *call) {
    if (step == CPUHP_AP_ACTIVE && target < step) set_gone(processor & (MOST - 1));
    return 0;
}

/* The kernel refuses to let it go. */
SEC("tp_btf/cpuhp_exit")
int BPF_PROG(apa_stays, u32 processor, int state, int step, int refused) {
    if (step == CPUHP_AP_ACTIVE && refused && is_gone[processor & (MOST - 1)]) set_back(processor & (MOST - 1));
    return 0;
}

/* A higher class holds the processor where a place names a thread, and each look for some time finds a thread there that is none of
 * ours, and none of ours has begun to run there in between. A processor that idles although its place names a thread looks again. */
static int look_at(u32 i, u64 *now) {
    u32 at = i & (MOST - 1);
    struct task_struct *there = scx_bpf_cpu_curr(at);
    if (!there) return 0;
    if (!there->pid && place[at]) scx_bpf_kick_cpu(at, SCX_KICK_IDLE);
    if (!there->pid || there->policy == POLICY_EXT) set_free(at);
    else if (!place[at]) held_since[at] = 0;
    else if (!held_since[at]) held_since[at] = *now;
    else if (*now - held_since[at] >= held_after && !is_held[at]) {
        is_held[at] = 1;
        say(HELD, at, 0, 0);
    }
    return 0;
}

static int look(void *map, u32 *key, struct clock *clock) {
    u64 now = bpf_ktime_get_ns();
    if (beat && now > beat && now - beat > DEAD_AFTER) {
        leave(no_beat);
        return 0;
    }
    bpf_loop(processors, look_at, &now, 0);
    bpf_timer_start(&clock->timer, LOOK_EACH, 0);
    return 0;
}

SEC("struct_ops.s/apa_init")
s32 BPF_PROG(apa_init) {
    u32 first = 0;
    struct clock *clock = bpf_map_lookup_elem(&clocks, &first);
    if (!clock) return -2;
    const struct cpumask *on_line = scx_bpf_get_online_cpumask();
    for (u32 i = 0; i < MOST && i < processors; i++)
        if (!bpf_cpumask_test_cpu(i, on_line)) set_gone(i);
        else if (is_gone[i]) set_back(i);
    scx_bpf_put_cpumask(on_line);
    bpf_timer_init(&clock->timer, &clocks, MONOTONIC);
    bpf_timer_set_callback(&clock->timer, look);
    return bpf_timer_start(&clock->timer, LOOK_EACH, 0);
}

SEC("struct_ops/apa_exit")
void BPF_PROG(apa_exit, struct scx_exit_info *info) {
    bpf_probe_read_kernel_str(exit_reason, sizeof exit_reason, info->reason);
    bpf_probe_read_kernel_str(exit_message, sizeof exit_message, info->msg);
    exit_kind = info->kind;
}

/* Called by the agent after it has written the places. */
SEC("syscall")
int apa_kick(struct kicks *kicks) {
    for (u32 i = 0; i < MOST && i < kicks->count; i++) scx_bpf_kick_cpu(kicks->processor[i] & (MOST - 1), SCX_KICK_PREEMPT);
    return 0;
}

SEC(".struct_ops.link")
struct sched_ext_ops apa_ops = {
    .select_cpu = (void *)apa_select_cpu,
    .enqueue = (void *)apa_enqueue,
    .dispatch = (void *)apa_dispatch,
    .running = (void *)apa_running,
    .runnable = (void *)apa_runnable,
    .quiescent = (void *)apa_quiescent,
    .set_cpumask = (void *)apa_set_cpumask,
    .set_weight = (void *)apa_set_weight,
    .enable = (void *)apa_enable,
    .disable = (void *)apa_disable,
    .cpu_online = (void *)apa_cpu_online,
    .cpu_offline = (void *)apa_cpu_offline,
    .init = (void *)apa_init,
    .exit = (void *)apa_exit,
    .flags = SCX_OPS_SWITCH_PARTIAL | SCX_OPS_ENQ_LAST | SCX_OPS_ENQ_MIGRATION_DISABLED | SCX_OPS_ENQ_EXITING,
    .name = "apa",
};
