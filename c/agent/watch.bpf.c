/* The kernel's half: events of listed threads go into one ring, in the order in which they happened. It decides nothing.
 * The agent is woken only where a listed thread is ready and is not about to run: where nobody waits there is nothing to do.
 *
 * The agent itself preempts listed threads for a moment. That is no event, or it would wake itself for ever; it is one where
 * another thread goes on afterwards. */
#include <linux/types.h>
#define bool _Bool
#include <linux/bpf.h>
#include <bpf/bpf_helpers.h>
#include <bpf/bpf_tracing.h>
#include <bpf/bpf_core_read.h>

#include "watch.h"

/* The fields that are read, wherever this kernel has them. */
struct thread_info {
    __u32 cpu;
} __attribute__((preserve_access_index));
struct task_struct {
    int pid, prio;
    struct thread_info thread_info;
} __attribute__((preserve_access_index));

struct {
    __uint(type, BPF_MAP_TYPE_RINGBUF);
    __uint(max_entries, 1 << 18);
} ring SEC(".maps");

struct {
    __uint(type, BPF_MAP_TYPE_HASH);
    __uint(max_entries, 1024);
    __type(key, __s32);
    __type(value, __u64);
} listed SEC(".maps");

const volatile __s32 agent SEC(".rodata.agent"); /* the agent's thread */
__u64 lost SEC(".bss.lost");                     /* how many events found no room */
__s32 running_priority[64], stepped_over[64];    /* by processor: who runs; whom the agent put aside for a moment */
__s64 waiting;                                   /* how many listed threads wait */

static __always_inline __u64 wake_if_needed(void) { return waiting > 0 ? BPF_RB_FORCE_WAKEUP : BPF_RB_NO_WAKEUP; }

static __always_inline void turn(__u64 *state, __u64 to) {
    __u64 was = __sync_lock_test_and_set(state, to);
    if (was == to) return;
    if (was == THREAD_WAITS) __sync_fetch_and_add(&waiting, -1);
    if (to == THREAD_WAITS) __sync_fetch_and_add(&waiting, 1);
}

static __always_inline void tell(enum watched what, __s32 thread, __u32 processor, __s32 other, __u64 wake) {
    struct watched_event *e = bpf_ringbuf_reserve(&ring, sizeof *e, 0);
    if (!e) {
        __sync_fetch_and_add(&lost, 1);
        return;
    }
    e->stamp = bpf_ktime_get_ns();
    e->what = what;
    e->processor = processor;
    e->thread = thread;
    e->other = other;
    bpf_ringbuf_submit(e, wake);
}

SEC("tp_btf/sched_switch")
int BPF_PROG(on_switch, bool preempt, struct task_struct *prev, struct task_struct *next, unsigned int prev_state) {
    __u32 processor = bpf_get_smp_processor_id() & 63;
    __s32 from = prev->pid, to = next->pid;
    running_priority[processor] = next->prio;
    __u64 *of_from = bpf_map_lookup_elem(&listed, &from), *of_to = bpf_map_lookup_elem(&listed, &to);
    bool blocks = !preempt && prev_state;
    if (to == agent && !blocks) {
        if (of_from) {
            turn(of_from, THREAD_WAITS);
            stepped_over[processor] = from;
        }
        return 0;
    }
    if (from == agent) {
        __s32 aside = stepped_over[processor];
        stepped_over[processor] = 0;
        if (of_to) {
            turn(of_to, THREAD_RUNS);
            tell(SWITCHED_IN, to, processor, 0, aside && aside != to ? wake_if_needed() : BPF_RB_NO_WAKEUP);
        }
        return 0;
    }
    if (of_from) turn(of_from, blocks ? THREAD_BLOCKS : THREAD_WAITS);
    if (of_to) turn(of_to, THREAD_RUNS);
    if (of_from) tell(SWITCHED_OUT, from, processor, blocks, of_to ? BPF_RB_NO_WAKEUP : wake_if_needed());
    if (of_to) tell(SWITCHED_IN, to, processor, 0, wake_if_needed());
    return 0;
}

static __always_inline int woken(struct task_struct *p) {
    __s32 thread = p->pid;
    __u64 *of = bpf_map_lookup_elem(&listed, &thread);
    if (!of) return 0;
    __u32 processor = p->thread_info.cpu & 63;
    if (*of != THREAD_RUNS) {
        bool first = p->prio < running_priority[processor];
        if (first) running_priority[processor] = p->prio; /* it is about to run there */
        turn(of, first ? THREAD_RUNS : THREAD_WAITS);
    }
    tell(WOKEN, thread, processor, 0, wake_if_needed());
    return 0;
}

SEC("tp_btf/sched_wakeup")
int BPF_PROG(on_wakeup, struct task_struct *p) { return woken(p); }

SEC("tp_btf/sched_wakeup_new")
int BPF_PROG(on_wakeup_new, struct task_struct *p) { return woken(p); }

SEC("tp_btf/sched_migrate_task")
int BPF_PROG(on_migrate, struct task_struct *p, int processor) {
    __s32 thread = p->pid, by = (__s32)bpf_get_current_pid_tgid();
    if (bpf_map_lookup_elem(&listed, &thread))
        tell(MIGRATED, thread, processor, 0, by == agent ? BPF_RB_NO_WAKEUP : wake_if_needed());
    return 0;
}

SEC("tp_btf/sched_process_exit")
int BPF_PROG(on_exit, struct task_struct *p) {
    __s32 thread = p->pid;
    __u64 *of = bpf_map_lookup_elem(&listed, &thread);
    if (!of) return 0;
    turn(of, THREAD_BLOCKS);
    tell(EXITED, thread, 0, 0, BPF_RB_FORCE_WAKEUP);
    return 0;
}

SEC("tp_btf/sched_process_fork")
int BPF_PROG(on_fork, struct task_struct *parent, struct task_struct *child) {
    __s32 thread = parent->pid;
    if (bpf_map_lookup_elem(&listed, &thread)) tell(FORKED, thread, 0, child->pid, BPF_RB_FORCE_WAKEUP);
    return 0;
}

char licence[] SEC("license") = "GPL";
