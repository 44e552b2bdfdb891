/* Records the switches, wakeups and migrations of real-time threads into one ring. ftrace and perf were seen to miss events of
 * idle processors without a word; these tracepoints are called for each. */
#include <linux/types.h>
#define bool _Bool
#include <linux/bpf.h>
#include <bpf/bpf_helpers.h>
#include <bpf/bpf_tracing.h>
#include <bpf/bpf_core_read.h>

#include "recorded.h"

struct thread_info {
    __u32 cpu;
} __attribute__((preserve_access_index));
struct task_struct {
    int pid, prio;
    char comm[16];
    struct thread_info thread_info;
} __attribute__((preserve_access_index));

enum { FIRST_NOT_REAL_TIME = 100 };

struct {
    __uint(type, BPF_MAP_TYPE_RINGBUF);
    __uint(max_entries, 1 << 24);
} ring SEC(".maps");

__u64 lost SEC(".bss.lost");

static __always_inline void fill(struct recorded_thread *of, struct task_struct *p) {
    of->thread = p->pid;
    of->priority = p->prio;
    bpf_probe_read_kernel_str(of->name, sizeof of->name, p->comm);
}

static __always_inline struct recorded_line *begin(enum recorded what) {
    struct recorded_line *line = bpf_ringbuf_reserve(&ring, sizeof *line, 0);
    if (!line) {
        __sync_fetch_and_add(&lost, 1);
        return 0;
    }
    line->stamp = bpf_ktime_get_ns();
    line->what = what;
    line->processor = bpf_get_smp_processor_id();
    line->state = line->target = line->from = 0;
    return line;
}

SEC("tp_btf/sched_switch")
int BPF_PROG(on_switch, bool preempt, struct task_struct *prev, struct task_struct *next, unsigned int prev_state) {
    if (prev->prio >= FIRST_NOT_REAL_TIME && next->prio >= FIRST_NOT_REAL_TIME) return 0;
    struct recorded_line *line = begin(RECORDED_SWITCH);
    if (!line) return 0;
    line->state = preempt ? 0 : prev_state;
    fill(&line->current, prev);
    fill(&line->other, next);
    bpf_ringbuf_submit(line, BPF_RB_NO_WAKEUP);
    return 0;
}

static __always_inline int moved_or_woken(enum recorded what, struct task_struct *p, __u32 target) {
    if (p->prio >= FIRST_NOT_REAL_TIME) return 0;
    struct recorded_line *line = begin(what);
    if (!line) return 0;
    line->from = p->thread_info.cpu;
    line->target = target;
    fill(&line->current, (struct task_struct *)bpf_get_current_task_btf());
    fill(&line->other, p);
    bpf_ringbuf_submit(line, BPF_RB_NO_WAKEUP);
    return 0;
}

SEC("tp_btf/sched_wakeup")
int BPF_PROG(on_wakeup, struct task_struct *p) { return moved_or_woken(RECORDED_WAKEUP, p, p->thread_info.cpu); }

SEC("tp_btf/sched_wakeup_new")
int BPF_PROG(on_wakeup_new, struct task_struct *p) { return moved_or_woken(RECORDED_WAKEUP_NEW, p, p->thread_info.cpu); }

SEC("tp_btf/sched_migrate_task")
int BPF_PROG(on_migrate, struct task_struct *p, int processor) { return moved_or_woken(RECORDED_MIGRATION, p, processor); }

char licence[] SEC("license") = "GPL";
