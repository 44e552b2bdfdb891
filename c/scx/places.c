/* Who is to run on each processor is written into the memory of the kernel's half, and the processors whose place has changed look
 * anew: the end of a chain first, so that an urgent thread that moves finds its new processor free. */
#include "agent.h"
#include "kernel.h"

#include <bpf/bpf.h>
#include <errno.h>
#include <string.h>

static int thread_on(uint32_t p) {
    uint32_t t = apa_on(agent.machine, p);
    return t == APA_NONE ? 0 : agent.slot[t].thread;
}

static void add(struct kicks *kicks, uint64_t *left, uint32_t p) {
    if (p >= MOST_PROCESSORS || !(*left >> p & 1)) return;
    *left &= ~((uint64_t)1 << p);
    kicks->processor[kicks->count++] = p;
}

/* First in the order of the last event's moves, then those that earlier events of the batch changed. */
static struct kicks order_of(uint64_t changed) {
    struct kicks kicks = {0, {0}};
    uint32_t moves = apa_moves(agent.machine);
    for (uint32_t i = 0; i < moves; i++) {
        apa_move move = apa_get_move(agent.machine, i);
        add(&kicks, &changed, move.to);
        add(&kicks, &changed, move.from);
    }
    for (uint32_t p = 0; p < agent.processors; p++) add(&kicks, &changed, p);
    return kicks;
}

bool show_places(struct apa_scx *kernel) {
    uint64_t changed = 0;
    for (uint32_t p = 0; p < agent.processors; p++) {
        int thread = thread_on(p);
        if (kernel->bss->place[p] == thread) continue;
        kernel->bss->place[p] = thread;
        changed |= (uint64_t)1 << p;
    }
    if (changed == 0) return true;
    __sync_synchronize();
    struct kicks kicks = order_of(changed);
    LIBBPF_OPTS(bpf_test_run_opts, run, .ctx_in = &kicks, .ctx_size_in = sizeof kicks);
    if (bpf_prog_test_run_opts(bpf_program__fd(kernel->progs.apa_kick), &run) == 0) return true;
    say("the kernel's half is not to be reached: %s", strerror(errno));
    return false;
}
