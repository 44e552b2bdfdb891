/* The hand: moves a thread by narrowing its mask to one processor, and widens it again later. No mask is ever set outside of
 * the one that the user set last. */
#include "agent.h"

#include <errno.h>
#include <stdio.h>
#include <string.h>
#include <sys/syscall.h>
#include <unistd.h>

enum { WIDEN_AFTER = 100000 }; /* nanoseconds: a thread that waits behind the agent would be pushed away again at once */

int set_mask(pid_t thread, uint64_t mask) {
    if (syscall(SYS_sched_setaffinity, thread, sizeof mask, &mask) == 0) return 0;
    note_error(errno);
    return errno;
}

uint64_t mask_of(pid_t thread) {
    uint64_t set[16] = {0}; /* the kernel wants room for all processors that it could have */
    return syscall(SYS_sched_getaffinity, thread, sizeof set, set) < 0 ? 0 : set[0];
}

/* A mask could not be set: the thread is gone, or a processor has just left, or the mask is nobody's to set. */
static void refused(int t, int error) {
    struct task *of = &agent.task[t];
    struct thread_state is;
    if (error == ESRCH || !read_thread(of->thread, &is)) {
        leave(t);
        return;
    }
    if (error == EINVAL && read_on_line() != agent.on_line) return; /* the next look at the processors sees to it */
    if (of->fixed) return;
    of->fixed = true;
    say("the mask of %s (thread %d) cannot be set: %s; it counts as pinned where it is", of->name, of->thread, strerror(error));
    set_user_mask(t, (uint64_t)1 << of->processor);
}

bool adopt_mask(int t) {
    struct task *of = &agent.task[t];
    uint64_t mask = mask_of(of->thread) & agent.all;
    if (mask == 0) {
        leave(t);
        return true;
    }
    if (mask == of->user || mask == of->narrow) return false;
    figure[FOREIGN]++;
    guard_narrow(t, of->narrow = 0);
    set_user_mask(t, mask);
    return true;
}

bool move_to(int t, uint32_t processor) {
    struct task *of = &agent.task[t];
    if (agent.options.watch) {
        figure[WOULD_MOVE]++;
        of->processor = (int)processor;
        return true;
    }
    if (of->fixed || adopt_mask(t)) return false;
    uint64_t narrow = (uint64_t)1 << processor;
    guard_next(t, narrow);
    int error = set_mask(of->thread, narrow);
    if (error) {
        refused(t, error);
        return false;
    }
    guard_narrow(t, of->narrow = narrow);
    of->processor = (int)processor;
    of->since = now();
    of->moved++;
    figure[MOVES]++;
    return true;
}

static void widen_one(int t) {
    struct task *of = &agent.task[t];
    if (adopt_mask(t)) return;
    int error = set_mask(of->thread, of->user);
    if (error) {
        refused(t, error);
        return;
    }
    guard_next(t, 0);
    guard_narrow(t, of->narrow = 0);
    figure[WIDENED]++;
}

void widen(bool all) {
    uint64_t at = now();
    for (int t = 0; t < agent.tasks; t++) {
        const struct task *of = &agent.task[t];
        if (!of->in_use || !of->narrow) continue;
        if (all || !of->ready || at - of->since >= WIDEN_AFTER) widen_one(t);
    }
}

/* A pinned thread cannot move aside for the agent, which is more urgent than all: the agent runs where no listed thread is pinned,
 * if one of the processors that it was given is such a one. */
void keep_off_pinned(void) {
    static uint64_t given, own;
    if (agent.options.processor >= 0 || agent.options.watch) return;
    if (given == 0) given = own = mask_of(0);
    uint64_t free = given & agent.on_line;
    for (int t = 0; t < agent.tasks; t++) {
        uint64_t user = agent.task[t].user;
        if (agent.task[t].in_use && !(user & (user - 1))) free &= ~user;
    }
    if (free == 0) free = given;
    if (free != own && set_mask(0, free) == 0) own = free;
}

/* A child that its parent made while its mask was narrow has that mask: it gets the user's. */
void mend_child(int t, pid_t child) {
    const struct task *of = &agent.task[t];
    if (agent.options.watch || !of->narrow || mask_of(child) != of->narrow) return;
    if (set_mask(child, of->user) == 0) figure[CHILDREN]++;
}
