/* Who puts masks back where the agent cannot. The user's masks stand in a file that is mapped, in /run, so that the agent
 * changes it without a call. A child, the watchdog, waits for a robust mutex that the agent holds: the kernel gives that up
 * first of all where the agent is killed. (A pipe would be closed after the perf events, of which each waits for a grace
 * period: more than 100 ms.) Where both are killed the next agent, or `apa-agent --restore`, reads the file. */
#include "agent.h"

#include <errno.h>
#include <fcntl.h>
#include <pthread.h>
#include <sched.h>
#include <signal.h>
#include <stdio.h>
#include <string.h>
#include <sys/file.h>
#include <sys/mman.h>
#include <sys/prctl.h>
#include <unistd.h>

struct kept {
    int32_t thread; /* 0: nobody */
    uint32_t unused;
    uint64_t start, user;
    uint64_t narrow, next; /* the mask that the agent has set, and the one that it is about to set; 0: none but the user's */
};

struct guard {
    char form[8]; /* "apa-1\n": of this form, written last */
    pthread_mutex_t alive;
    struct kept kept[MOST_TASKS];
};
static const char form[8] = "apa-1\n";
static struct guard *guard;
static pid_t watchdog;

/* A dead agent's lock goes late, after its other files: two seconds are waited for it. */
bool guard_lock(void) {
    int lock = open(agent.options.lock, O_CREAT | O_RDWR | O_CLOEXEC, 0600);
    if (lock < 0) {
        say("cannot open %s: %s", agent.options.lock, strerror(errno));
        return false;
    }
    for (int tries = 0; tries < 40; tries++) {
        if (flock(lock, LOCK_EX | LOCK_NB) == 0) return true;
        usleep(50000);
    }
    say("another agent runs on this machine: two would undo each other's moves");
    close(lock);
    return false;
}

/* A mask is put back only where it is the one that the agent set: what somebody else set meanwhile stays. */
static bool put_back(const struct kept *of) {
    struct thread_state is;
    if (of->thread == 0 || !read_thread(of->thread, &is) || is.start != of->start) return false;
    uint64_t mask = mask_of(of->thread);
    if (mask == 0 || (mask != of->narrow && mask != of->next) || mask == of->user) return false;
    int error = set_mask(of->thread, of->user);
    if (error) say("the mask of thread %d cannot be put back: %s", of->thread, strerror(error));
    return error == 0;
}

static int put_all_back(void) {
    int count = 0;
    for (int t = 0; t < MOST_TASKS; t++) count += put_back(&guard->kept[t]);
    return count;
}

static bool map_state(int flags) {
    int file = open(agent.options.state, flags | O_RDWR | O_CLOEXEC, 0600);
    if (file < 0) return false;
    bool sized = !(flags & O_CREAT) || ftruncate(file, sizeof *guard) == 0;
    off_t length = lseek(file, 0, SEEK_END);
    void *at = sized && length == (off_t)sizeof *guard ? mmap(NULL, sizeof *guard, PROT_READ | PROT_WRITE, MAP_SHARED, file, 0) : MAP_FAILED;
    close(file);
    guard = at == MAP_FAILED ? NULL : at;
    return guard != NULL;
}

int guard_restore(void) {
    if (!map_state(0)) {
        if (errno != ENOENT) unlink(agent.options.state);
        return 0;
    }
    int count = memcmp(guard->form, form, sizeof form) == 0 ? put_all_back() : 0;
    munmap(guard, sizeof *guard);
    guard = NULL;
    unlink(agent.options.state);
    return count;
}

static void wait_for_the_end(void) {
    struct sched_param param = {.sched_priority = agent.options.priority < 99 ? agent.options.priority + 1 : 99};
    setsid();
    signal(SIGTERM, SIG_IGN);
    signal(SIGINT, SIG_IGN);
    signal(SIGHUP, SIG_IGN);
    prctl(PR_SET_NAME, "apa-watchdog");
    if (!agent.options.watch) sched_setscheduler(0, SCHED_FIFO, &param);
    mlockall(MCL_CURRENT | MCL_FUTURE);
    if (pthread_mutex_lock(&guard->alive) == EOWNERDEAD) {
        int count = put_all_back();
        say("the agent did not end well: %d masks put back by its watchdog", count);
        unlink(agent.options.state);
    }
    _exit(0);
}

bool guard_open(void) {
    pthread_mutexattr_t attributes;
    if (!map_state(O_CREAT | O_TRUNC)) {
        say("cannot write %s: %s", agent.options.state, strerror(errno));
        return false;
    }
    pthread_mutexattr_init(&attributes);
    pthread_mutexattr_setpshared(&attributes, PTHREAD_PROCESS_SHARED);
    pthread_mutexattr_setrobust(&attributes, PTHREAD_MUTEX_ROBUST);
    if (pthread_mutex_init(&guard->alive, &attributes) || pthread_mutex_lock(&guard->alive)) {
        say("no robust mutex can be made");
        return false;
    }
    memcpy(guard->form, form, sizeof form);
    watchdog = fork();
    if (watchdog == 0) wait_for_the_end();
    if (watchdog < 0) say("no watchdog can be started: %s", strerror(errno));
    return watchdog > 0;
}

void guard_keep(int t) {
    const struct task *of = &agent.task[t];
    struct kept *kept = &guard->kept[t];
    __atomic_store_n(&kept->thread, 0, __ATOMIC_SEQ_CST);
    if (!of->in_use) return;
    kept->start = of->start;
    kept->user = of->user;
    __atomic_store_n(&kept->thread, of->thread, __ATOMIC_SEQ_CST);
}

void guard_next(int t, uint64_t mask) { __atomic_store_n(&guard->kept[t].next, mask, __ATOMIC_SEQ_CST); }

void guard_narrow(int t, uint64_t mask) { __atomic_store_n(&guard->kept[t].narrow, mask, __ATOMIC_SEQ_CST); }

void guard_close(void) {
    if (!guard) return;
    unlink(agent.options.state);
    pthread_mutex_unlock(&guard->alive);
}
