/* The threads of live.c: what they do, and the queue of their events. */
#define _GNU_SOURCE
#include "live.h"

#include <sched.h>
#include <stdbool.h>
#include <time.h>

uint32_t processors, tasks;
int cpus[MOST_PROCESSORS];
atomic_bool over;
struct task task[MOST_TASKS];

uint64_t microseconds(void) {
    struct timespec now;
    clock_gettime(CLOCK_MONOTONIC, &now);
    return (uint64_t)now.tv_sec * 1000000 + (uint64_t)now.tv_nsec / 1000;
}

/* A number below k, by Knuth's MMIX generator. */
uint64_t draw(uint64_t *seed, uint64_t k) {
    *seed = *seed * 6364136223846793005ull + 1442695040888963407ull;
    return (*seed >> 33) % k;
}

void wait_for(sem_t *sem) {
    while (sem_wait(sem)) {
    }
}

/* ---- The queue of events. Each task has at most two in it. */
static struct event queue[2 * MOST_TASKS];
static unsigned head, tail;
static pthread_mutex_t lock = PTHREAD_MUTEX_INITIALIZER;
static pthread_cond_t some = PTHREAD_COND_INITIALIZER;

static void post(uint32_t kind, uint32_t number) {
    pthread_mutex_lock(&lock);
    queue[head++ % (2 * MOST_TASKS)] = (struct event){kind, number, 0};
    pthread_cond_signal(&some);
    pthread_mutex_unlock(&lock);
}

struct event take(void) {
    pthread_mutex_lock(&lock);
    while (head == tail) pthread_cond_wait(&some, &lock);
    struct event event = queue[tail++ % (2 * MOST_TASKS)];
    pthread_mutex_unlock(&lock);
    return event;
}

/* ---- Workers */
static void park(struct task *self, int state) {
    atomic_store(&self->place, NOWHERE);
    if (atomic_exchange(&self->state, state) == ASKED) sem_post(&self->stopped);
}

/* Whether this thread is where the agent says, and alone there. A look while the agent changes its place says nothing. */
static void look_around(struct task *self) {
    unsigned before = atomic_load(&self->changes);
    int place = atomic_load(&self->place), cpu = sched_getcpu();
    bool together = false;
    for (uint32_t t = 0; t < tasks; t++)
        if (&task[t] != self && atomic_load(&task[t].place) == place) together = true;
    if (place == NOWHERE || before % 2 || before != atomic_load(&self->changes)) return;
    self->looks++;
    self->elsewhere += cpu != cpus[place];
    self->together += together;
}

/* Runs for so many microseconds, and stops in between where it is asked to. */
static void run_for(struct task *self, uint64_t left) {
    uint64_t last = microseconds();
    while (left > 0 && !atomic_load(&over)) {
        look_around(self);
        uint64_t now = microseconds(), spent = now - last;
        left = spent < left ? left - spent : 0;
        last = now;
        if (left > 0 && atomic_load(&self->state) == ASKED) {
            park(self, PARKED);
            wait_for(&self->go);
            last = microseconds();
        }
    }
}

void *work(void *number) {
    uint32_t t = (uint32_t)(uintptr_t)number;
    struct task *self = &task[t];
    uint64_t seed = 77 + t;
    while (!atomic_load(&over)) {
        struct timespec nap = {0, (long)(500000 + draw(&seed, 2500000))};
        nanosleep(&nap, NULL);
        post(0, t);
        wait_for(&self->go);
        run_for(self, 50 + draw(&seed, 950));
        park(self, GONE);
        post(1, t);
    }
    return NULL;
}
