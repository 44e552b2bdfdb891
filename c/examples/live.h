/* What the agent of live.c and its threads share. */
#ifndef LIVE_H
#define LIVE_H
#include <pthread.h>
#include <semaphore.h>
#include <stdatomic.h>
#include <stdint.h>

#define MOST_PROCESSORS 8
#define TASKS_OF_A_PROCESSOR 3
#define MOST_TASKS (MOST_PROCESSORS * TASKS_OF_A_PROCESSOR)
#define NOWHERE (-1)

extern uint32_t processors, tasks;
extern int cpus[MOST_PROCESSORS];
extern atomic_bool over;

/* The agent alone starts a task; a task alone parks. GONE: it is parked, and its departure is in the queue. */
enum { PARKED, RUNS, ASKED, GONE };

struct task {
    pthread_t thread;
    sem_t go, stopped;
    atomic_int state;
    atomic_int place;     /* the processor that it runs on, by the agent's word; NOWHERE by its own as it parks */
    atomic_uint changes;  /* odd while the agent changes its place */
    unsigned long looks, elsewhere, together;
};
extern struct task task[MOST_TASKS];

uint64_t microseconds(void);
uint64_t draw(uint64_t *seed, uint64_t k); /* a number below k */
void wait_for(sem_t *sem);

/* An event as apa_apply takes it. */
struct event {
    uint32_t kind, number;
    uint64_t mask;
};
struct event take(void); /* the next one of the threads, as soon as there is one */

void *work(void *number); /* a thread: the task of this number, until it is over */
#endif
