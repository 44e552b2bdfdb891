/* Threads that nap and run, with random ranges of the processors from FIRST to 3.
 *
 *     storm fifo|ext THREADS ROUNDS SEED TIMES FIRST TASKS [wild]
 *
 * A round is a nap of up to 3 ms and a run of 0.1 to 2.1 ms, both TIMES as long. `wild`: in each eighth round a thread changes its own
 * mask or another's, and in each eleventh its nice value. It writes TASKS, and how often a thread was found outside of the mask that it
 * had just set for itself. */
#include "threads.h"

#include <pthread.h>
#include <sched.h>
#include <stdio.h>
#include <stdlib.h>
#include <sys/prctl.h>
#include <sys/resource.h>
#include <sys/syscall.h>
#include <unistd.h>

enum { MOST = 64 };
static struct one {
    pid_t number;
    int rank, first, last;
    uint64_t seed;
} one[MOST];
static const char *kind;
static int threads, rounds, times, lowest, outside, changes;
static bool wild;
static pthread_barrier_t ready, go;

static uint64_t draw(uint64_t *seed, uint64_t below) {
    *seed = *seed * 6364136223846793005ull + 1442695040888963407ull;
    return (*seed >> 33) % below;
}

static uint64_t range(int first, int last) { return ((uint64_t)2 << last) - ((uint64_t)1 << first); }

static void draw_range(uint64_t *seed, int *first, int *last) {
    *first = lowest + (int)draw(seed, (uint64_t)(4 - lowest));
    *last = *first + (int)draw(seed, (uint64_t)(4 - *first));
}

static void change_something(struct one *of, int round) {
    int first, last;
    draw_range(&of->seed, &first, &last);
    if (round % 11 == 10) setpriority(PRIO_PROCESS, 0, -18 + 2 * of->rank + round % 2);
    if (round % 8 != 7) return;
    struct one *other = round % 16 == 7 ? of : &one[draw(&of->seed, (uint64_t)threads)];
    if (!set_mask(other->number, range(first, last))) return;
    __sync_fetch_and_add(&changes, 1);
    if (other != of) return;
    int here = sched_getcpu();
    if (here < first || here > last) __sync_fetch_and_add(&outside, 1);
}

static void *body(void *given) {
    struct one *of = given;
    char name[16];
    of->number = (pid_t)syscall(SYS_gettid);
    snprintf(name, sizeof name, "t%d", of->rank);
    prctl(PR_SET_NAME, name);
    set_mask(0, range(of->first, of->last));
    if (!set_class(kind, of->rank)) perror(name);
    pthread_barrier_wait(&ready);
    pthread_barrier_wait(&go);
    for (int round = 0; round < rounds; round++) {
        usleep((useconds_t)(draw(&of->seed, 3000) * (uint64_t)times));
        burn(times * (1e-4 + (double)draw(&of->seed, 2000) * 1e-6));
        if (wild) change_something(of, round);
    }
    return NULL;
}

static bool write_tasks(const char *path) {
    FILE *file = fopen(path, "w");
    if (!file) return false;
    fprintf(file, "trace 1\nprocessors 4\n");
    for (int i = 0; i < threads; i++)
        fprintf(file, "task t%d %d %d-%d %d\n", i + 1, priority_of(kind, one[i].rank), one[i].first, one[i].last, one[i].number);
    return fclose(file) == 0;
}

static bool read_words(int words, char **word) {
    if (words < 8) return false;
    kind = word[1];
    threads = atoi(word[2]);
    rounds = atoi(word[3]);
    times = atoi(word[5]);
    lowest = atoi(word[6]);
    wild = words > 8;
    return threads > 0 && threads <= MOST && times > 0 && lowest >= 0 && lowest < 4;
}

int main(int words, char **word) {
    pthread_t id[MOST];
    if (!read_words(words, word)) {
        fputs("storm fifo|ext THREADS ROUNDS SEED TIMES FIRST TASKS [wild]\n", stderr);
        return 2;
    }
    set_mask(0, 1);
    pthread_barrier_init(&ready, NULL, (unsigned)threads + 1);
    pthread_barrier_init(&go, NULL, (unsigned)threads + 1);
    uint64_t seed = (uint64_t)atoi(word[4]);
    for (int i = 0; i < threads; i++) {
        one[i] = (struct one){.rank = i + 1, .seed = seed + (uint64_t)i};
        draw_range(&seed, &one[i].first, &one[i].last);
        pthread_create(&id[i], NULL, body, &one[i]);
    }
    pthread_barrier_wait(&ready);
    if (!write_tasks(word[7])) {
        perror(word[7]);
        return 2;
    }
    pthread_barrier_wait(&go);
    for (int i = 0; i < threads; i++) pthread_join(id[i], NULL);
    printf("storm %s: %d threads of %d rounds, changes %d, outside %d\n", kind, threads, rounds, changes, outside);
    return 0;
}
