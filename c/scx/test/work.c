/* Four threads on the processors 1 to 3, in rounds.
 *
 *     work fifo|other|ext ROUNDS PART TASKS [change]
 *
 *   A  most urgent, 1-2, starts on 1      B  second, 2-3, starts on 2
 *   S  third, on 1 alone                  C  least urgent, 1-3, starts on 3
 *
 * S wakes while A runs on 1, B on 2 and C on 3: it can run where A moves to 2, B to 3, and C waits. A costs 60 ms, B 60, C 100, S 10, and a
 * round takes 250: all of these divided by PART. With `change` the mask of B is 2 alone in each second round. It writes TASKS for
 * `apa lost`, and each thread's mean and worst response. */
#include "threads.h"

#include <pthread.h>
#include <stdio.h>
#include <stdlib.h>
#include <string.h>
#include <sys/prctl.h>
#include <sys/syscall.h>
#include <time.h>
#include <unistd.h>

static struct thread {
    const char *name, *list;
    uint64_t start, mask;
    int rank;
    double offset, cost;
    pid_t number;
    double worst, sum;
} all[4] = {
    {"A", "1-2", 2, 6, 1, 0, 0.060, 0, 0, 0},
    {"B", "2-3", 4, 12, 2, 0.002, 0.060, 0, 0, 0},
    {"C", "1-3", 8, 14, 4, 0.004, 0.100, 0, 0, 0},
    {"S", "1", 2, 2, 3, 0.020, 0.010, 0, 0, 0},
};
static const double period = 0.250;
static const char *kind;
static int rounds, part;
static bool change;
static double begin;
static pthread_barrier_t ready, go;

static void *body(void *given) {
    struct thread *of = given;
    of->number = (pid_t)syscall(SYS_gettid);
    prctl(PR_SET_NAME, of->name);
    set_mask(0, of->start);
    if (!set_class(kind, of->rank)) perror(of->name);
    pthread_barrier_wait(&ready);
    pthread_barrier_wait(&go);
    for (int round = 0; round < rounds; round++) {
        double release = begin + (round * period + of->offset) / part;
        sleep_to(release);
        if (change && of->name[0] == 'C') set_mask(all[1].number, round % 2 ? 4 : 12);
        burn(of->cost / part);
        double response = seconds_of(CLOCK_MONOTONIC) - release;
        of->sum += response;
        if (response > of->worst) of->worst = response;
    }
    return NULL;
}

static bool write_tasks(const char *path) {
    FILE *file = fopen(path, "w");
    if (!file) return false;
    fprintf(file, "trace 1\nprocessors 4\n");
    for (int i = 0; i < 4; i++)
        fprintf(file, "task %s %d %s %d\n", all[i].name, priority_of(kind, all[i].rank), all[i].list, all[i].number);
    return fclose(file) == 0;
}

static bool read_words(int words, char **word) {
    if (words < 5) return false;
    kind = word[1];
    rounds = atoi(word[2]);
    part = atoi(word[3]);
    change = words > 5;
    return rounds > 0 && part > 0;
}

static void print_responses(void) {
    printf("work %s:", kind);
    for (int i = 0; i < 4; i++)
        printf(" %s cost %.1f mean %.1f worst %.1f ms", all[i].name, all[i].cost / part * 1e3, all[i].sum / rounds * 1e3, all[i].worst * 1e3);
    printf("\n");
}

int main(int words, char **word) {
    pthread_t id[4];
    if (!read_words(words, word)) {
        fputs("work fifo|other|ext ROUNDS PART TASKS [change]\n", stderr);
        return 2;
    }
    set_mask(0, 1);
    pthread_barrier_init(&ready, NULL, 5);
    pthread_barrier_init(&go, NULL, 5);
    for (int i = 0; i < 4; i++) pthread_create(&id[i], NULL, body, &all[i]);
    pthread_barrier_wait(&ready);
    for (int i = 0; i < 4; i++) set_mask(all[i].number, all[i].mask);
    if (!write_tasks(word[4])) {
        perror(word[4]);
        return 2;
    }
    usleep(50000);
    begin = seconds_of(CLOCK_MONOTONIC) + 0.1;
    pthread_barrier_wait(&go);
    for (int i = 0; i < 4; i++) pthread_join(id[i], NULL);
    print_responses();
    return 0;
}
