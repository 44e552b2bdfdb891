/* Counts, and delays by buckets: a bucket is an eighth of a power of two, so a figure is at most an eighth too high. */
#include "agent.h"

#include <stdio.h>
#include <string.h>

unsigned long figure[FIGURES];

enum { BUCKETS = 64 * 8 };
static struct {
    unsigned long count, bucket[BUCKETS];
    uint64_t worst;
} delays[DELAYS];
static unsigned long errors[256];

static unsigned bucket_of(uint64_t value) {
    if (value < 8) return (unsigned)value;
    unsigned power = 63 - (unsigned)__builtin_clzll(value);
    return power * 8 + (unsigned)(value >> (power - 3) & 7);
}

/* The greatest value of a bucket. */
static uint64_t most_of(unsigned bucket) {
    unsigned power = bucket / 8;
    return power < 3 ? bucket : ((uint64_t)(bucket % 8 + 9) << (power - 3)) - 1;
}

void keep_delay(enum delay which, uint64_t nanoseconds) {
    delays[which].count++;
    delays[which].bucket[bucket_of(nanoseconds)]++;
    if (nanoseconds > delays[which].worst) delays[which].worst = nanoseconds;
}

void note_error(int error) { errors[error & 255]++; }

static double quantile(enum delay which, unsigned hundredths) {
    unsigned long rank = (delays[which].count * hundredths + 99) / 100, seen = 0;
    for (unsigned i = 0; i < BUCKETS; i++) {
        seen += delays[which].bucket[i];
        if (seen >= rank && most_of(i) < delays[which].worst) return (double)most_of(i) / 1e3;
    }
    return (double)delays[which].worst / 1e3;
}

static void print_delay(const char *words, enum delay which) {
    if (delays[which].count == 0) return;
    printf("%s: p50 %.1f, p99 %.1f, worst %.1f us of %lu\n", words, quantile(which, 50), quantile(which, 99),
           (double)delays[which].worst / 1e3, delays[which].count);
}

/* How often threads blocked of which there is no record: perf was seen to miss some without a word. */
static unsigned long unseen(void) {
    unsigned long count = 0;
    for (int t = 0; t < agent.tasks; t++) {
        const struct task *of = &agent.task[t];
        unsigned long blocked = of->voluntary - of->first;
        if (of->in_use && blocked > of->blocked) count += blocked - of->blocked;
    }
    return count;
}

void print_figures(double wall, double used) {
    printf("%.3f s, of a processor %.4f s, %.2f in a hundred\n", wall, used, wall > 0 ? 100 * used / wall : 0);
    printf("events %lu, stale %lu, lost records %lu, woken %lu, batches %lu, looks %lu, decisions by looks %lu\n", figure[EVENTS],
           figure[STALE], figure[LOSSES], figure[WAKEUPS], figure[BATCHES], figure[LOOKS], figure[HEALED]);
    printf("decisions %lu, chains %lu, longest %lu, moves %lu, widened %lu, moves refused %lu, would move %lu\n",
           figure[DECISIONS], figure[CHAINS], figure[LONGEST], figure[MOVES], figure[WIDENED], figure[VOID], figure[WOULD_MOVE]);
    printf("masks adopted %lu, children mended %lu, tasks came %lu, left %lu\n", figure[FOREIGN], figure[CHILDREN], figure[ADMITTED],
           figure[EXITS]);
    if (unseen()) printf("the threads blocked %lu times of which there is no event, by the kernel's own count\n", unseen());
    for (int e = 0; e < 256; e++)
        if (errors[e]) printf("masks refused %lu: %s\n", errors[e], strerror(e));
    print_delay("event to awake", TO_AWAKE);
    print_delay("event to decided", TO_DECIDED);
    print_delay("event to applied", TO_APPLIED);
    for (int t = 0; t < agent.tasks; t++)
        if (agent.task[t].in_use) printf("task %s: found lost %lu, moved %lu\n", agent.task[t].name, agent.task[t].lost, agent.task[t].moved);
}
