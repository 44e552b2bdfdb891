/* A load of periodic SCHED_FIFO threads that know nothing of any agent.
 *
 *     load SET SECONDS TASKS [low]     SET has lines NAME PRIORITY LIST PERIOD COST JITTER OFFSET, in microseconds
 *
 * It writes TASKS (the head of a trace, with thread ids), says `ready`, waits for a line on standard input, runs for so long, and
 * writes of each thread: jobs, and worst, mean and p99 response in microseconds. A job uses COST of its thread's own processor
 * time; one that is released while another runs is served at once after it. With `low` each thread starts on the lowest processor
 * of its list. Each thread's generator of jitter is seeded by its line, so two runs ask for the same. */
#include <inttypes.h>
#include <pthread.h>
#include <sched.h>
#include <stdatomic.h>
#include <stdbool.h>
#include <stdint.h>
#include <stdio.h>
#include <stdlib.h>
#include <string.h>
#include <sys/mman.h>
#include <sys/syscall.h>
#include <time.h>
#include <unistd.h>

enum { MOST_THREADS = 64, MOST_JOBS = 20000 };

static struct one {
    char name[16], list[64];
    int priority;
    uint64_t period, cost, jitter, offset, mask;
    pthread_t thread;
    atomic_int number;
    uint32_t response[MOST_JOBS];
    unsigned jobs, late;
} one[MOST_THREADS];
static int threads;
static _Atomic uint64_t begin;
static double seconds;

static uint64_t nanoseconds(clockid_t clock) {
    struct timespec t;
    clock_gettime(clock, &t);
    return (uint64_t)t.tv_sec * 1000000000 + (uint64_t)t.tv_nsec;
}

static uint64_t draw(uint64_t *seed, uint64_t below) {
    *seed = *seed * 6364136223846793005ull + 1442695040888963407ull;
    return (*seed >> 33) % below;
}

static void sleep_until(uint64_t at) {
    struct timespec t = {(time_t)(at / 1000000000), (long)(at % 1000000000)};
    while (clock_nanosleep(CLOCK_MONOTONIC, TIMER_ABSTIME, &t, NULL)) continue;
}

static void do_job(struct one *of, uint64_t release) {
    uint64_t done = nanoseconds(CLOCK_THREAD_CPUTIME_ID) + of->cost * 1000;
    while (nanoseconds(CLOCK_THREAD_CPUTIME_ID) < done) continue;
    uint64_t now = nanoseconds(CLOCK_MONOTONIC);
    if (of->jobs < MOST_JOBS) of->response[of->jobs++] = (uint32_t)((now - release) / 1000);
    of->late += now > release + of->period * 1000;
}

static void *work(void *given) {
    struct one *of = given;
    uint64_t seed = 4711 + (uint64_t)(of - one), at;
    atomic_store(&of->number, (int)syscall(SYS_gettid));
    while (!(at = atomic_load(&begin))) nanosleep(&(struct timespec){0, 5000000}, NULL);
    uint64_t end = at + (uint64_t)(seconds * 1e9);
    for (uint64_t release = at + of->offset * 1000; release < end;) {
        sleep_until(release);
        do_job(of, release);
        release += of->period * 1000 + (of->jitter ? draw(&seed, of->jitter * 1000) : 0);
    }
    return NULL;
}

static uint64_t read_mask(const char *list) {
    uint64_t mask = 0;
    while (*list) {
        char *end;
        unsigned long first = strtoul(list, &end, 10), last = first;
        if (*end == '-') last = strtoul(end + 1, &end, 10);
        for (; first <= last && first < 64; first++) mask |= (uint64_t)1 << first;
        list = *end ? end + 1 : end;
    }
    return mask;
}

static bool read_set(const char *path) {
    char line[512];
    FILE *file = fopen(path, "r");
    if (!file) return false;
    while (threads < MOST_THREADS && fgets(line, sizeof line, file)) {
        struct one *of = &one[threads];
        if (line[0] == '#' || sscanf(line, "%15s %d %63s %" SCNu64 " %" SCNu64 " %" SCNu64 " %" SCNu64, of->name, &of->priority,
                                     of->list, &of->period, &of->cost, &of->jitter, &of->offset) != 7) continue;
        of->mask = read_mask(of->list);
        threads++;
    }
    fclose(file);
    return threads > 0;
}

static cpu_set_t set_of(uint64_t mask) {
    cpu_set_t set;
    CPU_ZERO(&set);
    for (size_t p = 0; p < 64; p++)
        if (mask >> p & 1) CPU_SET(p, &set);
    return set;
}

static bool start(struct one *of, bool low) {
    pthread_attr_t attributes;
    struct sched_param param = {.sched_priority = of->priority};
    cpu_set_t set = set_of(low ? of->mask & -of->mask : of->mask);
    pthread_attr_init(&attributes);
    pthread_attr_setinheritsched(&attributes, PTHREAD_EXPLICIT_SCHED);
    pthread_attr_setschedpolicy(&attributes, SCHED_FIFO);
    pthread_attr_setschedparam(&attributes, &param);
    pthread_attr_setaffinity_np(&attributes, sizeof set, &set);
    if (pthread_create(&of->thread, &attributes, work, of)) return false;
    pthread_setname_np(of->thread, of->name);
    while (!atomic_load(&of->number)) usleep(1000);
    set = set_of(of->mask);
    return pthread_setaffinity_np(of->thread, sizeof set, &set) == 0;
}

static bool write_tasks(const char *path) {
    FILE *file = fopen(path, "w");
    if (!file) return false;
    fprintf(file, "trace 1\nprocessors %ld\n", sysconf(_SC_NPROCESSORS_CONF));
    for (int i = 0; i < threads; i++)
        fprintf(file, "task %s %d %s %d\n", one[i].name, 99 - one[i].priority, one[i].list, atomic_load(&one[i].number));
    return fclose(file) == 0;
}

static int by_size(const void *a, const void *b) {
    uint32_t x = *(const uint32_t *)a, y = *(const uint32_t *)b;
    return x < y ? -1 : x > y;
}

static void print(struct one *of) {
    uint64_t sum = 0;
    if (of->jobs == 0) return;
    qsort(of->response, of->jobs, sizeof *of->response, by_size);
    for (unsigned j = 0; j < of->jobs; j++) sum += of->response[j];
    printf("%s jobs %u worst %u mean %" PRIu64 " p99 %u late %u cost %" PRIu64 "\n", of->name, of->jobs,
           of->response[of->jobs - 1], sum / of->jobs, of->response[of->jobs * 99 / 100], of->late, of->cost);
}

int main(int words, char **word) {
    char line[16];
    if (words < 4 || !read_set(word[1])) {
        fputs("load SET SECONDS TASKS [low]\n", stderr);
        return 2;
    }
    seconds = atof(word[2]);
    mlockall(MCL_CURRENT | MCL_FUTURE);
    for (int i = 0; i < threads; i++)
        if (!start(&one[i], words > 4)) {
            perror("load: a SCHED_FIFO thread cannot be started");
            return 2;
        }
    if (!write_tasks(word[3])) return 2;
    puts("ready");
    fflush(stdout);
    if (!fgets(line, sizeof line, stdin)) return 2;
    atomic_store(&begin, nanoseconds(CLOCK_MONOTONIC) + 50000000);
    for (int i = 0; i < threads; i++) pthread_join(one[i].thread, NULL);
    for (int i = 0; i < threads; i++) print(&one[i]);
    return 0;
}
