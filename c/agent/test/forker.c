/* A SCHED_FIFO thread that runs, and forks a child now and then; each child looks at its mask after 50 ms.
 *
 *     forker PRIORITY TASKS SECONDS      it may run on the two highest processors */
#include <sched.h>
#include <stdint.h>
#include <stdio.h>
#include <stdlib.h>
#include <sys/wait.h>
#include <time.h>
#include <unistd.h>

static uint64_t nanoseconds(clockid_t clock) {
    struct timespec t;
    clock_gettime(clock, &t);
    return (uint64_t)t.tv_sec * 1000000000 + (uint64_t)t.tv_nsec;
}

static int is_narrow(const cpu_set_t *wanted) {
    cpu_set_t set;
    sched_getaffinity(0, sizeof set, &set);
    return !CPU_EQUAL(&set, wanted);
}

static int child(const cpu_set_t *wanted) {
    int narrow = is_narrow(wanted);
    usleep(50000);
    return narrow | is_narrow(wanted) << 1;
}

int main(int words, char **word) {
    long processors = sysconf(_SC_NPROCESSORS_CONF);
    struct sched_param param = {.sched_priority = words > 1 ? atoi(word[1]) : 0};
    cpu_set_t wanted;
    int children = 0, narrow = 0, stay = 0;
    if (words != 4 || processors < 2) return 2;
    CPU_ZERO(&wanted);
    CPU_SET((size_t)processors - 2, &wanted);
    CPU_SET((size_t)processors - 1, &wanted);
    if (sched_setaffinity(0, sizeof wanted, &wanted) || sched_setscheduler(0, SCHED_FIFO, &param)) {
        perror("forker");
        return 2;
    }
    FILE *file = fopen(word[2], "w");
    if (!file) return 2;
    fprintf(file, "trace 1\nprocessors %ld\ntask forker %d %ld-%ld %d\n", processors, 99 - param.sched_priority, processors - 2,
            processors - 1, getpid());
    fclose(file);
    for (uint64_t end = nanoseconds(CLOCK_MONOTONIC) + (uint64_t)(atof(word[3]) * 1e9); nanoseconds(CLOCK_MONOTONIC) < end;) {
        int status = 0;
        usleep(20000);
        uint64_t until = nanoseconds(CLOCK_THREAD_CPUTIME_ID) + 500000;
        while (nanoseconds(CLOCK_THREAD_CPUTIME_ID) < until) continue;
        pid_t made = fork();
        if (made == 0) _exit(child(&wanted));
        waitpid(made, &status, 0);
        children++;
        narrow += WEXITSTATUS(status) & 1;
        stay += WEXITSTATUS(status) >> 1 & 1;
    }
    printf("children %d narrow %d stay %d\n", children, narrow, stay);
    return 0;
}
