/* Each allocation is refused in turn: apa_new, apa_add_task and apa_start_with_slots answer, and no block is lost.
 * It is linked with --wrap=malloc,--wrap=realloc,--wrap=free. */
#include "../apa.h"

#include <stdio.h>

#define TASKS 40

static long left, held;
void *__real_malloc(size_t);
void *__real_realloc(void *, size_t);
void __real_free(void *);

void *__wrap_malloc(size_t n) {
    if (left-- == 0) return NULL;
    void *p = __real_malloc(n);
    if (p) held++;
    return p;
}

void *__wrap_realloc(void *old, size_t n) {
    if (left-- == 0) return NULL;
    void *p = __real_realloc(old, n);
    if (p && !old) held++;
    return p;
}

void __wrap_free(void *p) {
    if (p) held--;
    __real_free(p);
}

/* Whether all tasks were added and the scheduler runs; -1 at an answer that is not expected. */
static int try_all(apa *a) {
    for (uint32_t t = 0; t < TASKS; t++) {
        uint32_t answer = apa_add_task(a, t, 1 + t % 255);
        if (answer == APA_NO_MEMORY) return 0;
        if (answer != APA_DONE) return -1;
    }
    uint32_t answer = apa_start_with_slots(a, 3);
    if (answer == APA_NO_MEMORY) return apa_arrive(a, 0) == APA_NOT_NOW ? 0 : -1;
    if (answer != APA_DONE) return -1;
    for (uint32_t t = 0; t < TASKS; t++)
        if (apa_arrive(a, t) < 16) return -1;
    if (apa_admit(a, TASKS, 1) < APA_SLOT) return -1;
    return 1;
}

int main(void) {
    for (long refused = 0;; refused++) {
        left = refused;
        held = 0;
        apa *a = apa_new(8);
        int done = a ? try_all(a) : 0;
        apa_free(a);
        if (done < 0 || held != 0) {
            printf("FAILED at allocation %ld: %s\n", refused, held ? "a block is lost" : "another answer");
            return 1;
        }
        if (done == 1 && left > 0) {
            printf("no_memory: each of %ld allocations was refused in turn\n", refused);
            return 0;
        }
    }
}
