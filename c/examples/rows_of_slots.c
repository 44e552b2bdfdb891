/* Worked rows of tasks that come and go: slots, their priorities, and how many there can be. */
#include "rows.h"

#include <inttypes.h>
#include <stdio.h>

/* The task that was admitted, or APA_NONE. */
static uint32_t admitted(apa *a, const char *what, uint32_t priority, uint64_t mask) {
    uint32_t answer = apa_admit(a, priority, mask);
    if (answer >= APA_SLOT) return answer - APA_SLOT;
    printf("FAILED %s: came %" PRIu32 ", expected a task\n", what, answer);
    failed++;
    return APA_NONE;
}

/* Two tasks, x and y, and two free slots, into which v and w come. Which of the two slots each has is not said. */
static void tasks_that_come_and_go(void) {
    char moves[80];
    apa *a = apa_new(2);
    expect("slots: add x", apa_add_task(a, 1, 3), APA_DONE);
    expect("slots: add y", apa_add_task(a, 2, 1), APA_DONE);
    expect("slots: admit too early", apa_admit(a, 3, 1), APA_NOT_NOW);
    expect("slots: retire too early", apa_retire(a, 0), APA_NOT_NOW);
    expect("slots: priority too early", apa_set_priority(a, 0, 3), APA_NOT_NOW);
    expect("slots: start", apa_start_with_slots(a, 2), APA_DONE);
    for (uint32_t t = 2; t < 5; t++) {
        expect("slots: free: arrive", apa_arrive(a, t), APA_NO_TASK);
        expect("slots: free: depart", apa_depart(a, t), APA_NO_TASK);
        expect("slots: free: set mask", apa_set_mask(a, t, 1), APA_NO_TASK);
        expect("slots: free: retire", apa_retire(a, t), APA_NO_TASK);
        expect("slots: free: priority", apa_set_priority(a, t, 9), APA_NO_TASK);
        expect("slots: free: mask", apa_mask(a, t), 0);
        expect("slots: free: ready", apa_is_ready(a, t), 0);
        expect("slots: free: of", apa_of(a, t), APA_NONE);
    }
    expect("slots: x", apa_arrive(a, 0), APA_PLACED);
    expect("slots: admit: same priority", apa_admit(a, 1, 1), APA_SAME_PRIORITY);
    expect("slots: admit: empty mask", apa_admit(a, 3, 0), APA_BAD_MASK);
    expect("slots: admit: mask outside", apa_admit(a, 3, 4), APA_BAD_MASK);
    expect("slots: admit: mask beyond 32 bits", apa_admit(a, 3, (1ull << 40) | 1), APA_BAD_MASK);
    uint32_t v = admitted(a, "slots: admit v", 3, 2);
    expect("slots: v has a slot", v == 2 || v == 3, 1);
    expect("slots: v: mask", apa_mask(a, v), 2);
    expect("slots: v is absent", apa_is_ready(a, v), 0);
    expect_moves(a, "slots: the moves are those of x", "0:->0");
    expect("slots: x is there", apa_on(a, 0), 0);
    expect("slots: v", apa_arrive(a, v), APA_PLACED);
    snprintf(moves, sizeof moves, "%" PRIu32 ":->1", v);
    expect_moves(a, "slots: v", moves);
    expect("slots: v stays", apa_retire(a, v), APA_STILL_READY);
    expect("slots: v keeps its priority", apa_set_priority(a, v, 9), APA_STILL_READY);
    expect("slots: x keeps its priority", apa_set_priority(a, 0, 9), APA_STILL_READY);
    expect("slots: y", apa_arrive(a, 1), APA_DISPLACED);
    snprintf(moves, sizeof moves, "%" PRIu32 ":1>- 0:0>1 1:->0", v);
    expect_moves(a, "slots: y", moves);
    expect("slots: v waits, and stays", apa_retire(a, v), APA_STILL_READY);
    expect("slots: v departs", apa_depart(a, v), APA_LEFT);
    expect("slots: v goes", apa_retire(a, v), APA_DONE);
    expect("slots: v is gone", apa_arrive(a, v), APA_NO_TASK);
    expect("slots: v is gone: retire", apa_retire(a, v), APA_NO_TASK);
    expect("slots: v is gone: mask", apa_mask(a, v), 0);

    v = admitted(a, "slots: admit v again", 3, 1);
    uint32_t w = admitted(a, "slots: admit w", 5, 1);
    expect("slots: v and w have a slot each", (v == 2 && w == 3) || (v == 3 && w == 2), 1);
    expect("slots: no slot", apa_admit(a, 7, 1), APA_NO_SLOT);
    expect("slots: w: priority of v", apa_set_priority(a, w, 3), APA_SAME_PRIORITY);
    expect("slots: w: priority of y", apa_set_priority(a, w, 2), APA_SAME_PRIORITY);
    expect("slots: w: its own priority", apa_set_priority(a, w, 5), APA_DONE);
    expect("slots: w: a new priority", apa_set_priority(a, w, 6), APA_DONE);
    expect("slots: v goes again", apa_retire(a, v), APA_DONE);
    /* The free slot of v had the priority 3. */
    expect("slots: w: the priority of a free slot", apa_set_priority(a, w, 3), APA_DONE);
    expect("slots: admit: w has 3", apa_admit(a, 3, 1), APA_SAME_PRIORITY);
    v = admitted(a, "slots: admit v with 6", 6, 1);
    expect("slots: v is not w", v != w && v > 1 && v < 4, 1);

    /* y is on 0, where w and v may run alone, and w is the more urgent one now. */
    expect("slots: v waits", apa_arrive(a, v), APA_WAITS);
    expect("slots: v reaches", apa_reached(a), 1);
    expect("slots: w waits", apa_arrive(a, w), APA_WAITS);
    expect("slots: y departs", apa_depart(a, 1), APA_FREED);
    snprintf(moves, sizeof moves, "1:0>- %" PRIu32 ":->0", w);
    expect_moves(a, "slots: y departs", moves);
    expect("slots: back", apa_back(a), 3);
    expect("slots: y goes", apa_retire(a, 1), APA_DONE);
    expect("slots: y comes", admitted(a, "slots: admit y", 1000, 3), 1);
    expect("slots: close", apa_close(a), APA_DONE);
    expect("slots: closed", apa_admit(a, 8, 1), APA_NOT_NOW);
    apa_free(a);
}

/* No slots, and as many as there can be; the priorities that free slots have are nobody's. */
static void few_slots_and_many(void) {
    static unsigned char given[1024];
    apa *a = apa_new(1);
    expect("few: add", apa_add_task(a, 4294967295u, 1), APA_DONE);
    expect("few: start", apa_start(a), APA_DONE);
    expect("few: no slot", apa_admit(a, 1, 1), APA_NO_SLOT);
    expect("few: same priority", apa_admit(a, 4294967295u, 1), APA_SAME_PRIORITY);
    expect("few: another", apa_set_priority(a, 0, 7), APA_DONE);
    expect("few: it goes", apa_retire(a, 0), APA_DONE);
    expect("few: one comes", admitted(a, "few: one comes", 7, 1), 0);
    apa_free(a);

    a = apa_new(1);
    expect("many: add", apa_add_task(a, 4294967295u, 1), APA_DONE);
    expect("many: start", apa_start_with_slots(a, 1023), APA_DONE);
    expect("many: same priority", apa_admit(a, 4294967295u, 1), APA_SAME_PRIORITY);
    for (uint32_t i = 0; i < 1023; i++) {
        uint32_t t = admitted(a, "many: admit", 4294967294u - i, 1);
        expect("many: a slot of its own", t > 0 && t < 1024 && !given[t], 1);
        if (t < 1024) given[t] = 1;
    }
    expect("many: no slot", apa_admit(a, 1, 1), APA_NO_SLOT);
    apa_free(a);

    a = apa_new(1);
    expect("many: more than 1,024", apa_start_with_slots(a, 1025), APA_TOO_MANY);
    apa_free(a);
}

/* Equal priorities, where tasks come and go: each is admitted with a priority that no other has, and gets its own while it is
 * absent. All three have the priority 7, so the lower number goes first, whoever came first. */
static void equal_priorities(void) {
    apa *a = apa_new(1);
    uint32_t task[3];
    expect("equal: start", apa_start_with_slots(a, 3), APA_DONE);
    for (int round = 0; round < 1000; round++) {
        for (int i = 0; i < 3; i++) {
            task[i] = admitted(a, "equal: admit", 4294967295u, 1);
            expect("equal: priority", apa_set_priority(a, task[i], 7 * 1024 + task[i]), APA_DONE);
        }
        for (int i = 2; i >= 0; i--) apa_arrive(a, task[i]);
        expect("equal: on 0", apa_on(a, 0), 0);
        expect("equal: of 1", apa_of(a, 1), APA_NONE);
        expect("equal: of 2", apa_of(a, 2), APA_NONE);
        for (int i = 0; i < 3; i++) {
            apa_depart(a, task[i]);
            expect("equal: retire", apa_retire(a, task[i]), APA_DONE);
        }
    }
    apa_free(a);
}

void rows_of_slots(void) {
    tasks_that_come_and_go();
    few_slots_and_many();
    equal_priorities();
}
