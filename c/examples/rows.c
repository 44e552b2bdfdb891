/* Worked rows: answers, occupants and moves that were worked by hand from the rule of docs/WHY_IT_IS_BEST.md. */
#include "rows.h"

#include <inttypes.h>
#include <stdio.h>
#include <string.h>

int failed;

void expect(const char *what, uint64_t came, uint64_t expected) {
    if (came == expected) return;
    printf("FAILED %s: came %" PRIu64 ", expected %" PRIu64 "\n", what, came, expected);
    failed++;
}

void expect_moves(apa *a, const char *what, const char *expected) {
    char all[4096] = "";
    for (uint32_t i = 0; i < apa_moves(a); i++) {
        apa_move move = apa_get_move(a, i);
        char from[12] = "-", to[12] = "-", one[40];
        if (move.from != APA_NONE) snprintf(from, sizeof from, "%" PRIu32, move.from);
        if (move.to != APA_NONE) snprintf(to, sizeof to, "%" PRIu32, move.to);
        snprintf(one, sizeof one, "%s%" PRIu32 ":%s>%s", i ? " " : "", move.task, from, to);
        strcat(all, one);
    }
    if (strcmp(all, expected) == 0) return;
    printf("FAILED %s: moves \"%s\", expected \"%s\"\n", what, all, expected);
    failed++;
}

/* A task that may run on one processor alone shifts the one that is there. */
static void two_tasks_on_two_processors(void) {
    apa *a = apa_new(2);
    expect("two: add", apa_add_task(a, 1, 3), APA_DONE);
    expect("two: add", apa_add_task(a, 2, 1), APA_DONE);
    expect("two: too early", apa_arrive(a, 0), APA_NOT_NOW);
    expect("two: start", apa_start(a), APA_DONE);
    expect("two: too late", apa_add_task(a, 3, 1), APA_NOT_NOW);
    expect("two: first", apa_arrive(a, 0), APA_PLACED);
    expect_moves(a, "two: first", "0:->0");
    expect("two: second", apa_arrive(a, 1), APA_PLACED);
    expect_moves(a, "two: second", "0:0>1 1:->0");
    expect("two: on 0", apa_on(a, 0), 1);
    expect("two: on 1", apa_on(a, 1), 0);
    expect("two: of 0", apa_of(a, 0), 1);
    expect("two: again", apa_arrive(a, 1), APA_WAS_READY);
    expect_moves(a, "two: again", "");
    expect("two: no task", apa_arrive(a, 2), APA_NO_TASK);
    expect("two: no kind", apa_apply(a, 9, 0, 0), APA_NO_EVENT);
    expect("two: mask outside", apa_set_mask(a, 0, 4), APA_BAD_MASK);
    expect("two: mask empty", apa_set_mask(a, 0, 0), APA_BAD_MASK);
    expect("two: mask beyond 32 bits", apa_set_mask(a, 0, (1ull << 40) | 1), APA_BAD_MASK);
    expect("two: no processor", apa_offline(a, 2), APA_NO_PROCESSOR);
    expect("two: nobody there", apa_on(a, 2), APA_NONE);
    apa_free(a);
}

/* The longest chain: each of 63 tasks goes one processor on, the last first. */
static void longest_chain(void) {
    apa *a = apa_new(64);
    for (uint32_t i = 0; i < 63; i++) expect("chain: add", apa_add_task(a, i + 1, 3ull << i), APA_DONE);
    expect("chain: add", apa_add_task(a, 100, 1), APA_DONE);
    expect("chain: start", apa_start(a), APA_DONE);
    for (uint32_t i = 0; i < 63; i++) {
        expect("chain: arrive", apa_arrive(a, i), APA_PLACED);
        expect("chain: of", apa_of(a, i), i);
    }
    expect("chain: last", apa_arrive(a, 63), APA_PLACED);
    expect("chain: moves", apa_moves(a), 64);
    for (uint32_t i = 0; i < 63; i++) {
        apa_move move = apa_get_move(a, i);
        expect("chain: task", move.task, 62 - i);
        expect("chain: from", move.from, 62 - i);
        expect("chain: to", move.to, 63 - i);
    }
    expect("chain: on 0", apa_on(a, 0), 63);
    apa_free(a);
}

/* The most urgent task displaces the least urgent one that it reaches, which is not on its own processor. */
static void displaced_along_a_chain(void) {
    apa *a = apa_new(3);
    apa_add_task(a, 2, 3);
    apa_add_task(a, 3, 6);
    apa_add_task(a, 9, 4);
    apa_add_task(a, 1, 1);
    apa_start(a);
    for (uint32_t t = 0; t < 3; t++) expect("displaced: arrive", apa_arrive(a, t), APA_PLACED);
    expect("displaced", apa_arrive(a, 3), APA_DISPLACED);
    expect("displaced: reached", apa_reached(a), 7);
    expect_moves(a, "displaced", "2:2>- 1:1>2 0:0>1 3:->0");
    expect("displaced: waits", apa_of(a, 2), APA_NONE);
    apa_free(a);
}

/* A departure, a mask, and a processor that goes and comes. */
static void departures_and_changes(void) {
    apa *a = apa_new(2);
    apa_add_task(a, 1, 1);
    apa_add_task(a, 2, 3);
    apa_add_task(a, 3, 2);
    apa_add_task(a, 5, 1);
    expect("changes: no mask yet", apa_mask(a, 1), 0);
    apa_start(a);
    expect("changes: x is absent", apa_is_ready(a, 0), 0);
    expect("changes: nobody yet", apa_occupied(a), 0);
    expect("changes: all on line", apa_on_line(a), 3);
    expect("changes: x", apa_arrive(a, 0), APA_PLACED);
    expect("changes: x is ready", apa_is_ready(a, 0), 1);
    expect("changes: x alone", apa_occupied(a), 1);
    expect("changes: mask of y", apa_mask(a, 1), 3);
    expect("changes: no such task", apa_is_ready(a, 4), 0);
    expect("changes: no such mask", apa_mask(a, 4), 0);
    expect("changes: y", apa_arrive(a, 1), APA_PLACED);
    expect("changes: v waits", apa_arrive(a, 2), APA_WAITS);
    expect("changes: v reaches", apa_reached(a), 3);
    expect("changes: w waits", apa_arrive(a, 3), APA_WAITS);
    expect("changes: w reaches", apa_reached(a), 1);
    expect("changes: w is ready", apa_is_ready(a, 3), 1);
    expect("changes: nothing freed", apa_back(a), 0);
    expect("changes: x goes", apa_depart(a, 0), APA_FREED);
    expect("changes: reached", apa_reached(a), 3);
    expect("changes: back", apa_back(a), 3);
    expect_moves(a, "changes: x goes", "0:0>- 1:1>0 2:->1");
    expect("changes: w waits still", apa_of(a, 3), APA_NONE);
    expect("changes: w elsewhere", apa_set_mask(a, 3, 2), APA_REMASKED);
    expect_moves(a, "changes: w elsewhere", "");
    expect("changes: w elsewhere: mask", apa_mask(a, 3), 2);
    expect("changes: w elsewhere: reached", apa_reached(a), 2);
    expect("changes: w elsewhere: back", apa_back(a), 0);
    expect("changes: off", apa_offline(a, 0), APA_OFF);
    expect_moves(a, "changes: off", "1:0>- 2:1>- 1:->1");
    expect("changes: off: reached", apa_reached(a), 2);
    expect("changes: off: back", apa_back(a), 0);
    expect("changes: off: on line", apa_on_line(a), 2);
    expect("changes: off: occupied", apa_occupied(a), 2);
    expect("changes: on", apa_online(a, 0), APA_ON);
    expect_moves(a, "changes: on", "1:1>0 2:->1");
    expect("changes: on: back", apa_back(a), 3);
    expect("changes: on: occupied", apa_occupied(a), 3);
    expect("changes: v again", apa_set_mask(a, 2, 2), APA_REMASKED);
    /* w would fill processor 1 and be displaced at once by the return of v: it does not move. */
    expect_moves(a, "changes: v again", "2:1>- 2:->1");
    expect("changes: v again: reached", apa_reached(a), 2);
    expect("changes: v again: back", apa_back(a), 3);
    expect("changes: close", apa_close(a), APA_DONE);
    expect("changes: closed", apa_arrive(a, 0), APA_NOT_NOW);
    expect("changes: closed: ready", apa_is_ready(a, 0), 0);
    expect("changes: closed: on line", apa_on_line(a), 0);
    expect("changes: closed: back", apa_back(a), 0);
    expect("changes: open again", apa_open(a, 1), APA_DONE);
    apa_free(a);
}

/* Another scheduler has them elsewhere. Of three processors x may run on 0 and 1, y on 0, z on 1 and 2; x is the most urgent, then y. */
static void seen_elsewhere(void) {
    apa *a = apa_new(3);
    apa_add_task(a, 1, 3);
    apa_add_task(a, 2, 1);
    apa_add_task(a, 3, 6);
    apa_add_task(a, 4, 7);
    expect("seen: too early", apa_seen(a, 0, 0), APA_NOT_NOW);
    expect("seen: nobody runs", apa_lost(a), APA_NONE);
    expect("seen: nobody is helped", apa_help(a), APA_NONE);
    apa_start(a);
    expect("seen: nobody is linked", apa_lost(a), APA_NONE);
    for (uint32_t t = 0; t < 3; t++) apa_arrive(a, t);
    expect("seen: no task", apa_seen(a, 4, 0), APA_NO_TASK);
    expect("seen: no processor", apa_seen(a, 0, 3), APA_NO_PROCESSOR);
    expect("seen: all are lost", apa_lost(a), 0);
    expect("seen: x", apa_seen(a, 0, 0), APA_DONE);
    expect("seen: y", apa_seen(a, 1, 0), APA_DONE);
    expect("seen: z", apa_seen(a, 2, 1), APA_DONE);
    /* x holds 0 and z holds 1, so y is lost: x goes to 1 for it, and z to 2. */
    expect("seen: y is lost", apa_lost(a), 1);
    expect("seen: y is lost still", apa_lost(a), 1);
    expect("seen: y is helped", apa_help(a), 1);
    expect_moves(a, "seen: y is helped", "2:1>2 0:0>1 1:->0");
    expect("seen: nobody is lost", apa_lost(a), APA_NONE);
    expect_moves(a, "seen: the moves stay", "2:1>2 0:0>1 1:->0");
    expect("seen: nobody is to be helped", apa_help(a), APA_NONE);
    expect_moves(a, "seen: no moves", "");
    /* The fourth waits: it is not lost, wherever it is seen. */
    expect("seen: v", apa_arrive(a, 3), APA_WAITS);
    expect("seen: v on 0", apa_seen(a, 3, 0), APA_DONE);
    expect("seen: v is not lost", apa_lost(a), APA_NONE);
    /* Outside of its mask, or nowhere, x is lost, and 1 is free for it. */
    expect("seen: x outside", apa_seen(a, 0, 2), APA_DONE);
    expect("seen: x is lost", apa_lost(a), 0);
    expect("seen: x nowhere", apa_seen(a, 0, APA_NONE), APA_DONE);
    expect("seen: x is helped", apa_help(a), 0);
    expect_moves(a, "seen: x is helped", "0:->1");
    /* y departs, and v is to run on 0, where it is seen. Then processor 2 goes off line: z is to run on 1, x on 0, and v waits. */
    expect("seen: y departs", apa_depart(a, 1), APA_FREED);
    expect("seen: v holds 0", apa_lost(a), APA_NONE);
    expect("seen: off", apa_offline(a, 2), APA_OFF);
    expect("seen: z is lost", apa_lost(a), 2);
    expect("seen: z is helped", apa_help(a), 2);
    expect_moves(a, "seen: z is helped", "0:1>0 2:->1");
    expect("seen: close", apa_close(a), APA_DONE);
    expect("seen: closed", apa_seen(a, 0, 0), APA_NOT_NOW);
    expect("seen: closed: nobody", apa_help(a), APA_NONE);
    apa_free(a);
}

static void refusals(void) {
    expect("refusals: 65", apa_new(65) == NULL, 1);
    expect("refusals: 0", apa_new(0) == NULL, 1);
    apa *a = apa_new(1);
    expect("refusals: first", apa_add_task(a, 5, 1), APA_DONE);
    expect("refusals: same priority", apa_add_task(a, 5, 1), APA_SAME_PRIORITY);
    expect("refusals: mask outside", apa_add_task(a, 6, 2), APA_BAD_MASK);
    expect("refusals: mask empty", apa_add_task(a, 6, 0), APA_BAD_MASK);
    for (uint32_t i = 1; i < 1024; i++) expect("refusals: fill", apa_add_task(a, 100 + i, 1), APA_DONE);
    expect("refusals: too many", apa_add_task(a, 7, 1), APA_TOO_MANY);
    apa_free(a);
}

int main(void) {
    two_tasks_on_two_processors();
    longest_chain();
    displaced_along_a_chain();
    departures_and_changes();
    seen_elsewhere();
    refusals();
    rows_of_slots();
    if (failed) return 1;
    puts("rows: all as expected");
    return 0;
}
