/* Writes a log of events at random, for `apa check`: storm NAME EVENTS. Tasks come and go, wake and block, get other masks; processors
 * leave and come back. A mask of a ready task changes while it is absent for that moment, as the log wants it. */
#include "schedule_log.h"

#include <stdio.h>
#include <stdlib.h>
#include <unistd.h>

enum { PROCESSORS = 6, SLOTS = 12, ARRIVE = 0, DEPART, AFFINITY, OFFLINE, ONLINE };

static apa *machine;
static struct schedule_log *record;
static bool in_use[SLOTS];
static uint64_t seed = 20261201;

static uint32_t draw(uint32_t below) {
    seed = seed * 6364136223846793005u + 1442695040888963407u;
    return (uint32_t)(seed >> 33) % below;
}

static uint64_t draw_mask(void) { return 1 + draw((1 << PROCESSORS) - 1); }

static void tell(uint32_t kind, uint32_t number, uint64_t mask) {
    uint32_t answer = apa_apply(machine, kind, number, mask);
    if (answer >= 16) schedule_log_note(record, machine, kind, number, mask, answer);
}

static void come_or_go(uint32_t t) {
    char name[16];
    if (in_use[t]) {
        if (apa_is_ready(machine, t) || apa_retire(machine, t) != APA_DONE) return;
        schedule_log_retire(record, t);
        in_use[t] = false;
        return;
    }
    uint64_t mask = draw_mask();
    uint32_t answer = apa_admit(machine, draw(1000000), mask);
    if (answer < APA_SLOT) return;
    t = answer - APA_SLOT;
    in_use[t] = true;
    /* The priority is known here alone: it is drawn again where it was taken. */
    uint32_t priority = draw(1000000);
    while (apa_set_priority(machine, t, priority) != APA_DONE) priority = draw(1000000);
    snprintf(name, sizeof name, "t%u", t);
    schedule_log_admit(record, t, name, priority, mask);
}

static void change_mask(uint32_t t) {
    uint64_t mask = draw_mask();
    bool ready = apa_is_ready(machine, t);
    if (ready) tell(DEPART, t, 0);
    tell(AFFINITY, t, mask);
    if (ready) tell(ARRIVE, t, 0);
}

static void one_event(void) {
    uint32_t what = draw(4000), t = draw(SLOTS);
    if (what == 0) come_or_go(t);
    else if (what < 120) tell(draw(2) ? ONLINE : OFFLINE, draw(PROCESSORS), 0);
    else if (!in_use[t]) return;
    else if (what < 320) change_mask(t);
    else tell(draw(2) ? ARRIVE : DEPART, t, 0);
}

int main(int words, char **word) {
    unsigned long texts, events;
    if (words != 3) return 2;
    machine = apa_new(PROCESSORS);
    record = schedule_log_open(word[1], PROCESSORS);
    if (!machine || !record || apa_start_with_slots(machine, SLOTS) != APA_DONE) return 2;
    for (uint32_t t = 0; t < SLOTS; t++) come_or_go(t);
    for (long left = atol(word[2]); left > 0; left--) {
        one_event();
        if (left % 1000 == 0) usleep(30000); /* the writer goes once in 20 ms, and has room for 4,096 */
    }
    schedule_log_close(record, &texts, &events);
    apa_free(machine);
    printf("%lu texts, %lu events\n", texts, events);
    return 0;
}
