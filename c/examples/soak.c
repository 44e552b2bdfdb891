/* Many events of all kinds, some of them senseless, on 64 processors and 1,024 tasks, which come and go and get other priorities. No
 * memory is asked for after apa_start, the moves never put two tasks on one processor, and they end where apa_on and apa_of say. A
 * slot in use is never given, and each fault has its cause.
 *     soak [EVENTS]
 * It is linked with --wrap=malloc,--wrap=realloc. With -DSHARED it is for a shared library, which calls the program's own. */
#include "../apa.h"

#include <stdio.h>

#define PROCESSORS 64
#define TASKS 1024

#ifdef SHARED
#define __real_malloc __libc_malloc
#define __real_realloc __libc_realloc
#define __wrap_malloc malloc
#define __wrap_realloc realloc
#endif

static unsigned long asked;
void *__real_malloc(size_t);
void *__real_realloc(void *, size_t);

void *__wrap_malloc(size_t n) {
    asked++;
    return __real_malloc(n);
}

void *__wrap_realloc(void *p, size_t n) {
    asked++;
    return __real_realloc(p, n);
}

/* A number below k, by Knuth's MMIX generator. */
static uint64_t seed = 12345;
static uint64_t draw(uint64_t k) {
    seed = seed * 6364136223846793005ull + 1442695040888963407ull;
    return (seed >> 33) % k;
}

static uint64_t draw_range(void) {
    uint64_t low = draw(64), most = 64 - low < 4 ? 64 - low : 4, high = low + draw(most);
    return (high == 63 ? ~0ull : (1ull << (high + 1)) - 1) & ~((1ull << low) - 1);
}

/* Does the moves of the last event on the processors. */
static const char *follow(apa *a, uint32_t *on) {
    for (uint32_t i = 0; i < apa_moves(a); i++) {
        apa_move move = apa_get_move(a, i);
        if (move.task != apa_move_task(a, i) || move.from != apa_move_from(a, i) || move.to != apa_move_to(a, i)) return "a move is not one";
        if (move.from != APA_NONE) {
            if (on[move.from] != move.task) return "the task is not there";
            on[move.from] = APA_NONE;
        }
        if (move.to != APA_NONE) {
            if (on[move.to] != APA_NONE) return "two tasks on one processor";
            on[move.to] = move.task;
        }
    }
    return NULL;
}

static const char *compare(apa *a, const uint32_t *on) {
    for (uint32_t p = 0; p < PROCESSORS; p++) {
        uint32_t t = apa_on(a, p);
        if (t != on[p]) return "another task is on the processor";
        if (t != APA_NONE && apa_of(a, t) != p) return "the task is on another processor";
    }
    return NULL;
}

/* What is known of the slots: which are in use, and the priorities of the tasks in them. */
static unsigned char in_use[TASKS];
static uint32_t priorities[TASKS];
static unsigned long came, went, reordered;

static int is_task(uint32_t t) { return t < TASKS && in_use[t]; }

/* Whether a task in use, but for this one, has the priority. */
static int is_taken(uint32_t priority, uint32_t but) {
    for (uint32_t t = 0; t < TASKS; t++)
        if (t != but && in_use[t] && priorities[t] == priority) return 1;
    return 0;
}

static int is_full(void) {
    for (uint32_t t = 0; t < TASKS; t++)
        if (!in_use[t]) return 0;
    return 1;
}

/* The fault of a call that wants an absent task has its cause. */
static const char *judge_presence(apa *a, uint32_t t, uint32_t answer) {
    if (answer == APA_NO_TASK) return is_task(t) ? "there is such a task" : NULL;
    if (answer == APA_STILL_READY) return is_task(t) && apa_is_ready(a, t) ? NULL : "the task is not ready";
    return "no such fault";
}

static const char *admit(apa *a) {
    uint32_t priority = TASKS * (uint32_t)draw(100) + (uint32_t)draw(TASKS);
    uint64_t mask = draw(32) ? draw_range() : 0;
    uint32_t answer = apa_admit(a, priority, mask);
    if (answer == APA_BAD_MASK) return mask ? "the mask is not bad" : NULL;
    if (answer == APA_SAME_PRIORITY) return is_taken(priority, APA_NONE) ? NULL : "no task has the priority";
    if (answer == APA_NO_SLOT) return is_full() ? NULL : "a slot is free";
    if (answer < APA_SLOT || answer >= APA_SLOT + TASKS) return "admit: another answer";
    uint32_t t = answer - APA_SLOT;
    if (in_use[t]) return "a slot was given twice";
    if (!mask || is_taken(priority, APA_NONE)) return "admitted without a mask, or with the priority of another";
    if (apa_mask(a, t) != mask || apa_is_ready(a, t)) return "another mask, or ready from the start";
    in_use[t] = 1;
    priorities[t] = priority;
    came++;
    return NULL;
}

static const char *retire(apa *a) {
    uint32_t t = (uint32_t)draw(TASKS + 6), answer = apa_retire(a, t);
    if (answer != APA_DONE) return judge_presence(a, t, answer);
    if (!is_task(t) || apa_is_ready(a, t) || apa_mask(a, t)) return "it had to stay, or it is still there";
    in_use[t] = 0;
    went++;
    return NULL;
}

static const char *set_priority(apa *a) {
    uint32_t t = (uint32_t)draw(TASKS + 6), priority = TASKS * (uint32_t)draw(100) + (uint32_t)draw(TASKS);
    uint32_t answer = apa_set_priority(a, t, priority);
    if (answer == APA_SAME_PRIORITY) return is_taken(priority, t) ? NULL : "no other task has the priority";
    if (answer != APA_DONE) return judge_presence(a, t, answer);
    if (!is_task(t) || apa_is_ready(a, t) || is_taken(priority, t)) return "the priority had to stay";
    priorities[t] = priority;
    reordered++;
    return NULL;
}

static const char *come_or_go(apa *a) {
    uint64_t r = draw(4);
    return r == 0 ? admit(a) : r == 1 ? set_priority(a) : retire(a);
}

static unsigned long helps;

/* Tasks are seen somewhere; each that is lost is helped, in as many turns as there are processors at most. */
static const char *mend(apa *a) {
    for (int i = 0; i < 8; i++) apa_seen(a, (uint32_t)draw(TASKS + 6), draw(8) ? (uint32_t)draw(PROCESSORS + 2) : APA_NONE);
    uint32_t lost, turns = 0;
    while ((lost = apa_lost(a)) != APA_NONE) {
        if (apa_of(a, lost) == APA_NONE) return "a task is lost that is not to run";
        if (apa_help(a) != lost) return "another task is helped than the one that is lost";
        uint32_t count = apa_moves(a);
        if (!count || apa_move_task(a, count - 1) != lost || apa_move_from(a, count - 1) != APA_NONE) return "the lost task does not start";
        if (++turns > PROCESSORS) return "more helps than processors";
    }
    helps += turns;
    return NULL;
}

int main(int argc, char **argv) {
    unsigned long events = argc > 1 ? strtoul(argv[1], NULL, 10) : 10000000, moves = 0, faults = 0;
    uint32_t on[PROCESSORS], most = 0;
    for (int p = 0; p < PROCESSORS; p++) on[p] = APA_NONE;
    apa *a = apa_new(PROCESSORS);
    for (uint32_t t = 0; t < TASKS; t++) {
        in_use[t] = 1;
        priorities[t] = TASKS * (uint32_t)draw(100) + t;
        if (apa_add_task(a, priorities[t], draw_range())) return 2;
    }
    if (apa_start(a)) return 2;
    unsigned long before = asked;
    for (unsigned long i = 0; i < events; i++) {
        uint64_t r = draw(100);
        uint32_t kind = r < 45 ? 0 : r < 90 ? 1 : r < 95 ? 2 : r < 96 ? 3 : r < 99 ? 4 : (uint32_t)draw(300);
        uint32_t number = (uint32_t)draw(kind <= 2 ? TASKS + 6 : PROCESSORS + 2);
        const char *fault = i % 4 == 3 ? come_or_go(a) : NULL;
        uint32_t answer = apa_apply(a, kind, number, draw(16) ? draw_range() : 0);
        if (!fault && kind <= 2 && (answer == APA_NO_TASK) == is_task(number)) fault = "there is such a task, or there is none";
        if (fault) {
            printf("FAILED event %lu: %s\n", i, fault);
            return 1;
        }
        if (answer < 16) {
            faults++;
            continue;
        }
        uint32_t count = apa_moves(a);
        moves += count;
        if (count > most) most = count;
        fault = follow(a, on);
        if (!fault && i % 16 == 0) fault = compare(a, on);
        if (!fault && i % 64 == 0) fault = mend(a);
        if (fault) {
            printf("FAILED event %lu: %s\n", i, fault);
            return 1;
        }
    }
    unsigned long since = asked - before;
    const char *fault = compare(a, on);
    printf("%lu events, %lu refused; %lu moves, at most %u at one event; %lu tasks came, %lu went, %lu got another priority; "
           "%lu were helped; memory asked for before apa_start: %lu times, since: %lu\n", events, faults, moves, most, came, went, reordered, helps, before, since);
    apa_free(a);
    /* Before, the library asked more than once, or the calls were not counted. */
    return fault || before < 2 || since || (events >= 20000 && !(came && went && reordered && helps));
}
