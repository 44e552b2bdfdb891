/* apa.h: which task runs where under arbitrary processor affinities, decided by a proved scheduler.
 *
 * An apa is a state machine. The caller says which task has become ready, has blocked or has another mask, and which
 * processor went off line or came back; the apa answers what happened, and lists the moves that lead to the new
 * placement. It starts no thread, takes no lock, does no input and no output, and from apa_start to apa_close it takes and
 * gives no memory.
 *
 * What is proved, and what is only tested, is in docs/LIBRARY.md. The caller owes, and nothing checks:
 *   - the pointer is one on which apa_init or apa_new was called, in room of apa_size bytes that nobody else writes;
 *   - no second apa_init before apa_close, and no call at all after apa_free;
 *   - no copy of the room is used beside the first (it may be moved, if only the new place is used from then on);
 *   - no two calls on one apa overlap (it may go from thread to thread; different apas are independent).
 * Every other number may be wrong: a call that cannot use one answers a fault and changes nothing.
 *
 * At most 64 processors and 1,024 tasks. Of two priorities the lower number is the more urgent. No two tasks have one
 * priority: priority * 1024 + task makes equal ones distinct, up to the priority 4194302, and of equal ones the lower task
 * goes first then; where tasks come and go, admit each with 4294967295, and then set that priority. Bit p of a mask is
 * processor p.
 *
 * Tasks that come and go: apa_start_with_slots makes free slots beside the tasks. apa_admit gives one to a new task, whose
 * number is that of the slot, and apa_retire makes it free again. There is no task of a free slot: an event of one answers
 * APA_NO_TASK, and apa_mask answers 0.
 *
 * Beside another scheduler, as that of the kernel: apa_seen says on whose queue it has a task. A processor is held by the most
 * urgent of the tasks that are to run, are seen there and may run there. Who is to run and holds none is lost: apa_lost answers the
 * most urgent one. apa_help gives it a processor by the moves of a shortest chain; each task is seen then where the moves lead.
 * Whoever held a processor holds one then, so that as many helps as there are processors leave nobody lost. */
#ifndef APA_H
#define APA_H
#include <stddef.h>
#include <stdint.h>
#include <stdlib.h>
#ifdef __cplusplus
extern "C" {
#endif

typedef struct apa apa; /* never defined: a pointer to room that the caller owns */

#define APA_NONE 4294967295u /* no task, no processor, no move */
#define APA_MOST_MOVES 130   /* of one event: two chains of at most 64 processors, and a stop before each */
#define APA_SLOT 1024u       /* apa_admit answers APA_SLOT and the number of the new task, or a fault, which is less than 16 */

enum apa_answer {
    APA_DONE = 0,
    /* 1 to 15: a fault, and nothing has changed */
    APA_NO_MEMORY = 1,     /* memory was refused */
    APA_NOT_NOW = 2,       /* the call does not come at this stage */
    APA_NO_PROCESSOR = 3,  /* no such processor, or no number of processors */
    APA_NO_TASK = 4,       /* no such task: no slot has the number, or the slot is free */
    APA_BAD_MASK = 5,      /* an empty mask, or one with a processor that there is not */
    APA_SAME_PRIORITY = 6, /* another task has the priority */
    APA_TOO_MANY = 7,      /* there are 1,024 tasks */
    APA_NO_EVENT = 8,      /* no such kind of event */
    APA_NO_NAME = 9,       /* the name under which a task is stored was refused: never seen */
    APA_STILL_READY = 10,  /* the task is ready: it has to depart first */
    APA_NO_SLOT = 11,      /* no slot is free */
    /* 16 to 29: an event was applied */
    APA_PLACED = 16,    /* the task runs; others may have moved */
    APA_DISPLACED = 17, /* the task runs, and a less urgent one waits now */
    APA_WAITS = 18,     /* the task waits */
    APA_FREED = 19,     /* the task stopped, and its processor was filled where somebody waited for it */
    APA_LEFT = 20,      /* the task had waited */
    APA_WAS_READY = 22,
    APA_WAS_ABSENT = 23,
    APA_MASKED = 24,   /* the mask of an absent task is set */
    APA_REMASKED = 25, /* the task left and came back with its new mask */
    APA_WAS_OFF = 26,
    APA_WAS_ON = 27,
    APA_OFF = 28,
    APA_ON = 29
};

/* ---- the exports; what each does is proved on the export itself */
size_t apa_size(void);
void apa_init(void *room);                                       /* room of apa_size() bytes, aligned as malloc aligns */
uint32_t apa_open(apa *, uint32_t processors);                   /* 1 to 64 */
uint32_t apa_add_task(apa *, uint32_t priority, uint64_t mask);  /* its number is how many tasks there were */
uint32_t apa_start(apa *);                                       /* the tasks are complete, and each is absent */
uint32_t apa_apply(apa *, uint32_t kind, uint32_t number, uint64_t mask);
uint32_t apa_admit(apa *, uint32_t priority, uint64_t mask);     /* APA_SLOT and the number of a new task, which is absent */
uint32_t apa_retire(apa *, uint32_t task);                       /* an absent task goes: its slot is free */
uint32_t apa_set_priority(apa *, uint32_t task, uint32_t priority); /* of an absent task; no link and no move changes */
uint32_t apa_seen(apa *, uint32_t task, uint32_t processor);     /* where another scheduler has it; APA_NONE: nobody knows */
uint32_t apa_lost(apa *);                                        /* who is to run, and does not where it is seen; or APA_NONE */
uint32_t apa_help(apa *);                                        /* the same, and the moves that let it run; or APA_NONE */
uint32_t apa_moves(apa *);                                       /* of the last event, or of apa_help after it */
uint64_t apa_whole_move(apa *, uint32_t i);                      /* in one number, which apa_get_move reads */
uint32_t apa_on(apa *, uint32_t processor);                      /* the task that is to run there */
uint32_t apa_of(apa *, uint32_t task);                           /* the processor where it is to run */
uint32_t apa_is_ready(apa *, uint32_t task);                     /* 1 or 0; 0 also where there is no such task */
uint64_t apa_mask(apa *, uint32_t task);                         /* 0 where there is no such task */
uint64_t apa_occupied(apa *);                                    /* the processors on which somebody is to run */
uint64_t apa_on_line(apa *);                                     /* the processors on line */
uint64_t apa_reached(apa *);                                     /* the set of the last reply: docs/LIBRARY.md */
uint64_t apa_back(apa *);                                        /* its set of a processor that became free: there */
uint32_t apa_close(apa *);                                       /* gives all memory back; apa_open may follow */

/* ---- the same by name */
static inline uint32_t apa_arrive(apa *a, uint32_t task) { return apa_apply(a, 0, task, 0); }
static inline uint32_t apa_depart(apa *a, uint32_t task) { return apa_apply(a, 1, task, 0); }
static inline uint32_t apa_set_mask(apa *a, uint32_t task, uint64_t mask) { return apa_apply(a, 2, task, mask); }
static inline uint32_t apa_offline(apa *a, uint32_t processor) { return apa_apply(a, 3, processor, 0); }
static inline uint32_t apa_online(apa *a, uint32_t processor) { return apa_apply(a, 4, processor, 0); }

/* Move i of the last event. Whoever does them in their order never has two tasks on one processor. */
typedef struct {
    uint32_t task, from, to;
} apa_move;

/* The task is the lower half of the number, and each processor has 16 bits of the upper one: as a signed number, 65535 is -1. */
static inline apa_move apa_get_move(apa *a, uint32_t i) {
    uint64_t whole = apa_whole_move(a, i);
    apa_move move = {(uint32_t)whole, (uint32_t)(int16_t)(whole >> 32), (uint32_t)(int16_t)(whole >> 48)};
    return move;
}

static inline uint32_t apa_move_task(apa *a, uint32_t i) { return apa_get_move(a, i).task; }
static inline uint32_t apa_move_from(apa *a, uint32_t i) { return apa_get_move(a, i).from; } /* APA_NONE: the task starts */
static inline uint32_t apa_move_to(apa *a, uint32_t i) { return apa_get_move(a, i).to; }     /* APA_NONE: the task stops */

/* apa_start with so many free slots beside the tasks that were added, at most 1,024 in all. A free slot is a task that has
 * retired. After a fault only apa_close may follow: some of the slots may stand among the tasks. */
static inline uint32_t apa_start_with_slots(apa *a, uint32_t slots) {
    uint32_t priority = 4294967295u, task = 0, answer;
    for (uint32_t i = 0; i < slots; i++) {
        while ((answer = apa_add_task(a, priority--, 1)) == APA_SAME_PRIORITY) continue;
        if (answer != APA_DONE) return answer;
    }
    if ((answer = apa_start(a)) != APA_DONE) return answer;
    while (apa_mask(a, task)) task++;
    while (slots--) apa_retire(a, --task);
    return APA_DONE;
}

/* NULL where memory is refused, or the number of processors is not 1 to 64 */
static inline apa *apa_new(uint32_t processors) {
    apa *a = (apa *)malloc(apa_size());
    if (!a) return NULL;
    apa_init(a);
    if (apa_open(a, processors) != APA_DONE) {
        apa_close(a);
        free(a);
        return NULL;
    }
    return a;
}

static inline void apa_free(apa *a) {
    if (!a) return;
    apa_close(a);
    free(a);
}

#ifdef __cplusplus
}
#endif
#endif
