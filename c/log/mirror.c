/* The state that a log's events give: what a text begins with, and the contexts with which it ends. */
#include "mirror.h"
#include "replies.h"

#include <inttypes.h>
#include <string.h>

/* The moves of an earlier event stay in the apa where an event changes nothing. */
static bool changes_nothing(uint32_t answer) {
    return answer == APA_WAS_READY || answer == APA_WAS_ABSENT || answer == APA_MASKED || answer == APA_LEFT ||
           answer == APA_WAS_OFF || answer == APA_WAS_ON;
}

struct noted note_of(apa *a, uint32_t kind, uint32_t number, uint64_t mask, uint32_t answer) {
    struct noted e = {.kind = kind, .number = number, .answer = answer, .mask = mask};
    if (changes_nothing(answer)) return e;
    e.moves = apa_moves(a);
    e.reached = apa_reached(a);
    e.back = apa_back(a);
    for (uint32_t i = 0; i < e.moves; i++) e.move[i] = apa_get_move(a, i);
    return e;
}

void mirror_begin(struct mirror *m, uint32_t processors) {
    memset(m, 0, sizeof *m);
    m->processors = processors;
    m->on_line = processors == 64 ? ~(uint64_t)0 : ((uint64_t)1 << processors) - 1;
    for (uint32_t p = 0; p < MIRROR_PROCESSORS; p++) m->on[p] = APA_NONE;
    for (uint32_t t = 0; t < MIRROR_TASKS; t++) m->task[t].of = APA_NONE;
}

static bool is_on_line(const struct mirror *m, uint32_t p) { return m->on_line >> p & 1; }

unsigned long mirror_entries(const struct mirror *m) {
    unsigned long entries = 0;
    for (uint32_t p = 0; p < m->processors; p++) entries += !is_on_line(m, p);
    for (uint32_t t = 0; t < m->tasks; t++) entries += m->task[t].in_use && m->task[t].ready;
    return entries;
}

/* A task is taken by a processor: a stint begins there. */
static void take(struct mirror *m, uint32_t p, uint32_t t) {
    struct mirrored *of = &m->task[t];
    of->stints++;
    of->moves += of->last != APA_NONE && of->last != p;
    of->last = p;
}

/* All processors that chains of shifts reach from a mask. */
static uint64_t reach(const struct mirror *m, uint64_t mask) {
    uint64_t set = mask & m->on_line, before;
    do {
        before = set;
        for (uint32_t p = 0; p < m->processors; p++)
            if (set >> p & 1 && m->on[p] != APA_NONE) set |= m->task[m->on[p]].mask & m->on_line;
    } while (set != before);
    return set;
}

/* The processors that are off line leave, those who are linked come each to its own, and then those who wait. */
static void write_beginning(const struct mirror *m, FILE *out) {
    for (uint32_t p = 0; p < m->processors; p++)
        if (!is_on_line(m, p)) fprintf(out, "0 offline %" PRIu32 " off -\n", p);
    for (uint32_t p = 0; p < m->processors; p++) {
        if (m->on[p] != APA_NONE) fprintf(out, "0 arrive %s placed %" PRIu32 "\n", m->task[m->on[p]].name, p);
    }
    for (uint32_t t = 0; t < m->tasks; t++) {
        const struct mirrored *of = &m->task[t];
        if (!of->in_use || !of->ready || of->of != APA_NONE) continue;
        fprintf(out, "0 arrive %s waits ", of->name);
        write_set(out, reach(m, of->mask));
        fputc('\n', out);
    }
}

void mirror_begin_text(struct mirror *m) {
    uint64_t number = 0;
    for (uint32_t t = 0; t < m->tasks; t++) {
        struct mirrored *of = &m->task[t];
        of->units = of->stints = of->moves = 0;
        of->last = APA_NONE;
        if (of->in_use) of->trail = number++; /* each trail begins with the number of its task in this text */
    }
    for (uint32_t p = 0; p < m->processors; p++)
        if (m->on[p] != APA_NONE) take(m, p, m->on[p]);
}

void mirror_write_head(const struct mirror *m, FILE *out, unsigned long entries) {
    fprintf(out, "schedule 2\nprocessors %" PRIu32 "\n", m->processors);
    for (uint32_t t = 0; t < m->tasks; t++) {
        const struct mirrored *of = &m->task[t];
        if (!of->in_use) continue;
        fprintf(out, "task %s %" PRIu32 " ", of->name, of->priority);
        write_set(out, of->mask);
        fputc('\n', out);
    }
    fprintf(out, "history %lu\n", entries);
    write_beginning(m, out);
}

/* The state after an event: who is ready, whose mask it is, which processor is on line, and the moves. */
static void follow(struct mirror *m, const struct noted *e) {
    uint32_t before[MIRROR_PROCESSORS];
    memcpy(before, m->on, sizeof before);
    if (e->kind == 0) m->task[e->number].ready = true;
    if (e->kind == 1) m->task[e->number].ready = false;
    if (e->kind == 2) m->task[e->number].mask = e->mask;
    if (e->kind == 3) m->on_line &= ~((uint64_t)1 << e->number);
    if (e->kind == 4) m->on_line |= (uint64_t)1 << e->number;
    for (uint32_t i = 0; i < e->moves; i++) {
        const apa_move *move = &e->move[i];
        if (move->from != APA_NONE && m->on[move->from] == move->task) m->on[move->from] = APA_NONE;
        if (move->to != APA_NONE) m->on[move->to] = move->task;
        m->task[move->task].of = move->to;
    }
    for (uint32_t p = 0; p < m->processors; p++)
        if (m->on[p] != before[p] && m->on[p] != APA_NONE) take(m, p, m->on[p]);
}

void mirror_write_entry(struct mirror *m, FILE *out, const struct noted *e) {
    write_entry(out, m, e);
    follow(m, e);
}

void mirror_write_tick(struct mirror *m, FILE *out, uint64_t units) {
    fprintf(out, "0 tick %" PRIu64 " ticked\n", units);
    for (uint32_t p = 0; p < m->processors; p++) {
        if (m->on[p] == APA_NONE) continue;
        struct mirrored *of = &m->task[m->on[p]];
        of->units += units;
        of->trail = of->trail * 6364136223846793005ull + 64 * units + p;
    }
}

void mirror_write_contexts(const struct mirror *m, FILE *out) {
    unsigned long count = 0;
    for (uint32_t t = 0; t < m->tasks; t++) count += m->task[t].in_use;
    fprintf(out, "contexts %lu\n", count);
    for (uint32_t t = 0; t < m->tasks; t++) {
        const struct mirrored *of = &m->task[t];
        if (!of->in_use) continue;
        fprintf(out, "%s units %" PRIu64 " stints %" PRIu64 " moves %" PRIu64 " last ", of->name, of->units, of->stints, of->moves);
        if (of->last == APA_NONE) fputc('-', out);
        else fprintf(out, "%" PRIu32, of->last);
        fprintf(out, " trail %" PRIu64 "\n", of->trail);
    }
    fputs("end\n", out);
}
