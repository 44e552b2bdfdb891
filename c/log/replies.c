/* The line of an entry. A reply's chain is read from the moves: they are listed from the chain's end back to its beginning,
 * after the stop of the task that is put out, if there is one. */
#include "replies.h"

#include <inttypes.h>

void write_set(FILE *out, uint64_t set) {
    const char *comma = "";
    if (!set) fputc('-', out);
    for (uint32_t p = 0; p < 64; p++) {
        uint32_t end = p;
        if (!(set >> p & 1)) continue;
        while (end < 63 && set >> (end + 1) & 1) end++;
        fprintf(out, "%s%" PRIu32, comma, p);
        if (end > p) fprintf(out, "-%" PRIu32, end);
        comma = ",";
        p = end;
    }
}

/* The task of an arrival, or of a processor that goes off line, from move i on: placed, displaced, or it waits. */
static void write_came(FILE *out, const struct mirror *m, const struct noted *e, uint32_t i) {
    uint32_t out_of = APA_NONE, last = e->moves;
    if (i < last && e->move[i].to == APA_NONE) out_of = e->move[i++].task;
    if (i == last) {
        fputs("waits ", out);
        write_set(out, e->reached);
        return;
    }
    fprintf(out, "%s %" PRIu32, out_of == APA_NONE ? "placed" : "displaced", e->move[last - 1].to);
    for (uint32_t j = last - 1; j > i; j--) fprintf(out, ">%" PRIu32, e->move[j - 1].to);
    if (out_of == APA_NONE) return;
    fprintf(out, " out %s reach ", m->task[out_of].name);
    write_set(out, e->reached);
}

/* A processor that became free, and who enters there along which chain: all moves from i on. */
static void write_left(FILE *out, const struct mirror *m, const struct noted *e, uint32_t i, uint32_t processor) {
    fprintf(out, "%" PRIu32, processor);
    for (uint32_t j = i; j + 1 < e->moves; j++) fprintf(out, ">%" PRIu32, e->move[j].from);
    fprintf(out, " enters %s back ", i < e->moves ? m->task[e->move[e->moves - 1].task].name : "-");
    write_set(out, e->back);
}

static void write_reply(FILE *out, const struct mirror *m, const struct noted *e) {
    switch (e->answer) {
    case APA_LEFT: fputs("left", out); break;
    case APA_WAS_READY: fputs("already", out); break;
    case APA_WAS_ABSENT: fputs("absent", out); break;
    case APA_MASKED: fputs("masked", out); break;
    case APA_WAS_OFF: fputs("already_off", out); break;
    case APA_WAS_ON: fputs("already_on", out); break;
    case APA_FREED:
        fputs("freed ", out);
        write_left(out, m, e, 1, e->move[0].from);
        break;
    case APA_ON:
        fputs("on ", out);
        write_left(out, m, e, 0, e->number);
        break;
    case APA_OFF:
        if (e->moves == 0) fputs("off -", out);
        else {
            fprintf(out, "off %s then ", m->task[e->move[0].task].name);
            write_came(out, m, e, 1);
        }
        break;
    default: write_came(out, m, e, 0);
    }
}

void write_entry(FILE *out, const struct mirror *m, const struct noted *e) {
    static const char *const words[] = {"arrive", "depart", "affinity", "offline", "online"};
    fprintf(out, "0 %s ", words[e->kind]);
    if (e->kind < 3) fprintf(out, "%s ", m->task[e->number].name);
    else fprintf(out, "%" PRIu32 " ", e->number);
    if (e->kind == 2) {
        write_set(out, e->mask);
        fputc(' ', out);
    }
    write_reply(out, m, e);
    fputc('\n', out);
}
