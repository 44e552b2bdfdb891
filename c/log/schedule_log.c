/* The ring between the caller and the thread that writes, and the texts that the thread makes of it. */
#include "schedule_log.h"
#include "mirror.h"

#include <errno.h>
#include <pthread.h>
#include <sched.h>
#include <stdatomic.h>
#include <stdlib.h>
#include <string.h>
#include <time.h>

enum { RING = 4096, MOST_ENTRIES = 20000 }; /* RING: a power of two; MOST_ENTRIES: of one schedule text */
enum what { ADMITTED, RETIRED, NOTED };

struct record {
    enum what what;
    char name[MIRROR_NAME];
    uint32_t priority;
    struct noted noted;
};

struct schedule_log {
    const char *name;
    pthread_t thread;
    atomic_ulong put, taken; /* how many records ever were */
    atomic_bool over, ended; /* over: the caller closes; ended: nothing more is written */
    unsigned long texts, events;
    /* the thread's own */
    struct mirror mirror, begun; /* begun: the state at the text's beginning */
    FILE *entries;               /* the lines of this text so far, in memory */
    char *text;
    size_t length;
    unsigned long count;
    struct record ring[RING];
};

static void end_log(struct schedule_log *log, const char *why) {
    if (!atomic_exchange(&log->ended, true)) fprintf(stderr, "the log %s ends here: %s\n", log->name, why);
}

/* ---- the caller's side: no memory, no wait, no file */

static struct record *next_record(struct schedule_log *log) {
    if (atomic_load(&log->ended)) return NULL;
    unsigned long put = atomic_load(&log->put);
    if (put - atomic_load(&log->taken) < RING) return &log->ring[put % RING];
    end_log(log, "more came than could be written");
    return NULL;
}

void schedule_log_admit(struct schedule_log *log, uint32_t number, const char *name, uint32_t priority, uint64_t mask) {
    struct record *r = log ? next_record(log) : NULL;
    if (!r) return;
    r->what = ADMITTED;
    r->noted.number = number;
    r->noted.mask = mask;
    r->priority = priority;
    snprintf(r->name, sizeof r->name, "%s", name);
    atomic_fetch_add(&log->put, 1);
}

void schedule_log_retire(struct schedule_log *log, uint32_t number) {
    struct record *r = log ? next_record(log) : NULL;
    if (!r) return;
    r->what = RETIRED;
    r->noted.number = number;
    atomic_fetch_add(&log->put, 1);
}

void schedule_log_note(struct schedule_log *log, apa *a, uint32_t kind, uint32_t number, uint64_t mask, uint32_t answer) {
    struct record *r = log ? next_record(log) : NULL;
    if (!r) return;
    r->what = NOTED;
    r->noted = note_of(a, kind, number, mask, answer);
    atomic_fetch_add(&log->put, 1);
}

/* ---- the thread's side */

static void begin_text(struct schedule_log *log) {
    mirror_begin_text(&log->mirror);
    log->begun = log->mirror;
    log->count = 0;
    log->entries = open_memstream(&log->text, &log->length);
    if (!log->entries) end_log(log, strerror(errno));
}

static bool write_text(struct schedule_log *log, FILE *out) {
    mirror_write_head(&log->begun, out, log->count + mirror_entries(&log->begun));
    fwrite(log->text, 1, log->length, out);
    mirror_write_contexts(&log->mirror, out);
    bool written = !ferror(out);
    return fclose(out) == 0 && written;
}

/* The text so far goes into its file, if there is anything in it, and its lines are let go. */
static void end_text(struct schedule_log *log) {
    char path[4096];
    if (!log->entries) return;
    fclose(log->entries);
    log->entries = NULL;
    if (log->count > 0 && !atomic_load(&log->ended)) {
        int length = snprintf(path, sizeof path, "%s.%lu", log->name, log->texts);
        FILE *out = length < (int)sizeof path ? fopen(path, "we") : NULL;
        if (!out || !write_text(log, out)) end_log(log, strerror(errno));
        else {
            log->texts++;
            log->events += log->count;
        }
    }
    free(log->text);
    log->text = NULL;
}

static void change_task(struct schedule_log *log, const struct record *r) {
    uint32_t t = r->noted.number;
    end_text(log);
    log->mirror.task[t].in_use = r->what == ADMITTED;
    if (r->what == ADMITTED) {
        struct mirrored *of = &log->mirror.task[t];
        memcpy(of->name, r->name, sizeof of->name);
        of->priority = r->priority;
        of->mask = r->noted.mask;
        of->ready = false;
        of->of = APA_NONE;
        if (t >= log->mirror.tasks) log->mirror.tasks = t + 1;
    }
}

static void take_record(struct schedule_log *log, const struct record *r) {
    if (r->what != NOTED) {
        change_task(log, r);
        return;
    }
    if (log->entries && log->count + mirror_entries(&log->begun) == MOST_ENTRIES) end_text(log);
    if (!log->entries) begin_text(log);
    if (!log->entries) return;
    mirror_write_entry(&log->mirror, log->entries, &r->noted);
    log->count++;
}

static void *write_all(void *given) {
    struct schedule_log *log = given;
    struct sched_param none = {0};
    pthread_setschedparam(pthread_self(), SCHED_OTHER, &none);
    for (;;) {
        bool over = atomic_load(&log->over);
        unsigned long taken = atomic_load(&log->taken);
        while (taken != atomic_load(&log->put)) {
            if (!atomic_load(&log->ended)) take_record(log, &log->ring[taken % RING]);
            atomic_store(&log->taken, ++taken);
        }
        if (over) break;
        nanosleep(&(struct timespec){0, 20000000}, NULL);
    }
    end_text(log);
    return NULL;
}

struct schedule_log *schedule_log_open(const char *name, uint32_t processors) {
    struct schedule_log *log = calloc(1, sizeof *log);
    char path[4096];
    if (!log) return NULL;
    log->name = name;
    mirror_begin(&log->mirror, processors);
    snprintf(path, sizeof path, "%s.0", name);
    FILE *first = fopen(path, "we");
    if (first) fclose(first);
    int error = first ? pthread_create(&log->thread, NULL, write_all, log) : errno;
    if (error == 0) return log;
    free(log);
    errno = error;
    return NULL;
}

void schedule_log_close(struct schedule_log *log, unsigned long *texts, unsigned long *events) {
    atomic_store(&log->over, true);
    pthread_join(log->thread, NULL);
    *texts = log->texts;
    *events = log->events;
    free(log);
}
