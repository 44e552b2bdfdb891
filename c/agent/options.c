/* The words of the command line. */
#include "agent.h"

#include <stdio.h>
#include <stdlib.h>
#include <string.h>

static const char usage[] =
    "apa-agent [OPTIONS] TASKS      strong APA scheduling for the SCHED_FIFO threads that TASKS lists, as `apa tasks` writes them\n"
    "  --watch          moves nothing, and counts what it would move\n"
    "  --cpu N          the agent stays on processor N; else it keeps off those to which a listed thread is pinned, if it can\n"
    "  --priority N     its priority of SCHED_FIFO, 98; each thread of TASKS has a lower one\n"
    "  --log FILE       what it decides, as schedule texts FILE.0, FILE.1 .. for `apa check`\n"
    "  --seconds S      ends after so long; else at SIGTERM or ^C\n"
    "  --source bpf|perf  where events come from; perf needs no BTF, and can miss events of idle processors\n"
    "  --ring BYTES     room for events in the kernel, 262144; a power of two from 4096 on\n"
    "  --state FILE     where the user's masks are kept, /run/apa-agent.state\n"
    "  --lock FILE      one agent a machine, /run/apa-agent.lock\n"
    "  --restore        puts masks back that an agent left narrow that was killed, and ends\n"
    "SIGHUP: TASKS is read anew. It needs CAP_SYS_NICE, CAP_PERFMON, CAP_BPF and CAP_IPC_LOCK, so root has it.\n";

static bool read_number(const char *word, const char *text, long least, long most, long *number) {
    char *end;
    *number = strtol(text, &end, 10);
    if (end != text && *end == 0 && *number >= least && *number <= most) return true;
    say("%s wants a number from %ld to %ld, not `%s`", word, least, most, text);
    return false;
}

/* An option with a value; what it is not is said. */
static bool read_value(const char *word, const char *value) {
    struct options *o = &agent.options;
    long number = 0;
    if (!strcmp(word, "--log")) o->log = value;
    else if (!strcmp(word, "--state")) o->state = value;
    else if (!strcmp(word, "--lock")) o->lock = value;
    else if (!strcmp(word, "--cpu")) {
        if (!read_number(word, value, 0, MOST_PROCESSORS - 1, &number)) return false;
        o->processor = (int)number;
    } else if (!strcmp(word, "--priority")) {
        if (!read_number(word, value, 0, 99, &number)) return false;
        o->priority = (int)number;
    } else if (!strcmp(word, "--seconds")) {
        if (!read_number(word, value, 0, 1000000000, &number)) return false;
        o->seconds = (unsigned)number;
    } else if (!strcmp(word, "--ring")) {
        if (!read_number(word, value, 4096, 1 << 28, &number)) return false;
        o->ring = (unsigned)number;
    } else if (!strcmp(word, "--source")) {
        o->perf = !strcmp(value, "perf");
        if (!o->perf && strcmp(value, "bpf")) {
            say("--source wants bpf or perf, not `%s`", value);
            return false;
        }
    } else {
        say("there is no option `%s`; apa-agent --help lists them", word);
        return false;
    }
    return true;
}

bool read_options(int count, char **words) {
    struct options *o = &agent.options;
    *o = (struct options){.processor = -1, .priority = 98, .state = "/run/apa-agent.state", .lock = "/run/apa-agent.lock",
                         .ring = 1 << 18};
    for (int i = 1; i < count; i++) {
        const char *word = words[i];
        if (!strcmp(word, "--help")) {
            fputs(usage, stdout);
            exit(0);
        }
        if (!strcmp(word, "--watch")) o->watch = true;
        else if (!strcmp(word, "--restore")) o->restore = true;
        else if (word[0] != '-' && !o->list) o->list = word;
        else if (word[0] == '-' && i + 1 < count) {
            if (!read_value(word, words[++i])) return false;
        } else {
            say("`%s` is one word too many, or an option without its value; apa-agent --help lists them", word);
            return false;
        }
    }
    if (!o->list && !o->restore) say("which TASKS? `apa tasks > app.tasks` lists the real-time threads of this machine");
    return o->list || o->restore;
}
