/* The words of the command line. */
#include "agent.h"

#include <stdio.h>
#include <stdlib.h>
#include <string.h>

static const char usage[] =
    "apa-scx [OPTIONS]      a sched_ext scheduler for the threads of SCHED_EXT: `chrt --ext 0 COMMAND`, and nice\n"
    "  --slots N         how many threads at most, 1 to 1024; 64. Who finds none goes back to the fair class\n"
    "  --log FILE        what it decides, as schedule texts FILE.0, FILE.1 .. for `apa check`\n"
    "  --cpu N           the agent stays on processor N; else it floats\n"
    "  --priority N      its priority of SCHED_FIFO, 98; 0: it stays in the class in which it was started\n"
    "  --held MS         a processor that a higher class holds for so long counts as off line until it is free; 20\n"
    "  --timeout MS      the kernel ends it where a ready thread does not run for so long; 30000\n"
    "  --seconds S       ends after so long; else at SIGTERM or ^C\n";

static const struct number {
    const char *word;
    long *value, least, most;
} numbers[] = {
    {"--slots", &agent.options.slots, 1, MOST_SLOTS},
    {"--cpu", &agent.options.processor, 0, MOST_PROCESSORS - 1},
    {"--priority", &agent.options.priority, 0, 99},
    {"--held", &agent.options.held, 1, 10000},
    {"--timeout", &agent.options.timeout, 1, 30000},
    {"--seconds", &agent.options.seconds, 1, 1000000000},
};

static bool read_number(const struct number *of, const char *text) {
    char *end;
    long value = strtol(text, &end, 10);
    if (end != text && *end == 0 && value >= of->least && value <= of->most) {
        *of->value = value;
        return true;
    }
    say("%s wants a number from %ld to %ld, not `%s`", of->word, of->least, of->most, text);
    return false;
}

static bool read_value(const char *word, const char *text) {
    if (!strcmp(word, "--log")) {
        agent.options.log = text;
        return true;
    }
    for (size_t i = 0; i < sizeof numbers / sizeof *numbers; i++)
        if (!strcmp(word, numbers[i].word)) return read_number(&numbers[i], text);
    say("there is no option %s; apa-scx --help lists them", word);
    return false;
}

bool read_options(int count, char **words) {
    agent.options = (struct options){.slots = 64, .processor = -1, .priority = 98, .held = 20, .timeout = 30000};
    for (int i = 1; i < count; i += 2) {
        if (!strcmp(words[i], "--help")) {
            fputs(usage, stdout);
            exit(0);
        }
        if (i + 1 == count) {
            say("%s is no option, or one without its value; apa-scx --help lists them", words[i]);
            return false;
        }
        if (!read_value(words[i], words[i + 1])) return false;
    }
    return true;
}
