"""Runs of a program without a start of its own for each: it is started once, stops before its `main`, and each run is a fork of it.

A library that `cc` makes of the text below stands before the C library's `__libc_start_main`. So a run is the program's own `main`
with words of its own, in a process of its own, without the time that the system and the loader take to start one.
"""

import os
import select
import signal
import struct
import subprocess
import tempfile

CONTROL, ANSWERS = 198, 199
FORKER = r'''
#define _GNU_SOURCE
#include <dlfcn.h>
#include <stdint.h>
#include <stdlib.h>
#include <string.h>
#include <sys/wait.h>
#include <unistd.h>

typedef int (*start_of)(int (*)(int, char **, char **), int, char **, void (*)(void), void (*)(void), void (*)(void), void *);

static void take(void *into, size_t count) {
    for (char *at = into; count;) {
        ssize_t taken = read(198, at, count);
        if (taken <= 0) _exit(0);
        at += taken;
        count -= (size_t)taken;
    }
}

int __libc_start_main(int (*main)(int, char **, char **), int argc, char **argv, void (*init)(void), void (*fini)(void),
                      void (*rtld_fini)(void), void *stack_end) {
    start_of start = (start_of)dlsym(RTLD_NEXT, "__libc_start_main");
    (void)argc;
    (void)argv;
    for (;;) {
        uint32_t counts[2];
        take(counts, sizeof counts);
        char *bytes = malloc(counts[1]), **words = malloc((counts[0] + 1) * sizeof *words);
        if (!bytes || !words) _exit(99);
        take(bytes, counts[1]);
        pid_t child = fork();
        if (child == 0) {
            close(198);
            close(199);
            char *at = bytes;
            for (uint32_t i = 0; i < counts[0]; i++, at += strlen(at) + 1) words[i] = at;
            words[counts[0]] = NULL;
            return start(main, (int)counts[0], words, init, fini, rtld_fini, stack_end);
        }
        free(bytes);
        free(words);
        int status = 0;
        if (child < 0 || waitpid(child, &status, 0) != child || write(199, &status, sizeof status) != sizeof status) _exit(98);
    }
}
'''


class Forks:
    """A program that was started, and forks for each run. Its standard streams are these files, in each run."""

    def __init__(self, path, files):
        self.path, self.files, self.child = path, files, None
        self.folder = tempfile.TemporaryDirectory(prefix='apa-forks-')
        self.library = self.folder.name + '/forker.so'
        with open(self.folder.name + '/forker.c', 'w') as text:
            text.write(FORKER)
        subprocess.run(['cc', '-O1', '-shared', '-fPIC', '-o', self.library, self.folder.name + '/forker.c', '-ldl'], check=True)

    def start(self):
        control, self.control = os.pipe()
        self.answers, answers = os.pipe()
        actions = [(os.POSIX_SPAWN_DUP2, file, number) for number, file in enumerate(self.files)]
        actions += [(os.POSIX_SPAWN_DUP2, control, CONTROL), (os.POSIX_SPAWN_DUP2, answers, ANSWERS)]
        # A group of its own, so that a run without an end can be ended with it.
        self.child = os.posix_spawn(self.path, [self.path], {**os.environ, 'LD_PRELOAD': self.library}, file_actions=actions, setpgroup=0)
        os.close(control)
        os.close(answers)

    def run(self, words, seconds):
        """The status that a wait for the run gives, or None where it did not end within its time, or did not begin."""
        if self.child is None:
            self.start()
        block = b''.join(os.fsencode(word) + b'\0' for word in [self.path, *words])
        request = struct.pack('II', len(words) + 1, len(block)) + block
        while request:
            request = request[os.write(self.control, request):]
        ready, _, _ = select.select([self.answers], [], [], seconds)
        answer = os.read(self.answers, 4) if ready else b''
        if len(answer) == 4:
            return struct.unpack('i', answer)[0]
        os.killpg(self.child, signal.SIGKILL)
        os.waitpid(self.child, 0)
        os.close(self.control)
        os.close(self.answers)
        self.child = None
        return None
