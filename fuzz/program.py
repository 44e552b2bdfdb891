"""Runs of the program, for the scripts of this folder."""

import os
import re
import shutil
import signal
import sys

from forks import Forks

# The program of the repository, which `./apa prove` builds.
DEFAULT = os.path.normpath(os.path.join(os.path.dirname(os.path.abspath(__file__)),
                                        '../crates/schedule_program/out/schedule_program'))

STATUS_LINES = {
    0: re.compile(rb''),
    1: re.compile(rb'invalid: line (\d+), defect ([1-5])\n'),
    2: re.compile(rb'usage: run, check, make n p t e, large n p t e, weak, nested, jobs, watch k, import, draw \[A B\], steps \[A B\], chrome \[AT\], lost, weakjobs, importjobs, runjobs, show \[A B\]\n'),
    3: re.compile(rb'input: line (\d+), kind (\d+)\n|input: more than (?:16777216|268435456) bytes\n'
                  rb'|input: version 1 wanted\n|input: tasks \d+ and \d+ have crossing masks\n'),
    4: re.compile(rb'read fault\n'),
    5: re.compile(rb'write fault\n'),
    6: re.compile(rb'out of memory\n'),
}

INPUT_KINDS = range(1, 14)
SCHEDULE_KINDS = range(21, 26)
TRACE_KINDS = (*range(1, 9), 10, 12, *range(16, 24))
JOB_KINDS = (*range(1, 10), 11, 12, 14, 15, 19)
KINDS = {
    'run': INPUT_KINDS, 'watch': INPUT_KINDS, 'weak': INPUT_KINDS, 'nested': INPUT_KINDS,
    'check': SCHEDULE_KINDS, 'draw': SCHEDULE_KINDS, 'steps': SCHEDULE_KINDS, 'chrome': SCHEDULE_KINDS,
    'import': TRACE_KINDS, 'lost': TRACE_KINDS, 'show': TRACE_KINDS, 'importjobs': (*TRACE_KINDS, 14, 15), 'jobs': JOB_KINDS, 'weakjobs': JOB_KINDS,
    'runjobs': JOB_KINDS,
}
# The words that refuse a schedule with a defect, and the one that refuses by words of its own.
JUDGES = ('check', 'draw', 'steps', 'chrome')
NESTED_REFUSALS = (b'input: version', b'input: tasks')


class Hang(Exception):
    """The program did not end within its time."""


class Wrong(Exception):
    """An answer that may not be."""


class Answer:
    """What a run left: its exit status, its output, its line on standard error, and how many bytes it read."""

    def __init__(self, status, output, line, taken):
        self.status = status
        self.output = output
        self.line = line
        self.taken = taken
        self.place = None
        self.number = None

    def name(self):
        if self.status == 0:
            return 'done'
        if self.status == 1:
            return f'invalid, defect {self.number}'
        if self.status == 2:
            return 'usage'
        if self.status == 3:
            return f'input, kind {self.number}' if self.number else self.refusal_by_words()
        return self.line.decode().strip()

    def refusal_by_words(self):
        found = re.match(rb'input: (version|tasks)', self.line)
        return f'input, {found[1].decode()}' if found else 'input, too long'

    def refusal(self):
        """The status, line and number, which two refusals share where they are one."""
        return self.status, self.place, self.number


class Program:
    """A program, and how often it was started. One run goes on at a time."""

    def __init__(self, path, seconds):
        if not os.access(path, os.X_OK):
            sys.exit(f'{path} is not a program: build it by ./apa prove, or name another by --program')
        self.path = path
        self.seconds = seconds
        self.starts = 0
        self.files = [os.memfd_create(name) for name in ('stdin', 'stdout', 'stderr')]
        # A script is started anew for each run, and so is a program where there is no cc.
        with open(path, 'rb') as file:
            is_binary = file.read(4) == b'\x7fELF'
        self.forks = Forks(path, self.files) if is_binary and shutil.which('cc') else None
        # A directory cannot be read, and a full device cannot be written.
        self.unread, self.full = os.open('/', os.O_RDONLY), os.open('/dev/full', os.O_WRONLY)

    def run(self, words, text, memory=None, fault=None):
        """Runs it on these words and bytes, and gives the answer, or raises Hang or Wrong.

        With a number of KiB as memory, its address space is limited to that. With the fault `read` or `write` its standard
        input, or its standard output, fails at each call."""
        source, sink, errors = self.files
        ends = [self.unread if fault == 'read' else source, self.full if fault == 'write' else sink, errors]
        for file in self.files:
            os.ftruncate(file, 0)
            os.lseek(file, 0, os.SEEK_SET)
        os.pwrite(source, text, 0)
        self.starts += 1
        if self.forks and not memory and not fault:
            status = self.forks.run(words, self.seconds)
            if status is None:
                raise Hang(f'no end after {self.seconds} s')
            return self.left(words, os.waitstatus_to_exitcode(status))
        command = [self.path, *words]
        if memory:
            command = ['/bin/sh', '-c', f'ulimit -v {memory} && exec "$0" "$@"', *command]
        actions = [(os.POSIX_SPAWN_DUP2, file, number) for number, file in enumerate(ends)]
        return self.left(words, self.wait(os.posix_spawn(command[0], command, os.environ, file_actions=actions)))

    def left(self, words, status):
        """The answer that the files hold after a run."""
        source, sink, errors = self.files
        taken = os.lseek(source, 0, os.SEEK_CUR)
        return judged(words, Answer(status, whole(sink), whole(errors), taken))

    def wait(self, child):
        def stop(_signal, _frame):
            raise Hang(f'no end after {self.seconds} s')

        signal.signal(signal.SIGALRM, stop)
        signal.setitimer(signal.ITIMER_REAL, self.seconds)
        try:
            _, status = os.waitpid(child, 0)
        except Hang:
            os.kill(child, signal.SIGKILL)
            os.waitpid(child, 0)
            raise
        finally:
            signal.setitimer(signal.ITIMER_REAL, 0)
        return os.waitstatus_to_exitcode(status)


def whole(file):
    return os.pread(file, os.fstat(file).st_size, 0)


def judged(words, answer):
    """The answer, with the line and the number of a refusal; Wrong where its status, line and output do not fit."""
    form = STATUS_LINES.get(answer.status)
    if form is None:
        raise Wrong(f'exit status {answer.status}, with {answer.line[-2000:]!r}')
    said = form.fullmatch(answer.line)
    if not said:
        raise Wrong(f'exit status {answer.status} with the line {answer.line[:200]!r}')
    if answer.status and answer.output:
        raise Wrong(f'{answer.line!r}, and {len(answer.output)} bytes were written')
    if answer.line.startswith(NESTED_REFUSALS) and words != ['nested']:
        raise Wrong(f'{words[0]} answered {answer.line!r}')
    if answer.status in (1, 3) and said[1]:
        answer.place, answer.number = int(said[1]), int(said[2])
        if answer.status == 3 and answer.number not in KINDS.get(words[0], ()) or answer.status == 1 and words[0] not in JUDGES:
            raise Wrong(f'{words[0]} answered {answer.line!r}')
    return answer
