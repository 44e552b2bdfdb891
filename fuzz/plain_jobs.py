"""Texts of jobs, read and run plainly from docs/FORMATS.md, for the second opinion on `jobs`, `weakjobs` and `runjobs`.

A job is a triple of release, cost and deadline, which is None where the text states none. The jobs are run from one moment at which
something happens to the next, by the plain scheduler or by the weak one, which is written here.
"""

import re

from plain_scheduler import State, step
from plain_texts import Fault, Text, listed, number, replayed
from texts import MOST_BYTES

MOST_JOBS = 4000
# The longest horizon of each version, and the greatest offset, period, cost and deadline.
HORIZONS = {1: 1000000, 2: 10000000}
PRIORITIES = 0, 4294967295
# The most units of a tick.
MOST_UNITS = 1000000


class JobText(Text):
    """What a text of jobs says: the tasks, the horizon, and of each task its jobs."""

    def __init__(self):
        super().__init__()
        self.horizon, self.jobs = None, []

    def count(self):
        return sum(map(len, self.jobs))

    def due(self, t, k):
        """The moment at which job k of a task is due, or None."""
        release, _cost, deadline = self.jobs[t][k]
        if deadline is not None:
            return release + deadline
        return self.jobs[t][k + 1][0] if k + 1 < len(self.jobs[t]) else None


# The text.

def read_jobs(data):
    """What a text of jobs says; a Fault where it is none."""
    lines = data.split(b'\n')
    if not lines[-1]:
        lines.pop()
    text, is_ended = JobText(), False
    for place, line in enumerate(lines, 1):
        if re.search(rb'[^\t -~]', line):
            raise Fault(place, 1)
        if len(line) > 4096:
            raise Fault(place, 2)
        fields = [field for field in re.split(b'[ \t]+', line) if field]
        if not fields or fields[0].startswith(b'#'):
            continue
        kind = 11 if is_ended else head_kind(text, fields) if text.horizon is None else body_kind(text, fields)
        if kind:
            raise Fault(place, kind)
        is_ended = fields == [b'end']
    if not is_ended:
        raise Fault(len(lines) + 1, 12)
    return text


def head_kind(text, fields):
    """Takes the header, the processors or the horizon, or gives the kind of the fault."""
    def said(word, least, most):
        return number(fields[1], least, most) if len(fields) == 2 and fields[0] == word else None

    if text.version is None:
        text.version = said(b'jobs', 1, 2)
        return None if text.version else 3
    if text.processors is None:
        text.processors = said(b'processors', 1, 64)
        return None if text.processors else 4
    text.horizon = said(b'horizon', 1, HORIZONS[text.version])
    return None if text.horizon else 14


def body_kind(text, fields):
    """Takes a task, a job or the end, or gives the kind of the fault."""
    if text.version == 1:
        return None if fields == [b'end'] else periodic_kind(text, fields)
    if fields[0] == b'task' and not text.count():
        return task_kind(text, fields)
    return None if fields == [b'end'] else job_kind(text, fields)


def periodic_kind(text, fields):
    """Takes a periodic task, whose jobs are due a period after their release."""
    if len(fields) != 7 or fields[0] != b'task' or number(fields[2], *PRIORITIES) is None:
        return 5
    offset, period, cost = (number(field, least, 1000000) for field, least in zip(fields[4:], (0, 1, 1)))
    if None in (offset, period, cost):
        return 5
    jobs = [(release, cost, period) for release in range(offset, text.horizon, period)]
    kind = named_kind(text, fields, jobs)
    return kind or (15 if text.count() > MOST_JOBS else None)


def task_kind(text, fields):
    return 5 if len(fields) != 4 or number(fields[2], *PRIORITIES) is None else named_kind(text, fields, [])


def named_kind(text, fields, jobs):
    """Takes name, priority and mask of a task with its jobs so far."""
    mask = listed(fields[3])
    if mask is None:
        return 6
    task = fields[1], number(fields[2], *PRIORITIES), mask
    if text.is_refused(*task):
        return 7
    text.add(*task)
    text.jobs.append(jobs)
    return None


def job_kind(text, fields):
    bounds = (0, text.horizon - 1), (1, 10000000), (1, 10000000)
    numbers = [number(field, *bound) for field, bound in zip(fields[2:], bounds)]
    if fields[0] != b'job' or len(fields) not in (4, 5) or None in numbers:
        return 8
    if fields[1] not in text.names:
        return 9
    jobs = text.jobs[text.names.index(fields[1])]
    release, cost, *deadline = numbers
    if jobs and release < jobs[-1][0]:
        return 19
    if text.count() == MOST_JOBS:
        return 15
    jobs.append((release, cost, deadline[0] if deadline else None))
    return None


# The weak scheduler: each function does what the one of this name does in plain_scheduler, by the task's own mask alone.

def weak_step(state, event):
    word, t = event
    if word == 'depart':
        p = state.leave(t)
        w = None if p is None else state.most_urgent_into({p})
        if w is not None:
            state.on[p] = w
        return
    state.ready.add(t)
    while t is not None:
        t = weak_turn(state, t)


def weak_turn(state, t):
    """Places a waiting task where it can be; whom it displaces, or None."""
    mask = state.mask(t)
    idle = mask & state.idle()
    if idle:
        state.on[min(idle)] = t
        return None
    p = max(mask, key=lambda p: state.priorities[state.on[p]], default=None)
    if p is None or not state.is_less_urgent(state.on[p], t):
        return None
    t, state.on[p] = state.on[p], t
    return t


# The jobs as they are run.

class Row:
    """The jobs of a task so far."""

    def __init__(self, jobs):
        self.jobs, self.released, self.units, self.goal, self.finishes = jobs, 0, 0, 0, []

    def left(self):
        """The units that the first job that is not finished still wants."""
        return self.goal + self.jobs[len(self.finishes)][1] - self.units

    def is_ready(self):
        return len(self.finishes) < self.released

    def next_release(self):
        return self.jobs[self.released][0] if self.released < len(self.jobs) else None


def run_jobs(text, step, wait=lambda units: None):
    """The finishes of the finished jobs of each task, in order, and the number of moves, where this step schedules; `wait` is told of the
    units from each moment to the next."""
    state = State(text.processors, [(priority, frozenset(mask)) for priority, mask in text.tasks])
    rows, places, moves, moment = [Row(jobs) for jobs in text.jobs], {}, 0, 0
    while True:
        for t, row in enumerate(rows):
            if row.is_ready() and not row.left():
                row.goal = row.units
                row.finishes.append(moment)
                if not row.is_ready():
                    step(state, ('depart', t))
        if moment == text.horizon:
            return [row.finishes for row in rows], moves
        for t, row in enumerate(rows):
            was_ready = row.is_ready()
            while row.next_release() == moment:
                row.released += 1
            if row.is_ready() and not was_ready:
                step(state, ('arrive', t))
        for p, t in state.on.items():
            moves += places.get(t, p) != p
            places[t] = p
        nexts = [row.next_release() for row in rows if row.next_release() is not None]
        later = min([text.horizon, *nexts, *(moment + rows[t].left() for t in state.on.values())])
        for t in state.on.values():
            rows[t].units += later - moment
        wait(later - moment)
        moment = later


# What is written.

def finish_of(finishes, k):
    return finishes[k] if k < len(finishes) else None


def shown(value):
    return '-' if value is None else str(value)


def is_late(text, t, k, finishes):
    due, finish = text.due(t, k), finish_of(finishes, k)
    return due is not None and due <= text.horizon and (finish is None or finish > due)


def jobs_lines(text):
    found, _moves = run_jobs(text, step)
    lines = [f'jobs {text.version}', f'horizon {text.horizon}']
    for name, jobs, finishes in zip(text.names, text.jobs, found):
        for k, (release, _cost, _deadline) in enumerate(jobs):
            finish = finish_of(finishes, k)
            lines.append(f'{name.decode()} {k} {release} {shown(finish)} {shown(None if finish is None else finish - release)}')
    return [*lines, 'end']


def summary(text, t, finishes):
    """The worst and the mean response of the finished jobs of a task, and how many of its jobs are late."""
    responses = [finish - release for finish, (release, _cost, _deadline) in zip(finishes, text.jobs[t])]
    late = sum(is_late(text, t, k, finishes) for k in range(len(text.jobs[t])))
    return f'{max(responses)} {sum(responses) // len(responses)} {late}' if responses else f'- - {late}'


def weakjobs_lines(text):
    (weak, weak_moves), (strong, strong_moves) = run_jobs(text, weak_step), run_jobs(text, step)
    lines = [f'weakjobs {text.version}', f'horizon {text.horizon}', f'moves weak {weak_moves} strong {strong_moves}']
    for t, name in enumerate(text.names):
        for k, (release, _cost, _deadline) in enumerate(text.jobs[t]):
            marks = is_late(text, t, k, weak[t]), is_late(text, t, k, strong[t])
            mark = {(False, False): '-', (True, False): 'weak', (False, True): 'strong', (True, True): 'both'}[marks]
            lines.append(f'job {name.decode()} {k} {release} {shown(finish_of(weak[t], k))} {shown(finish_of(strong[t], k))} {mark}')
    for t, name in enumerate(text.names):
        lines.append(f'task {name.decode()} jobs {len(text.jobs[t])} weak {summary(text, t, weak[t])} strong {summary(text, t, strong[t])}')
    return [*lines, 'end']


def runjobs_lines(text):
    """The schedule of the strong run, all of it on stream 0."""
    events = []

    def noted(state, event):
        events.append(event)
        step(state, event)

    def waited(units):
        events.extend(('tick', min(MOST_UNITS, units - gone)) for gone in range(0, units, MOST_UNITS))

    run_jobs(text, noted, waited)
    text.version, text.entries = 1, [(0, event, None) for event in events]
    return replayed(text).decode().splitlines()


def answer(data, lines_of):
    """The status, the output, and the line and kind of a refusal; without these two where the text is too long."""
    if len(data) > MOST_BYTES:
        return 3, b'', None
    try:
        text = read_jobs(data)
    except Fault as fault:
        return 3, b'', (fault.line, fault.kind)
    return 0, '\n'.join([*lines_of(text), '']).encode(), None


def answer_to_jobs(data):
    return answer(data, jobs_lines)


def answer_to_weakjobs(data):
    return answer(data, weakjobs_lines)


def answer_to_runjobs(data):
    return answer(data, runjobs_lines)
