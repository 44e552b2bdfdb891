"""Traces of the Linux scheduler, read plainly from docs/FORMATS.md, for the second opinion on `import`, `lost` and `importjobs`.

A head is read by the line and refused with its kind; of the trace each line is asked what it mentions, and who is ready, who is best
and who runs is said for each stretch between two lines. Stamps are numbers of nanoseconds, moments are microseconds.
"""

import re

from plain_jobs import HORIZONS, MOST_JOBS
from plain_scheduler import State, chains_from, least, step
from plain_texts import Fault, Text, listed, number
from texts import MOST_EVENTS, canonical_list

MOST_TRACE_BYTES = 268435456
MOST_UNLISTED = 1024
STAMP = re.compile(rb'([0-9]+)\.([0-9]{1,9})')
WORDS = {b'sched_switch:': 'switch', b'sched_wakeup:': 'wakeup', b'sched_wakeup_new:': 'wakeup'}
OVERWRITTEN = [b'#', b'entries-in-buffer/entries-written:']
PROCESSOR = re.compile(rb'\[([0-9]+)\]')


def value(digits):
    """Of digits of any number. (Python reads at most 4,300.)"""
    digits = digits.lstrip(b'0') or b'0'
    return int(digits) if len(digits) < 4000 else 10 ** 4000


def stamp(field):
    """The nanoseconds of a stamp, or None."""
    found = STAMP.fullmatch(field)
    return value(found[1]) * 10 ** 9 + int(found[2].ljust(9, b'0')) if found else None


def keyed(field, key):
    """The number of a field `key=digits`, or None. A priority may have a minus, which is passed over here."""
    found = re.fullmatch(key + (rb'=-?' if key.endswith(b'prio') else rb'=') + rb'([0-9]+)', field)
    return value(found[1]) if found else None


def is_real_time(field):
    """Whether a field `key=priority` says one below 100, or one with a minus."""
    digits = field.split(b'=')[1]
    return digits.startswith(b'-') or value(digits) < 100


def fields_of(line):
    return [field for field in re.split(b'[ \t]+', line) if field]


class Trace(Text):
    """The head of a trace, and what its lines said so far."""

    def __init__(self):
        super().__init__()
        self.ids, self.window, self.is_head = [], None, True
        # Which words say a switch or a wakeup; and where lines were overwritten, when those of all processors are there.
        self.words, self.whole = WORDS, None
        # When the last line of the scheduler was, and the used lines: time, processor, ids, and the mentions of tasks.
        self.last, self.used = None, []
        self.mentioned = {}
        # The ids of the threads that are told apart, in the order in which the used lines name them.
        self.unlisted = []

    def task_of(self, thread):
        return self.ids.index(thread) if thread in self.ids else None

    def tell_apart(self, thread):
        is_one = 0 < thread <= 4194304 and thread not in self.ids and thread not in self.unlisted
        if is_one and len(self.unlisted) < MOST_UNLISTED:
            self.unlisted.append(thread)


def lines_of(data):
    lines = data.split(b'\n')
    return lines if lines[-1] else lines[:-1]


def read_trace(data, is_lost):
    """What the text of a trace says; a Fault where it is none. With `is_lost` as the word `lost` reads it."""
    lines = lines_of(data)
    trace, events = Trace(), Events(is_lost)
    look_over(trace, [fields_of(line) for line in lines])
    for place, line in enumerate(lines, 1):
        kind = head_kind(trace, line) if trace.is_head else trace_kind(trace, events, fields_of(line))
        if kind:
            raise Fault(place, kind)
    if trace.is_head:
        raise Fault(len(lines) + 1, 12)
    if not trace.mentioned:
        raise Fault(len(lines) + 1, 23)
    return trace, events


# The whole text.

def look_over(trace, lines):
    """What is said of all lines: whether sched_waking counts, and when each processor that is named has had a line."""
    if not any(field.removeprefix(b'sched:') == b'sched_wakeup:' for fields in lines for field in fields):
        trace.words = {**WORDS, b'sched_waking:': 'wakeup'}
    events = [event_of(trace.words, fields) for fields in lines]
    first = next((place for place, event in enumerate(events) if event), len(lines))
    if any(map(is_overwritten, lines[:first + 1])):
        named = set()
        for event in events:
            processor = processor_of(event[2]) if event else None
            if processor is not None and processor not in named:
                named.add(processor)
                trace.whole = event[0]


def is_overwritten(fields):
    if len(fields) < 3 or fields[:2] != OVERWRITTEN:
        return False
    left, _slash, written = fields[2].partition(b'/')
    return left != written


# The head.

def head_kind(trace, line):
    if re.search(rb'[^\t -~]', line):
        return 1
    if len(line) > 4096:
        return 2
    fields = fields_of(line)
    if not fields or fields[0].startswith(b'#'):
        return None
    if trace.version is None:
        trace.version = number(fields[1], 1, 1) if len(fields) == 2 and fields[0] == b'trace' else None
        return None if trace.version else 3
    if trace.processors is None:
        trace.processors = number(fields[1], 1, 64) if len(fields) == 2 and fields[0] == b'processors' else None
        return None if trace.processors else 4
    if fields[0] == b'task':
        return listed_kind(trace, fields)
    if fields[0] == b'window':
        return window_kind(trace, fields)
    trace.is_head = fields != [b'events']
    return 8 if trace.is_head else None


def listed_kind(trace, fields):
    if len(fields) != 5 or number(fields[2], 0, 4194303) is None or number(fields[4], 1, 4194304) is None:
        return 5
    mask = listed(fields[3])
    if mask is None:
        return 6
    task = fields[1], 1024 * number(fields[2], 0, 4194303) + len(trace.names), mask
    if trace.is_refused(*task):
        return 7
    thread = number(fields[4], 1, 4194304)
    if thread in trace.ids:
        return 16
    trace.add(*task)
    trace.ids.append(thread)
    return None


def window_kind(trace, fields):
    ends = [stamp(field) for field in fields[1:]]
    if trace.window or len(ends) != 2 or None in ends or ends[0] > ends[1]:
        return 17
    trace.window = ends
    return None


# The lines of the trace.

def event_of(words, fields):
    """Of a line of the scheduler: its time, its word, the fields before the stamp and those behind the word; or None."""
    for at in range(len(fields) - 1):
        word = words.get(fields[at + 1].removeprefix(b'sched:'))
        time = stamp(fields[at][:-1]) if fields[at].endswith(b':') else None
        if word and time is not None:
            return time, word, fields[:at], fields[at + 2:]
    return None


def change_of(word, fields):
    """The threads that a switch or a wakeup names, with whether they are in and of real time; None where it has not its form."""
    if word == 'wakeup':
        ends = fields[1:]
        if len(ends) > 3 and ends[-2].startswith(b'success=') and keyed(ends[-2], b'success') is not None:
            ends = ends[:-2] + ends[-1:]
        found = [keyed(field, key) for field, key in zip(ends[-3:], (b'pid', b'prio', b'target_cpu'))]
        is_form = fields and fields[0].startswith(b'comm=') and len(found) == 3 and None not in found
        return [(found[0], True, False)] if is_form else None
    if not fields or not fields[0].startswith(b'prev_comm=') or len(fields) < 3:
        return None
    to, level = keyed(fields[-2], b'next_pid'), keyed(fields[-1], b'next_prio')
    for at in range(len(fields) - 3):
        leaves = keyed(fields[at], b'prev_pid')
        is_state = fields[at + 2].startswith(b'prev_state=')
        if leaves is not None and keyed(fields[at + 1], b'prev_prio') is not None and is_state and fields[at + 3] == b'==>':
            # The first such place counts, whatever its state is.
            state = re.match(rb'prev_state=([A-Za-z])', fields[at + 2])
            if to is None or level is None or not state:
                return None
            return [(leaves, state[1] == b'R', is_real_time(fields[at + 1])), (to, True, is_real_time(fields[-1]))]
    return None


def processor_of(fields):
    """The processor of the fields before a stamp, or None."""
    named = [found[1] for found in map(PROCESSOR.fullmatch, fields) if found]
    return value(named[-1]) if named and value(named[-1]) < 1 << 32 else None


def trace_kind(trace, events, fields):
    """Takes a line of the trace, or gives the kind of its fault."""
    if is_overwritten(fields) and not (trace.window and trace.whole is not None and trace.whole <= trace.window[0]):
        return 22
    if len(fields) > 1 and fields[0].startswith(b'CPU:') and fields[-1] in (b'EVENTS]', b'DROPPED]'):
        return 20
    if len(fields) > 2 and fields[-2:] == [b'events', b'lost]'] and re.fullmatch(rb'\[[0-9]+', fields[0]):
        return 20
    event = event_of(trace.words, fields)
    if event is None:
        return None
    time, word, before, behind = event
    change, processor = change_of(word, behind), processor_of(before)
    if change is None or events.is_lost and word == 'switch' and processor is None:
        return 18
    if trace.last is not None and time < trace.last:
        return 19
    trace.last = time
    if trace.window and not trace.window[0] <= time <= trace.window[1]:
        return None
    return used_kind(trace, events, time, processor if word == 'switch' else None, change)


def used_kind(trace, events, time, processor, change):
    mentions = [(trace.task_of(thread), is_in) for thread, is_in, _is_real_time in change]
    ready = dict(trace.mentioned)
    for task, is_in in mentions:
        # A switch has two mentions, and none of them makes a task ready.
        if task is not None and len(mentions) == 2 and ready.get(task) is False:
            return 21
        ready[task] = is_in
    for thread, _is_in, is_high in change:
        if is_high:
            trace.tell_apart(thread)
    changed = []
    for task, is_in in mentions:
        if task is not None:
            if bool(trace.mentioned.get(task)) != is_in:
                changed.append((task, is_in))
            trace.mentioned[task] = is_in
    # A wakeup of a thread that is no task says nothing of who runs.
    threads = [thread for thread, _is_in, _is_real_time in change]
    return events.take(time // 1000, processor, [task for task, _is_in in mentions], threads, changed)


class Events:
    """The used lines from the first change on, with their moments, the microsecond of the first one, and the events of the input."""

    def __init__(self, is_lost):
        self.is_lost = is_lost
        self.lines, self.first, self.count, self.clock = [], None, 0, None
        # The same lines by thread ids, for who is no task.
        self.switches = []

    def take(self, microsecond, processor, tasks, threads, changed):
        """Takes a used line, or gives the kind of its fault."""
        if self.first is None and changed:
            self.first = self.clock = microsecond
        if self.first is None:
            return None
        moment = microsecond - self.first
        if self.is_lost and moment >= 1 << 63:
            return 10
        self.lines.append((moment, processor, tasks, changed))
        self.switches.append((moment, processor, threads))
        if not self.is_lost:
            passed = -(-(microsecond - self.clock) // 1000000)
            if changed:
                self.count += passed + len(changed)
                self.clock, passed = microsecond, 0
            return 10 if self.count + passed > MOST_EVENTS else None
        return None

    def span(self):
        return self.lines[-1][0] if self.lines else 0


# `import`.

def ticks(units):
    return [b'0 tick 1000000'] * (units // 1000000) + ([b'0 tick %d' % (units % 1000000)] if units % 1000000 else [])


def task_lines(trace):
    return [b'task %s %d %s' % (name, priority, canonical_list(mask)) for name, (priority, mask) in zip(trace.names, trace.tasks)]


def answer_to_import(data):
    """The status, the output, and the line and kind of a refusal; without these two where the text is too long."""
    if len(data) > MOST_TRACE_BYTES:
        return 3, b'', None
    try:
        trace, events = read_trace(data, False)
    except Fault as fault:
        return 3, b'', (fault.line, fault.kind)
    lines = [b'apa 1', b'processors %d' % trace.processors, *task_lines(trace)]
    clock = 0
    for moment, _processor, _tasks, changed in events.lines:
        if changed:
            lines += ticks(moment - clock)
            clock = moment
        lines += [b'0 %s %s' % (b'arrive' if is_in else b'depart', trace.names[task]) for task, is_in in changed]
    return 0, b'\n'.join(lines + ticks(events.span() - clock) + [b'end', b'']), None


# `lost`.

def runs_after(lines, at):
    """By task the processors that it runs on between the line before `at` and that one."""
    found = {}
    tasks = {task for _moment, _processor, tasks, _changed in lines for task in tasks if task is not None}
    processors = {processor for _moment, processor, _tasks, _changed in lines if processor is not None}
    for task in tasks:
        for processor in processors:
            if is_running(lines, at, task, processor):
                found.setdefault(task, set()).add(processor)
    return found


def is_running(lines, at, task, processor):
    for _moment, of, tasks, changed in lines[at:]:
        if is_about(of, tasks, changed, task, processor):
            return of == processor and tasks[0] == task
    for _moment, of, tasks, changed in reversed(lines):
        if is_about(of, tasks, changed, task, processor):
            return of == processor and tasks[1] == task
    return False


def is_about(of, tasks, changed, task, processor):
    """Whether a line is a switch of the processor, or names the task; a wakeup does where it makes the task ready."""
    if of is not None:
        return of == processor or task in tasks
    return (task, True) in changed


def stretches(trace, events):
    """The stretches of the span without a line in them: their first moment, their length, and who is ready, best and running."""
    state = State(trace.processors, [(priority, frozenset(mask)) for priority, mask in trace.tasks])
    lines = events.lines
    for at, (moment, _processor, _tasks, changed) in enumerate(lines):
        for task, is_in in changed:
            step(state, ('arrive' if is_in else 'depart', task))
        end = lines[at + 1][0] if at + 1 < len(lines) else moment
        if end > moment:
            yield moment, end - moment, set(state.ready), set(state.on.values()), set(runs_after(lines, at + 1))


def losses_of(trace, events):
    """Of each task how many moments it was ready, ran and was lost, its longest stretch of lost moments, and the moments of long ones."""
    found = [[0, 0, 0, (0, None, None), 0] for _task in trace.names]
    current = [(0, None, None)] * len(found)
    for first, units, ready, best, running in stretches(trace, events):
        for task, numbers in enumerate(found):
            numbers[0] += units * (task in ready)
            numbers[1] += units * (task in ready and task in running)
            if task not in best or task in running:
                numbers[4] += long_moments(current[task])
                current[task] = (0, None, None)
                continue
            numbers[2] += units
            count, start, rivals = current[task]
            rivals = dict(rivals or {})
            for rival in running - best:
                rivals[rival] = rivals.get(rival, 0) + units
            current[task] = (count + units, first if start is None else start, rivals)
            if current[task][0] > numbers[3][0]:
                numbers[3] = current[task]
    for numbers, last in zip(found, current):
        numbers[4] += long_moments(last)
    return found


def long_moments(stretch):
    """The moments of a stretch of more than 50, or none."""
    return stretch[0] if stretch[0] > 50 else 0


def jumps_of(trace, events):
    """How many switches of a processor are not from the thread that its last switch before went to; those not told apart are one."""
    count, last = 0, {}
    for _moment, processor, threads in events.switches:
        if processor is not None:
            leaves, comes = [thread if thread in trace.ids + trace.unlisted else None for thread in threads]
            count += processor in last and last[processor] != leaves
            last[processor] = comes
    return count


def places_unlisted(events, at, thread):
    """The processors on which a thread that is no task runs between the line before `at` and that one: each switch of it says where, and
    a switch of that processor to or from others says that it is not there."""
    switches, found = [(processor, threads) for _moment, processor, threads in events.switches], []
    for of in sorted({processor for processor, _threads in switches if processor is not None}):
        about = [(here, threads) for here, threads in switches[at:] if here is not None and (here == of or thread in threads)]
        if about:
            if about[0][0] == of and about[0][1][0] == thread:
                found.append(of)
            continue
        about = [(here, threads) for here, threads in switches if here is not None and (here == of or thread in threads)]
        if about and about[-1][0] == of and about[-1][1][1] == thread:
            found.append(of)
    return found


def runs_unlisted(events, at, thread):
    return bool(places_unlisted(events, at, thread))


def beside_of(trace, events):
    """Of each thread that is told apart, at how many moments it ran while a task was lost."""
    found = dict.fromkeys(trace.unlisted, 0)
    places = {}
    for at, (moment, _processor, _tasks, _changed) in enumerate(events.lines):
        places[moment] = at + 1
    for first, units, _ready, best, running in stretches(trace, events):
        if best - running:
            for thread in found:
                found[thread] += units * runs_unlisted(events, places[first], thread)
    return found


def chain_of(trace, events, task, first):
    """What would have given a lost task a processor at a moment: each task that would have gone elsewhere, with its processor."""
    state = State(trace.processors, [(priority, frozenset(mask)) for priority, mask in trace.tasks])
    come = [line for line in events.lines if line[0] <= first]
    for _moment, _processor, _tasks, changed in come:
        for other, is_in in changed:
            step(state, ('arrive' if is_in else 'depart', other))
    running, on = runs_after(events.lines, len(come)), {}
    for other in sorted(state.on.values(), key=lambda t: -state.priorities[t]):
        on.update((p, other) for p in running.get(other, ()) if p in state.mask(other))
    chains = chains_from(state.mask(task), lambda p: state.mask(on[p]) if p in on else ())
    steps = []
    for p in least(chain for p, chain in chains.items() if p not in on):
        steps.append((task, p))
        task = on.get(p)
    return steps


def chain_lines(trace, events, longest):
    """The chain for the longest of the longest stretches, of several that of the first task."""
    if not longest or not max(count for count, _first, _rivals in longest):
        return ['chain - -']
    task = max(range(len(longest)), key=lambda t: longest[t][0])
    first = longest[task][1]
    steps = chain_of(trace, events, task, first)
    return [f'chain {first} {stamp_at(events, first)}', *(f'{trace.names[t].decode()} to {p}' for t, p in steps)]


def stamp_at(events, moment):
    """The clock of the trace at a moment."""
    if moment is None or events.first is None or events.first >= 1 << 63:
        return '-'
    return '%d.%06d' % divmod(events.first + moment, 1000000)


def answer_to_lost(data):
    if len(data) > MOST_TRACE_BYTES:
        return 3, b'', None
    try:
        trace, events = read_trace(data, True)
    except Fault as fault:
        return 3, b'', (fault.line, fault.kind)
    lines = ['lost 3', f'span {events.span()} at {stamp_at(events, 0)}']
    found = losses_of(trace, events)
    for task, (ready, ran, lost, (count, first, rivals), over) in enumerate(found):
        name = trace.names[task].decode()
        if task not in trace.mentioned:
            lines.append(f'{name} -')
            continue
        most = max(rivals, key=lambda t: (rivals[t], trace.tasks[t][0])) if rivals else None
        lines.append(f'{name} ready {ready} ran {ran} lost {lost} over {over} longest {count} at {"-" if first is None else first} '
                     f'{stamp_at(events, first)} while {"nobody" if most is None else trace.names[most].decode()}')
    lines += chain_lines(trace, events, [numbers[3] for numbers in found])
    beside = beside_of(trace, events)
    lines.append(f'unlisted {len(beside)}')
    most = sorted((thread for thread in beside if beside[thread]), key=lambda thread: (-beside[thread], thread))
    lines += [f'thread {thread} ran {beside[thread]}' for thread in most[:10]]
    return 0, '\n'.join([*lines, f'jumps {jumps_of(trace, events)}', 'end', '']).encode(), None


# `importjobs`.

def jobs_of(events):
    """The stretches of readiness in which their task ran, in the order of what begins them: task, first moment, and cost."""
    stretches, current = [], {}
    for at, (moment, _processor, _tasks, changed) in enumerate(events.lines):
        for task, is_in in changed:
            if is_in:
                current[task] = [task, moment, 0]
                stretches.append(current[task])
            else:
                del current[task]
        if at + 1 < len(events.lines):
            for task in runs_after(events.lines, at + 1).keys() & current.keys():
                current[task][2] += events.lines[at + 1][0] - moment
    return [stretch for stretch in stretches if stretch[2]]


def answer_to_importjobs(data):
    if len(data) > MOST_TRACE_BYTES:
        return 3, b'', None
    try:
        trace, events = read_trace(data, True)
        if not 1 <= events.span() <= HORIZONS[2]:
            raise Fault(len(lines_of(data)) + 1, 14)
        jobs = jobs_of(events)
        if len(jobs) > MOST_JOBS:
            raise Fault(len(lines_of(data)) + 1, 15)
    except Fault as fault:
        return 3, b'', (fault.line, fault.kind)
    lines = [b'# moment 0 is at ' + stamp_at(events, 0).encode(), b'jobs 2', b'processors %d' % trace.processors, b'horizon %d' % events.span(), *task_lines(trace)]
    lines += [b'job %s %d %d' % (trace.names[task], release, cost) for task, release, cost in jobs]
    return 0, b'\n'.join([*lines, b'end', b'']), None
