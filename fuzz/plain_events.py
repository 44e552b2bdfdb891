"""What `weak`, `nested` and `watch` make of an input, written plainly from docs/FORMATS.md, as a second opinion on the program."""

import re

from plain_jobs import weak_step, weak_turn
from plain_scheduler import State, step
from plain_texts import Fault, read_input, replayed
from texts import MOST_BYTES, canonical_list

MOST_OBSERVERS = 8


class Refused(Exception):
    """An input that `nested` refuses, with its line on standard error."""


def state_of(text):
    return State(text.processors, [(priority, frozenset(mask)) for priority, mask in text.tasks])


def answer(data, make):
    """The status, the line on standard error, and the output."""
    if len(data) > MOST_BYTES:
        return 3, b'input: more than %d bytes\n' % MOST_BYTES, b''
    try:
        return 0, b'', make(read_input(data))
    except Fault as fault:
        return 3, b'input: line %d, kind %d\n' % (fault.line, fault.kind), b''
    except Refused as refused:
        return 3, refused.args[0], b''


# `weak`.

def weak_come(state, t):
    state.ready.add(t)
    while t is not None:
        t = weak_turn(state, t)


def weak_fill(state, p):
    w = state.most_urgent_into({p})
    if w is not None:
        state.on[p] = w


def weak_event(state, event):
    """An event of either version, by the task's own mask alone."""
    word, what = event[:2]
    if word == 'arrive' and what not in state.ready:
        weak_come(state, what)
    elif word == 'depart':
        weak_step(state, event)
    elif word == 'affinity':
        was_ready = what in state.ready
        weak_step(state, ('depart', what))
        state.masks[what] = event[2]
        if was_ready:
            weak_come(state, what)
    elif word == 'offline' and what in state.online:
        t = state.on.get(what)
        if t is not None:
            state.leave(t)
        state.online.remove(what)
        if t is not None:
            weak_come(state, t)
    elif word == 'online' and what not in state.online:
        state.online.add(what)
        weak_fill(state, what)


def weak_output(text):
    weak, strong = state_of(text), state_of(text)
    lines = ['weak 1', f'entries {len(text.entries)}']
    for _stream, event, _none in text.entries:
        weak_event(weak, event)
        step(strong, event)
        linked, others = set(weak.on.values()), set(strong.on.values())
        first = min(linked ^ others, key=lambda t: weak.priorities[t], default=None)
        if first in linked and first not in others:
            raise AssertionError('the plain weak scheduler has linked a more urgent task than the strong one')
        lines.append(f'{len(linked)} {len(others)} {"-" if first is None else text.names[first].decode()}')
    return '\n'.join([*lines, 'end', '']).encode()


def answer_to_weak(data):
    return answer(data, weak_output)


# `nested`.

class Counts:
    """Who is ready and who is linked, without processors."""

    def __init__(self, text):
        self.names = text.names
        self.priorities = [priority for priority, _mask in text.tasks]
        self.masks = [frozenset(mask) for _priority, mask in text.tasks]
        self.ready, self.linked = set(), set()

    def within(self, node):
        return [t for t in self.linked if self.masks[t] <= node]

    def full_around(self, t):
        """The smallest full mask that contains that of the task, or None."""
        around = [node for node in self.masks if self.masks[t] <= node and len(self.within(node)) == len(node)]
        return min(around, key=len, default=None)


def nested_reply(counts, event):
    word, t = event
    if word == 'tick':
        return 'ticked'
    if word == 'arrive':
        return 'already' if t in counts.ready else nested_arrival(counts, t)
    if t not in counts.ready:
        return 'absent'
    counts.ready.remove(t)
    if t not in counts.linked:
        return 'left'
    counts.linked.remove(t)
    waiting = [u for u in counts.ready - counts.linked if counts.full_around(u) is None]
    u = min(waiting, key=lambda u: counts.priorities[u], default=None)
    if u is not None:
        counts.linked.add(u)
    return 'freed ' + ('-' if u is None else counts.names[u].decode())


def nested_arrival(counts, t):
    counts.ready.add(t)
    node = counts.full_around(t)
    if node is None:
        counts.linked.add(t)
        return 'placed'
    out = max(counts.within(node), key=lambda u: counts.priorities[u])
    shown = canonical_list(node).decode()
    if counts.priorities[out] < counts.priorities[t]:
        return f'waits node {shown}'
    counts.linked.remove(out)
    counts.linked.add(t)
    return f'displaced {counts.names[out].decode()} node {shown}'


def first_crossing(masks):
    """The first two tasks whose masks meet, neither within the other, or None."""
    for i, mask in enumerate(masks):
        for j in range(i + 1, len(masks)):
            if mask & masks[j] and not mask <= masks[j] and not masks[j] <= mask:
                return i, j
    return None


def nested_output(text):
    if text.version != 1:
        raise Refused(b'input: version 1 wanted\n')
    counts = Counts(text)
    crossing = first_crossing(counts.masks)
    if crossing:
        raise Refused(b'input: tasks %d and %d have crossing masks\n' % crossing)
    lines = ['nested 1', f'entries {len(text.entries)}']
    for _stream, event, _none in text.entries:
        reply = nested_reply(counts, event)
        lines.append(f'{len(counts.linked)} {reply}')
    return '\n'.join([*lines, 'end', '']).encode()


def answer_to_nested(data):
    return answer(data, nested_output)


# `watch`: its first two numbers hang on the threads, so that its output is judged, and not made.

SNAPSHOT = rb' %s (0|[1-9][0-9]*) (\S+)'
OBSERVER = re.compile(rb'observer (\d+)' + b''.join(SNAPSHOT % word for word in (b'first', b'last', b'told')))


def answer_to_watch(data):
    """The status, the line, and what of the output does not hang on the threads: the schedule of the lines in their order."""
    return answer(data, replayed)


def fault_of_watch(data, observers, output):
    """What is wrong about the output of so many observers of an input that is accepted, or None."""
    text = read_input(data)
    schedule = replayed(text)
    if not output.startswith(schedule):
        return 'it does not begin with the schedule'
    lines = output[len(schedule):].split(b'\n')
    if lines[0] != b'observers %d' % observers or lines[-2:] != [b'end', b''] or len(lines) != observers + 3:
        return 'other lines after the schedule'
    occupied = occupied_after(text)
    for i, line in enumerate(lines[1:-2]):
        found = OBSERVER.fullmatch(line)
        if not found or int(found[1]) != i:
            return f'a wrong line of observer {i}: {line!r}'
        counts = [int(found[at]) for at in (2, 4, 6)]
        if not counts[0] <= counts[1] <= counts[2] == len(text.entries):
            return f'observer {i} found {counts} entries'
        if any(occupied[count] != found[at] for count, at in zip(counts, (3, 5, 7))):
            return f'observer {i} found other processors: {line!r}'
    return None


def occupied_after(text):
    """The processors that are occupied after each number of entries, as lists."""
    state = state_of(text)
    found = [b'-']
    for _stream, event, _none in text.entries:
        step(state, event)
        found.append(canonical_list(state.on) if state.on else b'-')
    return found
