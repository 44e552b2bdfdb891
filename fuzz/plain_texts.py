"""Inputs and schedules as text, read and written plainly from docs/FORMATS.md, for the second opinion on the program."""

import re

from plain_scheduler import CAME, Context, State, account, judge, step
from texts import MOST_BYTES, MOST_EVENTS, canonical_list, members_of

MOST_TASKS = 1024
NAME = re.compile(rb'[A-Za-z_][A-Za-z0-9_.-]{0,31}')
LIST = re.compile(rb'[0-9]+(-[0-9]+)?(,[0-9]+(-[0-9]+)?)*')
CANONICAL = rb'(?:0|[1-9][0-9]{0,19})'


class Fault(Exception):
    """A text that is refused, with its line and kind."""

    def __init__(self, line, kind):
        super().__init__(line, kind)
        self.line = line
        self.kind = kind


class Text:
    """What an input or a schedule says."""

    def __init__(self):
        self.version = self.processors = None
        self.names, self.tasks = [], []
        # Triples of stream, event and reply; of an input the reply is None.
        self.entries = []
        # Of a schedule the numbers of each context line.
        self.contexts = []

    def is_refused(self, name, priority, mask):
        return (not NAME.fullmatch(name) or len(self.names) == MOST_TASKS or name in self.names
                or priority in [other for other, _mask in self.tasks] or max(mask) >= self.processors)

    def add(self, name, priority, mask):
        self.names.append(name)
        self.tasks.append((priority, mask))


def number(field, least, most):
    """The value of a number that is written in any way, within its bounds, or None."""
    if not re.fullmatch(b'[0-9]+', field):
        return None
    # Python reads at most 4,300 digits.
    field = field.lstrip(b'0') or b'0'
    value = int(field) if len(field) <= 20 else most + 1
    return value if least <= value <= most else None


def canonical(field, least, most):
    """The same of a number without leading zeros."""
    return number(field, least, most) if re.fullmatch(CANONICAL, field) else None


def listed(field):
    """The processors of a list that is written in any way, or None."""
    if not LIST.fullmatch(field):
        return None
    for item in field.split(b','):
        ends = [number(end, 0, 63) for end in item.split(b'-')]
        if None in ends or ends[0] > ends[-1]:
            return None
    return frozenset(members_of(field))


def canonical_listed(field):
    """The processors of a canonical list with an item at least, or None."""
    members = listed(field)
    return members if members and canonical_list(members) == field else None


# Inputs.

def read_input(data):
    """What an input text says; a Fault where it is none."""
    lines = data.split(b'\n')
    if not lines[-1]:
        lines.pop()
    text, is_ended = Text(), False
    for place, line in enumerate(lines, 1):
        if re.search(rb'[^\t -~]', line):
            raise Fault(place, 1)
        if len(line) > 4096:
            raise Fault(place, 2)
        fields = [field for field in re.split(b'[ \t]+', line) if field]
        if not fields or fields[0].startswith(b'#'):
            continue
        kind = 11 if is_ended else input_kind(text, fields)
        if kind:
            raise Fault(place, kind)
        is_ended = fields == [b'end']
    if not is_ended:
        raise Fault(len(lines) + 1, 12)
    return text


def input_kind(text, fields):
    """Takes a line into the text, or gives the kind of its fault."""
    if text.version is None:
        text.version = number(fields[1], 1, 2) if len(fields) == 2 and fields[0] == b'apa' else None
        return None if text.version else 3
    if text.processors is None:
        text.processors = number(fields[1], 1, 64) if len(fields) == 2 and fields[0] == b'processors' else None
        return None if text.processors else 4
    if not text.entries and fields[0] == b'task':
        return task_kind(text, fields)
    return None if fields == [b'end'] else event_kind(text, fields)


def task_kind(text, fields):
    if len(fields) != 4 or number(fields[2], 0, 4294967295) is None:
        return 5
    mask = listed(fields[3])
    if mask is None:
        return 6
    task = fields[1], number(fields[2], 0, 4294967295), mask
    if text.is_refused(*task):
        return 7
    text.add(*task)
    return None


def event_kind(text, fields):
    stream, word = number(fields[0], 0, 15), fields[1].decode() if len(fields) > 1 else ''
    is_mask = text.version == 2 and len(fields) == 4 and word == 'affinity'
    mask = listed(fields[3]) if is_mask else None
    if stream is not None and is_mask and mask is None:
        return 6
    of_task = is_mask or len(fields) == 3 and word in ('arrive', 'depart')
    numbers = {'tick': (1, 1000000)}
    if text.version == 2:
        numbers |= {'offline': (0, text.processors - 1), 'online': (0, text.processors - 1)}
    value = number(fields[2], *numbers[word]) if len(fields) == 3 and word in numbers else None
    if stream is None or not of_task and value is None:
        return 8
    if of_task and fields[2] not in text.names:
        return 9
    if len(text.entries) == MOST_EVENTS:
        return 10
    if is_mask and max(mask) >= text.processors:
        return 13
    what = text.names.index(fields[2]) if of_task else value
    text.entries.append((stream, (word, what, mask) if is_mask else (word, what), None))
    return None


def replayed(text):
    """The schedule text of an input, its events in the order of the lines."""
    state = State(text.processors, text.tasks)
    contexts = [Context(t) for t in range(len(text.tasks))]
    entries = []
    for stream, event, _none in text.entries:
        old = dict(state.on)
        reply = step(state, event)
        account(contexts, event, old, state.on)
        entries.append((stream, event, reply))
    return schedule_text(text, entries, contexts)


# Schedules, written.

def schedule_text(text, entries, contexts):
    lines = [b'schedule %d' % text.version, b'processors %d' % text.processors]
    lines += [b'task %s %d %s' % (name, priority, canonical_list(mask)) for name, (priority, mask) in zip(text.names, text.tasks)]
    lines += [b'history %d' % len(entries)]
    lines += [b'%d %s %s' % (stream, event_text(text, event), reply_text(text, reply)) for stream, event, reply in entries]
    lines += [b'contexts %d' % len(contexts)]
    lines += [name + b' ' + context_text(context) for name, context in zip(text.names, contexts)]
    return b'\n'.join(lines + [b'end', b''])


def event_text(text, event):
    word, what = event[:2]
    fields = [word.encode(), text.names[what] if word in ('arrive', 'depart', 'affinity') else b'%d' % what]
    return b' '.join(fields + [canonical_list(mask) for mask in event[2:]])


def chain_text(chain):
    return b'>'.join(b'%d' % p for p in chain) or b'-'


def reply_text(text, reply):
    word = reply[0]
    if word == 'placed':
        return b'placed ' + chain_text(reply[1])
    if word == 'displaced':
        return b'displaced %s out %s reach %s' % (chain_text(reply[1]), text.names[reply[2]], canonical_list(reply[3]))
    if word == 'waits':
        return b'waits ' + canonical_list(reply[1])
    if word in ('freed', 'on'):
        entered = b'-' if reply[2] is None else text.names[reply[2]]
        return b'%s %s enters %s back %s' % (word.encode(), chain_text(reply[1]), entered, canonical_list(reply[3]))
    if word == 'remasked':
        return b'remasked %s then %s' % (reply_text(text, reply[1]), reply_text(text, reply[2]))
    if word == 'off':
        return b'off -' if reply[1] is None else b'off %s then %s' % (text.names[reply[1]], reply_text(text, reply[2]))
    return word.encode()


def context_text(context):
    last = b'-' if context.last is None else b'%d' % context.last
    return b'units %d stints %d moves %d last %s trail %d' % (
        context.units, context.stints, context.moves, last, context.trail)


# Schedules, read. A part of a line that does not have its form is None.

class Lines:
    """The lines of a schedule text, each with its line feed, one after the other."""

    def __init__(self, data):
        self.rest, self.place = data, 0

    def next(self):
        self.place += 1
        line, feed, rest = self.rest.partition(b'\n')
        if not feed:
            raise Fault(self.place, 24)
        self.rest = rest
        return line

    def refuse(self, kind):
        raise Fault(self.place, kind)

    def count(self, word, most):
        """The number of a line of a word and a number."""
        fields = self.next().split(b' ')
        value = canonical(fields[1], 0, most) if len(fields) == 2 and fields[0] == word else None
        return self.refuse(21) if value is None else value


def read_schedule(data):
    """What a schedule text says; a Fault where it is none."""
    lines, text = Lines(data), Text()
    text.version = {b'schedule 1': 1, b'schedule 2': 2}.get(lines.next()) or lines.refuse(21)
    text.processors = lines.count(b'processors', 64) or lines.refuse(21)
    while lines.rest.startswith(b'task ') and b'\n' in lines.rest:
        read_task(lines, text)
    for _ in range(lines.count(b'history', MOST_EVENTS)):
        read_entry(lines, text)
    if lines.count(b'contexts', MOST_TASKS) != len(text.names):
        lines.refuse(21)
    for name in text.names:
        text.contexts.append(read_context(lines.next(), name) or lines.refuse(21))
    if lines.next() != b'end':
        lines.refuse(21)
    if lines.rest:
        raise Fault(lines.place + 1, 25)
    return text


def is_field(field):
    return field != b'' and b'\t' not in field


def read_task(lines, text):
    fields = lines.next().split(b' ')
    if len(fields) != 4 or not is_field(fields[1]):
        lines.refuse(21)
    task = fields[1], canonical(fields[2], 0, 4294967295), canonical_listed(fields[3])
    if None in task:
        lines.refuse(21)
    if text.is_refused(*task):
        lines.refuse(22)
    text.add(*task)


def read_entry(lines, text):
    fields = lines.next().split(b' ')
    stream, event = canonical(fields[0], 0, 15), read_event(text, fields[1:])
    size = 1 + len(event) if event else len(fields)
    reply = read_reply(text, fields[size:])
    if stream is None or event is None or reply is None:
        lines.refuse(21)
    event, reply = resolved(text, event), resolved(text, reply)
    if UNKNOWN in flat(event) + flat(reply):
        lines.refuse(23)
    text.entries.append((stream, event, reply))


def read_event(text, fields):
    """The event that some fields begin with; names are still bytes."""
    if len(fields) < 2 or not is_field(fields[1]):
        return None
    word, field = fields[0].decode(errors='replace'), fields[1]
    if word in ('arrive', 'depart'):
        return word, field
    if word == 'tick':
        event = word, canonical(field, 1, 1000000)
    elif text.version == 2 and word in ('offline', 'online'):
        event = word, canonical(field, 0, text.processors - 1)
    elif text.version == 2 and word == 'affinity':
        mask = canonical_listed(fields[2]) if len(fields) > 2 else None
        event = word, field, mask if mask and max(mask) < text.processors else None
    else:
        return None
    return None if None in event else event


NOBODY = object()
UNKNOWN = object()


def read_chain(field):
    if field == b'-':
        return ()
    chain = tuple(canonical(item, 0, 63) for item in field.split(b'>'))
    return None if None in chain or len(chain) > 64 else chain


def read_set(field):
    return frozenset() if field == b'-' else canonical_listed(field)


def read_reply(text, fields):
    """The reply that some fields are; names are still bytes."""
    word, count = fields[0] if fields else b'', len(fields)
    if count == 1 and word in (b'left', b'ticked', b'already', b'absent'):
        return (word.decode(),)
    if word.decode(errors='replace') in CAME:
        return read_came(fields)
    if word == b'freed':
        return read_gone(fields)
    if text.version == 1:
        return None
    if count == 1 and word in (b'masked', b'already_off', b'already_on'):
        return (word.decode(),)
    if word == b'on':
        return read_gone(fields)
    if fields == [b'off', b'-']:
        return 'off', None, None
    if word == b'off' and count > 3 and fields[2] == b'then' and is_field(fields[1]):
        reply = 'off', fields[1], read_came(fields[3:])
    elif word == b'remasked' and b'then' in fields[2:]:
        # A task can have the name `then`, so the part before the word goes by its length.
        size = 1 if fields[1] == b'left' else 6
        gone = ('left',) if size == 1 else read_gone(fields[1:7]) if fields[1] == b'freed' else None
        reply = 'remasked', gone, read_came(fields[2 + size:]) if fields[1 + size:2 + size] == [b'then'] else None
    else:
        return None
    return None if None in reply else reply


def read_came(fields):
    word, count = fields[0] if fields else b'', len(fields)
    if word == b'placed' and count == 2:
        reply = 'placed', read_chain(fields[1])
    elif word == b'waits' and count == 2:
        reply = 'waits', read_set(fields[1])
    elif word == b'displaced' and count == 6 and fields[2::2] == [b'out', b'reach'] and is_field(fields[3]):
        reply = 'displaced', read_chain(fields[1]), fields[3], read_set(fields[5])
    else:
        return None
    return None if None in reply else reply


def read_gone(fields):
    if len(fields) != 6 or fields[2::2] != [b'enters', b'back'] or not is_field(fields[3]):
        return None
    entered = NOBODY if fields[3] == b'-' else fields[3]
    reply = fields[0].decode(), read_chain(fields[1]), entered, read_set(fields[5])
    return None if None in reply else reply


def resolved(text, said):
    """The same with the number of each task in place of its name."""
    if isinstance(said, tuple):
        return tuple(resolved(text, part) for part in said)
    if isinstance(said, bytes):
        return text.names.index(said) if said in text.names else UNKNOWN
    return None if said is NOBODY else said


def flat(said):
    return [part for piece in said for part in flat(piece)] if isinstance(said, tuple) else [said]


def read_context(line, name):
    """The numbers of a context line as text, or None."""
    counts = rb' units (C) stints (C) moves (C) last (-|C) trail (C)'.replace(b'C', CANONICAL)
    found = re.fullmatch(re.escape(name) + counts, line)
    if not found or any(canonical(found[i], 0, (1 << 64) - 1) is None for i in (1, 2, 3, 5)):
        return None
    return None if found[4] != b'-' and canonical(found[4], 0, 63) is None else line[len(name) + 1:]


def checked(text):
    """None for a valid schedule, and else the line and the number of its first defect."""
    state = State(text.processors, text.tasks)
    contexts = [Context(t) for t in range(len(text.tasks))]
    first = 4 + len(text.tasks)
    for place, (_stream, event, reply) in enumerate(text.entries, first):
        old = dict(state.on)
        defect = judge(state, event, reply)
        if defect:
            return place, defect
        account(contexts, event, old, state.on)
    first += len(text.entries) + 1
    for place, (context, said) in enumerate(zip(contexts, text.contexts), first):
        if context_text(context) != said:
            return place, 5
    return None


# The answers of the commands that read a text.

def answer_to_run(data):
    """The exit status, the output, and the line and number of the refusal, or None."""
    if len(data) > MOST_BYTES:
        return 3, b'', None
    try:
        return 0, replayed(read_input(data)), None
    except Fault as fault:
        return 3, b'', (fault.line, fault.kind)


def answer_to_check(data):
    if len(data) > MOST_BYTES:
        return 3, b'', None
    try:
        text = read_schedule(data)
    except Fault as fault:
        return 3, b'', (fault.line, fault.kind)
    defect = checked(text)
    return (1, b'', defect) if defect else (0, b'valid %d\n' % len(text.entries), None)
