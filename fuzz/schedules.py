"""What a schedule text and an input text say, where they are known to be accepted."""

import collections

from texts import canonical_list, event_size, members_of


def lines_of(text):
    return text.split(b'\n')


def entries_of(schedule):
    """The entries of a schedule text, as lists of fields."""
    lines = lines_of(schedule)
    head = next(i for i, line in enumerate(lines) if line.startswith(b'history '))
    count = int(lines[head].split()[1])
    return [line.split(b' ') for line in lines[head + 1:head + 1 + count]]


def event_of(entry):
    """The stream and the event of an entry, and the fields of its reply."""
    size = 1 + event_size(entry[1:])
    return entry[:size], entry[size:]


def input_of(schedule):
    """The input text, on one stream, whose events are those of a schedule text."""
    lines = lines_of(schedule)
    tasks = lines[1:next(i for i, line in enumerate(lines) if line.startswith(b'history '))]
    events = [b' '.join([b'0'] + event_of(entry)[0][1:]) for entry in entries_of(schedule)]
    return b'\n'.join([b'apa ' + lines[0].split(b' ')[1]] + tasks + events + [b'end', b''])


def outcomes_of(schedule):
    """Each event with the kind of its reply and the tasks that run after it: what any two valid schedules share.

    Where a processor goes off line, which task ran there is not among it, nor who is named."""
    outcomes, running = [], set()
    for entry in entries_of(schedule):
        (_stream, *event), reply = event_of(entry)
        for part in parts_of(event, reply):
            follow(running, *part)
        outcomes.append((event, reply[:2] if reply[0] == b'remasked' else reply[:1], frozenset(running)))
    return outcomes


def parts_of(event, reply):
    """The parts of a reply, each with its task: of one that comes in on a processor on line there is none."""
    if reply[0] == b'remasked':
        size = 1 if reply[1] == b'left' else 6
        return [(event[1], reply[1:1 + size]), (event[1], reply[2 + size:])]
    if reply[0] == b'off':
        return [(reply[1], reply[3:])] if reply[1:] != [b'-'] else []
    return [(None if reply[0] == b'on' else event[1], reply)]


def follow(running, task, part):
    """The running tasks after a part of a reply about this task."""
    word = part[0]
    if word in (b'placed', b'displaced'):
        running.add(task)
    if word == b'displaced':
        running.remove(part[3])
    if word in (b'freed', b'waits', b'left'):
        running.discard(task)
    if word in (b'freed', b'on') and part[3] != b'-':
        running.add(part[3])


def streams_of(posted):
    """The events of each stream, in their order."""
    streams = collections.defaultdict(list)
    for stream, *event in posted:
        streams[int(stream)].append(event)
    return dict(streams)


def posted_in(text):
    """The events of an input text that was accepted, each with its stream, as the schedule writes them."""
    lines = [line.split() for line in lines_of(text)]
    lines = [fields for fields in lines if fields and not fields[0].startswith(b'#')]
    first = next(i for i, fields in enumerate(lines) if i >= 2 and fields[0] != b'task')
    return [[stream] + written(event) for stream, *event in lines[first:-1]]


def written(event):
    """An event of an input as the schedule writes it."""
    word, what, *mask = event
    if word in (b'tick', b'offline', b'online'):
        what = b'%d' % int(what)
    return [word, what] + [canonical_list(set(members_of(items))) for items in mask]
