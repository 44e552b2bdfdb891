"""Pictures of traces, written plainly from docs/FORMATS.md, as a second opinion on `show`."""

from plain_scheduler import State, step
from plain_traces import MOST_TRACE_BYTES, places_unlisted, read_trace, runs_after, stamp_at
from plain_texts import Fault

MOST_ROWS = 64
PLACES = 14
LEFT, WIDE, LANE, ROW = 200, 1000, 24, 16
GREY = 'fill="#666"'
# Of tasks, by their numbers.
COLOURS = ('#a6cee3 #fdbf6f #b2df8a #a5ebe3 #cab2d6 #ffff99 #8dd3c7 #f4cae4 #d9c3a5 #9ec9ff #c7e89c #ffc9a3 '
           '#7fc8d9 #e8d174 #8fd19e #94a8d8 #b59ad0 #e3e36b #66c2a5 #e5a0c8 #bfa27c #77a8e6 #a3cf62 #ffab73').split()


def sights(trace, events):
    """The stretches of the span without a line in them: their first and last moment, and of each task what is seen of it then: the
    processor that it runs on, the one that strong scheduling links it to, and whether it is ready; after the tasks the same of the
    threads that are told apart."""
    state = State(trace.processors, [(priority, frozenset(mask)) for priority, mask in trace.tasks])
    lines = events.lines
    for at, (moment, _processor, _tasks, changed) in enumerate(lines[:-1]):
        for task, is_in in changed:
            step(state, ('arrive' if is_in else 'depart', task))
        if lines[at + 1][0] > moment:
            runs = {task: min(processors) for task, processors in runs_after(lines, at + 1).items()}
            links = {task: processor for processor, task in state.on.items()}
            others = [(min(places_unlisted(events, at + 1, thread), default=None), None, False) for thread in trace.unlisted]
            yield moment, lines[at + 1][0], [(runs.get(t), links.get(t), t in state.ready) for t in range(len(trace.names))] + others


def became(sight):
    on, linked, ready = sight
    return 'ran' if on is not None else 'lost' if linked is not None else 'waited' if ready else None


def bars_of(trace, events, part, mark_of):
    """The longest stretches of the part in which one mark of a task is seen: task, mark, and their two ends, by the second end."""
    found = []
    for task in range(len(trace.names) + len(trace.unlisted)):
        current = None
        for first, last, seen in sights(trace, events):
            first, last = max(first, part[0]), min(last, part[1])
            mark = mark_of(seen[task])
            if first >= last:
                continue
            if current and current[1] == mark and current[3] == first:
                current[3] = last
            else:
                current = [task, mark, first, last]
                found.append(current)
    return sorted((bar for bar in found if bar[1] is not None), key=lambda bar: (bar[3], bar[0]))


class Sheet:
    """A part of a trace, and where things stand on its page."""

    def __init__(self, trace, events, window):
        self.trace, self.events = trace, events
        span = events.span()
        self.part = tuple(min(end, span) for end in window or (0, span))
        self.span = max(1, self.part[1] - self.part[0])
        self.lanes = [bars_of(trace, events, self.part, lambda sight, k=k: sight[k]) for k in range(2)]
        self.rows = bars_of(trace, events, self.part, became)
        tasks = range(len(trace.names))
        if len(tasks) > MOST_ROWS:
            tasks = [t for t in tasks if any(bar[:2] == [t, 'lost'] for bar in self.rows)]
        self.listed = list(tasks)[:MOST_ROWS]
        count = trace.processors
        self.counts = [count + any(bar[1] >= count for bar in self.lanes[0]), count]
        self.tops = [56, 56 + LANE * self.counts[0] + 28]
        self.rows_top = self.tops[1] + LANE * count + 28
        self.bottom = self.rows_top + ROW * len(self.listed)

    def name(self, task):
        return self.trace.names[task].decode() if task < len(self.trace.names) else 'not listed'

    def colour(self, task):
        return task % 24 if task < len(self.trace.names) else 24

    def clock(self, moment):
        return stamp_at(self.events, moment)

    def across(self, moment):
        return LEFT + (moment - self.part[0]) * WIDE // self.span

    def step(self):
        """The least number 1, 2 or 5 times a power of ten of which the part has at most 12."""
        return next(step for power in range(60) for step in (10 ** power, 2 * 10 ** power, 5 * 10 ** power) if self.span // step <= 12)


def picture(sheet):
    text = [opening(sheet), f'<text x="8" y="16" font-weight="bold">{sheet.trace.processors} processors, {len(sheet.trace.names)} tasks, '
            f'from {sheet.part[0]} to {sheet.part[1]} us, at {sheet.clock(sheet.part[0])}</text>\n']
    for y, word in [(48, 'in the trace'), (sheet.tops[1] - 8, 'under strong scheduling'), (sheet.rows_top - 8, 'tasks')]:
        text.append(f'<text x="8" y="{y}" {GREY}>{word}</text>\n')
    text += axis(sheet)
    for top, count in zip(sheet.tops, sheet.counts):
        text += [label(top, p, f'cpu {p}' if p < sheet.trace.processors else 'other cpus') for p in range(count)]
    for k, task in enumerate(sheet.listed):
        y = sheet.rows_top + ROW * k
        text.append(f'<rect class="c{task % 24}" x="4" y="{y + 3}" width="10" height="10"/><text x="20" y="{y + 12}">{sheet.name(task)}</text>'
                    f'<path d="M200,{y + 16} h1000" stroke="#eee"/>\n')
    for top, count, bars in zip(sheet.tops, sheet.counts, sheet.lanes):
        text += group(sheet, top, LANE, count, [lane_bar(sheet, *bar) for bar in bars])
        text += [lane_name(sheet, top, *bar) for bar in bars]
    rows = [row_bar(sheet, *bar) for bar in sheet.rows if bar[0] in sheet.listed]
    return ''.join([*text, *group(sheet, sheet.rows_top, ROW, len(sheet.listed), rows), legend(sheet), '</svg>\n'])


def opening(sheet):
    high = sheet.bottom + 64
    style = ''.join(f'.c{k}{{fill:{colour}}}' for k, colour in enumerate(COLOURS))
    return (f'<svg xmlns="http://www.w3.org/2000/svg" width="1240" height="{high}" viewBox="0 0 1240 {high}" '
            'font-family="DejaVu Sans,Arial,sans-serif" font-size="11">\n'
            f'<rect width="1240" height="{high}" fill="#fff"/>\n<style>{style}.c24{{fill:#bbb}}.lost{{fill:#d9534f}}.waited{{fill:#ddd}}</style>\n')


def axis(sheet):
    """At most 14 lines, at multiples of the step, and below them milliseconds and the clock."""
    low, step = sheet.bottom, sheet.step()
    first = sheet.part[0] - sheet.part[0] % step
    text = []
    for moment in range(first, first + PLACES * step, step):
        if sheet.part[0] <= moment <= sheet.part[1]:
            x = sheet.across(moment)
            text.append(f'<path d="M{x},52 V{low}" stroke="#ddd"/><text x="{x}" y="{low + 14}" text-anchor="middle">'
                        f'{moment // 1000}.{moment % 1000:03}</text><text x="{x}" y="{low + 27}" text-anchor="middle" font-size="9" {GREY}>'
                        f'{sheet.clock(moment)}</text>\n')
    return [*text, f'<text x="8" y="{low + 14}" {GREY}>ms</text>\n<text x="8" y="{low + 27}" {GREY}>clock</text>\n']


def label(top, lane, word):
    y = top + LANE * lane
    return f'<text x="192" y="{y + 16}" text-anchor="end">{word}</text><path d="M200,{y + 24} h1000" stroke="#ccc"/>\n'


def group(sheet, top, high, count, bars):
    return [f'<svg x="200" y="{top}" width="1000" height="{high * count}" viewBox="0 0 {sheet.span} {8 * count}" preserveAspectRatio="none">\n',
            *bars, '</svg>\n']


def extent(sheet, begin, end):
    return f' from {begin} to {end} at {sheet.clock(begin)}</title></rect>\n'


def lane_bar(sheet, task, p, begin, end):
    return (f'<rect class="c{sheet.colour(task)}" x="{begin - sheet.part[0]}" y="{8 * min(p, sheet.trace.processors) + 1}" width="{end - begin}" '
            f'height="6"><title>{sheet.name(task)} on cpu {p}{extent(sheet, begin, end)}')


def lane_name(sheet, top, task, p, begin, end):
    left, right = sheet.across(begin), sheet.across(end)
    if right - left < 7 * len(sheet.name(task)) + 6:
        return ''
    y = top + LANE * min(p, sheet.trace.processors) + 16
    return f'<text x="{(left + right) // 2}" y="{y}" text-anchor="middle" pointer-events="none">{sheet.name(task)}</text>\n'


def row_bar(sheet, task, word, begin, end):
    return (f'<rect class="c{task % 24} {word}" x="{begin - sheet.part[0]}" y="{8 * sheet.listed.index(task) + 2}" width="{end - begin}" '
            f'height="4"><title>{sheet.name(task)} {word}{extent(sheet, begin, end)}')


def legend(sheet):
    top, y = sheet.bottom + 41, sheet.bottom + 50
    words = [(228, 'ran'), (290, 'lost: in the best set, and ran nowhere'), (550, 'waited, as under strong scheduling')]
    boxes = [''.join(f'<rect class="c{k}" x="{200 + 8 * k}" y="{top}" width="8" height="9"/>' for k in range(3)),
             *(f'<rect class="{word}" x="{x}" y="{top}" width="24" height="9"/>' for x, word in [(262, 'lost'), (522, 'waited')])]
    said = ''.join(box + f'<text x="{x}" y="{y}" {GREY}>{word}</text>' for box, (x, word) in zip(boxes, words))
    return said + f'<text x="770" y="{y}" {GREY}>grey in a lane: not listed; white: idle, or not of real time</text>\n'


def answer_to_show(data, window=None):
    if len(data) > MOST_TRACE_BYTES:
        return 3, b'', None
    try:
        trace, events = read_trace(data, True)
    except Fault as fault:
        return 3, b'', (fault.line, fault.kind)
    return 0, picture(Sheet(trace, events, window)).encode(), None
