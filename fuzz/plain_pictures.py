"""The pictures of a schedule and its trace in Chrome's format, written plainly from docs/FORMATS.md, as a second opinion on `draw`,
`steps` and `chrome`.

A span is a triple of its first entry, the entry that ends it, and what was seen: a task, a processor, or one of the two words
below. What is seen after each entry is what the plain judgement of the replies leaves.
"""

import collections
import re
import xml.etree.ElementTree as ElementTree

from plain_scheduler import State, judge
from plain_texts import read_schedule
from texts import canonical_list

WAITS, OFF_LINE = 'waits', 'off line'
MOST_ROWS = 64
MARKED_ENTRIES = 400
LABELLED_COLUMNS = 60
LEAST_LINED = 4
SVG = '{http://www.w3.org/2000/svg}'


class Spans:
    """The spans of each processor and each task of a valid schedule."""

    def __init__(self, data):
        text = read_schedule(data)
        self.names, self.tasks, self.processors = text.names, text.tasks, text.processors
        self.entries = len(text.entries)
        self.lanes, self.absences, self.rows = (collections.defaultdict(list) for _ in range(3))
        self.moments = [0]
        state = State(text.processors, [(priority, frozenset(mask)) for priority, mask in text.tasks])
        for number, (_stream, event, reply) in enumerate(text.entries, 1):
            if judge(state, event, reply):
                raise AssertionError('the schedule is not valid')
            self.moments.append(self.moments[-1] + (event[1] if event[0] == 'tick' else 0))
            self.see(number, state)
        self.end = self.entries + 1
        # Where the state after each number of entries stands, and the end of the last entry.
        self.places = {'draw': [*self.moments, self.moments[-1]], 'steps': [max(0, n - 1) for n in range(self.end + 1)]}

    def see(self, number, state):
        """Takes what holds after the entry of this number."""
        places = {t: p for p, t in state.on.items()}
        for p in range(self.processors):
            see_one(self.lanes[p], number, state.on.get(p))
            see_one(self.absences[p], number, None if p in state.online else OFF_LINE)
        for t in range(len(self.names)):
            see_one(self.rows[t], number, places.get(t, WAITS) if t in state.ready else None)

    def whole(self, axis):
        return self.places[axis][-1]


def see_one(spans, number, what):
    """Lengthens the last span of a track by an entry, or begins another one."""
    if what is None:
        return
    if spans and spans[-1][1] == number and spans[-1][2] == what:
        spans[-1] = (spans[-1][0], number + 1, what)
    else:
        spans.append((number, number + 1, what))


class Sheet:
    """A window of the spans on an axis."""

    def __init__(self, spans, axis, window):
        whole = spans.whole(axis)
        self.spans, self.axis, self.places = spans, axis, spans.places[axis]
        self.first, self.last = (min(end, whole) for end in window or (0, whole))
        self.rows = self.listed()

    def part(self, span):
        """The part of a span within the window, or None where it has no length."""
        begin, end = max(self.places[span[0]], self.first), min(self.places[span[1]], self.last)
        return (begin, end) if begin < end else None

    def touches(self, span):
        return self.places[span[0]] <= self.last and self.first <= self.places[span[1]]

    def shows(self, n):
        return self.first <= self.places[n] <= self.last

    def listed(self):
        """The tasks of the rows."""
        def by_urgency(holds):
            found = [t for t in range(len(self.spans.names)) if any(map(holds, self.spans.rows[t]))]
            return sorted(found, key=lambda t: self.spans.tasks[t][0])

        ready = by_urgency(self.touches)
        if len(ready) <= MOST_ROWS:
            return ready
        return by_urgency(lambda span: span[2] == WAITS and self.touches(span))[:MOST_ROWS]

    def lane_rects(self):
        """Of each rectangle of the lanes: x, y, width, height, who, and the title."""
        found = []
        for p in range(self.spans.processors):
            for span in self.spans.absences[p] + self.spans.lanes[p]:
                part = self.part(span)
                if part:
                    title = f'{self.name(span[2])} on cpu {p} from {part[0]} to {part[1]}' if span[2] != OFF_LINE else None
                    found.append((part[0], 8 * p + 1, part[1] - part[0], 6, span[2], title))
        return found

    def row_rects(self):
        found = []
        for k, t in enumerate(self.rows):
            for span in self.spans.rows[t]:
                part = self.part(span)
                if part:
                    found.append((part[0], 8 * k + 2, part[1] - part[0], 4, WAITS if span[2] == WAITS else t, None))
        return found

    def name(self, t):
        return self.spans.names[t].decode()

    def is_marked(self):
        """Whether the window shows so few entries that each move, arrival and departure is drawn."""
        places = self.places
        shown = [n for n in range(1, self.spans.end) if places[n] <= self.last and self.first <= places[n + 1]]
        return len(shown) <= MARKED_ENTRIES

    def lines(self, wide):
        """How many stays begin with a line on a page whose lanes are so wide."""
        stays = [span for spans in self.spans.lanes.values() for span in spans if self.touches(span)]
        return sum(self.is_marked() or self.width(span, wide) >= LEAST_LINED for span in stays)

    def width(self, span, wide):
        """How wide the part of a span is on a page whose lanes are so wide."""
        begin, end = (min((place - self.first) * wide // max(1, self.last - self.first), wide) for place in self.part(span) or (0, 0))
        return end - begin if self.part(span) else 0

    def labels(self):
        """The numbers of the entries whose columns have a label."""
        columns = max(1, self.last - self.first)
        step = 1 if columns <= LABELLED_COLUMNS else 1 + (columns - 1) // 30
        return [str(n) for n in range(1, self.spans.end) if self.first <= n - 1 < self.last and n % step == 0]

    def moves(self):
        """The titles of the arrows."""
        found = []
        for t, spans in self.spans.rows.items():
            for before, after in zip(spans, spans[1:]):
                if before[1] == after[0] and WAITS not in (before[2], after[2]) and self.shows(after[0]):
                    found.append(f'{self.name(t)} from cpu {before[2]} to cpu {after[2]}')
        return found

    def turns(self):
        """How many of the listed tasks become ready in the window, and how many become absent."""
        came = gone = 0
        for t in self.rows:
            spans = self.spans.rows[t]
            ends = {span[1] for span in spans}
            begins = {span[0] for span in spans}
            came += sum(self.shows(n) for n in begins - ends)
            gone += sum(self.shows(n) for n in ends - begins if n != self.spans.end)
        return came, gone


# What a picture says.

WHOLE = re.compile(r'-?[0-9]+')
NUMBERS = ('x', 'y', 'width', 'height', 'viewBox', 'd', 'transform')
POINT = re.compile(r'M(-?\d+),(-?\d+)')


class Colours:
    """Which colour is that of which tasks, as pictures said so far."""

    def __init__(self):
        self.of = {}

    def fault_of(self, who, colour):
        """What is wrong about the colour, or None."""
        what = who % 24 if isinstance(who, int) else who
        if self.of.setdefault(what, colour) != colour:
            return f'the colour of {what} is {colour}, and was {self.of[what]}'
        if len(set(self.of.values())) != len(self.of):
            return f'two of these have one colour: {self.of}'
        return None


def rects_of(group):
    """The rectangles of a group as they are said: x, y, width, height, the colour, and the title."""
    found = []
    for rect in group:
        title = rect.find(SVG + 'title')
        if rect.tag != SVG + 'rect' or len(rect) != (title is not None):
            raise ValueError(f'a group has {rect.tag}')
        found.append((*(int(rect.get(key)) for key in ('x', 'y', 'width', 'height')), rect.get('fill'),
                      None if title is None else title.text))
    return found


def fault_of_picture(sheet, output, colours):
    """What is wrong about a picture of the window, or None."""
    if re.search(rb'[^\n -~]', output) or not output.endswith(b'</svg>\n'):
        return 'a byte that is not printable, or no end'
    try:
        root = ElementTree.fromstring(output)
    except ElementTree.ParseError as fault:
        return f'it is not well-formed: {fault}'
    groups = root.findall(SVG + 'svg')
    if root.tag != SVG + 'svg' or len(groups) != 2 or len(root.findall(f'.//{SVG}svg')) != 2:
        return f'{len(groups)} groups'
    wide = max(1, sheet.last - sheet.first)
    listed = sheet.rows
    for group, wanted, high in ((groups[0], sheet.lane_rects(), 8 * sheet.spans.processors),
                                (groups[1], sheet.row_rects(), max(1, 8 * len(listed)))):
        if group.get('viewBox') != f'{sheet.first} 0 {wide} {high}' or group.get('preserveAspectRatio') != 'none':
            return f'the view box {group.get("viewBox")}, and {sheet.first} 0 {wide} {high} is wanted'
        said = rects_of(group)
        if [rect[:4] + rect[5:] for rect in said] != [rect[:4] + rect[5:] for rect in wanted]:
            return f'the rectangles {said[:9]} .., and {wanted[:9]} .. are wanted'
        for rect, other in zip(said, wanted):
            fault = colours.fault_of(other[4], rect[4])
            if fault:
                return fault
    return fault_around(sheet, root, listed)


def fault_around(sheet, root, listed):
    """What is wrong about what stands around the groups, of which docs/FORMATS.md says little, or None."""
    rows = [text for text in root.findall(SVG + 'text') if text.find(SVG + 'tspan') is not None]
    named = [(text.text.strip(), text.find(SVG + 'tspan').text) for text in rows]
    wanted = [(sheet.name(t), f'{sheet.spans.tasks[t][0]} {canonical_list(sheet.spans.tasks[t][1]).decode()}') for t in listed]
    if named != wanted:
        return f'the rows {named}, and {wanted} are wanted'
    paths = [path for path in root.findall(SVG + 'path')]
    marks = sum(path.get('d').endswith(' v18') for path in paths)
    stays = sheet.lines(int(root.find(SVG + 'svg').get('width')))
    if marks != stays:
        return f'{marks} stays begin with a line, and {stays} are wanted'
    if sheet.axis == 'steps' and labels_of(root) != sheet.labels():
        return f'the labels {labels_of(root)}, and {sheet.labels()} are wanted'
    arrows = [path.find(SVG + 'title').text for path in paths if path.get('class') == 'move']
    turns = tuple(sum(path.get('d').endswith(mark) for path in paths) for mark in (' l-3,5 h6 z', ' l-3,-5 h6 z'))
    is_marked = sheet.is_marked()
    if is_marked != any(text.text == 'moves' and text.get('fill') for text in root.findall(SVG + 'text')):
        return 'the legend has signs of what is not drawn, or has none'
    if sorted(arrows) != (sorted(sheet.moves()) if is_marked else []) or turns != (sheet.turns() if is_marked else (0, 0)):
        return f'the arrows {arrows} and {turns} triangles; {sheet.moves()} and {sheet.turns()} are wanted'
    return fault_of_places(root)


def labels_of(root):
    """The numbers below the columns, beside the name of the axis."""
    texts = root.findall(SVG + 'text')
    below = next(text.get('y') for text in texts if text.get('x') == '8' and text.text == 'entry')
    return [text.text for text in texts if text.get('y') == below and text.get('x') != '8']


def fault_of_places(root):
    """Whether all places are whole, and on the page; a fault or None."""
    width, height = int(root.get('width')), int(root.get('height'))
    for element in root.iter():
        if any('.' in (element.get(key) or '') for key in NUMBERS):
            return f'a place that is not whole: {element.attrib}'
    for element in root:
        points = [(int(x), int(y)) for x, y in POINT.findall(element.get('d') or '')]
        if element.tag in (SVG + 'rect', SVG + 'text', SVG + 'svg') and element.get('x'):
            points += [(int(element.get('x')), int(element.get('y')))]
            if element.get('width'):
                points += [(points[0][0] + int(element.get('width')), points[0][1] + int(element.get('height')))]
        for x, y in points:
            if not 0 <= x <= width or not 0 <= y <= height:
                return f'the place {x}, {y} is not on the page of {width} by {height}: {element.attrib}'
    return None


# Chrome's format.

def chrome_output(spans, start=0):
    """What `chrome` writes of a schedule that begins at this moment, byte for byte."""
    events = ['{"name":"process_name","ph":"M","pid":1,"args":{"name":"processors"}}']
    for p in range(spans.processors):
        events.append(f'{{"name":"thread_name","ph":"M","pid":1,"tid":{p + 1},"args":{{"name":"cpu {p}"}}}}')
    for p in range(spans.processors):
        for first, until, t in spans.lanes[p]:
            begin, end = spans.places['draw'][first], spans.places['draw'][until]
            if begin < end:
                events.append(f'{{"name":"{spans.names[t].decode()}","ph":"X","pid":1,"tid":{p + 1},"ts":{start + begin},"dur":{end - begin}}}')
    return ('[\n' + ',\n'.join(events) + '\n]\n').encode()
