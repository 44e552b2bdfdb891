"""Changed texts, other spellings of texts, and words, for fuzz/fuzz."""

import re

NUMBERS = [b'0', b'1', b'2', b'3', b'9', b'15', b'16', b'63', b'64', b'65', b'255', b'256', b'1000', b'1000000', b'1000001',
           b'20000', b'20001', b'4294967295', b'4294967296', b'18446744073709551615', b'18446744073709551616', b'9' * 40,
           b'00', b'007', b'+1', b'-1', b'1.0', b'1e3', b'0x1', b'']
LISTS = [b'0', b'1', b'63', b'64', b'0-1', b'0-63', b'0-64', b'1-0', b'0,1', b'1,0', b'0,0', b'0-2,1-3', b'0-0', b'0,2,4',
         b'0-', b'-0', b'-', b',', b'0,', b',0', b'0--1', b'0-1-2', b'00-01', b'99999999999999999999', b'']
CHAINS = [b'0', b'1', b'0>1', b'1>0', b'0>0', b'0>1>2', b'2>1>0', b'63', b'64', b'0>', b'>0', b'>', b'0>01', b'-', b'0,1']
NAMES = [b'a', b'b', b't0', b't1', b't2', b'_', b'-', b'.', b'a.b-c_9', b'9a', b'#a', b'n' * 32, b'n' * 33, b'end', b'task',
         b'units', b'nobody', b'\xc3\xbc', b'\xff', b'']
WORDS = [b'apa', b'schedule', b'processors', b'task', b'arrive', b'depart', b'tick', b'affinity', b'offline', b'online', b'end',
         b'history', b'contexts', b'placed', b'displaced', b'waits', b'freed', b'left', b'ticked', b'already', b'absent', b'masked',
         b'remasked', b'then', b'already_off', b'already_on', b'off', b'on', b'out', b'reach', b'enters', b'back', b'units',
         b'stints', b'moves', b'last', b'trail', b'#']
BYTES = b'\0\t\n\r\x0b\x1b #+,-.019>AZ_az~\x7f\x80\xc3\xff'
BLANKS = [b'  ', b'\t', b' \t ', b'\r', b'']
FIELD = re.compile(rb'[^ \t\n]+')


def spread(chance, text, streams):
    """The text with each event on any of so many streams."""
    return b'\n'.join(b'%d' % chance.randrange(streams) + line[1:] if line.startswith(b'0 ') else line
                      for line in text.split(b'\n'))


def event_size(fields):
    """How many of some fields are those of the event that they begin with."""
    return 3 if fields[:1] == [b'affinity'] else 2


def with_changes(chance, text):
    """An input of version 1, as `make` writes it, in version 2: masks change, processors go off line and come back."""
    lines = text.replace(b'apa 1', b'apa 2').split(b'\n')
    first = next(i for i, line in enumerate(lines) if i > 1 and not line.startswith(b'task '))
    names = [line.split(b' ')[1] for line in lines[2:first]]
    processors = int(lines[1].split(b' ')[1])
    for _ in range(chance.choice([0, 1, 3, 10, 30])):
        at = chance.randrange(first, len(lines) - 1)
        lines.insert(at, b'0 ' + change_event(chance, processors, names))
    return b'\n'.join(lines)


def change_event(chance, processors, names):
    """An event of version 2 about one of the processors or one of the tasks."""
    word = chance.choice([b'affinity', b'affinity', b'offline', b'online', b'online'])
    if word != b'affinity':
        return b'%s %d' % (word, chance.randrange(processors))
    width = chance.choice([1, 2, 3, processors])
    mask = {min(processors - 1, chance.randrange(processors) + i) for i in range(width)}
    return b'affinity %s %s' % (chance.choice(names), canonical_list(mask))


def changed(chance, base, others):
    """The text after some changes, one of them mostly; in one case of twenty after none."""
    text = base
    is_schedule = base.startswith(b'schedule')
    for _ in range(chance.choice([0] + [1] * 13 + [2] * 3 + [3] * 2 + [8])):
        changes = ENTRY_CHANGES if is_schedule and chance.random() < 0.7 else CHANGES
        text = chance.choice(changes)(chance, text, others)
    return text


# Changes of bytes.

def flip_bit(chance, text, _others):
    if not text:
        return text
    at = chance.randrange(len(text))
    return text[:at] + bytes([text[at] ^ 1 << chance.randrange(8)]) + text[at + 1:]


def put_byte(chance, text, _others):
    at = chance.randrange(len(text) + 1)
    return text[:at] + bytes([chance.choice(BYTES)]) + text[at + chance.randrange(2):]


def drop_bytes(chance, text, _others):
    at = chance.randrange(len(text) + 1)
    return text[:at] + text[at + chance.choice([1, 1, 2, 5]):]


def cut_text(chance, text, _others):
    return text[:chance.randrange(len(text) + 1)]


# Changes of lines.

def drop_line(chance, text, _others):
    lines = text.split(b'\n')
    del lines[chance.randrange(len(lines))]
    return b'\n'.join(lines)


def repeat_line(chance, text, _others):
    lines = text.split(b'\n')
    at = chance.randrange(len(lines))
    return b'\n'.join(lines[:at] + lines[at:at + 1] * chance.choice([2, 2, 2, 3, 70]) + lines[at + 1:])


def swap_lines(chance, text, _others):
    lines = text.split(b'\n')
    a = chance.randrange(len(lines))
    b = chance.choice([chance.randrange(len(lines)), (a + 1) % len(lines)])
    lines[a], lines[b] = lines[b], lines[a]
    return b'\n'.join(lines)


def take_line(chance, text, others):
    """Puts a line of another text before a line, or in its place."""
    lines = text.split(b'\n')
    at = chance.randrange(len(lines))
    lines[at:at + chance.randrange(2)] = [chance.choice(chance.choice(others).split(b'\n'))]
    return b'\n'.join(lines)


def lengthen_line(chance, text, _others):
    """Makes a line about as long as an input line may be."""
    lines = text.split(b'\n')
    at = chance.randrange(len(lines))
    lines[at] += b' ' * (4096 + chance.randrange(-1, 2) - len(lines[at]))
    return b'\n'.join(lines)


# Changes of fields.

def at_field(chance, text, change):
    fields = list(FIELD.finditer(text))
    if not fields:
        return text
    field = chance.choice(fields)
    return text[:field.start()] + change(field[0]) + text[field.end():]


def replace_field(chance, text, _others):
    """Another number for a number, another list for a list, and so on; or anything for anything."""
    def change(field):
        if chance.random() < 0.15:
            kind = chance.choice([NUMBERS, LISTS, CHAINS, NAMES, WORDS])
        elif field.isdigit():
            kind = chance.choice([NUMBERS, NUMBERS, LISTS, CHAINS])
        elif re.fullmatch(rb'[-0-9,]+', field):
            kind = LISTS
        elif re.fullmatch(rb'[0-9>]+', field):
            kind = CHAINS
        else:
            kind = WORDS if field in WORDS else NAMES
        return chance.choice(kind)

    return at_field(chance, text, change)


def nudge_number(chance, text, _others):
    """Adds a little to a number, or takes a little away."""
    def change(field):
        numbers = list(re.finditer(rb'[0-9]{1,20}', field))
        if not numbers:
            return field
        number = chance.choice(numbers)
        near = max(0, int(number[0]) + chance.choice([-2, -1, 1, 2]))
        return field[:number.start()] + b'%d' % near + field[number.end():]

    return at_field(chance, text, change)


def change_items(chance, text, _others):
    """Drops, repeats, adds or swaps items of a chain or of a list."""
    def change(field):
        mark = b'>' if b'>' in field else b','
        items = field.split(mark)
        at = chance.randrange(len(items))
        how = chance.randrange(4)
        if how == 0:
            del items[at]
        elif how == 1:
            items.insert(at, chance.choice(items))
        elif how == 2:
            items.insert(at, b'%d' % chance.randrange(10))
        else:
            other = chance.randrange(len(items))
            items[at], items[other] = items[other], items[at]
        return mark.join(items)

    fields = [field for field in FIELD.finditer(text) if re.fullmatch(rb'[0-9][-0-9,>]*', field[0])]
    if not fields:
        return text
    field = chance.choice(fields)
    return text[:field.start()] + change(field[0]) + text[field.end():]


def swap_fields(chance, text, _others):
    """Exchanges two fields of the text: often of one place in two lines, as two names, or two chains."""
    lines = [line.split(b' ') for line in text.split(b'\n')]
    a, b = chance.randrange(len(lines)), chance.randrange(len(lines))
    i = chance.randrange(len(lines[a]))
    j = i if chance.random() < 0.7 and i < len(lines[b]) else chance.randrange(len(lines[b]))
    lines[a][i], lines[b][j] = lines[b][j], lines[a][i]
    return b'\n'.join(map(b' '.join, lines))


def drop_or_repeat_field(chance, text, _others):
    return at_field(chance, text, lambda field: chance.choice([b'', field + b' ' + field]))


def change_blank(chance, text, _others):
    blanks = list(re.finditer(rb' ', text))
    if not blanks:
        return text
    blank = chance.choice(blanks)
    return text[:blank.start()] + chance.choice(BLANKS) + text[blank.end():]


def members_of(text):
    """The processors of a list."""
    members = []
    for item in text.split(b','):
        least, _, most = item.partition(b'-')
        members += range(int(least), int(most or least) + 1)
    return members


# Changes of a schedule that leave most of its lines in their form.

ENTRY = re.compile(rb'[0-9]+ ((arrive|depart|tick|offline|online) \S+|affinity \S+ \S+) ')


def entries_in(lines):
    """The places of the lines that look like entries."""
    return [i for i, line in enumerate(lines) if ENTRY.match(line)]


def swap_replies(chance, text, _others):
    """Gives an entry the reply of another one."""
    lines = text.split(b'\n')
    entries = entries_in(lines)
    if not entries:
        return text
    to, of = chance.choice(entries), chance.choice(entries)
    lines[to] = ENTRY.match(lines[to])[0] + lines[of][ENTRY.match(lines[of]).end():]
    return b'\n'.join(lines)


CAME = rb'placed \S+|displaced \S+ out \S+ reach \S+|waits \S+'
GONE = rb'freed \S+ enters \S+ back \S+|left'


def swap_parts(chance, text, _others):
    """Puts a part of one reply into another reply: before `then`, after it, or alone."""
    parts = list(re.finditer(chance.choice([CAME, GONE, CAME + b'|' + GONE]), text))
    if not parts:
        return text
    to, of = chance.choice(parts), chance.choice(parts)
    return text[:to.start()] + of[0] + text[to.end():]


def change_parts(chance, text, _others):
    """Drops a part of a reply, or adds one."""
    parts = list(re.finditer(rb'(?:remasked (?:' + GONE + rb')|off \S+) then (' + CAME + rb')|(?<= )(?:' + CAME + b')', text))
    if not parts:
        return text
    part = chance.choice(parts)
    gone = chance.choice(re.findall(GONE, text) + [b'left'])
    name = chance.choice(re.findall(rb'(?<=task )\S+', text) + [b'-'])
    came = part[1] or part[0]
    other = chance.choice([came, b'remasked left then ' + came, b'remasked %s then %s' % (gone, came), b'off %s then %s' % (name, came),
                           b'off -', b'off ' + name, b'masked'])
    return text[:part.start()] + other + text[part.end():]


def change_count(lines, more):
    for i, line in enumerate(lines):
        if re.fullmatch(rb'history [0-9]{1,9}', line):
            lines[i] = b'history %d' % (int(line.split()[1]) + more)
            return


def add_entry(chance, text, _others):
    """Puts a copy of an entry in another place."""
    lines = text.split(b'\n')
    entries = entries_in(lines)
    if not entries:
        return text
    lines.insert(chance.choice(entries), lines[chance.choice(entries)])
    change_count(lines, 1)
    return b'\n'.join(lines)


def drop_entry(chance, text, _others):
    lines = text.split(b'\n')
    entries = entries_in(lines)
    if not entries:
        return text
    del lines[chance.choice(entries)]
    change_count(lines, -1)
    return b'\n'.join(lines)


def canonical_list(members):
    """The members as the longest runs, ascending."""
    runs = []
    for p in sorted(members):
        if runs and p == runs[-1][1] + 1:
            runs[-1][1] = p
        else:
            runs.append([p, p])
    return b','.join(b'%d' % a if a == b else b'%d-%d' % (a, b) for a, b in runs) or b'-'


def change_set(chance, text, _others):
    """Puts a processor into the set of a reply or into a mask, or takes it out."""
    lists = list(re.finditer(rb'(?:waits|reach|back|affinity \S+|task \S+ [0-9]+) (-|[0-9]{1,3}(?:[-,][0-9]{1,3})*)(?=[ \n])', text))
    if not lists:
        return text
    found = chance.choice(lists)
    members = set(members_of(found[1])) if found[1] != b'-' else set()
    members ^= {chance.choice([0, 1, 2, 3, 4, 5, 6, 7, 12, 63])}
    return text[:found.start(1)] + canonical_list(members) + text[found.end(1):]


def change_chain(chance, text, _others):
    """Changes the items of a chain, or puts another chain in its place."""
    chains = list(re.finditer(rb' (?:placed|displaced|freed|on) ([0-9>]+)', text))
    if not chains:
        return text
    found = chance.choice(chains)
    items = found[1].split(b'>')
    at = chance.randrange(len(items))
    near = b'%d' % chance.randrange(8)
    items = chance.choice([items[:at] + items[at + 1:], items[:at] + [near] + items[at:], items[:at] + [near] + items[at + 1:],
                           items + [near], items[::-1], chance.choice(chains)[1].split(b'>')])
    return text[:found.start(1)] + b'>'.join(items) + text[found.end(1):]


def other_name(chance, text, _others):
    """Another task in the place of one, in an event or in a reply."""
    names = re.findall(rb'(?<=task )\S+', text)
    places = list(re.finditer(rb' (?:arrive|depart|affinity|off|out|enters) (\S+)', text))
    if not names or not places:
        return text
    found = chance.choice(places)
    return text[:found.start(1)] + chance.choice(names + [b'-']) + text[found.end(1):]


# Changes of what version 2 has more.

def change_version(_chance, text, _others):
    """Another version in the first line."""
    line, feed, rest = text.partition(b'\n')
    return line.translate(bytes.maketrans(b'12', b'21')) + feed + rest


def add_change(chance, text, _others):
    """Puts an event of version 2 before an event of an input, right or with something wrong about it."""
    lines = text.split(b'\n')
    events = [i for i, line in enumerate(lines) if re.match(rb'[0-9]+ [a-z]', line) or line == b'end']
    names = re.findall(rb'(?<=task )\S+', text)
    processors = re.match(rb'apa [12]\nprocessors ([1-9][0-9]?)\n', text)
    if not events or not names or not processors:
        return text
    fields = [b'0'] + change_event(chance, int(processors[1]), names).split(b' ')
    # Two faults in one line show which one is found first.
    for _ in range(chance.choice([0, 0, 1, 1, 2])):
        at = chance.choice([*range(len(fields)), -1, -1, -1])
        fields[at] = chance.choice([NUMBERS, WORDS, NAMES, LISTS][at] + LISTS + [processors[1], b'0-' + processors[1]] * 5)
    lines.insert(chance.choice(events), b' '.join(fields))
    return b'\n'.join(lines)


ENTRY_CHANGES = [swap_replies, swap_replies, swap_parts, swap_parts, change_parts, change_parts, add_entry, add_entry, drop_entry,
                 change_set, change_set, change_set, change_chain, change_chain, change_chain, other_name, other_name, nudge_number]

CHANGES = [flip_bit, put_byte, drop_bytes, cut_text, drop_line, repeat_line, swap_lines, take_line, lengthen_line,
           replace_field, replace_field, replace_field, nudge_number, nudge_number, change_items, change_items, swap_fields,
           swap_fields, drop_or_repeat_field, change_blank, change_version, add_change, add_change]


# Texts at the limits of what is read.

MOST_EVENTS = 20_000
MOST_BYTES = 16_777_216


def with_many_events(chance, text, count):
    """An input that was accepted, with ticks among its events, so that it has this many."""
    lines = text.split(b'\n')
    events = [i for i, line in enumerate(lines) if re.match(rb'[ \t]*[0-9]', line)]
    # After the last event, before an event, or before the end where there is none.
    end = max(i for i, line in enumerate(lines) if line.split() == [b'end'])
    at = chance.choice([end] + events)
    streams = sorted({int(lines[i].split()[0]) for i in events}) or [0]
    ticks = [b'%d tick %d' % (chance.choice(streams), chance.choice([1, 1, 1000000])) for _ in range(count - len(events))]
    return b'\n'.join(lines[:at] + ticks + lines[at:])


def with_many_bytes(chance, text, count):
    """A text with line feeds before it or after it, so that it has this many bytes."""
    more = b'\n' * (count - len(text))
    return chance.choice([more + text, text + more])


# Other spellings of an input.

def spelled_number(chance, number):
    return b'0' * chance.choice([0, 0, 1, 30]) + number


def spelled_list(chance, text):
    """The processors of a list as items in any order, some of them twice."""
    members = members_of(text)
    items = [b'%d' % p for p in members] + [b'%d-%d' % (p, p) for p in members if chance.random() < 0.3]
    chance.shuffle(items)
    return b','.join(items)


def spelled_line(chance, fields):
    fields = list(fields)
    if fields[0] == b'task':
        fields[2], fields[3] = spelled_number(chance, fields[2]), spelled_list(chance, fields[3])
    elif fields[0] in (b'apa', b'jobs', b'processors', b'horizon'):
        fields[1] = spelled_number(chance, fields[1])
    elif fields[0] == b'job':
        fields[2:] = [spelled_number(chance, field) for field in fields[2:]]
    elif fields[0].isdigit():
        fields[0] = spelled_number(chance, fields[0])
        if fields[1] in (b'tick', b'offline', b'online'):
            fields[2] = spelled_number(chance, fields[2])
        elif fields[1] == b'affinity':
            fields[3] = spelled_list(chance, fields[3])
    blank = chance.choice([b' ', b'  ', b'\t', b' \t'])
    return chance.choice([b'', b'', b' ', b'\t']) + blank.join(fields) + chance.choice([b'', b'', b'  '])


def respelled(chance, text):
    """Another text of the same input, which was accepted."""
    lines = []
    for line in text.split(b'\n'):
        if chance.random() < 0.1:
            lines.append(chance.choice([b'', b' \t', b'# 0 arrive nobody', b'#end']))
        fields = line.split()
        is_skipped = not fields or fields[0].startswith(b'#')
        lines.append(line if is_skipped else spelled_line(chance, fields))
    return b'\n'.join(line for line in lines if len(line) <= 4096)


# Words of a command.

def words_of_case(chance):
    """Words that are a command, nearly one, or none."""
    numbers = [chance.choice(['0', '1', '7', '11', '123456789', '007', '18446744073709551615', '18446744073709551616', '-1', '']),
               chance.choice(['1', '2', '3', '4', '5', '6', '8', '8', '64', '65', '0']),
               chance.choice(['1', '2', '5', '8', '12', '12', '20', '30', '1024', '1025', '0']),
               chance.choice(['0', '1', '5', '20', '20', '40', '40', '20001'] + ['20000'] * (chance.random() < 0.02))]
    words = [chance.choice(['make', 'make', 'large', 'large', 'run', 'check', 'help', '--help', '', 'RUN', 'make ', '\udcff'])]
    if words[0] in ('make', 'large'):
        words += numbers
    if chance.random() < 0.2:
        words.insert(chance.randrange(len(words) + 1), chance.choice(['run', 'check', 'make', '1', '', 'ü', '\udcc3', 'x' * 5000]))
    if chance.random() < 0.1:
        del words[chance.randrange(len(words))]
    return words
