"""Inputs made without a program: tasks with names of any kind that a name may be, and events of both versions."""

from texts import canonical_list

# The words that the formats have, and some that mean something in XML, in JSON or to a reader of numbers; and names at their limits.
NAMES = ['a', 'b', 't0', 'Task', '_', '_-.', 'x.y-z_9', 'end', 'task', 'units', 'nobody', 'then', 'enters', 'out', 'on', 'off', 'left',
         'history', 'contexts', 'true', 'null', 'NaN', 'Infinity', 'svg', 'rect', 'title', 'xml', 'xmlns', 'script', 'CDATA', 'amp', 'lt',
         '__proto__', 'cpu', 'from', 'to', 'e1', 'E-9', 'u003c', 'n' * 32, 'N' + '-' * 31, '_' * 32, 'Z' + '9' * 31, 'W.' * 16]


def made_names(chance, count):
    """So many names, no two alike."""
    if chance.random() < 0.3:
        return [f't{t}' for t in range(count)]
    names = chance.sample(NAMES, min(count, len(NAMES)))
    return names + [f'more.{t}' for t in range(count - len(names))]


def made_priorities(chance, count):
    """So many priorities, no two alike; some at the bounds."""
    if chance.random() < 0.2:
        ends = [0, 1, 4294967294, 4294967295, 2147483647, 2147483648]
        found = chance.sample(ends, min(count, len(ends)))
        return found + [7 + t for t in range(count - len(found))]
    return chance.sample(range(4 * count + 1), count)


def made_mask(chance, processors):
    """A processor, a few beside each other, any, or all."""
    low = chance.randrange(processors)
    high = min(processors - 1, low + chance.choice([0, 0, 1, 2, 3, processors]))
    any_of = {p for p in range(processors) if chance.random() < 0.4} or {low}
    return chance.choice([{low}, set(range(low, high + 1)), set(range(low, high + 1)), any_of, set(range(processors))])


def nested_masks(chance, processors, count):
    """So many masks of which any two nest or do not meet: nodes of a tree, cut at random."""
    nodes, level = [], [range(processors)]
    while level:
        node = level.pop()
        nodes.append(node)
        if len(node) > 1 and chance.random() < 0.85:
            at = chance.randrange(1, len(node))
            level += [node[:at], node[at:]]
    return [set(chance.choice(nodes)) for _ in range(count)]


def made_event(chance, version, names, processors, ready):
    """An event, mostly one that changes something."""
    word = chance.choice(['task'] * 12 + ['tick'] * 2 + ['affinity', 'affinity', 'offline', 'online', 'online'] * (version == 2))
    if word == 'tick' or not names and word in ('task', 'affinity'):
        return 'tick %d' % chance.choice([1, 2, 3, 10, 999999, 1000000])
    if word in ('offline', 'online'):
        return f'{word} {chance.randrange(processors)}'
    absent = [name for name in names if name not in ready]
    name = chance.choice(absent if absent and chance.random() < 0.4 else names)
    if word == 'affinity':
        return f'affinity {name} {canonical_list(made_mask(chance, processors)).decode()}'
    is_odd = chance.random() < 0.05
    word = 'depart' if (name in ready) != is_odd else 'arrive'
    (ready.add if word == 'arrive' else ready.discard)(name)
    return f'{word} {name}'


def made_input(chance, version=None, nested=False, sizes=(0, 1, 2, 5, 10, 20, 20, 40)):
    """An input, on one stream."""
    version = version or chance.choice([1, 2])
    processors = chance.choice([1, 2, 2, 3, 4, 4, 5, 8, 12, 64])
    count = chance.choice([0, 1, 2, 3, 4, 6, 8, 12, 16])
    names, priorities = made_names(chance, count), made_priorities(chance, count)
    masks = nested_masks(chance, processors, count) if nested else [made_mask(chance, processors) for _ in names]
    lines = [f'apa {version}', f'processors {processors}']
    lines += [f'task {name} {level} {canonical_list(mask).decode()}' for name, level, mask in zip(names, priorities, masks)]
    ready = set()
    lines += [f'0 {made_event(chance, version, names, processors, ready)}' for _ in range(chance.choice(sizes))]
    return '\n'.join([*lines, 'end', '']).encode()
