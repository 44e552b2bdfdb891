"""The scheduler and the judgement of its replies, written plainly from docs/FORMATS.md, as a second opinion on the program.

Tasks and processors are numbers, masks and sets are frozensets, chains are tuples. An event is a tuple of its word and what
follows: ('arrive', t), ('depart', t), ('tick', units), ('affinity', t, mask), ('offline', p), ('online', p). A reply is a tuple of
its word and its parts: ('placed', chain), ('displaced', chain, out, reach), ('waits', reach), ('freed', chain, entered, back),
('remasked', gone, came), ('off', task, came), ('on', chain, entered, back), and those of one word. `gone` is a reply `freed` or
`left`, `came` one of the first three.
"""

TRAIL_FACTOR = 6364136223846793005
MODULUS = 1 << 64
CAME = ('placed', 'displaced', 'waits')


class State:
    """What is known of each task, which processors are on line, who is ready, and who is linked to which processor."""

    def __init__(self, processors, tasks):
        """The tasks are pairs of priority and mask. At first all are absent, and all processors are on line."""
        self.processors = processors
        self.priorities = [priority for priority, _mask in tasks]
        self.masks = [mask for _priority, mask in tasks]
        self.online = set(range(processors))
        self.ready = set()
        self.on = {}

    def copy(self):
        other = State(self.processors, list(zip(self.priorities, self.masks)))
        other.online, other.ready, other.on = set(self.online), set(self.ready), dict(self.on)
        return other

    def mask(self, t):
        """The effective mask of a task."""
        return self.masks[t] if len(self.online) == self.processors else self.masks[t] & self.online

    def place(self, t):
        return next((p for p, u in self.on.items() if u == t), None)

    def is_waiting(self, t):
        return t in self.ready and self.place(t) is None

    def idle(self):
        return self.online - set(self.on)

    def is_less_urgent(self, t, u):
        return self.priorities[t] > self.priorities[u]

    def most_urgent_into(self, processors):
        """The most urgent waiting task that may run on one of the processors, or None."""
        found = [t for t in self.ready if self.is_waiting(t) and self.mask(t) & processors]
        return min(found, key=lambda t: self.priorities[t], default=None)

    def leave(self, t):
        """Makes a ready task absent; the processor that it was linked to, if any."""
        p = self.place(t)
        if p is not None:
            del self.on[p]
        self.ready.discard(t)
        return p

    def shift(self, t, chain):
        """Puts t on the first processor of the chain, and each occupant on the next one."""
        for p in chain:
            t, self.on[p] = self.on.get(p), t
            if t is None:
                break


def least(chains):
    """Of some chains the one with the fewest processors, and of these the lexicographically least."""
    return min(chains, key=lambda chain: (len(chain), chain))


def chains_from(firsts, nexts):
    """To each processor that chains lead to, the least one. A prefix of a least chain is the least one to its own end."""
    found = {}
    level = {p: (p,) for p in firsts}
    while level:
        found |= level
        longer = {}
        for chain in level.values():
            for q in nexts(chain[-1]):
                if q not in found:
                    longer[q] = min(longer.get(q, chain + (q,)), chain + (q,))
        level = longer
    return found


def chains_of(state, t):
    """The least chain of t to each processor that it reaches."""
    return chains_from(state.mask(t), lambda p: state.mask(state.on[p]) if p in state.on else ())


def back_chains_of(state, p):
    """The least back chain from each processor from which shifts lead to p."""
    return chains_from([p], lambda q: [r for r, u in state.on.items() if q in state.mask(u)])


# The step of the scheduler: each changes the state, and gives the reply.

def come(state, t):
    """What an absent task comes to when it arrives."""
    state.ready.add(t)
    chains = chains_of(state, t)
    reach = frozenset(chains)
    idle = reach & state.idle()
    if idle:
        chain = least(chains[p] for p in idle)
        state.shift(t, chain)
        return 'placed', chain
    last = max(reach, key=lambda p: state.priorities[state.on[p]], default=None)
    if last is None or not state.is_less_urgent(state.on[last], t):
        return 'waits', reach
    out, chain = state.on[last], chains[last]
    state.shift(t, chain)
    return 'displaced', chain, out, reach


def fill(state, p):
    """Who comes in at a processor that has become idle."""
    chains = back_chains_of(state, p)
    back = frozenset(chains)
    w = state.most_urgent_into(back)
    if w is None:
        return (p,), None, back
    chain = least(chains[q] for q in state.mask(w) & back)
    state.shift(w, chain[::-1])
    return chain, w, back


def depart(state, t):
    if t not in state.ready:
        return ('absent',)
    p = state.leave(t)
    return ('left',) if p is None else ('freed', *fill(state, p))


def step(state, event):
    word, what = event[:2]
    if word == 'tick':
        return ('ticked',)
    if word == 'arrive':
        return ('already',) if what in state.ready else come(state, what)
    if word == 'depart':
        return depart(state, what)
    if word == 'affinity':
        gone = depart(state, what)
        state.masks[what] = event[2]
        return ('masked',) if gone == ('absent',) else ('remasked', gone, come(state, what))
    if word == 'offline':
        return take_off(state, what)
    if what in state.online:
        return ('already_on',)
    state.online.add(what)
    return ('on', *fill(state, what))


def take_off(state, p):
    if p not in state.online:
        return ('already_off',)
    t = state.on.get(p)
    if t is not None:
        state.leave(t)
    state.online.remove(p)
    return ('off', None, None) if t is None else ('off', t, come(state, t))


# The judgement of a reply: the number of its first defect, or None and then the state is the one after it.

def judge(state, event, reply):
    word, what = event[:2]
    if reply[0] not in kinds_for(state, event):
        return 1
    if word == 'arrive' and reply[0] in CAME:
        return judge_came(state, what, reply)
    if word == 'depart':
        return judge_left(state, what, reply)
    if word == 'affinity':
        return judge_affinity(state, event, reply)
    if word == 'offline' and reply[0] == 'off':
        return judge_off(state, what, reply)
    if word == 'online' and reply[0] == 'on':
        state.online.add(what)
        return judge_gone(state, what, *reply[1:])
    return None


def kinds_for(state, event):
    """The words of the replies that may stand with the event."""
    word, what = event[:2]
    is_ready, is_online = what in state.ready, what in state.online
    if word == 'depart':
        return [left_kind(state, what)]
    return {
        'arrive': ['already'] if is_ready else CAME,
        'tick': ['ticked'],
        'affinity': ['remasked'] if is_ready else ['masked'],
        'offline': ['off'] if is_online else ['already_off'],
        'online': ['already_on'] if is_online else ['on'],
    }[word]


def left_kind(state, t):
    return 'absent' if t not in state.ready else 'left' if state.is_waiting(t) else 'freed'


def judge_left(state, t, reply):
    if reply[0] != left_kind(state, t):
        return 1
    p = state.leave(t)
    return judge_gone(state, p, *reply[1:]) if reply[0] == 'freed' else None


def judge_affinity(state, event, reply):
    _word, t, mask = event
    if reply[0] == 'remasked':
        defect = judge_left(state, t, reply[1])
        if defect:
            return defect
    state.masks[t] = mask
    return judge_came(state, t, reply[2]) if reply[0] == 'remasked' else None


def judge_off(state, p, reply):
    t = state.on.get(p)
    if reply[1] != t:
        return 1
    if t is not None:
        state.leave(t)
    state.online.remove(p)
    return None if t is None else judge_came(state, t, reply[2])


def is_simple(state, chain):
    return len(chain) == len(set(chain)) > 0 and all(p < state.processors for p in chain)


def judge_came(state, t, came):
    """The reply to the arrival of a task that is absent."""
    if came[0] == 'waits':
        return judge_waits(state, t, came[1])
    chain = came[1]
    if not is_simple(state, chain) or chain[0] not in state.mask(t) or (chain[-1] in state.on) != (came[0] == 'displaced'):
        return 2
    if any(p not in state.on or q not in state.mask(state.on[p]) for p, q in zip(chain, chain[1:])):
        return 2
    if came[0] == 'displaced':
        _word, _chain, out, reach = came
        last = state.on[chain[-1]]
        if not is_full(state, t, reach, lambda u: not state.is_less_urgent(u, last)):
            return 3
        if out != last or not state.is_less_urgent(last, t):
            return 4
    state.ready.add(t)
    state.shift(t, chain)
    return None


def judge_waits(state, t, reach):
    if not is_full(state, t, reach, lambda u: state.is_less_urgent(t, u)):
        return 3
    state.ready.add(t)
    return None


def is_full(state, t, reach, is_urgent):
    """The set has the mask of t, and each of its processors an urgent task that may run only within the set."""
    return state.mask(t) <= reach and all(
        p in state.on and state.mask(state.on[p]) <= reach and is_urgent(state.on[p]) for p in reach)


def judge_gone(state, p, chain, entered, back):
    """Who came in at a processor that has become idle."""
    if not is_simple(state, chain) or chain[0] != p or (entered is None and len(chain) > 1):
        return 2
    if any(q not in state.on or r not in state.mask(state.on[q]) for r, q in zip(chain, chain[1:])):
        return 2
    if p not in back or max(back) >= state.processors:
        return 3
    if any(state.mask(u) & back for q, u in state.on.items() if q not in back):
        return 3
    wanted = state.most_urgent_into(back)
    if entered != wanted or (wanted is not None and chain[-1] not in state.mask(wanted)):
        return 4
    if entered is not None:
        state.shift(entered, chain[::-1])
    return None


class Context:
    """What a task has run."""

    def __init__(self, t):
        self.units, self.stints, self.moves, self.last, self.trail = 0, 0, 0, None, t

    def take(self, p):
        self.stints += 1
        self.moves += self.last not in (None, p)
        self.last = p

    def run(self, p, units):
        self.units += units
        self.trail = (self.trail * TRAIL_FACTOR + 64 * units + p) % MODULUS


def account(contexts, event, old, new):
    """The contexts after an entry, by the occupants before the whole entry and after it."""
    for p, t in new.items():
        if old.get(p) != t:
            contexts[t].take(p)
    if event[0] == 'tick':
        for p, t in new.items():
            contexts[t].run(p, event[1])
