"""A scheduler that takes any chain and any set that the rules of docs/FORMATS.md allow, by chance: its schedules are valid, and are
seldom those of the program. It changes a State of plain_scheduler.py, and gives replies as that does."""

from plain_scheduler import Context, State, account, judge
from plain_texts import read_input, schedule_text


def random_path(chance, firsts, nexts, is_end):
    """A simple path from one of some processors, by next ones, to one that is an end; or None where there is none."""
    seen, path = set(), []

    def search(processors):
        for p in chance.sample(sorted(processors), len(processors)):
            if p in seen:
                continue
            seen.add(p)
            path.append(p)
            if is_end(p) or search(nexts(p)):
                return True
            path.pop()
        return False

    return tuple(path) if search(firsts) else None


def closed(state, processors):
    """The least set with these processors that has the masks of its occupants."""
    found, left = set(), list(processors)
    while left:
        p = left.pop()
        if p not in found:
            found.add(p)
            left += state.mask(state.on[p]) if p in state.on else ()
    return found


def closed_back(state, processors):
    """The least set with these processors that no occupant outside may run in."""
    found = set(processors)
    while more := [p for p, t in state.on.items() if p not in found and state.mask(t) & found]:
        found.update(more)
    return found


class Loose:
    def __init__(self, chance, state):
        self.chance, self.state = chance, state

    def reach(self, t, may_be_in):
        """The processors that t reaches, and now and then more, whose occupants all may be in the set."""
        found = closed(self.state, self.state.mask(t))
        for p in self.chance.sample(range(self.state.processors), min(2, self.state.processors)):
            more = closed(self.state, [p])
            if more <= set(self.state.on) and all(may_be_in(self.state.on[q]) for q in more):
                found |= more
        return frozenset(found)

    def come(self, t):
        state, chance = self.state, self.chance
        mask = state.mask(t)
        least = closed(state, mask)
        idle = least & state.idle()
        if idle:
            chain = random_path(chance, mask, lambda p: state.mask(state.on[p]), lambda p: p in idle)
            return 'placed', chain
        last = max(least, key=lambda p: state.priorities[state.on[p]], default=None)
        if last is None or not state.is_less_urgent(state.on[last], t):
            return 'waits', self.reach(t, lambda u: state.is_less_urgent(t, u))
        out = state.on[last]
        chain = random_path(chance, mask, lambda p: state.mask(state.on[p]), lambda p: p == last)
        return 'displaced', chain, out, self.reach(t, lambda u: not state.is_less_urgent(u, out))

    def fill(self, p):
        state, chance = self.state, self.chance
        back = closed_back(state, [p])
        w = state.most_urgent_into(back)
        more = closed_back(state, back | set(chance.sample(range(state.processors), chance.randrange(min(3, state.processors + 1)))))
        if state.most_urgent_into(more) == w:
            back = more
        if w is None:
            return (p,), None, frozenset(back)
        chain = random_path(chance, [p], lambda q: [r for r, u in state.on.items() if q in state.mask(u)], lambda q: q in state.mask(w))
        return chain, w, frozenset(back)

    def gone(self, t):
        """The reply to the departure of a ready task, as it is in a state where the task has left. The state stays."""
        other = self.state.copy()
        p = other.leave(t)
        return ('left',) if p is None else ('freed', *Loose(self.chance, other).fill(p))

    def reply(self, event):
        """A reply to the event. The state stays."""
        word, what = event[:2]
        state = self.state
        if word == 'tick':
            return ('ticked',)
        if word == 'arrive':
            return ('already',) if what in state.ready else self.come(what)
        if word == 'depart':
            return self.gone(what) if what in state.ready else ('absent',)
        if word == 'affinity':
            return self.remask(*event[1:]) if what in state.ready else ('masked',)
        other = state.copy()
        if word == 'offline':
            return self.take_off(other, what)
        other.online.add(what)
        return ('already_on',) if what in state.online else ('on', *Loose(self.chance, other).fill(what))

    def remask(self, t, mask):
        gone, other = self.gone(t), self.state.copy()
        judge(other, ('depart', t), gone)
        other.masks[t] = mask
        return 'remasked', gone, Loose(self.chance, other).come(t)

    def take_off(self, other, p):
        if p not in other.online:
            return ('already_off',)
        t = other.on.get(p)
        if t is not None:
            other.leave(t)
        other.online.remove(p)
        return ('off', None, None) if t is None else ('off', t, Loose(self.chance, other).come(t))


def loose_schedule(chance, data):
    """A valid schedule text of an input text that is accepted, its events in the order of the lines."""
    text = read_input(data)
    state = State(text.processors, text.tasks)
    contexts, entries = [Context(t) for t in range(len(text.tasks))], []
    for stream, event, _none in text.entries:
        old, reply = dict(state.on), Loose(chance, state).reply(event)
        if judge(state, event, reply):
            raise AssertionError(f'the reply {reply} to {event} is not valid')
        account(contexts, event, old, state.on)
        entries.append((stream, event, reply))
    return schedule_text(text, entries, contexts)
