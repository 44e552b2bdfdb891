"""The finishes of jobs under the strong scheduler, moment by moment: no events, no chains, and the best set by matchings."""


def matched(t, masks, at, seen):
    """Finds a processor for t by an augmenting path; whether there is one."""
    for p in masks[t]:
        if p not in seen:
            seen.add(p)
            if p not in at or matched(at[p], masks, at, seen):
                at[p] = t
                return True
    return False


def best_of(ready, masks, priorities):
    """The best set: by urgency, each task that can be placed beside those before it."""
    at = {}
    return {t for t in sorted(ready, key=lambda t: priorities[t]) if matched(t, masks, at, set())}


def finishes_by_moments(text):
    """The finishes of the finished jobs of each task, in order."""
    priorities, masks = [priority for priority, _mask in text.tasks], [mask for _priority, mask in text.tasks]
    units, finishes = [0] * len(masks), [[] for _task in masks]
    for moment in range(text.horizon + 1):
        for t, jobs in enumerate(text.jobs):
            while len(finishes[t]) < len(jobs) and units[t] >= sum(cost for _release, cost, _deadline in jobs[:len(finishes[t]) + 1]):
                finishes[t].append(moment)
        wants = [sum(cost for release, cost, _deadline in jobs if release <= moment) for jobs in text.jobs]
        if moment < text.horizon:
            for t in best_of([t for t in range(len(masks)) if units[t] < wants[t]], masks, priorities):
                units[t] += 1
    return finishes
