"""The table of `apa whatif`, made plainly from what docs/TRACES.md says of it, as a second opinion on the script."""

from plain_jobs import read_jobs, run_jobs, weak_step
from plain_scheduler import step
from plain_traces import MOST_TRACE_BYTES, answer_to_import, answer_to_importjobs, read_trace
from cases import line_of


def ends_of(events):
    """Of each task the moments at which its stretches of readiness begin and end; the end of one that does not end is None."""
    found = {}
    for moment, _processor, _tasks, changed in events.lines:
        for task, is_in in changed:
            if is_in:
                found.setdefault(task, []).append([moment, None])
            else:
                found[task][-1][1] = moment
    return found


def cells(responses):
    return [str(max(responses)), str(sum(responses) // len(responses))] if responses else ['-', '-']


def table(data):
    """The rows of the table as lists of fields, and the numbers of the last lines: unfinished weak and strong, moves weak and strong."""
    trace, events = read_trace(data, True)
    jobs = read_jobs(answer_to_importjobs(data)[1])
    ends = ends_of(events)
    (weak, weak_moves), (strong, strong_moves) = run_jobs(jobs, weak_step), run_jobs(jobs, step)
    rows, left = [], [0, 0]
    for t, name in enumerate(trace.names):
        responses = [[], [], []]
        for k, (release, _cost, _deadline) in enumerate(jobs.jobs[t]):
            # Of stretches that begin at one moment only the last one has a length.
            end = [end for begin, end in ends[t] if begin == release][-1]
            if end is None:
                continue
            responses[0].append(end - release)
            for side, finishes in ((1, weak[t]), (2, strong[t])):
                if k < len(finishes):
                    responses[side].append(finishes[k] - release)
                else:
                    left[side - 1] += 1
        costs = [cost for _release, cost, _deadline in jobs.jobs[t]]
        rows.append([name.decode(), str(len(costs)), str(max(costs)) if costs else '-', *(cell for side in responses for cell in cells(side))])
    return rows, left, [weak_moves, strong_moves]


def answer_to_whatif(data):
    """The status, the line on standard error, and the table or None."""
    for answer in (answer_to_importjobs, answer_to_import):
        status, _output, place = answer(data)
        if status:
            return status, line_of(status, place, MOST_TRACE_BYTES), None
    return 0, b'', table(data)
