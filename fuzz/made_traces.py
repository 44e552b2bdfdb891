"""Traces, made or cut from recorded ones, for fuzz/traces and fuzz/whatif."""

import glob
import os

TOP = os.path.dirname(os.path.dirname(os.path.abspath(__file__)))
COMMS = [b'a', b'b c', b'[001]', b'prev_pid=101', b'x ==> y', b'CPU:1', b'comm=a', b'1.0:', b'sched_switch:', b'\xc3\xbc', b'<idle>', b'',
         b'"&\'', b'\x1b[2J',
         b'10.5: sched_wakeup: comm=a', b'prev_prio=1 prev_state=S ==>', b'next_pid=102 next_prio=1',
         b'prev_pid=102 prev_prio=1 prev_state=R ==>', b'prev_pid=102 prev_prio=-1 prev_state=1 ==>', b'[000]',
         b'CPU:0 [LOST 1 EVENTS]', b'x' * 5000, b'\r', b'\t', b'pid=103 prio=1 target_cpu=000']
# The first ones leave the form of a line as it is.
PLAIN_COMMS = 11
STATES = [b'S', b'R', b'R+', b'D', b'X|K', b'1', b'', b'r']
OTHERS = [b'# a remark', b'', b'CPU:2 [LOST 12 EVENTS]', b'CPU:0 [3 EVENTS DROPPED]', b'CPU:1 is off',
          b' a-1 [000] 1.0: irq_handler_entry: irq=1',
          b' a-1 [000] 1.0: sched_migrate_task: comm=a pid=101 prio=1 orig_cpu=0 dest_cpu=1',
          b' a-1 [001] 1.0: sched_process_exit: comm=a pid=101 prio=1', b'CPU 3 is empty', b'\xff\x00\x80', b'version = 6',
          b'[3 events lost]', b'# entries-in-buffer/entries-written: 7/9   #P:4']
# Threads that are no task, of real-time class and of none; and priorities that a kernel prints, SCHED_DEADLINE's and that of a fair thread too.
# Some are named often and some seldom; the greatest id is none.
STRANGERS = [7, 9, 4711] * 6 + [*range(20, 34), 4194304, 4194305]
PRIORITIES = [b'1', b'1', b'39', b'-1', b'120', b'0']
ODD_PRIORITIES = [b'', b'-', b'--1', b'+1', b'1-', b'x']
# Heads of the recorder, whole and overwritten, and such as are none.
RECORDER_HEADS = [b'# entries-in-buffer/entries-written: 3229/3229   #P:4', b'# entries-in-buffer/entries-written: 11/4711   #P:4',
                  b'#  entries-in-buffer/entries-written: 11/4711', b'# entries-in-buffer/entries-written: 11', b'# entries-in-buffer/entries-written:',
                  b'# entries-in-buffer/entries-written: 7/07', b'#entries-in-buffer/entries-written: 1/2', b'# tracer: nop']
PROCESSORS = [b'[000]', b'[001]', b'[3]', b'[64]', b'[4294967295]', b'[4294967296]', b'000', b'[]']
# The last used field of a stamp, by how much it goes on from line to line.
STEPS = [0, 0, 1, 3, 3, 999, 1000, 1001, 7000, 250000, 1000000000, 2500000001]
# Threads that are one of the tasks if their numbers are cut to some bits; and times that are far away, to 2^63 microseconds and beyond.
FAR_THREADS = [101 + (1 << bits) for bits in (8, 16, 22, 31, 32, 63, 64)] + [10 ** 40]
FAR_STEPS = [10 ** 13, 2 * 10 ** 13, 10 ** 18, (1 << 63) - 1, 1 << 64, ((1 << 63) - 1) * 1000, (1 << 63) * 1000, 10 ** 40]


def made_head(chance):
    """A head of some tasks, their ids from 101 on."""
    processors = chance.choice([1, 2, 2, 3, 4, 8])
    lines = [b'trace 1', b'processors %d' % processors]
    for t in range(chance.randint(1, max(5, 2 * processors)) if chance.random() < 0.95 else 0):
        low = chance.randrange(processors)
        high = chance.randrange(low, processors)
        name, level = chance.choice([b't%d' % t, b't-%d' % t]), chance.choice([0, 1, 1, 39, 39, 98, 4194303])
        lines.append(b'task %s %d %d-%d %d' % (name, level, low, high, 101 + t))
    if chance.random() < 0.2:
        lines.insert(chance.randrange(2, len(lines) + 1), made_window(chance))
    return lines + [b'events']


def made_window(chance):
    """A window, mostly one that has some lines of the trace."""
    if chance.random() < 0.6:
        return b'window 10.%03d 1%d.5' % (chance.choice([0, 0, 0, 1, 10]), chance.randrange(3))
    stamps = [b'10.0', b'10.000000', b'10.0000005', b'10.000001', b'010.5', b'0.0', b'11.999999999', b'12.0', b'99999999999999999999.9',
              b'9' * 60 + b'.0']
    odd = [b'10', b'10.', b'.5', b'10.0000000000', b'-1.0', b'+1.0', b'1e1.0', b'10.0:', b'']
    ends = [chance.choice(stamps if chance.random() < 0.95 else odd) for _ in range(2)]
    if chance.random() < 0.9:
        ends.sort(key=lambda end: (len(end.split(b'.')[0].lstrip(b'0')), end.lstrip(b'0')))
    return b' '.join([b'window', *ends])


def made_comm(chance, is_odd):
    return chance.choice(COMMS if is_odd else COMMS[:PLAIN_COMMS])


def made_line(chance, nanoseconds, states, is_odd, wakeup=b'sched_wakeup:'):
    """A line of a kernel that wakes who sleeps and switches from who runs; an odd one is wrong now and then."""
    def odd(share):
        return is_odd and chance.random() < share

    def level():
        return chance.choice(ODD_PRIORITIES if odd(0.01) else PRIORITIES)

    time = b'%d.%0*d' % (nanoseconds // 10 ** 9, 9, nanoseconds % 10 ** 9)
    head = b' %s-%d %s d..2. %s: ' % (made_comm(chance, is_odd), chance.choice([0, 7, 101, 105]),
                                      chance.choice(PROCESSORS if odd(0.03) else PROCESSORS[:3]), time)
    sleeping, awake = ([it for it in range(101, 106) if bool(states.get(it)) == is_in] for is_in in (False, True))
    if chance.random() < 0.4 and sleeping:
        thread = chance.choice(sleeping) if not odd(0.05) else chance.choice([0, *STRANGERS, 101, 102, *FAR_THREADS])
        states[thread] = True
        success = chance.choice([b'', b'', b'success=1 '])
        return head + b'%s comm=%s pid=%d prio=%s %starget_cpu=000' % (wakeup, made_comm(chance, is_odd), thread, level(), success)
    thread, other = (chance.choice([*awake, 0, *STRANGERS]) if not odd(0.2) else chance.choice([0, 7, *range(101, 106), *FAR_THREADS[:2]]) for _ in range(2))
    if thread == other:
        other = 0
    state = chance.choice(STATES if odd(0.03) else STATES[:4])
    if thread in states:
        states[thread] = state.startswith(b'R')
    names = made_comm(chance, is_odd), thread, level(), state, made_comm(chance, is_odd), other, level()
    return head + b'sched_switch: prev_comm=%s prev_pid=%d prev_prio=%s prev_state=%s ==> next_comm=%s next_pid=%d next_prio=%s' % names


def made_trace(chance):
    lines, nanoseconds, states, is_odd = made_head(chance), 10 * 10 ** 9 + chance.randrange(10 ** 6), {}, chance.random() < 0.5
    # Most of the traces are short enough for jobs.
    steps, factors = chance.choice([(STEPS, [1, 1, 1000]), *[(STEPS[:-2], [1])] * 3])
    if chance.random() < 0.2:
        lines.append(chance.choice(RECORDER_HEADS))
    # Some recorders write sched_waking in place of sched_wakeup, and some both.
    wakeups = chance.choice([[b'sched_wakeup:']] * 6 + [[b'sched_waking:'], [b'sched_waking:', b'sched_wakeup_new:'], [b'sched:sched_waking:'],
                                                        [b'sched_waking:', b'sched_wakeup:']])
    for _ in range(chance.choice([0, 1, 2, 5, 10, 20, 20, 40, 40])):
        nanoseconds += chance.choice(steps) * chance.choice(factors) if chance.random() < 0.999 else chance.choice(FAR_STEPS)
        lines.append(made_line(chance, nanoseconds, states, is_odd, chance.choice(wakeups)))
        if chance.random() < 0.05:
            lines.append(chance.choice(OTHERS if is_odd and chance.random() < 0.1 else OTHERS[:2] + OTHERS[4:]))
    return b'\n'.join(lines + [b''])


def cut(chance, text):
    """The head of a recorded trace with a part of its lines."""
    lines = text.split(b'\n')
    at = lines.index(b'events') + 1
    low = chance.randrange(at, len(lines))
    return b'\n'.join([line for line in lines[:at] if not line.startswith(b'window')] + lines[low:low + chance.choice([3, 30, 200])] + [b''])


def recorded_traces():
    """The traces of the examples, each as one text."""
    heads = sorted(glob.glob(TOP + '/examples/*.tasks'))
    return [open(head, 'rb').read() + b'events\n' + open(head[:-5] + 'trace', 'rb').read() for head in heads]
