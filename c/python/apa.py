"""Which task runs where under arbitrary processor affinities, decided by a proved scheduler: libapa by ctypes.

    import apa

    scheduler = apa.Scheduler([{0, 1}, {0}])    # the masks of two tasks; the first one is the more urgent
    scheduler.arrive(0)         # Reply(happened=PLACED, moves=(Move(task=0, from_=None, to=0),), reached=(), back=())
    scheduler.arrive(1)         # task 0 moves from processor 0 to 1, and task 1 starts on 0
    scheduler.running           # {0: 1, 1: 0}: by processor, the task that is to run there

A mask is a number of bits, or any processors one by one. A fault is raised as a Fault, and has changed nothing. What is proved of each
call, and what is not, is in LIBRARY.md; this file is tested. No two calls on one Scheduler may overlap.
"""

import ctypes
import enum
import operator
import os
import shutil
import subprocess
from typing import NamedTuple, Optional

__all__ = ["Fault", "Happened", "Move", "Reply", "Scheduler"]

# Of the library that this file is made for, and of the command.
VERSION = "0.8.0"
NONE = 2**32 - 1
SLOT = 1024


class Happened(enum.IntEnum):
    """What happened at an event."""

    PLACED = 16
    DISPLACED = 17
    WAITS = 18
    FREED = 19
    LEFT = 20
    WAS_READY = 22
    WAS_ABSENT = 23
    MASKED = 24
    REMASKED = 25
    WAS_OFF = 26
    WAS_ON = 27
    OFF = 28
    ON = 29

    def __repr__(self):
        return self.name


class Fault(Exception):
    """Why a call was refused. `code` is its number in apa.h."""

    WORDS = {
        1: "memory was refused",
        2: "the call does not come at this stage",
        3: "there is no such processor, or no such number of processors",
        4: "there is no such task",
        5: "the mask is empty, or has a processor that there is not",
        6: "another task has the priority",
        7: "there are 1,024 tasks",
        8: "there is no such kind of event",
        9: "the name under which the task is stored was refused",
        10: "the task is ready, and has to depart first",
        11: "no slot is free",
    }

    def __init__(self, code):
        super().__init__(self.WORDS.get(code, f"fault {code}"))
        self.code = code


class Move(NamedTuple):
    """A task starts (from_ is None), goes from one processor to another, or stops (to is None)."""

    task: int
    from_: Optional[int]
    to: Optional[int]


class Reply(NamedTuple):
    """What happened, the moves in their order, and the two sets of processors by which it is justified: LIBRARY.md says how."""

    happened: Happened
    moves: tuple
    reached: tuple
    back: tuple


def places():
    """Where the library may stand: what APA_LIBRARY names, in the checkout or the prefix of this file, or where the loader looks."""
    here = os.path.dirname(os.path.realpath(__file__))
    if os.environ.get("APA_LIBRARY"):
        return [os.environ["APA_LIBRARY"]]
    name = f"libapa.so.{VERSION.rpartition('.')[0]}"
    near = [f"{folder}/{name}" for folder in (here, f"{here}/../out", f"{here}/../..")]
    return [it for it in near if os.path.exists(it)] + [name]


def load():
    """The library, with the types of its calls."""
    for place in places():
        try:
            library = ctypes.CDLL(place)
            break
        except OSError as failed:
            why = failed
    else:
        raise ImportError(f"there is no libapa.so here, which c/build makes and ./apa install copies: {why}")
    number, bits, room = ctypes.c_uint32, ctypes.c_uint64, ctypes.c_void_p
    library.apa_size.restype = ctypes.c_size_t
    library.apa_init.restype = None
    for words, result in ((
        "init open:n add_task:nb start apply:nnb admit:nb retire:n set_priority:nn seen:nn lost help moves on:n of:n is_ready:n close", number
    ), ("whole_move:n mask:n occupied on_line reached back", bits)):
        for word in words.split():
            name, _, rest = word.partition(":")
            call = getattr(library, f"apa_{name}")
            call.argtypes = [room, *({"n": number, "b": bits}[it] for it in rest)]
            call.restype = None if name == "init" else result
    return library


LIBRARY = load()


def bits_of(mask):
    """A number as it is, or the bits of these processors."""
    if hasattr(mask, "__index__"):
        return check(mask, 2**64, 5)
    bits = 0
    for processor in mask:
        bits |= 1 << check(processor, 64, 5)
    return bits


def check(number, limit, code):
    """ctypes cuts a number to its type: what does not fit is the fault that the library would say."""
    number = operator.index(number)
    if not 0 <= number < limit:
        raise Fault(code)
    return number


def processors_of(bits):
    return tuple(processor for processor in range(64) if bits >> processor & 1)


def some(number):
    return None if number == NONE else number


def done(answer):
    if answer:
        raise Fault(answer)


class Scheduler:
    """Tasks by their numbers from 0, with these masks, all absent. Of two priorities the lower number is the more urgent; without
    priorities the tasks are as urgent as they are listed. Without processors there are as many as the masks name."""

    def __init__(self, masks, priorities=None, processors=None, slots=0):
        masks = [bits_of(mask) for mask in masks]
        priorities = list(range(len(masks))) if priorities is None else list(priorities)
        if len(priorities) != len(masks):
            raise ValueError(f"there are {len(masks)} masks and {len(priorities)} priorities")
        self.processors = max([mask.bit_length() for mask in masks], default=1) if processors is None else processors
        self._room = None
        size = LIBRARY.apa_size() + 16
        self._bytes = ctypes.create_string_buffer(size)
        address = ctypes.addressof(self._bytes)
        room = address + -address % 16
        LIBRARY.apa_init(room)
        self._room = room
        done(LIBRARY.apa_open(room, check(self.processors, NONE, 3)))
        for priority, mask in zip(priorities, masks):
            self._add(priority, mask)
        self._start(len(masks), slots)
        self._tasks = list(zip(priorities, masks))
        # The events as lines of an input, or None once a task came or went, of which a text says nothing.
        self._events, self._units = [], 0

    def _add(self, priority, mask):
        done(LIBRARY.apa_add_task(self._room, check(priority, 2**32, 6), mask))

    def _start(self, count, slots):
        """A free slot is a task that has retired."""
        priority = NONE
        added = 0
        while added < slots:
            try:
                self._add(priority, 1)
                added += 1
            except Fault as fault:
                if fault.code != 6:
                    raise
            priority -= 1
        done(LIBRARY.apa_start(self._room))
        for task in range(count, count + slots):
            done(LIBRARY.apa_retire(self._room, task))

    def close(self):
        """Gives all memory back. Any call after it is refused."""
        if self._room is not None:
            LIBRARY.apa_close(self._room)

    def __del__(self):
        if getattr(self, "_room", None) is not None and LIBRARY is not None:
            LIBRARY.apa_close(self._room)

    # ---- events

    def _apply(self, kind, number, mask, line):
        answer = LIBRARY.apa_apply(self._room, kind, number, mask)
        if answer < 16:
            raise Fault(answer)
        if self._events is not None:
            self._events.append(line)
        room = self._room
        return Reply(
            Happened(answer), self.moves, processors_of(LIBRARY.apa_reached(room)), processors_of(LIBRARY.apa_back(room))
        )

    def arrive(self, task):
        """An absent task becomes ready."""
        return self._apply(0, check(task, NONE, 4), 0, f"arrive t{task}")

    def depart(self, task):
        """A ready task becomes absent."""
        return self._apply(1, check(task, NONE, 4), 0, f"depart t{task}")

    def set_mask(self, task, mask):
        """The task has another mask; one that is ready leaves, and comes back with it."""
        bits = bits_of(mask)
        listed = ",".join(map(str, processors_of(bits)))
        return self._apply(2, check(task, NONE, 4), bits, f"affinity t{task} {listed}")

    def offline(self, processor):
        """A processor goes off line; who runs there leaves, and comes back."""
        return self._apply(3, check(processor, NONE, 3), 0, f"offline {processor}")

    def online(self, processor):
        """A processor comes back."""
        return self._apply(4, check(processor, NONE, 3), 0, f"online {processor}")

    def tick(self, units):
        """So many units of time pass. The library has no time: this is for `schedule` and `draw` alone."""
        if self._events is not None:
            self._events.append(f"tick {check(units, 2**64, 8)}")

    # ---- tasks that come and go

    def admit(self, priority, mask):
        """A task comes, which is absent, into a free slot; its number is returned."""
        answer = LIBRARY.apa_admit(self._room, check(priority, 2**32, 6), bits_of(mask))
        if answer < SLOT:
            raise Fault(answer)
        self._events = None
        return answer - SLOT

    def retire(self, task):
        """An absent task goes: its slot is free."""
        done(LIBRARY.apa_retire(self._room, check(task, NONE, 4)))
        self._events = None

    def set_priority(self, task, priority):
        """Of an absent task."""
        done(LIBRARY.apa_set_priority(self._room, check(task, NONE, 4), check(priority, 2**32, 6)))
        self._events = None

    # ---- beside another scheduler

    def see(self, task, processor):
        """Another scheduler has the task on the queue of this processor; None: nobody knows."""
        place = NONE if processor is None else check(processor, NONE, 3)
        done(LIBRARY.apa_seen(self._room, check(task, NONE, 4), place))

    @property
    def lost(self):
        """The most urgent task that is to run and is not the first one where it is seen, or None."""
        return some(LIBRARY.apa_lost(self._room))

    def help(self):
        """Gives that task a processor: it and the moves of a shortest chain, or None where nobody is lost."""
        task = some(LIBRARY.apa_help(self._room))
        return None if task is None else (task, self.moves)

    # ---- questions

    @property
    def moves(self):
        """The moves of the last event, or of the last help after it. Done in their order no two tasks are on one processor."""
        found = []
        for i in range(LIBRARY.apa_moves(self._room)):
            whole = LIBRARY.apa_whole_move(self._room, i)
            places = (whole >> 32 & 65535, whole >> 48)
            found.append(Move(whole & NONE, *(None if it == 65535 else it for it in places)))
        return tuple(found)

    @property
    def running(self):
        """The tasks that are to run, by processor."""
        occupied = processors_of(LIBRARY.apa_occupied(self._room))
        return {processor: LIBRARY.apa_on(self._room, processor) for processor in occupied}

    def on(self, processor):
        """The task that is to run on a processor, or None."""
        return some(LIBRARY.apa_on(self._room, check(processor, NONE, 3)))

    def of(self, task):
        """The processor on which a task is to run, or None."""
        return some(LIBRARY.apa_of(self._room, check(task, NONE, 4)))

    def is_ready(self, task):
        """Whether it is ready; one that there is not is not."""
        return bool(LIBRARY.apa_is_ready(self._room, check(task, NONE, 4)))

    def mask(self, task):
        """The processors of its mask; none where there is no such task."""
        return processors_of(LIBRARY.apa_mask(self._room, check(task, NONE, 4)))

    @property
    def on_line(self):
        """The processors on line."""
        return processors_of(LIBRARY.apa_on_line(self._room))

    # ---- texts and pictures, where the program is

    @property
    def input(self):
        """The events so far as an input of `apa run`, in which task n is called tn."""
        if self._events is None:
            raise ValueError("tasks came, went or got other priorities, which no text of events says")
        lines = ["apa 2", f"processors {self.processors}"]
        for number, (priority, mask) in enumerate(self._tasks):
            lines.append(f"task t{number} {priority} {','.join(map(str, processors_of(mask)))}")
        return "".join(f"{line}\n" for line in (*lines, *(f"0 {event}" for event in self._events), "end"))

    def schedule(self):
        """What `apa run` writes of these events."""
        return ask("run", self.input)

    def draw(self):
        """A picture of the schedule over the units of `tick`, as SVG."""
        return ask("draw", self.schedule())

    def steps(self):
        """The same with a column for each event."""
        return ask("steps", self.schedule())

    def _repr_svg_(self):
        return self.steps() if self._events else None


def program():
    """The command apa: what APA names, in the checkout or the prefix of this file, or on the path."""
    here = os.path.dirname(os.path.realpath(__file__))
    near = (f"{here}/{it}" for it in ("../../apa", "../../../bin/apa", "../../../apa"))
    for place in (os.environ.get("APA"), *near, shutil.which("apa")):
        if place and os.access(place, os.X_OK) and not os.path.isdir(place):
            return place
    raise FileNotFoundError("there is no command apa here: APA names it, or the path has it")


def ask(word, text):
    """What this word of the command writes of a text."""
    asked = subprocess.run([program(), word], input=text.encode(), capture_output=True, check=False)
    if asked.returncode:
        raise ValueError(asked.stderr.decode(errors="replace").strip())
    return asked.stdout.decode()
