//! A safe face of libapa, whose calls are proved: which task runs where under arbitrary processor affinities.
//!
//! [`Draft`] takes tasks, [`Scheduler`] takes events. The stages are types here, so that no call comes at a wrong one.
//!
//! ```
//! use apa::{Draft, Happened, Move};
//!
//! let mut draft = Draft::new(2).unwrap();
//! let wide = draft.add_task(10, 0b11).unwrap();
//! let narrow = draft.add_task(20, 0b01).unwrap();
//! let mut scheduler = draft.start().unwrap();
//! assert_eq!(scheduler.arrive(wide), Ok(Happened::Placed));
//! assert_eq!(scheduler.arrive(narrow), Ok(Happened::Placed));
//! let moves: Vec<Move> = scheduler.moves().collect();
//! assert_eq!(moves, [Move { task: wide, from: Some(0), to: Some(1) }, Move { task: narrow, from: None, to: Some(0) }]);
//! ```

use std::alloc::{alloc, dealloc, Layout};
use std::fmt;
use std::ptr::NonNull;

mod raw {
    extern "C" {
        pub fn apa_size() -> usize;
        pub fn apa_init(room: *mut u8);
        pub fn apa_open(apa: *mut u8, processors: u32) -> u32;
        pub fn apa_add_task(apa: *mut u8, priority: u32, mask: u64) -> u32;
        pub fn apa_start(apa: *mut u8) -> u32;
        pub fn apa_apply(apa: *mut u8, kind: u32, number: u32, mask: u64) -> u32;
        pub fn apa_admit(apa: *mut u8, priority: u32, mask: u64) -> u32;
        pub fn apa_retire(apa: *mut u8, task: u32) -> u32;
        pub fn apa_set_priority(apa: *mut u8, task: u32, priority: u32) -> u32;
        pub fn apa_seen(apa: *mut u8, task: u32, processor: u32) -> u32;
        pub fn apa_lost(apa: *mut u8) -> u32;
        pub fn apa_help(apa: *mut u8) -> u32;
        pub fn apa_moves(apa: *mut u8) -> u32;
        pub fn apa_whole_move(apa: *mut u8, i: u32) -> u64;
        pub fn apa_on(apa: *mut u8, processor: u32) -> u32;
        pub fn apa_of(apa: *mut u8, task: u32) -> u32;
        pub fn apa_is_ready(apa: *mut u8, task: u32) -> u32;
        pub fn apa_mask(apa: *mut u8, task: u32) -> u64;
        pub fn apa_occupied(apa: *mut u8) -> u64;
        pub fn apa_on_line(apa: *mut u8) -> u64;
        pub fn apa_reached(apa: *mut u8) -> u64;
        pub fn apa_back(apa: *mut u8) -> u64;
        pub fn apa_close(apa: *mut u8) -> u32;
    }
}

/// Why a call is refused. Nothing has changed then.
#[derive(Clone, Copy, Debug, PartialEq, Eq)]
pub enum Fault {
    NoMemory,
    NotNow,
    NoProcessor,
    NoTask,
    BadMask,
    SamePriority,
    TooMany,
    NoEvent,
    NoName,
    StillReady,
    NoSlot,
}

impl fmt::Display for Fault {
    fn fmt(&self, f: &mut fmt::Formatter<'_>) -> fmt::Result {
        f.write_str(match self {
            Fault::NoMemory => "memory was refused",
            Fault::NotNow => "the call does not come at this stage",
            Fault::NoProcessor => "there is no such processor, or no such number of processors",
            Fault::NoTask => "there is no such task",
            Fault::BadMask => "the mask is empty, or has a processor that there is not",
            Fault::SamePriority => "another task has the priority",
            Fault::TooMany => "there are 1,024 tasks",
            Fault::NoEvent => "there is no such kind of event",
            Fault::NoName => "the name under which the task is stored was refused",
            Fault::StillReady => "the task is ready, and has to depart first",
            Fault::NoSlot => "no slot is free",
        })
    }
}

impl std::error::Error for Fault {}

/// What happened at an event.
#[derive(Clone, Copy, Debug, PartialEq, Eq)]
pub enum Happened {
    Placed,
    Displaced,
    Waits,
    Freed,
    Left,
    WasReady,
    WasAbsent,
    Masked,
    Remasked,
    WasOff,
    WasOn,
    Off,
    On,
}

/// One task starts (`from` is `None`), goes from one processor to another, or stops (`to` is `None`).
#[derive(Clone, Copy, Debug, PartialEq, Eq)]
pub struct Move {
    pub task: u32,
    pub from: Option<u32>,
    pub to: Option<u32>,
}

/// What `apa_admit` answers more than the number of the task.
const SLOT: u32 = 1024;

/// The number that stands for no task and no processor.
const NONE: u32 = u32::MAX;

fn some(number: u32) -> Option<u32> {
    (number != NONE).then_some(number)
}

/// The processor in the lowest 16 bits, of which all are ones where there is none.
fn processor(bits: u64) -> Option<u32> {
    some(bits as i16 as u32)
}

fn fault(answer: u32) -> Fault {
    match answer {
        1 => Fault::NoMemory,
        2 => Fault::NotNow,
        3 => Fault::NoProcessor,
        4 => Fault::NoTask,
        5 => Fault::BadMask,
        6 => Fault::SamePriority,
        7 => Fault::TooMany,
        8 => Fault::NoEvent,
        10 => Fault::StillReady,
        11 => Fault::NoSlot,
        _ => Fault::NoName,
    }
}

fn done(answer: u32) -> Result<(), Fault> {
    if answer == 0 {
        Ok(())
    } else {
        Err(fault(answer))
    }
}

fn happened(answer: u32) -> Result<Happened, Fault> {
    Ok(match answer {
        16 => Happened::Placed,
        17 => Happened::Displaced,
        18 => Happened::Waits,
        19 => Happened::Freed,
        20 => Happened::Left,
        22 => Happened::WasReady,
        23 => Happened::WasAbsent,
        24 => Happened::Masked,
        25 => Happened::Remasked,
        26 => Happened::WasOff,
        27 => Happened::WasOn,
        28 => Happened::Off,
        29 => Happened::On,
        _ => return Err(fault(answer)),
    })
}

/// The room of an apa. It is the one owner of what the pointer leads to.
struct Room(NonNull<u8>);

// SAFETY: the exports use no thread-local state, and `&mut` keeps two calls on one apa apart.
unsafe impl Send for Room {}

impl Room {
    fn layout() -> Layout {
        // SAFETY: `apa_size` has no precondition.
        let size = unsafe { raw::apa_size() };
        Layout::from_size_align(size, 16).expect("a size of some hundred bytes")
    }

    fn new() -> Result<Room, Fault> {
        // SAFETY: the size is not zero.
        let room = NonNull::new(unsafe { alloc(Room::layout()) }).ok_or(Fault::NoMemory)?;
        // SAFETY: the room has the size and the alignment that `apa_init` asks for.
        unsafe { raw::apa_init(room.as_ptr()) };
        Ok(Room(room))
    }

    /// Asks, by an export that changes nothing: `&mut` is not needed, and calls on one thread do not overlap.
    fn at(&self) -> *mut u8 {
        self.0.as_ptr()
    }
}

impl Drop for Room {
    fn drop(&mut self) {
        // SAFETY: the room was made by `Room::new`, and nobody uses it any more.
        unsafe {
            raw::apa_close(self.at());
            dealloc(self.at(), Room::layout());
        }
    }
}

/// The tasks of a scheduler that has not started.
pub struct Draft {
    room: Room,
    tasks: u32,
}

impl Draft {
    /// No tasks yet, on 1 to 64 processors.
    pub fn new(processors: u32) -> Result<Draft, Fault> {
        let room = Room::new()?;
        // SAFETY: the room holds an apa.
        done(unsafe { raw::apa_open(room.at(), processors) })?;
        Ok(Draft { room, tasks: 0 })
    }

    /// One task more, whose number is answered. The lower priority is the more urgent one; bit p of the mask is processor p.
    pub fn add_task(&mut self, priority: u32, mask: u64) -> Result<u32, Fault> {
        // SAFETY: the room holds an apa.
        done(unsafe { raw::apa_add_task(self.room.at(), priority, mask) })?;
        self.tasks += 1;
        Ok(self.tasks - 1)
    }

    /// The tasks are complete, and each is absent.
    pub fn start(self) -> Result<Scheduler, Fault> {
        // SAFETY: the room holds an apa.
        done(unsafe { raw::apa_start(self.room.at()) })?;
        Ok(Scheduler { room: self.room })
    }

    /// The same, with so many free slots beside the tasks, at most 1,024 in all, for tasks that come later.
    pub fn start_with_slots(mut self, slots: u32) -> Result<Scheduler, Fault> {
        let first = self.tasks;
        let mut priority = u32::MAX;
        while self.tasks - first < slots {
            match self.add_task(priority, 1) {
                Ok(_) | Err(Fault::SamePriority) => priority -= 1,
                Err(fault) => return Err(fault),
            }
        }
        let last = self.tasks;
        let mut scheduler = self.start()?;
        (first..last).try_for_each(|task| scheduler.retire(task))?;
        Ok(scheduler)
    }
}

/// A scheduler that takes events. No call takes memory.
pub struct Scheduler {
    room: Room,
}

impl Scheduler {
    fn apply(&mut self, kind: u32, number: u32, mask: u64) -> Result<Happened, Fault> {
        // SAFETY: the room holds an apa.
        happened(unsafe { raw::apa_apply(self.room.at(), kind, number, mask) })
    }

    pub fn arrive(&mut self, task: u32) -> Result<Happened, Fault> {
        self.apply(0, task, 0)
    }

    pub fn depart(&mut self, task: u32) -> Result<Happened, Fault> {
        self.apply(1, task, 0)
    }

    pub fn set_mask(&mut self, task: u32, mask: u64) -> Result<Happened, Fault> {
        self.apply(2, task, mask)
    }

    pub fn offline(&mut self, processor: u32) -> Result<Happened, Fault> {
        self.apply(3, processor, 0)
    }

    pub fn online(&mut self, processor: u32) -> Result<Happened, Fault> {
        self.apply(4, processor, 0)
    }

    /// A task comes, which is absent; its number is answered. It has one of the free slots.
    pub fn admit(&mut self, priority: u32, mask: u64) -> Result<u32, Fault> {
        // SAFETY: the room holds an apa.
        let answer = unsafe { raw::apa_admit(self.room.at(), priority, mask) };
        answer.checked_sub(SLOT).ok_or_else(|| fault(answer))
    }

    /// An absent task goes. Its slot is free.
    pub fn retire(&mut self, task: u32) -> Result<(), Fault> {
        // SAFETY: the room holds an apa.
        done(unsafe { raw::apa_retire(self.room.at(), task) })
    }

    /// Sets the priority of an absent task.
    pub fn set_priority(&mut self, task: u32, priority: u32) -> Result<(), Fault> {
        // SAFETY: the room holds an apa.
        done(unsafe { raw::apa_set_priority(self.room.at(), task, priority) })
    }

    /// Another scheduler has a task on a processor, or nobody knows where.
    pub fn see(&mut self, task: u32, processor: Option<u32>) -> Result<(), Fault> {
        // SAFETY: the room holds an apa.
        done(unsafe { raw::apa_seen(self.room.at(), task, processor.unwrap_or(NONE)) })
    }

    /// The most urgent task that is to run and is not the first one where it is seen.
    pub fn lost(&mut self) -> Option<u32> {
        // SAFETY: the room holds an apa.
        some(unsafe { raw::apa_lost(self.room.at()) })
    }

    /// Gives that task a processor, and answers it: the moves are those of a shortest chain, and each task is seen then where they lead.
    pub fn help(&mut self) -> Option<u32> {
        // SAFETY: the room holds an apa.
        some(unsafe { raw::apa_help(self.room.at()) })
    }

    /// The moves of the last event, or of the last help after it, in their order. Whoever does them one by one never has two tasks on one processor.
    pub fn moves(&self) -> impl Iterator<Item = Move> + '_ {
        // SAFETY: the room holds an apa, here and below; the calls change nothing.
        let count = unsafe { raw::apa_moves(self.room.at()) };
        (0..count).map(|i| {
            let whole = unsafe { raw::apa_whole_move(self.room.at(), i) };
            Move { task: whole as u32, from: processor(whole >> 32), to: processor(whole >> 48) }
        })
    }

    /// The task that is to run on a processor.
    pub fn on(&self, processor: u32) -> Option<u32> {
        // SAFETY: the room holds an apa.
        some(unsafe { raw::apa_on(self.room.at(), processor) })
    }

    /// The processor where a task is to run.
    pub fn of(&self, task: u32) -> Option<u32> {
        // SAFETY: the room holds an apa.
        some(unsafe { raw::apa_of(self.room.at(), task) })
    }

    /// Whether a task is ready. One that there is not is not.
    pub fn is_ready(&self, task: u32) -> bool {
        // SAFETY: the room holds an apa, here and below.
        unsafe { raw::apa_is_ready(self.room.at(), task) != 0 }
    }

    /// The mask of a task, if there is such a task.
    pub fn mask(&self, task: u32) -> Option<u64> {
        let mask = unsafe { raw::apa_mask(self.room.at(), task) };
        (mask != 0).then_some(mask)
    }

    /// The processors that somebody is on, as bits.
    pub fn occupied(&self) -> u64 {
        unsafe { raw::apa_occupied(self.room.at()) }
    }

    /// The processors on line, as bits.
    pub fn on_line(&self) -> u64 {
        unsafe { raw::apa_on_line(self.room.at()) }
    }

    /// The set of processors that the last answer goes with, as bits.
    pub fn reached(&self) -> u64 {
        unsafe { raw::apa_reached(self.room.at()) }
    }

    /// Of a processor that the last event made free, the set of those from which shifts lead there, as bits.
    pub fn back(&self) -> u64 {
        unsafe { raw::apa_back(self.room.at()) }
    }
}
