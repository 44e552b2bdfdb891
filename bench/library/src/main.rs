//! libapa by its C interface, on generated work, and another scheduler on the same events where the feature `beside` is on.
//!
//!     bench ours|step|core|times WORK PROCESSORS EVENTS ROUNDS
//!
//! `ours`, `step` and `core` go once over the events, in a function of the name `measured`, for a counter of instructions.
//! `times` prints nanoseconds. `bench/library/library` builds and calls this.

use std::time::Instant;

extern "C" {
    fn apa_size() -> usize;
    fn apa_init(room: *mut u8);
    fn apa_open(apa: *mut u8, processors: u32) -> u32;
    fn apa_add_task(apa: *mut u8, priority: u32, mask: u64) -> u32;
    fn apa_start(apa: *mut u8) -> u32;
    fn apa_apply(apa: *mut u8, kind: u32, number: u32, mask: u64) -> u32;
    fn apa_moves(apa: *mut u8) -> u32;
    fn apa_whole_move(apa: *mut u8, i: u32) -> u64;
    fn apa_on(apa: *mut u8, processor: u32) -> u32;
    fn apa_close(apa: *mut u8) -> u32;
}

/// Kind, number and mask, as `apa_apply` takes them.
type Event = (u32, u32, u64);

struct Work {
    processors: u8,
    /// The mask of each task; its number is its priority.
    masks: Vec<u64>,
    events: Vec<Event>,
}

/// Numbers below a bound, by Knuth's MMIX generator.
struct Draws(u64);

impl Draws {
    fn below(&mut self, bound: u64) -> u64 {
        self.0 = self.0.wrapping_mul(6364136223846793005).wrapping_add(1442695040888963407);
        (self.0 >> 33) % bound
    }

    /// One to four processors in a row.
    fn range(&mut self, processors: u8) -> u64 {
        let low = self.below(processors as u64);
        let high = low + self.below((processors as u64 - low).min(4));
        all(high as u8 + 1) & !all(low as u8)
    }
}

fn all(processors: u8) -> u64 {
    if processors == 64 { u64::MAX } else { (1 << processors) - 1 }
}

/// Four tasks for each processor. A task that is drawn arrives where it is absent and departs where it is ready; in `changing` one
/// event of ten is another mask, or a processor that goes off line or comes on line.
fn generated(name: &str, processors: u8, events: usize) -> Work {
    let mut draws = Draws(7);
    let tasks = 4 * processors as u64;
    let masks = (0..tasks).map(|t| if name == "wide" && t % 2 == 0 { all(processors) } else { draws.range(processors) }).collect();
    let mut ready = vec![false; tasks as usize];
    let events = (0..events).map(|_| {
        let task = draws.below(tasks);
        match if name == "changing" { draws.below(20) } else { 19 } {
            0 => (2, task as u32, draws.range(processors)),
            1 => (3 + draws.below(2) as u32, draws.below(processors as u64) as u32, 0),
            _ => {
                ready[task as usize] ^= true;
                (!ready[task as usize] as u32, task as u32, 0)
            }
        }
    });
    let events = events.collect();
    Work { processors, masks, events }
}

/// A ladder of tasks, each on two neighbouring processors. One more task on the first processor moves all of them aside, and once it
/// has left, one on the last processor moves them back.
fn chain(processors: u8, events: usize) -> Work {
    let ladder = processors as u32 - 1;
    let mut masks: Vec<u64> = (0..ladder).map(|i| 3 << i).collect();
    masks.extend([1, 1 << ladder]);
    let begin = (0..ladder).map(|t| (0, t, 0));
    let cycle = [(0, ladder, 0), (1, ladder, 0), (0, ladder + 1, 0), (1, ladder + 1, 0)];
    let events = begin.chain(cycle.into_iter().cycle().take(events)).collect();
    Work { processors, masks, events }
}

fn work(name: &str, processors: u8, events: usize) -> Work {
    if name == "chain" { chain(processors, events) } else { generated(name, processors, events) }
}

struct Apa {
    room: Vec<u128>,
}

impl Apa {
    fn new(work: &Work) -> Apa {
        // SAFETY: here and below, the room is as `apa_size` says, and nobody else uses it.
        let mut apa = Apa { room: vec![0; unsafe { apa_size() }.div_ceil(16)] };
        unsafe {
            apa_init(apa.at());
            assert_eq!(apa_open(apa.at(), work.processors as u32), 0);
            for (t, mask) in work.masks.iter().enumerate() {
                assert_eq!(apa_add_task(apa.at(), t as u32, *mask), 0);
            }
            assert_eq!(apa_start(apa.at()), 0);
        }
        apa
    }

    fn at(&mut self) -> *mut u8 {
        self.room.as_mut_ptr().cast()
    }
}

impl Drop for Apa {
    fn drop(&mut self) {
        unsafe { apa_close(self.at()) };
    }
}

/// The task of a move and its two processors, as `apa_get_move` of `apa.h` reads them.
#[inline(always)]
fn parts(whole: u64) -> (u32, u32, u32) {
    (whole as u32, (whole >> 32) as i16 as u32, (whole >> 48) as i16 as u32)
}

/// One scheduler that takes events. The number answered is of what it did, so that nothing is left out.
trait Scheduler {
    fn apply(&mut self, event: Event) -> u32;
    fn on(&mut self, processor: u8) -> u32;
}

impl Scheduler for Apa {
    #[inline(always)]
    fn apply(&mut self, (kind, number, mask): Event) -> u32 {
        let at = self.at();
        unsafe {
            let mut sum = apa_apply(at, kind, number, mask);
            for i in 0..apa_moves(at) {
                let (task, from, to) = parts(apa_whole_move(at, i));
                sum ^= task ^ from ^ to;
            }
            sum
        }
    }

    fn on(&mut self, processor: u8) -> u32 {
        unsafe { apa_on(self.at(), processor as u32) }
    }
}

#[cfg(feature = "beside")]
mod beside {
    use super::{Event, Scheduler, Work};
    use baseline::core::{Core, Direct};
    use baseline::links::Links;
    use baseline::set::{self, TaskSet};

    fn set_of(work: &Work) -> TaskSet {
        let mut set = TaskSet::new(work.processors);
        for (t, mask) in work.masks.iter().enumerate() {
            assert!(set.add(format!("t{t}").as_bytes(), t as u32, *mask).is_ok());
        }
        set
    }

    #[inline(always)]
    fn event_of((kind, number, mask): Event) -> set::Event {
        match kind {
            0 => set::Event::Arrive(number),
            1 => set::Event::Depart(number),
            2 => set::Event::Affinity(number, mask),
            3 => set::Event::Offline(number as u8),
            _ => set::Event::Online(number as u8),
        }
    }

    /// The decision alone.
    pub struct Step {
        links: Links,
        arena: Vec<u8>,
    }

    pub fn step(work: &Work) -> Step {
        Step { links: Links::new(&set_of(work)), arena: Vec::with_capacity(256) }
    }

    impl Scheduler for Step {
        #[inline(always)]
        fn apply(&mut self, event: Event) -> u32 {
            self.arena.clear();
            std::hint::black_box(self.links.step(event_of(event), &mut self.arena));
            self.links.touched = 0;
            self.arena.len() as u32
        }

        fn on(&mut self, processor: u8) -> u32 {
            self.links.on[processor as usize]
        }
    }

    /// The decision, its entry in a history, and the accounts.
    pub struct Whole(Core<Direct>);

    pub fn core(work: &Work) -> Whole {
        let set = set_of(work);
        Whole(Core::new(&set, work.events.len(), Direct::new(&set)))
    }

    impl Scheduler for Whole {
        #[inline(always)]
        fn apply(&mut self, event: Event) -> u32 {
            self.0.apply(0, event_of(event));
            self.0.history.entries.len() as u32
        }

        fn on(&mut self, processor: u8) -> u32 {
            self.0.links.on[processor as usize]
        }
    }
}

/// Once over all events. Its instructions are those that are counted.
#[inline(never)]
fn go<S: Scheduler>(scheduler: &mut S, events: &[Event]) -> u32 {
    events.iter().fold(0, |sum, event| sum ^ scheduler.apply(*event))
}

macro_rules! counted {
    ($name:ident, $type:ty) => {
        #[no_mangle]
        #[inline(never)]
        extern "C" fn $name(scheduler: &mut $type, work: &Work) -> u32 {
            go(scheduler, &work.events)
        }
    };
}

counted!(measured_ours, Apa);
#[cfg(feature = "beside")]
counted!(measured_step, beside::Step);
#[cfg(feature = "beside")]
counted!(measured_core, beside::Whole);

/// Medians over the rounds, and single events of one more round: half, 99 of 100, and all are no slower.
fn times<S: Scheduler>(name: &str, work: &Work, rounds: usize, new: impl Fn(&Work) -> S) {
    let nanoseconds = |from: Instant| from.elapsed().as_nanos() as f64;
    let mut whole: Vec<f64> = (0..rounds).map(|_| {
        let mut scheduler = new(work);
        let from = Instant::now();
        std::hint::black_box(go(&mut scheduler, &work.events));
        nanoseconds(from) / work.events.len() as f64
    }).collect();
    let mut scheduler = new(work);
    let mut single: Vec<f64> = work.events.iter().map(|event| {
        let from = Instant::now();
        std::hint::black_box(scheduler.apply(*event));
        nanoseconds(from)
    }).collect();
    whole.sort_by(f64::total_cmp);
    single.sort_by(f64::total_cmp);
    let at = |part: usize| single[(single.len() - 1) * part / 100];
    println!("{name} {:.1} {:.0} {:.0} {:.0}", whole[rounds / 2], at(50), at(99), at(100));
}

#[cfg(feature = "beside")]
fn compare(work: &Work) {
    let (mut ours, mut plain) = (Apa::new(work), beside::step(work));
    for (i, event) in work.events.iter().enumerate() {
        ours.apply(*event);
        plain.apply(*event);
        for p in 0..work.processors {
            assert_eq!(ours.on(p), plain.on(p), "after event {i}, processor {p}");
        }
    }
}

fn main() {
    let words: Vec<String> = std::env::args().collect();
    let number = |i: usize| words[i].parse::<usize>().expect("a number");
    let work = work(&words[2], number(3) as u8, number(4));
    match words[1].as_str() {
        "ours" => println!("{}", measured_ours(&mut Apa::new(&work), &work)),
        #[cfg(feature = "beside")]
        "step" => println!("{}", measured_step(&mut beside::step(&work), &work)),
        #[cfg(feature = "beside")]
        "core" => println!("{}", measured_core(&mut beside::core(&work), &work)),
        _ => {
            times("ours", &work, number(5), Apa::new);
            #[cfg(feature = "beside")]
            {
                compare(&work);
                times("step", &work, number(5), beside::step);
                times("core", &work, number(5), beside::core);
            }
        }
    }
}
