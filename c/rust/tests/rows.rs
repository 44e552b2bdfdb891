//! Rows that were worked by hand; c/examples/rows.c has more.

use apa::{Draft, Fault, Happened, Move};

#[test]
fn a_departure_a_mask_and_a_processor() {
    let mut draft = Draft::new(2).unwrap();
    for (priority, mask) in [(1, 1), (2, 3), (3, 2), (5, 1)] {
        draft.add_task(priority, mask).unwrap();
    }
    let mut scheduler = draft.start().unwrap();
    assert_eq!(scheduler.arrive(0), Ok(Happened::Placed));
    assert_eq!(scheduler.arrive(1), Ok(Happened::Placed));
    assert_eq!(scheduler.arrive(2), Ok(Happened::Waits));
    assert_eq!(scheduler.reached(), 3);
    assert_eq!(scheduler.depart(0), Ok(Happened::Freed));
    let moves: Vec<Move> = scheduler.moves().collect();
    assert_eq!(
        moves,
        [
            Move { task: 0, from: Some(0), to: None },
            Move { task: 1, from: Some(1), to: Some(0) },
            Move { task: 2, from: None, to: Some(1) },
        ]
    );
    assert_eq!((scheduler.back(), scheduler.occupied(), scheduler.on_line()), (3, 3, 3));
    assert_eq!((scheduler.is_ready(0), scheduler.is_ready(2), scheduler.is_ready(4)), (false, true, false));
    assert_eq!((scheduler.mask(1), scheduler.mask(4)), (Some(3), None));
    assert_eq!(scheduler.on(0), Some(1));
    assert_eq!(scheduler.of(3), None);
    assert_eq!(scheduler.set_mask(1, 4), Err(Fault::BadMask));
    assert_eq!(scheduler.offline(0), Ok(Happened::Off));
    assert_eq!(scheduler.online(2), Err(Fault::NoProcessor));
}

#[test]
fn refusals_of_a_draft() {
    assert_eq!(Draft::new(65).err(), Some(Fault::NoProcessor));
    let mut draft = Draft::new(1).unwrap();
    assert_eq!(draft.add_task(5, 1), Ok(0));
    assert_eq!(draft.add_task(5, 1), Err(Fault::SamePriority));
    assert_eq!(draft.add_task(6, 2), Err(Fault::BadMask));
}

#[test]
fn tasks_that_come_and_go() {
    let mut draft = Draft::new(1).unwrap();
    draft.add_task(u32::MAX, 1).unwrap();
    let mut scheduler = draft.start_with_slots(2).unwrap();
    assert_eq!(scheduler.arrive(1), Err(Fault::NoTask));
    assert_eq!(scheduler.admit(u32::MAX, 1), Err(Fault::SamePriority));
    assert_eq!(scheduler.admit(3, 2), Err(Fault::BadMask));
    let first = scheduler.admit(3, 1).unwrap();
    let second = scheduler.admit(4, 1).unwrap();
    assert!((first, second) == (1, 2) || (first, second) == (2, 1));
    assert_eq!(scheduler.admit(5, 1), Err(Fault::NoSlot));
    assert_eq!(scheduler.arrive(first), Ok(Happened::Placed));
    assert_eq!(scheduler.retire(first), Err(Fault::StillReady));
    assert_eq!(scheduler.set_priority(second, 3), Err(Fault::SamePriority));
    assert_eq!(scheduler.set_priority(second, 2), Ok(()));
    assert_eq!(scheduler.arrive(second), Ok(Happened::Displaced));
    assert_eq!(scheduler.depart(first), Ok(Happened::Left));
    assert_eq!(scheduler.retire(first), Ok(()));
    assert_eq!((scheduler.mask(first), scheduler.mask(second)), (None, Some(1)));
    assert_eq!(Draft::new(1).unwrap().start_with_slots(1025).err(), Some(Fault::TooMany));
}

#[test]
fn a_lost_task_is_helped() {
    let mut draft = Draft::new(2).unwrap();
    let wide = draft.add_task(1, 0b11).unwrap();
    let narrow = draft.add_task(2, 0b01).unwrap();
    let mut scheduler = draft.start().unwrap();
    scheduler.arrive(wide).unwrap();
    scheduler.arrive(narrow).unwrap();
    assert_eq!(scheduler.see(2, Some(0)), Err(Fault::NoTask));
    assert_eq!(scheduler.see(wide, Some(2)), Err(Fault::NoProcessor));
    assert_eq!(scheduler.see(wide, Some(0)), Ok(()));
    assert_eq!(scheduler.see(narrow, Some(0)), Ok(()));
    assert_eq!(scheduler.lost(), Some(narrow));
    assert_eq!(scheduler.help(), Some(narrow));
    let moves: Vec<Move> = scheduler.moves().collect();
    assert_eq!(moves, [Move { task: wide, from: Some(0), to: Some(1) }, Move { task: narrow, from: None, to: Some(0) }]);
    assert_eq!(scheduler.lost(), None);
    assert_eq!(scheduler.see(narrow, None), Ok(()));
    assert_eq!(scheduler.lost(), Some(narrow));
}

#[test]
fn it_goes_from_thread_to_thread() {
    let mut draft = Draft::new(1).unwrap();
    draft.add_task(1, 1).unwrap();
    let mut scheduler = draft.start().unwrap();
    let came = std::thread::spawn(move || scheduler.arrive(0)).join().unwrap();
    assert_eq!(came, Ok(Happened::Placed));
}
