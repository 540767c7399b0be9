//! A world with messages of the program's own type: each comes back or is dropped, once.
use std::cell::Cell;
use std::collections::{BTreeSet, HashSet};
use std::rc::Rc;
use std::thread;
use std::time::Duration;

use ertime::{Error, Mail, OffsetState, Reading, Request, Settings, Start, Time, World};

const MS: Duration = Duration::from_millis(1);

/// Counts itself while it is there.
struct Counted(Rc<Cell<i32>>, u32);

impl Counted {
    fn new(count: &Rc<Cell<i32>>, number: u32) -> Counted {
        count.set(count.get() + 1);
        Counted(Rc::clone(count), number)
    }
}

impl Drop for Counted {
    fn drop(&mut self) {
        self.0.set(self.0.get() - 1);
    }
}

fn open<T>(settings: Settings) -> Result<World<T>, Error> {
    World::open(&settings)
}

fn settings() -> Settings {
    Settings::new(Reading::default())
}

fn go<T>(world: &mut World<T>, milliseconds: u64) -> Result<(), Error> {
    world.tick(Reading::monotonic(Duration::from_millis(milliseconds)))?;
    world.turn()?;
    Ok(())
}

/// Takes the messages of process 0.
fn messages<T>(world: &mut World<T>) -> Result<Vec<T>, Error> {
    Ok(world.drain(0)?.filter_map(Mail::into_message).collect())
}

#[test]
fn a_path_from_end_to_end() -> Result<(), Error> {
    let mut world = open(settings())?;
    let late = world.start(Start::after(60 * MS, "late".to_string()))?;
    let soon = world.start(Start::after(MS * 20, "soon".to_string()))?;
    assert_ne!(late, soon);
    assert_eq!(world.wait()?, Some(20 * MS));
    assert_eq!(world.message(late).map(String::as_str), Some("late"));
    go(&mut world, 19)?;
    assert!(world.take(0)?.is_none());
    go(&mut world, 20)?;
    assert_eq!(world.take(0)?, Some(Mail::Timeout { timer: soon, message: "soon".to_string() }));
    assert_eq!(world.take(0)?, None);
    let cancelled = world.cancel(late).expect("it is armed");
    assert_eq!((cancelled.left, cancelled.message.as_str()), (40 * MS, "late"));
    assert!(world.cancel(late).is_none() && world.left(late).is_none() && world.message(late).is_none());
    assert_eq!(world.next_due()?, None);
    Ok(())
}

#[test]
fn a_restart_keeps_the_timer_and_its_message() -> Result<(), Error> {
    let mut world = open(settings())?;
    let timer = world.start(Start::after(20 * MS, 7_u8))?;
    go(&mut world, 10)?;
    assert!(world.restart(timer, 20 * MS)?);
    assert_eq!(world.left(timer), Some(20 * MS));
    assert_eq!(world.restart(timer, Time::from_nanos(-1_000_000)), Err(Error::BadTime));
    go(&mut world, 29)?;
    assert!(messages(&mut world)?.is_empty());
    go(&mut world, 30)?;
    assert_eq!(world.take(0)?, Some(Mail::Timeout { timer, message: 7 }));
    assert!(!world.restart(timer, MS)?);
    Ok(())
}

#[test]
fn durations_are_rounded_up() -> Result<(), Error> {
    let mut world = open(settings())?;
    world.start(Start::after(Duration::from_nanos(1), ()))?;
    world.start(Start::at(Time::from_nanos(1_000_001), ()))?;
    go(&mut world, 1)?;
    assert_eq!(messages(&mut world)?.len(), 1);
    assert_eq!(world.next_due()?, Some(Time::from_nanos(2_000_000)));
    Ok(())
}

#[test]
fn times_count_from_the_start_time() -> Result<(), Error> {
    let mut settings = settings();
    settings.start = Time::from_nanos(-5_000_000);
    let mut world = open(settings)?;
    world.start(Start::at(Time::from_nanos(0), ()))?;
    assert_eq!((world.next_due()?, world.wait()?), (Some(Time::from_nanos(0)), Some(5 * MS)));
    go(&mut world, 5)?;
    assert_eq!(world.turn()?.to, Time::from_nanos(0));
    assert_eq!(messages(&mut world)?.len(), 1);
    Ok(())
}

#[test]
fn each_message_is_dropped_once() -> Result<(), Error> {
    let count = Rc::new(Cell::new(0));
    let mut world = open(settings().processes(2))?;
    let mut timers = Vec::new();
    for number in 0..10 {
        timers.push(world.start(Start::after(MS * (number + 1), Counted::new(&count, number)))?);
    }
    for number in 10..13 {
        world.start(Start::after(MS, Counted::new(&count, number)).to(1))?;
    }
    assert_eq!(count.get(), 13);
    drop(world.cancel(timers[9]));
    assert_eq!(count.get(), 12);
    go(&mut world, 3)?;
    // One of three is taken, one is withdrawn, and one stays.
    assert_eq!(world.take(0)?.and_then(Mail::into_message).map(|it| it.1), Some(0));
    assert_eq!(world.withdraw(timers[1]).map(|it| it.1), Some(1));
    assert!(world.withdraw(timers[1]).is_none() && world.cancel(timers[1]).is_none());
    assert_eq!(world.mail_count(0)?, 2);
    assert_eq!(count.get(), 10);
    // The first two are those of timers 1 and 2: only the second has its message.
    assert_eq!(world.take(0)?.and_then(Mail::into_message).map(|it| it.1), Some(2));
    assert!(world.take(0)?.is_none());
    assert_eq!(world.withdraw(timers[3]).map(|it| it.1), Some(3));
    assert_eq!(count.get(), 8);
    assert_eq!(world.cancel_all(0)?, 5);
    assert_eq!((count.get(), world.cancel_all(0)?), (3, 0));
    assert_eq!(world.cancel_all(2), Err(Error::Range));
    // Those of process 1 are in its mailbox.
    assert!(world.exit(1)? && !world.exit(1)?);
    assert_eq!(count.get(), 0);
    let refused = world.start(Start::after(MS, Counted::new(&count, 20)).to(1)).expect_err("it has exited");
    assert_eq!((refused.error, refused.start.message.1), (Error::Exited, 20));
    drop(refused);
    world.start(Start::after(MS, Counted::new(&count, 21)))?;
    world.start(Start::after(MS, Counted::new(&count, 22)))?;
    go(&mut world, 4)?;
    assert_eq!(count.get(), 2);
    drop(world);
    assert_eq!(count.get(), 0);
    Ok(())
}

#[test]
fn a_refused_start_gives_its_message_back() -> Result<(), Error> {
    let mut world = open(settings().slots(1))?;
    let first = world.start(Start::after(MS, "first"))?;
    let refused = world.start(Start::after(MS, "second")).expect_err("there is one slot");
    assert_eq!((refused.error, refused.start.message), (Error::Full, "second"));
    assert_eq!(world.start(Start::after(MS, "third").to(1)).expect_err("there is one process").error, Error::Range);
    assert_eq!(world.start(Start::after(MS, "third").on(1)).expect_err("there is one scheduler").error, Error::Range);
    assert_eq!(world.start(Start::after(Duration::MAX, "third")).expect_err("it is too late").error, Error::BadTime);
    assert!(world.cancel(first).is_some());
    world.start(refused.start)?;
    Ok(())
}

#[test]
fn a_guard_cancels() -> Result<(), Error> {
    let count = Rc::new(Cell::new(0));
    let mut world = open(settings())?;
    let mut guards = Vec::new();
    for number in 0..3 {
        let timer = world.start(Start::after(MS * (number + 1), Counted::new(&count, number)))?;
        guards.push(world.guard(timer));
    }
    go(&mut world, 1)?;
    assert_eq!((world.mail_count(0)?, count.get()), (1, 3));
    let last = guards.pop().expect("there are three").disarm();
    // One has expired, and one is armed. On another thread, since a guard is `Send`.
    thread::spawn(move || drop(guards)).join().expect("a thread ends");
    assert!(world.take(0)?.is_none());
    assert_eq!((count.get(), world.held(0)?), (1, 1));
    go(&mut world, 3)?;
    assert_eq!(world.take(0)?.and_then(|it| it.timer()), Some(last));
    Ok(())
}

#[test]
fn seats_cancel_by_names() -> Result<(), Error> {
    let mut world = open(settings().seats(1))?;
    let mut seat = world.seat()?;
    assert_eq!(world.seat().map(drop), Err(Error::NoSeat));
    let timer = world.start(Start::after(MS, Box::new(1)))?;
    let other = world.start(Start::after(MS, Box::new(2)))?;
    let (name, old) = (world.name(timer).expect("it is armed"), world.name(other).expect("it is armed"));
    assert!(world.restart(other, 2 * MS)?);
    let left = thread::scope(|scope| {
        scope.spawn(|| (seat.left_named(&name), seat.cancel_named(&name), seat.cancel_named(&old))).join()
    });
    assert_eq!(left.expect("a thread ends"), (Some(MS), Some(MS), None));
    assert_eq!(world.message(timer).map(|it| **it), Some(1));
    assert_eq!(world.next_due()?, Some(Time::from_nanos(2_000_000)));
    assert!(world.message(timer).is_none() && world.name(timer).is_none());
    let mut stranger = open(settings())?;
    stranger.start(Start::after(MS, Box::new(3)))?;
    assert!(stranger.cancel_named(&name).is_none() && stranger.cancel(timer).is_none());
    assert_eq!(world.cancel_named(&world.name(other).expect("it is armed")), Some(2 * MS));
    assert!(world.message(other).is_none());
    drop(world);
    assert!(seat.cancel_named(&name).is_none());
    Ok(())
}

#[test]
fn requests_bring_messages_back() -> Result<(), Error> {
    let mut world = open(settings())?;
    let timer = world.start(Start::after(MS, "asked"))?;
    world.ask(Request::Read, timer, 0)?;
    world.ask(Request::Cancel, timer, 0)?;
    world.ask(Request::Cancel, timer, 0)?;
    world.turn()?;
    let answers: Vec<_> = world.drain(0)?.collect();
    let message = Some("asked");
    assert_eq!(
        answers,
        [
            Mail::ReadDone { timer, left: Some(MS) },
            Mail::CancelDone { timer, left: Some(MS), message },
            Mail::CancelDone { timer, left: None, message: None },
        ]
    );
    assert!(world.message(timer).is_none());
    Ok(())
}

#[test]
fn drain_leaves_what_it_did_not_come_to() -> Result<(), Error> {
    let mut world = open(settings())?;
    for number in 0..4 {
        world.start(Start::after(MS, number).bare())?;
    }
    go(&mut world, 1)?;
    assert_eq!(world.drain(0)?.take(2).count(), 2);
    assert_eq!(world.drain(0)?.collect::<Vec<_>>(), [Mail::Bare { message: 2 }, Mail::Bare { message: 3 }]);
    assert_eq!(world.drain(1).map(drop), Err(Error::Range));
    Ok(())
}

#[test]
fn timers_are_keys() -> Result<(), Error> {
    let mut world = open(settings())?;
    let first = world.start(Start::after(MS, ()))?;
    world.cancel(first);
    let second = world.start(Start::after(MS, ()))?;
    assert_eq!(HashSet::from([first, second]).len(), 2);
    assert_eq!(BTreeSet::from([first, second]).len(), 2);
    assert!(world.left(first).is_none() && world.left(second).is_some());
    Ok(())
}

#[test]
fn the_offset_changes() -> Result<(), Error> {
    let mut world = open::<()>(settings())?;
    let monitor = world.monitor(0)?;
    assert_eq!(world.time_offset().state, OffsetState::Volatile);
    let moved = world.check(Reading { mono: 1_000_000, sys: 9_000_000_000 })?;
    assert_eq!(moved.shift, Some(8_999_000_000));
    assert_eq!(world.notify(0)?, 1);
    assert_eq!(world.take(0)?, Some(Mail::Change { monitor, offset: 8_999_000_000 }));
    assert!(world.demonitor(0, monitor)? && !world.demonitor(0, monitor)?);
    Ok(())
}
