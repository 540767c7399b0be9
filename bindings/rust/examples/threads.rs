//! Threads with a part of a world each: every thread starts timers, and cancels some of its neighbour's, while the first
//! thread ticks. At the end each timer was settled once, by a cancel or by its message.
use ertime::{Error, Hub, Name, Reading, Settings, Start, World};
use std::sync::Barrier;
use std::sync::mpsc::{Receiver, Sender, channel};
use std::thread;
use std::time::Duration;

const THREADS: u32 = 4;
const TIMERS: u32 = 1_000;
const AT: Duration = Duration::from_millis(20);

/// Starts the timers of a thread and passes their names on, cancels those that it was passed, and takes the messages of
/// its own that expired. Returns how many it cancelled, and how many came.
fn work(mut part: World<u32>, names: Sender<Name>, passed: Receiver<Name>, gate: &Barrier) -> Result<(usize, usize), Error> {
    let process = part.processes().start;
    for number in 0..TIMERS {
        let timer = part.start(Start::after(Duration::from_millis(10 + u64::from(number % 7)), number))?;
        if let Some(name) = part.name(timer).filter(|_| number % 2 == 0) {
            let _is_read = names.send(name);
        }
    }
    drop(names);
    let cancelled = passed.into_iter().filter_map(|it| part.cancel_named(&it)).count();
    gate.wait(); // all have cancelled
    gate.wait(); // the clock was moved on
    part.turn()?;
    Ok((cancelled, part.drain(process)?.count()))
}

fn main() -> Result<(), Error> {
    let settings = Settings::new(Reading::default()).schedulers(THREADS).processes(THREADS).slots(TIMERS).seats(1);
    let mut hub = Hub::open(&settings)?;
    let seat = hub.seat()?;
    let gate = Barrier::new(THREADS as usize + 1);
    let (mut names, mut passed): (Vec<_>, Vec<_>) = (0..THREADS).map(|_| channel()).unzip();
    names.rotate_left(1);
    let (mut cancelled, mut taken) = (0, 0);
    thread::scope(|scope| -> Result<(), Error> {
        let mut running = Vec::new();
        for (names, passed) in names.drain(..).zip(passed.drain(..)) {
            let part = hub.shard(1)?;
            running.push(scope.spawn(|| work(part, names, passed, &gate)));
        }
        gate.wait();
        hub.tick(Reading::monotonic(AT))?;
        gate.wait();
        for thread in running {
            let (by_cancel, by_message) = thread.join().expect("a thread ends")?;
            cancelled += by_cancel;
            taken += by_message;
        }
        Ok(())
    })?;
    assert_eq!(u128::from(seat.now().as_nanos().unsigned_abs()), AT.as_nanos());
    println!("cancelled: {cancelled}, taken: {taken}, of {}", THREADS * TIMERS);
    Ok(())
}
