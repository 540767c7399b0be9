//! Timers of tokio, by the operations of `bench/compare.c`.
//!
//! A timer is a boxed `Sleep` on a runtime of one thread. A start makes it and polls it once, which enters it
//! into the runtime's wheel, with a waker that does nothing; a cancel drops it. A start asks the operating system
//! for the time, and takes the lock of the wheel, as a cancel does. The polls are outside of a task, so that the
//! runtime's budget of polls isn't in the way.
//!
//! - `start_cancel`: a sleep is made, polled once and dropped
//! - `start`: in a new runtime
//! - `cancel`: in the order that all programs have
//! - `restart`: `Sleep::reset`, for which the program asks the operating system for the time. The wheel gets it to
//!   know later, where the old deadline is due.
//! - `packet`: the same for the idle timeout; the request's is dropped, and one made and polled once. Once in 100
//!   packets a yield in the runtime drives the wheel.
//! - `expire_at_once`: all sleep until one instant. When it has passed, a yield in the runtime drives the wheel,
//!   and then each is polled, is ready, and is dropped: the poll is what stands for delivery and the message that
//!   is taken.
//! - `expire_spread`: the same with spread deadlines and the paused clock of tokio's tests, which is moved by a
//!   millisecond 60,000 times; after each the sleeps that are due are polled and dropped. The feature `by_hand`
//!   builds this alone: with it each reading of the time takes a lock.
//!
//! `idle_pass` isn't here: the loop is the runtime's own.
//!
//! The command line, and what is printed, are those that `measure.h` tells.
#![deny(warnings)]

use std::future::Future;
use std::pin::Pin;
use std::process::exit;
use std::sync::Arc;
use std::task::{Context, Poll, Wake, Waker};
use std::time::Duration;
use tokio::runtime::{Builder, Runtime};
use tokio::time::{sleep, Sleep};

/// Over how many milliseconds deadlines are spread.
const SPREAD: u32 = 60_000;
const MOST_PASSES: usize = 15;
const FEW_PASSES: usize = 3;
const LONG_PASS: Duration = Duration::from_secs(2);

/// What is measured: how many calls a pass makes, the waits of the timers, the order of cancels, and the timer of
/// each call.
#[cfg_attr(feature = "by_hand", allow(dead_code))]
struct Measurement {
    calls: usize,
    waits: Vec<u32>,
    order: Vec<u32>,
    rounds: Vec<u32>,
}

/// Makes one pass, and gives how long it took.
type Pass = fn(&Measurement) -> Duration;

type Timer = Pin<Box<Sleep>>;

fn expect(holds: bool) {
    if !holds {
        eprintln!("a timer did otherwise than it has to");
        exit(1);
    }
}

fn refuse(why: &str) -> ! {
    eprintln!("{why}");
    exit(2)
}

/// Marsaglia's xorshift of 32 bits.
struct Random(u32);

impl Random {
    fn next(&mut self) -> u32 {
        self.0 ^= self.0 << 13;
        self.0 ^= self.0 >> 17;
        self.0 ^= self.0 << 5;
        self.0
    }
}

fn spread_waits(count: usize) -> Vec<u32> {
    let mut random = Random(1);
    (0..count).map(|_| random.next() % SPREAD + 1).collect()
}

fn random_order(count: usize) -> Vec<u32> {
    let mut random = Random(2);
    let mut order: Vec<u32> = (0..count as u32).collect();
    for i in (2..=count).rev() {
        order.swap(i - 1, random.next() as usize % i);
    }
    order
}

/// The timers of so many calls: each timer once in this order, then each once in another one, and so on.
fn rounds_of(order: &[u32], calls: usize) -> Vec<u32> {
    let mut rounds = order.to_vec();
    while rounds.len() < calls && !order.is_empty() {
        let last = rounds.len() - order.len();
        rounds.extend_from_within(last..);
        let (before, new) = rounds.split_at_mut(last + order.len());
        for (timer, place) in new.iter_mut().zip(order) {
            *timer = before[last + *place as usize];
        }
    }
    rounds.truncate(calls);
    rounds
}

fn digest(numbers: &[u32]) -> u32 {
    let step = |sum: u32, number: &u32| sum.wrapping_mul(31).wrapping_add(*number);
    numbers.iter().fold(0, step)
}

fn milliseconds(wait: u32) -> Duration {
    Duration::from_millis(wait.into())
}

struct Nothing;

impl Wake for Nothing {
    fn wake(self: Arc<Self>) {}
}

/// A runtime, and the waker that the polls get.
struct Rig {
    runtime: Runtime,
    waker: Waker,
}

impl Rig {
    fn open(paused: bool) -> Rig {
        let mut builder = Builder::new_current_thread();
        builder.enable_time();
        #[cfg(feature = "by_hand")]
        builder.start_paused(paused);
        #[cfg(not(feature = "by_hand"))]
        expect(!paused);
        let runtime = builder.build().expect("a runtime");
        let waker = Arc::new(Nothing).into();
        Rig { runtime, waker }
    }

    fn start(&self, timer: Sleep) -> Timer {
        let mut timer = Box::pin(timer);
        expect(self.poll(&mut timer) == Poll::Pending);
        timer
    }

    fn poll(&self, timer: &mut Timer) -> Poll<()> {
        timer.as_mut().poll(&mut Context::from_waker(&self.waker))
    }

    fn take(&self, mut timer: Timer) {
        expect(self.poll(&mut timer) == Poll::Ready(()));
    }

    fn start_all(&self, what: &Measurement, timers: &mut Vec<Timer>) {
        for wait in &what.waits {
            timers.push(self.start(sleep(milliseconds(*wait))));
        }
    }
}

/// The timers in the order of these numbers.
fn in_order(timers: Vec<Timer>, order: &[u32]) -> Vec<Timer> {
    let mut timers: Vec<Option<Timer>> = timers.into_iter().map(Some).collect();
    let numbers = order.iter();
    numbers.filter_map(|i| timers[*i as usize].take()).collect()
}

#[cfg(not(feature = "by_hand"))]
mod passes {
    use super::*;
    use tokio::time::{sleep_until, Instant};

    /// The wait of a timer that is started and cancelled again.
    const TIMEOUT: Duration = Duration::from_secs(5);
    /// The timeouts of a server's connection and of its request.
    const IDLE_TIMEOUT: Duration = Duration::from_secs(60);
    const REQUEST_TIMEOUT: Duration = Duration::from_secs(30);
    /// How many packets come between two yields.
    const PACKETS: usize = 100;

    pub(super) fn start_cancel(what: &Measurement) -> Duration {
        let rig = Rig::open(false);
        let _entered = rig.runtime.enter();
        let mut others = Vec::with_capacity(what.waits.len());
        rig.start_all(what, &mut others);
        let begun = std::time::Instant::now();
        for _ in 0..what.calls {
            drop(rig.start(sleep(TIMEOUT)));
        }
        begun.elapsed()
    }

    pub(super) fn start(what: &Measurement) -> Duration {
        let rig = Rig::open(false);
        let _entered = rig.runtime.enter();
        let mut timers = Vec::with_capacity(what.waits.len());
        let begun = std::time::Instant::now();
        rig.start_all(what, &mut timers);
        begun.elapsed()
    }

    pub(super) fn cancel(what: &Measurement) -> Duration {
        let rig = Rig::open(false);
        let _entered = rig.runtime.enter();
        let mut timers = Vec::with_capacity(what.waits.len());
        rig.start_all(what, &mut timers);
        let timers = in_order(timers, &what.order);
        expect(timers.len() == what.waits.len());
        let begun = std::time::Instant::now();
        drop(timers);
        begun.elapsed()
    }

    pub(super) fn restart(what: &Measurement) -> Duration {
        let rig = Rig::open(false);
        let _entered = rig.runtime.enter();
        let mut timers = start_each(&rig, what, IDLE_TIMEOUT);
        let begun = std::time::Instant::now();
        for i in &what.rounds {
            let until = Instant::now() + IDLE_TIMEOUT;
            timers[*i as usize].as_mut().reset(until);
        }
        begun.elapsed()
    }

    pub(super) fn packet(what: &Measurement) -> Duration {
        let rig = Rig::open(false);
        let _entered = rig.runtime.enter();
        let mut idle = start_each(&rig, what, IDLE_TIMEOUT);
        let mut requests: Vec<Option<Timer>> = start_each(&rig, what, REQUEST_TIMEOUT)
            .into_iter()
            .map(Some)
            .collect();
        let begun = std::time::Instant::now();
        for (call, i) in what.rounds.iter().enumerate() {
            if call % PACKETS == 0 {
                rig.runtime.block_on(tokio::task::yield_now());
            }
            let until = Instant::now() + IDLE_TIMEOUT;
            idle[*i as usize].as_mut().reset(until);
            drop(requests[*i as usize].take());
            requests[*i as usize] = Some(rig.start(sleep(REQUEST_TIMEOUT)));
        }
        begun.elapsed()
    }

    /// A timer of the same wait for each of the waits.
    fn start_each(rig: &Rig, what: &Measurement, wait: Duration) -> Vec<Timer> {
        let timers = what.waits.iter();
        timers.map(|_| rig.start(sleep(wait))).collect()
    }

    pub(super) fn expire_at_once(what: &Measurement) -> Duration {
        let rig = Rig::open(false);
        let entered = rig.runtime.enter();
        let due = Instant::now() + Duration::from_millis(1);
        let mut timers = Vec::with_capacity(what.waits.len());
        for _ in &what.waits {
            timers.push(rig.start(sleep_until(due)));
        }
        drop(entered);
        std::thread::sleep(Duration::from_millis(3));
        let begun = std::time::Instant::now();
        rig.runtime.block_on(tokio::task::yield_now());
        for timer in timers {
            rig.take(timer);
        }
        begun.elapsed()
    }

    /// The memory of timers that are outstanding, and of the program's pointers to them.
    pub(super) fn bytes(what: &Measurement) -> u64 {
        let before = resident();
        let rig = Rig::open(false);
        let _entered = rig.runtime.enter();
        let mut timers = Vec::with_capacity(what.waits.len());
        rig.start_all(what, &mut timers);
        resident() - before
    }

    /// The bytes of memory that the process has (Linux, `proc(5)`, the second word of `statm`).
    fn resident() -> u64 {
        let text = std::fs::read_to_string("/proc/self/statm").expect("statm");
        let word = text.split_whitespace().nth(1).expect("a second word");
        word.parse::<u64>().expect("a number") * 4_096
    }
}

#[cfg(feature = "by_hand")]
mod passes {
    use super::*;

    pub(super) fn expire_spread(what: &Measurement) -> Duration {
        let rig = Rig::open(true);
        let mut numbers: Vec<u32> = (0..what.waits.len() as u32).collect();
        numbers.sort_by_key(|i| what.waits[*i as usize]);
        rig.runtime.block_on(tokio::task::unconstrained(async {
            let mut timers = Vec::with_capacity(what.waits.len());
            rig.start_all(what, &mut timers);
            let mut waits = numbers.iter().map(|i| what.waits[*i as usize]).peekable();
            let mut timers = in_order(timers, &numbers).into_iter();
            let begun = std::time::Instant::now();
            for now in 1..=SPREAD {
                tokio::time::advance(milliseconds(1)).await;
                while waits.next_if_eq(&now).is_some() {
                    rig.take(timers.next().expect("a timer for each wait"));
                }
            }
            let taken = begun.elapsed();
            expect(timers.next().is_none());
            taken
        }))
    }
}

#[cfg(not(feature = "by_hand"))]
const OPERATIONS: &[(&str, Pass, bool)] = &[
    ("start_cancel", passes::start_cancel, true),
    ("start", passes::start, false),
    ("cancel", passes::cancel, false),
    ("restart", passes::restart, true),
    ("packet", passes::packet, true),
    ("expire_at_once", passes::expire_at_once, false),
];

#[cfg(feature = "by_hand")]
const OPERATIONS: &[(&str, Pass, bool)] = &[("expire_spread", passes::expire_spread, false)];

/// Makes the passes of an operation, and prints its line.
fn measure(pass: Pass, each: usize, what: &Measurement, mut passes: usize) {
    let mut taken = Vec::new();
    while taken.len() < passes {
        let time = pass(what);
        taken.push(time);
        if time > LONG_PASS && passes > FEW_PASSES {
            passes = FEW_PASSES;
        }
    }
    taken.sort_unstable();
    let for_each = |time: Duration| time.as_nanos() as f64 / each as f64;
    let median = for_each(taken[taken.len() / 2]);
    println!("{median:.2} {:.2} {}", for_each(taken[0]), taken.len());
}

fn number(word: &str) -> usize {
    word.parse()
        .unwrap_or_else(|_| refuse("no such number of timers, calls or passes"))
}

fn main() {
    let words: Vec<String> = std::env::args().skip(1).collect();
    let (operation, timers, calls, passes) = match &words[..] {
        [operation, timers, calls, passes] => (operation, timers, calls, passes),
        _ => refuse("usage: PROGRAM OPERATION TIMERS CALLS PASSES"),
    };
    let (timers, calls, passes) = (number(timers), number(calls), number(passes));
    let (waits, order) = (spread_waits(timers), random_order(timers));
    let rounds = rounds_of(&order, calls);
    let what = Measurement {
        calls,
        waits,
        order,
        rounds,
    };
    match operation.as_str() {
        "order" => println!("{} {}", digest(&what.waits), digest(&what.order)),
        #[cfg(not(feature = "by_hand"))]
        "bytes" => println!("{:.1}", passes::bytes(&what) as f64 / timers as f64),
        name => match OPERATIONS.iter().find(|known| known.0 == name) {
            Some((_, pass, by_calls)) if (1..=MOST_PASSES).contains(&passes) => {
                let each = if *by_calls { calls } else { timers };
                measure(*pass, each, &what, passes);
            }
            _ => refuse("no such operation, or no such number of passes"),
        },
    }
}
