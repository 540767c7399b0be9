//! A loop of mio with a world of its own: it reads lines from a socket, and ends when none has come for 50 milliseconds. Each line
//! restarts the timeout.
use std::error::Error;
use std::io::{ErrorKind, Read, Write};
use std::os::fd::AsRawFd;
use std::os::unix::net::UnixStream;
use std::thread;
use std::time::Duration;

use ertime::{Alarm, Clock, Reading, Settings, Start, World};
use mio::unix::SourceFd;
use mio::{Events, Interest, Poll, Token};

const TIMER: Token = Token(0);
const INPUT: Token = Token(1);
const IDLE: Duration = Duration::from_millis(50);

fn main() -> Result<(), Box<dyn Error>> {
    let (mut input, mut peer) = UnixStream::pair()?;
    input.set_nonblocking(true)?;
    let peer = thread::spawn(move || {
        for _ in 0..3 {
            peer.write_all(b"line\n").expect("it is read");
            thread::sleep(Duration::from_millis(10));
        }
        peer // it stays open
    });
    let (clock, alarm) = (Clock::new(), Alarm::new()?);
    let (mut poll, mut events) = (Poll::new()?, Events::with_capacity(64));
    poll.registry().register(&mut SourceFd(&alarm.as_raw_fd()), TIMER, Interest::READABLE)?;
    poll.registry().register(&mut SourceFd(&input.as_raw_fd()), INPUT, Interest::READABLE)?;
    let mut world = World::open(&Settings::new(Reading::default()))?;
    let idle = world.start(Start::after(IDLE, "no line has come"))?;
    let mut due = None;
    loop {
        let next = world.next_due()?;
        if next != due {
            due = next;
            alarm.set(due.map(|due| due - clock.now()))?;
        }
        poll.poll(&mut events, None)?;
        world.tick(clock.read())?;
        for event in &events {
            if event.token() == TIMER {
                alarm.clear();
                due = None;
            } else {
                let mut lines = [0; 64];
                match input.read(&mut lines) {
                    Ok(_) => world.restart(idle, IDLE).map(drop)?,
                    Err(why) if why.kind() == ErrorKind::WouldBlock => {}
                    Err(why) => return Err(why.into()),
                }
            }
        }
        world.turn()?;
        if let Some(message) = world.take(0)?.and_then(ertime::Mail::into_message) {
            println!("{message}");
            break;
        }
    }
    drop(peer.join());
    Ok(())
}
