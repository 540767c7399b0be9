//! An alarm in a loop of mio: it waits until a timer is due, no longer and no shorter.
use std::os::fd::AsRawFd;
use std::time::Duration;

use ertime::{Alarm, Clock, Mail, Reading, Settings, Start, World};
use mio::unix::SourceFd;
use mio::{Events, Interest, Poll, Token};

#[test]
fn an_alarm_wakes_the_loop() -> Result<(), Box<dyn std::error::Error>> {
    let (clock, alarm) = (Clock::new(), Alarm::new()?);
    let (mut poll, mut events) = (Poll::new()?, Events::with_capacity(8));
    poll.registry().register(&mut SourceFd(&alarm.as_raw_fd()), Token(0), Interest::READABLE)?;
    let mut world = World::open(&Settings::new(Reading::default()))?;
    for milliseconds in [15, 5, 10] {
        world.start(Start::after(Duration::from_millis(milliseconds), milliseconds))?;
    }
    let (mut came, mut wakes) = (Vec::new(), 0);
    while let Some(due) = world.next_due()? {
        alarm.set(Some(due - clock.now()))?;
        poll.poll(&mut events, None)?;
        assert!(events.iter().all(|event| event.token() == Token(0)));
        wakes += 1;
        assert!(alarm.clear() && !alarm.clear());
        world.tick(clock.read())?;
        assert!(world.now() >= due);
        world.turn()?;
        came.extend(world.drain(0)?.filter_map(Mail::into_message));
    }
    assert_eq!(came, [5, 10, 15]);
    assert!(wakes <= 3);
    // One that is not set doesn't wake it.
    alarm.set(Some(Duration::from_millis(1)))?;
    alarm.set(None)?;
    poll.poll(&mut events, Some(Duration::from_millis(10)))?;
    assert!(events.is_empty() && !alarm.clear());
    Ok(())
}
