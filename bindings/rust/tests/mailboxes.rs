//! Room in a mailbox and in a list of expired timers is made and given back, and the messages are the same.
use std::time::Duration;

use ertime::{Error, Hub, Mail, Reading, Settings, Start, World};

const BURST: usize = 1_000;

fn settings() -> Settings {
    Settings::new(Reading::default()).processes(2).seats(1)
}

/// Of the whole world and of a part of one, whose second process this is.
fn a_burst(mut world: World<usize>) -> Result<(), Error> {
    assert_eq!(world.reserve_mail(2, 1), Err(Error::Range));
    assert_eq!(world.shrink_mail(2), Err(Error::Range));
    assert_eq!(world.reserve_mail(1, usize::MAX), Err(Error::NoMemory));
    world.reserve_mail(1, BURST)?;
    assert_eq!(world.reserve_expired(1, 1), Err(Error::Range));
    assert_eq!(world.shrink_expired(1), Err(Error::Range));
    assert_eq!(world.reserve_expired(0, usize::MAX), Err(Error::NoMemory));
    world.reserve_expired(0, BURST)?;
    assert_eq!(world.reserve(usize::MAX), Err(Error::NoMemory));
    world.reserve(BURST)?;
    for number in 0..BURST {
        world.start(Start::after(Duration::ZERO, number).to(1))?;
    }
    assert_eq!(world.advance(0)?.expired as usize, BURST);
    world.shrink_expired(0)?;
    assert_eq!(world.expired(0)?, BURST as u64);
    assert_eq!(world.turn()?.put as usize, BURST);
    world.shrink_expired(0)?;
    assert_eq!(world.next_mail()?, Some(1));
    let mut mails: Vec<_> = world.drain(1)?.take(BURST - 1).collect();
    world.shrink_mail(1)?;
    assert_eq!(world.mail_count(1)?, 1);
    mails.extend(world.drain(1)?);
    world.shrink_mail(1)?;
    assert!(mails.into_iter().filter_map(Mail::into_message).eq(0..BURST));
    Ok(())
}

#[test]
fn of_a_world() -> Result<(), Error> {
    a_burst(World::open(&settings())?)
}

#[test]
fn of_a_part() -> Result<(), Error> {
    let mut hub = Hub::open(&settings())?;
    let part: World<usize> = hub.shard(1)?;
    assert_eq!((part.schedulers(), part.processes()), (0..1, 1..2));
    assert_eq!(hub.shard::<()>(0).map(drop), Err(Error::NoShard));
    a_burst(part)
}

#[test]
fn parts_end_one_anothers_timers() -> Result<(), Error> {
    let mut hub = Hub::open(&settings().schedulers(2))?;
    let (mut one, mut two): (World<String>, World<u8>) = (hub.shard(1)?, hub.shard(1)?);
    let second = Duration::from_secs(1);
    assert_eq!(two.tick(Reading::default()).map(drop), Err(Error::NoClock));
    let timers = [0, 1, 2].map(|number| one.start(Start::after(second, number.to_string())).expect("there is room"));
    let names = timers.map(|timer| one.name(timer).expect("it is armed"));
    assert_eq!(two.left_named(&names[0]), Some(second));
    assert_eq!(two.cancel_named(&names[0]), Some(second));
    assert_eq!(hub.seat()?.cancel_named(&names[1]), Some(second));
    assert_eq!((two.cancel_named(&names[1]), hub.left_named(&names[2])), (None, Some(second)));
    assert!(one.message(timers[1]).is_some());
    assert_eq!(one.drop_settled()?, 2);
    assert!(one.message(timers[0]).is_none() && one.message(timers[1]).is_none());
    assert_eq!(hub.cancel_named(&names[2]), Some(second));
    let beat = one.start(Start::after(second, "beat".to_string()))?;
    assert_eq!(one.processes(), 1..2);
    hub.tick(Reading::monotonic(second))?;
    one.turn()?;
    assert_eq!(one.take(1)?, Some(Mail::Timeout { timer: beat, message: "beat".to_string() }));
    assert_eq!(one.take(0).map(drop), Err(Error::Range));
    Ok(())
}
