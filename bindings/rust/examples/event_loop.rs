//! An event loop: it waits for input, and no longer than until the next timer may be due. Then it reads the clocks,
//! makes a turn, and takes the messages. One timer starts itself again, as an interval would. At the last beat the
//! program sends itself a message, and the input that comes so cancels the other timer.
use std::error::Error;
use std::sync::mpsc::{self, RecvTimeoutError};
use std::time::Duration;

use ertime::{Clock, Mail, Reading, Settings, Start, World};

const LAST_BEAT: u32 = 3;
const PERIOD: Duration = Duration::from_millis(20);

/// What a timer is for.
enum For {
    Beat,
    Late,
}

/// What other threads tell the loop.
enum Input {
    Stop,
}

fn main() -> Result<(), Box<dyn Error>> {
    let clock = Clock::new();
    let (sender, receiver) = mpsc::channel();
    // 1,024 slots by default: room for far more timers at once than the two. Slots don't wear out.
    let mut world = World::open(&Settings::new(Reading::default()))?;
    let late = world.start(Start::after(Duration::from_secs(60), For::Late))?;
    world.start(Start::after(PERIOD, For::Beat))?;

    let mut beats = 0;
    while let Some(due) = world.next_due()? {
        let stops = match receiver.recv_timeout(due - clock.now()) {
            Ok(Input::Stop) => true,
            Err(RecvTimeoutError::Timeout) => false,
            Err(gone) => return Err(gone.into()),
        };
        world.tick(clock.read())?;
        if stops && world.withdraw(late).is_some() {
            println!("the late timer is cancelled");
        }
        world.turn()?;
        while let Some(mail) = world.take(0)? {
            let Mail::Timeout { message: For::Beat, .. } = mail else { continue };
            beats += 1;
            println!("beat {beats}");
            if beats < LAST_BEAT {
                world.start(Start::after(PERIOD, For::Beat))?;
            } else {
                sender.send(Input::Stop)?;
            }
        }
    }
    println!("no timer is left");
    Ok(())
}
