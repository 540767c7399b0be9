//! The same futures in a task of tokio, and by a clock that the test moves.
use std::error::Error;
use std::future::{Future, pending};
use std::pin::Pin;
use std::sync::{Arc, Mutex};
use std::time::{Duration, Instant};

use ertime::{Clock, Hub, Missed, Reading, Settings, Timers};
use tokio::runtime::{Builder, Runtime};
use tokio::sync::mpsc;

type Tried = Result<(), Box<dyn Error>>;
const MS: Duration = Duration::from_millis(1);

fn runtime() -> Runtime {
    Builder::new_current_thread().enable_io().build().expect("there is a runtime")
}

/// Runs a scenario in a task of tokio by the real clock, and then by a clock that is moved.
fn both<F: Future<Output = Tried>>(scenario: impl Fn(Timers) -> F) -> Tried {
    runtime().block_on(async { scenario(ertime_tokio::timers()?).await })?;
    let moved = Timers::open(64, Clock::moved())?;
    moved.run(scenario(moved.clone()))?.expect("it ends")
}

#[test]
fn sleeps_end_in_order_and_never_early() -> Tried {
    both(|timers| async move {
        let (sender, mut ends) = mpsc::unbounded_channel();
        let sleep = |milliseconds: u32| {
            let (timers, sender) = (timers.clone(), sender.clone());
            async move {
                let begun = timers.clock().elapsed();
                timers.sleep(MS * milliseconds).await?;
                assert!(timers.clock().elapsed() >= begun + MS * milliseconds);
                sender.send(milliseconds).expect("it is read");
                Ok::<_, ertime::Error>(())
            }
        };
        tokio::try_join!(sleep(30), sleep(10), sleep(0), sleep(20))?;
        drop(sender);
        for milliseconds in [0, 10, 20, 30] {
            assert_eq!(ends.recv().await, Some(milliseconds));
        }
        Ok(())
    })
}

#[test]
fn an_interval_does_not_drift() -> Tried {
    both(|timers| async move {
        let mut beat = timers.interval(5 * MS)?;
        let begun = beat.tick().await?;
        for number in 1..4 {
            assert_eq!(beat.tick().await?, begun + 5 * MS * number);
        }
        timers.sleep(12 * MS).await?;
        let mut skipping = timers.interval(5 * MS)?.missed(Missed::Skip);
        let first = skipping.tick().await?;
        timers.sleep(12 * MS).await?;
        // The tick that is late comes once, and those after it are in the future.
        assert_eq!(skipping.tick().await?, first + 5 * MS);
        let next = skipping.tick().await?;
        assert!(next >= first + 15 * MS && (next - first).as_millis() % 5 == 0);
        // Those of the first one have waited, and all come.
        for number in 4..6 {
            assert_eq!(beat.tick().await?, begun + 5 * MS * number);
        }
        Ok(())
    })
}

#[test]
fn a_sleep_is_moved_and_dropped() -> Tried {
    both(|timers| async move {
        let begun = timers.clock().elapsed();
        let mut sleep = timers.sleep(Duration::from_secs(60));
        // Polled once, so that its timer is armed.
        assert_eq!(timers.timeout(MS, &mut sleep).await?, None);
        sleep.reset(10 * MS);
        (&mut sleep).await?;
        assert!(sleep.is_elapsed() && timers.clock().elapsed() >= begun + 11 * MS);
        // It is used again after its end.
        sleep.reset(5 * MS);
        (&mut sleep).await?;
        let mut dropped = timers.sleep(Duration::from_secs(60));
        assert_eq!(timers.timeout(MS, Pin::new(&mut dropped)).await?, None);
        drop(dropped);
        assert_eq!(timers.timeout(MS, async { 7 }).await?, Some(7));
        assert_eq!(timers.timeout(MS, pending::<()>()).await?, None);
        Ok(())
    })
}

#[test]
fn a_full_world_is_told() -> Tried {
    let timers = Timers::open(1, Clock::moved())?;
    let both = timers.run(async { tokio::join!(timers.sleep(MS), timers.sleep(MS)) })?;
    assert_eq!(both, Some((Ok(()), Err(ertime::Error::Full))));
    assert_eq!(timers.run(pending::<()>())?, None);
    Ok(())
}

#[test]
fn the_test_moves_the_clock_of_tasks() -> Tried {
    runtime().block_on(async {
        let timers = Timers::open(64, Clock::moved())?;
        let (sender, mut ticks) = mpsc::unbounded_channel();
        let mut beat = timers.interval(Duration::from_secs(60))?;
        tokio::spawn(async move {
            while let Ok(tick) = beat.tick().await {
                let _is_read = sender.send(tick);
            }
        });
        assert!(ticks.recv().await.is_some());
        for _ in 0..3 {
            tokio::task::yield_now().await;
            assert!(ticks.try_recv().is_err());
            timers.advance(Duration::from_secs(60))?;
            assert!(ticks.recv().await.is_some());
        }
        Ok(())
    })
}

#[test]
fn many_tasks_on_many_threads() -> Tried {
    let runtime = Builder::new_multi_thread().worker_threads(4).enable_io().build()?;
    runtime.block_on(async {
        let timers = ertime_tokio::timers()?;
        let tasks: Vec<_> = (0..2_000_u32)
            .map(|number| {
                let timers = timers.clone();
                tokio::spawn(async move {
                    let mut late = timers.sleep(Duration::from_secs(60));
                    let due = Instant::now() + MS * (number % 50);
                    for _ in 0..3 {
                        late.reset(Duration::from_secs(60));
                        timers.timeout(MS * (number % 7), &mut late).await?;
                    }
                    timers.sleep_until(due).await?;
                    assert!(Instant::now() >= due);
                    Ok::<_, ertime::Error>(())
                })
            })
            .collect();
        for task in tasks {
            task.await??;
        }
        Ok(())
    })
}

#[test]
fn a_part_for_each_thread() -> Tried {
    let clock = Clock::new();
    let mut hub = Hub::open(&Settings::new(Reading::default()).schedulers(2).processes(2))?;
    let parts = [hub.shard(1)?, hub.shard(1)?];
    let hub = Arc::new(Mutex::new(hub));
    std::thread::scope(|scope| {
        for part in parts {
            let (hub, clock) = (Arc::clone(&hub), clock.clone());
            scope.spawn(move || {
                runtime().block_on(async {
                    let timers = Timers::of_part(part, hub, clock).expect("there is a descriptor");
                    ertime_tokio::drive(&timers).expect("there is a reactor");
                    let begun = Instant::now();
                    timers.sleep(5 * MS).await.expect("there is room");
                    timers.sleep(5 * MS).await.expect("there is room");
                    assert!(begun.elapsed() >= 10 * MS);
                });
            });
        }
    });
    Ok(())
}
