//! How many tasks a second a pool runs, and how late its timers are: pool_speed [THREADS ..].
//! `tools/timers_speed/PoolSpeed.java` does the same in Java, and `tools/timers_speed/pools` runs both.
//!
//! The tasks of the first part have the delay 0 and do next to nothing; one thread submits them, and the time is taken until the
//! last one has run. A line gives the best of some rounds. The timers of the second part are spread over one second.

use sched::ScheduledThreadPool;
use std::error::Error;
use std::sync::atomic::{AtomicUsize, Ordering};
use std::sync::mpsc;
use std::time::{Duration, Instant};

const TASKS: usize = 1_000_000;
const ROUNDS: usize = 7;
const TIMERS: u32 = 1_000;
const LONG: Duration = Duration::from_secs(600);

/// How many tasks have run.
static RAN: AtomicUsize = AtomicUsize::new(0);

/// How many tasks a second a pool of so many threads ran.
fn tasks_a_second(threads: usize) -> Result<f64, Box<dyn Error>> {
    RAN.store(0, Ordering::Relaxed);
    let pool = ScheduledThreadPool::new(threads)?;
    let start = Instant::now();
    for _ in 0..TASKS {
        pool.schedule(Duration::ZERO, || RAN.fetch_add(1, Ordering::Relaxed))?;
    }
    pool.shutdown();
    let ended = pool.await_termination(LONG);
    let took = start.elapsed();
    assert!(
        ended && RAN.load(Ordering::Relaxed) == TASKS,
        "each task runs once"
    );
    Ok(TASKS as f64 / took.as_secs_f64())
}

/// How late each timer was, in nanoseconds, ascending.
fn lateness() -> Result<Vec<u128>, Box<dyn Error>> {
    let pool = ScheduledThreadPool::new(2)?;
    let (late, came) = mpsc::channel();
    for place in 1..=TIMERS {
        let late = late.clone();
        let delay = Duration::from_millis(100) + Duration::from_secs(1) * place / TIMERS;
        let due = Instant::now() + delay;
        pool.schedule(delay, move || late.send(due.elapsed().as_nanos()))?;
    }
    drop(late);
    let mut late: Vec<u128> = came.iter().collect();
    assert_eq!(late.len(), TIMERS as usize, "each timer ran");
    late.sort_unstable();
    Ok(late)
}

/// The numbers of threads that the command line names, or 1, 2 and 4.
fn threads_asked_for() -> Result<Vec<usize>, Box<dyn Error>> {
    let words: Vec<String> = std::env::args().skip(1).collect();
    if words.is_empty() {
        return Ok(vec![1, 2, 4]);
    }
    Ok(words
        .iter()
        .map(|word| word.parse())
        .collect::<Result<_, _>>()?)
}

fn main() -> Result<(), Box<dyn Error>> {
    for threads in threads_asked_for()? {
        let mut best: f64 = 0.0;
        for _ in 0..ROUNDS {
            best = best.max(tasks_a_second(threads)?);
        }
        println!("threads {threads}: {best:.0} tasks a second");
    }
    let late = lateness()?;
    let part = |hundredths: usize| late[late.len() * hundredths / 100] as f64 / 1_000.0;
    println!(
        "late by {:.1} us in the median, {:.1} us in the 99th percentile",
        part(50),
        part(99)
    );
    Ok(())
}
