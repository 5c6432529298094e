//! Retries with a growing pause, over a pool: a request that gets no answer is sent again after 4 ms, then 8, then 16, and given up
//! after five attempts. Each attempt is a task of its own, so no thread is held in a pause.

use sched::{ScheduledThreadPool, TimersError};
use std::error::Error;
use std::sync::Arc;
use std::sync::mpsc::{self, Sender};
use std::time::{Duration, Instant};

const FIRST_PAUSE: Duration = Duration::from_millis(4);
const MOST_ATTEMPTS: u32 = 5;

/// A request, to a server that is busy at first.
#[derive(Clone, Copy)]
struct Request {
    name: &'static str,
    /// How many attempts get no answer.
    in_vain: u32,
}

/// How a request went.
struct Report {
    name: &'static str,
    attempts: u32,
    answered: bool,
    /// How long it waited between its attempts, at least.
    paused: Duration,
    /// Whether an attempt was made before its pause was over.
    early: bool,
}

/// The pause before an attempt, of which the first has the number 1.
fn pause_before(attempt: u32) -> Duration {
    match attempt {
        1 => Duration::ZERO,
        _ => FIRST_PAUSE * 2u32.pow(attempt - 2),
    }
}

/// Submits the next attempt of a request. The last one sends the report.
fn submit(
    pool: &Arc<ScheduledThreadPool>,
    request: Request,
    mut report: Report,
    reports: Sender<Report>,
) -> Result<(), TimersError> {
    report.attempts += 1;
    let pause = pause_before(report.attempts);
    let due = Instant::now() + pause;
    let next = Arc::clone(pool);
    pool.schedule(pause, move || {
        report.paused += pause;
        report.early |= Instant::now() < due;
        report.answered = report.attempts > request.in_vain;
        if !report.answered && report.attempts < MOST_ATTEMPTS {
            return submit(&next, request, report, reports);
        }
        reports.send(report).expect("somebody listens");
        Ok(())
    })?;
    Ok(())
}

/// The reports of some requests, by their names.
fn reports(
    pool: &Arc<ScheduledThreadPool>,
    requests: &[Request],
) -> Result<Vec<Report>, TimersError> {
    let (sender, receiver) = mpsc::channel();
    for request in requests {
        let report = Report {
            name: request.name,
            attempts: 0,
            answered: false,
            paused: Duration::ZERO,
            early: false,
        };
        submit(pool, *request, report, sender.clone())?;
    }
    drop(sender);
    let mut reports: Vec<Report> = receiver.iter().collect();
    reports.sort_by_key(|report| report.name);
    Ok(reports)
}

fn main() -> Result<(), Box<dyn Error>> {
    let pool = Arc::new(ScheduledThreadPool::new(2)?);
    let requests = [("a", 0), ("b", 2), ("c", 9), ("d", 4)];
    let requests = requests.map(|(name, in_vain)| Request { name, in_vain });
    let reports = reports(&pool, &requests)?;
    for report in &reports {
        let end = if report.answered {
            "an answer"
        } else {
            "given up"
        };
        println!(
            "request {}: {end} at attempt {}, after {} ms of pauses",
            report.name,
            report.attempts,
            report.paused.as_millis()
        );
    }
    println!(
        "an attempt was early: {}",
        reports.iter().any(|report| report.early)
    );
    let last = pool.schedule(Duration::from_secs(3_600), || "never sent")?;
    println!("a retry that waits is cancelled: {}", last.cancel());
    if let Err(error) = last.join() {
        println!("its result: {error}");
    }
    pool.shutdown();
    println!(
        "the pool ends: {}",
        pool.await_termination(Duration::from_secs(60))
    );
    if let Err(refusal) = pool.execute(|| ()) {
        println!("after that: {refusal}");
    }
    Ok(())
}
