//! Retries: each request that failed is sent again after a while, and one that is given up is not.

use sched::{DelayQueue, QueueError};

const MILLISECOND: u64 = 1_000_000;

fn main() -> Result<(), QueueError> {
    let mut retries = DelayQueue::new(4)?;
    for (request, wait) in [(0, 40), (1, 10), (2, 20), (3, 10)] {
        retries.insert(wait * MILLISECOND, request)?;
    }
    if let Err(refusal) = retries.insert(0, 1) {
        println!("request 1: {refusal}");
    }
    retries.remove(2);
    println!(
        "{} wait, request 0 until {:?}",
        retries.len(),
        retries.due_of(0)
    );
    for now in [15, 50] {
        for entry in retries.due(now * MILLISECOND) {
            println!("{now} ms: request {} again", entry.task);
        }
    }
    println!(
        "none wait: {}",
        retries.is_empty() && retries.peek().is_none()
    );
    Ok(())
}
