//! The rounds of `timers.c` over the `DelayQueue` of tokio-util: `delay_queue run|cancel TASKS ROUNDS`. It is a wheel of whole
//! milliseconds, so the tasks are due up to TASKS / 32 milliseconds after they are submitted: some 64 at each millisecond, to which
//! tokio's clock, which is paused, is moved by hand. It has no numbers, no ties in order, and no finish.
use std::task::{Context, Poll, Waker};
use std::time::Duration;
use tokio::time::Instant;
use tokio_util::time::delay_queue::{DelayQueue, Key};

const DUE_AT_ONCE: u64 = 64;

struct Delays {
    state: u64,
    most: u64,
}

impl Delays {
    /// A mixed delay, of the same generator as in `timers.c`.
    fn next(&mut self) -> Duration {
        self.state = self.state.wrapping_mul(6364136223846793005).wrapping_add(1442695040888963407);
        Duration::from_millis(1 + (self.state >> 33) % self.most)
    }
}

async fn run_rounds(queue: &mut DelayQueue<u64>, delays: &mut Delays, rounds: u64) -> u64 {
    let mut context = Context::from_waker(Waker::noop());
    let (mut sum, mut done) = (0u64, 0);
    while done < rounds {
        tokio::time::advance(Duration::from_millis(1)).await;
        let now = Instant::now();
        while let Poll::Ready(Some(expired)) = queue.poll_expired(&mut context) {
            let data = expired.into_inner();
            queue.insert_at(data, now + delays.next());
            sum = sum.wrapping_mul(31).wrapping_add(data);
            done += 1;
        }
    }
    sum
}

fn cancel_rounds(queue: &mut DelayQueue<u64>, tasks: &mut [Key], delays: &mut Delays, rounds: u64) -> u64 {
    let (mut sum, mut first) = (0, 0);
    let now = Instant::now();
    for _ in 0..rounds {
        sum += u64::from(queue.remove(&tasks[first]).into_inner() == first as u64);
        tasks[first] = queue.insert_at(first as u64, now + delays.next());
        first = if first + 1 == tasks.len() { 0 } else { first + 1 };
    }
    sum
}

async fn measure(work: &str, alive: u64, rounds: u64) {
    let mut queue = DelayQueue::new();
    let mut delays = Delays { state: 1, most: (2 * alive / DUE_AT_ONCE).max(2) };
    let begin = Instant::now();
    let mut tasks: Vec<Key> = (0..alive).map(|task| queue.insert_at(task, begin + delays.next())).collect();
    let start = std::time::Instant::now();
    let sum = match work {
        "run" => run_rounds(&mut queue, &mut delays, rounds).await,
        _ => cancel_rounds(&mut queue, &mut tasks, &mut delays, rounds),
    };
    println!("{:.1} ns, sum {sum}", start.elapsed().as_nanos() as f64 / rounds as f64);
}

fn main() {
    let words: Vec<String> = std::env::args().collect();
    let [_, work, alive, rounds] = &words[..] else { panic!("usage: delay_queue run|cancel TASKS ROUNDS") };
    let (alive, rounds): (u64, u64) = (alive.parse().expect("tasks"), rounds.parse().expect("rounds"));
    let runtime = tokio::runtime::Builder::new_current_thread().enable_time().start_paused(true).build().expect("a runtime");
    runtime.block_on(measure(work, alive, rounds));
}
