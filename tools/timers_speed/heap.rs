//! The rounds of `timers.c` over Rust's `BinaryHeap`: `heap run|cancel TASKS ROUNDS`. A task that is cancelled gives up its slot,
//! and its entry stays in the heap until it comes to the front, or more than half of the entries are such.
use std::cmp::Reverse;
use std::collections::BinaryHeap;
use std::time::Instant;

#[derive(Clone, Copy)]
struct Task {
    number: u64,
    slot: u32,
}

struct Seat {
    /// The number of the task that has the slot; of an empty one that of none.
    number: u64,
    data: u64,
}

const NONE: u64 = u64::MAX;

#[derive(Default)]
struct Timers {
    heap: BinaryHeap<Reverse<(u64, u64, u32)>>,
    seats: Vec<Seat>,
    empty: Vec<u32>,
    numbers: u64,
}

impl Timers {
    fn schedule(&mut self, due: u64, data: u64) -> Task {
        let number = self.numbers;
        self.numbers += 1;
        let seat = Seat { number, data };
        let slot = match self.empty.pop() {
            Some(slot) => {
                self.seats[slot as usize] = seat;
                slot
            }
            None => {
                self.seats.push(seat);
                self.seats.len() as u32 - 1
            }
        };
        self.heap.push(Reverse((due, number, slot)));
        Task { number, slot }
    }

    fn cancel(&mut self, task: Task) -> bool {
        let there = self.seats[task.slot as usize].number == task.number;
        if there {
            self.release(task.slot);
            self.tidy();
        }
        there
    }

    fn release(&mut self, slot: u32) {
        self.seats[slot as usize].number = NONE;
        self.empty.push(slot);
    }

    /// Drops the entries of tasks that are gone, where they are more than the others.
    fn tidy(&mut self) {
        let alive = self.seats.len() - self.empty.len();
        if self.heap.len() > 2 * alive {
            let seats = &self.seats;
            self.heap.retain(|Reverse((_, number, slot))| seats[*slot as usize].number == *number);
        }
    }

    /// The due moment of the first task that waits.
    fn next_due(&mut self) -> Option<u64> {
        while let Some(Reverse((due, number, slot))) = self.heap.peek() {
            if self.seats[*slot as usize].number == *number {
                return Some(*due);
            }
            self.heap.pop();
        }
        None
    }

    /// Takes out the first task, if it is due, and answers its data.
    fn poll(&mut self, now: u64) -> Option<u64> {
        if self.next_due()? > now {
            return None;
        }
        let Reverse((_, _, slot)) = self.heap.pop()?;
        self.release(slot);
        Some(self.seats[slot as usize].data)
    }
}

fn mixed(state: &mut u64) -> u64 {
    *state = state.wrapping_mul(6364136223846793005).wrapping_add(1442695040888963407);
    *state >> 33
}

fn run_rounds(timers: &mut Timers, state: &mut u64, rounds: u64) -> u64 {
    let (mut sum, mut now) = (0u64, 0);
    for _ in 0..rounds {
        now = timers.next_due().expect("a task waits").max(now);
        let data = timers.poll(now).expect("a task is due");
        now += 1;
        timers.schedule(now + 1 + mixed(state), data);
        sum = sum.wrapping_mul(31).wrapping_add(data);
    }
    sum
}

fn cancel_rounds(timers: &mut Timers, tasks: &mut [Task], state: &mut u64, rounds: u64) -> u64 {
    let (mut sum, mut first) = (0, 0);
    for _ in 0..rounds {
        sum += u64::from(timers.cancel(tasks[first]));
        tasks[first] = timers.schedule(1 + mixed(state), first as u64);
        first = if first + 1 == tasks.len() { 0 } else { first + 1 };
    }
    sum
}

fn main() {
    let words: Vec<String> = std::env::args().collect();
    let [_, work, alive, rounds] = &words[..] else { panic!("usage: heap run|cancel TASKS ROUNDS") };
    let (alive, rounds): (u64, u64) = (alive.parse().expect("tasks"), rounds.parse().expect("rounds"));
    let (mut timers, mut state) = (Timers::default(), 1);
    let mut tasks: Vec<Task> = (0..alive).map(|task| timers.schedule(1 + mixed(&mut state), task)).collect();
    let start = Instant::now();
    let sum = match work.as_str() {
        "run" => run_rounds(&mut timers, &mut state, rounds),
        _ => cancel_rounds(&mut timers, &mut tasks, &mut state, rounds),
    };
    println!("{:.1} ns, sum {sum}", start.elapsed().as_nanos() as f64 / rounds as f64);
}
