//! How long the calls of Rust's `BinaryHeap` take where entries that are removed are only marked, in nanoseconds each, over
//! the entries of `queue.c`.
use std::cmp::Reverse;
use std::collections::BinaryHeap;
use std::time::Instant;

fn mixed(state: &mut u64) -> u64 {
    *state = state.wrapping_mul(6364136223846793005).wrapping_add(1442695040888963407);
    *state >> 33
}

fn main() {
    let count: usize = std::env::args().nth(1).and_then(|word| word.parse().ok()).expect("usage: queue ENTRIES");
    let mut state = 1;
    let mut order: Vec<u32> = (0..count as u32).collect();
    for i in (2..=count).rev() {
        order.swap(i - 1, (mixed(&mut state) % i as u64) as usize);
    }
    let dues: Vec<u64> = (0..count).map(|_| mixed(&mut state)).collect();
    let mut heap: BinaryHeap<Reverse<(u64, u32)>> = BinaryHeap::with_capacity(count);
    let mut there = vec![false; count];
    let mut best = [f64::INFINITY; 3];
    let mut sum = 0u64;
    for _ in 0..20 {
        let start = Instant::now();
        for &task in &order {
            heap.push(Reverse((dues[task as usize], task)));
            there[task as usize] = true;
        }
        let inserted = Instant::now();
        for &task in order.iter().filter(|&&task| task % 2 == 0) {
            there[task as usize] = false;
        }
        let removed = Instant::now();
        let mut polled = 0;
        sum = 0;
        while let Some(Reverse((_, task))) = heap.pop() {
            if std::mem::replace(&mut there[task as usize], false) {
                sum = sum.wrapping_mul(31).wrapping_add(u64::from(task));
                polled += 1;
            }
        }
        let ended = Instant::now();
        assert_eq!(polled, count / 2);
        let parts = [
            (inserted - start).as_nanos() as f64 / count as f64,
            (removed - inserted).as_nanos() as f64 / (count - polled) as f64,
            (ended - removed).as_nanos() as f64 / polled as f64,
        ];
        for (least, part) in best.iter_mut().zip(parts) {
            *least = least.min(part);
        }
    }
    println!("BinaryHeap {count} insert {:.1} remove {:.1} poll {:.1} sum {sum}", best[0], best[1], best[2]);
}
