//! The lock, and who waits for what: the module `pool` says how.

use super::job::{Job, drop_quietly, wake_quietly};
use super::state::{State, Wake, When};
use crate::timers::{TaskRef, TimersError};
use std::sync::{Condvar, Mutex, MutexGuard};
use std::time::{Duration, Instant};

/// Why the lock is not poisoned.
const UNPOISONED: &str = "no call panics with the lock";

/// What the threads of a pool, its owner and its handles share.
pub struct Shared {
    start: Instant,
    state: Mutex<State>,
    /// The workers that have nothing to do wait here.
    work: Condvar,
    /// Those who wait for the end of the pool do here.
    end: Condvar,
}

impl Shared {
    /// What the threads of a pool of this state share.
    pub fn new(state: State) -> Shared {
        Shared {
            start: Instant::now(),
            state: Mutex::new(state),
            work: Condvar::new(),
            end: Condvar::new(),
        }
    }

    /// The moment: nanoseconds since the pool was made. They fill a `u64` after 584 years.
    fn now(&self) -> u64 {
        self.start.elapsed().as_nanos() as u64
    }

    /// Takes the lock. No code of the program runs while it is held.
    fn lock(&self) -> MutexGuard<'_, State> {
        self.state.lock().expect(UNPOISONED)
    }

    /// Gives the lock back, and wakes whom the calls under it were for.
    fn unlock(&self, mut state: MutexGuard<'_, State>) {
        let (wake, wakers) = state.take_wakes();
        drop(state);
        match wake {
            Wake::Nobody => {}
            Wake::OneWorker => self.work.notify_one(),
            Wake::Everybody => {
                self.work.notify_all();
                self.end.notify_all();
            }
        }
        wakers.into_iter().for_each(wake_quietly);
    }

    /// Makes calls under the lock, at the moment that is handed to them. What they give back is dropped without the lock.
    pub fn with<R>(&self, calls: impl FnOnce(&mut State, u64) -> R) -> R {
        let now = self.now();
        let mut state = self.lock();
        let result = calls(&mut state, now);
        self.unlock(state);
        result
    }

    /// Submits a task. A job that is refused is dropped.
    pub fn submit(&self, when: When, job: Box<dyn Job>) -> Result<TaskRef, TimersError> {
        self.with(|state, now| state.submit(now, when, job))
            .map_err(|(why, _job)| why)
    }

    /// Waits until the pool is terminated, at most so long, and says whether it is.
    pub fn await_end(&self, timeout: Duration) -> bool {
        let (state, _) = self
            .end
            .wait_timeout_while(self.lock(), timeout, |state| !state.is_terminated())
            .expect(UNPOISONED);
        state.is_terminated()
    }

    /// What a worker does until the pool is terminated. A job that is over is dropped before the next one begins, and before the
    /// worker waits.
    pub fn work(&self, worker: u32) {
        let mut over: Option<Box<dyn Job>> = None;
        let mut now = self.now();
        let mut state = self.lock();
        loop {
            if let Some(mut job) = state.begin(now, worker) {
                self.unlock(state);
                drop_quietly(over.take());
                let well = job.run();
                now = self.now();
                state = self.lock();
                over = state.end(now, worker, job, well);
                continue;
            } else if over.is_some() {
                self.unlock(state);
                drop_quietly(over.take());
                state = self.lock();
            } else if state.is_terminated() {
                return self.unlock(state);
            } else {
                state = self.sleep(worker, state);
            }
            now = self.now();
        }
    }

    /// Waits until there may be work: the leader until the first task is due, and each other worker until it is called.
    fn sleep<'a>(&'a self, worker: u32, mut state: MutexGuard<'a, State>) -> MutexGuard<'a, State> {
        let limit = state.sleeps(self.now(), worker);
        state = match limit {
            None => self.work.wait(state).expect(UNPOISONED),
            Some(limit) => self.work.wait_timeout(state, limit).expect(UNPOISONED).0,
        };
        state.wakes(worker);
        state
    }
}
