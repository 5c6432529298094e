//! Threads that run tasks at their moments: [`Timers`](crate::Timers) with a clock, a lock and workers.
//!
//! ```
//! use std::time::Duration;
//!
//! let pool = sched::ScheduledThreadPool::new(2)?;
//! let answer = pool.schedule(Duration::from_millis(5), || 6 * 7)?;
//! assert_eq!(answer.join(), Ok(42));
//! # Ok::<(), Box<dyn std::error::Error>>(())
//! ```
//!
//! Moments are nanoseconds of the monotonic clock, [`Instant`](std::time::Instant), since the pool was made.
//!
//! # Who waits, and who wakes whom
//!
//! One lock guards the timers, the jobs of the tasks that wait, and what is said of the workers below. It is held for a call on the
//! timers and never while a job runs or is dropped, so jobs may submit, cancel and shut down.
//!
//! A worker that holds the lock polls. Where it gets a task, it gives the lock back, runs the job, takes the lock again, says how
//! the run ended, and polls again. Where nothing is due it waits on the condition variable of the workers, in one of two ways, as
//! in Java's `DelayQueue` (*leader* and *followers*):
//!
//! - as the leader, of which there is one at most: with a time limit, until the first task that waits is due;
//! - without a limit, where there is a leader already, or no task waits.
//!
//! So of the workers that have nothing to do one has a time limit, and the others do not wake by themselves.
//!
//! One worker is called, by `notify_one`, at two moments, and only where one waits:
//!
//! - a task was submitted that is due before all others. Whoever led until then waited for a later moment and leads no more: the
//!   worker that is called leads, be it the same or another. Where it is another, the first one keeps its limit, and looks for work
//!   at the moment at which its task is due;
//! - a worker took a task, another task waits, and there is no leader.
//!
//! While a worker that was called is on its way, no second one is called: the first one passes the call on, once it has a task, by
//! the second rule. A worker whose own run put a task back into the queue calls nobody, since it polls next.
//!
//! Hence no wake-up is lost. Whenever the lock is free and a task waits, one of these holds: no worker waits; or some worker is on
//! its way to the lock, as it was called, reached its time limit, or runs a job, and polls before it waits; or the leader waits, no
//! longer than until the first task is due. Each step keeps that: a submission calls a worker where it would break it, a worker
//! that takes a task and leaves others passes the call on, and a worker that finds nothing due becomes the leader where there is
//! none. A worker decides to wait with the lock held, and the condition variable gives the lock back and begins to wait in one
//! step, so a call never falls in between. A worker that woke for nothing, as the task that it waited for was cancelled, polls and
//! waits again.
//!
//! The end of the pool is told once, by `notify_all` to the workers, which end, and to those in
//! [`await_termination`](ScheduledThreadPool::await_termination), who have a condition variable of their own, since they wait for
//! something else than the workers do. For the same reason each task has its own cell, with a lock and a condition variable, where
//! its handle waits for the result. A result is told with the pool's lock held: once a cancel is answered that the task is over,
//! its result is there, and once the pool is terminated, that of each task is. No thread takes the pool's lock with that of a cell
//! held.
//!
//! A handle that is polled leaves a waker in its task's cell. Whoever tells the result, with the pool's lock held, takes the waker out,
//! and calls it once that lock is given back: a waker runs code of the program, which may call the pool. A poll looks for the result and
//! leaves the waker in one step, under the cell's lock, so either it finds the result, or its waker is found.

mod error;
mod handle;
mod job;
mod recorder;
mod result;
mod shared;
mod state;

use crate::timers::{Counts, Policy, TimersError};
pub use error::PoolError;
pub use handle::Handle;
use job::{Job, Once, Repeated, drop_all, drop_quietly};
#[doc(hidden)]
pub use recorder::Recording;
pub use result::JoinError;
use result::ResultCell;
use shared::Shared;
use state::{State, When};
use std::convert::Infallible;
use std::fmt;
use std::io;
use std::sync::Arc;
use std::thread::{self, JoinHandle};
use std::time::Duration;

/// A fixed number of threads that run jobs once, after a delay, or again and again.
///
/// A job that panics fails: its handle has the panic's text, no run comes after it, and the thread goes on. Of jobs that are due at
/// the same moment the one that was submitted first begins first. Runs of one task do not overlap.
///
/// A submission is refused as [`TimersError::Rejected`] once the pool is shut, as [`TimersError::ZeroPeriod`] where a period, or a
/// delay between runs, is zero, and as [`TimersError::TooLong`] where a span is above 2^62 nanoseconds, which is 146 years. Its job
/// is dropped then. Where memory runs out for the timers, it is refused as [`TimersError::OutOfMemory`]; where it does for the job, its
/// handle or the table of jobs, the process ends, as with all of Rust's own collections.
///
/// # Examples
///
/// ```
/// use std::time::Duration;
///
/// let pool = sched::ScheduledThreadPool::new(2)?;
/// let soon = pool.schedule(Duration::from_millis(1), || 6 * 7)?;
/// let late = pool.schedule(Duration::from_secs(3_600), || 0)?;
/// assert_eq!(soon.join()?, 42);
/// assert!(late.cancel());
/// pool.shutdown();
/// assert!(pool.await_termination(Duration::from_secs(60)));
/// # Ok::<(), Box<dyn std::error::Error>>(())
/// ```
///
/// # Drop
///
/// A pool that is dropped is shut down at once: what waits is cancelled, and the drop waits for the runs under way and for the
/// threads. So what jobs have captured is not used after it. Who wants what waits to run first calls [`shutdown`](Self::shutdown)
/// and [`await_termination`](Self::await_termination) before. Where a job drops the pool that runs it, the drop waits for nobody. What a
/// job has captured may panic as it is dropped: that goes no further then.
pub struct ScheduledThreadPool {
    shared: Arc<Shared>,
    threads: Vec<JoinHandle<()>>,
}

impl ScheduledThreadPool {
    /// A pool of 1 to 255 threads.
    ///
    /// # Errors
    ///
    /// The number is another one, memory ran out, or the system refused a thread. No thread is left then.
    ///
    /// # Examples
    ///
    /// ```
    /// let pool = sched::ScheduledThreadPool::new(4)?;
    /// assert_eq!(pool.threads(), 4);
    /// assert!(sched::ScheduledThreadPool::new(256).is_err());
    /// # Ok::<(), sched::PoolError>(())
    /// ```
    pub fn new(threads: usize) -> Result<ScheduledThreadPool, PoolError> {
        ScheduledThreadPool::named(threads, "scheduled")
    }

    /// A pool whose threads have names that begin so, each with its number behind that.
    ///
    /// # Errors
    ///
    /// As [`new`](Self::new). A name that has a byte 0 is refused as [`PoolError::Thread`].
    ///
    /// # Examples
    ///
    /// ```
    /// use std::thread;
    ///
    /// let pool = sched::ScheduledThreadPool::named(1, "timeouts")?;
    /// let name = pool.execute(|| thread::current().name().map(str::to_owned))?;
    /// assert_eq!(name.join()?.as_deref(), Some("timeouts 0"));
    /// # Ok::<(), Box<dyn std::error::Error>>(())
    /// ```
    pub fn named(threads: usize, name: &str) -> Result<ScheduledThreadPool, PoolError> {
        ScheduledThreadPool::of(threads, name, |_| {})
    }

    /// A pool that keeps the plan and the trace of all that it does, for tests. Memory grows with each call.
    #[doc(hidden)]
    pub fn recorded(threads: usize) -> Result<ScheduledThreadPool, PoolError> {
        ScheduledThreadPool::of(threads, "recorded", State::record)
    }

    /// A pool whose state was prepared before it had a thread.
    fn of(threads: usize, name: &str, prepare: impl FnOnce(&mut State)) -> Result<Self, PoolError> {
        let workers = u32::try_from(threads).map_err(|_| TimersError::Workers)?;
        if name.contains('\0') {
            let why = io::Error::new(io::ErrorKind::InvalidInput, "a name has no byte 0");
            return Err(PoolError::Thread(why));
        }
        let mut state = State::new(workers)?;
        prepare(&mut state);
        let mut pool = ScheduledThreadPool {
            shared: Arc::new(Shared::new(state)),
            threads: Vec::with_capacity(threads),
        };
        for worker in 0..workers {
            let shared = Arc::clone(&pool.shared);
            let named = thread::Builder::new().name(format!("{name} {worker}"));
            let thread = named.spawn(move || shared.work(worker));
            pool.threads.push(thread.map_err(PoolError::Thread)?);
        }
        Ok(pool)
    }

    /// Submits a job that runs once, `delay` from now.
    ///
    /// # Errors
    ///
    /// The type's page says when a submission is refused.
    ///
    /// # Examples
    ///
    /// ```
    /// use std::time::{Duration, Instant};
    ///
    /// let pool = sched::ScheduledThreadPool::new(1)?;
    /// let before = Instant::now();
    /// let waited = pool.schedule(Duration::from_millis(5), move || before.elapsed())?;
    /// assert!(waited.join()? >= Duration::from_millis(5));
    /// # Ok::<(), Box<dyn std::error::Error>>(())
    /// ```
    pub fn schedule<T: Send + 'static>(
        &self,
        delay: Duration,
        job: impl FnOnce() -> T + Send + 'static,
    ) -> Result<Handle<T>, TimersError> {
        self.submit(When::After(nanoseconds(delay)), |cell| Once::new(job, cell))
    }

    /// Submits a job that runs once, at once.
    ///
    /// # Errors
    ///
    /// The type's page says when a submission is refused.
    ///
    /// # Examples
    ///
    /// ```
    /// let pool = sched::ScheduledThreadPool::new(1)?;
    /// let sum = pool.execute(|| (1..=100).sum::<u32>())?;
    /// assert_eq!(sum.join()?, 5_050);
    /// # Ok::<(), Box<dyn std::error::Error>>(())
    /// ```
    pub fn execute<T: Send + 'static>(
        &self,
        job: impl FnOnce() -> T + Send + 'static,
    ) -> Result<Handle<T>, TimersError> {
        self.submit(When::Now, |cell| Once::new(job, cell))
    }

    /// Submits a job that runs first `first` from now, and then at a fixed rate: each run is due `period` after the one before it
    /// was due. Runs that are late come one after the other, until they have caught up.
    ///
    /// # Errors
    ///
    /// The type's page says when a submission is refused.
    ///
    /// # Examples
    ///
    /// ```
    /// use std::sync::mpsc;
    /// use std::time::Duration;
    ///
    /// let pool = sched::ScheduledThreadPool::new(1)?;
    /// let (beat, beats) = mpsc::channel();
    /// let pulse = pool.schedule_at_fixed_rate(Duration::ZERO, Duration::from_millis(1), move || {
    ///     let _ = beat.send(());
    /// })?;
    /// assert_eq!(beats.iter().take(3).count(), 3);
    /// assert!(pulse.cancel());
    /// # Ok::<(), Box<dyn std::error::Error>>(())
    /// ```
    pub fn schedule_at_fixed_rate(
        &self,
        first: Duration,
        period: Duration,
        job: impl FnMut() + Send + 'static,
    ) -> Result<Handle<Infallible>, TimersError> {
        let when = When::AtRate(nanoseconds(first), nanoseconds(period));
        self.submit(when, |cell| Repeated::new(job, cell))
    }

    /// Submits a job that runs first `first` from now, and then each time `delay` after the run before it ended.
    ///
    /// # Errors
    ///
    /// The type's page says when a submission is refused.
    ///
    /// # Examples
    ///
    /// ```
    /// use sched::{ScheduledThreadPool, TimersError};
    /// use std::time::Duration;
    ///
    /// let pool = ScheduledThreadPool::new(1)?;
    /// let refused = pool.schedule_with_fixed_delay(Duration::ZERO, Duration::ZERO, || ());
    /// assert_eq!(refused.err(), Some(TimersError::ZeroPeriod));
    /// let pause = Duration::from_millis(1);
    /// assert!(pool.schedule_with_fixed_delay(pause, pause, || ())?.cancel());
    /// # Ok::<(), Box<dyn std::error::Error>>(())
    /// ```
    pub fn schedule_with_fixed_delay(
        &self,
        first: Duration,
        delay: Duration,
        job: impl FnMut() + Send + 'static,
    ) -> Result<Handle<Infallible>, TimersError> {
        let when = When::WithDelay(nanoseconds(first), nanoseconds(delay));
        self.submit(when, |cell| Repeated::new(job, cell))
    }

    /// Submits the job that is made for a cell.
    fn submit<T, J: Job + 'static>(
        &self,
        when: When,
        job: impl FnOnce(Arc<ResultCell<T>>) -> J,
    ) -> Result<Handle<T>, TimersError> {
        let cell = Arc::new(ResultCell::new());
        let job = Box::new(job(Arc::clone(&cell)));
        let task = self.shared.submit(when, job)?;
        Ok(Handle::new(Arc::clone(&self.shared), task, cell))
    }

    /// Whether periodic tasks run on after an orderly shutdown: false at first. To set it to false after one ends those that wait.
    ///
    /// # Examples
    ///
    /// ```
    /// use std::time::Duration;
    ///
    /// let pool = sched::ScheduledThreadPool::new(1)?;
    /// let hour = Duration::from_secs(3_600);
    /// let pulse = pool.schedule_at_fixed_rate(hour, hour, || ())?;
    /// pool.set_continue_after_shutdown(true);
    /// pool.shutdown();
    /// assert!(!pulse.is_cancelled());
    /// pool.set_continue_after_shutdown(false);
    /// assert!(pulse.is_cancelled());
    /// # Ok::<(), Box<dyn std::error::Error>>(())
    /// ```
    pub fn set_continue_after_shutdown(&self, value: bool) {
        self.set_policy(Policy::Continue, value);
    }

    /// Whether tasks that wait for their one run have it after an orderly shutdown: true at first. To set it to false after one
    /// ends those that are not due yet.
    ///
    /// # Examples
    ///
    /// ```
    /// use std::time::Duration;
    ///
    /// let pool = sched::ScheduledThreadPool::new(1)?;
    /// let late = pool.schedule(Duration::from_secs(3_600), || ())?;
    /// pool.set_execute_after_shutdown(false);
    /// pool.shutdown();
    /// assert!(late.is_cancelled() && pool.is_terminated());
    /// # Ok::<(), Box<dyn std::error::Error>>(())
    /// ```
    pub fn set_execute_after_shutdown(&self, value: bool) {
        self.set_policy(Policy::Execute, value);
    }

    /// Whether a task that is cancelled while it waits leaves the queue at once: false at first. Else it stands there, without its
    /// job, until a worker looks for work at its moment or later. Once the pool is shut each one leaves at once, whatever is set
    /// here.
    ///
    /// # Examples
    ///
    /// ```
    /// use std::time::Duration;
    ///
    /// let pool = sched::ScheduledThreadPool::new(1)?;
    /// pool.set_remove_on_cancel(true);
    /// pool.schedule(Duration::from_secs(3_600), || ())?.cancel();
    /// assert_eq!(pool.counts().queue, 0);
    /// # Ok::<(), Box<dyn std::error::Error>>(())
    /// ```
    pub fn set_remove_on_cancel(&self, value: bool) {
        self.set_policy(Policy::Remove, value);
    }

    fn set_policy(&self, policy: Policy, value: bool) {
        drop_all(
            self.shared
                .with(|state, now| state.set_policy(now, policy, value)),
        );
    }

    /// Shuts the pool down in order: submissions are rejected from now on, and the policies say which of the tasks that wait still
    /// run. The others are cancelled. It does not wait.
    ///
    /// # Examples
    ///
    /// ```
    /// use std::time::Duration;
    ///
    /// let pool = sched::ScheduledThreadPool::new(1)?;
    /// let soon = pool.schedule(Duration::from_millis(1), || 6 * 7)?;
    /// pool.shutdown();
    /// assert!(pool.execute(|| ()).is_err());
    /// assert_eq!(soon.join()?, 42);
    /// # Ok::<(), Box<dyn std::error::Error>>(())
    /// ```
    pub fn shutdown(&self) {
        drop_all(self.shared.with(State::shut_down));
    }

    /// Shuts the pool down at once: submissions are rejected from now on, and all tasks that wait are cancelled. How many those
    /// were. The runs under way go on, and no run comes after them. It does not wait.
    ///
    /// # Examples
    ///
    /// ```
    /// use std::time::Duration;
    ///
    /// let pool = sched::ScheduledThreadPool::new(1)?;
    /// let late = pool.schedule(Duration::from_secs(3_600), || ())?;
    /// assert_eq!(pool.shutdown_now(), 1);
    /// assert!(late.is_cancelled());
    /// # Ok::<(), Box<dyn std::error::Error>>(())
    /// ```
    pub fn shutdown_now(&self) -> usize {
        let jobs = self.shared.with(State::shut_down_now);
        let ended = jobs.len();
        drop_all(jobs);
        ended
    }

    /// Waits until the pool is terminated, at most so long, and says whether it is. A job of the pool is answered false at once, since
    /// the pool does not end before it.
    ///
    /// # Examples
    ///
    /// ```
    /// use std::time::Duration;
    ///
    /// let pool = sched::ScheduledThreadPool::new(1)?;
    /// assert!(!pool.await_termination(Duration::from_millis(1)));
    /// pool.shutdown();
    /// assert!(pool.await_termination(Duration::from_secs(60)));
    /// # Ok::<(), sched::PoolError>(())
    /// ```
    #[must_use = "it says whether the pool has ended in time"]
    pub fn await_termination(&self, timeout: Duration) -> bool {
        !self.has_current_thread() && self.shared.await_end(timeout)
    }

    /// Whether it was shut down.
    ///
    /// # Examples
    ///
    /// ```
    /// let pool = sched::ScheduledThreadPool::new(1)?;
    /// assert!(!pool.is_shutdown());
    /// pool.shutdown();
    /// assert!(pool.is_shutdown());
    /// # Ok::<(), sched::PoolError>(())
    /// ```
    #[must_use]
    pub fn is_shutdown(&self) -> bool {
        self.shared.with(|state, _now| state.is_shut())
    }

    /// Whether it was shut down, and no task waits or runs any more.
    ///
    /// # Examples
    ///
    /// ```
    /// let pool = sched::ScheduledThreadPool::new(1)?;
    /// assert!(!pool.is_terminated());
    /// pool.shutdown();
    /// assert!(pool.is_terminated());
    /// # Ok::<(), sched::PoolError>(())
    /// ```
    #[must_use]
    pub fn is_terminated(&self) -> bool {
        self.shared.with(|state, _now| state.is_terminated())
    }

    /// How many tasks stand in the queue and run, at one moment.
    ///
    /// # Examples
    ///
    /// ```
    /// use std::time::Duration;
    ///
    /// let pool = sched::ScheduledThreadPool::new(1)?;
    /// pool.schedule(Duration::from_secs(3_600), || ())?;
    /// let counts = pool.counts();
    /// assert_eq!((counts.queue, counts.running), (1, 0));
    /// # Ok::<(), Box<dyn std::error::Error>>(())
    /// ```
    pub fn counts(&self) -> Counts {
        self.shared.with(State::counts)
    }

    /// How many submissions there were, with those that were rejected.
    ///
    /// # Examples
    ///
    /// ```
    /// let pool = sched::ScheduledThreadPool::new(1)?;
    /// pool.execute(|| ())?;
    /// pool.shutdown();
    /// assert!(pool.execute(|| ()).is_err());
    /// assert_eq!(pool.submissions(), 2);
    /// # Ok::<(), Box<dyn std::error::Error>>(())
    /// ```
    #[must_use]
    pub fn submissions(&self) -> u64 {
        self.shared.with(|state, _now| state.timed().numbers)
    }

    /// How many threads it has.
    ///
    /// # Examples
    ///
    /// ```
    /// assert_eq!(sched::ScheduledThreadPool::new(3)?.threads(), 3);
    /// # Ok::<(), sched::PoolError>(())
    /// ```
    #[must_use]
    pub fn threads(&self) -> usize {
        self.threads.len()
    }

    /// Whether the caller is a thread of its own.
    fn has_current_thread(&self) -> bool {
        let current = thread::current().id();
        self.threads.iter().any(|it| it.thread().id() == current)
    }

    /// The plan and the trace so far of a pool that keeps them.
    #[doc(hidden)]
    pub fn recording(&self) -> Option<Recording> {
        self.shared.with(|state, _now| state.recording())
    }
}

impl fmt::Debug for ScheduledThreadPool {
    fn fmt(&self, f: &mut fmt::Formatter<'_>) -> fmt::Result {
        let state = self.shared.with(|state, _now| state.timed());
        f.debug_struct("ScheduledThreadPool")
            .field("threads", &self.threads())
            .field("alive", &state.alive)
            .field("shut", &state.shut)
            .field("terminated", &state.terminated)
            .finish_non_exhaustive()
    }
}

impl Drop for ScheduledThreadPool {
    fn drop(&mut self) {
        let jobs = self.shared.with(State::shut_down_now);
        jobs.into_iter().for_each(drop_quietly);
        if self.has_current_thread() {
            return;
        }
        for thread in self.threads.drain(..) {
            thread.join().expect("a worker does not panic");
        }
    }
}

/// A span in nanoseconds. One that does not fit is beyond all that the timers take.
fn nanoseconds(span: Duration) -> u64 {
    u64::try_from(span.as_nanos()).unwrap_or(u64::MAX)
}
