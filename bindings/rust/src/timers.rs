//! The executor without threads, to which tasks are submitted while it runs.
//!
//! It reads no clock and runs no task. The program hands in the moment of each call, waits until [`Timers::next_due`], polls for a
//! worker that has nothing to do, runs what comes back, and says how that ended. Moments, delays and periods are nanoseconds, from
//! 0 to 2^62, of a clock that does not go back. A poll or a finish is made at the moment handed in, or at the greatest one so far
//! where that would go back; each other call at the greatest of the two and 1 ns after the last poll or finish.
//!
//! ```
//! let mut timers = sched::Timers::new(1)?;
//! timers.schedule(0, 5_000_000, 70)?;
//! assert_eq!(timers.next_due(), Some(5_000_000));
//! if let Some(run) = timers.poll(5_000_000, 0)? {
//!     assert_eq!(run.data, 70);
//!     timers.finish(5_000_000, run.worker, 1)?;
//! }
//! assert_eq!(timers.next_due(), None);
//! # Ok::<(), sched::TimersError>(())
//! ```

mod answers;
mod calls;
mod error;

use crate::slot::{SlotCell, line_of};
pub use answers::{Counts, Effect, End, Ending, Outcome, Phase, Policy, State, Task};
use calls::{Copied, Slot};
pub use calls::{Gone, Run, TaskRef};
pub use error::{FinishManyError, PollManyError, TimersError};
use std::fmt;
use std::iter::FusedIterator;

/// What a status says of a call on a full slot.
fn told(status: u32) -> Result<(), TimersError> {
    match status {
        calls::DONE => Ok(()),
        other => Err(TimersError::of(other)),
    }
}

/// What a status says of a call on a full slot that may find nothing.
fn found(status: u32) -> Result<bool, TimersError> {
    match status {
        calls::DONE => Ok(true),
        calls::IDLE => Ok(false),
        other => Err(TimersError::of(other)),
    }
}

/// What a status says of a submission, of which the library wrote this ref.
fn submitted(status: u32, task: TaskRef) -> Result<TaskRef, TimersError> {
    match status {
        calls::DONE => Ok(task),
        calls::SHUT => Err(TimersError::Rejected(task)),
        other => Err(TimersError::of(other)),
    }
}

/// The answer of a call that is never refused on a full slot.
fn known<T>(answer: Result<T, TimersError>) -> T {
    answer.expect("a full slot answers")
}

/// Tasks that wait for their moments, and workers that run them. The module's page has an example.
///
/// The memory that it took is given back when it is dropped. It may move to another thread. Calls that only look take it by
/// `&self`, and still not from two threads at once:
///
/// ```compile_fail,E0277
/// fn shared<T: Sync>() {}
/// shared::<sched::Timers>();
/// ```
pub struct Timers {
    slot: SlotCell<Slot>,
}

impl Timers {
    /// Timers with 1 to 255 workers, which calls name from 0, before anything happened.
    ///
    /// # Errors
    ///
    /// [`TimersError::Workers`], and then [`TimersError::OutOfMemory`].
    ///
    /// # Examples
    ///
    /// ```
    /// use sched::{Timers, TimersError};
    ///
    /// assert_eq!(Timers::new(255)?.next_due(), None);
    /// assert_eq!(Timers::new(256).err(), Some(TimersError::Workers));
    /// # Ok::<(), TimersError>(())
    /// ```
    pub fn new(workers: u32) -> Result<Timers, TimersError> {
        let mut slot = Slot::default();
        told(calls::timers_ref_new(&mut slot, workers))?;
        Ok(Timers {
            slot: SlotCell::new(slot),
        })
    }

    /// Makes room, so that no submission needs memory while fewer than `tasks` tasks are alive.
    ///
    /// # Errors
    ///
    /// [`TimersError::OutOfMemory`].
    ///
    /// # Examples
    ///
    /// ```
    /// let mut timers = sched::Timers::new(1)?;
    /// timers.reserve(1_000)?;
    /// # Ok::<(), sched::TimersError>(())
    /// ```
    pub fn reserve(&mut self, tasks: u32) -> Result<(), TimersError> {
        told(calls::timers_ref_reserve(self.slot.get_mut(), tasks))
    }

    /// Submits a task for one run, `delay` after the moment of the call. `data` comes back with the run, and where the task ends.
    ///
    /// # Errors
    ///
    /// In this order, here and for each other submission: [`TimersError::ZeroPeriod`], where there is a period or a delay between
    /// runs; [`TimersError::TooLong`]; [`TimersError::TooFar`]; [`TimersError::Full`]; [`TimersError::Rejected`], once the timers
    /// are shut; and [`TimersError::OutOfMemory`].
    ///
    /// # Examples
    ///
    /// ```
    /// let mut timers = sched::Timers::new(1)?;
    /// timers.schedule(10, 5, 70)?;
    /// assert_eq!(timers.next_due(), Some(15));
    /// # Ok::<(), sched::TimersError>(())
    /// ```
    pub fn schedule(&mut self, now: u64, delay: u64, data: u64) -> Result<TaskRef, TimersError> {
        let mut task = TaskRef::default();
        let slot = self.slot.get_mut();
        let status = calls::timers_ref_schedule(slot, now, delay, data, &mut task);
        submitted(status, task)
    }

    /// Submits a task for one run at once.
    ///
    /// # Errors
    ///
    /// As [`schedule`](Self::schedule).
    ///
    /// # Examples
    ///
    /// ```
    /// let mut timers = sched::Timers::new(1)?;
    /// timers.execute(10, 70)?;
    /// assert_eq!(timers.poll(10, 0)?.map(|run| run.data), Some(70));
    /// # Ok::<(), sched::TimersError>(())
    /// ```
    pub fn execute(&mut self, now: u64, data: u64) -> Result<TaskRef, TimersError> {
        let mut task = TaskRef::default();
        let status = calls::timers_ref_execute(self.slot.get_mut(), now, data, &mut task);
        submitted(status, task)
    }

    /// Submits a task that runs first `first` after the moment of the call, and then at a fixed rate: each run is due `period`
    /// after the one before it was due, however long that took.
    ///
    /// # Errors
    ///
    /// As [`schedule`](Self::schedule).
    ///
    /// # Examples
    ///
    /// ```
    /// let mut timers = sched::Timers::new(1)?;
    /// timers.at_rate(0, 5, 10, 70)?;
    /// timers.poll(5, 0)?;
    /// timers.finish(12, 0, 1)?;
    /// assert_eq!(timers.next_due(), Some(15));
    /// # Ok::<(), sched::TimersError>(())
    /// ```
    pub fn at_rate(
        &mut self,
        now: u64,
        first: u64,
        period: u64,
        data: u64,
    ) -> Result<TaskRef, TimersError> {
        let mut task = TaskRef::default();
        let slot = self.slot.get_mut();
        let status = calls::timers_ref_rate(slot, now, first, period, data, &mut task);
        submitted(status, task)
    }

    /// Submits a task that runs first `first` after the moment of the call, and then each time `delay` after the run before it was
    /// finished.
    ///
    /// # Errors
    ///
    /// As [`schedule`](Self::schedule).
    ///
    /// # Examples
    ///
    /// ```
    /// let mut timers = sched::Timers::new(1)?;
    /// timers.with_delay(0, 5, 10, 70)?;
    /// timers.poll(5, 0)?;
    /// timers.finish(12, 0, 1)?;
    /// assert_eq!(timers.next_due(), Some(22));
    /// # Ok::<(), sched::TimersError>(())
    /// ```
    pub fn with_delay(
        &mut self,
        now: u64,
        first: u64,
        delay: u64,
        data: u64,
    ) -> Result<TaskRef, TimersError> {
        let mut task = TaskRef::default();
        let slot = self.slot.get_mut();
        let status = calls::timers_ref_fixed(slot, now, first, delay, data, &mut task);
        submitted(status, task)
    }

    /// Cancels a task. One that waits is kept in the queue until a poll meets it, a shutdown or a policy sweeps it, or a
    /// purge takes it out, unless the remove policy is set. A run that is under way goes on, and is finished as any other.
    ///
    /// # Errors
    ///
    /// [`TimersError::NoTask`].
    ///
    /// # Examples
    ///
    /// ```
    /// use sched::timers::{Effect, Timers};
    ///
    /// let mut timers = Timers::new(1)?;
    /// let task = timers.schedule(0, 5, 70)?;
    /// assert_eq!(timers.cancel(task)?, Effect::Cancelled);
    /// assert_eq!(timers.cancel(task)?, Effect::Over);
    /// # Ok::<(), sched::TimersError>(())
    /// ```
    pub fn cancel(&mut self, task: TaskRef) -> Result<Effect, TimersError> {
        let mut effect = 0;
        told(calls::timers_ref_cancel(
            self.slot.get_mut(),
            &task,
            &mut effect,
        ))?;
        Ok(Effect::of(effect))
    }

    /// Takes each task out of the queue that was cancelled while it waited, and is kept. No other task changes. It is made now, also
    /// where the timers are shut.
    ///
    /// # Examples
    ///
    /// ```
    /// let mut timers = sched::Timers::new(1)?;
    /// let task = timers.schedule(0, 5, 70)?;
    /// timers.cancel(task)?;
    /// assert_eq!((timers.next_due(), timers.head_due()), (None, Some(5)));
    /// timers.purge();
    /// assert_eq!(timers.head_due(), None);
    /// # Ok::<(), sched::TimersError>(())
    /// ```
    pub fn purge(&mut self) {
        known(told(calls::timers_ref_purge(self.slot.get_mut())));
    }

    /// A worker that has no run under way begins one of the first task that is due. `None`: nothing is due.
    ///
    /// # Errors
    ///
    /// [`TimersError::NoWorker`]; [`TimersError::Busy`]; [`TimersError::TooFar`]; and [`TimersError::Full`], where the task that is
    /// due has had 2^64 - 1 runs.
    ///
    /// # Examples
    ///
    /// ```
    /// let mut timers = sched::Timers::new(1)?;
    /// timers.schedule(0, 5, 70)?;
    /// assert_eq!(timers.poll(4, 0)?, None);
    /// let run = timers.poll(6, 0)?.expect("it is due");
    /// assert_eq!((run.data, run.due, run.run, run.worker), (70, 5, 0, 0));
    /// # Ok::<(), sched::TimersError>(())
    /// ```
    pub fn poll(&mut self, now: u64, worker: u32) -> Result<Option<Run>, TimersError> {
        let mut run = Run::default();
        let status = calls::timers_ref_poll(self.slot.get_mut(), now, worker, &mut run);
        Ok(found(status)?.then_some(run))
    }

    /// Polls for the worker of each of these runs, in turn, until one begins none, and writes the runs there: how many were begun.
    /// Those behind them are as they were.
    ///
    /// # Errors
    ///
    /// As [`poll`](Self::poll), with the number of runs that were begun before.
    ///
    /// # Examples
    ///
    /// ```
    /// use sched::timers::{Run, Timers};
    ///
    /// let mut timers = Timers::new(2)?;
    /// timers.execute(0, 70)?;
    /// let mut runs = [0, 1].map(|worker| Run { worker, ..Run::default() });
    /// assert_eq!(timers.poll_many(1, &mut runs)?, 1);
    /// assert_eq!(runs[0].data, 70);
    /// # Ok::<(), Box<dyn std::error::Error>>(())
    /// ```
    pub fn poll_many(&mut self, now: u64, runs: &mut [Run]) -> Result<usize, PollManyError> {
        let mut begun = 0;
        let (first, n) = (runs.as_mut_ptr(), runs.len());
        let slot = self.slot.get_mut();
        // SAFETY: a slice leads to as many runs as it is long.
        let status = unsafe { calls::timers_ref_poll_many(slot, now, first, n, &mut begun) };
        found(status).map_err(|why| PollManyError { begun, why })?;
        Ok(begun)
    }

    /// The run of a worker has ended with a value.
    ///
    /// # Errors
    ///
    /// [`TimersError::NoWorker`], then [`TimersError::NotRunning`], then [`TimersError::TooFar`].
    ///
    /// # Examples
    ///
    /// ```
    /// use sched::timers::{Outcome, Timers};
    ///
    /// let mut timers = Timers::new(1)?;
    /// timers.execute(0, 70)?;
    /// timers.poll(1, 0)?;
    /// let end = timers.finish(2, 0, 42)?;
    /// assert_eq!((end.data, end.outcome), (70, Outcome::Done(42)));
    /// # Ok::<(), sched::TimersError>(())
    /// ```
    pub fn finish(&mut self, now: u64, worker: u32, value: u64) -> Result<End, TimersError> {
        let mut end = calls::End::default();
        let slot = self.slot.get_mut();
        told(calls::timers_ref_finish(slot, now, worker, value, &mut end))?;
        Ok(End::of(end))
    }

    /// The run of a worker has failed, with a code of the program's own.
    ///
    /// # Errors
    ///
    /// As [`finish`](Self::finish).
    ///
    /// # Examples
    ///
    /// ```
    /// use sched::timers::{Outcome, Timers};
    ///
    /// let mut timers = Timers::new(1)?;
    /// timers.at_rate(0, 0, 10, 70)?;
    /// timers.poll(1, 0)?;
    /// assert_eq!(timers.fail(2, 0, 7)?.outcome, Outcome::Failed(7));
    /// assert_eq!(timers.next_due(), None);
    /// # Ok::<(), sched::TimersError>(())
    /// ```
    pub fn fail(&mut self, now: u64, worker: u32, code: u32) -> Result<End, TimersError> {
        let mut end = calls::End::default();
        let slot = self.slot.get_mut();
        told(calls::timers_ref_fail(slot, now, worker, code, &mut end))?;
        Ok(End::of(end))
    }

    /// Ends the runs of some workers, in turn, until one is refused.
    ///
    /// # Errors
    ///
    /// As [`finish`](Self::finish), with the runs that were ended before.
    ///
    /// # Examples
    ///
    /// ```
    /// use sched::timers::{Ending, Outcome, Timers};
    ///
    /// let mut timers = Timers::new(2)?;
    /// for worker in 0..2 {
    ///     timers.execute(0, 70)?;
    ///     timers.poll(1, worker)?;
    /// }
    /// let ended = timers.finish_many(2, &[0, 1].map(|worker| Ending { worker, result: Ok(3) }))?;
    /// assert!(ended.iter().all(|end| end.outcome == Outcome::Done(3)));
    /// # Ok::<(), Box<dyn std::error::Error>>(())
    /// ```
    pub fn finish_many(
        &mut self,
        now: u64,
        endings: &[Ending],
    ) -> Result<Vec<End>, FinishManyError> {
        let raw: Vec<calls::Ending> = endings.iter().map(|ending| ending.raw()).collect();
        let mut ends = vec![calls::End::default(); raw.len()];
        let mut count = 0;
        let (from, to, n) = (raw.as_ptr(), ends.as_mut_ptr(), raw.len());
        let slot = self.slot.get_mut();
        // SAFETY: both vectors lead to as many places as they are long, which is `n`.
        let status =
            unsafe { calls::timers_ref_finish_many(slot, now, from, n, to, n, &mut count) };
        ends.truncate(count);
        let ended: Vec<End> = ends.into_iter().map(End::of).collect();
        match told(status) {
            Ok(()) => Ok(ended),
            Err(why) => Err(FinishManyError { ended, why }),
        }
    }

    /// The moment at which the first task that waits is due: before it no poll begins a run. `None`: no task waits.
    ///
    /// # Examples
    ///
    /// ```
    /// let mut timers = sched::Timers::new(1)?;
    /// assert_eq!(timers.next_due(), None);
    /// timers.schedule(3, 5, 70)?;
    /// timers.schedule(3, 4, 71)?;
    /// assert_eq!(timers.next_due(), Some(7));
    /// # Ok::<(), sched::TimersError>(())
    /// ```
    #[must_use]
    pub fn next_due(&self) -> Option<u64> {
        let mut due = 0;
        let status = self
            .slot
            .look(|slot| calls::timers_ref_next_due(slot, &mut due));
        known(found(status)).then_some(due)
    }

    /// The moment at which the head of the queue is due, which waits or is kept: before it no poll takes a task out of the queue.
    /// `None`: the queue is empty.
    #[must_use]
    pub fn head_due(&self) -> Option<u64> {
        let mut due = 0;
        let status = self
            .slot
            .look(|slot| calls::timers_ref_head_due(slot, &mut due));
        known(found(status)).then_some(due)
    }

    /// How far a task is. `None`: no submission was given the number yet.
    ///
    /// # Examples
    ///
    /// ```
    /// use sched::timers::{Phase, TaskRef, Timers};
    ///
    /// let mut timers = Timers::new(1)?;
    /// let task = timers.schedule(3, 5, 70)?;
    /// let stands = timers.task(task).expect("it was submitted");
    /// assert_eq!((stands.phase, stands.due), (Phase::Waiting, 8));
    /// assert_eq!(timers.task(TaskRef { number: 1, slot: 0 }), None);
    /// # Ok::<(), sched::TimersError>(())
    /// ```
    #[must_use]
    pub fn task(&self, task: TaskRef) -> Option<Task> {
        let mut raw = calls::Task::default();
        let status = self
            .slot
            .look(|slot| calls::timers_ref_task_of(slot, &task, &mut raw));
        (status != calls::NO_TASK).then(|| {
            known(told(status));
            Task::of(raw)
        })
    }

    /// Whether a task is alive: it stands in the queue, or has a run under way.
    ///
    /// # Examples
    ///
    /// ```
    /// let mut timers = sched::Timers::new(1)?;
    /// let task = timers.schedule(3, 5, 70)?;
    /// assert!(timers.contains(task));
    /// timers.poll(8, 0)?;
    /// assert!(timers.contains(task));
    /// timers.finish(9, 0, 1)?;
    /// assert!(!timers.contains(task));
    /// # Ok::<(), sched::TimersError>(())
    /// ```
    #[must_use]
    pub fn contains(&self, task: TaskRef) -> bool {
        self.task(task)
            .is_some_and(|task| task.phase != Phase::Gone)
    }

    /// How many tasks are alive: they stand in the queue, or have a run under way.
    ///
    /// # Examples
    ///
    /// ```
    /// let mut timers = sched::Timers::new(1)?;
    /// timers.schedule(3, 5, 70)?;
    /// timers.execute(4, 71)?;
    /// assert_eq!(timers.len(), 2);
    /// # Ok::<(), sched::TimersError>(())
    /// ```
    #[must_use]
    pub fn len(&self) -> usize {
        self.state().alive
    }

    /// Whether no task is alive.
    ///
    /// # Examples
    ///
    /// ```
    /// let mut timers = sched::Timers::new(1)?;
    /// assert!(timers.is_empty());
    /// timers.execute(4, 71)?;
    /// assert!(!timers.is_empty());
    /// # Ok::<(), sched::TimersError>(())
    /// ```
    #[must_use]
    pub fn is_empty(&self) -> bool {
        self.len() == 0
    }

    /// How far the timers are.
    ///
    /// # Examples
    ///
    /// ```
    /// let mut timers = sched::Timers::new(1)?;
    /// timers.execute(3, 70)?;
    /// let state = timers.state();
    /// assert_eq!((state.now, state.numbers, state.alive), (3, 1, 1));
    /// assert!(!state.shut && !state.terminated);
    /// # Ok::<(), sched::TimersError>(())
    /// ```
    #[must_use]
    pub fn state(&self) -> State {
        let mut raw = calls::State::default();
        let status = self
            .slot
            .look(|slot| calls::timers_ref_state_of(slot, &mut raw));
        known(told(status));
        State::of(raw)
    }

    /// How many tasks there are, as a call that has a line. [`state`](Self::state) has none.
    ///
    /// # Errors
    ///
    /// [`TimersError::TooFar`].
    ///
    /// # Examples
    ///
    /// ```
    /// let mut timers = sched::Timers::new(1)?;
    /// timers.execute(0, 70)?;
    /// timers.schedule(0, 5, 71)?;
    /// timers.poll(1, 0)?;
    /// let counts = timers.ask(2)?;
    /// assert_eq!((counts.queue, counts.running), (1, 1));
    /// # Ok::<(), sched::TimersError>(())
    /// ```
    pub fn ask(&mut self, now: u64) -> Result<Counts, TimersError> {
        let mut raw = calls::Counts::default();
        told(calls::timers_ref_ask(self.slot.get_mut(), now, &mut raw))?;
        Ok(Counts::of(raw))
    }

    /// Sets a policy. Where the timers are shut, this may end tasks: [`ended`](Self::ended) tells them.
    ///
    /// # Errors
    ///
    /// [`TimersError::TooFar`].
    ///
    /// # Examples
    ///
    /// ```
    /// use sched::timers::{Phase, Policy, Timers};
    ///
    /// let mut timers = Timers::new(1)?;
    /// timers.set_policy(0, Policy::Remove, true)?;
    /// let task = timers.schedule(0, 5, 70)?;
    /// timers.cancel(task)?;
    /// assert_eq!(timers.task(task).map(|task| task.phase), Some(Phase::Gone));
    /// # Ok::<(), sched::TimersError>(())
    /// ```
    pub fn set_policy(&mut self, now: u64, policy: Policy, value: bool) -> Result<(), TimersError> {
        let slot = self.slot.get_mut();
        told(calls::timers_ref_set_policy(slot, now, policy.raw(), value))
    }

    /// Shuts the timers down in order: submissions are rejected from then on, and the policies say which tasks still run. Whether
    /// this was the first such call, which ends the others: [`ended`](Self::ended) tells them.
    ///
    /// # Errors
    ///
    /// [`TimersError::TooFar`].
    ///
    /// # Examples
    ///
    /// ```
    /// let mut timers = sched::Timers::new(1)?;
    /// timers.schedule(0, 5, 70)?;
    /// timers.at_rate(0, 5, 10, 71)?;
    /// assert!(timers.shutdown(1)?);
    /// assert_eq!(timers.ended().map(|gone| gone.data).collect::<Vec<_>>(), [71]);
    /// assert_eq!(timers.next_due(), Some(5));
    /// # Ok::<(), sched::TimersError>(())
    /// ```
    pub fn shutdown(&mut self, now: u64) -> Result<bool, TimersError> {
        let mut first = 0;
        told(calls::timers_ref_shutdown(
            self.slot.get_mut(),
            now,
            &mut first,
        ))?;
        Ok(first == 1)
    }

    /// Shuts the timers down at once: each task that waits is ended, as [`ended`](Self::ended) tells.
    ///
    /// # Errors
    ///
    /// [`TimersError::TooFar`].
    ///
    /// # Examples
    ///
    /// ```
    /// let mut timers = sched::Timers::new(1)?;
    /// timers.schedule(0, 5, 70)?;
    /// timers.shutdown_now(1)?;
    /// assert!(timers.state().terminated);
    /// # Ok::<(), sched::TimersError>(())
    /// ```
    pub fn shutdown_now(&mut self, now: u64) -> Result<(), TimersError> {
        told(calls::timers_ref_shutdown_now(self.slot.get_mut(), now))
    }

    /// The tasks that the last call ended as it set a policy or shut the timers down, by their numbers, ascending.
    ///
    /// # Examples
    ///
    /// ```
    /// let mut timers = sched::Timers::new(1)?;
    /// let task = timers.schedule(0, 5, 70)?;
    /// timers.shutdown_now(1)?;
    /// for gone in timers.ended() {
    ///     assert_eq!((gone.task, gone.data), (task, 70));
    /// }
    /// # Ok::<(), sched::TimersError>(())
    /// ```
    pub fn ended(&self) -> Ended<'_> {
        Ended {
            timers: self,
            next: 0,
            count: self.state().ended,
        }
    }

    /// The lines of the last call, without their newlines. The lines of all calls are a trace, as `docs/RULES.md` says.
    ///
    /// # Errors
    ///
    /// [`TimersError::Number`].
    ///
    /// # Examples
    ///
    /// ```
    /// let mut timers = sched::Timers::new(1)?;
    /// timers.at_rate(3, 2, 10, 70)?;
    /// for line in timers.lines()? {
    ///     assert_eq!(line, "3 submit 0 rate due 5");
    /// }
    /// # Ok::<(), sched::TimersError>(())
    /// ```
    pub fn lines(&self) -> Result<Lines<'_>, TimersError> {
        told(self.text(0, &mut []).1)?;
        Ok(Lines {
            timers: self,
            next: 0,
            count: self.state().lines,
        })
    }

    /// Copies lines of the last call, from line `from` on: what was copied, and the status.
    fn text(&self, from: usize, out: &mut [u8]) -> (Copied, u32) {
        let mut copied = Copied::default();
        let (place, room) = (out.as_mut_ptr(), out.len());
        let status = self.slot.look(|slot| {
            // SAFETY: a slice leads to as many bytes as it is long.
            unsafe { calls::timers_ref_text(slot, from, place, room, &mut copied) }
        });
        (copied, status)
    }
}

impl fmt::Debug for Timers {
    fn fmt(&self, f: &mut fmt::Formatter<'_>) -> fmt::Result {
        f.debug_struct("Timers")
            .field("state", &self.state())
            .field("next_due", &self.next_due())
            .finish_non_exhaustive()
    }
}

impl Drop for Timers {
    fn drop(&mut self) {
        calls::timers_ref_free(self.slot.get_mut());
    }
}

/// The tasks that a call ended, as [`Timers::ended`] gives them.
///
/// # Examples
///
/// ```
/// let mut timers = sched::Timers::new(1)?;
/// timers.schedule(0, 5, 70)?;
/// timers.schedule(0, 5, 71)?;
/// timers.shutdown_now(1)?;
/// assert_eq!(timers.ended().len(), 2);
/// assert_eq!(timers.ended().last().map(|gone| gone.data), Some(71));
/// # Ok::<(), sched::TimersError>(())
/// ```
#[derive(Clone, Debug)]
#[must_use = "a task is told as it is asked for"]
pub struct Ended<'a> {
    timers: &'a Timers,
    next: usize,
    count: usize,
}

impl Iterator for Ended<'_> {
    type Item = Gone;

    fn next(&mut self) -> Option<Gone> {
        let mut gone = Gone::default();
        let place = self.next;
        let status = self
            .timers
            .slot
            .look(|slot| calls::timers_ref_ended(slot, place, &mut gone));
        let there = known(found(status));
        self.next += usize::from(there);
        there.then_some(gone)
    }

    fn size_hint(&self) -> (usize, Option<usize>) {
        let left = self.count - self.next;
        (left, Some(left))
    }
}

impl ExactSizeIterator for Ended<'_> {}

impl FusedIterator for Ended<'_> {}

/// The lines of a call, as [`Timers::lines`] gives them.
///
/// # Examples
///
/// ```
/// let mut timers = sched::Timers::new(1)?;
/// timers.execute(3, 70)?;
/// timers.poll(5, 0)?;
/// let mut lines = timers.lines()?;
/// assert_eq!(lines.len(), 2);
/// assert_eq!(lines.next().as_deref(), Some("5 clock"));
/// assert_eq!(lines.next().as_deref(), Some("5 start 0 task 0 run 0 due 3"));
/// # Ok::<(), sched::TimersError>(())
/// ```
#[derive(Clone, Debug)]
#[must_use = "a line is copied as it is asked for"]
pub struct Lines<'a> {
    timers: &'a Timers,
    next: usize,
    count: usize,
}

impl Iterator for Lines<'_> {
    type Item = String;

    fn next(&mut self) -> Option<String> {
        let mut line = [0; calls::LINE_ROOM];
        let (copied, _) = self.timers.text(self.next, &mut line);
        self.next += copied.lines;
        line_of(&line[..copied.bytes])
    }

    fn size_hint(&self) -> (usize, Option<usize>) {
        let left = self.count - self.next;
        (left, Some(left))
    }
}

impl ExactSizeIterator for Lines<'_> {}

impl FusedIterator for Lines<'_> {}
