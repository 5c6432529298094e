//! The executor of a plan, which is told what happens, and answers in lines.
//!
//! It is made of a plan's text, and takes [`Event`]s. It reads no clock and runs no task: the program around it does, and tells it.
//! Moments are nanoseconds, from 0 to 2^62. `docs/RULES.md` says what a plan's text may say, and which lines answer an event.
//!
//! ```
//! use sched::{Event, Executor};
//!
//! let plan = b"version = 2
//! [[block]]
//! call = [{ op = \"rate\", name = \"beat\", first = 10, period = 10 }]";
//! let mut executor = Executor::new(plan, 1, 1_000)?;
//! executor.take(Event::Clock(10))?;
//! let lines: Vec<String> = executor.lines().collect();
//! assert_eq!(lines, ["0 submit 0 rate due 10", "10 clock"]);
//! # Ok::<(), sched::ExecutorError>(())
//! ```

mod answers;
mod calls;
mod error;
mod fault;

use crate::slot::{SlotCell, line_of};
pub use answers::{Event, Phase, Task};
pub use calls::Run;
use calls::{Copied, Slot};
pub use error::ExecutorError;
pub use fault::{Fault, FaultKind};
use std::fmt;
use std::iter::FusedIterator;

/// An executor of the calls of a plan. The module's page has an example.
///
/// All its memory is taken when it is made, and given back when it is dropped. It may move to another thread. Calls that only look
/// take it by `&self`, and still not from two threads at once:
///
/// ```compile_fail,E0277
/// fn shared<T: Sync>() {}
/// shared::<sched::Executor>();
/// ```
pub struct Executor {
    slot: SlotCell<Slot>,
}

impl Executor {
    /// An executor of a plan's text with 1 to 64 workers, which takes `limit` events, 1 to 4,294,967,295.
    ///
    /// # Errors
    ///
    /// [`ExecutorError::Plan`], then [`ExecutorError::Workers`], then [`ExecutorError::Limit`]; and
    /// [`ExecutorError::OutOfMemory`], which says nothing of the text.
    ///
    /// # Examples
    ///
    /// ```
    /// use sched::{Executor, ExecutorError};
    ///
    /// let executor = Executor::new(b"version = 2", 64, 1_000)?;
    /// assert_eq!((executor.now(), executor.tasks()), (0, 0));
    /// assert!(matches!(Executor::new(b"?", 1, 1), Err(ExecutorError::Plan(_))));
    /// # Ok::<(), ExecutorError>(())
    /// ```
    pub fn new(plan: &[u8], workers: u32, limit: u64) -> Result<Executor, ExecutorError> {
        let mut slot = Slot::default();
        let mut fault = calls::Fault::default();
        let (text, length) = (plan.as_ptr(), plan.len());
        // SAFETY: a slice leads to as many bytes as it is long.
        let status =
            unsafe { calls::sched_ref_new(&mut slot, text, length, workers, limit, &mut fault) };
        match status {
            calls::DONE => Ok(Executor {
                slot: SlotCell::new(slot),
            }),
            status => Err(ExecutorError::of(status, fault)),
        }
    }

    /// Takes an event: the lines are then those that answer it.
    ///
    /// An event that makes no sense is taken too, such as a clock that goes back: its one line says what is wrong.
    ///
    /// # Errors
    ///
    /// [`ExecutorError::Worker`], then [`ExecutorError::Full`]. Nothing changed then.
    ///
    /// # Examples
    ///
    /// ```
    /// use sched::{Event, Executor, ExecutorError};
    ///
    /// let mut executor = Executor::new(b"version = 2", 1, 1)?;
    /// executor.take(Event::Clock(7))?;
    /// assert_eq!(executor.now(), 7);
    /// assert_eq!(executor.take(Event::Clock(8)), Err(ExecutorError::Full));
    /// # Ok::<(), ExecutorError>(())
    /// ```
    pub fn take(&mut self, event: Event) -> Result<(), ExecutorError> {
        let slot = self.slot.get_mut();
        let status = match event {
            Event::Clock(moment) => calls::sched_ref_clock(slot, moment),
            Event::Start(worker) => calls::sched_ref_start(slot, worker),
            Event::Finish(worker, value) => calls::sched_ref_finish(slot, worker, value),
            Event::Fail(worker, code) => calls::sched_ref_fail(slot, worker, code),
            Event::Cancel(task) => calls::sched_ref_cancel(slot, task),
        };
        match status {
            calls::DONE => Ok(()),
            _ => Err(ExecutorError::of(status, calls::Fault::default())),
        }
    }

    /// The run that the last event started. `None` where it was no start that got a task.
    ///
    /// # Examples
    ///
    /// ```
    /// # let plan = b"version = 2\n[[block]]\ncall = [{ op = \"execute\", name = \"once\" }]";
    /// use sched::{Event, Executor};
    ///
    /// let mut executor = Executor::new(plan, 1, 100)?; // of a task that is due at once
    /// executor.take(Event::Clock(3))?;
    /// assert_eq!(executor.started(), None);
    /// executor.take(Event::Start(0))?;
    /// assert_eq!(executor.started().map(|run| run.task), Some(0));
    /// # Ok::<(), sched::ExecutorError>(())
    /// ```
    #[must_use]
    pub fn started(&self) -> Option<Run> {
        let mut run = Run::default();
        let status = self
            .slot
            .look(|slot| calls::sched_ref_started(slot, &mut run));
        match status {
            calls::DONE => Some(run),
            calls::NOT_STARTED => None,
            other => unreachable!("status {other} of a full slot"),
        }
    }

    /// The lines that answer the last event, without their newlines.
    ///
    /// # Examples
    ///
    /// ```
    /// use sched::{Event, Executor};
    ///
    /// let mut executor = Executor::new(b"version = 2", 1, 100)?;
    /// executor.take(Event::Start(0))?;
    /// for line in executor.lines() {
    ///     assert_eq!(line, "0 start 0 idle");
    /// }
    /// # Ok::<(), sched::ExecutorError>(())
    /// ```
    pub fn lines(&self) -> Lines<'_> {
        Lines {
            executor: self,
            next: 0,
            count: self.state().lines,
        }
    }

    /// The moment, in nanoseconds: the greatest of the accepted clocks and the calls made.
    ///
    /// # Examples
    ///
    /// ```
    /// use sched::{Event, Executor};
    ///
    /// let mut executor = Executor::new(b"version = 2", 1, 100)?;
    /// executor.take(Event::Clock(9))?;
    /// executor.take(Event::Clock(5))?;
    /// assert_eq!(executor.now(), 9);
    /// # Ok::<(), sched::ExecutorError>(())
    /// ```
    #[must_use]
    pub fn now(&self) -> u64 {
        self.state().now
    }

    /// How many events were taken.
    ///
    /// # Examples
    ///
    /// ```
    /// use sched::{Event, Executor};
    ///
    /// let mut executor = Executor::new(b"version = 2", 1, 100)?;
    /// executor.take(Event::Clock(9))?;
    /// assert_eq!(executor.taken(), 1);
    /// # Ok::<(), sched::ExecutorError>(())
    /// ```
    #[must_use]
    pub fn taken(&self) -> u32 {
        self.state().taken
    }

    /// How many tasks the plan has.
    ///
    /// # Examples
    ///
    /// ```
    /// # let plan = b"version = 2\n[[block]]\ncall = [{ op = \"execute\", name = \"once\" }]";
    /// let executor = sched::Executor::new(plan, 1, 100)?; // of one task
    /// assert_eq!(executor.tasks(), 1);
    /// # Ok::<(), sched::ExecutorError>(())
    /// ```
    #[must_use]
    pub fn tasks(&self) -> usize {
        self.state().tasks
    }

    /// Whether the due moment of some task in the queue is reached: where it is not, a start gets no task.
    ///
    /// # Examples
    ///
    /// ```
    /// # let plan = b"version = 2\n[[block]]\ncall = [{ op = \"execute\", name = \"once\" }]";
    /// use sched::{Event, Executor};
    ///
    /// let mut executor = Executor::new(plan, 1, 100)?; // of a task that is due at once
    /// assert!(!executor.ripe());
    /// executor.take(Event::Clock(0))?;
    /// assert!(executor.ripe());
    /// # Ok::<(), sched::ExecutorError>(())
    /// ```
    #[must_use]
    pub fn ripe(&self) -> bool {
        self.state().ripe == 1
    }

    /// How far the task of a number is. `None` where the plan has no task of this number.
    ///
    /// # Examples
    ///
    /// ```
    /// # let plan = b"version = 2\n[[block]]\ncall = [{ op = \"execute\", name = \"once\" }]";
    /// use sched::executor::{Event, Executor, Phase};
    ///
    /// let mut executor = Executor::new(plan, 1, 100)?; // of one task
    /// executor.take(Event::Clock(0))?;
    /// let task = executor.task(0).expect("the plan has one");
    /// assert_eq!((task.phase, task.cancelled), (Phase::New, false));
    /// assert_eq!(executor.task(1), None);
    /// # Ok::<(), sched::ExecutorError>(())
    /// ```
    #[must_use]
    pub fn task(&self, task: u32) -> Option<Task> {
        let mut raw = calls::Task::default();
        let status = self
            .slot
            .look(|slot| calls::sched_ref_task_of(slot, task, &mut raw));
        match status {
            calls::DONE => Some(Task::of(raw)),
            calls::UNKNOWN_TASK => None,
            other => unreachable!("status {other} of a full slot"),
        }
    }

    fn state(&self) -> calls::State {
        let mut state = calls::State::default();
        self.slot
            .look(|slot| calls::sched_ref_state_of(slot, &mut state));
        state
    }
}

impl fmt::Debug for Executor {
    fn fmt(&self, f: &mut fmt::Formatter<'_>) -> fmt::Result {
        let state = self.state();
        f.debug_struct("Executor")
            .field("now", &state.now)
            .field("taken", &state.taken)
            .field("tasks", &state.tasks)
            .field("ripe", &(state.ripe == 1))
            .finish_non_exhaustive()
    }
}

impl Drop for Executor {
    fn drop(&mut self) {
        calls::sched_ref_free(self.slot.get_mut());
    }
}

/// The lines that answer an event, as [`Executor::lines`] gives them.
///
/// # Examples
///
/// ```
/// # let plan = b"version = 2\n[[block]]\ncall = [{ op = \"execute\", name = \"once\" }]";
/// use sched::{Event, Executor};
///
/// let mut executor = Executor::new(plan, 1, 100)?; // of a task that is due at once
/// executor.take(Event::Clock(3))?;
/// let mut lines = executor.lines();
/// assert_eq!(lines.len(), 2);
/// assert_eq!(lines.next().as_deref(), Some("0 submit 0 schedule due 0"));
/// assert_eq!(lines.next().as_deref(), Some("3 clock"));
/// assert_eq!(lines.next(), None);
/// # Ok::<(), sched::ExecutorError>(())
/// ```
#[derive(Clone, Debug)]
#[must_use = "a line is copied as it is asked for"]
pub struct Lines<'a> {
    executor: &'a Executor,
    next: usize,
    count: usize,
}

impl Iterator for Lines<'_> {
    type Item = String;

    fn next(&mut self) -> Option<String> {
        let mut line = [0; calls::LINE_ROOM];
        let mut copied = Copied::default();
        let (out, room, from) = (line.as_mut_ptr(), line.len(), self.next);
        self.executor.slot.look(|slot| {
            // SAFETY: an array leads to as many bytes as it is long.
            unsafe { calls::sched_ref_text(slot, from, out, room, &mut copied) }
        });
        self.next += copied.lines;
        line_of(&line[..copied.bytes])
    }

    fn size_hint(&self) -> (usize, Option<usize>) {
        let left = self.count - self.next;
        (left, Some(left))
    }
}

impl ExactSizeIterator for Lines<'_> {}

impl FusedIterator for Lines<'_> {}
