//! What an executor is told, and how far its tasks are.

use super::calls;

/// What the program tells the executor.
///
/// # Examples
///
/// ```
/// use sched::{Event, Executor};
///
/// let mut executor = Executor::new(b"version = 2", 1, 100)?;
/// for event in [Event::Clock(5), Event::Start(0), Event::Finish(0, 7)] {
///     executor.take(event)?;
/// }
/// let answer = executor.lines().next();
/// assert_eq!(answer.as_deref(), Some("5 error not running"));
/// # Ok::<(), sched::ExecutorError>(())
/// ```
#[derive(Clone, Copy, Debug, PartialEq, Eq, Hash)]
#[non_exhaustive]
pub enum Event {
    /// The clock shows this moment, in nanoseconds.
    Clock(u64),
    /// This worker asks for work.
    Start(u32),
    /// The run of this worker ended with a value.
    Finish(u32, u64),
    /// The run of this worker failed, with a code.
    Fail(u32, u32),
    /// This task is to be cancelled.
    Cancel(u32),
}

/// How far a task has come.
///
/// # Examples
///
/// ```
/// # let plan = b"version = 2\n[[block]]\ncall = [{ op = \"execute\", name = \"once\" }]";
/// use sched::executor::{Event, Executor, Phase};
///
/// let mut executor = Executor::new(plan, 1, 100)?; // of one task, which runs once
/// let mut phases = Vec::new();
/// for event in [Event::Start(0), Event::Clock(0), Event::Start(0), Event::Finish(0, 7)] {
///     executor.take(event)?;
///     phases.extend(executor.task(0).map(|task| task.phase));
/// }
/// assert_eq!(phases, [Phase::Vacant, Phase::New, Phase::Running, Phase::Done]);
/// # Ok::<(), sched::ExecutorError>(())
/// ```
#[derive(Clone, Copy, Debug, PartialEq, Eq, Hash)]
pub enum Phase {
    /// Not submitted yet, or its submission was refused.
    Vacant,
    /// Waits for its run, or was cancelled before that began.
    New,
    /// Is run, or was cancelled meanwhile or as its run ended.
    Running,
    /// Its last run is done.
    Done,
    /// Its last run failed.
    Failed,
}

impl Phase {
    /// The phase that the library writes as a number.
    fn of(raw: u32) -> Phase {
        match raw {
            calls::TASK_VACANT => Phase::Vacant,
            calls::TASK_NEW => Phase::New,
            calls::TASK_RUNNING => Phase::Running,
            calls::TASK_DONE => Phase::Done,
            calls::TASK_FAILED => Phase::Failed,
            other => unreachable!("phase {other}"),
        }
    }
}

/// How far a task is, as [`Executor::task`](crate::Executor::task) tells. A cancelled task stands still.
///
/// # Examples
///
/// ```
/// # let plan = b"version = 2\n[[block]]\ncall = [{ op = \"execute\", name = \"once\" }]";
/// use sched::executor::{Event, Executor, Phase, Task};
///
/// let mut executor = Executor::new(plan, 1, 100)?; // of one task
/// executor.take(Event::Clock(0))?;
/// executor.take(Event::Cancel(0))?;
/// let cancelled = Task { phase: Phase::New, run: 0, cancelled: true };
/// assert_eq!(executor.task(0), Some(cancelled));
/// # Ok::<(), sched::ExecutorError>(())
/// ```
#[derive(Clone, Copy, Debug, PartialEq, Eq, Hash)]
pub struct Task {
    /// How far it has come.
    pub phase: Phase,
    /// The number of the run, from 0.
    pub run: u32,
    /// Whether it was cancelled.
    pub cancelled: bool,
}

impl Task {
    /// The task that the library writes as numbers.
    pub(super) fn of(raw: calls::Task) -> Task {
        Task {
            phase: Phase::of(raw.phase),
            run: raw.run,
            cancelled: raw.cancelled == 1,
        }
    }
}
