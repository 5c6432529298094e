//! What calls on timers are told, and what they answer.

use super::calls::{self, TaskRef};

/// How a run that is to be ended ended, for [`Timers::finish_many`](crate::Timers::finish_many).
///
/// # Examples
///
/// ```
/// use sched::timers::{Ending, Outcome, Timers};
///
/// let mut timers = Timers::new(1)?;
/// timers.execute(0, 70)?;
/// timers.poll(1, 0)?;
/// let ended = timers.finish_many(2, &[Ending { worker: 0, result: Err(5) }])?;
/// assert_eq!(ended[0].outcome, Outcome::Failed(5));
/// # Ok::<(), Box<dyn std::error::Error>>(())
/// ```
#[derive(Clone, Copy, Debug, PartialEq, Eq, Hash)]
pub struct Ending {
    /// The worker that has it under way.
    pub worker: u32,
    /// Its value, or the code of its failure.
    pub result: Result<u64, u32>,
}

impl Ending {
    /// The ending as the library reads it.
    pub(super) fn raw(self) -> calls::Ending {
        let (value, failed) = match self.result {
            Ok(value) => (value, 0),
            Err(code) => (u64::from(code), 1),
        };
        calls::Ending {
            value,
            worker: self.worker,
            failed,
        }
    }
}

/// What becomes of a task whose run has ended.
///
/// # Examples
///
/// ```
/// use sched::timers::{Outcome, Timers};
///
/// let mut timers = Timers::new(1)?;
/// timers.at_rate(0, 5, 10, 70)?;
/// timers.poll(6, 0)?;
/// assert_eq!(timers.finish(7, 0, 1)?.outcome, Outcome::Again(15));
/// # Ok::<(), sched::TimersError>(())
/// ```
#[derive(Clone, Copy, Debug, PartialEq, Eq, Hash)]
pub enum Outcome {
    /// It is done, with the value of its run.
    Done(u64),
    /// The run failed, with this code: no run comes after it.
    Failed(u32),
    /// It waits for its next run, which is due at this moment, in nanoseconds.
    Again(u64),
    /// It was cancelled as it ran.
    Dropped,
    /// The timers are shut, and the policies let no run of it come after this one.
    Ended,
}

/// A run that a worker has ended, as [`Timers::finish`](crate::Timers::finish) and [`Timers::fail`](crate::Timers::fail) tell it.
///
/// # Examples
///
/// ```
/// use sched::timers::{End, Outcome, Timers};
///
/// let mut timers = Timers::new(1)?;
/// let task = timers.execute(0, 70)?;
/// timers.poll(1, 0)?;
/// let end = End { task, run: 0, data: 70, outcome: Outcome::Done(42) };
/// assert_eq!(timers.finish(2, 0, 42)?, end);
/// # Ok::<(), sched::TimersError>(())
/// ```
#[derive(Clone, Copy, Debug, PartialEq, Eq, Hash)]
pub struct End {
    /// The task.
    pub task: TaskRef,
    /// The number of the run, 0 for the first one of its task.
    pub run: u64,
    /// What was given with the submission.
    pub data: u64,
    /// What becomes of the task.
    pub outcome: Outcome,
}

impl End {
    /// The end that the library writes as numbers.
    pub(super) fn of(raw: calls::End) -> End {
        let outcome = match raw.outcome {
            calls::OUTCOME_DONE => Outcome::Done(raw.value),
            calls::OUTCOME_FAILED => {
                Outcome::Failed(u32::try_from(raw.value).expect("a code is below 2^32"))
            }
            calls::OUTCOME_AGAIN => Outcome::Again(raw.value),
            calls::OUTCOME_DROPPED => Outcome::Dropped,
            calls::OUTCOME_ENDED => Outcome::Ended,
            other => unreachable!("outcome {other}"),
        };
        End {
            task: raw.task,
            run: raw.run,
            data: raw.data,
            outcome,
        }
    }
}

/// What a cancel did, as [`Timers::cancel`](crate::Timers::cancel) tells.
///
/// # Examples
///
/// ```
/// use sched::timers::{Effect, Timers};
///
/// let mut timers = Timers::new(1)?;
/// let task = timers.execute(0, 70)?;
/// timers.poll(1, 0)?;
/// timers.finish(2, 0, 42)?;
/// assert_eq!(timers.cancel(task)?, Effect::Over);
/// # Ok::<(), sched::TimersError>(())
/// ```
#[derive(Clone, Copy, Debug, PartialEq, Eq, Hash)]
pub enum Effect {
    /// Nothing: the submission was rejected.
    Rejected,
    /// Nothing: the task was cancelled before, or is over.
    Over,
    /// The task waited, or is run, and is cancelled now.
    Cancelled,
}

impl Effect {
    /// The effect that the library writes as a number.
    pub(super) fn of(raw: u32) -> Effect {
        match raw {
            calls::CANCEL_NONE => Effect::Rejected,
            calls::CANCEL_NO => Effect::Over,
            calls::CANCEL_YES => Effect::Cancelled,
            other => unreachable!("effect {other}"),
        }
    }
}

/// How far a task is.
///
/// # Examples
///
/// ```
/// use sched::timers::{Phase, Timers};
///
/// let mut timers = Timers::new(1)?;
/// let task = timers.schedule(0, 5, 70)?;
/// timers.cancel(task)?;
/// assert_eq!(timers.task(task).map(|task| task.phase), Some(Phase::Kept));
/// timers.poll(5, 0)?;
/// assert_eq!(timers.task(task).map(|task| task.phase), Some(Phase::Gone));
/// # Ok::<(), sched::TimersError>(())
/// ```
#[derive(Clone, Copy, Debug, PartialEq, Eq, Hash)]
pub enum Phase {
    /// It is over, or was cancelled and left the queue, or its submission was rejected.
    Gone,
    /// It waits for a run.
    Waiting,
    /// A run of it is under way.
    Running,
    /// It was cancelled while it waited, and stands in the queue still.
    Kept,
}

/// A task as it stands, as [`Timers::task`](crate::Timers::task) tells.
///
/// # Examples
///
/// ```
/// use sched::timers::{Phase, Task, Timers};
///
/// let mut timers = Timers::new(1)?;
/// let task = timers.schedule(0, 5, 70)?;
/// let waits = Task { phase: Phase::Waiting, run: 0, due: 5, cancelled: false };
/// assert_eq!(timers.task(task), Some(waits));
/// # Ok::<(), sched::TimersError>(())
/// ```
#[derive(Clone, Copy, Debug, PartialEq, Eq, Hash)]
pub struct Task {
    /// How far it is.
    pub phase: Phase,
    /// The number of the run that it waits for, or that is under way; 0 where the task is gone.
    pub run: u64,
    /// The moment at which that run is due, in nanoseconds; 0 where the task is gone.
    pub due: u64,
    /// Whether it was cancelled, and is not gone.
    pub cancelled: bool,
}

impl Task {
    /// The task that the library writes as numbers.
    pub(super) fn of(raw: calls::Task) -> Task {
        let phase = match raw.phase {
            calls::TASK_GONE => Phase::Gone,
            calls::TASK_WAITING => Phase::Waiting,
            calls::TASK_RUNNING => Phase::Running,
            calls::TASK_KEPT => Phase::Kept,
            other => unreachable!("phase {other}"),
        };
        Task {
            phase,
            run: raw.run,
            due: raw.due,
            cancelled: raw.cancelled == 1,
        }
    }
}

/// What the timers do with tasks after an orderly shutdown, and after a cancel.
///
/// # Examples
///
/// ```
/// use sched::timers::{Policy, Timers};
///
/// let mut timers = Timers::new(1)?;
/// assert!(timers.state().policy(Policy::Execute));
/// timers.set_policy(0, Policy::Execute, false)?;
/// timers.schedule(0, 5, 70)?;
/// timers.shutdown(1)?; // the task that waits has no run any more
/// assert_eq!(timers.ended().map(|gone| gone.data).collect::<Vec<_>>(), [70]);
/// # Ok::<(), sched::TimersError>(())
/// ```
#[derive(Clone, Copy, Debug, PartialEq, Eq, Hash)]
#[non_exhaustive]
pub enum Policy {
    /// Periodic tasks run on after an orderly shutdown: false at first.
    Continue,
    /// Tasks that wait for one run have it after an orderly shutdown: true at first.
    Execute,
    /// A task that is cancelled while it waits leaves the queue at once: false at first.
    Remove,
}

impl Policy {
    /// The number of the policy.
    pub(super) fn raw(self) -> u32 {
        match self {
            Policy::Continue => calls::POLICY_CONTINUE,
            Policy::Execute => calls::POLICY_EXECUTE,
            Policy::Remove => calls::POLICY_REMOVE,
        }
    }
}

/// How far the timers are, as [`Timers::state`](crate::Timers::state) tells.
///
/// # Examples
///
/// ```
/// let mut timers = sched::Timers::new(1)?;
/// timers.execute(3, 70)?;
/// timers.shutdown_now(5)?;
/// let state = timers.state();
/// assert_eq!((state.now, state.alive, state.ended, state.lines), (5, 0, 1, 2));
/// assert!(state.shut && state.terminated);
/// # Ok::<(), sched::TimersError>(())
/// ```
#[derive(Clone, Copy, Debug, PartialEq, Eq, Hash)]
pub struct State {
    /// The greatest moment so far, in nanoseconds.
    pub now: u64,
    /// How many submissions were given a number.
    pub numbers: u64,
    /// How many tasks stand in the queue, or have a run under way.
    pub alive: usize,
    /// How many tasks the last call ended, but for the one whose run was finished.
    pub ended: usize,
    /// How many lines the last call has.
    pub lines: usize,
    /// The policies that are true, bit n for the one of number n.
    policies: u32,
    /// Whether a call to shut down was made.
    pub shut: bool,
    /// Whether they are shut, and no task is alive.
    pub terminated: bool,
}

impl State {
    /// The state that the library writes as numbers.
    pub(super) fn of(raw: calls::State) -> State {
        State {
            now: raw.now,
            numbers: raw.numbers,
            alive: raw.alive,
            ended: raw.ended,
            lines: raw.lines,
            policies: raw.policies,
            shut: raw.shut == 1,
            terminated: raw.terminated == 1,
        }
    }

    /// Whether a policy is true.
    ///
    /// # Examples
    ///
    /// ```
    /// use sched::timers::{Policy, Timers};
    ///
    /// let state = Timers::new(1)?.state();
    /// assert!(state.policy(Policy::Execute) && !state.policy(Policy::Continue));
    /// # Ok::<(), sched::TimersError>(())
    /// ```
    #[must_use]
    pub fn policy(&self, policy: Policy) -> bool {
        self.policies >> policy.raw() & 1 == 1
    }
}

/// How many tasks there are, as [`Timers::ask`](crate::Timers::ask) and
/// [`ScheduledThreadPool::counts`](crate::ScheduledThreadPool::counts) tell.
///
/// # Examples
///
/// ```
/// use sched::timers::{Counts, Timers};
///
/// let mut timers = Timers::new(1)?;
/// timers.execute(0, 70)?;
/// let waits = Counts { queue: 1, running: 0, shut: false, terminated: false };
/// assert_eq!(timers.ask(1)?, waits);
/// # Ok::<(), sched::TimersError>(())
/// ```
#[derive(Clone, Copy, Debug, PartialEq, Eq, Hash)]
pub struct Counts {
    /// How many tasks wait, or are kept in the queue after a cancel.
    pub queue: usize,
    /// How many tasks have a run under way.
    pub running: usize,
    /// Whether a call to shut down was made.
    pub shut: bool,
    /// Whether they are shut, and nothing is queued or run.
    pub terminated: bool,
}

impl Counts {
    /// The counts that the library writes as numbers.
    pub(super) fn of(raw: calls::Counts) -> Counts {
        Counts {
            queue: raw.queue,
            running: raw.running,
            shut: raw.shut == 1,
            terminated: raw.terminated == 1,
        }
    }
}
