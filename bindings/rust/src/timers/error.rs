//! Why a call on timers was refused.

use super::answers::End;
use super::calls::{self, TaskRef};
use std::error::Error;
use std::fmt;

/// Why a call was refused. The timers are then as they were, but that a rejected submission has its number, and that a poll which
/// finds no number left has moved the moment.
///
/// # Examples
///
/// ```
/// use sched::{Timers, TimersError};
///
/// let mut timers = Timers::new(1)?;
/// assert_eq!(timers.at_rate(0, 5, 0, 70), Err(TimersError::ZeroPeriod));
/// timers.shutdown(0)?;
/// let refused = timers.execute(0, 70).unwrap_err();
/// assert!(matches!(refused, TimersError::Rejected(task) if task.number == 0));
/// assert_eq!(refused.to_string(), "submission 0 is rejected: the timers are shut");
/// # Ok::<(), TimersError>(())
/// ```
#[derive(Clone, Copy, Debug, PartialEq, Eq, Hash)]
#[non_exhaustive]
pub enum TimersError {
    /// The allocator refused, or there are 2^30 slots.
    OutOfMemory,
    /// The number of workers is not 1 to 255.
    Workers,
    /// The timers are shut: the submission has the number of this ref, and no task.
    Rejected(TaskRef),
    /// A period, or a delay between runs, is 0.
    ZeroPeriod,
    /// A delay or a period is above 2^62 nanoseconds.
    TooLong,
    /// The moment of the call would be above 2^62 nanoseconds.
    TooFar,
    /// There is no such worker.
    NoWorker,
    /// The worker has a run under way.
    Busy,
    /// The worker has no run under way.
    NotRunning,
    /// No number is left, for a submission or for a run of the task that is due.
    Full,
    /// No submission was given the number yet.
    NoTask,
    /// A line of the last call would name a task by a number of 2^32 or more.
    Number,
}

impl TimersError {
    /// What a status other than 0 says of a call on a full slot.
    pub(super) fn of(status: u32) -> TimersError {
        match status {
            calls::NO_MEMORY => TimersError::OutOfMemory,
            calls::WORKERS => TimersError::Workers,
            calls::ILLEGAL => TimersError::ZeroPeriod,
            calls::TOO_LONG => TimersError::TooLong,
            calls::TOO_FAR => TimersError::TooFar,
            calls::NO_WORKER => TimersError::NoWorker,
            calls::BUSY => TimersError::Busy,
            calls::NOT_RUNNING => TimersError::NotRunning,
            calls::FULL => TimersError::Full,
            calls::NO_TASK => TimersError::NoTask,
            calls::NUMBER => TimersError::Number,
            other => unreachable!("status {other} of a full slot"),
        }
    }
}

impl fmt::Display for TimersError {
    fn fmt(&self, f: &mut fmt::Formatter<'_>) -> fmt::Result {
        f.write_str(match self {
            TimersError::OutOfMemory => "out of memory",
            TimersError::Workers => "the number of workers is not 1 to 255",
            TimersError::Rejected(task) => {
                return write!(
                    f,
                    "submission {} is rejected: the timers are shut",
                    task.number
                );
            }
            TimersError::ZeroPeriod => "a period, or a delay between runs, is 0",
            TimersError::TooLong => {
                "a span is above 2^62 nanoseconds, which are 4611686018 seconds"
            }
            TimersError::TooFar => "the moment is above 2^62 nanoseconds",
            TimersError::NoWorker => "there is no such worker",
            TimersError::Busy => "the worker has a run under way",
            TimersError::NotRunning => "the worker has no run under way",
            TimersError::Full => "no number is left",
            TimersError::NoTask => "no such task",
            TimersError::Number => "a line can not name the task",
        })
    }
}

impl Error for TimersError {}

/// What some polls of one call did, and why the poll behind them was refused. The runs that were begun are under way.
///
/// Its text tells the reason too, so it has no [`source`](Error::source).
///
/// # Examples
///
/// ```
/// use sched::timers::{PollManyError, Run, Timers, TimersError};
///
/// let mut timers = Timers::new(1)?;
/// timers.execute(0, 70)?;
/// timers.execute(0, 71)?;
/// let mut runs = [Run::default(); 2]; // both of worker 0
/// let refused = timers.poll_many(5, &mut runs).unwrap_err();
/// assert_eq!(refused, PollManyError { begun: 1, why: TimersError::Busy });
/// assert_eq!(refused.to_string(), "poll 1: the worker has a run under way");
/// # Ok::<(), TimersError>(())
/// ```
#[derive(Clone, Copy, Debug, PartialEq, Eq, Hash)]
pub struct PollManyError {
    /// How many runs were begun.
    pub begun: usize,
    /// Why the next poll was refused.
    pub why: TimersError,
}

impl fmt::Display for PollManyError {
    fn fmt(&self, f: &mut fmt::Formatter<'_>) -> fmt::Result {
        write!(f, "poll {}: {}", self.begun, self.why)
    }
}

impl Error for PollManyError {}

/// What some finishes of one call did, and why the finish behind them was refused.
///
/// Its text tells the reason too, so it has no [`source`](Error::source).
///
/// # Examples
///
/// ```
/// use sched::timers::{Ending, Timers, TimersError};
///
/// let mut timers = Timers::new(1)?;
/// let ending = Ending { worker: 0, result: Ok(1) };
/// let refused = timers.finish_many(5, &[ending]).unwrap_err();
/// assert_eq!((refused.ended.len(), refused.why), (0, TimersError::NotRunning));
/// assert_eq!(refused.to_string(), "finish 0: the worker has no run under way");
/// # Ok::<(), TimersError>(())
/// ```
#[derive(Clone, Debug, PartialEq, Eq, Hash)]
pub struct FinishManyError {
    /// The runs that were ended.
    pub ended: Vec<End>,
    /// Why the next finish was refused.
    pub why: TimersError,
}

impl fmt::Display for FinishManyError {
    fn fmt(&self, f: &mut fmt::Formatter<'_>) -> fmt::Result {
        write!(f, "finish {}: {}", self.ended.len(), self.why)
    }
}

impl Error for FinishManyError {}
