//! Why there is no executor, and why an event was not taken.

use super::calls;
use super::fault::Fault;
use std::error::Error;
use std::fmt;

/// Why there is no executor, or why it did not take an event. Nothing changed then.
///
/// Its text tells what is wrong with a plan too, so it has no [`source`](Error::source).
///
/// # Examples
///
/// ```
/// use sched::{Executor, ExecutorError};
///
/// let refused = Executor::new(b"version = 2", 0, 100).unwrap_err();
/// assert_eq!(refused, ExecutorError::Workers);
/// assert_eq!(refused.to_string(), "the number of workers is not 1 to 64");
/// ```
#[derive(Clone, Copy, Debug, PartialEq, Eq, Hash)]
#[non_exhaustive]
pub enum ExecutorError {
    /// The text is no plan.
    Plan(Fault),
    /// The number of workers is not 1 to 64.
    Workers,
    /// The limit on events is not 1 to 4,294,967,295.
    Limit,
    /// As many events were taken as the limit allows.
    Full,
    /// The worker is above 255, so that no event names it.
    Worker,
    /// The allocator refused.
    OutOfMemory,
}

impl ExecutorError {
    /// What a status other than 0 says.
    pub(super) fn of(status: u32, fault: calls::Fault) -> ExecutorError {
        match status {
            calls::NO_MEMORY => ExecutorError::OutOfMemory,
            calls::NO_PLAN => ExecutorError::Plan(Fault::of(fault)),
            calls::WORKERS => ExecutorError::Workers,
            calls::LIMIT => ExecutorError::Limit,
            calls::FULL => ExecutorError::Full,
            calls::NO_WORKER => ExecutorError::Worker,
            other => unreachable!("no call of this module is answered by status {other}"),
        }
    }
}

impl From<Fault> for ExecutorError {
    fn from(fault: Fault) -> ExecutorError {
        ExecutorError::Plan(fault)
    }
}

impl fmt::Display for ExecutorError {
    fn fmt(&self, f: &mut fmt::Formatter<'_>) -> fmt::Result {
        f.write_str(match self {
            ExecutorError::Plan(fault) => return write!(f, "the text is no plan: {fault}"),
            ExecutorError::Workers => "the number of workers is not 1 to 64",
            ExecutorError::Limit => "the limit on events is not 1 to 4,294,967,295",
            ExecutorError::Full => "the limit on events is reached",
            ExecutorError::Worker => "the worker is above 255",
            ExecutorError::OutOfMemory => "out of memory",
        })
    }
}

impl Error for ExecutorError {}
