//! Why a call on a delay queue was refused.

use super::calls;
use std::error::Error;
use std::fmt;

/// Why a call was refused. The queue is then as it was.
///
/// # Examples
///
/// ```
/// use sched::{DelayQueue, QueueError};
///
/// let mut queue = DelayQueue::new(2)?;
/// let refused = queue.insert(5, 2).unwrap_err();
/// assert_eq!(refused, QueueError::UnknownTask);
/// assert_eq!(refused.to_string(), "no such task");
/// # Ok::<(), QueueError>(())
/// ```
#[derive(Clone, Copy, Debug, PartialEq, Eq, Hash)]
#[non_exhaustive]
pub enum QueueError {
    /// The allocator refused.
    OutOfMemory,
    /// The task is not below the count of tasks.
    UnknownTask,
    /// The task has an entry already.
    HasEntry,
}

impl QueueError {
    /// What a status says of a call on a full slot.
    pub(super) fn check(status: u32) -> Result<(), QueueError> {
        match status {
            calls::DONE => Ok(()),
            calls::NO_MEMORY => Err(QueueError::OutOfMemory),
            calls::UNKNOWN_TASK => Err(QueueError::UnknownTask),
            calls::HAS_ENTRY => Err(QueueError::HasEntry),
            other => unreachable!("status {other} of a full slot"),
        }
    }
}

impl fmt::Display for QueueError {
    fn fmt(&self, f: &mut fmt::Formatter<'_>) -> fmt::Result {
        f.write_str(match self {
            QueueError::OutOfMemory => "out of memory",
            QueueError::UnknownTask => "no such task",
            QueueError::HasEntry => "the task has an entry already",
        })
    }
}

impl Error for QueueError {}

/// Which of many entries was refused, and why. Those before it are in the queue, and none of the others is.
///
/// Its text tells the reason too, so it has no [`source`](Error::source).
///
/// # Examples
///
/// ```
/// use sched::{DelayQueue, Entry};
///
/// let mut queue = DelayQueue::new(2)?;
/// let entries = [Entry { due: 5, task: 0 }, Entry { due: 5, task: 7 }];
/// let refused = queue.insert_many(&entries).unwrap_err();
/// assert_eq!(refused.to_string(), "entry 1: no such task");
/// assert_eq!(queue.len(), 1);
/// # Ok::<(), sched::QueueError>(())
/// ```
#[derive(Clone, Copy, Debug, PartialEq, Eq, Hash)]
pub struct InsertManyError {
    /// The place of the entry among those that were to be added, from 0.
    pub place: usize,
    /// Why it was refused.
    pub why: QueueError,
}

impl fmt::Display for InsertManyError {
    fn fmt(&self, f: &mut fmt::Formatter<'_>) -> fmt::Result {
        write!(f, "entry {}: {}", self.place, self.why)
    }
}

impl Error for InsertManyError {}
