//! Why there is no pool.

use crate::timers::TimersError;
use std::error::Error;
use std::fmt;
use std::io;

/// Why there is no pool.
///
/// Its text tells that of the error within too, so its [`source`](Error::source) is what that error came from.
///
/// # Examples
///
/// ```
/// use sched::{PoolError, ScheduledThreadPool, TimersError};
///
/// let refused = ScheduledThreadPool::new(0).unwrap_err();
/// assert!(matches!(refused, PoolError::Timers(TimersError::Workers)));
/// assert_eq!(refused.to_string(), "the number of workers is not 1 to 255");
/// ```
#[derive(Debug)]
#[non_exhaustive]
pub enum PoolError {
    /// The number of threads is not 1 to 255, or memory ran out.
    Timers(TimersError),
    /// The system refused a thread.
    Thread(io::Error),
}

impl From<TimersError> for PoolError {
    fn from(error: TimersError) -> PoolError {
        PoolError::Timers(error)
    }
}

impl fmt::Display for PoolError {
    fn fmt(&self, f: &mut fmt::Formatter<'_>) -> fmt::Result {
        match self {
            PoolError::Timers(error) => write!(f, "{error}"),
            PoolError::Thread(error) => write!(f, "no thread: {error}"),
        }
    }
}

impl Error for PoolError {
    fn source(&self) -> Option<&(dyn Error + 'static)> {
        match self {
            PoolError::Timers(error) => error.source(),
            PoolError::Thread(error) => error.source(),
        }
    }
}
