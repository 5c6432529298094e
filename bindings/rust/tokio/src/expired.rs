//! A value that has left.

use crate::values::{Entry, Key};
use tokio::time::Instant;

/// A value that has left [`Delays`](crate::Delays), as its deadline passed, or as it was removed.
///
/// # Examples
///
/// ```
/// use sched_tokio::Delays;
/// use std::time::Duration;
///
/// let mut delays = Delays::new();
/// let key = delays.insert(String::from("late"), Duration::from_secs(1));
/// let mut removed = delays.remove(&key);
/// removed.get_mut().push('r');
/// assert_eq!((removed.key(), removed.get_ref().as_str()), (key, "later"));
/// assert_eq!(removed.into_inner(), "later");
/// ```
#[derive(Debug)]
pub struct Expired<T> {
    value: T,
    deadline: Instant,
    key: Key,
}

impl<T> Expired<T> {
    pub(crate) fn new(key: Key, entry: Entry<T>) -> Expired<T> {
        let Entry {
            value, deadline, ..
        } = entry;
        Expired {
            value,
            deadline,
            key,
        }
    }

    /// The value.
    pub fn get_ref(&self) -> &T {
        &self.value
    }

    /// The value, to be changed.
    pub fn get_mut(&mut self) -> &mut T {
        &mut self.value
    }

    /// The value alone.
    pub fn into_inner(self) -> T {
        self.value
    }

    /// When it was to come, as it was inserted or last reset: no later than it came.
    pub fn deadline(&self) -> Instant {
        self.deadline
    }

    /// The key by which it was known.
    pub fn key(&self) -> Key {
        self.key
    }
}
