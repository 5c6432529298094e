//! Tasks, each of which comes out once the moment at which it is due has come.
//!
//! A queue reads no clock: the program hands in the moment. Moments are nanoseconds since a beginning that it chooses, from 0 to
//! [`u64::MAX`].
//!
//! ```
//! use sched::DelayQueue;
//!
//! let mut queue = DelayQueue::new(3)?;
//! queue.insert(5_000, 0)?;
//! queue.insert(7_000, 2)?;
//! for entry in queue.due(6_000) {
//!     assert_eq!((entry.due, entry.task), (5_000, 0));
//! }
//! assert_eq!(queue.len(), 1);
//! # Ok::<(), sched::QueueError>(())
//! ```

mod calls;
mod error;

use crate::slot::SlotCell;
pub use calls::Entry;
use calls::Slot;
pub use error::{InsertManyError, QueueError};
use std::fmt;
use std::iter::FusedIterator;

/// Whether a call on a full slot found what it looks for.
fn found(status: u32) -> bool {
    match status {
        calls::DONE => true,
        calls::NO_ENTRY => false,
        other => unreachable!("status {other} of a full slot"),
    }
}

/// The entries of tasks, at most one for each task below a fixed count. The module's page has an example.
///
/// All its memory is taken when it is made, and given back when it is dropped. It may move to another thread. Calls that only look
/// take it by `&self`, and still not from two threads at once:
///
/// ```compile_fail,E0277
/// fn shared<T: Sync>() {}
/// shared::<sched::DelayQueue>();
/// ```
pub struct DelayQueue {
    slot: SlotCell<Slot>,
}

impl DelayQueue {
    /// A queue for the tasks from 0 to `tasks - 1`.
    ///
    /// # Errors
    ///
    /// [`QueueError::OutOfMemory`].
    ///
    /// # Examples
    ///
    /// ```
    /// let queue = sched::DelayQueue::new(100)?;
    /// assert!(queue.is_empty());
    /// # Ok::<(), sched::QueueError>(())
    /// ```
    pub fn new(tasks: u32) -> Result<DelayQueue, QueueError> {
        let mut slot = Slot::default();
        QueueError::check(calls::dq_ref_new(&mut slot, tasks))?;
        Ok(DelayQueue {
            slot: SlotCell::new(slot),
        })
    }

    /// Adds an entry: the task is due at the moment `due`, in nanoseconds.
    ///
    /// # Errors
    ///
    /// [`QueueError::UnknownTask`], and then [`QueueError::HasEntry`].
    ///
    /// # Examples
    ///
    /// ```
    /// use sched::{DelayQueue, QueueError};
    ///
    /// let mut queue = DelayQueue::new(2)?;
    /// queue.insert(5_000, 1)?;
    /// assert_eq!(queue.insert(6_000, 1), Err(QueueError::HasEntry));
    /// # Ok::<(), QueueError>(())
    /// ```
    pub fn insert(&mut self, due: u64, task: u32) -> Result<(), QueueError> {
        QueueError::check(calls::dq_ref_try_insert(self.slot.get_mut(), due, task))
    }

    /// Adds entries in turn, up to the first that is refused.
    ///
    /// # Errors
    ///
    /// Which one was refused, and why. Those before it are in the queue.
    ///
    /// # Examples
    ///
    /// ```
    /// use sched::{DelayQueue, Entry};
    ///
    /// let mut queue = DelayQueue::new(2)?;
    /// queue.insert_many(&[Entry { due: 9, task: 0 }, Entry { due: 5, task: 1 }])?;
    /// assert_eq!(queue.len(), 2);
    /// # Ok::<(), Box<dyn std::error::Error>>(())
    /// ```
    pub fn insert_many(&mut self, entries: &[Entry]) -> Result<(), InsertManyError> {
        let mut place = 0;
        let slot = self.slot.get_mut();
        // SAFETY: a slice leads to as many entries as it is long.
        let status =
            unsafe { calls::dq_ref_insert_many(slot, entries.as_ptr(), entries.len(), &mut place) };
        QueueError::check(status).map_err(|why| InsertManyError { place, why })
    }

    /// Takes out the least entry, if it is due at the moment `now`.
    ///
    /// # Examples
    ///
    /// ```
    /// use sched::{DelayQueue, Entry};
    ///
    /// let mut queue = DelayQueue::new(1)?;
    /// queue.insert(5_000, 0)?;
    /// assert_eq!(queue.poll(4_999), None);
    /// assert_eq!(queue.poll(5_000), Some(Entry { due: 5_000, task: 0 }));
    /// # Ok::<(), sched::QueueError>(())
    /// ```
    #[must_use = "the entry has left the queue; `remove` takes out that of a task"]
    pub fn poll(&mut self, now: u64) -> Option<Entry> {
        let mut out = Entry::default();
        found(calls::dq_ref_poll(self.slot.get_mut(), now, &mut out)).then_some(out)
    }

    /// Takes out entries that are due at the moment `now`, the least first, as many as `out` has room for, and writes them there:
    /// how many. Fewer than there is room for say that no more are due. What stands behind them is as it was.
    ///
    /// # Examples
    ///
    /// ```
    /// use sched::{DelayQueue, Entry};
    ///
    /// let mut queue = DelayQueue::new(2)?;
    /// queue.insert(5_000, 0)?;
    /// queue.insert(9_000, 1)?;
    /// let mut out = [Entry::default(); 8];
    /// let polled = queue.poll_many(6_000, &mut out);
    /// assert_eq!(out[..polled], [Entry { due: 5_000, task: 0 }]);
    /// # Ok::<(), sched::QueueError>(())
    /// ```
    #[must_use = "it says how many entries were written"]
    pub fn poll_many(&mut self, now: u64, out: &mut [Entry]) -> usize {
        let mut polled = 0;
        let (first, room) = (out.as_mut_ptr(), out.len());
        let slot = self.slot.get_mut();
        // SAFETY: a slice leads to as many entries as it is long.
        found(unsafe { calls::dq_ref_poll_many(slot, now, first, room, &mut polled) });
        polled
    }

    /// The least entry, due or not. It stays.
    ///
    /// # Examples
    ///
    /// ```
    /// let mut queue = sched::DelayQueue::new(1)?;
    /// assert_eq!(queue.peek(), None);
    /// queue.insert(5_000, 0)?;
    /// assert_eq!(queue.peek().map(|entry| entry.due), Some(5_000));
    /// # Ok::<(), sched::QueueError>(())
    /// ```
    #[must_use]
    pub fn peek(&self) -> Option<Entry> {
        let mut out = Entry::default();
        let status = self.slot.look(|slot| calls::dq_ref_peek(slot, &mut out));
        found(status).then_some(out)
    }

    /// Takes out the entry of a task, and says whether there was one.
    ///
    /// # Examples
    ///
    /// ```
    /// let mut queue = sched::DelayQueue::new(1)?;
    /// queue.insert(5_000, 0)?;
    /// assert!(queue.remove(0));
    /// assert!(!queue.remove(0));
    /// # Ok::<(), sched::QueueError>(())
    /// ```
    pub fn remove(&mut self, task: u32) -> bool {
        found(calls::dq_ref_remove(self.slot.get_mut(), task))
    }

    /// When a task is due, or `None` where it has no entry.
    ///
    /// # Examples
    ///
    /// ```
    /// let mut queue = sched::DelayQueue::new(2)?;
    /// queue.insert(5_000, 0)?;
    /// assert_eq!((queue.due_of(0), queue.due_of(1)), (Some(5_000), None));
    /// # Ok::<(), sched::QueueError>(())
    /// ```
    #[must_use]
    pub fn due_of(&self, task: u32) -> Option<u64> {
        let mut due = 0;
        let status = self
            .slot
            .look(|slot| calls::dq_ref_due_of(slot, task, &mut due));
        found(status).then_some(due)
    }

    /// Whether a task has an entry.
    ///
    /// # Examples
    ///
    /// ```
    /// let mut queue = sched::DelayQueue::new(2)?;
    /// queue.insert(5_000, 0)?;
    /// assert!(queue.contains(0) && !queue.contains(1));
    /// # Ok::<(), sched::QueueError>(())
    /// ```
    #[must_use]
    pub fn contains(&self, task: u32) -> bool {
        found(self.slot.look(|slot| calls::dq_ref_contains(slot, task)))
    }

    /// How many entries there are.
    ///
    /// # Examples
    ///
    /// ```
    /// let mut queue = sched::DelayQueue::new(2)?;
    /// queue.insert(5_000, 1)?;
    /// assert_eq!(queue.len(), 1);
    /// # Ok::<(), sched::QueueError>(())
    /// ```
    #[must_use]
    pub fn len(&self) -> usize {
        let mut count = 0;
        found(self.slot.look(|slot| calls::dq_ref_len(slot, &mut count)));
        count
    }

    /// Whether there is no entry.
    ///
    /// # Examples
    ///
    /// ```
    /// let mut queue = sched::DelayQueue::new(2)?;
    /// assert!(queue.is_empty());
    /// queue.insert(5_000, 1)?;
    /// assert!(!queue.is_empty());
    /// # Ok::<(), sched::QueueError>(())
    /// ```
    #[must_use]
    pub fn is_empty(&self) -> bool {
        self.len() == 0
    }

    /// How often the calls so far compared two entries, or changed the place of an entry that stays.
    ///
    /// # Examples
    ///
    /// ```
    /// let mut queue = sched::DelayQueue::new(2)?;
    /// queue.insert(5_000, 1)?;
    /// assert_eq!(queue.touched(), 0);
    /// queue.insert(4_000, 0)?;
    /// assert!(queue.touched() > 0);
    /// # Ok::<(), sched::QueueError>(())
    /// ```
    #[must_use]
    pub fn touched(&self) -> u64 {
        let mut touched = 0;
        found(
            self.slot
                .look(|slot| calls::dq_ref_touched(slot, &mut touched)),
        );
        touched
    }

    /// The entries that are due at the moment `now`, the least first. Each leaves the queue as it is given out.
    ///
    /// # Examples
    ///
    /// ```
    /// let mut queue = sched::DelayQueue::new(3)?;
    /// for (due, task) in [(7, 0), (5, 1), (9, 2)] {
    ///     queue.insert(due, task)?;
    /// }
    /// let due: Vec<u32> = queue.due(8).map(|entry| entry.task).collect();
    /// assert_eq!(due, [1, 0]);
    /// assert_eq!(queue.len(), 1);
    /// # Ok::<(), sched::QueueError>(())
    /// ```
    pub fn due(&mut self, now: u64) -> Due<'_> {
        Due { queue: self, now }
    }
}

impl fmt::Debug for DelayQueue {
    fn fmt(&self, f: &mut fmt::Formatter<'_>) -> fmt::Result {
        f.debug_struct("DelayQueue")
            .field("len", &self.len())
            .field("least", &self.peek())
            .finish_non_exhaustive()
    }
}

impl Drop for DelayQueue {
    fn drop(&mut self) {
        calls::dq_ref_free(self.slot.get_mut());
    }
}

/// The entries that are due at a moment, as [`DelayQueue::due`] gives them. Those that were not asked for stay in the queue.
///
/// # Examples
///
/// ```
/// let mut queue = sched::DelayQueue::new(2)?;
/// queue.insert(5, 0)?;
/// queue.insert(5, 1)?;
/// assert_eq!(queue.due(5).take(1).count(), 1);
/// assert!(queue.contains(1));
/// # Ok::<(), sched::QueueError>(())
/// ```
#[derive(Debug)]
#[must_use = "an entry leaves the queue as it is asked for"]
pub struct Due<'a> {
    queue: &'a mut DelayQueue,
    now: u64,
}

impl Iterator for Due<'_> {
    type Item = Entry;

    fn next(&mut self) -> Option<Entry> {
        self.queue.poll(self.now)
    }

    fn size_hint(&self) -> (usize, Option<usize>) {
        (0, Some(self.queue.len()))
    }
}

impl FusedIterator for Due<'_> {}
