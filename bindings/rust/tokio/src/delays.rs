//! The stream.

use crate::expired::Expired;
use crate::values::{Key, Values};
use futures_core::Stream;
use sched::{DelayQueue, QueueError};
use std::fmt;
use std::future::{Future, poll_fn};
use std::pin::{Pin, pin};
use std::task::{Context, Poll, Waker, ready};
use std::time::Duration;
use tokio::sync::Semaphore;
use tokio::time::{Instant, Sleep, sleep_until};

/// What a key that names no value is answered by those calls that need one.
const NO_VALUE: &str = "the key names no value";

/// For how many values there is room at first, once there is one.
const FIRST_ROOM: usize = 16;

/// The most values that there may be.
const MOST_ROOM: usize = u32::MAX as usize;

/// The moment of the instant at which they were made: deadlines may lie 73 years before it, and 511 years after it.
const START: u64 = 1 << 61;

/// Values, each of which comes out once its deadline has passed.
///
/// The values are taken from it as from a stream: by [`next`](Self::next), by [`poll_expired`](Self::poll_expired), or as a `Stream`.
/// It ends where there is no value, and goes on once there is one again. Of the values whose deadlines have passed the one with the
/// earliest comes first; there is no order among those of one deadline. Who polls is woken where a value is inserted, or reset, that
/// is to come before all others, and where the last one is removed.
///
/// A poll that finds nothing due has to be made in a runtime of tokio with its timer, which that starts; in which one is all the same,
/// from one poll to the next. All other calls may be made anywhere. Each deadline is as exact as [`Instant`], and no value comes before.
///
/// A value that is taken spends one of the task's budget, as what is taken from a channel of tokio does: where many are due at once,
/// other tasks have their turn between.
///
/// # Panics
///
/// Where memory runs out, and where there are more than `u32::MAX` values. Who reserves room by [`try_reserve`](Self::try_reserve) is
/// told instead.
///
/// # Examples
///
/// A heartbeat that is missed:
///
/// ```
/// use sched_tokio::Delays;
/// use std::time::Duration;
/// use tokio::time::sleep;
///
/// # #[tokio::main(flavor = "current_thread", start_paused = true)]
/// # async fn main() {
/// let patience = Duration::from_secs(3);
/// let mut watched = Delays::new();
/// let (silent, alive) = (watched.insert("silent", patience), watched.insert("alive", patience));
/// sleep(Duration::from_secs(2)).await;
/// watched.reset(&alive, patience);
/// let missed = watched.next().await.expect("two are watched");
/// assert_eq!((missed.key(), *missed.get_ref()), (silent, "silent"));
/// assert_eq!(watched.peek(), Some(alive));
/// # }
/// ```
pub struct Delays<T> {
    /// The instant of the moment `START`. Moments are nanoseconds.
    start: Instant,
    values: Values<T>,
    /// For each value an entry of its place, with the moment of its deadline.
    queue: DelayQueue,
    /// For how many values the queue has room.
    room: usize,
    sleep: Option<Pin<Box<Sleep>>>,
    /// The moment for which who polled last waits, to which `sleep` is set. `None`: nobody waits, or all values had left.
    armed: Option<u64>,
    /// Who polled last, and got no value.
    waker: Option<Waker>,
    /// It is always free. An acquisition spends one of the task's budget, for which tokio has no call of its own that is as old.
    budget: Semaphore,
}

/// No value is pinned.
impl<T> Unpin for Delays<T> {}

impl<T> Delays<T> {
    /// No values.
    #[must_use]
    pub fn new() -> Delays<T> {
        Delays::with_capacity(0)
    }

    /// No values, and room for so many.
    ///
    /// # Examples
    ///
    /// ```
    /// let delays = sched_tokio::Delays::<u8>::with_capacity(100);
    /// assert!(delays.is_empty() && delays.capacity() >= 100);
    /// ```
    #[must_use]
    pub fn with_capacity(capacity: usize) -> Delays<T> {
        let mut delays = Delays {
            start: Instant::now(),
            values: Values::new(),
            queue: known(queue_of(0)),
            room: 0,
            sleep: None,
            armed: None,
            waker: None,
            budget: Semaphore::new(1),
        };
        delays.reserve(capacity);
        delays
    }

    /// Adds a value that is to come `timeout` from now.
    ///
    /// # Examples
    ///
    /// ```
    /// # #[tokio::main(flavor = "current_thread", start_paused = true)]
    /// # async fn main() {
    /// use std::time::Duration;
    /// use tokio::time::Instant;
    ///
    /// let (begun, timeout) = (Instant::now(), Duration::from_millis(5));
    /// let mut delays = sched_tokio::Delays::new();
    /// delays.insert(70, timeout);
    /// assert_eq!(delays.next().await.map(|expired| expired.into_inner()), Some(70));
    /// assert!(begun.elapsed() >= timeout);
    /// # }
    /// ```
    pub fn insert(&mut self, value: T, timeout: Duration) -> Key {
        let deadline = self.deadline_after(timeout);
        self.insert_at(value, deadline)
    }

    /// Adds a value that is to come at a moment; at once where that has passed.
    ///
    /// # Examples
    ///
    /// ```
    /// use std::time::Duration;
    /// use tokio::time::Instant;
    ///
    /// let when = Instant::now() + Duration::from_secs(5);
    /// let mut delays = sched_tokio::Delays::new();
    /// let key = delays.insert_at("foo", when);
    /// assert_eq!(delays.deadline(&key), when);
    /// ```
    pub fn insert_at(&mut self, value: T, when: Instant) -> Key {
        self.reserve(1);
        let key = self.values.put(value, when);
        self.queue_up(key, when);
        key
    }

    /// Takes a value out.
    ///
    /// # Panics
    ///
    /// The key names no value: that has left. [`try_remove`](Self::try_remove) tells it.
    ///
    /// # Examples
    ///
    /// ```
    /// use std::time::Duration;
    ///
    /// let mut delays = sched_tokio::Delays::new();
    /// let key = delays.insert("foo", Duration::from_secs(5));
    /// assert_eq!(*delays.remove(&key).get_ref(), "foo");
    /// assert!(delays.is_empty());
    /// ```
    pub fn remove(&mut self, key: &Key) -> Expired<T> {
        self.try_remove(key).expect(NO_VALUE)
    }

    /// Takes a value out. `None`: the key names no value, since that has left.
    ///
    /// # Examples
    ///
    /// ```
    /// use std::time::Duration;
    ///
    /// let mut delays = sched_tokio::Delays::new();
    /// let first = delays.insert("foo", Duration::from_secs(5));
    /// assert!(delays.try_remove(&first).is_some());
    /// delays.insert("bar", Duration::from_secs(5));
    /// assert!(delays.try_remove(&first).is_none());
    /// ```
    pub fn try_remove(&mut self, key: &Key) -> Option<Expired<T>> {
        let entry = self.values.take(*key)?;
        self.queue.remove(key.place);
        if self.is_empty() {
            self.wake();
        }
        Some(Expired::new(*key, entry))
    }

    /// Has a value come `timeout` from now, and no more when it was to come. Its key stays.
    ///
    /// # Panics
    ///
    /// The key names no value.
    ///
    /// # Examples
    ///
    /// ```
    /// use std::time::Duration;
    ///
    /// let mut delays = sched_tokio::Delays::new();
    /// let first = delays.insert("foo", Duration::from_secs(5));
    /// let second = delays.insert("bar", Duration::from_secs(6));
    /// delays.reset(&first, Duration::from_secs(7));
    /// assert_eq!(delays.peek(), Some(second));
    /// ```
    pub fn reset(&mut self, key: &Key, timeout: Duration) {
        let deadline = self.deadline_after(timeout);
        self.reset_at(key, deadline);
    }

    /// Has a value come at a moment, and no more when it was to come. Its key stays.
    ///
    /// # Panics
    ///
    /// The key names no value.
    ///
    /// # Examples
    ///
    /// ```
    /// use std::time::Duration;
    /// use tokio::time::Instant;
    ///
    /// let mut delays = sched_tokio::Delays::new();
    /// let key = delays.insert("foo", Duration::from_secs(5));
    /// let when = Instant::now() + Duration::from_secs(10);
    /// delays.reset_at(&key, when);
    /// assert_eq!(delays.deadline(&key), when);
    /// ```
    pub fn reset_at(&mut self, key: &Key, when: Instant) {
        *self.values.deadline_mut(*key).expect(NO_VALUE) = when;
        self.queue.remove(key.place);
        self.queue_up(*key, when);
    }

    /// When a value is to come.
    ///
    /// # Panics
    ///
    /// The key names no value.
    ///
    /// # Examples
    ///
    /// ```
    /// use std::time::Duration;
    /// use tokio::time::Instant;
    ///
    /// let mut delays = sched_tokio::Delays::new();
    /// let (begun, timeout) = (Instant::now(), Duration::from_secs(5));
    /// let key = delays.insert("foo", timeout);
    /// assert!(delays.deadline(&key) >= begun + timeout);
    /// ```
    #[must_use]
    pub fn deadline(&self, key: &Key) -> Instant {
        self.values.get(*key).expect(NO_VALUE).deadline
    }

    /// The value that is to come next, due or not. It stays.
    ///
    /// # Examples
    ///
    /// ```
    /// use std::time::Duration;
    ///
    /// let mut delays = sched_tokio::Delays::new();
    /// assert_eq!(delays.peek(), None);
    /// delays.insert("foo", Duration::from_secs(10));
    /// let sooner = delays.insert("bar", Duration::from_secs(5));
    /// assert_eq!(delays.peek(), Some(sooner));
    /// ```
    #[must_use]
    pub fn peek(&self) -> Option<Key> {
        let first = self.queue.peek()?;
        self.values.key_at(first.task)
    }

    /// Drops all values.
    ///
    /// # Examples
    ///
    /// ```
    /// use std::time::Duration;
    ///
    /// let mut delays = sched_tokio::Delays::new();
    /// let key = delays.insert("foo", Duration::from_secs(5));
    /// delays.clear();
    /// assert!(delays.is_empty() && delays.try_remove(&key).is_none());
    /// ```
    pub fn clear(&mut self) {
        self.queue.due(u64::MAX).for_each(drop);
        self.wake();
        self.values.clear();
    }

    /// How many values there are, due or not.
    #[must_use]
    pub fn len(&self) -> usize {
        self.values.len()
    }

    /// Whether there is no value.
    #[must_use]
    pub fn is_empty(&self) -> bool {
        self.len() == 0
    }

    /// For how many values there is room.
    #[must_use]
    pub fn capacity(&self) -> usize {
        self.room
    }

    /// Makes room for so many more values than there are.
    ///
    /// # Panics
    ///
    /// As the type's page says.
    ///
    /// # Examples
    ///
    /// ```
    /// let mut delays = sched_tokio::Delays::<u8>::new();
    /// delays.reserve(10);
    /// assert!(delays.capacity() >= 10);
    /// ```
    pub fn reserve(&mut self, additional: usize) {
        known(self.try_reserve(additional));
    }

    /// Makes room for so many more values than there are, so that no memory is taken for them.
    ///
    /// # Errors
    ///
    /// [`QueueError::OutOfMemory`]: nothing has changed.
    ///
    /// # Examples
    ///
    /// ```
    /// use sched::QueueError;
    ///
    /// let mut delays = sched_tokio::Delays::<u8>::new();
    /// assert_eq!(delays.try_reserve(usize::MAX), Err(QueueError::OutOfMemory));
    /// assert_eq!(delays.try_reserve(10), Ok(()));
    /// ```
    pub fn try_reserve(&mut self, additional: usize) -> Result<(), QueueError> {
        let wanted = self.len().saturating_add(additional);
        if wanted <= self.room {
            return Ok(());
        }
        let room = wanted.max(self.room.saturating_mul(2).clamp(FIRST_ROOM, MOST_ROOM));
        let mut queue = queue_of(room)?;
        let reserved = self.values.try_reserve(room);
        reserved.map_err(|_| QueueError::OutOfMemory)?;
        for (place, deadline) in self.values.deadlines() {
            queue.insert(self.moment(deadline), place)?;
        }
        (self.queue, self.room) = (queue, room);
        Ok(())
    }

    /// Waits for a value whose deadline has passed, and takes it out. `None`: there is no value. A call that is dropped before has
    /// taken none.
    ///
    /// # Examples
    ///
    /// ```
    /// # #[tokio::main(flavor = "current_thread", start_paused = true)]
    /// # async fn main() {
    /// use std::time::Duration;
    ///
    /// let mut delays = sched_tokio::Delays::new();
    /// delays.insert("foo", Duration::from_millis(5));
    /// assert!(delays.next().await.is_some_and(|expired| *expired.get_ref() == "foo"));
    /// assert!(delays.next().await.is_none());
    /// # }
    /// ```
    pub async fn next(&mut self) -> Option<Expired<T>> {
        poll_fn(|context| self.poll_expired(context)).await
    }

    /// Takes out a value whose deadline has passed. Where none has, the task is woken once one may have. `None`: there is no value,
    /// and the task is woken once one is inserted.
    ///
    /// # Panics
    ///
    /// There are values, none of whose deadlines has passed, and the call is made outside a runtime of tokio that has a timer.
    ///
    /// # Examples
    ///
    /// ```
    /// use std::task::{Context, Poll, Waker};
    /// use std::time::Duration;
    ///
    /// let mut delays = sched_tokio::Delays::new();
    /// delays.insert("foo", Duration::ZERO);
    /// let mut context = Context::from_waker(Waker::noop());
    /// assert!(matches!(delays.poll_expired(&mut context), Poll::Ready(Some(_))));
    /// assert!(matches!(delays.poll_expired(&mut context), Poll::Ready(None)));
    /// ```
    pub fn poll_expired(&mut self, context: &mut Context<'_>) -> Poll<Option<Expired<T>>> {
        loop {
            let Some(first) = self.queue.peek() else {
                self.remember(context.waker());
                self.armed = None;
                return Poll::Ready(None);
            };
            let now = self.moment(Instant::now());
            if first.due <= now {
                ready!(self.poll_budget(context));
                self.waker = None;
                let due = self.queue.poll(now);
                return Poll::Ready(due.and_then(|due| self.taken(due.task)));
            }
            ready!(self.poll_sleep(first.due, context));
        }
    }

    // ---- parts

    /// The moment of an instant: the first or the last one where it is further away.
    fn moment(&self, instant: Instant) -> u64 {
        let after = instant.saturating_duration_since(self.start);
        let before = self.start.saturating_duration_since(instant);
        START
            .saturating_add(nanoseconds(after))
            .saturating_sub(nanoseconds(before))
    }

    /// The instant of a moment that is not before `START`.
    fn instant(&self, moment: u64) -> Instant {
        self.start + Duration::from_nanos(moment - START)
    }

    /// The deadline of a timeout from now on: the last moment that there is where it is longer.
    fn deadline_after(&self, timeout: Duration) -> Instant {
        let last = self.instant(u64::MAX);
        Instant::now()
            .checked_add(timeout)
            .unwrap_or(last)
            .min(last)
    }

    /// Adds the entry of a value that has none, and wakes who waits for a later one.
    fn queue_up(&mut self, key: Key, deadline: Instant) {
        let due = self.moment(deadline);
        known(self.queue.insert(due, key.place));
        if self.armed.is_none_or(|armed| due < armed) {
            self.wake();
        }
    }

    /// Takes out the value at a place.
    fn taken(&mut self, place: u32) -> Option<Expired<T>> {
        let key = self.values.key_at(place)?;
        let entry = self.values.take(key)?;
        Some(Expired::new(key, entry))
    }

    /// Spends one of the task's budget. Where none is left, the task is woken, and has its next turn after others.
    fn poll_budget(&self, context: &mut Context<'_>) -> Poll<()> {
        let acquired = pin!(self.budget.acquire());
        acquired.poll(context).map(drop)
    }

    /// Waits until a moment. Where another task waited last, it may be one of another runtime, to whose timer the sleep belongs.
    fn poll_sleep(&mut self, due: u64, context: &mut Context<'_>) -> Poll<()> {
        let deadline = self.instant(due);
        let is_same = |last: &Waker| last.will_wake(context.waker());
        let goes_on = self.waker.as_ref().is_some_and(is_same);
        self.remember(context.waker());
        let sleep = match &mut self.sleep {
            Some(sleep) if goes_on && self.armed == Some(due) => sleep,
            Some(sleep) if goes_on => {
                sleep.as_mut().reset(deadline);
                sleep
            }
            Some(sleep) => {
                sleep.set(sleep_until(deadline));
                sleep
            }
            None => self.sleep.insert(Box::pin(sleep_until(deadline))),
        };
        self.armed = Some(due);
        ready!(sleep.as_mut().poll(context));
        self.armed = None;
        Poll::Ready(())
    }

    /// Who polls got no value.
    fn remember(&mut self, waker: &Waker) {
        match &mut self.waker {
            Some(last) => last.clone_from(waker),
            None => self.waker = Some(waker.clone()),
        }
    }

    /// Wakes who polled last, and got no value.
    fn wake(&mut self) {
        if let Some(waker) = self.waker.take() {
            waker.wake();
        }
    }
}

impl<T> Default for Delays<T> {
    fn default() -> Delays<T> {
        Delays::new()
    }
}

impl<T> Stream for Delays<T> {
    type Item = Expired<T>;

    fn poll_next(mut self: Pin<&mut Self>, context: &mut Context<'_>) -> Poll<Option<Self::Item>> {
        self.poll_expired(context)
    }
}

impl<T> fmt::Debug for Delays<T> {
    fn fmt(&self, f: &mut fmt::Formatter<'_>) -> fmt::Result {
        f.debug_struct("Delays")
            .field("len", &self.len())
            .field("first", &self.peek())
            .finish_non_exhaustive()
    }
}

/// A queue for so many values.
fn queue_of(room: usize) -> Result<DelayQueue, QueueError> {
    DelayQueue::new(u32::try_from(room).map_err(|_| QueueError::OutOfMemory)?)
}

/// A span in nanoseconds, 2^64 - 1 where it is longer.
fn nanoseconds(span: Duration) -> u64 {
    u64::try_from(span.as_nanos()).unwrap_or(u64::MAX)
}

/// The answer of the queue, which lacks nothing but memory.
fn known<A>(answer: Result<A, QueueError>) -> A {
    answer.expect("memory for the values")
}
