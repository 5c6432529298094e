//! The handle of a task.

use super::result::{JoinError, ResultCell};
use super::shared::Shared;
use crate::timers::TaskRef;
use std::fmt;
use std::future::Future;
use std::pin::Pin;
use std::sync::Arc;
use std::task::{Context, Poll};
use std::time::Duration;

/// A task of a pool, by which it is cancelled, and its result is waited for.
///
/// A task goes on where its handle is dropped. A handle may be shared by threads, also by the jobs of its pool; a job that waits
/// for another one takes up a worker, and one that waits for itself never ends.
///
/// A handle is a future of what [`join`](Self::join) answers, for any executor of futures: no thread waits then.
///
/// # Examples
///
/// ```
/// use std::time::Duration;
///
/// let pool = sched::ScheduledThreadPool::new(2)?;
/// let reply = pool.schedule(Duration::from_millis(1), || "in time")?;
/// let timeout = pool.schedule(Duration::from_secs(3_600), || "too late")?;
/// assert_eq!(reply.join()?, "in time");
/// assert!(timeout.cancel());
/// # Ok::<(), Box<dyn std::error::Error>>(())
/// ```
pub struct Handle<T> {
    pool: Arc<Shared>,
    task: TaskRef,
    cell: Arc<ResultCell<T>>,
    /// Whether a waker may stand in the cell.
    is_polled: bool,
}

impl<T> Handle<T> {
    pub(super) fn new(pool: Arc<Shared>, task: TaskRef, cell: Arc<ResultCell<T>>) -> Handle<T> {
        Handle {
            pool,
            task,
            cell,
            is_polled: false,
        }
    }

    /// Cancels the task, and says whether that had an effect. It has none where the task is over, or was cancelled before. A job
    /// that waits is dropped by this call. One that runs goes on, and what it gives is dropped: the task is cancelled all the same.
    ///
    /// # Examples
    ///
    /// ```
    /// use std::time::Duration;
    ///
    /// let pool = sched::ScheduledThreadPool::new(1)?;
    /// let late = pool.schedule(Duration::from_secs(3_600), || ())?;
    /// assert!(late.cancel());
    /// assert!(!late.cancel());
    /// # Ok::<(), Box<dyn std::error::Error>>(())
    /// ```
    pub fn cancel(&self) -> bool {
        let (cancelled, _job) = self.pool.with(|state, _now| {
            let (cancelled, job) = state.cancel(self.task);
            if cancelled {
                state.wake_later(self.cell.tell(Err(JoinError::Cancelled)));
            }
            (cancelled, job)
        });
        cancelled
    }

    /// Whether the task is over: it has its value, has panicked or is cancelled.
    ///
    /// # Examples
    ///
    /// ```
    /// let pool = sched::ScheduledThreadPool::new(1)?;
    /// let job = pool.execute(|| 6 * 7)?;
    /// job.wait();
    /// assert!(job.is_done());
    /// # Ok::<(), Box<dyn std::error::Error>>(())
    /// ```
    #[must_use]
    pub fn is_done(&self) -> bool {
        self.cell.is_told()
    }

    /// Whether the task is cancelled, by a handle or by a shutdown.
    ///
    /// # Examples
    ///
    /// ```
    /// use std::time::Duration;
    ///
    /// let pool = sched::ScheduledThreadPool::new(1)?;
    /// let late = pool.schedule(Duration::from_secs(3_600), || ())?;
    /// assert!(!late.is_cancelled());
    /// pool.shutdown_now();
    /// assert!(late.is_cancelled());
    /// # Ok::<(), Box<dyn std::error::Error>>(())
    /// ```
    #[must_use]
    pub fn is_cancelled(&self) -> bool {
        self.cell.is_cancelled()
    }

    /// Waits until the task is over. [`join`](Self::join) takes its value too.
    ///
    /// # Examples
    ///
    /// ```
    /// let pool = sched::ScheduledThreadPool::new(1)?;
    /// let job = pool.execute(|| 6 * 7)?;
    /// job.wait();
    /// assert_eq!(job.join()?, 42);
    /// # Ok::<(), Box<dyn std::error::Error>>(())
    /// ```
    pub fn wait(&self) {
        self.cell.wait();
    }

    /// Waits until the task is over, at most so long, and says whether it is.
    ///
    /// # Examples
    ///
    /// ```
    /// use std::time::Duration;
    ///
    /// let pool = sched::ScheduledThreadPool::new(1)?;
    /// let late = pool.schedule(Duration::from_secs(3_600), || ())?;
    /// assert!(!late.wait_timeout(Duration::from_millis(1)));
    /// # Ok::<(), Box<dyn std::error::Error>>(())
    /// ```
    #[must_use = "it says whether the task was over in time"]
    pub fn wait_timeout(&self, timeout: Duration) -> bool {
        self.cell.wait_timeout(timeout)
    }

    /// Waits until the task is over, and takes its value. A periodic task is over once it is cancelled, has panicked, or is ended
    /// by a shutdown, and has no value.
    ///
    /// # Errors
    ///
    /// The task was cancelled, or its job panicked.
    ///
    /// # Panics
    ///
    /// The handle gave the result before, as a future.
    ///
    /// # Examples
    ///
    /// ```
    /// let pool = sched::ScheduledThreadPool::new(1)?;
    /// let job = pool.execute(|| 6 * 7)?;
    /// assert_eq!(job.join(), Ok(42));
    /// # Ok::<(), Box<dyn std::error::Error>>(())
    /// ```
    pub fn join(self) -> Result<T, JoinError> {
        self.cell.take()
    }

    /// The same, waiting at most so long.
    ///
    /// # Errors
    ///
    /// The task is not over by then: the handle comes back. Within, as [`join`](Self::join).
    ///
    /// # Panics
    ///
    /// The handle gave the result before, as a future.
    ///
    /// # Examples
    ///
    /// ```
    /// use std::time::Duration;
    ///
    /// let pool = sched::ScheduledThreadPool::new(1)?;
    /// let late = pool.schedule(Duration::from_secs(3_600), || ())?;
    /// match late.join_timeout(Duration::from_millis(1)) {
    ///     Ok(result) => result?,
    ///     Err(late) => assert!(late.cancel()),
    /// }
    /// # Ok::<(), Box<dyn std::error::Error>>(())
    /// ```
    pub fn join_timeout(self, timeout: Duration) -> Result<Result<T, JoinError>, Handle<T>> {
        if self.cell.wait_timeout(timeout) {
            Ok(self.join())
        } else {
            Err(self)
        }
    }

    /// How long the task waits still for its next run: nothing where that is due. `None`: it does not wait.
    ///
    /// # Examples
    ///
    /// ```
    /// use std::time::Duration;
    ///
    /// let pool = sched::ScheduledThreadPool::new(1)?;
    /// let hour = Duration::from_secs(3_600);
    /// let late = pool.schedule(hour, || ())?;
    /// assert!(late.remaining().is_some_and(|left| left <= hour));
    /// late.cancel();
    /// assert_eq!(late.remaining(), None);
    /// # Ok::<(), Box<dyn std::error::Error>>(())
    /// ```
    #[must_use]
    pub fn remaining(&self) -> Option<Duration> {
        self.pool.with(|state, now| state.remaining(now, self.task))
    }

    /// The number of its submission, by which a trace names it.
    ///
    /// # Examples
    ///
    /// ```
    /// let pool = sched::ScheduledThreadPool::new(1)?;
    /// let numbers = [pool.execute(|| ())?.number(), pool.execute(|| ())?.number()];
    /// assert_eq!(numbers, [0, 1]);
    /// # Ok::<(), Box<dyn std::error::Error>>(())
    /// ```
    #[must_use]
    pub fn number(&self) -> u64 {
        self.task.number
    }
}

/// The same as [`join`](Handle::join), without a thread that waits. Who polls is woken by the thread that ends the task, which may be
/// a worker: with none of the pool's locks held, so a waker may call the pool. A future that is dropped leaves its task as it is, and
/// drops the waker. Once it gave the result, it still says whether the task [is done](Handle::is_done) and whether it
/// [was cancelled](Handle::is_cancelled).
///
/// # Panics
///
/// It is polled after it gave the result.
///
/// # Examples
///
/// ```
/// use sched::{JoinError, ScheduledThreadPool, TimersError};
/// use std::time::Duration;
///
/// async fn later(pool: &ScheduledThreadPool) -> Result<Result<u32, JoinError>, TimersError> {
///     Ok(pool.schedule(Duration::from_millis(1), || 6 * 7)?.await)
/// }
/// # use std::pin::pin;
/// # use std::task::{Context, Poll, Wake, Waker};
/// # struct Unpark(std::thread::Thread);
/// # impl Wake for Unpark {
/// #     fn wake(self: std::sync::Arc<Self>) {
/// #         self.0.unpark();
/// #     }
/// # }
/// # let pool = ScheduledThreadPool::new(1)?;
/// # let waker = Waker::from(std::sync::Arc::new(Unpark(std::thread::current())));
/// # let mut answer = pin!(later(&pool));
/// # loop {
/// #     if let Poll::Ready(told) = answer.as_mut().poll(&mut Context::from_waker(&waker)) {
/// #         assert_eq!(told, Ok(Ok(42)));
/// #         break;
/// #     }
/// #     std::thread::park();
/// # }
/// # Ok::<(), Box<dyn std::error::Error>>(())
/// ```
impl<T> Future for Handle<T> {
    type Output = Result<T, JoinError>;

    fn poll(mut self: Pin<&mut Self>, context: &mut Context<'_>) -> Poll<Self::Output> {
        let told = self.cell.poll(context);
        self.is_polled = told.is_pending();
        told
    }
}

impl<T> Drop for Handle<T> {
    fn drop(&mut self) {
        if self.is_polled {
            self.cell.forget_waker();
        }
    }
}

impl<T> fmt::Debug for Handle<T> {
    fn fmt(&self, f: &mut fmt::Formatter<'_>) -> fmt::Result {
        f.debug_struct("Handle")
            .field("number", &self.task.number)
            .finish_non_exhaustive()
    }
}
