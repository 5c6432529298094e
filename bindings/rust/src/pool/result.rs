//! Where a job and its handle meet: what came of a task.

use std::error::Error;
use std::fmt;
use std::mem;
use std::sync::{Condvar, Mutex, MutexGuard};
use std::task::{Context, Poll, Waker};
use std::time::Duration;

/// Why a task has no value.
///
/// # Examples
///
/// ```
/// use sched::{JoinError, ScheduledThreadPool};
///
/// let pool = ScheduledThreadPool::new(1)?;
/// let job = pool.execute(|| -> u32 { panic!("no disk") })?;
/// let error = job.join().unwrap_err();
/// assert_eq!(error, JoinError::Panicked("no disk".to_owned()));
/// assert_eq!(error.to_string(), "the job panicked: no disk");
/// # Ok::<(), Box<dyn std::error::Error>>(())
/// ```
#[derive(Clone, Debug, PartialEq, Eq, Hash)]
#[non_exhaustive]
pub enum JoinError {
    /// It was cancelled, by its handle or by a shutdown.
    Cancelled,
    /// Its job panicked, with this text.
    Panicked(String),
}

impl fmt::Display for JoinError {
    fn fmt(&self, f: &mut fmt::Formatter<'_>) -> fmt::Result {
        match self {
            JoinError::Cancelled => write!(f, "the task was cancelled"),
            JoinError::Panicked(text) => write!(f, "the job panicked: {text}"),
        }
    }
}

impl Error for JoinError {}

/// The place of a result, and those who wait for it.
pub struct ResultCell<T> {
    told: Mutex<Told<T>>,
    over: Condvar,
}

/// What the lock of a place guards.
struct Told<T> {
    place: Place<T>,
    /// How many threads wait for the result.
    waiting: usize,
    /// Who polled for it last, and is to be woken.
    waker: Option<Waker>,
}

/// What stands in the place.
enum Place<T> {
    Empty,
    Result(Result<T, JoinError>),
    /// The result was there, and was taken out.
    Taken {
        cancelled: bool,
    },
}

impl<T> Place<T> {
    fn is_empty(&self) -> bool {
        matches!(self, Place::Empty)
    }

    /// Whether the result is, or was, that the task was cancelled.
    fn is_cancelled(&self) -> bool {
        match self {
            Place::Empty => false,
            Place::Result(result) => matches!(result, Err(JoinError::Cancelled)),
            Place::Taken { cancelled } => *cancelled,
        }
    }

    /// What stands there, of which a result is taken out.
    fn take(&mut self) -> Place<T> {
        let cancelled = self.is_cancelled();
        match self {
            Place::Empty => Place::Empty,
            _ => mem::replace(self, Place::Taken { cancelled }),
        }
    }
}

impl<T> ResultCell<T> {
    /// A place without a result.
    pub fn new() -> ResultCell<T> {
        let told = Told {
            place: Place::Empty,
            waiting: 0,
            waker: None,
        };
        ResultCell {
            told: Mutex::new(told),
            over: Condvar::new(),
        }
    }

    /// Sets the result, and wakes the threads that wait for it. A task that is cancelled as it runs is told so twice: the first time
    /// counts. It runs no code of the program, so the pool may call it with its lock held; who polled for the result comes back, to be
    /// woken without.
    #[must_use = "who polled has to be woken"]
    pub fn tell(&self, result: Result<T, JoinError>) -> Option<Waker> {
        let mut told = self.lock();
        if told.place.is_empty() {
            told.place = Place::Result(result);
        }
        let (waiting, waker) = (told.waiting, told.waker.take());
        drop(told);
        if waiting > 0 {
            self.over.notify_all();
        }
        waker
    }

    /// Whether there is a result, or was.
    pub fn is_told(&self) -> bool {
        !self.lock().place.is_empty()
    }

    /// Whether the result is, or was, that the task was cancelled.
    pub fn is_cancelled(&self) -> bool {
        self.lock().place.is_cancelled()
    }

    /// Waits for the result.
    pub fn wait(&self) {
        let mut told = self.lock();
        told.waiting += 1;
        let mut told = self
            .over
            .wait_while(told, |told| told.place.is_empty())
            .expect("no call panics with the cell locked");
        told.waiting -= 1;
    }

    /// Waits for the result at most so long, and says whether it is there.
    pub fn wait_timeout(&self, timeout: Duration) -> bool {
        let mut told = self.lock();
        told.waiting += 1;
        let (mut told, _) = self
            .over
            .wait_timeout_while(told, timeout, |told| told.place.is_empty())
            .expect("no call panics with the cell locked");
        told.waiting -= 1;
        !told.place.is_empty()
    }

    /// Waits for the result, and takes it out.
    ///
    /// # Panics
    ///
    /// It was taken before.
    pub fn take(&self) -> Result<T, JoinError> {
        self.wait();
        match self.poll(&Context::from_waker(Waker::noop())) {
            Poll::Ready(result) => result,
            Poll::Pending => unreachable!("it is told"),
        }
    }

    /// Takes the result out, where it is there; else who polls is woken once it is.
    ///
    /// # Panics
    ///
    /// It was taken before.
    pub fn poll(&self, context: &Context<'_>) -> Poll<Result<T, JoinError>> {
        match self.take_or_wait(context.waker().clone()) {
            Place::Empty => Poll::Pending,
            Place::Result(result) => Poll::Ready(result),
            Place::Taken { .. } => panic!("the result was taken before"),
        }
    }

    /// Nobody polls any more.
    pub fn forget_waker(&self) {
        let unneeded = self.lock().waker.take();
        drop(unneeded);
    }

    /// What stands in the place, of which a result is taken out. Where there is none, this waker is called once there is. One that is
    /// not needed any more is dropped without the lock, since that may run code of the program.
    fn take_or_wait(&self, waker: Waker) -> Place<T> {
        let mut told = self.lock();
        let place = told.place.take();
        let unneeded = match place {
            Place::Empty => told.waker.replace(waker),
            _ => Some(waker),
        };
        drop(told);
        drop(unneeded);
        place
    }

    fn lock(&self) -> MutexGuard<'_, Told<T>> {
        self.told
            .lock()
            .expect("no call panics with the cell locked")
    }
}
