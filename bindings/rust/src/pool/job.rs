//! What a task runs.

use super::result::{JoinError, ResultCell};
use std::any::Any;
use std::convert::Infallible;
use std::mem;
use std::panic::{AssertUnwindSafe, catch_unwind, resume_unwind};
use std::sync::Arc;
use std::task::Waker;

/// The job of a task, whatever it gives. `run` and `drop` call the program, and are called without the pool's lock; `tell` and
/// `cancel` are called with it, and call nothing: who polls the handle comes back, to be woken without the lock.
pub trait Job: Send {
    /// Runs it once, and says whether it did not panic.
    fn run(&mut self) -> bool;

    /// The task is over: the handle has what came of the last run.
    fn tell(&mut self) -> Option<Waker>;

    /// The task is cancelled: the handle has that.
    fn cancel(&mut self) -> Option<Waker>;
}

/// A job that runs once.
pub struct Once<F, T> {
    work: Option<F>,
    result: Option<Result<T, JoinError>>,
    cell: Arc<ResultCell<T>>,
}

impl<F, T> Once<F, T> {
    /// The job of `work`, whose result is for `cell`.
    pub fn new(work: F, cell: Arc<ResultCell<T>>) -> Once<F, T> {
        Once {
            work: Some(work),
            result: None,
            cell,
        }
    }
}

impl<F: FnOnce() -> T + Send, T: Send> Job for Once<F, T> {
    fn run(&mut self) -> bool {
        let work = self.work.take().expect("it runs once");
        let result = catch_unwind(AssertUnwindSafe(work));
        self.result = Some(result.map_err(panicked));
        matches!(self.result, Some(Ok(_)))
    }

    fn tell(&mut self) -> Option<Waker> {
        self.cell.tell(self.result.take().expect("it ran"))
    }

    fn cancel(&mut self) -> Option<Waker> {
        self.cell.tell(Err(JoinError::Cancelled))
    }
}

/// A job that runs again and again.
pub struct Repeated<F> {
    work: F,
    panic: Option<JoinError>,
    cell: Arc<ResultCell<Infallible>>,
}

impl<F> Repeated<F> {
    /// The job of `work`, whose end is for `cell`.
    pub fn new(work: F, cell: Arc<ResultCell<Infallible>>) -> Repeated<F> {
        Repeated {
            work,
            panic: None,
            cell,
        }
    }
}

impl<F: FnMut() + Send> Job for Repeated<F> {
    fn run(&mut self) -> bool {
        self.panic = catch_unwind(AssertUnwindSafe(&mut self.work))
            .err()
            .map(panicked);
        self.panic.is_none()
    }

    fn tell(&mut self) -> Option<Waker> {
        let panic = self.panic.take();
        self.cell.tell(Err(panic.unwrap_or(JoinError::Cancelled)))
    }

    fn cancel(&mut self) -> Option<Waker> {
        self.cell.tell(Err(JoinError::Cancelled))
    }
}

/// The error of a job that panicked with this payload.
fn panicked(payload: Box<dyn Any + Send>) -> JoinError {
    let text = payload
        .downcast_ref::<String>()
        .cloned()
        .or_else(|| payload.downcast_ref::<&str>().map(|text| text.to_string()))
        .unwrap_or_else(|| "a payload that is no text".to_owned());
    drop_quietly(payload);
    JoinError::Panicked(text)
}

/// Drops jobs, all of them, also where some panic: the first panic goes on then, and the payloads of the others are forgotten.
pub fn drop_all(jobs: Vec<Box<dyn Job>>) {
    let mut first = None;
    for job in jobs {
        match catch_unwind(AssertUnwindSafe(|| drop(job))) {
            Err(payload) if first.is_none() => first = Some(payload),
            Err(payload) => mem::forget(payload),
            Ok(()) => {}
        }
    }
    if let Some(payload) = first {
        resume_unwind(payload);
    }
}

/// Drops what is the program's. Where that panics, the panic goes no further, and its payload, which might panic too, is forgotten.
pub fn drop_quietly<D>(value: D) {
    do_quietly(|| drop(value));
}

/// Wakes who polls, in the same manner.
pub fn wake_quietly(waker: Waker) {
    do_quietly(|| waker.wake());
}

fn do_quietly(call: impl FnOnce()) {
    if let Err(payload) = catch_unwind(AssertUnwindSafe(call)) {
        mem::forget(payload);
    }
}
