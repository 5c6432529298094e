//! What the types are beside their calls: which threads may have them, and how they are written.
use sched::timers::{FinishManyError, PollManyError};
use sched::{
    DelayQueue, Executor, ExecutorError, Fault, Handle, InsertManyError, JoinError, PoolError,
    QueueError, ScheduledThreadPool, Timers, TimersError,
};
use std::error::Error;
use std::fmt::{self, Debug};
use std::io;
use std::panic::{RefUnwindSafe, UnwindSafe};

fn moves<T: Send + Debug + UnwindSafe + RefUnwindSafe>() {}

fn is_shared<T: Send + Sync + Debug>() {}

fn is_future<F: Future + Send + Unpin>() {}

fn is_error<E: Error + Send + Sync + 'static>() {}

#[test]
fn what_has_a_slot_moves_and_what_has_a_lock_is_shared() {
    moves::<DelayQueue>();
    moves::<Executor>();
    moves::<Timers>();
    is_shared::<ScheduledThreadPool>();
    is_shared::<Handle<Vec<u8>>>();
    is_future::<Handle<Vec<u8>>>();
}

#[test]
fn each_error_is_one() {
    is_error::<QueueError>();
    is_error::<InsertManyError>();
    is_error::<ExecutorError>();
    is_error::<Fault>();
    is_error::<TimersError>();
    is_error::<PollManyError>();
    is_error::<FinishManyError>();
    is_error::<PoolError>();
    is_error::<JoinError>();
}

/// An error that came from another one.
#[derive(Debug)]
struct Above(TimersError);

impl fmt::Display for Above {
    fn fmt(&self, f: &mut fmt::Formatter<'_>) -> fmt::Result {
        f.write_str("above")
    }
}

impl Error for Above {
    fn source(&self) -> Option<&(dyn Error + 'static)> {
        Some(&self.0)
    }
}

#[test]
fn an_error_that_tells_another_one_is_told_once() {
    let many = InsertManyError {
        place: 3,
        why: QueueError::HasEntry,
    };
    assert_eq!(many.to_string(), "entry 3: the task has an entry already");
    assert!(many.source().is_none());
    let timers = PoolError::from(TimersError::Workers);
    assert_eq!(timers.to_string(), TimersError::Workers.to_string());
    assert!(timers.source().is_none());
    let thread = PoolError::Thread(io::Error::other(Above(TimersError::Busy)));
    assert_eq!(thread.to_string(), "no thread: above");
    let source = thread.source().map(ToString::to_string);
    assert_eq!(source, Some(TimersError::Busy.to_string()));
}

#[test]
fn what_is_looked_at_is_written_and_stays() {
    let mut queue = DelayQueue::new(2).expect("memory");
    queue.insert(5, 1).expect("a new task");
    let text = format!("{queue:?}");
    let wanted = "DelayQueue { len: 1, least: Some(Entry { due: 5, task: 1 }), .. }";
    assert_eq!((text.as_str(), queue.len()), (wanted, 1));
    let executor = Executor::new(b"version = 2", 1, 1).expect("a plan");
    assert_eq!(
        format!("{executor:?}"),
        "Executor { now: 0, taken: 0, tasks: 0, ripe: false, .. }"
    );
    let mut timers = Timers::new(1).expect("memory");
    timers.schedule(3, 5, 70).expect("memory");
    let text = format!("{timers:?}");
    assert!(text.contains("alive: 1") && text.contains("next_due: Some(8)"));
    let pool = ScheduledThreadPool::new(2).expect("threads");
    assert_eq!(
        format!("{pool:?}"),
        "ScheduledThreadPool { threads: 2, alive: 0, shut: false, terminated: false, .. }"
    );
}
