//! Safe wrappers of the proved delay queue, of the proved executor of a plan, and of the proved timers; and a pool of threads over
//! those.
//!
//! [`DelayQueue`] keeps tasks until they are due:
//!
//! ```
//! let mut queue = sched::DelayQueue::new(3)?;
//! queue.insert(5_000, 0)?;
//! for entry in queue.due(6_000) {
//!     println!("task {} was due at {}", entry.task, entry.due);
//! }
//! # assert!(queue.is_empty());
//! # Ok::<(), sched::QueueError>(())
//! ```
//!
//! [`Executor`] runs a plan, and answers in lines:
//!
//! ```
//! use sched::{Event, Executor};
//!
//! # let plan = b"version = 2";
//! let mut executor = Executor::new(plan, 1, 1_000)?;
//! executor.take(Event::Clock(10))?;
//! for line in executor.lines() {
//!     println!("{line}");
//! }
//! # assert_eq!(executor.lines().len(), 1);
//! # Ok::<(), sched::ExecutorError>(())
//! ```
//!
//! To [`Timers`] tasks are submitted while they run; [`ScheduledThreadPool`] adds the clock and the threads:
//!
//! ```
//! use std::time::Duration;
//!
//! let pool = sched::ScheduledThreadPool::new(4)?;
//! let reply = pool.schedule(Duration::from_millis(2), || "no answer in time")?;
//! assert_eq!(reply.join()?, "no answer in time");
//! # Ok::<(), Box<dyn std::error::Error>>(())
//! ```
//!
//! # Threads
//!
//! The queue, the executor and the timers are `Send` and not `Sync`: the library takes what it made out of its slot for each call,
//! also for one that only looks, and puts it back. So such a call takes `&self`, and two threads never look at once. The pool and
//! its handles are both.
//!
//! # What may grow
//!
//! The enums of errors, and those that are handed in ([`Event`], [`Policy`](timers::Policy)), may get more variants. Those that
//! answer a call do not: a program sees by its build that there is an answer which it does not know.
//!
//! # Linking
//!
//! The archives of the library are those that the variable `ARCHIVES` names, separated by `:`, or the files `lib*.a` of the folder
//! `archives` beside `Cargo.toml`. Where there are none, the build says what to do.

pub mod delay_queue;
pub mod executor;
pub mod pool;
mod slot;
pub mod timers;

pub use delay_queue::{DelayQueue, Due, Entry, InsertManyError, QueueError};
pub use executor::{Event, Executor, ExecutorError, Fault, FaultKind, Lines, Phase, Run, Task};
pub use pool::{Handle, JoinError, PoolError, ScheduledThreadPool};
pub use timers::{TaskRef, Timers, TimersError};

/// The example of the page `README.md`, which is a test.
#[cfg(doctest)]
#[doc = include_str!("../README.md")]
struct Readme;
