//! Values that come out once they are due, as a stream for tokio.
//!
//! [`Delays`] has the calls of tokio-util's `DelayQueue`, over the proved [`sched::DelayQueue`]: which value comes next, and that none
//! comes before its deadline, is decided there. tokio's clock and one [`Sleep`](tokio::time::Sleep) say when to look.
//!
//! ```
//! use sched_tokio::Delays;
//! use std::time::Duration;
//!
//! # #[tokio::main(flavor = "current_thread", start_paused = true)]
//! # async fn main() {
//! let mut delays = Delays::new();
//! delays.insert("reply to the second", Duration::from_millis(20));
//! let first = delays.insert("reply to the first", Duration::from_millis(10));
//! delays.reset(&first, Duration::from_millis(30));
//! while let Some(expired) = delays.next().await {
//!     println!("no {}", expired.get_ref());
//! }
//! # assert!(delays.is_empty());
//! # }
//! ```
//!
//! # What differs from tokio-util's
//!
//! - A key names its own value for ever: once that has left, the key names none, and no other value that came later.
//! - Values come in the order of their deadlines, to the nanosecond. tokio sleeps whole milliseconds, so a value is seen up to a
//!   millisecond after its deadline.
//! - A timeout may be as long as it likes: one of more than 511 years counts as so long.
//! - [`Delays::next`] awaits a value without an extension of `Stream`; [`Delays::try_reserve`] tells want of memory.
//! - There is no `compact` and no `shrink_to_fit`: what room it has, it keeps.
//! - It is `Send`, and not `Sync`.
//!
//! # Cost
//!
//! Of *n* values an insertion, a removal and a reset take some log *n* steps, and so does an expiry. Values and their deadlines lie in
//! one table, which grows by doubling, and is not made smaller. A poll that finds nothing due sets the `Sleep`, where it was set to
//! another moment, and leaves it to wake the task: nothing is polled in between. A task may wake once for a moment at which its first
//! value was removed, or put off.

mod delays;
mod expired;
mod values;

pub use delays::Delays;
pub use expired::Expired;
pub use values::Key;

/// The example of the page `README.md`, which is a test.
#[cfg(doctest)]
#[doc = include_str!("../README.md")]
struct Readme;
