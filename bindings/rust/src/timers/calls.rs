//! The functions, structs and numbers of `include/timers.h`.

use std::ffi::c_void;
use std::ptr;

pub const DONE: u32 = 0;
pub const NO_MEMORY: u32 = 1;
pub const WORKERS: u32 = 4;
pub const SHUT: u32 = 5;
pub const ILLEGAL: u32 = 6;
pub const TOO_LONG: u32 = 7;
pub const TOO_FAR: u32 = 8;
pub const NO_WORKER: u32 = 10;
pub const BUSY: u32 = 11;
pub const NOT_RUNNING: u32 = 12;
pub const IDLE: u32 = 13;
pub const FULL: u32 = 14;
pub const NO_TASK: u32 = 15;
pub const NUMBER: u32 = 16;

pub const OUTCOME_DONE: u32 = 0;
pub const OUTCOME_FAILED: u32 = 1;
pub const OUTCOME_AGAIN: u32 = 2;
pub const OUTCOME_DROPPED: u32 = 3;
pub const OUTCOME_ENDED: u32 = 4;

pub const CANCEL_NONE: u32 = 0;
pub const CANCEL_NO: u32 = 1;
pub const CANCEL_YES: u32 = 2;

pub const TASK_GONE: u32 = 0;
pub const TASK_WAITING: u32 = 1;
pub const TASK_RUNNING: u32 = 2;
pub const TASK_KEPT: u32 = 3;

pub const POLICY_CONTINUE: u32 = 0;
pub const POLICY_EXECUTE: u32 = 1;
pub const POLICY_REMOVE: u32 = 2;

/// How many bytes are enough for any line, with its newline.
pub const LINE_ROOM: usize = 128;

/// Room for timers. Its fields are the library's: each slot is empty, or as a call of the library left it.
#[repr(C)]
pub struct Slot {
    hidden: *mut c_void,
    full: bool,
}

impl Default for Slot {
    /// A slot without timers.
    fn default() -> Slot {
        Slot {
            hidden: ptr::null_mut(),
            full: false,
        }
    }
}

// SAFETY: that timers may cross to another thread is proved (`Send` in `crates/timers_c`).
unsafe impl Send for Slot {}

/// A task. A ref that is out of date names its own task still, and no other. Refs are ordered as their tasks were submitted.
///
/// # Examples
///
/// ```
/// let mut timers = sched::Timers::new(1)?;
/// let first = timers.execute(0, 70)?;
/// let second = timers.execute(0, 71)?;
/// assert!(first < second);
/// assert_eq!((first.number, second.number), (0, 1));
/// # Ok::<(), sched::TimersError>(())
/// ```
#[repr(C)]
#[derive(Clone, Copy, Debug, Default, PartialEq, Eq, PartialOrd, Ord, Hash)]
pub struct TaskRef {
    /// The number of its submission, from 0.
    pub number: u64,
    /// The slot that no other task has while something may come of this one.
    pub slot: u32,
}

/// A run that a worker has begun, as [`Timers::poll`](crate::Timers::poll) tells it.
///
/// # Examples
///
/// ```
/// use sched::timers::{Run, Timers};
///
/// let mut timers = Timers::new(1)?;
/// let task = timers.schedule(0, 5, 70)?;
/// let run = Run { task, run: 0, due: 5, data: 70, worker: 0 };
/// assert_eq!(timers.poll(6, 0)?, Some(run));
/// # Ok::<(), sched::TimersError>(())
/// ```
#[repr(C)]
#[derive(Clone, Copy, Debug, Default, PartialEq, Eq, Hash)]
pub struct Run {
    /// The task.
    pub task: TaskRef,
    /// The number of the run, 0 for the first one of its task.
    pub run: u64,
    /// The moment at which it was due, in nanoseconds.
    pub due: u64,
    /// What was given with the submission.
    pub data: u64,
    /// The worker that has it under way.
    pub worker: u32,
}

/// A run that a worker has ended.
#[repr(C)]
#[derive(Clone, Copy, Default)]
pub struct End {
    pub task: TaskRef,
    pub run: u64,
    pub data: u64,
    pub value: u64,
    pub outcome: u32,
}

/// How a run that is to be ended ended.
#[repr(C)]
pub struct Ending {
    pub value: u64,
    pub worker: u32,
    pub failed: u32,
}

/// A task that the last call ended, as [`Timers::ended`](crate::Timers::ended) tells it.
///
/// # Examples
///
/// ```
/// use sched::timers::{Gone, Timers};
///
/// let mut timers = Timers::new(1)?;
/// let task = timers.schedule(0, 5, 70)?;
/// timers.shutdown_now(1)?;
/// assert_eq!(timers.ended().next(), Some(Gone { task, data: 70 }));
/// # Ok::<(), sched::TimersError>(())
/// ```
#[repr(C)]
#[derive(Clone, Copy, Debug, Default, PartialEq, Eq, Hash)]
pub struct Gone {
    /// The task.
    pub task: TaskRef,
    /// What was given with the submission.
    pub data: u64,
}

/// How far a task is.
#[repr(C)]
#[derive(Default)]
pub struct Task {
    pub run: u64,
    pub due: u64,
    pub phase: u32,
    pub cancelled: u32,
}

/// How far the timers are.
#[repr(C)]
#[derive(Default)]
pub struct State {
    pub now: u64,
    pub numbers: u64,
    pub alive: usize,
    pub ended: usize,
    pub lines: usize,
    pub policies: u32,
    pub shut: u32,
    pub terminated: u32,
}

/// How many tasks there are, as a call asks.
#[repr(C)]
#[derive(Default)]
pub struct Counts {
    pub queue: usize,
    pub running: usize,
    pub shut: u32,
    pub terminated: u32,
}

/// What of a text was copied.
#[repr(C)]
#[derive(Default)]
pub struct Copied {
    /// How many whole lines.
    pub lines: usize,
    /// How many bytes, with the newline of each line.
    pub bytes: usize,
}

// SAFETY: these are the functions of the header. That each one ends, and touches no memory but what it is handed and what the slot
// holds, is proved. Who hands a pointer to one owes that it leads to as many places as the number behind it says.
unsafe extern "C" {
    pub safe fn timers_ref_new(slot: &mut Slot, workers: u32) -> u32;
    pub safe fn timers_ref_free(slot: &mut Slot) -> u32;
    pub safe fn timers_ref_reserve(slot: &mut Slot, tasks: u32) -> u32;
    pub safe fn timers_ref_schedule(
        slot: &mut Slot,
        now: u64,
        delay: u64,
        data: u64,
        task: &mut TaskRef,
    ) -> u32;
    pub safe fn timers_ref_execute(slot: &mut Slot, now: u64, data: u64, task: &mut TaskRef)
    -> u32;
    pub safe fn timers_ref_rate(
        slot: &mut Slot,
        now: u64,
        first: u64,
        period: u64,
        data: u64,
        task: &mut TaskRef,
    ) -> u32;
    pub safe fn timers_ref_fixed(
        slot: &mut Slot,
        now: u64,
        first: u64,
        delay: u64,
        data: u64,
        task: &mut TaskRef,
    ) -> u32;
    pub safe fn timers_ref_cancel(slot: &mut Slot, task: &TaskRef, effect: &mut u32) -> u32;
    pub safe fn timers_ref_poll(slot: &mut Slot, now: u64, worker: u32, run: &mut Run) -> u32;
    pub unsafe fn timers_ref_poll_many(
        slot: &mut Slot,
        now: u64,
        runs: *mut Run,
        n: usize,
        begun: &mut usize,
    ) -> u32;
    pub safe fn timers_ref_finish(
        slot: &mut Slot,
        now: u64,
        worker: u32,
        value: u64,
        end: &mut End,
    ) -> u32;
    pub safe fn timers_ref_fail(
        slot: &mut Slot,
        now: u64,
        worker: u32,
        code: u32,
        end: &mut End,
    ) -> u32;
    pub unsafe fn timers_ref_finish_many(
        slot: &mut Slot,
        now: u64,
        endings: *const Ending,
        endings_length: usize,
        ends: *mut End,
        ends_length: usize,
        ended: &mut usize,
    ) -> u32;
    pub safe fn timers_ref_next_due(slot: &mut Slot, due: &mut u64) -> u32;
    pub safe fn timers_ref_head_due(slot: &mut Slot, due: &mut u64) -> u32;
    pub safe fn timers_ref_purge(slot: &mut Slot) -> u32;
    pub safe fn timers_ref_task_of(slot: &mut Slot, task: &TaskRef, state: &mut Task) -> u32;
    pub safe fn timers_ref_state_of(slot: &mut Slot, state: &mut State) -> u32;
    pub safe fn timers_ref_ask(slot: &mut Slot, now: u64, counts: &mut Counts) -> u32;
    pub safe fn timers_ref_set_policy(slot: &mut Slot, now: u64, policy: u32, value: bool) -> u32;
    pub safe fn timers_ref_shutdown(slot: &mut Slot, now: u64, first: &mut u32) -> u32;
    pub safe fn timers_ref_shutdown_now(slot: &mut Slot, now: u64) -> u32;
    pub safe fn timers_ref_ended(slot: &mut Slot, place: usize, gone: &mut Gone) -> u32;
    pub unsafe fn timers_ref_text(
        slot: &mut Slot,
        from: usize,
        out: *mut u8,
        room: usize,
        copied: &mut Copied,
    ) -> u32;
}
