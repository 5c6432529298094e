//! The functions, structs and numbers of `include/sched.h`.

use std::ffi::c_void;
use std::ptr;

pub const DONE: u32 = 0;
pub const NO_MEMORY: u32 = 1;
pub const NO_PLAN: u32 = 4;
pub const WORKERS: u32 = 5;
pub const LIMIT: u32 = 6;
pub const FULL: u32 = 7;
pub const UNKNOWN_TASK: u32 = 8;
pub const NO_WORKER: u32 = 10;
pub const NOT_STARTED: u32 = 11;

pub const FAULT_TOO_LONG: u32 = 1;
pub const FAULT_TOML: u32 = 2;
pub const FAULT_VERSION: u32 = 3;
pub const FAULT_UNKNOWN_KEY: u32 = 4;
pub const FAULT_MISSING: u32 = 5;
pub const FAULT_WRONG_TYPE: u32 = 6;
pub const FAULT_BAD_UNIT: u32 = 7;
pub const FAULT_BAD_TIMES: u32 = 8;
pub const FAULT_NEGATIVE: u32 = 9;
pub const FAULT_BAD_NAME: u32 = 10;
pub const FAULT_DUPLICATE_NAME: u32 = 11;
pub const FAULT_UNKNOWN_NAME: u32 = 12;
pub const FAULT_AMBIGUOUS: u32 = 13;
pub const FAULT_OUT_OF_ORDER: u32 = 14;
pub const FAULT_TOO_LARGE: u32 = 15;
pub const FAULT_TOO_MANY: u32 = 16;

pub const TASK_VACANT: u32 = 0;
pub const TASK_NEW: u32 = 1;
pub const TASK_RUNNING: u32 = 2;
pub const TASK_DONE: u32 = 3;
pub const TASK_FAILED: u32 = 4;

/// How many bytes are enough for any line, with its newline.
pub const LINE_ROOM: usize = 128;

/// Room for an executor. Its fields are the library's: each slot is empty, or as a call of the library left it.
#[repr(C)]
pub struct Slot {
    hidden: *mut c_void,
    full: bool,
}

impl Default for Slot {
    /// A slot without an executor.
    fn default() -> Slot {
        Slot {
            hidden: ptr::null_mut(),
            full: false,
        }
    }
}

// SAFETY: that an executor may cross to another thread is proved (`Send` in `crates/sched_c`).
unsafe impl Send for Slot {}

/// What is wrong with a plan's text, and where.
#[repr(C)]
#[derive(Clone, Copy, Default)]
pub struct Fault {
    pub kind: u32,
    pub block: u32,
    pub call: u32,
}

/// What of a text was copied.
#[repr(C)]
#[derive(Default)]
pub struct Copied {
    /// How many whole lines.
    pub lines: usize,
    /// How many bytes, with the newline of each line.
    pub bytes: usize,
}

/// How far an executor is.
#[repr(C)]
#[derive(Default)]
pub struct State {
    pub now: u64,
    pub lines: usize,
    pub tasks: usize,
    pub taken: u32,
    pub ripe: u32,
}

/// How far a task is.
#[repr(C)]
#[derive(Default)]
pub struct Task {
    pub phase: u32,
    pub run: u32,
    pub cancelled: u32,
}

/// A run that was started, as [`Executor::started`](crate::Executor::started) tells it.
///
/// # Examples
///
/// ```
/// # let plan = b"version = 2\n[[block]]\ncall = [{ op = \"execute\", name = \"once\" }]";
/// use sched::executor::{Event, Executor, Run};
///
/// let mut executor = Executor::new(plan, 1, 100)?; // of a task that is due at once
/// executor.take(Event::Clock(3))?;
/// executor.take(Event::Start(0))?;
/// let run = Run { run: 0, due: 0, task: 0, worker: 0 };
/// assert_eq!(executor.started(), Some(run));
/// # Ok::<(), sched::ExecutorError>(())
/// ```
#[repr(C)]
#[derive(Clone, Copy, Debug, Default, PartialEq, Eq, Hash)]
pub struct Run {
    /// The number of the run, from 0.
    pub run: u64,
    /// The due moment of the run, in nanoseconds.
    pub due: u64,
    /// The task: the submissions of the plan are counted from 0.
    pub task: u32,
    /// The worker that runs it.
    pub worker: u32,
}

// SAFETY: these are the functions of the header. That each one ends, and touches no memory but what it is handed and what the slot
// holds, is proved. Who hands a pointer to one owes that it leads to as many bytes as the number behind it says.
unsafe extern "C" {
    pub unsafe fn sched_ref_new(
        slot: &mut Slot,
        plan: *const u8,
        length: usize,
        workers: u32,
        limit: u64,
        fault: &mut Fault,
    ) -> u32;
    pub safe fn sched_ref_free(slot: &mut Slot) -> u32;
    pub safe fn sched_ref_clock(slot: &mut Slot, moment: u64) -> u32;
    pub safe fn sched_ref_start(slot: &mut Slot, worker: u32) -> u32;
    pub safe fn sched_ref_finish(slot: &mut Slot, worker: u32, value: u64) -> u32;
    pub safe fn sched_ref_fail(slot: &mut Slot, worker: u32, code: u32) -> u32;
    pub safe fn sched_ref_cancel(slot: &mut Slot, task: u32) -> u32;
    pub unsafe fn sched_ref_text(
        slot: &mut Slot,
        from: usize,
        out: *mut u8,
        room: usize,
        copied: &mut Copied,
    ) -> u32;
    pub safe fn sched_ref_state_of(slot: &mut Slot, state: &mut State) -> u32;
    pub safe fn sched_ref_task_of(slot: &mut Slot, task: u32, state: &mut Task) -> u32;
    pub safe fn sched_ref_started(slot: &mut Slot, run: &mut Run) -> u32;
}
