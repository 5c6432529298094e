//! The functions, structs and numbers of `include/delay_queue.h`.

use std::ffi::c_void;
use std::ptr;

pub const DONE: u32 = 0;
pub const NO_ENTRY: u32 = 1;
pub const NO_MEMORY: u32 = 2;
pub const UNKNOWN_TASK: u32 = 5;
pub const HAS_ENTRY: u32 = 6;

/// Room for a queue. Its fields are the library's: each slot is empty, or as a call of the library left it.
#[repr(C)]
pub struct Slot {
    hidden: *mut c_void,
    tasks: u32,
    full: bool,
}

impl Default for Slot {
    /// A slot without a queue.
    fn default() -> Slot {
        Slot {
            hidden: ptr::null_mut(),
            tasks: 0,
            full: false,
        }
    }
}

// SAFETY: that a queue may cross to another thread is proved (`Send` in `crates/delay_queue_c`).
unsafe impl Send for Slot {}

/// A task, and the moment at which it is due. Entries are ordered as they leave a queue: by moment, and at one moment by task.
///
/// # Examples
///
/// ```
/// use sched::Entry;
///
/// assert!(Entry { due: 5, task: 9 } < Entry { due: 6, task: 0 });
/// assert!(Entry { due: 5, task: 8 } < Entry { due: 5, task: 9 });
/// ```
#[repr(C)]
#[derive(Clone, Copy, Debug, Default, PartialEq, Eq, PartialOrd, Ord, Hash)]
pub struct Entry {
    /// When the task is due, in nanoseconds.
    pub due: u64,
    /// The task's number.
    pub task: u32,
}

// SAFETY: these are the functions of the header. That each one ends, and touches no memory but what it is handed and what the slot
// holds, is proved. Who hands a pointer to one owes that it leads to as many places as the number behind it says.
unsafe extern "C" {
    pub safe fn dq_ref_new(slot: &mut Slot, tasks: u32) -> u32;
    pub safe fn dq_ref_free(slot: &mut Slot) -> u32;
    pub safe fn dq_ref_try_insert(slot: &mut Slot, due: u64, task: u32) -> u32;
    pub safe fn dq_ref_poll(slot: &mut Slot, now: u64, out: &mut Entry) -> u32;
    pub safe fn dq_ref_peek(slot: &mut Slot, out: &mut Entry) -> u32;
    pub safe fn dq_ref_remove(slot: &mut Slot, task: u32) -> u32;
    pub safe fn dq_ref_due_of(slot: &mut Slot, task: u32, due: &mut u64) -> u32;
    pub safe fn dq_ref_contains(slot: &mut Slot, task: u32) -> u32;
    pub safe fn dq_ref_len(slot: &mut Slot, count: &mut usize) -> u32;
    pub safe fn dq_ref_touched(slot: &mut Slot, touched: &mut u64) -> u32;
    pub unsafe fn dq_ref_insert_many(
        slot: &mut Slot,
        entries: *const Entry,
        length: usize,
        inserted: &mut usize,
    ) -> u32;
    pub unsafe fn dq_ref_poll_many(
        slot: &mut Slot,
        now: u64,
        out: *mut Entry,
        room: usize,
        polled: &mut usize,
    ) -> u32;
}
