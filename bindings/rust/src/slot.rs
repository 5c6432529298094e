//! Where a wrapper keeps its slot, and what the wrappers do alike.

use std::cell::Cell;
use std::panic::RefUnwindSafe;

/// The slot of what a library made.
///
/// The library takes a slot mutably also where it only looks: it takes out what the slot holds, and puts it back. So does a look
/// here, whose slot is out of the cell during the call. Hence a call that only looks takes `&self`, and what has a slot is not
/// `Sync`: two threads never look at once.
pub struct SlotCell<S>(Cell<S>);

/// A look puts the slot back before anything could panic.
impl<S> RefUnwindSafe for SlotCell<S> {}

impl<S: Default> SlotCell<S> {
    pub fn new(slot: S) -> SlotCell<S> {
        SlotCell(Cell::new(slot))
    }

    /// Lends the slot to a call that may change what it holds.
    pub fn get_mut(&mut self) -> &mut S {
        self.0.get_mut()
    }

    /// Lends the slot to a call that only looks. What is handed in calls the library and nothing else.
    pub fn look<R>(&self, call: impl FnOnce(&mut S) -> R) -> R {
        let mut slot = self.0.take();
        let answer = call(&mut slot);
        self.0.set(slot);
        answer
    }
}

/// The one line that a library copied, without its newline. `None`: it copied none.
pub fn line_of(copied: &[u8]) -> Option<String> {
    let text = std::str::from_utf8(copied).expect("a line is ASCII");
    text.strip_suffix('\n').map(str::to_owned)
}
