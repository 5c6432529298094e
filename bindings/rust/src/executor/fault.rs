//! What is wrong with a plan's text.

use super::calls;
use std::error::Error;
use std::fmt;

/// What is wrong with a plan's text, and where: the first fault of the text. `docs/RULES.md` says what a text may say.
///
/// # Examples
///
/// ```
/// use sched::executor::{Fault, FaultKind};
/// use sched::{Executor, ExecutorError};
///
/// let text = b"version = 2\n[[block]]\n[[block.call]]\nop = \"ask\"\nsize = 3\n";
/// let Err(ExecutorError::Plan(fault)) = Executor::new(text, 1, 100) else {
///     panic!("a call has no key of that name");
/// };
/// assert_eq!(fault, Fault { kind: FaultKind::UnknownKey, block: Some(1), call: Some(1) });
/// assert_eq!(fault.to_string(), "block 1, call 1: a table has a key that does not belong there");
/// ```
#[derive(Clone, Copy, Debug, PartialEq, Eq, Hash)]
pub struct Fault {
    /// What is wrong.
    pub kind: FaultKind,
    /// The block, counted from 1. `None`: the fault is in no block.
    pub block: Option<u32>,
    /// The call in its block, counted from 1. `None`: the fault is in no call.
    pub call: Option<u32>,
}

impl Fault {
    /// The fault that the library writes as numbers.
    pub(super) fn of(raw: calls::Fault) -> Fault {
        let place = |number| (number != 0).then_some(number);
        Fault {
            kind: FaultKind::of(raw.kind),
            block: place(raw.block),
            call: place(raw.call),
        }
    }
}

impl fmt::Display for Fault {
    fn fmt(&self, f: &mut fmt::Formatter<'_>) -> fmt::Result {
        match (self.block, self.call) {
            (Some(block), Some(call)) => write!(f, "block {block}, call {call}: ")?,
            (Some(block), None) => write!(f, "block {block}: ")?,
            (None, _) => {}
        }
        self.kind.fmt(f)
    }
}

impl Error for Fault {}

/// What may be wrong with a plan's text.
///
/// # Examples
///
/// ```
/// use sched::executor::FaultKind;
///
/// assert_eq!(FaultKind::BadTimes.to_string(), "a `times` is not 1 to 65,536");
/// ```
#[derive(Clone, Copy, Debug, PartialEq, Eq, Hash)]
#[non_exhaustive]
pub enum FaultKind {
    /// It has more than 1,048,576 bytes.
    TooLong,
    /// It is no UTF-8, or no TOML document.
    Toml,
    /// `version` is missing, or neither 1 nor 2.
    Version,
    /// A table has a key that does not belong there.
    UnknownKey,
    /// A key is missing.
    Missing,
    /// A value is not what its key wants.
    WrongType,
    /// A unit is none of those of the plan's version.
    BadUnit,
    /// A `times` is not 1 to 65,536.
    BadTimes,
    /// A moment, an offset or an `every` is below 0.
    Negative,
    /// A name is not 1 to 32 ASCII letters, digits, `-` and `_`.
    BadName,
    /// A submission has the name of one before it.
    DuplicateName,
    /// A cancel names no submission that stands before it.
    UnknownName,
    /// A cancel names a submission of an earlier block that is repeated.
    Ambiguous,
    /// A block begins before the last call of those before it, an offset is below that of the call before it, or a call of a
    /// repeated block comes after the next iteration begins.
    OutOfOrder,
    /// A moment, an offset, a delay, a period or an `every` is above 2^62 nanoseconds, or so is the moment of a call in the last
    /// iteration of its block.
    TooLarge,
    /// There are more than 256 blocks, 256 calls in a block, or 65,536 calls with all repetitions.
    TooMany,
}

impl FaultKind {
    /// The kind that the library writes as a number.
    fn of(raw: u32) -> FaultKind {
        match raw {
            calls::FAULT_TOO_LONG => FaultKind::TooLong,
            calls::FAULT_TOML => FaultKind::Toml,
            calls::FAULT_VERSION => FaultKind::Version,
            calls::FAULT_UNKNOWN_KEY => FaultKind::UnknownKey,
            calls::FAULT_MISSING => FaultKind::Missing,
            calls::FAULT_WRONG_TYPE => FaultKind::WrongType,
            calls::FAULT_BAD_UNIT => FaultKind::BadUnit,
            calls::FAULT_BAD_TIMES => FaultKind::BadTimes,
            calls::FAULT_NEGATIVE => FaultKind::Negative,
            calls::FAULT_BAD_NAME => FaultKind::BadName,
            calls::FAULT_DUPLICATE_NAME => FaultKind::DuplicateName,
            calls::FAULT_UNKNOWN_NAME => FaultKind::UnknownName,
            calls::FAULT_AMBIGUOUS => FaultKind::Ambiguous,
            calls::FAULT_OUT_OF_ORDER => FaultKind::OutOfOrder,
            calls::FAULT_TOO_LARGE => FaultKind::TooLarge,
            calls::FAULT_TOO_MANY => FaultKind::TooMany,
            other => unreachable!("fault {other}"),
        }
    }
}

impl fmt::Display for FaultKind {
    fn fmt(&self, f: &mut fmt::Formatter<'_>) -> fmt::Result {
        f.write_str(match self {
            FaultKind::TooLong => "it has more than 1,048,576 bytes",
            FaultKind::Toml => "it is no UTF-8, or no TOML document",
            FaultKind::Version => "`version` is missing, or neither 1 nor 2",
            FaultKind::UnknownKey => "a table has a key that does not belong there",
            FaultKind::Missing => "a key is missing",
            FaultKind::WrongType => "a value is not what its key wants",
            FaultKind::BadUnit => "a unit is none of those of the plan's version",
            FaultKind::BadTimes => "a `times` is not 1 to 65,536",
            FaultKind::Negative => "a moment, an offset or an `every` is below 0",
            FaultKind::BadName => "a name is not 1 to 32 ASCII letters, digits, `-` and `_`",
            FaultKind::DuplicateName => "a submission has the name of one before it",
            FaultKind::UnknownName => "a cancel names no submission that stands before it",
            FaultKind::Ambiguous => {
                "a cancel names a submission of an earlier block that is repeated"
            }
            FaultKind::OutOfOrder => "a block or a call comes before what stands in front of it",
            FaultKind::TooLarge => "a moment or a span is above 2^62 nanoseconds",
            FaultKind::TooMany => {
                "there are more than 256 blocks, 256 calls in a block, or 65,536 calls"
            }
        })
    }
}
