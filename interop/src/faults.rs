//! Why a call was refused.

use std::fmt;

/// The reasons, by the numbers under which they are told outside.
#[derive(Clone, Copy, Debug, PartialEq, Eq, Hash, PartialOrd, Ord)]
#[repr(u8)]
pub enum Reason {
    Truncated = 1,
    WrongMark = 2,
    OutsideLimits = 3,
    WireTooHigh = 4,
    UnlawfulConstant = 5,
    TrailingBytes = 6,
    WrongSize = 7,
    WrongPick = 8,
    UnknownRound = 9,
    SpentRound = 10,
    KeeperFull = 11,
    UnlawfulKey = 12,
    KeyDoesNotFit = 13,
    UnlawfulTape = 14,
    MalformedFirstMessage = 15,
    MalformedAnswer = 16,
    MissedTarget = 17,
    WrongSeal = 18,
    WrongOutputShare = 19,
    WrongProduct = 20,
}

impl Reason {
    pub const fn number(self) -> u8 {
        self as u8
    }
}

/// A reason, the branch it speaks of (0 if none) and a place, whose meaning depends on the reason.
#[derive(Clone, Copy, Debug, PartialEq, Eq, Hash)]
pub struct Fault {
    pub reason: Reason,
    pub branch: u8,
    pub place: u64,
}

impl Fault {
    /// A fault that speaks of no branch.
    pub const fn at(reason: Reason, place: usize) -> Self {
        Self { reason, branch: 0, place: place as u64 }
    }

    pub const fn in_branch(reason: Reason, branch: u8, place: usize) -> Self {
        Self { reason, branch, place: place as u64 }
    }
}

impl fmt::Display for Fault {
    fn fmt(&self, f: &mut fmt::Formatter<'_>) -> fmt::Result {
        write!(f, "{} {} {} ({:?})", self.reason.number(), self.branch, self.place, self.reason)
    }
}

impl std::error::Error for Fault {}

/// Fault 7 at the place of the first size that is wrong; places count from 1.
pub(crate) fn check_sizes<const N: usize>(right: [bool; N]) -> Result<(), Fault> {
    match right.iter().position(|&right| !right) {
        None => Ok(()),
        Some(index) => Err(Fault::at(Reason::WrongSize, index + 1)),
    }
}
