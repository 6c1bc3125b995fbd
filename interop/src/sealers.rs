//! What binds a sender to a view: a function from messages to seals of one length.

use crate::faults::{Fault, Reason};
use crate::hashes::{sha3_256, sha256};

/// The greatest length that a seal of any sealer has.
pub const LONGEST_SEAL: usize = 64;

pub trait Sealer {
    /// The length of a seal, 1 to 64 bytes.
    const LENGTH: usize;
    /// The longest message that can be sealed.
    const LONGEST: usize;

    /// Seals a message that is not too long into a buffer of `LENGTH` bytes.
    fn digest(message: &[u8], seal: &mut [u8]);

    /// The same with both lengths tested.
    fn seal(message: &[u8], seal: &mut [u8]) -> Result<(), Fault> {
        if message.len() > Self::LONGEST {
            return Err(Fault::at(Reason::WrongSize, 0));
        }
        if seal.len() != Self::LENGTH {
            return Err(Fault::at(Reason::WrongSize, 1));
        }
        Self::digest(message, seal);
        Ok(())
    }

    /// Whether a message that is not too long has this seal.
    fn has_seal(message: &[u8], seal: &[u8]) -> bool {
        let mut due = [0; LONGEST_SEAL];
        let due = &mut due[..Self::LENGTH];
        Self::digest(message, due);
        due == seal
    }
}

pub enum Sha256 {}

impl Sealer for Sha256 {
    const LENGTH: usize = 32;
    // The function's own limit, 2^64 - 1 bits.
    const LONGEST: usize = usize::MAX >> 3;

    fn digest(message: &[u8], seal: &mut [u8]) {
        seal.copy_from_slice(&sha256(message));
    }
}

pub enum Sha3_256 {}

impl Sealer for Sha3_256 {
    const LENGTH: usize = 32;
    const LONGEST: usize = usize::MAX;

    fn digest(message: &[u8], seal: &mut [u8]) {
        seal.copy_from_slice(&sha3_256(message));
    }
}
