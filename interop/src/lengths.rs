//! How long everything is that goes with a lock.

use crate::kinds::Kind;
use crate::lock::Lock;
use crate::sealers::Sealer;

/// The length of a blind.
pub const BLIND: usize = 32;
/// The longest view that a lock may ask for.
pub const LONGEST_VIEW: usize = 65_535;

/// The length of a view of a branch.
pub const fn view_length(inputs: usize, products: usize, width: usize) -> usize {
    BLIND + (inputs + 2 * products) * width
}

/// The most products with which a view is not too long.
pub const fn most_products(inputs: usize, width: usize) -> usize {
    (LONGEST_VIEW - view_length(inputs, 0, width)) / (2 * width)
}

/// Lengths in bytes.
#[derive(Clone, Copy, Debug, PartialEq, Eq)]
pub struct Lengths {
    pub key: usize,
    pub view: usize,
    pub tape: usize,
    pub first: usize,
    pub answer: usize,
    /// The least length of a work slice.
    pub work: usize,
}

impl Lengths {
    pub fn of<K: Kind, S: Sealer>(lock: &Lock<K>) -> Self {
        let view = view_length(lock.inputs(), lock.products(), K::WIDTH);
        Self {
            key: lock.inputs() * K::WIDTH,
            view,
            tape: 3 * BLIND + (2 * lock.inputs() + 3 * lock.products()) * K::WIDTH,
            first: 2 + 3 * lock.outputs() * K::WIDTH + 3 * S::LENGTH,
            answer: answer_length(view),
            work: lock.wires() * K::WIDTH,
        }
    }
}

/// The length of an answer that opens two views.
pub const fn answer_length(view: usize) -> usize {
    3 + 2 * view
}
