//! What goes between the two sides, and what a keeper holds: views, first messages, answers.

use crate::kinds::Kind;
use crate::lengths::BLIND;
use crate::lock::Lock;

pub const FIRST_MARK: &[u8; 2] = b"FM";
pub const ANSWER_MARK: &[u8; 2] = b"AN";

/// Offset of the output shares in a first message.
pub const FIRST_SHARES: usize = 2;
/// Offset of the first view in an answer.
pub const ANSWER_VIEWS: usize = 3;

/// The branch after a branch.
pub const fn next(branch: u8) -> u8 {
    branch % 3 + 1
}

/// A view of a branch in its parts.
pub struct View<'a, K: Kind> {
    pub bytes: &'a [u8],
    pub shares: &'a [K::Row],
    pub masks: &'a [K::Row],
    pub products: &'a [K::Row],
}

impl<K: Kind> Clone for View<'_, K> {
    fn clone(&self) -> Self {
        *self
    }
}

impl<K: Kind> Copy for View<'_, K> {}

impl<'a, K: Kind> View<'a, K> {
    pub fn of(bytes: &'a [u8], lock: &Lock<K>) -> Self {
        let elements = K::rows(&bytes[BLIND..]);
        let (shares, rest) = elements.split_at(lock.inputs());
        let (masks, products) = rest.split_at(lock.products());
        Self { bytes, shares, masks, products }
    }
}

/// The two views in an answer of the right length.
pub fn views_of<'a, K: Kind>(answer: &'a [u8], lock: &Lock<K>) -> [View<'a, K>; 2] {
    let views = &answer[ANSWER_VIEWS..];
    let (own, after) = views.split_at(views.len() / 2);
    [View::of(own, lock), View::of(after, lock)]
}

/// The output shares of a branch in a first message of the right length.
pub fn output_shares<'a, K: Kind>(first: &'a [u8], lock: &Lock<K>, branch: u8) -> &'a [K::Row] {
    let index = usize::from(branch - 1);
    &K::rows(&first[FIRST_SHARES..])[index * lock.outputs()..][..lock.outputs()]
}

/// The seal of a branch's view in a first message of the right length.
pub fn seal_of<'a, K: Kind>(first: &'a [u8], lock: &Lock<K>, branch: u8) -> &'a [u8] {
    let seals = &first[FIRST_SHARES + 3 * lock.outputs() * K::WIDTH..];
    let length = seals.len() / 3;
    &seals[usize::from(branch - 1) * length..][..length]
}
