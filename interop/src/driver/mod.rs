//! What the comparison of two engines is made of: drawn circuits, calls made on both, cases, and planted bugs.

pub mod cases;
pub mod circuits;
pub mod compare;
pub mod damage;
pub mod planted;
pub mod random;
