//! A second engine for the same protocol, written from its documents alone (formats, faults, protocol).
//!
//! It shares no line with the first one. Where both give the same bytes and the same refusals for the same input, the
//! documents say enough to write an engine that works with the others.

pub mod extractor;
pub mod faults;
pub mod hashes;
pub mod keeper;
pub mod kinds;
pub mod lengths;
pub mod lock;
pub mod messages;
pub mod sealers;
pub mod verifier;

pub mod driver;
#[cfg(exported)]
pub mod ffi;
pub mod interface;

#[cfg(test)]
mod tests;
