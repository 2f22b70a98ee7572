//! What the programs of this project share: a plain reading of document 01, the Rust crate behind the same words, and keys to try.

pub mod digest;
pub mod keys;
pub mod paper;
pub mod random;
pub mod rust;
