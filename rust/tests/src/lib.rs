//! The tests of the proved crates, erased: `src/parts` is made by rust/check, and not committed.
#![cfg(test)]

extern crate alloc;

mod parts;
mod shims;
