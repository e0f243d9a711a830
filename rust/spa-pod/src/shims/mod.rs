//! What the generated modules call in place of what the proofs' standard library has and Rust's hasn't.
//!
//! This is written by hand. It is trusted where those calls were proved.

// What the proved text calls for each number is put in line, and a search without branches is. Numbers are cast by their bits, and digits fit a byte.
#![allow(clippy::inline_always, clippy::needless_bitwise_bool, clippy::cast_possible_wrap, clippy::cast_sign_loss, clippy::cast_possible_truncation)]
#![cfg_attr(feature = "parts", allow(missing_debug_implementations, clippy::new_without_default))]

pub mod array;
pub mod bytes;
pub mod extents;
pub mod flags;
#[cfg(feature = "text")]
pub mod json;
pub mod memory;
#[cfg(feature = "text")]
pub mod numerals;
pub mod sorted;

/// What each generated module has in scope.
pub mod prelude {
    #[cfg(any(feature = "text", feature = "parts"))]
    #[allow(unused_imports)]
    pub use super::memory::more::{Copies, Exactly, SliceToVec, SplitOff, StringRoom};
    pub use super::bytes::{Bytes, Chunks, Signs};
    pub use super::memory::{Text, ToVec, TryClone, VecRoom};
    pub use alloc::string::String;
    pub use alloc::vec::Vec;
}
