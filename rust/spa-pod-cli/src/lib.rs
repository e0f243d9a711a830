//! What the programs `pod` and `podtool` do.
#![forbid(unsafe_code)]

#[doc(hidden)]
pub mod parts;
mod shims;
#[doc(hidden)]
pub mod streams;
