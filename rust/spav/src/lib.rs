//! What is behind libspav, the library for C over pods of PipeWire: capi/exports.c calls what `exports` exports.
#![cfg_attr(all(feature = "alone", not(test)), no_std)]

#[cfg(all(feature = "alone", not(test)))]
mod alone;
mod exports;
#[doc(hidden)]
pub mod parts;
