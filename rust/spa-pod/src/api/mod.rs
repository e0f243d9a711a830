//! What Rust's users expect of these types beside the proved items. It is written by hand, over the generated modules.
mod clones;
#[cfg(feature = "std")]
pub mod compat;
pub mod declared;
mod errors;
pub mod faults;
pub mod levels;
mod numbers;
pub mod reading;
pub mod values;
mod views;
#[cfg(feature = "arrayvec")]
mod with_arrayvec;
#[cfg(feature = "serde")]
mod with_serde;
