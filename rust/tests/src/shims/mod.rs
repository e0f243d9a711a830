//! What the erased tests call in place of the proofs' libraries. Written by hand.
pub mod anyhow;
pub mod test;
