//! What the generated modules call in place of what the proofs' libraries have and Rust's haven't. Written by hand.
pub mod clap;
pub mod memchr;
