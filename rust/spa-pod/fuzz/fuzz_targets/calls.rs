//! Each call over any bytes: `cargo fuzz run calls`, with the repository's examples/*.pod as a corpus.
#![no_main]

#[path = "../checked.rs"]
mod checked;

libfuzzer_sys::fuzz_target!(|bytes: &[u8]| checked::check(bytes));
