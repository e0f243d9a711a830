//! The work of bench/library.rt.txt with the crate libspa 0.10.1: `library WORK ROUNDS < PODS`, a line for each round, with its
//! nanoseconds and a number that the work came to. WORK is `none`, `read`, `write`, `rewrite`, `clone`, `equal` or `walk`.
//!
//! To build: `cargo new library`, there `cargo add libspa@0.10.1`, this file in place of `src/main.rs`, and `cargo build --release`.
//! The crate builds with PipeWire's headers (Debian's libspa-0.2-dev) and clang.

use libspa::pod::{deserialize::PodDeserializer, serialize::PodSerializer, Pod, Value};
use std::io::{Cursor, Read};
use std::time::Instant;

fn read_one(bytes: &[u8]) -> (&[u8], Value) {
    PodDeserializer::deserialize_any_from(bytes).expect("pods that the crate reads")
}

fn read_each(bytes: &[u8]) -> usize {
    let (mut left, mut count) = (bytes, 0);
    while !left.is_empty() {
        left = read_one(left).0;
        count += 1;
    }
    count
}

fn read_all(bytes: &[u8]) -> Vec<Value> {
    let (mut left, mut values) = (bytes, Vec::new());
    while !left.is_empty() {
        let (rest, value) = read_one(left);
        values.push(value);
        left = rest;
    }
    values
}

fn write_one(out: Vec<u8>, value: &Value) -> Vec<u8> {
    let place = out.len() as u64;
    let mut out = Cursor::new(out);
    out.set_position(place);
    PodSerializer::serialize(out, value).expect("a vector has room").0.into_inner()
}

fn rewrite_all(bytes: &[u8], mut out: Vec<u8>) -> Vec<u8> {
    let mut left = bytes;
    while !left.is_empty() {
        let (rest, value) = read_one(left);
        out = write_one(out, &value);
        left = rest;
    }
    out
}

/// The sizes of the pods, and of the members one level inside them.
fn walk(bytes: &[u8]) -> u32 {
    let (mut left, mut sum) = (bytes, 0u32);
    while let Some(pod) = Pod::from_bytes(left) {
        sum = sum.wrapping_add(pod.size());
        if let Ok(it) = pod.as_struct() {
            for field in it.fields() {
                sum = sum.wrapping_add(field.size());
            }
        } else if let Ok(it) = pod.as_object() {
            for property in it.props() {
                sum = sum.wrapping_add(property.value().size());
            }
        }
        left = left.get(8 + (pod.size() as usize).next_multiple_of(8)..).unwrap_or(&[]);
    }
    sum
}

fn main() {
    let words: Vec<String> = std::env::args().skip(1).collect();
    let (work, rounds) = (words[0].as_str(), words[1].parse::<u64>().expect("a number of rounds"));
    let mut bytes = Vec::new();
    std::io::stdin().read_to_end(&mut bytes).expect("the pods");
    let values = if matches!(work, "write" | "clone" | "equal") { read_all(&bytes) } else { Vec::new() };
    let copies = if work == "equal" { values.clone() } else { Vec::new() };
    let mut out = Vec::with_capacity(bytes.len());
    for _ in 0..rounds {
        let start = Instant::now();
        out.clear();
        let count = match work {
            "none" => 0,
            "read" => read_each(&bytes),
            "write" => {
                out = values.iter().fold(out, write_one);
                out.len()
            }
            "rewrite" => {
                out = rewrite_all(&bytes, out);
                out.len()
            }
            "clone" => values.iter().map(|value| drop(value.clone())).count(),
            "equal" => values.iter().zip(&copies).filter(|(one, other)| one == other).count(),
            "walk" => walk(&bytes) as usize,
            _ => panic!("no such work: {work}"),
        };
        println!("{} {count}", start.elapsed().as_nanos());
    }
}
