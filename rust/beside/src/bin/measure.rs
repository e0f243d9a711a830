//! `measure WORK ROUNDS < PODS`: the work of bench/library.rs with this crate, a line for each round, with its nanoseconds and a number
//! that the work came to. WORK is `none`, `read`, `write`, `rewrite`, `clone`, `equal` or `walk`; with a call for each pod, `appended` or `in-place`; or
//! with a call for each two pods, `filtered` or `negotiated`.
use spa_pod::filtering::filter_pods;
use spa_pod::negotiation::negotiate_pods;
use spa_pod::pod::{Pod, Value, deserialize::PodDeserializer, rewrite_all, rewrite_in_place, serialize::PodSerializer};
use std::io::Read;
use std::time::Instant;

fn read_one(bytes: &[u8]) -> (&[u8], Value) {
    PodDeserializer::deserialize_any_from(bytes).expect("pods that are read")
}

fn read_each(mut bytes: &[u8], mut take: impl FnMut(Value)) -> usize {
    let mut count = 0;
    while !bytes.is_empty() {
        let (rest, value) = read_one(bytes);
        take(value);
        bytes = rest;
        count += 1;
    }
    count
}

/// Does this to each pod by itself, and counts the bytes that it answers.
fn each_alone(mut bytes: &mut [u8], mut take: impl FnMut(&mut [u8]) -> usize) -> usize {
    let mut count = 0;
    while let Some(extent) = Pod::from_bytes(bytes).map(|pod| pod.extent()) {
        let (pod, rest) = bytes.split_at_mut(extent);
        count += take(pod);
        bytes = rest;
    }
    count
}

/// Makes this of each two pods, and counts the bytes: of two that are refused there are none.
fn each_pair<E>(mut bytes: &[u8], mut make: impl FnMut(&[u8], &[u8]) -> Result<Vec<u8>, E>) -> usize {
    let extent_of = |bytes| Pod::from_bytes(bytes).expect("two pods for each call").extent();
    let mut count = 0;
    while !bytes.is_empty() {
        let (one, rest) = bytes.split_at(extent_of(bytes));
        let (other, rest) = rest.split_at(extent_of(rest));
        count += make(one, other).map_or(0, |made| made.len());
        bytes = rest;
    }
    count
}

/// The sizes of the pods, and of the members one level inside them.
fn walk(bytes: &[u8]) -> u32 {
    let (mut left, mut sum) = (bytes, 0u32);
    while let Some(pod) = Pod::from_bytes(left) {
        sum = sum.wrapping_add(pod.size());
        if let Ok(it) = pod.as_struct() {
            sum = it.fields().fold(sum, |sum, field| sum.wrapping_add(field.size()));
        } else if let Ok(it) = pod.as_object() {
            sum = it.props().fold(sum, |sum, property| sum.wrapping_add(property.value().size()));
        }
        left = left.get(8 + (pod.size() as usize).next_multiple_of(8)..).unwrap_or(&[]);
    }
    sum
}

fn main() {
    let words: Vec<String> = std::env::args().skip(1).collect();
    let (work, rounds) = (words[0].as_str(), words[1].parse::<u64>().expect("a number of rounds"));
    let mut bytes = Vec::new();
    std::io::stdin().read_to_end(&mut bytes).expect("the pods");
    let mut values = Vec::new();
    if matches!(work, "write" | "clone" | "equal") {
        read_each(&bytes, |value| values.push(value));
    }
    let copies = if work == "equal" { values.clone() } else { Vec::new() };
    let mut out = Vec::with_capacity(bytes.len());
    for _ in 0..rounds {
        let start = Instant::now();
        out.clear();
        let count = match work {
            "none" => 0,
            "read" => read_each(&bytes, drop),
            "write" => {
                out = values.iter().fold(out, |out, value| PodSerializer::serialize(out, value).expect("a vector has room").0);
                out.len()
            }
            "rewrite" => {
                rewrite_all(&bytes, &mut out).expect("pods that are read");
                out.len()
            }
            "appended" => each_alone(&mut bytes, |pod| {
                out.clear();
                rewrite_all(pod, &mut out).expect("pods that are read");
                out.len()
            }),
            "in-place" => {
                out.extend_from_slice(&bytes);
                each_alone(&mut out, |pod| rewrite_in_place(pod).expect("pods that are read"))
            }
            "filtered" => each_pair(&bytes, filter_pods),
            "negotiated" => each_pair(&bytes, negotiate_pods),
            "clone" => values.iter().map(|value| drop(value.clone())).count(),
            "equal" => values.iter().zip(&copies).filter(|(one, other)| one == other).count(),
            "walk" => walk(&bytes) as usize,
            _ => panic!("no such work: {work}"),
        };
        println!("{} {count}", start.elapsed().as_nanos());
    }
}
