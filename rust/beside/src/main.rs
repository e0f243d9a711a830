//! `beside SECONDS SEED FILE..` compares the Rust crate with a second implementation in C (bench/capi/one_pass.c) on changed copies of the
//! files, and where it was built with SPAV_LIB, with the proved library libspav, for so many seconds. It ends with a panic at the first
//! difference, and writes the input to `difference.pod`.
//!
//! `beside podtool PODTOOL FILE..` compares what the crate rewrites, fixates and finds in the files with what the program podtool writes, byte
//! by byte, its refusals and its status included. `beside rows PODTOOL ROWS` does so on rows in the form of crates/podtool_tests/stdin.
use spa_pod::pod::deserialize::PodDeserializer;
use spa_pod::pod::serialize::PodSerializer;
use spa_pod::pod::{Held, Pod, PodObject, accept_all, is_canonical, nests_within, rewrite, rewrite_all, rewrite_in_place};
use std::env::args;
use std::fs;
use std::io::Write;
use std::panic::{AssertUnwindSafe, catch_unwind, resume_unwind};
use std::process::{Command, Stdio};
use std::thread::spawn;
use std::time::{Duration, Instant};

#[cfg(spav)]
mod proved;

unsafe extern "C" {
    fn one_pass(input: *const u8, n: usize, out: *mut u8) -> usize;
}

/// What the second implementation answers: the rewriting of all, or nothing where the input isn't whole pods.
fn second(input: &[u8]) -> Option<Vec<u8>> {
    let mut out = vec![0; input.len() + 8];
    let len = unsafe { one_pass(input.as_ptr(), input.len(), out.as_mut_ptr()) };
    (len != usize::MAX).then(|| {
        out.truncate(len);
        out
    })
}

/// Compares all that is asked of the input. The answer is whether it was accepted.
fn compare(input: &[u8]) -> bool {
    let wanted = second(input);
    let mut out = Vec::new();
    let answer = rewrite_all(input, &mut out);
    assert_eq!(answer.is_ok(), wanted.is_some());
    assert_eq!(accept_all(input).is_ok(), wanted.is_some());
    let mut place = input.to_vec();
    let in_place = rewrite_in_place(&mut place);
    match (&wanted, answer) {
        (Some(wanted), _) => {
            assert_eq!(&out, wanted);
            assert_eq!(in_place, Ok(wanted.len()));
            assert_eq!(&place[..wanted.len()], &wanted[..]);
        }
        (None, Err((left, _))) => {
            let at = input.len() - left.len();
            assert!(second(&input[..at]).is_some(), "what stands before the refused pod is accepted");
            assert_eq!(in_place.map_err(|(at, _)| at), Err(at));
            assert_eq!(place, input);
        }
        (None, Ok(())) => unreachable!(),
    }
    front(input);
    #[cfg(spav)]
    proved::compare(input, &wanted);
    wanted.is_some()
}

/// Compares the ways to the rewriting of the pod at the front: by the rewriter, by a value, and by a copy of that.
fn front(input: &[u8]) {
    let read = PodDeserializer::deserialize_any_from_unbounded(input);
    let again = rewrite(input);
    match (read, again) {
        (Ok((rest, value)), Ok((behind, wanted))) => {
            assert_eq!(rest, behind);
            let pod = &input[..input.len() - rest.len()];
            let held = Held::from(value);
            let (written, count) = PodSerializer::serialize(Vec::new(), &*held).expect("a value that was read");
            assert_eq!((written.len() as u64, &written), (count, &wanted));
            assert_eq!(is_canonical(input), Ok(pod == wanted));
            assert_eq!(second(pod), Some(wanted));
            if nests_within(input, 500) {
                assert!(*held == held.clone());
            }
        }
        (Err(one), Err(other)) => assert_eq!(one, other),
        (one, other) => panic!("{one:?}, {other:?}"),
    }
}

/// Numbers that look random: xorshift.
struct Numbers(u64);

impl Numbers {
    fn below(&mut self, bound: usize) -> usize {
        self.0 ^= self.0 << 13;
        self.0 ^= self.0 >> 7;
        self.0 ^= self.0 << 17;
        (self.0 % bound.max(1) as u64) as usize
    }
}

/// A changed copy: some words set to small numbers, sizes or others of the input, bytes flipped, stretches left out, doubled, or taken
/// from another file.
fn changed(seeds: &[Vec<u8>], numbers: &mut Numbers) -> Vec<u8> {
    let mut made = seeds[numbers.below(seeds.len())].clone();
    for _ in 0..=numbers.below(4) {
        let len = made.len();
        match numbers.below(8) {
            0..4 if len >= 4 => {
                let at = numbers.below(len / 4) * 4;
                let other = numbers.below(len / 4) * 4;
                let word = match numbers.below(4) {
                    0 => (numbers.below(24) as u32).to_le_bytes(),
                    1 => (numbers.below(len + 16) as u32).to_le_bytes(),
                    2 => [made[other], made[other + 1], made[other + 2], made[other + 3]],
                    _ => u32::MAX.wrapping_sub(numbers.below(16) as u32).to_le_bytes(),
                };
                made[at..at + 4].copy_from_slice(&word);
            }
            4 if len > 0 => made[numbers.below(len)] ^= 1 << numbers.below(8),
            5 => made.truncate(numbers.below(len + 1)),
            6 => {
                let (from, other) = (numbers.below(len / 8 + 1) * 8, &seeds[numbers.below(seeds.len())]);
                let start = numbers.below(other.len() / 8 + 1) * 8;
                made.splice(from..from, other[start..].iter().copied().take(256));
            }
            _ => {
                let from = numbers.below(len / 8 + 1) * 8;
                let to = (from + numbers.below(8) * 8).min(len);
                made.drain(from.min(to)..to);
            }
        }
        made.truncate(1 << 14);
    }
    made
}

fn changes(seconds: u64, seed: u64, seeds: &[Vec<u8>]) {
    let (start, mut numbers) = (Instant::now(), Numbers(seed | 1));
    let (mut count, mut accepted) = (0u64, 0u64);
    while start.elapsed() < Duration::from_secs(seconds) {
        for _ in 0..1000 {
            let input = changed(seeds, &mut numbers);
            match catch_unwind(AssertUnwindSafe(|| compare(&input))) {
                Ok(is_accepted) => accepted += u64::from(is_accepted),
                Err(why) => {
                    fs::write("difference.pod", &input).expect("the input is kept");
                    resume_unwind(why);
                }
            }
            count += 1;
        }
    }
    let beside = if cfg!(spav) { "the second implementation and libspav" } else { "the second implementation" };
    println!("{count} inputs, {accepted} of them accepted, beside {beside}: no difference");
}

/// A status, what is written, and what is said.
type Answer = (i32, Vec<u8>, String);

fn podtool(program: &str, words: &[&str], input: &[u8]) -> Answer {
    let mut child = Command::new(program).args(words).stdin(Stdio::piped()).stdout(Stdio::piped()).stderr(Stdio::piped()).spawn().expect("it starts");
    let mut stdin = child.stdin.take().expect("its input");
    let given = input.to_vec();
    let giver = spawn(move || stdin.write_all(&given));
    let done = child.wait_with_output().expect("it ends");
    // A program that is misused reads nothing.
    let _ = giver.join().expect("the input is given");
    (done.status.code().expect("a status"), done.stdout, String::from_utf8(done.stderr).expect("words"))
}

/// What the crate answers to podtool's words.
fn answer(words: &[&str], input: &[u8]) -> Answer {
    let refused = |at: usize, kind: &str| (1, Vec::new(), format!("podtool: byte {at}: {kind}\n"));
    let mut out = input.to_vec();
    match words {
        ["rewrite"] => match rewrite_in_place(&mut out) {
            Ok(len) => out.truncate(len),
            Err((at, why)) => return refused(at, why.kind()),
        },
        ["fixate"] => {
            if let Err((left, why)) = accept_all(input) {
                return refused(input.len() - left.len(), why.kind());
            }
            let mut at = 0;
            while let Some(extent) = Pod::from_bytes(&out[at..]).map(|pod| pod.extent()) {
                // A pod that isn't an object stays as it is.
                let _ = PodObject::fixate(&mut out[at..at + extent]);
                at += extent;
            }
        }
        ["show"] => {
            out.clear();
            let mut left = input;
            while let Some(pod) = Pod::from_bytes(left) {
                list(pod, 0, &mut out);
                left = &left[pod.extent()..];
            }
            if !left.is_empty() {
                return refused(input.len() - left.len(), "Short");
            }
        }
        _ => return (2, Vec::new(), "usage: podtool rewrite|fixate|show\n".into()),
    }
    (0, out, String::new())
}

/// A line for the pod and for each inside it: the depth, the type number and the size.
fn list(pod: Pod<'_>, depth: usize, out: &mut Vec<u8>) {
    writeln!(out, "{depth} {} {}", pod.type_().as_raw(), pod.size()).expect("a vector takes it");
    if let Ok(it) = pod.as_struct() {
        it.fields().for_each(|field| list(field, depth + 1, out));
    } else if let Ok(it) = pod.as_object() {
        it.props().for_each(|property| list(property.value(), depth + 1, out));
    }
}

/// Compares the crate's answer with the program's. Whether it was accepted.
fn beside_podtool(program: &str, words: &[&str], input: &[u8]) -> bool {
    let wanted = podtool(program, words, input);
    assert_eq!(answer(words, input), wanted, "{words:?}");
    wanted.0 == 0
}

/// The bytes of decimal words; `-` is an input that nobody reads.
fn spelled(given: &str) -> Vec<u8> {
    given.split_whitespace().filter(|word| *word != "-").flat_map(|word| word.parse::<u32>().expect("a word").to_le_bytes()).collect()
}

/// The words and the input of a row.
fn row_of(row: &str) -> (Vec<&str>, Vec<u8>) {
    let mut parts = row.splitn(3, '|').skip(1);
    let words = parts.next().expect("words").split_whitespace();
    (words.map(|word| word.trim_matches('"')).collect(), spelled(parts.next().expect("an input")))
}

fn main() {
    let words: Vec<String> = args().skip(1).collect();
    let read = |files: &[String]| files.iter().map(|file| fs::read(file).expect(file)).collect::<Vec<_>>();
    match words.split_first() {
        Some((first, [program, files @ ..])) if first == "podtool" => {
            let files = read(files);
            let runs = files.iter().flat_map(|file| ["rewrite", "fixate", "show"].map(|word| (word, file)));
            let accepted = runs.filter(|(word, input)| beside_podtool(program, &[*word], input)).count();
            println!("{} runs, {accepted} of them accepted, beside podtool: no difference", 3 * files.len());
        }
        Some((first, [program, file])) if first == "rows" => {
            let text = fs::read_to_string(file).expect(file);
            let accepted = text.lines().map(row_of).filter(|(words, input)| beside_podtool(program, words, input)).count();
            println!("{} rows, {accepted} of them accepted, beside podtool: no difference", text.lines().count());
        }
        Some((seconds, [seed, files @ ..])) => {
            let seeds = read(files);
            for seed in &seeds {
                compare(seed);
            }
            changes(seconds.parse().expect("seconds"), seed.parse().expect("a seed"), &seeds);
        }
        _ => panic!("beside SECONDS SEED FILE.., beside podtool PODTOOL FILE.., or beside rows PODTOOL ROWS"),
    }
}
