//! `refuse FILE..`: refuses each request of memory in turn, of each work on each file: the answer is the one of a run with memory, or want of
//! memory, and never the end of the process.
use spa_pod::filtering::{FilterError, filter_pods};
use spa_pod::negotiation::{NegotiateError, negotiate_pods};
use spa_pod::pod::builder::{Builder, builder_add};
use spa_pod::pod::deserialize::{DeserializeError, PodDeserializer};
use spa_pod::pod::parser::Parser;
use spa_pod::pod::serialize::{GenError, PodSerializer};
use spa_pod::pod::{Held, is_canonical, rewrite, rewrite_all, rewrite_in_place, try_same};
use spa_pod::TryClone;
use spa_pod::utils::{Errno, Id};
use std::alloc::{GlobalAlloc, Layout, System};
use std::sync::atomic::{AtomicI64, Ordering::Relaxed};

/// How many requests are still granted; below 0: all.
static GRANTED: AtomicI64 = AtomicI64::new(-1);
/// How many were refused.
static REFUSED: AtomicI64 = AtomicI64::new(0);

struct Refusing;

impl Refusing {
    fn grants(&self) -> bool {
        match GRANTED.load(Relaxed) {
            0 => {
                GRANTED.store(-1, Relaxed);
                REFUSED.fetch_add(1, Relaxed);
                false
            }
            left => {
                GRANTED.store(left.max(0) - 1, Relaxed);
                true
            }
        }
    }
}

unsafe impl GlobalAlloc for Refusing {
    unsafe fn alloc(&self, layout: Layout) -> *mut u8 {
        if self.grants() { unsafe { System.alloc(layout) } } else { std::ptr::null_mut() }
    }

    unsafe fn dealloc(&self, at: *mut u8, layout: Layout) {
        unsafe { System.dealloc(at, layout) }
    }

    unsafe fn realloc(&self, at: *mut u8, layout: Layout, len: usize) -> *mut u8 {
        if self.grants() { unsafe { System.realloc(at, layout, len) } } else { std::ptr::null_mut() }
    }
}

#[global_allocator]
static ALLOCATOR: Refusing = Refusing;

/// What a work came to: bytes, a refusal, or want of memory.
type Answer = Result<Vec<u8>, Refusal>;

#[derive(Clone, Copy, Debug, PartialEq)]
enum Refusal {
    Memory,
    Other,
}

impl<I> From<DeserializeError<I>> for Refusal {
    fn from(error: DeserializeError<I>) -> Refusal {
        if matches!(error, DeserializeError::OutOfMemory) { Refusal::Memory } else { Refusal::Other }
    }
}

impl From<GenError> for Refusal {
    fn from(error: GenError) -> Refusal {
        if error == GenError::OutOfMemory { Refusal::Memory } else { Refusal::Other }
    }
}

impl From<Errno> for Refusal {
    fn from(error: Errno) -> Refusal {
        if error == Errno::NOMEM { Refusal::Memory } else { Refusal::Other }
    }
}

impl From<spa_pod::AllocError> for Refusal {
    fn from(_: spa_pod::AllocError) -> Refusal {
        Refusal::Memory
    }
}

fn read_and_written(input: &[u8]) -> Answer {
    let (_, value) = PodDeserializer::deserialize_any_from_unbounded(input)?;
    let held = Held::from(value);
    let copy = Held::from(held.try_clone()?);
    if !try_same(&held, &copy)? {
        return Err(Refusal::Other);
    }
    Ok(PodSerializer::serialize(Vec::new(), &*copy)?.0)
}

fn built(input: &[u8]) -> Answer {
    let mut builder = Builder::new(Vec::new());
    let name = "a name";
    builder_add!(builder, Object(262147, 4) { 1 => Id(Id(2)), 2 => String(name), 3 => Struct { Int(1), Struct { Int(2) } } })?;
    let mut parser = Parser::new(input);
    while parser.get_pod().is_ok() {}
    Ok(builder.into_inner())
}

const WORKS: &[(&str, fn(&[u8]) -> Answer)] = &[
    ("rewrite", |input| Ok(rewrite(input)?.1)),
    ("rewrite_all", |input| {
        let mut out = Vec::new();
        match rewrite_all(input, &mut out) {
            Ok(()) => Ok(out),
            Err((_, why)) => Err(why.into()),
        }
    }),
    ("rewrite_in_place", |input| {
        let mut bytes = Vec::new();
        bytes.try_reserve(input.len()).map_err(|_| Refusal::Memory)?;
        bytes.extend_from_slice(input);
        match rewrite_in_place(&mut bytes) {
            Ok(len) => {
                bytes.truncate(len);
                Ok(bytes)
            }
            Err((_, why)) => Err(why.into()),
        }
    }),
    ("is_canonical", |input| is_canonical(input).map(|_| Vec::new()).map_err(|_| Refusal::Memory)),
    ("read and written", read_and_written),
    ("built and parsed", built),
    ("negotiated", |input| match negotiate_pods(input, input) {
        Ok(met) => Ok(met),
        Err(NegotiateError::OutOfMemory) => Err(Refusal::Memory),
        Err(_) => Err(Refusal::Other),
    }),
    ("filtered", |input| match filter_pods(input, input) {
        Ok(met) => Ok(met),
        Err(FilterError::OutOfMemory) => Err(Refusal::Memory),
        Err(_) => Err(Refusal::Other),
    }),
];

fn main() {
    let files: Vec<Vec<u8>> = std::env::args().skip(1).map(|file| std::fs::read(file).expect("the file")).collect();
    let (mut runs, mut wants) = (0, 0);
    for (name, work) in WORKS {
        for input in &files {
            let wanted = work(input);
            for granted in 0.. {
                let refused = REFUSED.load(Relaxed);
                GRANTED.store(granted, Relaxed);
                let answer = work(input);
                GRANTED.store(-1, Relaxed);
                runs += 1;
                if answer == Err(Refusal::Memory) {
                    wants += 1;
                } else {
                    assert_eq!(answer, wanted, "{name}");
                }
                if REFUSED.load(Relaxed) == refused {
                    break;
                }
            }
        }
    }
    println!("{runs} runs, {} requests refused: {wants} ended for want of memory, the others as with memory", REFUSED.load(Relaxed));
}
