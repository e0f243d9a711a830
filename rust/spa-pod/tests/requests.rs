//! How often calls ask for memory.
#![cfg(feature = "std")]
use spa_pod::filtering::filter_pods;
use spa_pod::negotiation::negotiate_pods;
use std::alloc::{GlobalAlloc, Layout, System};
use std::cell::Cell;

thread_local! {
    static REQUESTS: Cell<usize> = const { Cell::new(0) };
}

struct Counting;

fn count() {
    REQUESTS.set(REQUESTS.get() + 1);
}

unsafe impl GlobalAlloc for Counting {
    unsafe fn alloc(&self, layout: Layout) -> *mut u8 {
        count();
        unsafe { System.alloc(layout) }
    }

    unsafe fn dealloc(&self, at: *mut u8, layout: Layout) {
        unsafe { System.dealloc(at, layout) }
    }

    unsafe fn realloc(&self, at: *mut u8, layout: Layout, len: usize) -> *mut u8 {
        count();
        unsafe { System.realloc(at, layout, len) }
    }
}

#[global_allocator]
static ALLOCATOR: Counting = Counting;

/// How often a call asks for memory, and what it answers.
fn counted<T>(call: impl FnOnce() -> T) -> (usize, T) {
    let before = REQUESTS.get();
    let answer = call();
    (REQUESTS.get() - before, answer)
}

fn pod(type_: u32, body: &[u32]) -> Vec<u32> {
    let mut words = vec![4 * body.len() as u32, type_];
    words.extend(body);
    if body.len() % 2 > 0 {
        words.push(0);
    }
    words
}

/// An object of a format whose keys are 1, 2 and so on.
fn object(values: &[Vec<u32>]) -> Vec<u8> {
    let mut body = vec![0x40003, 3];
    for (value, key) in values.iter().zip(1..) {
        body.extend([key, 0]);
        body.extend(value);
    }
    pod(15, &body).iter().flat_map(|word| word.to_le_bytes()).collect()
}

fn int(number: u32) -> Vec<u32> {
    pod(4, &[number])
}

/// A choice of Ints: 1 is a Range, 2 a Step, 3 an Enum.
fn choice(shape: u32, numbers: &[u32]) -> Vec<u32> {
    let mut body = vec![shape, 0, 4, 4];
    body.extend(numbers);
    pod(19, &body)
}

/// Values that meet: plain ones, Ranges and Enums beside one another.
fn pairs() -> Vec<(Vec<u32>, Vec<u32>)> {
    let range = choice(1, &[48000, 1, 192000]);
    let few = choice(3, &[48000, 48000, 44100, 96000]);
    vec![
        (int(48000), int(48000)),
        (int(48000), range.clone()),
        (few.clone(), int(48000)),
        (range.clone(), choice(1, &[2000, 1000, 96000])),
        (few.clone(), range),
        (few, choice(3, &[96000, 96000, 48000])),
    ]
}

/// Steps, of which `negotiate_pods` knows no rules.
fn steps() -> Vec<(Vec<u32>, Vec<u32>)> {
    let step = choice(2, &[48000, 1000, 192000, 1000]);
    vec![(step.clone(), choice(3, &[48000, 48000, 44100, 96000])), (step, int(48000))]
}

/// Two objects of so many properties, whose values are of these pairs in turn.
fn objects(pairs: &[(Vec<u32>, Vec<u32>)], count: usize) -> (Vec<u8>, Vec<u8>) {
    let (ours, theirs): (Vec<_>, Vec<_>) = pairs.iter().cloned().cycle().take(count).unzip();
    (object(&ours), object(&theirs))
}

#[test]
fn sixteen_properties_take_memory_for_the_answer_alone() {
    for count in 1..=16 {
        let (a, b) = objects(&pairs(), count);
        let (asked, met) = counted(|| negotiate_pods(&a, &b));
        assert!(met.is_ok());
        assert_eq!(asked, 1, "negotiate_pods, {count} properties");
        let (a, b) = objects(&[pairs(), steps()].concat(), count);
        let (asked, filtered) = counted(|| filter_pods(&a, &b));
        assert!(filtered.is_ok());
        assert_eq!(asked, 1, "filter_pods, {count} properties");
    }
}

#[test]
fn refused_pairs_take_no_more() {
    let (mut ours, mut theirs): (Vec<_>, Vec<_>) = pairs().into_iter().unzip();
    ours.push(int(1));
    theirs.push(int(2));
    let (a, b) = (object(&ours), object(&theirs));
    let (asked, met) = counted(|| negotiate_pods(&a, &b));
    assert!(met.is_err() && asked <= 1);
    let (asked, filtered) = counted(|| filter_pods(&a, &b));
    assert!(filtered.is_err() && asked <= 1);
}
