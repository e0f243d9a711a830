//! The proved library on the same bytes.
use spa_pod::filtering::{FilterError, filter_pods};
use spa_pod::negotiation::{NegotiateError, negotiate_pods};
use spa_pod::pod::{Pod, PodObject, is_canonical, nests_within};

const EINVAL: i32 = -22;

unsafe extern "C" {
    fn spav_rewrite(input: *const u8, n: usize, out: *mut u8, cap: usize, written: *mut usize, at: *mut usize) -> i32;
    fn spav_is_canonical(input: *const u8, n: usize, canonical: *mut bool) -> i32;
    fn spav_nests_within(input: *const u8, n: usize, levels: u32, within: *mut bool) -> i32;
    fn spav_fixate(pod: *mut u8, n: usize) -> i32;
    fn spav_negotiate(a: *const u8, n: usize, b: *const u8, m: usize, out: *mut u8, cap: usize, written: *mut usize, told: *mut u32) -> i32;
    fn spav_filter(a: *const u8, n: usize, b: *const u8, m: usize, out: *mut u8, cap: usize, written: *mut usize, told: *mut u32) -> i32;
}

/// An answer by its number, as capi/spav.h says, and the key or the side.
fn said(error: NegotiateError) -> (i32, u32) {
    match error {
        NegotiateError::TypeMismatch => (-71, 0),
        NegotiateError::Unsupported(key) => (-95, key),
        NegotiateError::Disjoint(key) => (-61, key),
        NegotiateError::Unread(side) | NegotiateError::NotObject(side) => (EINVAL, side as u32),
        NegotiateError::TooLarge => (-75, 0),
        NegotiateError::OutOfMemory => (-12, 0),
    }
}

fn said_of_filter(error: FilterError) -> (i32, u32) {
    match error {
        FilterError::TypeMismatch => (-71, 0),
        FilterError::Missing(key) => (-2, key),
        FilterError::Unsupported(key) => (-95, key),
        FilterError::Disjoint(key) => (-61, key),
        FilterError::Unread(side) | FilterError::NotObject(side) => (EINVAL, side as u32),
        FilterError::TooLarge => (-75, 0),
        FilterError::OutOfMemory => (-12, 0),
    }
}

type Joining = unsafe extern "C" fn(*const u8, usize, *const u8, usize, *mut u8, usize, *mut usize, *mut u32) -> i32;

fn joined(call: Joining, a: &[u8], b: &[u8]) -> Result<Vec<u8>, (i32, u32)> {
    let mut out = vec![0; 2 * (a.len() + b.len()) + 64];
    let (mut written, mut told) = (0, 0);
    let answer = unsafe { call(a.as_ptr(), a.len(), b.as_ptr(), b.len(), out.as_mut_ptr(), out.len(), &mut written, &mut told) };
    if answer == 0 {
        out.truncate(written);
        Ok(out)
    } else {
        Err((answer, if matches!(answer, -71 | -75 | -12) { 0 } else { told }))
    }
}

pub fn compare(input: &[u8], wanted: &Option<Vec<u8>>) {
    let (mut out, mut written, mut at) = (vec![0; input.len() + 8], 0, 0);
    let answer = unsafe { spav_rewrite(input.as_ptr(), input.len(), out.as_mut_ptr(), input.len(), &mut written, &mut at) };
    match wanted {
        Some(wanted) => assert_eq!((answer, &out[..written]), (0, &wanted[..])),
        None => assert_eq!(answer, EINVAL),
    }
    let mut own = false;
    assert_eq!(unsafe { spav_is_canonical(input.as_ptr(), input.len(), &mut own) }, 0);
    assert_eq!(is_canonical(input), Ok(own));
    for levels in [0, 1, 2, 5, 50] {
        let mut within = false;
        assert_eq!(unsafe { spav_nests_within(input.as_ptr(), input.len(), levels, &mut within) }, 0);
        assert_eq!(nests_within(input, levels), within);
    }
    let (mut ours, mut theirs) = (input.to_vec(), input.to_vec());
    let answer = unsafe { spav_fixate(theirs.as_mut_ptr(), theirs.len()) };
    assert_eq!((PodObject::fixate(&mut ours).is_ok(), ours), (answer == 0, theirs));
    let whole = Pod::from_bytes(input).map_or(0, |pod| 8 + (pod.size() as usize).next_multiple_of(8));
    let behind = if whole < input.len() { &input[whole..] } else { input };
    for (a, b) in [(input, behind), (behind, input)] {
        assert_eq!(negotiate_pods(a, b).map_err(said), joined(spav_negotiate, a, b));
        assert_eq!(filter_pods(a, b).map_err(said_of_filter), joined(spav_filter, a, b));
    }
}
