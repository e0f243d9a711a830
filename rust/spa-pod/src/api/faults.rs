//! Where the first fault in a list of pods stands.
use super::errors::offset_in;
use crate::parts::spa_bodies::error_at;
use crate::parts::spa_canonical::Rejected;
use crate::parts::spa_rewrite::find_fault as first_fault;
use crate::pod::deserialize::DeserializeError;
use core::error::Error;
use core::fmt::{Display, Formatter, Result as Printed};

/// Why bytes are refused as pods one after another, and where.
#[derive(Debug, PartialEq)]
pub enum FoundFault {
    /// A fault stands in a pod.
    Fault {
        /// The byte at which that pod begins.
        pod: usize,
        /// The byte at which the malformed pod begins: that pod itself, or one inside of it.
        at: usize,
        /// The fault. `Short` and `Text` have the same byte.
        why: DeserializeError<usize>,
    },
    /// Memory ran out for the open containers of the pod that begins at this byte, in which more than 1000 structs and objects stand in one another; no
    /// fault stands before it.
    OutOfMemory(usize),
}

impl Display for FoundFault {
    fn fmt(&self, f: &mut Formatter<'_>) -> Printed {
        match self {
            FoundFault::Fault { pod, at, why } => write!(f, "{why}, at byte {at}, in the pod at byte {pod}"),
            FoundFault::OutOfMemory(pod) => write!(f, "memory ran out for the levels of the pod at byte {pod}"),
        }
    }
}

impl Error for FoundFault {}

/// Looks for the first fault in pods one after another: `Ok` where there is none. It takes memory only for a pod in which more than 1000 structs and
/// objects stand in one another, and calls itself nowhere.
///
/// The readers name the byte of a `Short` and of a `Text` alone. This names the byte of any fault:
///
/// ```
/// use spa_pod::pod::{FoundFault, deserialize::DeserializeError, find_fault};
///
/// // A struct of an Int of three bytes, and of an Int.
/// let words = [32u32, 14, 3, 4, 1, 0, 4, 4, 2, 0];
/// let bytes: Vec<u8> = words.iter().flat_map(|word| word.to_le_bytes()).collect();
/// assert_eq!(find_fault(&bytes), Err(FoundFault::Fault { pod: 0, at: 8, why: DeserializeError::WrongSize }));
/// ```
///
/// # Errors
/// The first fault; or [`OutOfMemory`](FoundFault::OutOfMemory), where it can't be looked for.
pub fn find_fault(pods: &[u8]) -> Result<(), FoundFault> {
    match first_fault(pods) {
        Ok(()) => Ok(()),
        Err((left, rejected)) => {
            let pod = offset_in(pods, left);
            match rejected {
                Rejected::TooDeep => Err(FoundFault::OutOfMemory(pod)),
                Rejected::Fault(place, at, why) => Err(FoundFault::Fault { pod, at: pod + at, why: error_at(place, why).placed_in(pods) }),
            }
        }
    }
}

#[cfg(all(test, feature = "std"))]
mod tests {
    use super::{FoundFault, find_fault};
    use crate::pod::deserialize::{DeserializeError, Fault, FaultKind, PodDeserializer};
    use alloc::vec::Vec;

    fn bytes(words: &[u32]) -> Vec<u8> {
        words.iter().flat_map(|word| word.to_le_bytes()).collect()
    }

    /// An Int; a struct of a struct of a malformed pod and an Int, with an Int behind it.
    fn inside(size: u32, type_: u32) -> Vec<u8> {
        bytes(&[4, 4, 5, 0, 56, 14, 32, 14, size, type_, 0x6161, 0, 4, 4, 1, 0, 4, 4, 7, 0])
    }

    #[test]
    fn the_byte_is_that_of_the_malformed_pod() {
        let at = |size, type_, why| {
            assert_eq!(find_fault(&inside(size, type_)), Err(FoundFault::Fault { pod: 16, at: 32, why }), "{size} {type_}");
        };
        at(3, 4, DeserializeError::WrongSize);
        at(2, 8, DeserializeError::Nom(Fault { input: 32, kind: FaultKind::Text }));
        at(4, 77, DeserializeError::InvalidType);
        at(200, 9, DeserializeError::Nom(Fault { input: 32, kind: FaultKind::Short }));
        assert_eq!(find_fault(&inside(4, 4)), Ok(()));
        assert_eq!(find_fault(&[]), Ok(()));
    }

    #[test]
    fn what_outlives_the_bytes_has_the_byte_of_the_malformed_pod() {
        let bytes = inside(2, 8);
        let (_, pod) = bytes.split_at(16);
        let error = PodDeserializer::deserialize_any_within(16, pod).map_err(|error| error.placed_in(pod)).map(|_| ());
        assert_eq!(error, Err(DeserializeError::Nom(Fault { input: 16, kind: FaultKind::Text })));
    }

    #[test]
    fn a_fault_is_found_at_any_depth() {
        let nested = |inner: &[u32]| {
            let mut pod = bytes(inner);
            for _ in 0..1100 {
                pod = [bytes(&[pod.len() as u32 + 16, 14]), pod, bytes(&[4, 4, 1, 0])].concat();
            }
            [bytes(&[0, 1]), pod].concat()
        };
        assert_eq!(find_fault(&nested(&[4, 4, 1, 0])), Ok(()));
        let fault = FoundFault::Fault { pod: 8, at: 8 + 8 * 1100, why: DeserializeError::WrongSize };
        assert_eq!(find_fault(&nested(&[3, 4, 1, 0])), Err(fault));
    }
}
