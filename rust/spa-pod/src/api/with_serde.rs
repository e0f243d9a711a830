//! Values in serde's formats, behind the feature `serde`: as the bytes that they are written as.
use crate::pod::Value;
use crate::shims::memory::VecRoom;
use alloc::vec::Vec;
use core::fmt;
use serde::de::{Error as _, SeqAccess, Visitor};
use serde::ser::Error as _;
use serde::{Deserialize, Deserializer, Serialize, Serializer};

/// The bytes of its pod. Refused as [`write`](crate::write) refuses it.
#[cfg_attr(docsrs, doc(cfg(feature = "serde")))]
impl Serialize for Value {
    fn serialize<S: Serializer>(&self, to: S) -> Result<S::Ok, S::Error> {
        match crate::write(self) {
            Ok(bytes) => to.serialize_bytes(&bytes),
            Err(error) => Err(S::Error::custom(error)),
        }
    }
}

/// Read of bytes, or of a sequence of bytes, that are one pod of at most [`MOST_LEVELS`](crate::pod::MOST_LEVELS) levels.
#[cfg_attr(docsrs, doc(cfg(feature = "serde")))]
impl<'de> Deserialize<'de> for Value {
    fn deserialize<D: Deserializer<'de>>(from: D) -> Result<Value, D::Error> {
        from.deserialize_bytes(OnePod)
    }
}

/// Reads the value of one pod.
struct OnePod;

impl<'de> Visitor<'de> for OnePod {
    type Value = Value;

    fn expecting(&self, f: &mut fmt::Formatter<'_>) -> fmt::Result {
        f.write_str("the bytes of a pod")
    }

    fn visit_bytes<E: serde::de::Error>(self, bytes: &[u8]) -> Result<Value, E> {
        match crate::read(bytes) {
            Ok((value, taken)) if taken == bytes.len() => Ok(value),
            Ok((_, taken)) => Err(E::custom(format_args!("a pod ends at byte {taken} of {}", bytes.len()))),
            Err(error) => Err(E::custom(error)),
        }
    }

    fn visit_seq<A: SeqAccess<'de>>(self, mut given: A) -> Result<Value, A::Error> {
        let mut bytes = Vec::new();
        while let Some(byte) = given.next_element::<u8>()? {
            bytes.try_push(byte).map_err(A::Error::custom)?;
        }
        self.visit_bytes(&bytes)
    }
}
