//! Stands in for serde: those of its traits and methods that `spa-pod` and its tests name, as serde declares them. No line is serde's.
#![no_std]

pub mod ser {
    use core::fmt::Display;

    pub trait Error {
        fn custom<T: Display>(words: T) -> Self;
    }

    pub trait Serializer: Sized {
        type Ok;
        type Error: Error;
        fn serialize_bytes(self, bytes: &[u8]) -> Result<Self::Ok, Self::Error>;
    }

    pub trait Serialize {
        fn serialize<S: Serializer>(&self, to: S) -> Result<S::Ok, S::Error>;
    }
}

pub mod de {
    use core::fmt::{Display, Formatter, Result as Printed};

    pub trait Error: Sized {
        fn custom<T: Display>(words: T) -> Self;
    }

    pub trait Deserialize<'de>: Sized {
        fn deserialize<D: Deserializer<'de>>(from: D) -> Result<Self, D::Error>;
    }

    pub trait Deserializer<'de>: Sized {
        type Error: Error;
        fn deserialize_u8<V: Visitor<'de>>(self, visitor: V) -> Result<V::Value, Self::Error>;
        fn deserialize_bytes<V: Visitor<'de>>(self, visitor: V) -> Result<V::Value, Self::Error>;
    }

    /// What is expected, as words.
    struct Expected<V>(V);

    impl<'de, V: Visitor<'de>> Display for Expected<V> {
        fn fmt(&self, f: &mut Formatter<'_>) -> Printed {
            self.0.expecting(f)
        }
    }

    pub trait Visitor<'de>: Sized {
        type Value;
        fn expecting(&self, f: &mut Formatter<'_>) -> Printed;

        fn visit_u8<E: Error>(self, _: u8) -> Result<Self::Value, E> {
            Err(E::custom(format_args!("expected {}", Expected(self))))
        }

        fn visit_bytes<E: Error>(self, _: &[u8]) -> Result<Self::Value, E> {
            Err(E::custom(format_args!("expected {}", Expected(self))))
        }

        fn visit_seq<A: SeqAccess<'de>>(self, _: A) -> Result<Self::Value, A::Error> {
            Err(A::Error::custom(format_args!("expected {}", Expected(self))))
        }
    }

    pub trait SeqAccess<'de> {
        type Error: Error;
        fn next_element<T: Deserialize<'de>>(&mut self) -> Result<Option<T>, Self::Error>;
    }

    /// The visitor of a byte.
    struct Byte;

    impl Visitor<'_> for Byte {
        type Value = u8;

        fn expecting(&self, f: &mut Formatter<'_>) -> Printed {
            f.write_str("u8")
        }

        fn visit_u8<E: Error>(self, byte: u8) -> Result<u8, E> {
            Ok(byte)
        }
    }

    impl<'de> Deserialize<'de> for u8 {
        fn deserialize<D: Deserializer<'de>>(from: D) -> Result<u8, D::Error> {
            from.deserialize_u8(Byte)
        }
    }
}

pub use de::{Deserialize, Deserializer};
pub use ser::{Serialize, Serializer};
