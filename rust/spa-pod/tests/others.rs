//! Other crates' types, for which stand the crates in rust/stand-ins. Those crates themselves are in rust/others.
#![cfg(all(feature = "arrayvec", feature = "serde"))]
use arrayvec::ArrayVec;
use serde::de::{Deserialize, Deserializer, SeqAccess, Visitor};
use serde::ser::{Serialize, Serializer};
use spa_pod::pod::serialize::{GenError, PodSerializer};
use spa_pod::pod::{MOST_LEVELS, Value};
use std::fmt::Display;

#[test]
fn an_array_of_arrayvec_is_an_output() {
    // A struct of an Int, whose size word is written behind its body.
    let (out, len) = PodSerializer::serialize(ArrayVec::<u8, 24>::new(), &Value::Struct(vec![Value::Int(7)])).unwrap();
    let words = [16_u32, 14, 4, 4, 7, 0];
    assert_eq!(out.to_vec(), words.iter().flat_map(|word| word.to_le_bytes()).collect::<Vec<u8>>());
    assert_eq!(len, 24);
    let full = PodSerializer::serialize(ArrayVec::<u8, 24>::new(), &Value::Struct(vec![Value::Int(7), Value::None]));
    assert_eq!(full.err(), Some(GenError::Full));
}

/// What a format says of a fault.
#[derive(Debug, PartialEq)]
struct Fault(String);

impl serde::ser::Error for Fault {
    fn custom<T: Display>(words: T) -> Fault {
        Fault(words.to_string())
    }
}

impl serde::de::Error for Fault {
    fn custom<T: Display>(words: T) -> Fault {
        Fault(words.to_string())
    }
}

/// A format that has bytes as they are.
struct Plain<'a>(&'a mut Vec<u8>);

impl Serializer for Plain<'_> {
    type Ok = ();
    type Error = Fault;

    fn serialize_bytes(self, bytes: &[u8]) -> Result<(), Fault> {
        self.0.extend(bytes);
        Ok(())
    }
}

impl<'de> Deserializer<'de> for Plain<'de> {
    type Error = Fault;

    fn deserialize_u8<V: Visitor<'de>>(self, visitor: V) -> Result<V::Value, Fault> {
        visitor.visit_u8(self.0.remove(0))
    }

    fn deserialize_bytes<V: Visitor<'de>>(self, visitor: V) -> Result<V::Value, Fault> {
        visitor.visit_bytes(self.0)
    }
}

/// A format that has no bytes, but sequences of numbers, as JSON.
struct Numbers<'a>(std::slice::Iter<'a, u8>);

impl<'de> Deserializer<'de> for Numbers<'de> {
    type Error = Fault;

    fn deserialize_u8<V: Visitor<'de>>(mut self, visitor: V) -> Result<V::Value, Fault> {
        visitor.visit_u8(*self.0.next().expect("a number"))
    }

    fn deserialize_bytes<V: Visitor<'de>>(self, visitor: V) -> Result<V::Value, Fault> {
        visitor.visit_seq(self)
    }
}

impl<'de> SeqAccess<'de> for Numbers<'de> {
    type Error = Fault;

    fn next_element<T: Deserialize<'de>>(&mut self) -> Result<Option<T>, Fault> {
        if self.0.as_slice().is_empty() {
            return Ok(None);
        }
        let number = T::deserialize(Numbers(self.0.clone()))?;
        self.0.next();
        Ok(Some(number))
    }
}

/// What serde's trait makes of these bytes, as bytes and as numbers.
fn both(bytes: &[u8]) -> [Result<Value, Fault>; 2] {
    [Value::deserialize(Plain(&mut bytes.to_vec())), Value::deserialize(Numbers(bytes.iter()))]
}

#[test]
fn a_value_is_carried_as_its_bytes() {
    let mut bytes = Vec::new();
    Value::Int(313).serialize(Plain(&mut bytes)).unwrap();
    assert_eq!(bytes, [4, 0, 0, 0, 4, 0, 0, 0, 57, 1, 0, 0, 0, 0, 0, 0]);
    assert_eq!(both(&bytes), [Ok(Value::Int(313)), Ok(Value::Int(313))]);
    let refused = |words: &str| [Err(Fault(words.into())), Err(Fault(words.into()))];
    assert_eq!(both(&bytes[..2]), refused("the bytes are cut short, at byte 0"));
    bytes.push(0);
    assert_eq!(both(&bytes), refused("a pod ends at byte 16 of 17"));
    let unwritten = Value::from("a\0").serialize(Plain(&mut Vec::new()));
    assert_eq!(unwritten, Err(Fault("NulInText".into())));
}

#[test]
fn values_are_carried_to_the_limit_of_depth() {
    let mut value = Value::Struct(Vec::new());
    for _ in 1..MOST_LEVELS {
        value = Value::Struct(vec![value]);
    }
    let mut bytes = Vec::new();
    value.serialize(Plain(&mut bytes)).unwrap();
    assert_eq!(both(&bytes), [Ok(value.clone()), Ok(value.clone())]);
    bytes.clear();
    Value::Struct(vec![value]).serialize(Plain(&mut bytes)).unwrap();
    assert!(both(&bytes).iter().all(Result::is_err));
}
