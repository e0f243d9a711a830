//! The shapes of libspa 0.10 where this crate has others: values over Rust's floats, outputs that are `Write + Seek`, and visitors with a call
//! for each kind of content. Each is a conversion around this crate's own; pointers are numbers.
//!
//! ```
//! use spa_pod::compat::{PodDeserializer, PodSerializer, Value};
//! use std::io::Cursor;
//!
//! let value = Value::Struct(vec![Value::Float(440.0), Value::Int(3)]);
//! let bytes = PodSerializer::serialize(Cursor::new(Vec::new()), &value)?.0.into_inner();
//! assert_eq!(bytes[8..20], [4, 0, 0, 0, 6, 0, 0, 0, 0, 0, 0xdc, 0x43]);
//! let (rest, again) = PodDeserializer::deserialize_any_from(&bytes).map_err(|error| error.placed_in(&bytes))?;
//! assert!(rest.is_empty() && again == value);
//! # Ok::<(), Box<dyn std::error::Error>>(())
//! ```
#![doc = include_str!("../../PIPEWIRE.md")]
use crate::pod;
use crate::pod::PropertyFlags;
use crate::pod::deserialize::{DeserializeError, ObjectPodDeserializer, StructPodDeserializer, Visit};
use crate::pod::serialize::{GenError, PodOutput, PodSerialize, SerializeAs};
use crate::utils::{Choice, ChoiceEnum, Fd, Fraction, Id, Rectangle};
use alloc::string::String;
use alloc::vec::Vec;
use std::io::{Seek, Write};

/// Lists and choices over one type, over another.
trait Converted<T> {
    fn converted(self) -> T;
}

impl<T: From<U>, U> Converted<Vec<T>> for Vec<U> {
    fn converted(self) -> Vec<T> {
        self.into_iter().map(T::from).collect()
    }
}

impl<T: From<U>, U> Converted<Choice<T>> for Choice<U> {
    fn converted(self) -> Choice<T> {
        let Choice(flags, values) = self;
        let values = match values {
            ChoiceEnum::None(value) => ChoiceEnum::None(value.into()),
            ChoiceEnum::Range { default, min, max } => ChoiceEnum::Range { default: default.into(), min: min.into(), max: max.into() },
            ChoiceEnum::Step { default, min, max, step } => {
                ChoiceEnum::Step { default: default.into(), min: min.into(), max: max.into(), step: step.into() }
            }
            ChoiceEnum::Enum { default, alternatives } => ChoiceEnum::Enum { default: default.into(), alternatives: alternatives.converted() },
            ChoiceEnum::Flags { default, flags } => ChoiceEnum::Flags { default: default.into(), flags: flags.converted() },
        };
        Choice(flags, values)
    }
}

/// An enum, and conversions from this crate's own of the same name and into it, variant by variant.
macro_rules! counterpart {
    ($(#[$about:meta])* $name:ident { $($(#[$of:meta])* $variant:ident $(($($field:ident: $type_:ty),+) $by:ident)?;)* }) => {
        $(#[$about])*
        #[derive(Clone, Debug, PartialEq)]
        pub enum $name {
            $($(#[$of])* $variant $(($($type_),+))?,)*
        }

        impl From<pod::$name> for $name {
            fn from(value: pod::$name) -> $name {
                match value {
                    $(pod::$name::$variant $(($($field),+))? => $name::$variant $(($($field.$by()),+))?,)*
                }
            }
        }

        impl From<$name> for pod::$name {
            fn from(value: $name) -> pod::$name {
                match value {
                    $($name::$variant $(($($field),+))? => pod::$name::$variant $(($($field.$by()),+))?,)*
                }
            }
        }
    };
}

counterpart! {
    /// Any value that a pod can say, with Rust's floats.
    Value {
        /// No value.
        None;
        /// A truth value.
        Bool(x: bool) into;
        /// An id.
        Id(x: Id) into;
        /// A signed number of 32 bits.
        Int(x: i32) into;
        /// A signed number of 64 bits.
        Long(x: i64) into;
        /// A float of 32 bits.
        Float(x: f32) into;
        /// A float of 64 bits.
        Double(x: f64) into;
        /// A text.
        String(x: String) into;
        /// Any bytes.
        Bytes(x: Vec<u8>) into;
        /// The bytes of a bitmap, which libspa 0.10 refuses.
        Bitmap(x: Vec<u8>) into;
        /// A width and a height.
        Rectangle(x: Rectangle) into;
        /// A numerator and a denominator.
        Fraction(x: Fraction) into;
        /// A file descriptor's index.
        Fd(x: Fd) into;
        /// Elements of one type of fixed size.
        ValueArray(x: ValueArray) into;
        /// Members, of any types.
        Struct(x: Vec<Value>) converted;
        /// Properties, under a type and an id.
        Object(x: Object) into;
        /// A default, and the values that may be taken in its place.
        Choice(x: ChoiceValue) into;
        /// A type number and an address, which is another process's.
        Pointer(type_: u32, address: u64) into;
    }
}

counterpart! {
    /// Elements of one of the ten types of fixed size.
    ValueArray {
        /// Elements without bytes.
        None(x: Vec<()>) into;
        /// Truth values.
        Bool(x: Vec<bool>) into;
        /// Ids.
        Id(x: Vec<Id>) into;
        /// Signed numbers of 32 bits.
        Int(x: Vec<i32>) into;
        /// Signed numbers of 64 bits.
        Long(x: Vec<i64>) into;
        /// Floats of 32 bits.
        Float(x: Vec<f32>) converted;
        /// Floats of 64 bits.
        Double(x: Vec<f64>) converted;
        /// Rectangles.
        Rectangle(x: Vec<Rectangle>) into;
        /// Fractions.
        Fraction(x: Vec<Fraction>) into;
        /// Indices of file descriptors.
        Fd(x: Vec<Fd>) into;
    }
}

counterpart! {
    /// A choice over one of the nine types of fixed size that have bytes.
    ChoiceValue {
        /// Over truth values.
        Bool(x: Choice<bool>) into;
        /// Over ids.
        Id(x: Choice<Id>) into;
        /// Over signed numbers of 32 bits.
        Int(x: Choice<i32>) into;
        /// Over signed numbers of 64 bits.
        Long(x: Choice<i64>) into;
        /// Over floats of 32 bits.
        Float(x: Choice<f32>) converted;
        /// Over floats of 64 bits.
        Double(x: Choice<f64>) converted;
        /// Over rectangles.
        Rectangle(x: Choice<Rectangle>) into;
        /// Over fractions.
        Fraction(x: Choice<Fraction>) into;
        /// Over indices of file descriptors.
        Fd(x: Choice<Fd>) into;
    }
}

/// A struct, and conversions from this crate's own of the same name and into it, field by field.
macro_rules! counterpart_of_fields {
    ($(#[$about:meta])* $name:ident { $($(#[$of:meta])* $field:ident: $type_:ty, $by:ident;)* }) => {
        $(#[$about])*
        #[derive(Clone, Debug, PartialEq)]
        pub struct $name {
            $($(#[$of])* pub $field: $type_,)*
        }

        impl From<pod::$name> for $name {
            fn from(value: pod::$name) -> $name {
                $name { $($field: value.$field.$by()),* }
            }
        }

        impl From<$name> for pod::$name {
            fn from(value: $name) -> pod::$name {
                pod::$name { $($field: value.$field.$by()),* }
            }
        }
    };
}

counterpart_of_fields! {
    /// An object: a type, an id, and properties in order.
    Object {
        /// The object's type.
        type_: u32, into;
        /// The object's id.
        id: u32, into;
        /// The properties in order.
        properties: Vec<Property>, converted;
    }
}

counterpart_of_fields! {
    /// A property of an object: a key, flags and a value.
    Property {
        /// The key.
        key: u32, into;
        /// The flags.
        flags: PropertyFlags, into;
        /// The value.
        value: Value, into;
    }
}

impl SerializeAs for Value {
    fn write_as<O: PodOutput>(&self, out: &mut O) -> Result<(), GenError> {
        pod::Value::from(self.clone()).write_as(out)
    }
}

/// Writes one pod to an output of libspa's kind.
#[derive(Debug)]
pub struct PodSerializer;

impl PodSerializer {
    /// Writes a value at the output's place, and answers the output and the length of what was written. It is put together in memory first.
    ///
    /// # Errors
    /// Those of the type, and `Io` where the output answers an error.
    pub fn serialize<O: Write + Seek, P: PodSerialize>(mut out: O, pod: &P) -> Result<(O, u64), GenError> {
        let (bytes, len) = pod::serialize::PodSerializer::serialize(Vec::new(), pod)?;
        out.write_all(&bytes).map_err(|_| GenError::Io)?;
        Ok((out, len))
    }
}

/// Reads one pod.
#[derive(Debug)]
pub struct PodDeserializer;

impl PodDeserializer {
    /// Reads the pod at the front of the input, of any type.
    ///
    /// # Errors
    /// Those of [`deserialize_any_from`](pod::deserialize::PodDeserializer::deserialize_any_from).
    pub fn deserialize_any_from(input: &[u8]) -> Result<(&[u8], Value), DeserializeError<&[u8]>> {
        let (rest, value) = pod::deserialize::PodDeserializer::deserialize_any_from(input)?;
        Ok((rest, value.into()))
    }
}

/// The calls of a visitor, each of which declines what it is handed until a visitor has one of its own.
macro_rules! visits {
    ($($name:ident($($given:ident: $type_:ty),*);)*) => {
        /// Makes a value of the pod that a typed read finds, by a call for each kind of content. [`By`] hands it to this crate's reads.
        #[allow(clippy::missing_errors_doc)]
        pub trait Visitor<'de>: Sized {
            /// The type of the values that the visitor makes.
            type Value;
            /// The element type of the arrays that the visitor takes.
            type ArrayElem;

            $(
                /// Makes a value of what the name says, or declines it.
                fn $name(&self, $($given: $type_),*) -> Result<Self::Value, DeserializeError<&'de [u8]>> {
                    $(let _ = $given;)*
                    Err(DeserializeError::UnsupportedType)
                }
            )*
        }
    };
}

visits! {
    visit_none();
    visit_bool(given: bool);
    visit_int(given: i32);
    visit_long(given: i64);
    visit_float(given: f32);
    visit_double(given: f64);
    visit_string(given: &'de str);
    visit_bytes(given: &'de [u8]);
    visit_bitmap(given: &'de [u8]);
    visit_rectangle(given: Rectangle);
    visit_fraction(given: Fraction);
    visit_id(given: Id);
    visit_fd(given: Fd);
    visit_array(given: Vec<Self::ArrayElem>);
    visit_struct(given: &mut StructPodDeserializer<'de>);
    visit_object(given: &mut ObjectPodDeserializer<'de>);
    visit_choice_bool(given: Choice<bool>);
    visit_choice_i32(given: Choice<i32>);
    visit_choice_i64(given: Choice<i64>);
    visit_choice_f32(given: Choice<f32>);
    visit_choice_f64(given: Choice<f64>);
    visit_choice_id(given: Choice<Id>);
    visit_choice_rectangle(given: Choice<Rectangle>);
    visit_choice_fraction(given: Choice<Fraction>);
    visit_choice_fd(given: Choice<Fd>);
    visit_pointer(type_: u32, address: u64);
}

/// A visitor with a call for each kind of content, as one of this crate's own: `deserializer.deserialize_struct(By(visitor))`.
#[derive(Clone, Copy, Debug)]
pub struct By<V>(pub V);

impl<'de, V: Visitor<'de>> pod::deserialize::Visitor<'de> for By<V> {
    type Value = V::Value;
    type ArrayElem = V::ArrayElem;

    fn visit(&self, given: Visit<'de, V::ArrayElem>) -> Result<V::Value, DeserializeError<&'de [u8]>> {
        match given {
            Visit::None => self.0.visit_none(),
            Visit::Bool(x) => self.0.visit_bool(x),
            Visit::Int(x) => self.0.visit_int(x),
            Visit::Long(x) => self.0.visit_long(x),
            Visit::Float(x) => self.0.visit_float(x.into()),
            Visit::Double(x) => self.0.visit_double(x.into()),
            Visit::String(x) => self.0.visit_string(x),
            Visit::Bytes(x) => self.0.visit_bytes(x),
            Visit::Bitmap(x) => self.0.visit_bitmap(x),
            Visit::Rectangle(x) => self.0.visit_rectangle(x),
            Visit::Fraction(x) => self.0.visit_fraction(x),
            Visit::Id(x) => self.0.visit_id(x),
            Visit::Fd(x) => self.0.visit_fd(x),
            Visit::Array(x) => self.0.visit_array(x),
            Visit::Pointer(type_, address) => self.0.visit_pointer(type_, address),
            Visit::Choice(choice) => match choice.into() {
                ChoiceValue::Bool(x) => self.0.visit_choice_bool(x),
                ChoiceValue::Id(x) => self.0.visit_choice_id(x),
                ChoiceValue::Int(x) => self.0.visit_choice_i32(x),
                ChoiceValue::Long(x) => self.0.visit_choice_i64(x),
                ChoiceValue::Float(x) => self.0.visit_choice_f32(x),
                ChoiceValue::Double(x) => self.0.visit_choice_f64(x),
                ChoiceValue::Rectangle(x) => self.0.visit_choice_rectangle(x),
                ChoiceValue::Fraction(x) => self.0.visit_choice_fraction(x),
                ChoiceValue::Fd(x) => self.0.visit_choice_fd(x),
            },
        }
    }

    fn visit_struct(&self, reader: &mut StructPodDeserializer<'de>) -> Result<V::Value, DeserializeError<&'de [u8]>> {
        self.0.visit_struct(reader)
    }

    fn visit_object(&self, reader: &mut ObjectPodDeserializer<'de>) -> Result<V::Value, DeserializeError<&'de [u8]>> {
        self.0.visit_object(reader)
    }
}
