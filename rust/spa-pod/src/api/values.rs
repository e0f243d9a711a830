//! Values made of Rust's own, looked into by their types, and changed by their keys.
use super::clones::with_memory;
use crate::parts::spa_value::same as try_same;
use crate::pod::{Bitmap, ChoiceValue, Object, Property, Value, ValueArray};
use crate::shims::memory::{Text, VecRoom};
use crate::utils::{Choice, Fd, Float32, Float64, Fraction, Id, Rectangle, SpaTypes};
use alloc::string::String;
use alloc::vec::{IntoIter, Vec};
use core::error::Error;
use core::fmt::{Display, Formatter, Result as Printed};
use core::slice;

/// A value is of another type than the one asked for.
#[derive(Clone, Copy, Debug, PartialEq, Eq, Hash)]
#[non_exhaustive]
pub struct WrongType {
    /// The type asked for.
    pub wanted: SpaTypes,
    /// The value's type.
    pub found: SpaTypes,
}

impl Display for WrongType {
    fn fmt(&self, f: &mut Formatter<'_>) -> Printed {
        write!(f, "the value is of type {}, and not {}", name_of(self.found), name_of(self.wanted))
    }
}

impl Error for WrongType {}

/// The name of a type that values have.
fn name_of(type_: SpaTypes) -> &'static str {
    const NAMES: [&str; 19] = [
        "None", "Bool", "Id", "Int", "Long", "Float", "Double", "String", "Bytes", "Rectangle", "Fraction", "Bitmap", "Array", "Struct", "Object",
        "Sequence", "Pointer", "Fd", "Choice",
    ];
    NAMES.get(type_.as_raw().wrapping_sub(1) as usize).copied().unwrap_or("none")
}

impl Value {
    /// The type of the pod that the value is written as.
    #[must_use]
    pub const fn type_(&self) -> SpaTypes {
        match self {
            Value::None => SpaTypes::None,
            Value::Bool(_) => SpaTypes::Bool,
            Value::Id(_) => SpaTypes::Id,
            Value::Int(_) => SpaTypes::Int,
            Value::Long(_) => SpaTypes::Long,
            Value::Float(_) => SpaTypes::Float,
            Value::Double(_) => SpaTypes::Double,
            Value::String(_) => SpaTypes::String,
            Value::Bytes(_) => SpaTypes::Bytes,
            Value::Bitmap(_) => SpaTypes::Bitmap,
            Value::Rectangle(_) => SpaTypes::Rectangle,
            Value::Fraction(_) => SpaTypes::Fraction,
            Value::Fd(_) => SpaTypes::Fd,
            Value::ValueArray(_) => SpaTypes::Array,
            Value::Struct(_) => SpaTypes::Struct,
            Value::Object(_) => SpaTypes::Object,
            Value::Choice(_) => SpaTypes::Choice,
            Value::Pointer(..) => SpaTypes::Pointer,
        }
    }

    /// The text. None: it is no String.
    #[must_use]
    pub fn as_str(&self) -> Option<&str> {
        match self {
            Value::String(text) => Some(text),
            _ => None,
        }
    }

    /// The bytes. None: it is no Bytes.
    #[must_use]
    pub fn as_bytes(&self) -> Option<&[u8]> {
        match self {
            Value::Bytes(bytes) => Some(bytes),
            _ => None,
        }
    }

    /// The bytes of a bitmap. None: it is no Bitmap.
    #[must_use]
    pub fn as_bitmap(&self) -> Option<&[u8]> {
        match self {
            Value::Bitmap(bytes) => Some(bytes),
            _ => None,
        }
    }

    /// The type number and the address. None: it is no Pointer.
    #[must_use]
    pub fn as_pointer(&self) -> Option<(u32, u64)> {
        match self {
            Value::Pointer(type_, address) => Some((*type_, *address)),
            _ => None,
        }
    }
}

/// Looks into values of one variant.
macro_rules! looked_into {
    (copied: $($name:ident($variant:ident) -> $type:ty, $words:literal;)*) => { impl Value { $(
        #[doc = $words]
        #[must_use]
        pub fn $name(&self) -> Option<$type> {
            match self {
                Value::$variant(content) => Some((*content).into()),
                _ => None,
            }
        }
    )* } };
    (borrowed: $($name:ident, $name_mut:ident($variant:ident) -> $type:ty, $words:literal;)*) => { impl Value { $(
        #[doc = $words]
        #[must_use]
        pub fn $name(&self) -> Option<&$type> {
            match self {
                Value::$variant(content) => Some(content),
                _ => None,
            }
        }

        #[doc = $words]
        #[must_use]
        pub fn $name_mut(&mut self) -> Option<&mut $type> {
            match self {
                Value::$variant(content) => Some(content),
                _ => None,
            }
        }
    )* } };
}

looked_into! { copied:
    as_bool(Bool) -> bool, "The truth value. None: it is no Bool.";
    as_id(Id) -> Id, "The id. None: it is no Id.";
    as_int(Int) -> i32, "The number. None: it is no Int.";
    as_long(Long) -> i64, "The number. None: it is no Long.";
    as_float(Float) -> f32, "The number. None: it is no Float.";
    as_double(Double) -> f64, "The number. None: it is no Double.";
    as_rectangle(Rectangle) -> Rectangle, "The rectangle. None: it is no Rectangle.";
    as_fraction(Fraction) -> Fraction, "The fraction. None: it is no Fraction.";
    as_fd(Fd) -> Fd, "The file descriptor's index. None: it is no Fd.";
}

looked_into! { borrowed:
    as_array, as_array_mut(ValueArray) -> ValueArray, "The elements. None: it is no Array.";
    as_struct, as_struct_mut(Struct) -> Vec<Value>, "The members. None: it is no Struct.";
    as_object, as_object_mut(Object) -> Object, "The object. None: it is no Object.";
    as_choice, as_choice_mut(Choice) -> ChoiceValue, "The choice. None: it is no Choice.";
}

/// Values of what a variant holds, and what it holds taken out of a value of that variant.
macro_rules! held {
    ($($variant:ident($type:ty)),*) => { $(
        impl From<$type> for Value {
            fn from(content: $type) -> Value {
                Value::$variant(content.into())
            }
        }

        /// What a value of this type holds.
        impl TryFrom<Value> for $type {
            type Error = WrongType;

            fn try_from(value: Value) -> Result<$type, WrongType> {
                match value {
                    Value::$variant(content) => Ok(content.into()),
                    other => Err(WrongType { wanted: SpaTypes::$variant, found: other.type_() }),
                }
            }
        }
    )* };
}

held!(
    Bool(bool), Id(Id), Int(i32), Long(i64), Float(Float32), Float(f32), Double(Float64), Double(f64), String(String), Bytes(Vec<u8>),
    Rectangle(Rectangle), Fraction(Fraction), Fd(Fd), Struct(Vec<Value>), Object(Object), Choice(ChoiceValue)
);

impl From<ValueArray> for Value {
    fn from(array: ValueArray) -> Value {
        Value::ValueArray(array)
    }
}

/// What a value of this type holds.
impl TryFrom<Value> for ValueArray {
    type Error = WrongType;

    fn try_from(value: Value) -> Result<ValueArray, WrongType> {
        match value {
            Value::ValueArray(array) => Ok(array),
            other => Err(WrongType { wanted: SpaTypes::Array, found: other.type_() }),
        }
    }
}

/// The value without content.
impl From<()> for Value {
    fn from((): ()) -> Value {
        Value::None
    }
}

/// A pointer: a type number and an address.
impl From<(u32, u64)> for Value {
    fn from((type_, address): (u32, u64)) -> Value {
        Value::Pointer(type_, address)
    }
}

/// # Panics
/// Where memory is refused for the copy.
impl From<&str> for Value {
    fn from(text: &str) -> Value {
        Value::String(with_memory(String::try_from_str(text)))
    }
}

/// # Panics
/// Where memory is refused for the copy.
impl From<&[u8]> for Value {
    fn from(bytes: &[u8]) -> Value {
        Value::Bytes(with_memory(Vec::try_from_slice(bytes)))
    }
}

/// # Panics
/// Where memory is refused for the copy.
impl From<Bitmap<'_>> for Value {
    fn from(Bitmap(bytes): Bitmap<'_>) -> Value {
        Value::Bitmap(with_memory(Vec::try_from_slice(bytes)))
    }
}

/// Arrays and choices of what their variants hold, and their values.
macro_rules! elements_held {
    ($($variant:ident($type:ty)),*) => { $(
        impl From<Vec<$type>> for Value {
            fn from(elements: Vec<$type>) -> Value {
                Value::ValueArray(ValueArray::$variant(elements))
            }
        }

        impl From<Choice<$type>> for Value {
            fn from(choice: Choice<$type>) -> Value {
                Value::Choice(ChoiceValue::$variant(choice))
            }
        }
    )* };
}

elements_held!(
    Bool(bool), Id(Id), Int(i32), Long(i64), Float(Float32), Double(Float64), Rectangle(Rectangle), Fraction(Fraction), Fd(Fd)
);

/// Small types and their numbers.
macro_rules! numbered {
    ($($name:ident: $number:ty),*) => { $(
        impl From<$number> for $name {
            fn from(number: $number) -> $name {
                $name(number)
            }
        }

        impl From<$name> for $number {
            fn from(named: $name) -> $number {
                named.0
            }
        }
    )* };
}

numbered!(Id: u32, SpaTypes: u32, Fd: i64);

impl Object {
    /// An object of this type and id, without properties.
    #[must_use]
    pub const fn new(type_: u32, id: u32) -> Object {
        Object { type_, id, properties: Vec::new() }
    }

    /// The value of the first property with this key. None: there is none.
    #[must_use]
    pub fn get(&self, key: u32) -> Option<&Value> {
        self.iter().find(|property| property.key == key).map(|property| &property.value)
    }

    /// The value of the first property with this key, to be changed. None: there is none.
    #[must_use]
    pub fn get_mut(&mut self, key: u32) -> Option<&mut Value> {
        self.properties.iter_mut().find(|property| property.key == key).map(|property| &mut property.value)
    }

    /// Gives the first property with this key another value, or, where there is none, appends one without flags.
    ///
    /// ```
    /// use spa_pod::names::{ids, keys, types};
    /// use spa_pod::pod::{Object, Value};
    ///
    /// let mut format = Object::new(types::OBJECT_FORMAT, ids::PARAM_FORMAT);
    /// format.set(keys::FORMAT_AUDIO_RATE, 44100).set(keys::FORMAT_AUDIO_CHANNELS, 2).set(keys::FORMAT_AUDIO_RATE, 48000);
    /// assert_eq!(format.get(keys::FORMAT_AUDIO_RATE).and_then(Value::as_int), Some(48000));
    /// assert_eq!(format.properties.len(), 2);
    /// ```
    ///
    /// # Panics
    /// Where memory is refused for one more property.
    pub fn set(&mut self, key: u32, value: impl Into<Value>) -> &mut Object {
        let value = value.into();
        match self.get_mut(key) {
            Some(there) => *there = value,
            None => with_memory(self.properties.try_push(Property::new(key, value))),
        }
        self
    }

    /// The properties in order.
    pub fn iter(&self) -> slice::Iter<'_, Property> {
        self.properties.iter()
    }
}

impl IntoIterator for Object {
    type Item = Property;
    type IntoIter = IntoIter<Property>;

    fn into_iter(self) -> IntoIter<Property> {
        self.properties.into_iter()
    }
}

impl<'a> IntoIterator for &'a Object {
    type Item = &'a Property;
    type IntoIter = slice::Iter<'a, Property>;

    fn into_iter(self) -> slice::Iter<'a, Property> {
        self.iter()
    }
}

/// Whether two values are equal, as by `==`, of any nesting depth: it is a loop. `try_same` answers an error for want of memory.
///
/// # Panics
/// Where memory is refused; values without containers in one another need none.
#[must_use]
pub fn same(value: &Value, other: &Value) -> bool {
    with_memory(try_same(value, other))
}
