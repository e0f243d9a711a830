//! Reading and writing at once, with errors that outlive the bytes and say where they stand.
use super::declared::Trailing;
use super::errors::offset_in;
use super::levels::{MOST_LEVELS, Unbounded, within};
use crate::parts::spa_bodies::error_at;
use crate::parts::spa_read::{Refused, read_value, read_value_leniently};
use crate::parts::spa_canonical::{Rejected, look_at_pod};
use crate::parts::spa_view::whole_bytes;
use crate::pod::deserialize::{
    DeserializeAs, DeserializeError, DeserializeMembers, DeserializeProperties, FaultKind, ObjectOf, Optional, PodDeserialize, PodDeserializer,
    Required, Settled, Skipped, StructOf,
};
use crate::pod::serialize::{GenError, PodSerialize, PodSerializer};
use crate::pod::{Bitmap, FixedPod, Held, Pod, PodObject, Value};
use crate::utils::{Choice, Fd, Float32, Float64, Fraction, Id, Rectangle};
use alloc::string::String;
use alloc::vec::Vec;
use core::error::Error;
use core::fmt::{Display, Formatter, Result as Printed};

/// Why bytes could not be read, and where. It holds none of them, so that `?` hands it on.
#[derive(Clone, Copy, Debug, PartialEq, Eq, Hash)]
#[non_exhaustive]
pub struct ReadError {
    /// Why.
    pub kind: ReadErrorKind,
    /// The byte at which the refused pod begins: the one that was read, or one inside of it. A property whose key and flags are cut short
    /// has that of its key.
    pub at: usize,
}

/// Why bytes could not be read.
#[derive(Clone, Copy, Debug, PartialEq, Eq, Hash)]
#[non_exhaustive]
pub enum ReadErrorKind {
    /// Fewer bytes are left than a header has, than its size word says with the padding, or than a property's key and flags have.
    Short,
    /// A string's body is empty, doesn't end in NUL, holds another NUL, or isn't UTF-8 before the last one.
    Text,
    /// A pod, or the elements of an array, are of another type than the one asked for.
    OtherType,
    /// An object of this type and this id is there, and another one is asked for.
    OtherObject {
        /// Its type.
        type_: u32,
        /// Its id.
        id: u32,
    },
    /// A visitor doesn't take a value of this type; a choice is of another shape or over another type than the one asked for.
    UnsupportedType,
    /// The type number of a pod, of an array's elements or of a choice's values isn't one that is read there.
    InvalidType,
    /// A choice's shape word is above 4.
    InvalidChoiceType,
    /// A choice has fewer values than its shape needs.
    MissingChoiceValues,
    /// The length of a body or a child size isn't that of the type's bodies, or bytes are left behind whole elements.
    WrongSize,
    /// An object lacks the property with this key.
    MissingProperty(u32),
    /// A struct lacks the member of this index, which begins at 0.
    MissingMember(usize),
    /// An object lacks a property that a visitor asked for.
    PropertyMissing,
    /// A visitor asked for another property than the next one, which has this key.
    PropertyWrongKey(u32),
    /// A struct has more members than the type; a visitor left members, properties or elements unread.
    UnreadMembers,
    /// A visitor asked for more elements than an array has.
    NoElementLeft,
    /// A visitor went on with a reader that was refused before.
    FailedReader,
    /// More structs and objects stand in one another than the limit says.
    TooDeep,
    /// Memory ran out.
    OutOfMemory,
}

impl Display for ReadErrorKind {
    fn fmt(&self, f: &mut Formatter<'_>) -> Printed {
        // The words of `DeserializeError`, where it has the kind.
        let same: DeserializeError<usize> = match *self {
            ReadErrorKind::Short => return Display::fmt(&FaultKind::Short, f),
            ReadErrorKind::Text => return Display::fmt(&FaultKind::Text, f),
            ReadErrorKind::OtherType => return Display::fmt(&FaultKind::Tag, f),
            ReadErrorKind::OtherObject { type_, id } => return write!(f, "an object of type {type_} and id {id} isn't the one asked for"),
            ReadErrorKind::MissingProperty(key) => return write!(f, "the property with key {key} is missing"),
            ReadErrorKind::MissingMember(index) => return write!(f, "the member {index} is missing"),
            ReadErrorKind::UnsupportedType => DeserializeError::UnsupportedType,
            ReadErrorKind::InvalidType => DeserializeError::InvalidType,
            ReadErrorKind::InvalidChoiceType => DeserializeError::InvalidChoiceType,
            ReadErrorKind::MissingChoiceValues => DeserializeError::MissingChoiceValues,
            ReadErrorKind::WrongSize => DeserializeError::WrongSize,
            ReadErrorKind::PropertyMissing => DeserializeError::PropertyMissing,
            ReadErrorKind::PropertyWrongKey(key) => DeserializeError::PropertyWrongKey(key),
            ReadErrorKind::UnreadMembers => DeserializeError::UnreadMembers,
            ReadErrorKind::NoElementLeft => DeserializeError::NoElementLeft,
            ReadErrorKind::FailedReader => DeserializeError::FailedReader,
            ReadErrorKind::TooDeep => DeserializeError::TooDeep,
            ReadErrorKind::OutOfMemory => DeserializeError::OutOfMemory,
        };
        Display::fmt(&same, f)
    }
}

impl Display for ReadError {
    fn fmt(&self, f: &mut Formatter<'_>) -> Printed {
        write!(f, "{}, at byte {}", self.kind, self.at)
    }
}

impl Error for ReadError {}

/// A refusal, and the bytes from its place on.
type Place<'de> = (ReadErrorKind, &'de [u8]);

/// The kind of a refusal.
fn kind_of<I>(error: &DeserializeError<I>) -> ReadErrorKind {
    match error {
        DeserializeError::Nom(fault) => match fault.kind {
            FaultKind::Short => ReadErrorKind::Short,
            FaultKind::Tag => ReadErrorKind::OtherType,
            FaultKind::Text => ReadErrorKind::Text,
        },
        DeserializeError::UnsupportedType => ReadErrorKind::UnsupportedType,
        DeserializeError::InvalidType => ReadErrorKind::InvalidType,
        DeserializeError::PropertyMissing => ReadErrorKind::PropertyMissing,
        DeserializeError::PropertyWrongKey(key) => ReadErrorKind::PropertyWrongKey(*key),
        DeserializeError::InvalidChoiceType => ReadErrorKind::InvalidChoiceType,
        DeserializeError::MissingChoiceValues => ReadErrorKind::MissingChoiceValues,
        DeserializeError::WrongSize => ReadErrorKind::WrongSize,
        DeserializeError::UnreadMembers => ReadErrorKind::UnreadMembers,
        DeserializeError::NoElementLeft => ReadErrorKind::NoElementLeft,
        DeserializeError::FailedReader => ReadErrorKind::FailedReader,
        DeserializeError::OutOfMemory => ReadErrorKind::OutOfMemory,
        DeserializeError::TooDeep => ReadErrorKind::TooDeep,
    }
}

/// A refusal of the pod at the front with its place: that which it names; else that of the first fault of this kind in the pod; else the pod's.
fn placed<'de>(error: DeserializeError<&'de [u8]>, pod: &'de [u8]) -> Place<'de> {
    let kind = kind_of(&error);
    if let DeserializeError::Nom(fault) = error {
        return (kind, fault.input);
    }
    match look_at_pod(pod) {
        Err(Rejected::Fault(place, _, why)) if kind_of(&error_at(place, why)) == kind => (kind, place),
        _ => (kind, pod),
    }
}

impl ReadError {
    /// The refusal of a read of these bytes by one of libspa's names, such as `PodDeserializer::deserialize_from`.
    ///
    /// ```
    /// use spa_pod::ReadError;
    /// use spa_pod::pod::deserialize::PodDeserializer;
    ///
    /// fn number(bytes: &[u8]) -> Result<i32, ReadError> {
    ///     let (_rest, number) = PodDeserializer::deserialize_from(bytes).map_err(|error| ReadError::new(error, bytes))?;
    ///     Ok(number)
    /// }
    /// assert_eq!(number(&[9, 0, 0, 0]).unwrap_err().to_string(), "the bytes are cut short, at byte 0");
    /// ```
    #[must_use]
    pub fn new(error: DeserializeError<&[u8]>, bytes: &[u8]) -> ReadError {
        ReadError::at(placed(error, bytes), bytes)
    }

    fn at((kind, place): Place<'_>, bytes: &[u8]) -> ReadError {
        ReadError { kind, at: offset_in(bytes, place) }
    }

    fn of_refused(refused: Refused<'_>, bytes: &[u8]) -> ReadError {
        let kind = kind_of(&error_at(refused.place, refused.why));
        // Want of memory has no place.
        let at = if kind == ReadErrorKind::OutOfMemory { 0 } else { offset_in(bytes, refused.place) };
        ReadError { kind, at }
    }
}

/// What a read of a value answered, if the value nests within so many levels: the value, and how many bytes it took.
fn bounded(bytes: &[u8], read: Result<(&[u8], Value), Refused<'_>>) -> Result<(Value, usize), ReadError> {
    let (rest, value) = read.map_err(|refused| ReadError::of_refused(refused, bytes))?;
    let taken = bytes.len() - rest.len();
    match within(MOST_LEVELS, taken, value) {
        Some(value) => Ok((value, taken)),
        None => Err(ReadError { kind: ReadErrorKind::TooDeep, at: 0 }),
    }
}

/// Reads the pod at the front of the bytes, of any type: the value, and how many bytes it took.
///
/// ```
/// use spa_pod::pod::Value;
///
/// assert_eq!(spa_pod::read(&[4, 0, 0, 0, 4, 0, 0, 0, 57, 1, 0, 0, 0, 0, 0, 0])?, (Value::Int(313), 16));
/// # Ok::<(), spa_pod::ReadError>(())
/// ```
///
/// # Errors
/// [`TooDeep`](ReadErrorKind::TooDeep) where more than [`MOST_LEVELS`](crate::pod::MOST_LEVELS) structs and objects stand in one another;
/// `OutOfMemory`; else `Short`, `Text`, `InvalidType`, `InvalidChoiceType`, `MissingChoiceValues` or `WrongSize`, each where that fault stands.
pub fn read(bytes: &[u8]) -> Result<(Value, usize), ReadError> {
    bounded(bytes, read_value(bytes, &mut 0))
}

/// Reads the pod at the front of the bytes, of any type and however deep it nests: the value, which is dropped by a loop, and how many bytes
/// it took.
///
/// # Errors
/// Those of [`read`], but for `TooDeep`.
pub fn read_unbounded(bytes: &[u8]) -> Result<(Held, usize), ReadError> {
    match read_value(bytes, &mut 0) {
        Ok((rest, value)) => Ok((Held::from(value), bytes.len() - rest.len())),
        Err(refused) => Err(ReadError::of_refused(refused, bytes)),
    }
}

/// Reads the value that the front of the bytes conveys in the lenient reading, and how many bytes it took: also None choices over arrays and
/// texts, and texts that end in several NULs, as real programs send them.
///
/// # Errors
/// Those of [`read`], each where that fault stands in the lenient reading.
pub fn read_leniently(bytes: &[u8]) -> Result<(Value, usize), ReadError> {
    bounded(bytes, read_value_leniently(bytes))
}

/// Reads the pod at the front of the bytes as a value of this type: the value, and how many bytes it took.
///
/// ```
/// use spa_pod::ReadErrorKind;
///
/// // A struct of an Int and a Long, of which a struct of three members lacks the third.
/// let words = [32u32, 14, 4, 4, 7, 0, 8, 5, 9, 0];
/// let bytes: Vec<u8> = words.iter().flat_map(|word| word.to_le_bytes()).collect();
/// # use spa_pod::pod::deserialize::StructOf;
/// let (StructOf((int, (long, ()))), taken) = spa_pod::read_as::<StructOf<(i32, (i64, ()))>>(&bytes)?;
/// assert_eq!((int, long, taken), (7, 9, 40));
/// let error = spa_pod::read_as::<StructOf<(i32, (i64, (bool, ())))>>(&bytes).map(|_| ()).unwrap_err();
/// assert_eq!((error.kind, error.at), (ReadErrorKind::MissingMember(2), 0));
/// # Ok::<(), spa_pod::ReadError>(())
/// ```
///
/// # Errors
/// Those of the type, each with the key, the member and the place that the type knows.
pub fn read_as<'de, T: ReadAs<'de>>(bytes: &'de [u8]) -> Result<(T, usize), ReadError> {
    match PodDeserializer::deserialize_from(bytes) {
        Ok((rest, value)) => Ok((value, bytes.len() - rest.len())),
        // Where the second read isn't refused, the first one was for want of memory.
        Err(error) => Err(ReadError::at(T::refusal(bytes).unwrap_or((kind_of(&error), bytes)), bytes)),
    }
}

/// Writes a value: its bytes.
///
/// # Errors
/// `NulInText` where a text holds NUL, `TooLarge` where a size word would be 4294967296 or more, `OutOfMemory`.
pub fn write(value: &Value) -> Result<Vec<u8>, GenError> {
    write_as(value)
}

/// Writes a value of a type that is written as a pod: its bytes.
///
/// # Errors
/// Those of the type.
pub fn write_as<T: PodSerialize>(value: &T) -> Result<Vec<u8>, GenError> {
    Ok(PodSerializer::serialize(Vec::new(), value)?.0)
}

/// A type that [`read_as`] reads: each built-in type, and a type of a program's own that is declared by [`pod_object`](crate::pod_object),
/// [`pod_struct`](crate::pod_struct) or its content. One that implements `PodDeserialize` by hand becomes one by an `impl` without items.
#[diagnostic::on_unimplemented(
    message = "`{Self}` isn't read by `read_as`",
    note = "declare it by `pod_object!` or `pod_struct!`, or implement `PodDeserialize` and `ReadAs<'_>` for it"
)]
pub trait ReadAs<'de>: PodDeserialize<'de> {
    /// Why the pod at the front of the bytes is refused, and the bytes from there on. None: it isn't.
    #[must_use]
    fn refusal(pod: &'de [u8]) -> Option<(ReadErrorKind, &'de [u8])> {
        let error = PodDeserializer::deserialize_from::<Self>(pod).err()?;
        Some(placed(error, pod))
    }
}

macro_rules! read_as_themselves {
    ($($name:ty),*) => { $(impl<'de> ReadAs<'de> for $name {})* };
}

read_as_themselves!(
    (), bool, i32, i64, Id, Fd, Float32, Float64, Rectangle, Fraction, (u32, u64), &'de str, String, &'de [u8], Bitmap<'de>, Value, Unbounded,
    Skipped
);

impl<'de, T> ReadAs<'de> for Vec<T> where Vec<T>: PodDeserialize<'de> {}

impl<'de, T> ReadAs<'de> for Choice<T> where Choice<T>: PodDeserialize<'de> {}

impl<T: FixedPod> ReadAs<'_> for Settled<T> {}

impl<'de, T> ReadAs<'de> for T
where
    T: DeserializeAs,
    T::Content: ReadAs<'de>,
{
    fn refusal(pod: &'de [u8]) -> Option<(ReadErrorKind, &'de [u8])> {
        T::Content::refusal(pod)
    }
}

/// Members of a struct that say which of them is refused.
#[doc(hidden)]
pub trait ReadMembers<'de>: DeserializeMembers<'de> {
    /// Why the members are refused of which these bytes are the last ones, from this index on, of the struct.
    fn refusal_in(container: &'de [u8], left: &'de [u8], index: usize) -> Option<(ReadErrorKind, &'de [u8])>;
}

impl<'de> ReadMembers<'de> for () {
    fn refusal_in(_container: &'de [u8], left: &'de [u8], _index: usize) -> Option<(ReadErrorKind, &'de [u8])> {
        if left.is_empty() { None } else { Some((ReadErrorKind::UnreadMembers, left)) }
    }
}

impl<'de, A, R: ReadMembers<'de>> ReadMembers<'de> for (A, R)
where
    A: ReadAs<'de>,
    (A, R): DeserializeMembers<'de>,
{
    fn refusal_in(container: &'de [u8], left: &'de [u8], index: usize) -> Option<(ReadErrorKind, &'de [u8])> {
        if left.is_empty() {
            return Some((ReadErrorKind::MissingMember(index), container));
        }
        if let Some(refusal) = A::refusal(left) {
            return Some(refusal);
        }
        R::refusal_in(container, &left[Pod::from_bytes(left)?.extent()..], index + 1)
    }
}

impl<'de, A, R: ReadMembers<'de>> ReadMembers<'de> for (Trailing<A>, R)
where
    A: ReadAs<'de>,
    (Trailing<A>, R): DeserializeMembers<'de>,
    (A, R): ReadMembers<'de>,
{
    fn refusal_in(container: &'de [u8], left: &'de [u8], index: usize) -> Option<(ReadErrorKind, &'de [u8])> {
        if left.is_empty() { None } else { <(A, R)>::refusal_in(container, left, index) }
    }
}

impl<'de, M: ReadMembers<'de>> ReadAs<'de> for StructOf<M> {
    fn refusal(pod: &'de [u8]) -> Option<(ReadErrorKind, &'de [u8])> {
        let error = PodDeserializer::deserialize_from::<Self>(pod).err()?;
        let inside = Pod::from_bytes(pod).and_then(|pod| pod.as_struct().ok()).and_then(|members| {
            M::refusal_in(pod, members.as_pod().body(), 0)
        });
        Some(inside.unwrap_or_else(|| placed(error, pod)))
    }
}

/// Properties of an object that say which of them is refused.
#[doc(hidden)]
pub trait ReadProperties<'de>: DeserializeProperties<'de> {
    /// Why these properties of an object are refused.
    fn refusal_in(object: PodObject<'de>) -> Option<(ReadErrorKind, &'de [u8])>;
}

impl<'de> ReadProperties<'de> for () {
    fn refusal_in(_object: PodObject<'de>) -> Option<(ReadErrorKind, &'de [u8])> {
        None
    }
}

/// Why the first property with this key is refused, where there is one, or else these ones.
fn property_refusal<'de, A: ReadAs<'de>, R: ReadProperties<'de>>(
    object: PodObject<'de>,
    key: u32,
    missing: Option<ReadErrorKind>,
) -> Option<(ReadErrorKind, &'de [u8])> {
    let refusal = match object.find_prop(Id(key)) {
        Some(property) => A::refusal(whole_bytes(&property.value())),
        None => missing.map(|kind| (kind, whole_bytes(&object.as_pod()))),
    };
    refusal.or_else(|| R::refusal_in(object))
}

impl<'de, const KEY: u32, A, R> ReadProperties<'de> for (Required<KEY, A>, R)
where
    A: ReadAs<'de>,
    R: ReadProperties<'de>,
    (Required<KEY, A>, R): DeserializeProperties<'de>,
{
    fn refusal_in(object: PodObject<'de>) -> Option<(ReadErrorKind, &'de [u8])> {
        property_refusal::<A, R>(object, KEY, Some(ReadErrorKind::MissingProperty(KEY)))
    }
}

impl<'de, const KEY: u32, A, R> ReadProperties<'de> for (Optional<KEY, A>, R)
where
    A: ReadAs<'de>,
    R: ReadProperties<'de>,
    (Optional<KEY, A>, R): DeserializeProperties<'de>,
{
    fn refusal_in(object: PodObject<'de>) -> Option<(ReadErrorKind, &'de [u8])> {
        property_refusal::<A, R>(object, KEY, None)
    }
}

impl<'de, const TYPE: u32, const ID: u32, P: ReadProperties<'de>> ReadAs<'de> for ObjectOf<TYPE, ID, P> {
    fn refusal(pod: &'de [u8]) -> Option<(ReadErrorKind, &'de [u8])> {
        let error = PodDeserializer::deserialize_from::<Self>(pod).err()?;
        let Some(object) = Pod::from_bytes(pod).and_then(|pod| pod.as_object().ok()) else {
            return Some(placed(error, pod));
        };
        let (type_, id) = (object.type_().as_raw(), object.id().0);
        if (type_, id) != (TYPE, ID) {
            return Some((ReadErrorKind::OtherObject { type_, id }, pod));
        }
        // A property that is cut short has its own place; the search stops there.
        if kind_of(&error) == ReadErrorKind::Short {
            return Some(placed(error, pod));
        }
        Some(P::refusal_in(object).unwrap_or_else(|| placed(error, pod)))
    }
}
