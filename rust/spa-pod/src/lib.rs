#![doc = include_str!("../README.md")]
#![no_std]
#![forbid(unsafe_code)]
#![warn(missing_docs, missing_debug_implementations)]
#![cfg_attr(docsrs, feature(doc_cfg))]

extern crate alloc;
#[cfg(any(feature = "std", test))]
extern crate std;

#[cfg(target_pointer_width = "16")]
compile_error!("spa-pod counts bytes in a usize of 32 bits at least");

mod api;
#[cfg(not(feature = "parts"))]
mod parts;
// For the other packages of this repository.
#[cfg(feature = "parts")]
#[doc(hidden)]
pub mod parts;
#[cfg(not(feature = "parts"))]
mod shims;
#[cfg(feature = "parts")]
#[doc(hidden)]
pub mod shims;

#[cfg(feature = "std")]
#[cfg_attr(docsrs, doc(cfg(feature = "std")))]
pub use api::compat;
pub use api::declared::PodField;
pub use api::reading::{ReadAs, ReadError, ReadErrorKind, read, read_as, read_leniently, read_unbounded, write, write_as};
pub use parts::libspa::{constants, utils};
pub use shims::array::{ArrayVec, CapacityError};
pub use shims::memory::{AllocError, TryClone};

/// Pods: values and their rewriting, and borrowed views.
pub mod pod {
    pub use crate::api::faults::{FoundFault, find_fault};
    pub use crate::api::levels::MOST_LEVELS;
    pub use crate::api::values::{WrongType, same};
    pub use crate::parts::libspa::pod::same as try_same;
    pub use crate::parts::libspa::pod::*;
}

/// Negotiation: the object in which two objects meet, each of whose values both admit.
///
/// Of choices it takes None, Enum, and Range over Id, Int or Long, and refuses others as `Unsupported`. Formats of video have Ranges over
/// rectangles and fractions, so for real formats call [`filtering`], and then `settle`.
///
/// ```
/// use spa_pod::names::{ids, keys, types};
/// use spa_pod::negotiation::negotiate_pods;
/// use spa_pod::pod::serialize::PodSerializer;
/// use spa_pod::pod::{Value, object, property};
/// use spa_pod::utils::{Id, SpaTypes};
///
/// # fn main() -> Result<(), Box<dyn std::error::Error>> {
/// // Two ports, and which rates each of them has.
/// let (type_, id, rate) = (SpaTypes(types::OBJECT_FORMAT), Id(ids::PARAM_ENUM_FORMAT), Id(keys::FORMAT_AUDIO_RATE));
/// let ours = object!(type_, id, property!(rate, Choice, Enum, Int, 44100, 44100, 48000)?)?;
/// let theirs = object!(type_, id, property!(rate, Choice, Range, Int, 96000, 48000, 192000)?)?;
/// let (ours, _) = PodSerializer::serialize(Vec::new(), &Value::Object(ours))?;
/// let (theirs, _) = PodSerializer::serialize(Vec::new(), &Value::Object(theirs))?;
///
/// let met = negotiate_pods(&ours, &theirs)?;
/// let wanted = object!(type_, id, property!(rate, Int, 48000)?)?;
/// assert_eq!(met, PodSerializer::serialize(Vec::new(), &Value::Object(wanted))?.0);
/// # Ok(())
/// # }
/// ```
pub mod negotiation {
    pub use crate::parts::spa_negotiate::{NegotiateError, Side, is_supported, negotiate, negotiate_pods};
}

/// Filtering: the object that admits exactly what two objects both admit. `settle` then sets each choice of it to its default.
///
/// ```
/// use spa_pod::filtering::{FilterError, filter, settle};
/// use spa_pod::names::{ids, keys, types};
/// use spa_pod::pod::{object, property};
/// use spa_pod::utils::{Fraction, Id, SpaTypes};
///
/// # fn main() -> Result<(), Box<dyn std::error::Error>> {
/// let (type_, id, rate) = (SpaTypes(types::OBJECT_FORMAT), Id(ids::PARAM_ENUM_FORMAT), Id(keys::FORMAT_VIDEO_FRAMERATE));
/// let per_second = |num| Fraction { num, denom: 1 };
/// let ours = object!(type_, id, property!(rate, Choice, Range, Fraction, per_second(30), per_second(0), per_second(60))?)?;
/// let theirs = object!(type_, id, property!(rate, Choice, Enum, Fraction, per_second(90), per_second(90), per_second(50))?)?;
///
/// // An Enum of 50 alone is left, and 50 is its default.
/// let left = filter(&ours, &theirs)?;
/// assert_eq!(left, object!(type_, id, property!(rate, Choice, Enum, Fraction, per_second(50), per_second(50))?)?);
/// assert_eq!(settle(&left)?, object!(type_, id, property!(rate, Fraction, per_second(50))?)?);
///
/// // An error names the key that keeps the two apart.
/// let theirs = object!(type_, id, property!(rate, Fraction, per_second(90))?)?;
/// assert!(matches!(filter(&ours, &theirs), Err(FilterError::Disjoint(key)) if key == keys::FORMAT_VIDEO_FRAMERATE));
/// # Ok(())
/// # }
/// ```
pub mod filtering {
    pub use crate::parts::spa_filter::{FilterError, Side, filter, settle};
    pub use crate::parts::spa_filter_pods::filter_pods;
}

/// What lies inside an input, pod by pod, without a value and without memory.
pub mod events {
    pub use crate::parts::spa_events::{Event, NO_PARENT, list_events};
}

/// The names that PipeWire gives types, keys, ids and shapes: as constants with C's names, such as `keys::FORMAT_AUDIO_RATE`, and as tables.
pub mod names {
    pub use crate::parts::spa_names::{formats, ids, keys, shapes, types};
    pub use crate::parts::spa_names::{Expected, Table, expected_under, ids_of, keys_of, name_of, number_of, path_of};
}

/// Values as text with names: strict JSON, which loses nothing. `TextReader::read_in` also reads what `pw-dump` prints of params.
///
/// ```
/// use spa_pod::pod::Value;
/// use spa_pod::text::{Strictness, TextReader, print, print_pretty, read};
///
/// # fn main() -> Result<(), Box<dyn std::error::Error>> {
/// let line = r#"{"type":"Props","id":"Props","props":{"volume":0.5,"mute":true}}"#;
/// let value = read(line)?;
/// let mut text = Vec::new();
/// print(&value, &mut text)?;
/// assert_eq!(text, line.as_bytes());
///
/// // Each property on a line of its own.
/// text.clear();
/// print_pretty(&read("[1]")?, &mut text)?;
/// assert_eq!(text, b"[\n  1\n]");
///
/// // The keys `type`, `id`, `props` and their like come in any order, as `jq -S` leaves them.
/// assert_eq!(read(r#"{"id":"Props","props":{"volume":0.5,"mute":true},"type":"Props"}"#)?, value);
///
/// // Strictly, a value has the type that belongs under its key.
/// let wrong = line.replace("true", "1");
/// assert!(read(&wrong).is_ok());
/// let error = TextReader::new().read_with(&wrong, Strictness::Strict).unwrap_err();
/// assert_eq!((error.column, error.path.as_str()), (60, ".props.mute"));
/// # Ok(())
/// # }
/// ```
#[cfg(feature = "text")]
#[cfg_attr(docsrs, doc(cfg(feature = "text")))]
pub mod text {
    pub use crate::parts::spa_text::{AtPath, Cause, FullType, InPlace, Misfit, Strictness, TextError, TextPrinter, print, print_pretty};
    pub use crate::parts::spa_text_forms::{Form, FreeReader as TextReader, read};
}

/// What the exported macros name. It is no part of the interface.
#[doc(hidden)]
pub mod macros {
    pub use crate::api::declared::{Flagged, PodField, Trailing};
    pub use crate::pod::PropertyFlags;
    pub use crate::pod::deserialize::{DeserializeAs, ObjectOf, Optional, Required, StructOf};
    pub use crate::pod::serialize::{GenError, Maybe, PodOutput, SerializeAs, write_object, write_struct};
    pub use crate::parts::{spa_builder, spa_parser, spa_value};
    pub use crate::shims::memory::VecRoom;
    pub use alloc::vec::Vec;
}
