//! Types of a program's own as objects and structs, declared by their fields.
use crate::parts::spa_sink::put_two;
use crate::pod::deserialize::{DeserializeAs, DeserializeError, DeserializeMembers, ExactDeserialize, Settled, StructPodDeserializer};
use crate::pod::serialize::{ExactSerialize, GenError, PodOutput, SerializeAs, SerializeMembers, SerializeProperties};
use crate::pod::{Bitmap, Held, PropertyFlags, Value};
use crate::utils::{Choice, Fd, Float32, Float64, Fraction, Id, Rectangle};
use alloc::string::String;
use alloc::vec::Vec;

/// Declares how a type of a program's own is read and written as an object: `impl` the type, `=` the object's type and id, and the fields, each
/// with its type and key. Properties are found in any order, others are passed, and a value of fixed size is also read out of a None choice.
///
/// ```
/// use spa_pod::names::{ids, keys, types};
///
/// #[derive(Debug, PartialEq)]
/// struct Audio { rate: i32, channels: Option<i32> }
/// spa_pod::pod_object!(impl Audio = types::OBJECT_FORMAT, ids::PARAM_FORMAT; {
///     rate: i32 = keys::FORMAT_AUDIO_RATE,
///     channels?: i32 = keys::FORMAT_AUDIO_CHANNELS,
/// });
///
/// let audio = Audio { rate: 48000, channels: None };
/// let bytes = spa_pod::write_as(&audio)?;
/// assert_eq!(spa_pod::read_as::<Audio>(&bytes)?, (audio, bytes.len()));
/// # Ok::<(), Box<dyn std::error::Error>>(())
/// ```
///
/// A field is written
///
/// - `name: T = KEY`, if the property has to be there;
/// - `name?: T = KEY`, if it may be missing: the field is an `Option<T>`;
/// - `name: T = KEY; default VALUE`, if a missing one is read as this value.
///
/// Behind that `; flags FLAGS` gives the flags with which the property is written; reading ignores flags. `T` is one of the small types of
/// fixed size, `f32`, `f64`, `String`, `&str`, `Vec<u8>`, `&[u8]`, a `Vec` or a `Choice` of small types, a `Value`, or a type that is declared
/// itself. `impl<'a> Name<'a>` declares a type that borrows texts or bytes.
///
/// ```
/// use spa_pod::pod::PropertyFlags;
///
/// #[derive(Debug, PartialEq)]
/// struct Range { low: f32, high: f32 }
/// spa_pod::pod_struct!(impl Range = { low: f32, high: f32 });
///
/// #[derive(Debug, PartialEq)]
/// struct Control<'a> { name: &'a str, range: Range, step: i32 }
/// spa_pod::pod_object!(impl<'a> Control<'a> = 262145, 1; {
///     name: &'a str = 1; flags PropertyFlags::READONLY,
///     range: Range = 2,
///     step: i32 = 3; default 1; flags PropertyFlags::HARDWARE,
/// });
/// # let control = Control { name: "gain", range: Range { low: 0.0, high: 1.0 }, step: 2 };
/// # let bytes = spa_pod::write_as(&control)?;
/// # assert_eq!(spa_pod::read_as::<Control>(&bytes)?.0, control);
/// # Ok::<(), Box<dyn std::error::Error>>(())
/// ```
///
/// A field of a type that no pod has is refused where it stands:
///
/// ```compile_fail,E0277
/// struct Wrong { rate: u16 }
/// spa_pod::pod_object!(impl Wrong = 262147, 4; { rate: u16 = 65539 });
/// ```
#[macro_export]
macro_rules! pod_object {
    (impl<$life:lifetime> $name:ty = $type_:expr, $id:expr; { $($fields:tt)* }) => {
        $crate::pod_object!(@declared [$life] $name, $type_, $id, $($fields)* ,);
    };
    (impl $name:ty = $type_:expr, $id:expr; { $($fields:tt)* }) => {
        $crate::pod_object!(@declared [] $name, $type_, $id, $($fields)* ,);
    };
    (@declared [$($life:lifetime)?] $name:ty, $type_:expr, $id:expr, $($fields:tt)*) => {
        impl $(<$life>)? $crate::macros::DeserializeAs for $name {
            type Content = $crate::macros::ObjectOf<{ $type_ }, { $id }, $crate::pod_fields!(@properties $($fields)*)>;

            fn of_content($crate::macros::ObjectOf(content): Self::Content) -> Self {
                $crate::pod_fields!(@taken content, [] $($fields)*)
            }
        }

        $crate::pod_fields!(@field [$($life)?] $name);

        impl $(<$life>)? $crate::macros::SerializeAs for $name {
            fn write_as<O: $crate::macros::PodOutput>(&self, out: &mut O) -> ::core::result::Result<(), $crate::macros::GenError> {
                $crate::macros::write_object(out, $type_, $id, &$crate::pod_fields!(@written self $($fields)*))
            }
        }
    };
}

/// Declares how a type of a program's own is read and written as a struct: `impl` the type, `=` the fields in the order of the members, each
/// with its type as in [`pod_object`](crate::pod_object).
///
/// ```
/// #[derive(Debug, PartialEq)]
/// struct Song { title: String, seconds: i64 }
/// spa_pod::pod_struct!(impl Song = { title: String, seconds: i64 });
///
/// let song = Song { title: "Träume".to_string(), seconds: 241 };
/// let bytes = spa_pod::write_as(&song)?;
/// assert_eq!(spa_pod::read_as::<Song>(&bytes)?.0, song);
/// # Ok::<(), Box<dyn std::error::Error>>(())
/// ```
///
/// The last members may be missing, as where a newer version wrote more of them: `name?: T`, and the field is an `Option<T>`. One that is there behind a
/// missing one is refused as `WrongCount` when it is written.
///
/// ```
/// #[derive(Debug, PartialEq)]
/// struct Version { major: i32, minor: i32, patch: Option<i32> }
/// spa_pod::pod_struct!(impl Version = { major: i32, minor: i32, patch?: i32 });
///
/// let version = Version { major: 0, minor: 2, patch: None };
/// let bytes = spa_pod::write_as(&version)?;
/// assert_eq!((bytes.len(), spa_pod::read_as::<Version>(&bytes)?.0), (40, version));
/// # Ok::<(), Box<dyn std::error::Error>>(())
/// ```
#[macro_export]
macro_rules! pod_struct {
    (impl<$life:lifetime> $name:ty = { $($fields:tt)* }) => {
        $crate::pod_struct!(@declared [$life] $name, $($fields)* ,);
    };
    (impl $name:ty = { $($fields:tt)* }) => {
        $crate::pod_struct!(@declared [] $name, $($fields)* ,);
    };
    (@declared [$($life:lifetime)?] $name:ty, $($fields:tt)*) => {
        impl $(<$life>)? $crate::macros::DeserializeAs for $name {
            type Content = $crate::macros::StructOf<$crate::pod_fields!(@members $($fields)*)>;

            fn of_content($crate::macros::StructOf(content): Self::Content) -> Self {
                $crate::pod_fields!(@unpacked content, [] $($fields)*)
            }
        }

        $crate::pod_fields!(@field [$($life)?] $name);

        impl $(<$life>)? $crate::macros::SerializeAs for $name {
            fn write_as<O: $crate::macros::PodOutput>(&self, out: &mut O) -> ::core::result::Result<(), $crate::macros::GenError> {
                $crate::macros::write_struct(out, &$crate::pod_fields!(@packed self $($fields)*))
            }
        }
    };
}

/// The fields of both, one after another: as nested pairs of types, taken out of such pairs, and as pairs to be written.
#[doc(hidden)]
#[macro_export]
macro_rules! pod_fields {
    (@field [$($life:lifetime)?] $name:ty) => {
        impl $(<$life>)? $crate::macros::PodField for $name {
            type Read = Self;

            fn of_read(read: Self) -> Self {
                read
            }
        }
    };

    (@properties $(,)?) => { () };
    (@properties $field:ident ?: $type_:ty = $key:expr $(; flags $flags:expr)?, $($more:tt)*) => {
        ($crate::macros::Optional<{ $key }, <$type_ as $crate::macros::PodField>::Read>, $crate::pod_fields!(@properties $($more)*))
    };
    (@properties $field:ident: $type_:ty = $key:expr; default $default:expr $(; flags $flags:expr)?, $($more:tt)*) => {
        ($crate::macros::Optional<{ $key }, <$type_ as $crate::macros::PodField>::Read>, $crate::pod_fields!(@properties $($more)*))
    };
    (@properties $field:ident: $type_:ty = $key:expr $(; flags $flags:expr)?, $($more:tt)*) => {
        ($crate::macros::Required<{ $key }, <$type_ as $crate::macros::PodField>::Read>, $crate::pod_fields!(@properties $($more)*))
    };

    (@taken $content:ident, [$($done:tt)*] $(,)?) => {{ let () = $content; Self { $($done)* } }};
    (@taken $content:ident, [$($done:tt)*] $field:ident ?: $type_:ty = $key:expr $(; flags $flags:expr)?, $($more:tt)*) => {{
        let (found, more) = $content;
        let $field = found.0.map(<$type_ as $crate::macros::PodField>::of_read);
        $crate::pod_fields!(@taken more, [$($done)* $field,] $($more)*)
    }};
    (@taken $content:ident, [$($done:tt)*] $field:ident: $type_:ty = $key:expr; default $default:expr $(; flags $flags:expr)?, $($more:tt)*) => {{
        let (found, more) = $content;
        let $field = found.0.map_or_else(|| $default, <$type_ as $crate::macros::PodField>::of_read);
        $crate::pod_fields!(@taken more, [$($done)* $field,] $($more)*)
    }};
    (@taken $content:ident, [$($done:tt)*] $field:ident: $type_:ty = $key:expr $(; flags $flags:expr)?, $($more:tt)*) => {{
        let (found, more) = $content;
        let $field = <$type_ as $crate::macros::PodField>::of_read(found.0);
        $crate::pod_fields!(@taken more, [$($done)* $field,] $($more)*)
    }};

    (@written $self:ident $(,)?) => { () };
    (@written $self:ident $field:ident ?: $type_:ty = $key:expr; flags $flags:expr, $($more:tt)*) => {
        ($crate::macros::Flagged($key, $flags, $self.$field.as_ref()), $crate::pod_fields!(@written $self $($more)*))
    };
    (@written $self:ident $field:ident ?: $type_:ty = $key:expr, $($more:tt)*) => {
        (($key, $crate::macros::Maybe(&$self.$field)), $crate::pod_fields!(@written $self $($more)*))
    };
    (@written $self:ident $field:ident: $type_:ty = $key:expr $(; default $default:expr)?; flags $flags:expr, $($more:tt)*) => {
        ($crate::macros::Flagged($key, $flags, ::core::option::Option::Some(&$self.$field)), $crate::pod_fields!(@written $self $($more)*))
    };
    (@written $self:ident $field:ident: $type_:ty = $key:expr $(; default $default:expr)?, $($more:tt)*) => {
        (($key, &$self.$field), $crate::pod_fields!(@written $self $($more)*))
    };

    (@members $(,)?) => { () };
    (@members $field:ident ?: $type_:ty, $($more:tt)*) => {
        ($crate::macros::Trailing<<$type_ as $crate::macros::PodField>::Read>, $crate::pod_fields!(@trailing $($more)*))
    };
    (@members $field:ident: $type_:ty, $($more:tt)*) => { (<$type_ as $crate::macros::PodField>::Read, $crate::pod_fields!(@members $($more)*)) };
    (@trailing $field:ident: $($more:tt)*) => { ::core::compile_error!("behind a member that may be missing each may be: `name?: T`") };
    (@trailing $($more:tt)*) => { $crate::pod_fields!(@members $($more)*) };

    (@unpacked $content:ident, [$($done:tt)*] $(,)?) => {{ let () = $content; Self { $($done)* } }};
    (@unpacked $content:ident, [$($done:tt)*] $field:ident ?: $type_:ty, $($more:tt)*) => {{
        let (found, more) = $content;
        let $field = found.0.map(<$type_ as $crate::macros::PodField>::of_read);
        $crate::pod_fields!(@unpacked more, [$($done)* $field,] $($more)*)
    }};
    (@unpacked $content:ident, [$($done:tt)*] $field:ident: $type_:ty, $($more:tt)*) => {{
        let (found, more) = $content;
        let $field = <$type_ as $crate::macros::PodField>::of_read(found);
        $crate::pod_fields!(@unpacked more, [$($done)* $field,] $($more)*)
    }};

    (@packed $self:ident $(,)?) => { () };
    (@packed $self:ident $field:ident ?: $type_:ty, $($more:tt)*) => {
        ($crate::macros::Trailing($self.$field.as_ref()), $crate::pod_fields!(@packed $self $($more)*))
    };
    (@packed $self:ident $field:ident: $type_:ty, $($more:tt)*) => { (&$self.$field, $crate::pod_fields!(@packed $self $($more)*)) };
}

/// A type that a field of [`pod_object`](crate::pod_object) or [`pod_struct`](crate::pod_struct) may have: those that are named there, and each
/// that is declared itself.
#[diagnostic::on_unimplemented(
    message = "a pod's field can't be a `{Self}`",
    label = "no pod has a value of this type",
    note = "a field is a bool, i32, i64, f32, f64, Id, Fd, Rectangle, Fraction, String, &str, Vec<u8>, &[u8], a Vec or Choice of small types,",
    note = "a Value, or a type of `pod_object!` or `pod_struct!`; one that may be missing is declared as `name?: T`, without Option"
)]
pub trait PodField: Sized {
    /// The type that is read for it.
    type Read;

    /// The field's value.
    fn of_read(read: Self::Read) -> Self;
}

/// Read as themselves, or out of None choices.
macro_rules! settled_fields {
    ($($name:ty),*) => { $(
        impl PodField for $name {
            type Read = Settled<$name>;

            fn of_read(Settled(read): Settled<$name>) -> $name {
                read
            }
        }
    )* };
}

settled_fields!(bool, Id, i32, i64, Float32, Float64, Rectangle, Fraction, Fd);

/// Read as themselves.
macro_rules! plain_fields {
    ($([$($of:tt)*] $name:ty),*) => { $(
        impl<$($of)*> PodField for $name {
            type Read = $name;

            fn of_read(read: $name) -> $name {
                read
            }
        }
    )* };
}

plain_fields!(
    [] String, ['a] &'a str, ['a] &'a [u8], ['a] Bitmap<'a>, [] (), [] (u32, u64), [] Value, [] Held, [] f32, [] f64, [T] Vec<T>, [T] Choice<T>
);

/// Rust's floats are read as floats, or out of None choices over these, and written as floats.
macro_rules! floats {
    ($($float:ty: $name:ident),*) => { $(
        impl DeserializeAs for $float {
            type Content = Settled<$name>;

            fn of_content(Settled(bits): Settled<$name>) -> $float {
                bits.into()
            }
        }

        impl SerializeAs for $float {
            fn write_as<O: PodOutput>(&self, out: &mut O) -> Result<(), GenError> {
                $name::from(*self).write_as(out)
            }
        }
    )* };
}

floats!(f32: Float32, f64: Float64);

/// A property that is written with these flags under this key, if it is there.
#[derive(Debug)]
pub struct Flagged<'a, P>(pub u32, pub PropertyFlags, pub Option<&'a P>);

impl<P: ExactSerialize, R: SerializeProperties> SerializeProperties for (Flagged<'_, P>, R) {
    fn write_properties<O: PodOutput>(&self, out: &mut O) -> Result<(), GenError> {
        let (Flagged(key, flags, value), others) = self;
        if let Some(value) = value {
            put_two(out, *key, flags.bits())?;
            value.write_exactly(out)?;
        }
        others.write_properties(out)
    }
}

/// A member of a struct that may be missing, with all behind it.
#[derive(Debug)]
pub struct Trailing<P>(pub Option<P>);

/// Members that may be missing, up to `()`.
pub trait MayEnd {
    /// Whether all are missing.
    fn is_ended(&self) -> bool;
}

impl MayEnd for () {
    fn is_ended(&self) -> bool {
        true
    }
}

impl<P, R: MayEnd> MayEnd for (Trailing<P>, R) {
    fn is_ended(&self) -> bool {
        self.0.0.is_none() && self.1.is_ended()
    }
}

impl<'de, P: ExactDeserialize<'de>, R: DeserializeMembers<'de>> DeserializeMembers<'de> for (Trailing<P>, R) {
    fn read_members(reader: &mut StructPodDeserializer<'de>) -> Result<Self, DeserializeError<&'de [u8]>> {
        let found = reader.deserialize_field()?;
        Ok((Trailing(found), R::read_members(reader)?))
    }
}

impl<P: ExactSerialize, R: SerializeMembers + MayEnd> SerializeMembers for (Trailing<&P>, R) {
    fn write_members<O: PodOutput>(&self, out: &mut O) -> Result<(), GenError> {
        match &self.0.0 {
            Some(member) => member.write_exactly(out)?,
            None if self.1.is_ended() => return Ok(()),
            None => return Err(GenError::WrongCount),
        }
        self.1.write_members(out)
    }
}
