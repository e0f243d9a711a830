//! Sets of flags, each a number.

/// A flag with its name.
pub struct Flag<B> {
    /// The name.
    pub name: &'static str,
    /// The flag.
    pub value: B,
}

/// A set of flags. The inherent calls do the same; the tests call these.
#[allow(dead_code)]
pub trait Flags: Sized + 'static {
    /// The number.
    type Bits;

    /// The flags that have names.
    fn flags<'a>() -> &'a [Flag<Self>];
    /// The number.
    fn bits(&self) -> Self::Bits;
    /// The set of this number, whatever its bits mean.
    fn from_bits_retain(bits: Self::Bits) -> Self;
}

/// The constants of a set of flags, its operators, and the calls that the crate bitflags gives such a type.
macro_rules! bitflag_items {
    ($(impl $name:ident: $bits:ty { $($(#[$($attr:tt)*])* const $flag:ident = $value:expr;)* })*) => { $(
        impl $name {
            $($(#[$($attr)*])* pub const $flag: $name = $name($value);)*

            pub(crate) const FLAGS: &'static [$crate::shims::flags::Flag<$name>] =
                &[$($crate::shims::flags::Flag { name: stringify!($flag), value: $name::$flag }),*];

            /// The number.
            #[inline(always)]
            pub const fn bits(&self) -> $bits {
                self.0
            }

            /// The set of this number, whatever its bits mean.
            #[inline(always)]
            pub const fn from_bits_retain(bits: $bits) -> $name {
                $name(bits)
            }

            /// The empty set.
            #[inline(always)]
            pub const fn empty() -> $name {
                $name(0)
            }

            /// The flag of this name.
            pub fn from_name(name: &str) -> Option<$name> {
                $name::FLAGS.iter().find(|flag| flag.name == name).map(|flag| flag.value)
            }

            /// Whether it is empty.
            #[inline(always)]
            pub const fn is_empty(&self) -> bool {
                self.0 == 0
            }

            /// Whether it has all of these.
            #[inline(always)]
            pub const fn contains(&self, other: $name) -> bool {
                self.0 & other.0 == other.0
            }

            /// Whether it has one of these.
            #[inline(always)]
            pub const fn intersects(&self, other: $name) -> bool {
                self.0 & other.0 != 0
            }

            /// What both have.
            #[inline(always)]
            pub const fn intersection(self, other: $name) -> $name {
                $name(self.0 & other.0)
            }

            /// What either has.
            #[inline(always)]
            pub const fn union(self, other: $name) -> $name {
                $name(self.0 | other.0)
            }

            /// What it has and the other hasn't.
            #[inline(always)]
            pub const fn difference(self, other: $name) -> $name {
                $name(self.0 & !other.0)
            }
        }

        impl core::ops::BitOr for $name {
            type Output = $name;

            #[inline(always)]
            fn bitor(self, other: $name) -> $name {
                self.union(other)
            }
        }

        impl core::ops::BitOrAssign for $name {
            #[inline(always)]
            fn bitor_assign(&mut self, other: $name) {
                *self = self.union(other);
            }
        }

        impl core::ops::BitAnd for $name {
            type Output = $name;

            #[inline(always)]
            fn bitand(self, other: $name) -> $name {
                self.intersection(other)
            }
        }

        impl core::ops::Sub for $name {
            type Output = $name;

            #[inline(always)]
            fn sub(self, other: $name) -> $name {
                self.difference(other)
            }
        }

        impl Default for $name {
            fn default() -> $name {
                $name::empty()
            }
        }
    )* };
}
pub(crate) use bitflag_items;
