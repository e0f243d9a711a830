//! Floats by their bits, and Rust's own.
use crate::utils::{Float32, Float64};
#[cfg(not(feature = "parts"))]
use core::fmt::Debug;
use core::fmt::{Display, Formatter, Result};

macro_rules! float_by_bits {
    ($($name:ident: $float:ty),*) => { $(
        impl From<$float> for $name {
            fn from(number: $float) -> $name {
                $name(number.to_bits())
            }
        }

        impl From<$name> for $float {
            fn from(bits: $name) -> $float {
                <$float>::from_bits(bits.0)
            }
        }

        /// The number, and not its bits.
        impl Display for $name {
            fn fmt(&self, f: &mut Formatter<'_>) -> Result {
                Display::fmt(&<$float>::from_bits(self.0), f)
            }
        }

        /// The number, and of a NaN its bits: floats are equal where their bits are.
        #[cfg(not(feature = "parts"))]
        impl Debug for $name {
            fn fmt(&self, f: &mut Formatter<'_>) -> Result {
                let number = <$float>::from_bits(self.0);
                if number.is_nan() {
                    return write!(f, "NaN({:#x})", self.0);
                }
                Debug::fmt(&number, f)
            }
        }
    )* };
}

float_by_bits!(Float32: f32, Float64: f64);

#[cfg(test)]
mod tests {
    use super::{Float32, Float64};
    use alloc::format;

    #[test]
    fn floats_are_their_bits() {
        // By IEEE 754: 1 is the exponent 127, or 1023, and no fraction.
        assert_eq!(Float32::from(1.0), Float32(127 << 23));
        assert_eq!(Float64::from(1.0), Float64(1023 << 52));
        assert_eq!(f32::from(Float32(1 << 31)).to_bits(), (-0.0_f32).to_bits());
        assert_eq!(format!("{} {}", Float32::from(0.5), Float64::from(-2.0)), "0.5 -2");
    }
}
