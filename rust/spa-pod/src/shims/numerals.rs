//! Numbers and bytes as digits, and back.
use super::array::ArrayVec;
use super::memory::AllocError;
use alloc::string::String;
use alloc::vec::Vec;
use core::{fmt, fmt::Write, str::FromStr, str::from_utf8};

pub const DIGITS: &[u8; 16] = b"0123456789abcdef";

/// A text isn't what is read of it, or memory was refused.
pub enum FromHexError {
    OutOfMemory,
    NoDigits,
}

/// The number that a text is.
pub fn parse<T: FromStr, S: AsRef<[u8]>>(text: S) -> Result<T, FromHexError> {
    from_utf8(text.as_ref()).ok().and_then(|text| text.parse().ok()).ok_or(FromHexError::NoDigits)
}

/// The number that a few digits are.
#[inline(always)]
fn few_digits(text: &[u8]) -> Option<u64> {
    if !(1..=18).contains(&text.len()) {
        return None;
    }
    text.iter().try_fold(0, |number, letter| {
        let digit = letter.wrapping_sub(b'0');
        (digit < 10).then_some(10 * number + u64::from(digit))
    })
}

pub fn parse_u64(text: &[u8]) -> Result<u64, FromHexError> {
    few_digits(text).map_or_else(|| parse(text), Ok)
}

pub fn parse_i64(text: &[u8]) -> Result<i64, FromHexError> {
    let number = match text {
        [b'-', digits @ ..] => few_digits(digits).map(|number| -(number as i64)),
        _ => few_digits(text).map(|number| number as i64),
    };
    number.map_or_else(|| parse(text), Ok)
}

/// Room for the digits of a number.
pub struct Buffer(ArrayVec<u8, 32>);

impl Write for Buffer {
    fn write_str(&mut self, text: &str) -> fmt::Result {
        self.0.try_extend_from_slice(text.as_bytes()).map_err(|_| fmt::Error)
    }
}

impl Buffer {
    pub fn new() -> Buffer {
        Buffer(ArrayVec::new())
    }

    /// The digits of a number; of a float, the fewest that give it back: `0.1`, `-12.0`, `1.5e30`, `inf`.
    pub fn format<T: Number>(&mut self, number: T) -> &str {
        self.0 = ArrayVec::new();
        number.put(self).ok().and_then(|()| from_utf8(&self.0).ok()).unwrap_or_default()
    }
}

/// What has digits.
pub trait Number: Copy {
    fn put(self, buffer: &mut Buffer) -> fmt::Result;
}
pub use Number as Float;

macro_rules! numbers {
    ($($($type_:ident)* => |$number:ident, $buffer:ident| $put:expr;)*) => {
        $($(impl Number for $type_ {
            fn put(self, $buffer: &mut Buffer) -> fmt::Result {
                let $number = self;
                $put
            }
        })*)*
    };
}
// Core writes other floats than these as is wanted, too.
numbers! {
    u32 usize => |number, buffer| write!(buffer, "{number}");
    f32 => |number, buffer| match number.abs() {
        1e-6..1e-4 => write!(buffer, "{number}"),
        1e13..=f32::MAX => write!(buffer, "{number:e}"),
        _ => write!(buffer, "{number:?}"),
    };
    f64 => |number, buffer| if (1e-5..1e-4).contains(&number.abs()) { write!(buffer, "{number}") } else { write!(buffer, "{number:?}") };
}

/// Two digits for each of these bytes.
pub fn encode(bytes: &[u8]) -> Result<String, AllocError> {
    let mut text = String::new();
    text.try_reserve_exact(2 * bytes.len()).map_err(|_| AllocError)?;
    text.extend(bytes.iter().flat_map(|byte| [byte >> 4, byte & 15]).map(|digit| char::from(DIGITS[usize::from(digit)])));
    Ok(text)
}

/// The bytes of these digits, whose letters are small or large.
pub fn decode(digits: &str) -> Result<Vec<u8>, FromHexError> {
    let bytes = crate::try_vec![0; digits.len() / 2].map_err(|_| FromHexError::OutOfMemory)?;
    filled(bytes, digits.as_bytes())
}

fn filled<B: AsMut<[u8]>>(mut bytes: B, digits: &[u8]) -> Result<B, FromHexError> {
    let digit = |letter: u8| char::from(letter).to_digit(16).ok_or(FromHexError::NoDigits);
    for (byte, pair) in bytes.as_mut().iter_mut().zip(digits.chunks_exact(2)) {
        *byte = (digit(pair[0])? * 16 + digit(pair[1])?) as u8;
    }
    if digits.len() == 2 * bytes.as_mut().len() { Ok(bytes) } else { Err(FromHexError::NoDigits) }
}

/// What digits give.
pub trait FromHex: AsMut<[u8]> + Default {
    fn from_hex(digits: &[u8]) -> Result<Self, FromHexError> {
        filled(Self::default(), digits)
    }
}

impl FromHex for [u8; 4] {}
impl FromHex for [u8; 8] {}
