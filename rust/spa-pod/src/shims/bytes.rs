//! What core has slower, or only since Rust 1.87 or 1.88.

/// Bytes that are looked at many at once.
pub trait Bytes {
    /// Whether one of them is NUL.
    fn has_nul(&self) -> bool;
    /// The elements of `N` bytes each, and what is left behind them.
    fn in_chunks<const N: usize>(&self) -> (Chunks<'_, N>, &[u8]);
}

/// Elements of `N` bytes each, one behind another.
#[derive(Clone, Copy)]
pub struct Chunks<'a, const N: usize>(&'a [u8]);

#[allow(clippy::len_without_is_empty)]
impl<'a, const N: usize> Chunks<'a, N> {
    /// How many there are.
    #[inline(always)]
    pub fn len(self) -> usize {
        self.0.len() / N
    }

    /// The first of them.
    #[inline(always)]
    pub fn first(self) -> Option<&'a [u8; N]> {
        self.0.first_chunk()
    }

    /// One after another, in a form that rustc does many of at once.
    #[inline(always)]
    pub fn iter(self) -> impl Iterator<Item = &'a [u8; N]> {
        self.0.chunks_exact(N).map(|element| {
            let Ok(element) = element.try_into() else { unreachable!() };
            element
        })
    }
}

#[allow(clippy::copy_iterator)]
impl<'a, const N: usize> Iterator for Chunks<'a, N> {
    type Item = &'a [u8; N];

    #[inline(always)]
    fn next(&mut self) -> Option<&'a [u8; N]> {
        let (first, left) = self.0.split_first_chunk()?;
        self.0 = left;
        Some(first)
    }
}

/// Numbers as others of the same bits.
pub trait Signs: Copy {
    /// Those with a sign.
    type Signed;
    /// Those without.
    type Unsigned;
    /// The number with a sign.
    fn to_signed(self) -> Self::Signed;
    /// The number without.
    fn to_unsigned(self) -> Self::Unsigned;
}

macro_rules! signs {
    ($($type_:ty, $signed:ty, $unsigned:ty;)*) => {
        $(impl Signs for $type_ {
            type Signed = $signed;
            type Unsigned = $unsigned;

            #[inline(always)]
            fn to_signed(self) -> $signed {
                self as $signed
            }

            #[inline(always)]
            fn to_unsigned(self) -> $unsigned {
                self as $unsigned
            }
        })*
    };
}
signs! {
    u32, i32, u32;
    i32, i32, u32;
    u64, i64, u64;
    i64, i64, u64;
}

/// Whether one of so many bytes is NUL, without a branch: the compiler compares them all at once.
#[inline(always)]
fn is_in<const N: usize>(bytes: &[u8; N]) -> bool {
    bytes.iter().fold(false, |found, byte| found | (*byte == 0))
}

impl Bytes for [u8] {
    /// Sixteen bytes at a time, the last of which may be among those before them. Rust's `contains` goes byte by byte up to an aligned
    /// place and behind the last one.
    #[inline(always)]
    fn has_nul(&self) -> bool {
        if let Some(last) = self.last_chunk::<16>() {
            let mut left = self;
            while let Some((first, rest)) = left.split_first_chunk::<16>() {
                if is_in(first) {
                    return true;
                }
                left = rest;
            }
            return is_in(last);
        }
        if let (Some(first), Some(last)) = (self.first_chunk::<8>(), self.last_chunk::<8>()) {
            return is_in(first) | is_in(last);
        }
        if let (Some(first), Some(last)) = (self.first_chunk::<4>(), self.last_chunk::<4>()) {
            return is_in(first) | is_in(last);
        }
        self.contains(&0)
    }

    #[inline(always)]
    fn in_chunks<const N: usize>(&self) -> (Chunks<'_, N>, &[u8]) {
        let (elements, left) = self.split_at(self.len() / N * N);
        (Chunks(elements), left)
    }
}

#[cfg(test)]
mod tests {
    use super::Bytes;

    #[test]
    fn a_nul_is_found_wherever_it_is() {
        for len in 0..=40 {
            // The bytes around 0, and the highest bit alone.
            for filler in [1, 0x7f, 0x80, 0x81, 0xff] {
                let mut room = [filler; 40];
                assert!(!room[..len].has_nul(), "{len} bytes");
                for at in 0..len {
                    room[at] = 0;
                    assert!(room[..len].has_nul(), "{at} of {len} bytes");
                    assert!(!room[at + 1..len].has_nul(), "behind {at} of {len} bytes");
                    room[at] = filler;
                }
            }
        }
    }
}
