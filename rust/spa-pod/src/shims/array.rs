//! Bytes of a fixed capacity.
use core::fmt;
use core::ops::{Deref, DerefMut};

/// Up to `N` bytes, which a writer fills without asking for memory.
#[derive(Clone, Copy)]
pub struct ArrayVec<T, const N: usize> {
    bytes: [T; N],
    len: usize,
}

/// The bytes don't fit.
#[derive(Clone, Copy, Debug, PartialEq, Eq)]
pub struct CapacityError;

impl fmt::Display for CapacityError {
    fn fmt(&self, f: &mut fmt::Formatter<'_>) -> fmt::Result {
        f.write_str("insufficient capacity")
    }
}

impl core::error::Error for CapacityError {}

impl<const N: usize> ArrayVec<u8, N> {
    /// No bytes.
    #[must_use]
    pub const fn new() -> Self {
        ArrayVec { bytes: [0; N], len: 0 }
    }

    /// How many bytes it holds.
    #[inline(always)]
    #[must_use]
    pub fn len(&self) -> usize {
        self.len
    }

    /// Whether it holds none.
    #[must_use]
    pub fn is_empty(&self) -> bool {
        self.len == 0
    }

    /// How many more it takes.
    #[inline(always)]
    #[must_use]
    pub fn remaining_capacity(&self) -> usize {
        N - self.len
    }

    /// The bytes.
    #[inline(always)]
    #[must_use]
    pub fn as_slice(&self) -> &[u8] {
        &self.bytes[..self.len]
    }

    /// Puts these bytes at the end.
    ///
    /// # Errors
    /// Where they don't fit: then none of them is put there.
    #[inline(always)]
    pub fn try_extend_from_slice(&mut self, xs: &[u8]) -> Result<(), CapacityError> {
        if xs.len() > N - self.len {
            return Err(CapacityError);
        }
        self.bytes[self.len..self.len + xs.len()].copy_from_slice(xs);
        self.len += xs.len();
        Ok(())
    }

    /// Puts a byte at the end.
    ///
    /// # Errors
    /// Where it doesn't fit.
    pub fn try_push(&mut self, x: u8) -> Result<(), CapacityError> {
        self.try_extend_from_slice(&[x])
    }
}

impl<const N: usize> Default for ArrayVec<u8, N> {
    fn default() -> Self {
        ArrayVec::new()
    }
}

impl<const N: usize> Deref for ArrayVec<u8, N> {
    type Target = [u8];

    #[inline(always)]
    fn deref(&self) -> &[u8] {
        &self.bytes[..self.len]
    }
}

impl<const N: usize> DerefMut for ArrayVec<u8, N> {
    #[inline(always)]
    fn deref_mut(&mut self) -> &mut [u8] {
        &mut self.bytes[..self.len]
    }
}

impl<const N: usize> PartialEq for ArrayVec<u8, N> {
    fn eq(&self, other: &Self) -> bool {
        self.as_slice() == other.as_slice()
    }
}

impl<const N: usize> Eq for ArrayVec<u8, N> {}

impl<const N: usize> fmt::Debug for ArrayVec<u8, N> {
    fn fmt(&self, f: &mut fmt::Formatter<'_>) -> fmt::Result {
        self.as_slice().fmt(f)
    }
}

#[cfg(feature = "std")]
impl<const N: usize> std::io::Write for ArrayVec<u8, N> {
    fn write(&mut self, xs: &[u8]) -> std::io::Result<usize> {
        let count = xs.len().min(self.remaining_capacity());
        self.bytes[self.len..self.len + count].copy_from_slice(&xs[..count]);
        self.len += count;
        Ok(count)
    }

    fn flush(&mut self) -> std::io::Result<()> {
        Ok(())
    }
}
