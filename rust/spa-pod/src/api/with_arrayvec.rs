//! Arrays of the crate arrayvec as outputs, behind the feature `arrayvec`.
use crate::pod::serialize::{GenError, PodOutput, PodSink};
use arrayvec::ArrayVec;

/// Refused as `Full` where the bytes don't fit: then none of them is appended.
#[cfg_attr(docsrs, doc(cfg(feature = "arrayvec")))]
impl<const N: usize> PodSink for ArrayVec<u8, N> {
    fn append(&mut self, bytes: &[u8]) -> Result<(), GenError> {
        self.try_extend_from_slice(bytes).map_err(|_| GenError::Full)
    }

    fn room(&self) -> Option<usize> {
        Some(self.remaining_capacity())
    }
}

#[cfg_attr(docsrs, doc(cfg(feature = "arrayvec")))]
impl<const N: usize> PodOutput for ArrayVec<u8, N> {
    fn len(&self) -> usize {
        self.as_slice().len()
    }

    fn overwrite(&mut self, at: usize, bytes: [u8; 4]) {
        self[at..at + bytes.len()].copy_from_slice(&bytes);
    }
}
