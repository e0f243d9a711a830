//! Sizes and extents on targets whose `usize` has 32 bits: there a size word can name more bytes than a slice can have.

/// The greatest size of a body whose pod, with its header and padding, a slice can have. With 64 bits it is any.
pub const MOST: usize = if usize::BITS > 32 { u32::MAX as usize } else { isize::MAX as usize - 15 };

/// An extent that no slice has. A few more bytes still fit a `usize`.
pub const BEYOND: usize = isize::MAX as usize + 1;

/// The least number that a size word can't hold, or more than a slice can have.
pub const SIZE_LIMIT: usize = if usize::BITS > 32 { (u32::MAX as usize).wrapping_add(1) } else { BEYOND };

/// The extent of a pod whose body has so many bytes, also where no slice has it.
pub const fn wide_extent_of(size: u32) -> u64 {
    8 + (size as u64).div_ceil(8) * 8
}

#[cfg(test)]
mod tests {
    use super::{BEYOND, MOST, SIZE_LIMIT, wide_extent_of};
    use crate::parts::spa_bytes::extent_of;

    #[test]
    fn an_extent_is_exact_or_that_of_no_slice() {
        for size in [0, 1, 8, 9, 0x7fff_fff0, 0x7fff_fff1, 0x7fff_ffff, 0x8000_0000, 0xffff_fff8, u32::MAX] {
            let wanted = usize::try_from(wide_extent_of(size)).ok().filter(|extent| *extent <= isize::MAX as usize);
            assert_eq!(extent_of(size), wanted.unwrap_or(BEYOND), "{size}");
            assert_eq!(wanted.is_some(), size as usize <= MOST, "{size}");
        }
        // As docs/FORMAT.md has it.
        assert_eq!((wide_extent_of(u32::MAX), wide_extent_of(9), wide_extent_of(0)), (4_294_967_304, 24, 8));
        assert!(SIZE_LIMIT > MOST && BEYOND.checked_add(32).is_some());
    }
}
