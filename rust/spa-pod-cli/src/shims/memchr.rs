//! Bytes that are looked for, many at once.

/// The lowest bit of each byte of a word.
const ONES: u64 = u64::MAX / 255;

/// The first place of a byte.
pub fn memchr(needle: u8, text: &[u8]) -> Option<usize> {
    let mut left = text;
    // All of these bytes are compared, so that many are at once.
    while let Some((many, behind)) = left.split_first_chunk::<64>() {
        if many.iter().fold(false, |found, byte| found | (*byte == needle)) {
            break;
        }
        left = behind;
    }
    let mut at = text.len() - left.len();
    while let Some((eight, behind)) = left.split_first_chunk() {
        let bytes = u64::from_le_bytes(*eight) ^ (ONES * u64::from(needle));
        let found = bytes.wrapping_sub(ONES) & !bytes & (ONES * 0x80);
        if found != 0 {
            return Some(at + found.trailing_zeros() as usize / 8);
        }
        (at, left) = (at + 8, behind);
    }
    Some(at + left.iter().position(|byte| *byte == needle)?)
}

#[cfg(test)]
mod tests {
    use super::memchr;

    /// The answers are those of a search byte by byte, for each place in texts of each length up to three blocks.
    #[test]
    fn the_first_place_is_found() {
        for len in 0..200 {
            for place in 0..len {
                let mut text = vec![b'\n' ^ 1; len];
                text[place] = b'\n';
                text[len - 1] = if place % 2 == 0 { b'\n' } else { text[len - 1] };
                assert_eq!(memchr(b'\n', &text), Some(place));
            }
            assert_eq!(memchr(b'\n', &vec![0x8a; len]), None);
        }
    }
}
