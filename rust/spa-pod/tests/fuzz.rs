//! What the fuzz target checks, over pods of which each byte and each word is changed.
#[path = "../fuzz/checked.rs"]
mod checked;

fn bytes(words: &[u32]) -> Vec<u8> {
    words.iter().flat_map(|word| word.to_le_bytes()).collect()
}

#[test]
fn what_the_fuzz_target_checks_holds() {
    // A format; a struct of a text, an array and a choice; None choices over an array and a text, and a text with two NULs.
    let seeds = [
        bytes(&[56, 15, 262_147, 4, 65_539, 0, 4, 4, 48000, 0, 65_540, 0, 20, 19, 0, 0, 4, 4, 2, 0]),
        bytes(&[96, 14, 3, 8, 0x6261, 0, 12, 13, 4, 4, 1, 0, 28, 19, 1, 0, 4, 4, 1, 0, 9, 0, 16, 17, 1, 2, 3, 4]),
        bytes(&[32, 19, 0, 0, 16, 13, 4, 3, 3, 4]),
        bytes(&[40, 14, 20, 19, 0, 0, 3, 8, 0x61, 0, 3, 8, 0x61, 0]),
    ];
    for seed in seeds {
        checked::check(&seed);
        for at in 0..seed.len() {
            checked::check(&seed[..at]);
            for byte in [0, 1, 3, 4, 8, 14, 15, 19, 0x7f, 0x80, 0xff] {
                let mut changed = seed.clone();
                changed[at] = byte;
                checked::check(&changed);
                let mut word = seed.clone();
                word[at / 4 * 4..][..4].copy_from_slice(&[byte; 4]);
                checked::check(&word);
            }
        }
    }
    // Structs in one another, to 1000 levels and deeper.
    for levels in [999_u32, 1000, 1001, 5000] {
        checked::check(&(0..levels).rev().flat_map(|inner| bytes(&[inner * 8, 14])).collect::<Vec<u8>>());
    }
}
