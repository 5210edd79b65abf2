//! Bytes that were never a sheet.
use crate::damage::to_bytes;
use crate::random::Random;
use crate::sheet::Sheet;

/// Any bytes, any words, or small words as sections that a trailer fits.
pub fn noise(random: &mut Random) -> Vec<u8> {
    let most = if random.one_in(2) { 100 } else { 2060 };
    match random.below(3) {
        0 => (0..random.below(4 * most)).map(|_| random.word() as u8).collect(),
        1 => to_bytes(&words(random, most, u32::MAX)),
        _ => to_bytes(&sections(random, most / 5).words()),
    }
}

/// Fewer than so many words, each below a limit.
fn words(random: &mut Random, most: u32, limit: u32) -> Vec<u32> {
    (0..random.below(most)).map(|_| random.below(limit)).collect()
}

/// Four sections of fewer than so many words each, about half of them empty.
fn sections(random: &mut Random, most: u32) -> Sheet {
    let sections = [(); 4].map(|()| {
        let (most, limit) = (if random.one_in(2) { 1 } else { most }, random.pick(&[2, 4, 30]));
        words(random, most, limit)
    });
    let counts = [(); 4].map(|()| random.below(3));
    Sheet { sections, counts, span: [0, random.word()] }
}
