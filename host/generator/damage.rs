//! Damage to a sheet.
use crate::random::Random;
use crate::sheet::{Sheet, TRAILER};

/// The bytes of a sheet with a change, sometimes two: in a section, in the words or in the bytes.
pub fn damaged(random: &mut Random, mut sheet: Sheet) -> Vec<u8> {
    let first = random.below(8);
    let second = if random.one_in(4) { random.below(8) } else { first };
    if first.min(second) < 4 {
        in_section(random, &mut sheet);
    }
    let mut words = sheet.words();
    if (4..7).contains(&first) || (4..7).contains(&second) {
        in_words(random, &mut words);
    }
    let mut bytes = to_bytes(&words);
    if first.max(second) == 7 {
        in_bytes(random, &mut bytes);
    }
    bytes
}

pub fn to_bytes(words: &[u32]) -> Vec<u8> {
    words.iter().flat_map(|word| word.to_le_bytes()).collect()
}

/// A change within a section, or of its count; the trailer will fit it.
fn in_section(random: &mut Random, sheet: &mut Sheet) {
    let at = random.at(4);
    if random.one_in(12) {
        sheet.counts[at] = other(random, sheet.counts[at]);
        return;
    }
    let section = &mut sheet.sections[at];
    if section.is_empty() {
        return;
    }
    let at = random.at(section.len());
    match random.below(8) {
        0 => section.insert(at, random.below(30)),
        1 => drop(section.remove(at)),
        2 => section.truncate(at),
        3 => section[at] = random.pick(section),
        4 => section.swap(at, 0),
        5 => section.extend_from_within(at..),
        _ => section[at] = other(random, section[at]),
    }
}

/// A change anywhere, or in the trailer.
fn in_words(random: &mut Random, words: &mut Vec<u32>) {
    let at = random.at(words.len());
    let in_trailer = words.len() - TRAILER + random.at(TRAILER);
    match random.below(16) {
        0 => words.insert(at, other(random, words[at])),
        1 => words.truncate(at),
        2 => drop(words.drain(..at)),
        3 => words.swap(at, in_trailer),
        4 | 5 => words[in_trailer] = other(random, words[in_trailer]),
        6 => words.extend(vec![0; random.at(4096)]),
        _ => words[at] = other(random, words[at]),
    }
}

/// A word in another's place.
fn other(random: &mut Random, word: u32) -> u32 {
    match random.below(8) {
        0 => word.wrapping_add(1),
        1 => word.wrapping_sub(1),
        2 => word ^ 1 << random.below(32),
        3 => u32::MAX,
        4 => random.word(),
        _ => random.below(30),
    }
}

/// A byte changed, or some cut off. The bytes are often such as begin or end a character in UTF-8.
fn in_bytes(random: &mut Random, bytes: &mut Vec<u8>) {
    if bytes.is_empty() {
        return;
    }
    let at = random.at(bytes.len());
    if random.one_in(4) {
        bytes.truncate(at);
        return;
    }
    let front = random.at(bytes.len().min(40));
    let byte = random.pick(&[0, 0x7F, 0x80, 0xBF, 0xC0, 0xC1, 0xC3, 0xE0, 0xED, 0xEF, 0xF0, 0xF4, 0xF5, 0xFF]);
    bytes[if random.one_in(2) { at } else { front }] = byte;
}
