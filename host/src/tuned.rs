//! The Rust's job as a good engineer would write it around the two passes, to be timed beside `sheet` and `lists`: words are read where
//! they lie, a name becomes a text once, many names are told apart by hashing, vectors are made as long as they get, and the listing is
//! written without format strings.
use crate::format::{Read, Reader, check, span_of};
use crate::lists;
use crate::sheet::{KINDS, TRAILER, places, word};
use cyrs_diag::Diagnostic;
use cyrs_hir::{Binding, Statement, VarId};
use smol_str::SmolStr;
use std::collections::HashSet;
use std::hash::{BuildHasher, Hasher};

/// The whole job: a sheet's listing, or its refusal.
pub fn answer(bytes: &[u8], warnings: bool) -> Read<Vec<u8>> {
    Ok(listing(&lists::run(&read(bytes)?, warnings).findings))
}

fn read(bytes: &[u8]) -> Read<Statement> {
    check(bytes.len() % 4 == 0 && (40..=8192).contains(&bytes.len()), 1)?;
    let (words, _) = bytes.as_chunks();
    let (sections, trailer) = words.split_at(words.len() - TRAILER);
    let trailer: [u32; TRAILER] = std::array::from_fn(|at| u32::from_le_bytes(trailer[at]));
    let [bindings, head, arms] = places(sections.len(), &trailer)?;
    let mut statement = Statement::new(span_of(trailer[8], trailer[9], 2)?);
    let names = read_names(&bytes[..4 * bindings], trailer[1])?;
    read_bindings(&sections[bindings..head], trailer[3], &names, &mut statement)?;
    let mut reader = Bytes { words: &sections[head..arms], names: &names };
    statement.clauses = reader.repeat(trailer[5], Bytes::clause)?;
    reader.used_up()?;
    reader.words = &sections[arms..];
    statement.unions = reader.repeat(trailer[7], Bytes::arm)?;
    reader.used_up()?;
    Ok(statement)
}

/// Up to so many names are compared one by one.
const FEW: usize = 12;

fn read_names(mut section: &[u8], count: u32) -> Read<Vec<SmolStr>> {
    let most = (section.len() / 4).min(count as usize);
    let mut names: Vec<SmolStr> = Vec::with_capacity(most);
    let mut seen = HashSet::with_capacity_and_hasher(if most > FEW { most } else { 0 }, Quick(0));
    for _ in 0..count {
        let (front, rest) = section.split_at_checked(4).ok_or(3u32)?;
        let length = word(front) as usize;
        check(length <= 255, 3)?;
        let (padded, rest) = rest.split_at_checked(length.next_multiple_of(4)).ok_or(3u32)?;
        check(padded[length..].iter().all(|byte| *byte == 0), 3)?;
        let name = std::str::from_utf8(&padded[..length]).map_err(|_| 3u32)?;
        let is_new = if most > FEW { seen.insert(name) } else { names.iter().all(|other| other != name) };
        check(is_new, 3)?;
        names.push(SmolStr::new(name));
        section = rest;
    }
    check(section.is_empty(), 3)?;
    Ok(names)
}

fn read_bindings(section: &[[u8; 4]], count: u32, names: &[SmolStr], statement: &mut Statement) -> Read<()> {
    check(section.len() as u64 == 5 * u64::from(count), 4)?;
    if count > 0 {
        statement.bindings.reserve(count as usize);
    }
    for row in section.chunks_exact(5) {
        let row: [u32; 5] = std::array::from_fn(|at| u32::from_le_bytes(row[at]));
        let id = VarId(row[0]);
        let name = names.get(row[1] as usize).ok_or(4u32)?.clone();
        let kind = *KINDS.get((row[2] as usize).wrapping_sub(1)).ok_or(4u32)?;
        let defined_at = span_of(row[3], row[4], 4)?;
        let earlier = statement.bindings.insert(id, Binding { id, name, kind, defined_at });
        check(earlier.is_none(), 4)?;
    }
    Ok(())
}

/// The words of a section that are still to be read, and the names.
struct Bytes<'a> {
    words: &'a [[u8; 4]],
    names: &'a [SmolStr],
}

impl Reader for Bytes<'_> {
    fn word(&mut self) -> Read<u32> {
        let (first, rest) = self.words.split_first().ok_or(5u32)?;
        self.words = rest;
        Ok(u32::from_le_bytes(*first))
    }

    fn is_empty(&self) -> bool {
        self.words.is_empty()
    }

    fn names(&self) -> usize {
        self.names.len()
    }

    fn name_at(&self, at: usize) -> SmolStr {
        self.names[at].clone()
    }

    fn repeat<T>(&mut self, count: u32, mut one: impl FnMut(&mut Self) -> Read<T>) -> Read<Vec<T>> {
        let mut all = Vec::with_capacity((count as usize).min(self.words.len()));
        for _ in 0..count {
            all.push(one(self)?);
        }
        Ok(all)
    }
}

/// A hash of a text's eight bytes at a time, quicker than the standard one.
#[derive(Clone, Copy)]
struct Quick(u64);

impl BuildHasher for Quick {
    type Hasher = Quick;

    fn build_hasher(&self) -> Quick {
        *self
    }
}

impl Quick {
    fn add(&mut self, word: u64) {
        self.0 = (self.0.rotate_left(5) ^ word).wrapping_mul(0x517C_C1B7_2722_0A95);
    }
}

impl Hasher for Quick {
    fn write(&mut self, bytes: &[u8]) {
        for part in bytes.chunks(8) {
            let mut word = [0; 8];
            word[..part.len()].copy_from_slice(part);
            self.add(u64::from_le_bytes(word));
        }
    }

    fn write_u8(&mut self, byte: u8) {
        self.add(byte.into());
    }

    fn finish(&self) -> u64 {
        self.0.rotate_left(26)
    }
}

fn listing(findings: &[Diagnostic]) -> Vec<u8> {
    let mut text = Vec::with_capacity(20 + findings.iter().map(|d| d.message.len() + 30).sum::<usize>());
    text.extend(b"findings ");
    number(&mut text, findings.len() as u32);
    text.push(b'\n');
    for d in findings {
        text.push(b'E');
        number(&mut text, d.code as u32);
        text.push(b' ');
        number(&mut text, d.span.start().into());
        text.push(b' ');
        number(&mut text, d.span.end().into());
        text.push(b' ');
        text.extend(d.message.as_bytes());
        text.push(b'\n');
    }
    text
}

fn number(text: &mut Vec<u8>, mut rest: u32) {
    let mut digits = [0; 10];
    let mut at = digits.len();
    loop {
        at -= 1;
        digits[at] = b'0' + (rest % 10) as u8;
        rest /= 10;
        if rest == 0 {
            break;
        }
    }
    text.extend(&digits[at..]);
}
