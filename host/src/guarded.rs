//! Memory to lend from: bytes with a known pattern, between two parts of memory that may be neither read nor written.
use generator::Random;
use std::ops::Range;

// Linux's.
const NO_ACCESS: i32 = 0;
const READ: i32 = 1;
const WRITE: i32 = 2;
const PRIVATE_ANONYMOUS: i32 = 0x22;

unsafe extern "C" {
    fn mmap(at: *mut u8, length: usize, access: i32, flags: i32, file: i32, offset: i64) -> *mut u8;
    fn mprotect(at: *mut u8, length: usize, access: i32) -> i32;
}

/// Bytes of each inaccessible part; a multiple of every usual page size.
const GUARD: usize = 1 << 16;
/// Bytes on each side of a lent part that are looked at after a call.
const MARGIN: usize = 4096;

/// Where in the memory a part is lent.
#[derive(Clone, Copy)]
pub enum Place {
    /// Its first byte is the first one that may be touched.
    First,
    /// Anywhere, with the pattern on both sides.
    Between,
    /// Its last byte is the last one that may be touched.
    Last,
}

pub struct Guarded {
    pub bytes: &'static mut [u8],
    pattern: Vec<u8>,
}

impl Guarded {
    /// So many bytes, a multiple of GUARD.
    pub fn new(length: usize, random: &mut Random) -> Self {
        // Safety: the memory is new, stays for good and is only had as these bytes, which may be read and written.
        let bytes = unsafe {
            let all = mmap(std::ptr::null_mut(), length + 2 * GUARD, NO_ACCESS, PRIVATE_ANONYMOUS, -1, 0);
            assert!(all.addr() != usize::MAX, "no memory");
            let begin = all.add(GUARD);
            assert!(mprotect(begin, length, READ | WRITE) == 0, "memory that can't be written");
            std::slice::from_raw_parts_mut(begin, length)
        };
        bytes.fill_with(|| random.word() as u8);
        Self { pattern: bytes.to_vec(), bytes }
    }

    /// Lets the bytes be written to, or only read.
    pub fn writable(&mut self, is: bool) {
        let access = if is { READ | WRITE } else { READ };
        // Safety: these are all the bytes that were made accessible.
        assert!(unsafe { mprotect(self.bytes.as_mut_ptr(), self.bytes.len(), access) } == 0, "memory that can't be protected");
    }

    /// Where so many bytes lie.
    pub fn part(&self, place: Place, length: usize, random: &mut Random) -> Range<usize> {
        let room = self.bytes.len() - length;
        let start = match place {
            Place::First => 0,
            Place::Between => random.at(room + 1),
            Place::Last => room,
        };
        start..start + length
    }

    /// Where so many words lie.
    pub fn words(&self, place: Place, length: usize, random: &mut Random) -> Range<usize> {
        let part = self.part(place, 4 * length, random);
        let start = part.start / 4 * 4;
        start..start + 4 * length
    }

    /// A part that holds words.
    pub fn as_words(&mut self, part: &Range<usize>) -> &mut [u32] {
        // Safety: any four bytes are a word.
        let (before, words, after) = unsafe { self.bytes[part.clone()].align_to_mut() };
        assert!(before.is_empty() && after.is_empty(), "a part that begins and ends with a word");
        words
    }

    /// Puts the pattern back.
    pub fn restore(&mut self, part: Range<usize>) {
        self.bytes[part.clone()].copy_from_slice(&self.pattern[part]);
    }

    /// Whether some bytes have the pattern.
    pub fn kept(&self, part: Range<usize>) -> bool {
        self.bytes[part.clone()] == self.pattern[part]
    }

    /// Whether the bytes around a part have the pattern.
    pub fn kept_around(&self, part: &Range<usize>) -> bool {
        let end = (part.end + MARGIN).min(self.bytes.len());
        self.kept(part.start.saturating_sub(MARGIN)..part.start) && self.kept(part.end..end)
    }

    pub fn kept_all(&self) -> bool {
        self.kept(0..self.bytes.len())
    }
}
