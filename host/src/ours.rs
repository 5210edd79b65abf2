//! The archives' C functions, on buffers that show what a call altered.
use std::fmt::{Display, Write};

unsafe extern "C" {
    fn cenguatu_listing(sheet: *const u8, sheet_len: usize, page: *mut u8, page_len: usize, warnings: u32) -> u32;
    fn cenguatu_check(
        sheet: *const u8,
        sheet_len: usize,
        warnings: u32,
        scopes: *mut u32,
        scopes_len: usize,
        bindings: *mut u32,
        bindings_len: usize,
        carried: *mut u32,
        carried_len: usize,
        recorded: *mut u32,
        recorded_len: usize,
        findings: *mut u32,
        findings_len: usize,
        counts: *mut usize,
    ) -> u32;
    fn cenguatu_lookup(
        scopes: *const u32,
        scopes_len: usize,
        scopes_count: usize,
        bindings: *const u32,
        bindings_len: usize,
        bindings_count: usize,
        carried: *const u32,
        carried_len: usize,
        carried_count: usize,
        scope: u32,
        name: u32,
        mark: u32,
        found: *mut u32,
    ) -> u32;
    fn cenguatu_scope_at_offset(scopes: *const u32, scopes_len: usize, count: usize, offset: u32) -> u64;
}

/// The C function's answer for a listing: 256 and the length of the text, or the refusal's number.
pub fn answer(sheet: &[u8], page: &mut [u8], warnings: u32) -> u32 {
    // Safety: the slices are valid for their lengths and don't overlap.
    unsafe { cenguatu_listing(sheet.as_ptr(), sheet.len(), page.as_mut_ptr(), page.len(), warnings) }
}

/// The length of the text, or the refusal's number.
pub fn listing(sheet: &[u8], page: &mut [u8], warnings: bool) -> Result<usize, u32> {
    let answer = answer(sheet, page, warnings.into());
    answer.checked_sub(256).map(|length| length as usize).ok_or(answer)
}

/// The check call's answer, 256 or the refusal's number, on five lists as words; their counts are put where it accepts.
pub fn check(sheet: &[u8], warnings: u32, lists: [&mut [u32]; 5], counts: &mut [usize; 5]) -> u32 {
    let [a, b, c, d, e] = lists.map(|list| (list.as_mut_ptr(), list.len()));
    let counts = counts.as_mut_ptr();
    // Safety: the slices are valid for their lengths and don't overlap.
    unsafe { cenguatu_check(sheet.as_ptr(), sheet.len(), warnings, a.0, a.1, b.0, b.1, c.0, c.1, d.0, d.1, e.0, e.1, counts) }
}

/// Lookup's answer, 256, 0 or the refusal's number, on scopes, bindings and carried names as words, each with its count; the variable and the
/// scope are put where the name is found.
pub fn lookup(lists: [&[u32]; 3], counts: [usize; 3], scope: u32, (name, mark): (u32, u32), found: &mut [u32; 2]) -> u32 {
    let ([a, b, c], [i, j, k]) = (lists, counts);
    let found = found.as_mut_ptr();
    // Safety: the lists are valid for their lengths, and two words are lent.
    unsafe { cenguatu_lookup(a.as_ptr(), a.len(), i, b.as_ptr(), b.len(), j, c.as_ptr(), c.len(), k, scope, name, mark, found) }
}

/// Words of an entry: scopes, bindings, carried, recorded, findings. The last word of a binding, a carried name and a finding is its name's mark.
pub const WIDTHS: [usize; 5] = [4, 7, 4, 5, 7];

/// The words of lists of so many entries.
pub fn in_words(entries: [usize; 5]) -> [usize; 5] {
    std::array::from_fn(|list| entries[list] * WIDTHS[list])
}

/// The fewest entries with which the check call accepts a sheet of so many bytes: one for each of its words, and those of its answers.
pub fn needed(bytes: usize, answers: [usize; 5]) -> [usize; 5] {
    answers.map(|entries| entries.max(bytes / 4))
}

/// What stands in a list before a call.
const BLANK: u32 = 0xA5C3_96E1;

/// Five lent lists, with room before and after each, and their counts.
#[derive(Default)]
pub struct Lists {
    room: [Vec<u32>; 5],
    lengths: [usize; 5],
    counts: [usize; 5],
}

const MARGIN: usize = 64;

impl Lists {
    /// Lists of so many words each, which are blank.
    pub fn lend(&mut self, lengths: [usize; 5]) {
        self.counts = [usize::MAX; 5];
        self.lengths = lengths;
        for (room, length) in self.room.iter_mut().zip(lengths) {
            room.clear();
            room.resize(length + 2 * MARGIN, BLANK);
        }
    }

    fn list(&self, list: usize) -> &[u32] {
        &self.room[list][MARGIN..MARGIN + self.lengths[list]]
    }

    pub fn check(&mut self, sheet: &[u8], warnings: bool) -> Result<(), u32> {
        let lengths = self.lengths;
        let mut at = 0;
        let lists = self.room.each_mut().map(|room| {
            at += 1;
            &mut room[MARGIN..MARGIN + lengths[at - 1]]
        });
        let answer = check(sheet, warnings.into(), lists, &mut self.counts);
        if answer == 256 { Ok(()) } else { Err(answer) }
    }

    /// Whether nothing but the entries within the counts was altered; after a refusal, nothing at all.
    pub fn kept(&self, refused: bool) -> bool {
        if refused && self.counts != [usize::MAX; 5] {
            return false;
        }
        (0..5).all(|list| {
            let written = if refused { 0 } else { self.counts[list] * WIDTHS[list] };
            let (before, rest) = self.room[list].split_at(MARGIN);
            written <= self.lengths[list] && blank(before) && blank(&rest[written..])
        })
    }

    pub fn entries(&self) -> [usize; 5] {
        self.counts
    }

    fn written(&self, list: usize) -> impl Iterator<Item = &[u32]> {
        self.list(list).chunks_exact(WIDTHS[list]).take(self.counts[list])
    }

    /// How many recorded uses came over a WITH.
    pub fn over_with(&self) -> usize {
        self.written(3).filter(|entry| entry[4] == 1).count()
    }

    /// How many bindings, carried names and findings have a generated name.
    pub fn generated(&self) -> [usize; 3] {
        [1, 2, 4].map(|list| self.written(list).filter(|entry| entry.last() == Some(&1)).count())
    }

    /// The variable of a name with its mark and the scope that binds it, or none, or the refusal's number; and whether no word was altered but
    /// these two, where the name is found.
    pub fn lookup(&self, scope: u32, name: (u32, u32)) -> (Result<Option<(u32, u32)>, u32>, bool) {
        let [scopes, bindings, carried, ..] = self.counts;
        let mut room = [BLANK; 6];
        let found = room[2..].first_chunk_mut().expect("two of the words");
        let answer = lookup([0, 1, 2].map(|list| self.list(list)), [scopes, bindings, carried], scope, name, found);
        let [before @ .., variable, scope, _, _] = room;
        let around = blank(&before) && blank(&room[4..]);
        match answer {
            256 => (Ok(Some((variable, scope))), around),
            0 => (Ok(None), blank(&room)),
            refused => (Err(refused), blank(&room)),
        }
    }

    /// The scope, or none, or the refusal's number.
    pub fn scope_at_offset(&self, offset: u32) -> Result<Option<u32>, u64> {
        let scopes = self.list(0);
        // Safety: the list is valid for its length.
        match unsafe { cenguatu_scope_at_offset(scopes.as_ptr(), scopes.len(), self.counts[0], offset) } {
            0 => Ok(None),
            answer @ 256.. => Ok(Some((answer - 256) as u32)),
            refused => Err(refused),
        }
    }

    /// As `crate::lists::lists` writes the Rust's.
    pub fn text(&self) -> String {
        let mut text = String::new();
        for (list, name) in ["scopes", "bindings", "carried", "recorded", "records"].into_iter().enumerate() {
            writeln!(text, "{name} {}", self.counts[list]).expect("a String takes all");
            for entry in self.written(list) {
                line(&mut text, list, entry);
            }
        }
        text
    }
}

/// Looks at all of the words, which is faster than to stop at the first other one.
fn blank(words: &[u32]) -> bool {
    words.iter().fold(0, |other, word| other | (word ^ BLANK)) == 0
}

fn line(text: &mut String, list: usize, e: &[u32]) {
    match list {
        0 => writeln!(text, "{} {} {} {}", e[0], or_dash(e[1] != 0, e[1].wrapping_sub(1)), e[2], e[3]),
        1 => writeln!(text, "{} {} {} {} {} {}", e[0], e[1], e[2], e[3], or_dash(e[4] != 0, e[5]), e[6]),
        2 => writeln!(text, "{} {} {} {}", e[0], e[1], e[2], e[3]),
        3 if e[1] == 0 => writeln!(text, "{} unresolved", e[0]),
        3 => writeln!(text, "{} resolved {} {} {}", e[0], e[2], e[3], e[4]),
        _ => writeln!(text, "{} {} {} {} {} {} {}", e[0], e[1], e[2], e[3], e[4], e[5], e[6]),
    }
    .expect("a String takes all")
}

fn or_dash(is: bool, value: impl Display) -> String {
    if is { value.to_string() } else { "-".to_owned() }
}
