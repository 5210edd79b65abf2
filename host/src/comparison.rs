//! One sheet through the archives and through the Rust or, where it has sort keys, the model. Every call is lent buffers with room around
//! them, and what it may not alter is looked at after it.
use ours::{Lists, WIDTHS, in_words, needed};
use theirs::answers::Answers;
use theirs::model::old_line;
use theirs::sheet::{self, Sheet};

/// Bytes before and after a lent sheet or page.
const MARGIN: usize = 64;
const BLANK: u8 = 0xA5;
/// Longer than any listing.
const PAGE: usize = 1 << 21;
/// Lookups and offsets asked of a sheet at most, each.
const ASKED: usize = 2048;
/// Entries that the lookups of a sheet go through at most, about.
const SEARCHED: usize = 1 << 23;

#[derive(Default)]
pub struct Tally {
    pub sheets: usize,
    pub differ: usize,
    refused: [usize; 7],
    keyed: usize,
    /// Sheets that bind a variable without a row.
    rowless: usize,
    entries: [usize; 5],
    /// Recorded uses that came over a WITH.
    over_with: usize,
    /// Bindings, carried names and findings with a generated name.
    generated: [usize; 3],
    messages: usize,
    bytes: usize,
    /// Listings that end with the line of the expressions 25.
    olds: usize,
    lookups: usize,
    /// Those of them that found a generated name.
    found: usize,
    offsets: usize,
    tens: usize,
    eights: usize,
    /// Sheets whose listing is refused 8, and lists that are too short by what the answer needs.
    too_long: usize,
    needs: usize,
}

impl Tally {
    pub fn accepted(&self) -> usize {
        self.sheets - self.refused.iter().sum::<usize>()
    }

    pub fn report(&self) {
        let accepted = self.accepted();
        println!(
            "{} sheets, {accepted} accepted, {} refused (1 to 6: {:?}); warnings on and off",
            self.sheets,
            self.sheets - accepted,
            &self.refused[1..]
        );
        println!("{} of the accepted have sort keys and are compared with the model, the others with the Rust", self.keyed);
        println!("{} of the accepted bind a node, relationship, path or Unwind variable without a row", self.rowless);
        println!("entries: {:?} (scopes, bindings, carried, recorded, findings)", self.entries);
        println!("{:?} of the bindings, carried names and findings have a generated name", self.generated);
        println!("{} of the recorded uses came over a WITH", self.over_with);
        println!("listings: {} messages in {} bytes; {} lookups, {} offsets", self.messages, self.bytes, self.lookups, self.offsets);
        println!("{} of the lookups found a generated name", self.found);
        println!("{} of the listings end with the line of the expressions 25", self.olds);
        println!("a page a byte short: {}, a list a word short: {}", self.tens, self.eights);
        println!("a list with a word for each of the sheet's, and too short for its answer: {}", self.needs);
        println!("a listing that needs more than 2,048 entries: {}", self.too_long);
        println!("{} sheets differ", self.differ);
    }
}

/// A listing: the lines of the Rust, or of the model, and after them the line of the expressions 25 by the model's count, if there is one.
struct Text {
    lines: String,
    last: String,
}

impl Text {
    fn len(&self) -> usize {
        self.lines.len() + self.last.len()
    }
}

pub struct Comparison {
    pub tally: Tally,
    page: Vec<u8>,
    lists: Lists,
}

/// What must hold, and else in what it differs.
fn holds(what: &str, is: bool) -> Result<(), String> {
    if is { Ok(()) } else { Err(what.to_owned()) }
}

impl Comparison {
    pub fn new(tally: Tally) -> Self {
        Self { tally, page: vec![BLANK; PAGE + 2 * MARGIN], lists: Lists::default() }
    }

    /// In what a sheet's answers differ from what is expected, if they do.
    pub fn compare(&mut self, bytes: &[u8]) -> Result<(), String> {
        self.compare_as(bytes, bytes)
    }

    /// The same for a sheet of which is expected what is of another.
    pub fn compare_as(&mut self, bytes: &[u8], other: &[u8]) -> Result<(), String> {
        self.tally.sheets += 1;
        let compared = self.both(bytes, other);
        if compared.is_err() {
            self.tally.differ += 1;
            self.page.fill(BLANK);
        }
        compared
    }

    fn both(&mut self, bytes: &[u8], other: &[u8]) -> Result<(), String> {
        let mut room = vec![BLANK; MARGIN];
        room.extend(bytes);
        room.extend([BLANK; MARGIN]);
        let lent = room.clone();
        let sheet = &lent[MARGIN..MARGIN + bytes.len()];
        match sheet::read(other) {
            Ok(read) => {
                self.tally.keyed += usize::from(read.has_keys());
                self.tally.rowless += usize::from(!read.rowless.is_empty());
                self.accepted(sheet, &read, false)?;
                self.accepted(sheet, &read, true)?;
            }
            Err(cause) => {
                self.tally.refused[cause as usize] += 1;
                self.refused(sheet, cause, false)?;
                self.refused(sheet, cause, true)?;
            }
        }
        holds("the sheet was altered", lent == room)
    }

    fn refused(&mut self, sheet: &[u8], cause: u32, warnings: bool) -> Result<(), String> {
        self.listing(sheet, 256, warnings, Err(cause))?;
        self.lists.lend(in_words([sheet.len() / 4; 5]));
        holds("check's refusal", self.lists.check(sheet, warnings) == Err(cause))?;
        holds("check altered a list and refused", self.lists.kept(true))
    }

    /// A listing into a page of so many bytes; nothing past it may be altered.
    fn listing(&mut self, sheet: &[u8], room: usize, warnings: bool, expected: Result<&Text, u32>) -> Result<(), String> {
        let answer = ours::listing(sheet, &mut self.page[MARGIN..MARGIN + room], warnings);
        holds("the listing's answer", answer == expected.map(Text::len))?;
        if let Ok(text) = expected {
            let (lines, last) = self.page[MARGIN..MARGIN + text.len()].split_at(text.lines.len());
            holds("the listing", lines == text.lines.as_bytes())?;
            holds("the line of the expressions 25", last == text.last.as_bytes())?;
            self.page[MARGIN..MARGIN + text.len()].fill(BLANK);
        }
        let around = &self.page[..room + 2 * MARGIN];
        holds("the page past the listing", around.iter().fold(0, |other, byte| other | (byte ^ BLANK)) == 0)
    }

    fn accepted(&mut self, sheet: &[u8], read: &Sheet, warnings: bool) -> Result<(), String> {
        let answers = Answers::new(read, warnings);
        self.listings(sheet, &answers, old_line(read), warnings)?;
        let entries = needed(sheet.len(), answers.entries());
        self.short_lists(sheet, entries, warnings)?;
        let more = if self.tally.eights % 4 == 0 { self.tally.eights % 100 } else { 0 };
        self.lists.lend(in_words(entries.map(|entries| entries + more)));
        holds("check's answer", self.lists.check(sheet, warnings) == Ok(()))?;
        holds("check altered a word past a count", self.lists.kept(false))?;
        holds("the lists", self.lists.text() == answers.lists(&read.names))?;
        for (sum, count) in self.tally.entries.iter_mut().zip(self.lists.entries()) {
            *sum += count;
        }
        for (sum, count) in self.tally.generated.iter_mut().zip(self.lists.generated()) {
            *sum += count;
        }
        self.tally.over_with += self.lists.over_with();
        self.graph(&answers, read)
    }

    /// The listing with room, into a page that it fills, and into one a byte shorter, and one without room for its last line; or, whatever the
    /// page, its refusal 8.
    fn listings(&mut self, sheet: &[u8], answers: &Answers, last: String, warnings: bool) -> Result<(), String> {
        let text = Text { lines: answers.listing(), last };
        if !answers.fit() {
            self.tally.too_long += 1;
            return [0, text.len() - 1, text.len() + MARGIN].into_iter().try_for_each(|room| self.listing(sheet, room, warnings, Err(8)));
        }
        self.listing(sheet, text.len() + MARGIN, warnings, Ok(&text))?;
        self.listing(sheet, text.len(), warnings, Ok(&text))?;
        self.listing(sheet, text.len() - 1, warnings, Err(10))?;
        self.tally.tens += 1;
        if !text.last.is_empty() {
            self.listing(sheet, text.lines.len(), warnings, Err(10))?;
            self.tally.olds += 1;
        }
        self.tally.messages += answers.entries()[4];
        self.tally.bytes += text.len();
        Ok(())
    }

    /// Lists of as many entries as are needed, but for one, another one each time, that has a word less; and where the answer needs more
    /// than the sheet has words, but for one that has an entry less, or as many as words.
    fn short_lists(&mut self, sheet: &[u8], entries: [usize; 5], warnings: bool) -> Result<(), String> {
        let words = sheet.len() / 4;
        let mut lengths = in_words(entries);
        lengths[self.tally.eights % 5] -= 1;
        self.tally.eights += 1;
        self.short(sheet, lengths, warnings)?;
        for list in (0..5).filter(|list| entries[*list] > words) {
            for less in [1, entries[list] - words] {
                let mut lengths = in_words(entries);
                lengths[list] -= less * WIDTHS[list];
                self.tally.needs += 1;
                self.short(sheet, lengths, warnings)?;
            }
        }
        Ok(())
    }

    fn short(&mut self, sheet: &[u8], lengths: [usize; 5], warnings: bool) -> Result<(), String> {
        self.lists.lend(lengths);
        holds("8", self.lists.check(sheet, warnings) == Err(8))?;
        holds("check altered a list and refused with 8", self.lists.kept(true))
    }

    fn graph(&mut self, answers: &Answers, read: &Sheet) -> Result<(), String> {
        let (spans, names) = (answers.spans(), read.asked());
        let texts: Vec<Option<String>> = names.iter().map(|name| read.text(*name)).collect();
        let scopes = spans.len();
        let [_, bindings, carried, ..] = answers.entries();
        let asked = ASKED.min(SEARCHED / (1 + bindings + carried));
        let step = (scopes * names.len()).div_ceil(asked).max(1);
        for at in (0..scopes * names.len()).step_by(step) {
            let (scope, name) = ((at % scopes) as u32, at / scopes);
            let (found, kept) = self.lists.lookup(scope, names[name]);
            let expected = texts[name].as_deref().and_then(|text| answers.lookup(scope, text));
            let variable = |found: Option<(u32, u32)>| found.map(|(variable, _)| variable);
            holds("a lookup's variable", found.map(variable) == Ok(variable(expected)))?;
            holds("a lookup's scope", found == Ok(expected))?;
            holds("a lookup altered a word that it may not", kept)?;
            self.tally.lookups += 1;
            self.tally.found += usize::from(names[name].1 == 1 && expected.is_some());
        }
        for mark in [0, 1] {
            holds("a lookup from a scope that isn't there", self.lists.lookup(scopes as u32, (0, mark)) == (Err(9), true))?;
        }
        for (at, mark) in [2, 3, 256, 1 << 31, u32::MAX].into_iter().enumerate() {
            let (name, _) = names[at * names.len() / 5];
            holds("a lookup with another mark", self.lists.lookup((at * scopes / 5) as u32, (name, mark)) == (Err(9), true))?;
        }
        for (start, end) in spans.into_iter().step_by(scopes.div_ceil(ASKED / 4)) {
            for offset in [start, end, start.wrapping_sub(1), end.wrapping_add(1)] {
                holds("an offset", self.lists.scope_at_offset(offset) == Ok(answers.scope_at_offset(offset)))?;
                self.tally.offsets += 1;
            }
        }
        Ok(())
    }
}
