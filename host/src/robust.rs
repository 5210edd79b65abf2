//! Lends damaged sheets to the C functions for the listing and the check call, and the lists to lookup; sheet, page and lists each between
//! bytes that may not be touched. Looks at what a call altered; see README.md.
mod broken;
mod guarded;

use broken::{Calls, broken};
use generator::{Random, damaged, noise, wide};
use guarded::{Guarded, Place};
use ours::{WIDTHS, in_words, needed};
use std::ops::Range;
use std::sync::atomic::{AtomicU64, Ordering::Relaxed};
use theirs::answers::Answers;
use theirs::sheet::{self, Sheet};

/// Longer than any sheet that is lent, and than any listing.
const SHEET: usize = 1 << 17;
const PAGE: usize = 1 << 21;
/// Bytes of 74,898 entries of the widest list, which is more than any answer has.
const LIST: usize = 1 << 21;
/// Bytes in which the two words lie that lookup answers with.
const FOUND: usize = 1 << 16;
/// Lookups on lists that were filled, each time.
const LOOKED: usize = 8;
/// Pages in which a listing is tried until it fits.
const TRIED: [usize; 4] = [1 << 9, 1 << 13, 1 << 17, PAGE];
/// Numbers that turn warnings on.
const ON: [u32; 5] = [1, 2, 256, 1 << 31, u32::MAX];
/// So many damaged sheets come to one that was never a sheet, and to one with many names and stars that isn't damaged.
const NOISE: u64 = 16;
/// After so many sheets all of the memory that is lent from is looked at.
const ALL: usize = 1000;

/// The damaged sheet that is lent, or was before noise.
static NUMBER: AtomicU64 = AtomicU64::new(0);

const SEGMENTATION_FAULT: i32 = 11;

unsafe extern "C" {
    fn signal(number: i32, handler: extern "C" fn(i32)) -> usize;
}

extern "C" fn stopped(_: i32) {
    println!("at sheet {}: the call touched what it may not, and was stopped", NUMBER.load(Relaxed));
    std::process::exit(1);
}

fn main() {
    let args: Vec<String> = std::env::args().skip(1).collect();
    let numbers: Vec<u64> = args.iter().filter_map(|arg| arg.parse().ok()).collect();
    let right = match args.as_slice() {
        [only] if only == "--selftest" => selftest(),
        [_, _] if numbers.len() == 2 => run(numbers[0], numbers[1], Calls::OURS),
        [_, _, _] if numbers.len() == 3 => run(numbers[0], numbers[1], broken()[numbers[2] as usize].1),
        _ => {
            eprintln!("usage: host/robust [--sources DIR] [--crates DIR] [COUNT [SEED] | --selftest]");
            std::process::exit(2);
        }
    };
    std::process::exit(i32::from(!right));
}

/// Lends so many damaged sheets of a seed to three functions; whether they did nothing wrong.
fn run(count: u64, seed: u64, calls: Calls) -> bool {
    // Safety: the handler prints and ends; while the C function runs, no lock is held.
    unsafe { signal(SEGMENTATION_FAULT, stopped) };
    let mut random = Random::new(seed);
    let mut run = Run::new(!seed, calls);
    for number in 0..count {
        NUMBER.store(number, Relaxed);
        run.lend(&damaged(&mut random));
        if number % NOISE == NOISE - 1 {
            run.lend(&noise(&mut random));
            run.lend(&wide(&mut random));
        }
    }
    run.look_at_all();
    run.tally.report();
    run.tally.faults() == 0
}

/// Runs each broken stand-in, in a process of its own since some are stopped; whether all of them are found out.
fn selftest() -> bool {
    let this = std::env::current_exe().expect("this program's path");
    let mut missed = 0;
    let broken = broken();
    for (number, (what, _)) in broken.iter().enumerate() {
        let ran = std::process::Command::new(&this).args(["1000", "1", &number.to_string()]).output().expect("this program again");
        let text = String::from_utf8_lossy(&ran.stdout);
        let found = ran.status.code() == Some(1) && text.starts_with("at sheet ");
        missed += usize::from(!found);
        println!("{what}: {}", if found { text.lines().next().unwrap_or_default() } else { "NOT FOUND OUT" });
    }
    println!("{} broken stand-ins, {missed} not found out", broken.len());
    missed == 0
}

#[derive(Default)]
struct Tally {
    sheets: usize,
    refused: [usize; 7],
    calls: usize,
    tens: usize,
    eights: usize,
    listings: usize,
    bytes: usize,
    filled: usize,
    entries: usize,
    short: usize,
    /// Lookups, those that found a generated name, and those that had to be refused.
    looked: usize,
    generated: usize,
    nines: usize,
    altered: usize,
    wrong: usize,
}

impl Tally {
    fn answer(&mut self, answer: u32) {
        self.calls += 1;
        self.tens += usize::from(answer == 10);
        self.eights += usize::from(answer == 8);
        if let Some(length) = answer.checked_sub(256) {
            self.listings += 1;
            self.bytes += length as usize;
        }
    }

    fn faults(&self) -> usize {
        self.altered + self.wrong
    }

    fn report(&self) {
        let refused: usize = self.refused.iter().sum();
        println!(
            "{} sheets, {} accepted, {refused} refused (1 to 6: {:?}); warnings on and off",
            self.sheets,
            self.sheets - refused,
            &self.refused[1..]
        );
        println!(
            "{} listings asked for: {} in {} bytes, {} pages too short, {} that need too many entries",
            self.calls, self.listings, self.bytes, self.tens, self.eights
        );
        println!("{} times the lists were filled with {} entries, {} times one was too short", self.filled, self.entries, self.short);
        println!("{} lookups, {} of which found a generated name, {} refused 9", self.looked, self.generated, self.nines);
        println!("{} altered, {} wrong answers", self.altered, self.wrong);
    }
}

enum Fault {
    Altered(&'static str),
    Wrong(String),
}

fn kept(what: &'static str, is: bool) -> Result<(), Fault> {
    if is { Ok(()) } else { Err(Fault::Altered(what)) }
}

/// A sheet, where it is lent, where the page is, and the number for the warnings.
struct Lent<'a> {
    bytes: &'a [u8],
    part: Range<usize>,
    place: Place,
    warnings: u32,
}

/// What an accepted sheet must have: the entries of its lists and whether there is a listing, what lookup must find, of which names, and its
/// text and the lists' words as they were in the first place.
struct Expected<'a> {
    read: &'a Sheet,
    names: Vec<(u32, u32)>,
    answers: Answers<'a>,
    entries: [usize; 5],
    fits: bool,
    text: Option<Vec<u8>>,
    lists: Option<[Vec<u32>; 5]>,
}

struct Run {
    /// For places, pages and lists; the sheets don't depend on it.
    random: Random,
    calls: Calls,
    sheet: Guarded,
    page: Guarded,
    lists: [Guarded; 5],
    found: Guarded,
    tally: Tally,
}

impl Run {
    fn new(seed: u64, calls: Calls) -> Self {
        let mut random = Random::new(seed);
        let (sheet, page) = (Guarded::new(SHEET, &mut random), Guarded::new(PAGE, &mut random));
        let lists = [(); 5].map(|()| Guarded::new(LIST, &mut random));
        let found = Guarded::new(FOUND, &mut random);
        Self { random, calls, sheet, page, lists, found, tally: Tally::default() }
    }

    fn lend(&mut self, bytes: &[u8]) {
        self.tally.sheets += 1;
        if let Err(fault) = self.sheet(bytes) {
            self.fault(fault);
        }
        if self.tally.sheets % ALL == 0 {
            self.look_at_all();
        }
    }

    fn look_at_all(&mut self) {
        if !self.sheet.kept_all() || !self.page.kept_all() || !self.found.kept_all() || !self.lists.iter().all(Guarded::kept_all) {
            self.fault(Fault::Altered("memory far from what was lent"));
        }
    }

    /// Counts a fault, tells it if it is one of the first ten, and puts all bytes back.
    fn fault(&mut self, fault: Fault) {
        let what = match fault {
            Fault::Altered(what) => {
                self.tally.altered += 1;
                format!("{what} was altered")
            }
            Fault::Wrong(what) => {
                self.tally.wrong += 1;
                what
            }
        };
        if self.tally.faults() <= 10 {
            println!("at sheet {}: {what}", NUMBER.load(Relaxed));
        }
        self.sheet.writable(true);
        self.sheet.restore(0..SHEET);
        self.page.restore(0..PAGE);
        self.found.restore(0..FOUND);
        for list in &mut self.lists {
            list.writable(true);
            list.restore(0..LIST);
        }
    }

    /// One sheet in each place, where it can't be written to, warnings off and on.
    fn sheet(&mut self, bytes: &[u8]) -> Result<(), Fault> {
        let read = sheet::read(bytes);
        let refusal = read.as_ref().err().copied();
        if let Some(cause) = refusal {
            self.tally.refused[cause as usize] += 1;
        }
        let mut expected = [false, true].map(|warnings| {
            let read = read.as_ref().ok()?;
            let answers = Answers::new(read, warnings);
            let (entries, fits) = (answers.entries(), answers.fit());
            Some(Expected { read, names: read.asked(), answers, entries, fits, text: None, lists: None })
        });
        for place in [Place::First, Place::Between, Place::Last] {
            let part = self.sheet.part(place, bytes.len(), &mut self.random);
            self.sheet.bytes[part.clone()].copy_from_slice(bytes);
            self.sheet.writable(false);
            for (warnings, expected) in [0, self.random.pick(&ON)].into_iter().zip(&mut expected) {
                let lent = Lent { bytes, part: part.clone(), place, warnings };
                match expected {
                    None => self.refused(&lent, refusal.unwrap_or_default())?,
                    Some(expected) => {
                        self.accepted(&lent, expected)?;
                        self.filled(&lent, expected)?;
                    }
                }
            }
            self.sheet.writable(true);
            self.sheet.restore(part);
        }
        Ok(())
    }

    fn refused(&mut self, lent: &Lent, cause: u32) -> Result<(), Fault> {
        for room in [0, 1 + self.random.at(40), 200 + self.random.at(200)] {
            self.call(lent, room, |answer| answer == Err(cause))?;
        }
        let entries = [(); 5].map(|()| self.random.at(40));
        self.check(lent, in_words(entries), cause, None).map(drop)
    }

    /// Lists that are as long as they must be, and some that are longer; then one that is too short, by a word, by an entry, or by all that
    /// the answer needs and the sheet has no words for.
    fn filled(&mut self, lent: &Lent, expected: &mut Expected) -> Result<(), Fault> {
        let words = lent.bytes.len() / 4;
        let entries = needed(lent.bytes.len(), expected.entries);
        let more = if self.random.one_in(4) { self.random.at(300) } else { 0 };
        let made = self.check(lent, in_words(entries.map(|entries| entries + more)), 256, Some(&*expected))?;
        if made.each_ref().map(Vec::len) != in_words(expected.entries) {
            return Err(Fault::Wrong(format!(
                "{:?} words in the lists, {:?} entries wanted",
                made.map(|list| list.len()),
                expected.entries
            )));
        }
        let first = expected.lists.get_or_insert_with(|| made.clone());
        if *first != made {
            return Err(Fault::Wrong("other lists than in another place".to_owned()));
        }
        let list = self.random.at(5);
        let by_need = (0..5).find(|list| entries[*list] > words).unwrap_or(list);
        for (list, less) in [(list, 1), (by_need, WIDTHS[by_need]), (by_need, (entries[by_need] - words).max(1) * WIDTHS[by_need])] {
            let mut lengths = in_words(entries);
            lengths[list] -= less;
            self.check(lent, lengths, 8, None)?;
            self.tally.short += 1;
        }
        Ok(())
    }

    /// One check call on lists of so many words, with this answer, all else as it was, and then lookups on the lists if these are to be looked
    /// at; the words that it wrote.
    fn check(&mut self, lent: &Lent, lengths: [usize; 5], wanted: u32, expected: Option<&Expected>) -> Result<[Vec<u32>; 5], Fault> {
        let parts: [Range<usize>; 5] = std::array::from_fn(|list| self.lists[list].words(lent.place, lengths[list], &mut self.random));
        let mut counts = [usize::MAX; 5];
        let mut at = parts.iter();
        let lists = self.lists.each_mut().map(|list| list.as_words(at.next().expect("a part for each list")));
        let answer = (self.calls.check)(&self.sheet.bytes[lent.part.clone()], lent.warnings, lists, &mut counts);
        let written: Option<Vec<usize>> = match answer {
            256 => (0..5).map(|list| counts[list].checked_mul(WIDTHS[list]).filter(|words| *words <= lengths[list])).collect(),
            _ => Some(vec![0; 5]),
        };
        let Some(written) = written.filter(|_| answer == wanted) else {
            return Err(Fault::Wrong(format!("check's answer {answer} for {wanted}, counts {counts:?} in lists of {lengths:?} words")));
        };
        kept("a count at a refusal", answer == 256 || counts == [usize::MAX; 5])?;
        kept("the sheet", self.sheet.bytes[lent.part.clone()] == *lent.bytes)?;
        kept("what is around the sheet", self.sheet.kept_around(&lent.part))?;
        for (list, part) in parts.iter().enumerate() {
            kept("a list past its count, or at a refusal,", self.lists[list].kept(part.start + 4 * written[list]..part.end))?;
            kept("what is around a list", self.lists[list].kept_around(part))?;
        }
        if let Some(expected) = expected.filter(|expected| expected.entries == counts) {
            self.look(lent.place, &parts, counts, expected)?;
        }
        let made = std::array::from_fn(|list| self.lists[list].as_words(&parts[list])[..written[list]].to_vec());
        for (list, part) in parts.into_iter().enumerate() {
            self.lists[list].restore(part);
        }
        if answer == 256 {
            self.tally.filled += 1;
            self.tally.entries += counts.iter().sum::<usize>();
        }
        Ok(made)
    }

    /// Lookups on filled lists, which can't be written to, of names with marks 0, 1, 2 and any, from scopes that are there and some that are
    /// not, and with counts that are right and some that are too large.
    fn look(&mut self, place: Place, parts: &[Range<usize>; 5], counts: [usize; 5], expected: &Expected) -> Result<(), Fault> {
        self.lists.iter_mut().for_each(|list| list.writable(false));
        for number in 0..LOOKED {
            let (name, mark) = self.random.pick(&expected.names);
            let mark = [mark, mark, 0, 1, 2, self.random.word(), mark, mark][number];
            let scopes = counts[0] as u32;
            let scope = if number < 6 { self.random.below(scopes) } else { self.random.pick(&[scopes, 0, 0, u32::MAX]) };
            let [scopes_count, bindings_count, carried_count, ..] = counts;
            let mut lent_counts = [scopes_count, bindings_count, carried_count];
            if number == LOOKED - 1 && self.random.one_in(2) {
                let list = self.random.at(3);
                lent_counts[list] = parts[list].len() / 4 / WIDTHS[list] + 1 + self.random.at(3);
            }
            let wanted = if mark > 1 || scope >= scopes || lent_counts[..] != counts[..3] {
                Err(9)
            } else {
                Ok(expected.read.text((name, mark)).and_then(|text| expected.answers.lookup(scope, &text)))
            };
            self.lookup(place, parts, lent_counts, scope, (name, mark), wanted)?;
        }
        self.lists.iter_mut().for_each(|list| list.writable(true));
        Ok(())
    }

    /// One lookup, which must find the variable and the scope, nothing, or refuse; it writes two words where it finds the name.
    fn lookup(
        &mut self,
        place: Place,
        parts: &[Range<usize>; 5],
        counts: [usize; 3],
        scope: u32,
        name: (u32, u32),
        wanted: Result<Option<(u32, u32)>, u32>,
    ) -> Result<(), Fault> {
        let part = self.found.words(place, 2, &mut self.random);
        let mut at = parts.iter();
        let [scopes, bindings, carried, ..] = self.lists.each_mut().map(|list| &*list.as_words(at.next().expect("a part for each list")));
        let found = self.found.as_words(&part).first_chunk_mut().expect("two words");
        let answer = (self.calls.lookup)([scopes, bindings, carried], counts, scope, name, found);
        let (number, written) = match wanted {
            Ok(Some((variable, scope))) => (256, Some([variable, scope])),
            Ok(None) => (0, None),
            Err(refusal) => (refusal, None),
        };
        let right = answer == number && written.is_none_or(|written| written == *found);
        if !right {
            return Err(Fault::Wrong(format!("lookup's answer {answer} and words {found:?} for {name:?} from {scope}, {wanted:?} wanted")));
        }
        kept("what lookup doesn't answer with", written.is_some() || self.found.kept(part.clone()))?;
        kept("what is around lookup's words", self.found.kept_around(&part))?;
        self.found.restore(part);
        self.tally.looked += 1;
        self.tally.generated += usize::from(name.1 == 1 && answer == 256);
        self.tally.nines += usize::from(answer == 9);
        Ok(())
    }

    /// A listing in pages of several lengths, whose text is the same in every place; or its refusal 8, whatever the page.
    fn accepted(&mut self, lent: &Lent, expected: &mut Expected) -> Result<(), Fault> {
        if !expected.fits {
            let rooms = [0, 1 + self.random.at(40), PAGE / 2];
            return rooms.into_iter().try_for_each(|room| self.call(lent, room, |answer| answer == Err(8)));
        }
        let text = &mut expected.text;
        if text.is_none() {
            *text = self.first_text(lent)?;
        }
        let Some(text) = text else { return Err(Fault::Wrong("a listing that fits no page".to_owned())) };
        let length = text.len();
        for room in [0, self.random.at(length), length - 1] {
            self.call(lent, room, |answer| answer == Err(10))?;
        }
        for room in [length, length + 1 + self.random.at(300)] {
            self.call(lent, room, |answer| answer == Ok(text))?;
        }
        Ok(())
    }

    fn first_text(&mut self, lent: &Lent) -> Result<Option<Vec<u8>>, Fault> {
        let mut text = None;
        for room in TRIED {
            self.call(lent, room, |answer| {
                text = answer.ok().map(<[u8]>::to_vec);
                answer.map_or_else(|refusal| refusal == 10, |text| text.starts_with(b"findings "))
            })?;
            if text.is_some() {
                break;
            }
        }
        Ok(text)
    }

    /// One call with a page of so many bytes. Its answer, a text or a refusal, is as it should be, and all else is as it was.
    fn call(&mut self, lent: &Lent, room: usize, mut is: impl FnMut(Result<&[u8], u32>) -> bool) -> Result<(), Fault> {
        let page = self.page.part(lent.place, room, &mut self.random);
        let answer = (self.calls.listing)(&self.sheet.bytes[lent.part.clone()], &mut self.page.bytes[page.clone()], lent.warnings);
        self.tally.answer(answer);
        let text = match answer.checked_sub(256) {
            Some(length) => self.page.bytes[page.clone()].get(..length as usize),
            None => Some(&[][..]),
        };
        let Some(text) = text.filter(|text| is(if answer < 256 { Err(answer) } else { Ok(text) })) else {
            return Err(Fault::Wrong(format!("the answer {answer} in a page of {room}, warnings {}", lent.warnings)));
        };
        let end = page.start + text.len();
        kept("the sheet", self.sheet.bytes[lent.part.clone()] == *lent.bytes)?;
        kept("what is around the sheet", self.sheet.kept_around(&lent.part))?;
        kept("the page past the listing, or at a refusal,", self.page.kept(end..page.end))?;
        kept("what is around the page", self.page.kept_around(&page))?;
        self.page.restore(page.start..end);
        Ok(())
    }
}
