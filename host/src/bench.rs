//! Times the C function and the Rust's whole job, plain and tuned, on the same sheets in one run, and prints two tables; then the C
//! function alone on sheets with sort keys and the same ones without, and prints two more; then both and the check call on sheets with
//! stars; and the C function on sheets with 500 findings, into pages of several lengths; see README.md.
use generator::worst::{FAMILIES, Family, KILOBYTES, SORTED, STARRED, WRITTEN};
use generator::{Random, one};
use ours::{Lists, in_words, needed};
use std::collections::HashSet;
use std::hint::black_box;
use theirs::answers::Answers;
use theirs::twin::{Keys, twin};
use theirs::{lists, model, sheet, tuned};

/// Bytes of a sheet, about.
const SIZES: [usize; 8] = [100, 200, 400, 800, 1600, 3000, 6500, 8192];
/// Different sheets of each size without sort keys, and with.
const SHEETS: usize = 4096;
const KEYED: usize = 512;
/// Bytes of the sheets on which the three jobs take turns.
const TURN: usize = 1 << 18;
/// How often each turn is timed, of which the least counts: with different sheets, and with one that is repeated.
const ROUNDS: usize = 7;
const REPEATED: usize = 21;
/// How often a listing into a page is timed, and how many calls that is each time.
const READINGS: usize = 800;
const CALLS: usize = 8;

// Linux's.
const THREAD_TIME: i32 = 3;

#[repr(C)]
struct Time {
    seconds: i64,
    nanoseconds: i64,
}

unsafe extern "C" {
    fn clock_gettime(clock: i32, time: *mut Time) -> i32;
}

/// Nanoseconds that this thread has run.
fn thread_time() -> f64 {
    let mut time = Time { seconds: 0, nanoseconds: 0 };
    // Safety: the pointer is valid for the call.
    assert!(unsafe { clock_gettime(THREAD_TIME, &mut time) } == 0, "a clock for threads");
    time.seconds as f64 * 1e9 + time.nanoseconds as f64
}

/// A sheet to its listing, in our page or as a new text; or its refusal.
struct Jobs {
    page: Vec<u8>,
}

impl Jobs {
    fn ours(&mut self, bytes: &[u8]) -> Result<&[u8], u32> {
        let length = ours::listing(bytes, &mut self.page, true)?;
        Ok(&self.page[..length])
    }

    fn plain(bytes: &[u8]) -> Result<String, u32> {
        let sheet = sheet::read(bytes)?;
        Ok(lists::listing(&lists::run(&sheet.statement, true).findings))
    }

    fn tuned(bytes: &[u8]) -> Result<Vec<u8>, u32> {
        tuned::answer(bytes, true)
    }

    /// Ends the run unless all three give the same, with sort keys ours and the model, ours with the line of the expressions 25 besides; tells
    /// how many findings that has. Where the answers
    /// need more entries than the listing has, ours is refused 8.
    fn compare(&mut self, bytes: &[u8]) -> Option<usize> {
        let ours = self.ours(bytes).map(<[u8]>::to_vec);
        let differ = || format!("the answers differ on the sheet {bytes:02x?}");
        let sheet = match sheet::read(bytes) {
            Ok(sheet) => sheet,
            Err(cause) => {
                assert!(ours == Err(cause) && Self::tuned(bytes) == Err(cause), "{}", differ());
                return None;
            }
        };
        let answers = Answers::new(&sheet, true);
        let mut text = answers.listing().into_bytes();
        assert!(sheet.has_keys() || Self::tuned(bytes).as_ref() == Ok(&text), "{}", differ());
        text.extend(model::old_line(&sheet).bytes());
        let fits = answers.fit();
        assert!(ours == if fits { Ok(text) } else { Err(8) }, "{}", differ());
        fits.then_some(answers.entries()[4])
    }

    /// Nanoseconds that ours takes for a byte of each row's sheets; the rows take turns, a part of each that has as many sheets.
    fn ours_a_byte<const N: usize>(&mut self, rows: [&[&[u8]]; N], rounds: usize) -> [f64; N] {
        let many = TURN / rows[0][0].len();
        let mut sums = [0.0; N];
        for at in (0..rows[0].len()).step_by(many) {
            let mut least = [f64::INFINITY; N];
            for _ in 0..rounds {
                for (row, least) in rows.iter().zip(&mut least) {
                    let turn = &row[at..row.len().min(at + many)];
                    black_box(turn.iter().flat_map(|bytes| bytes.iter()).fold(0u8, |sum, byte| sum ^ byte));
                    *least = least.min(time(turn, |bytes| self.ours(bytes).is_ok()));
                }
            }
            sums = std::array::from_fn(|row| sums[row] + least[row]);
        }
        std::array::from_fn(|row| sums[row] / rows[row].iter().map(|bytes| bytes.len()).sum::<usize>() as f64)
    }

    /// Nanoseconds a sheet, the mean over all of them: ours, the Rust's and the tuned Rust's. A turn's sheets are read once before it, so
    /// that they are as near to the first of the three as to the others.
    fn times(&mut self, sheets: &[&[u8]], rounds: usize) -> [f64; 3] {
        let turns: Vec<&[&[u8]]> = sheets.chunks(TURN / sheets[0].len()).collect();
        let mut least = vec![[f64::INFINITY; 3]; turns.len()];
        for _ in 0..rounds {
            for (turn, least) in turns.iter().zip(&mut least) {
                black_box(turn.iter().flat_map(|bytes| bytes.iter()).fold(0u8, |sum, byte| sum ^ byte));
                let times = [time(turn, |bytes| self.ours(bytes).is_ok()), time(turn, Self::plain), time(turn, Self::tuned)];
                *least = std::array::from_fn(|job| least[job].min(times[job]));
            }
        }
        std::array::from_fn(|job| least.iter().map(|times| times[job]).sum::<f64>() / sheets.len() as f64)
    }
}

fn time<T>(sheets: &[&[u8]], mut job: impl FnMut(&[u8]) -> T) -> f64 {
    let begin = thread_time();
    for bytes in sheets {
        black_box(job(black_box(bytes)));
    }
    thread_time() - begin
}

/// Sheets one after the other, so that the Rust's trees have the heap to themselves.
#[derive(Default)]
struct Row {
    bytes: Vec<u8>,
    ends: Vec<usize>,
    findings: usize,
}

impl Row {
    fn push(&mut self, bytes: &[u8], findings: usize) {
        self.bytes.extend(bytes);
        self.ends.push(self.bytes.len());
        self.findings += findings;
    }

    fn sheets(&self) -> Vec<&[u8]> {
        let begins = std::iter::once(&0).chain(&self.ends);
        begins.zip(&self.ends).map(|(begin, end)| &self.bytes[*begin..*end]).collect()
    }
}

/// Sheets with sort keys, and of each the same sheet with its keys left out, and with its keys as a Delete before the clause.
#[derive(Default)]
struct Sorted {
    keyed: Row,
    out: Row,
    deleted: Row,
}

impl Sorted {
    /// Takes a sheet if it has sort keys and its twins aren't too long.
    fn push(&mut self, bytes: &[u8], jobs: &mut Jobs) {
        let read = sheet::read(bytes).is_ok_and(|sheet| sheet.has_keys());
        if let (true, Some(out), Some(deleted)) = (read, twin(bytes, Keys::Out), twin(bytes, Keys::Deleted)) {
            for (row, bytes) in [(&mut self.keyed, bytes), (&mut self.out, &out), (&mut self.deleted, &deleted)] {
                row.push(bytes, jobs.compare(bytes).expect("an accepted sheet"));
            }
        }
    }

    fn rows(&self) -> [Vec<&[u8]>; 3] {
        [&self.keyed, &self.out, &self.deleted].map(Row::sheets)
    }
}

/// Accepted sheets of seed 1 that have about each size, the same ones in every run: without sort keys, and with.
fn by_size(jobs: &mut Jobs) -> ([Row; 8], [Sorted; 8]) {
    let (mut rows, mut sorted) = (SIZES.map(|_| Row::default()), SIZES.map(|_| Sorted::default()));
    let mut random = Random::new(1);
    let mut drawn = 0;
    while rows.iter().any(|row| row.ends.len() < SHEETS) || sorted.iter().any(|row| row.keyed.ends.len() < KEYED) {
        let bytes = one(&mut random);
        drawn += 1;
        let findings = jobs.compare(&bytes);
        let fits = |size: &usize| bytes.len().abs_diff(*size) * 12 <= *size;
        let (Some(findings), Some(at)) = (findings, SIZES.iter().position(fits)) else { continue };
        if sheet::read(&bytes).is_ok_and(|sheet| sheet.has_keys()) {
            if sorted[at].keyed.ends.len() < KEYED {
                sorted[at].push(&bytes, jobs);
            }
        } else if rows[at].ends.len() < SHEETS {
            rows[at].push(&bytes, findings);
        }
    }
    println!(
        "The answers are equal on all {drawn} sheets of seed 1 that were drawn to get {SHEETS} of each size, and {KEYED} with sort keys.\n"
    );
    (rows, sorted)
}

fn main() {
    let mut jobs = Jobs { page: vec![0; 1 << 21] };
    if std::env::args().any(|word| word == "--writing") {
        return writing(&mut jobs);
    }
    if std::env::args().any(|word| word == "--stars") {
        return starred(&mut jobs);
    }
    let (rows, sorted) = by_size(&mut jobs);
    println!("| about, bytes | findings | ours, ns | Rust, ns | tuned Rust, ns | Rust / ours | tuned / ours |");
    println!("|---|---|---|---|---|---|---|");
    for (size, row) in SIZES.iter().zip(&rows) {
        let sheets = row.sheets();
        assert!(sheets.iter().collect::<HashSet<_>>().len() == SHEETS, "no two sheets are equal");
        let [ours, plain, tuned] = jobs.times(&sheets, ROUNDS);
        let findings = row.findings / SHEETS;
        println!("| {size} | {findings} | {ours:.0} | {plain:.0} | {tuned:.0} | {} | {} |", ratio(plain, ours), ratio(tuned, ours));
    }
    println!("\n| at 1, 2, 4 and 8 KB | ours, µs | Rust, µs | tuned Rust, µs | Rust / ours | tuned / ours |");
    println!("|---|---|---|---|---|---|");
    for family in &FAMILIES {
        println!("| {} | {} |", family.name, growth(&mut jobs, family));
    }
    println!(
        "\n| about, bytes | findings | with keys, ns a byte | other sheets | keys left out | keys as a Delete | with keys / as a Delete |"
    );
    println!("|---|---|---|---|---|---|---|");
    for (size, (row, sorted)) in SIZES.iter().zip(rows.iter().zip(&sorted)) {
        let [keyed, out, deleted] = sorted.rows();
        let findings =
            [&sorted.keyed, &sorted.out, &sorted.deleted].map(|row| format!("{:.1}", row.findings as f64 / KEYED as f64)).join(" ");
        let [keyed, others, out, deleted] = jobs.ours_a_byte([&keyed, &row.sheets()[..KEYED], &out, &deleted], ROUNDS);
        println!("| {size} | {findings} | {keyed:.2} | {others:.2} | {out:.2} | {deleted:.2} | {:.2} |", keyed / deleted);
    }
    println!("\n| at 1, 2, 4 and 8 KB | with keys, µs | with keys, ns a byte | as a Delete, ns a byte |");
    println!("|---|---|---|---|");
    for family in &SORTED {
        println!("| {} | {} |", family.name, sorted_growth(&mut jobs, family));
    }
    println!();
    starred(&mut jobs);
    println!();
    writing(&mut jobs);
}

fn starred(jobs: &mut Jobs) {
    println!("| at 1, 2, 4 and 8 KB | bindings | listing, µs | check, µs | Rust, µs | tuned Rust, µs | tuned / check |");
    println!("|---|---|---|---|---|---|---|");
    for family in &STARRED {
        println!("| {} | {} |", family.name, starred_growth(jobs, family));
    }
}

/// The times of a family's sheets with stars: our listing, which may be refused 8, our check call with lists that are long enough, and the
/// two jobs of the Rust.
fn starred_growth(jobs: &mut Jobs, family: &Family) -> String {
    let columns = KILOBYTES.map(|kilobytes| {
        let bytes = family.sheet(kilobytes);
        jobs.compare(&bytes);
        let sheet = sheet::read(&bytes).expect("an accepted sheet");
        let entries = Answers::new(&sheet, true).entries();
        let mut lists = Lists::default();
        lists.lend(in_words(needed(bytes.len(), entries)));
        let row = vec![bytes.as_slice(); TURN / bytes.len() / 8];
        let mut least = [f64::INFINITY; 4];
        for _ in 0..REPEATED {
            let times = [
                time(&row, |bytes| jobs.ours(bytes).is_ok()),
                time(&row, |bytes| lists.check(bytes, true)),
                time(&row, Jobs::plain),
                time(&row, Jobs::tuned),
            ];
            least = std::array::from_fn(|job| least[job].min(times[job]));
        }
        assert!(lists.entries() == entries, "as many entries as are needed");
        (entries[1], least.map(|time| time / row.len() as f64 / 1000.0))
    });
    let micro = |job: usize| columns.map(|(_, times)| format!("{:.1}", times[job])).join(" ");
    let ratios = columns.map(|(_, times)| ratio(times[3], times[1])).join(" ");
    [columns.map(|(bindings, _)| bindings.to_string()).join(" "), micro(0), micro(1), micro(2), micro(3), ratios].join(" | ")
}

/// A call with 500 findings into pages of several lengths, which take turns; the last is too short by all.
fn writing(jobs: &mut Jobs) {
    println!("| 500 findings | text, bytes | 1 MB of page, µs | 65,536 bytes | full page | no page |");
    println!("|---|---|---|---|---|---|");
    for family in &WRITTEN {
        let bytes = family.sheet(8);
        assert!(jobs.compare(&bytes) == Some(500), "500 findings");
        let text = jobs.ours(&bytes).expect("an accepted sheet").len();
        let pages = [1 << 20, 1 << 16, text, 0];
        let mut least = [f64::INFINITY; 4];
        for _ in 0..READINGS {
            for (page, least) in pages.into_iter().zip(&mut least) {
                let time = time(&[bytes.as_slice(); CALLS], |bytes| ours::answer(bytes, &mut jobs.page[..page], 1));
                *least = least.min(time / CALLS as f64);
            }
        }
        println!("| {} | {text} | {} |", family.name, least.map(|time| format!("{:.1}", time / 1000.0)).join(" | "));
    }
}

/// The times of a family's sheets with sort keys, the four sizes in each column.
fn sorted_growth(jobs: &mut Jobs, family: &Family) -> String {
    let times = KILOBYTES.map(|kilobytes| {
        let bytes = family.sheet(kilobytes);
        let deleted = twin(&bytes, Keys::Deleted).expect("an accepted sheet whose twin isn't too long");
        jobs.compare(&bytes).expect("an accepted sheet");
        jobs.compare(&deleted).expect("an accepted sheet");
        let many = TURN / bytes.len();
        let [keyed, deleted] = jobs.ours_a_byte([&vec![bytes.as_slice(); many], &vec![deleted.as_slice(); many]], REPEATED);
        [keyed * bytes.len() as f64 / 1000.0, keyed, deleted]
    });
    [0, 1, 2].map(|column| times.map(|times| format!("{:.1}", times[column])).join(" ")).join(" | ")
}

/// The times of a family's sheets and their ratios, the four sizes in each column.
fn growth(jobs: &mut Jobs, family: &Family) -> String {
    let times = KILOBYTES.map(|kilobytes| {
        let bytes = family.sheet(kilobytes);
        jobs.compare(&bytes).expect("an accepted sheet");
        jobs.times(&vec![bytes.as_slice(); TURN / bytes.len()], REPEATED)
    });
    let micro = |job: usize| times.map(|times| format!("{:.1}", times[job] / 1000.0)).join(" ");
    let ratios = |job: usize| times.map(|times| ratio(times[job], times[0])).join(" ");
    [micro(0), micro(1), micro(2), ratios(1), ratios(2)].join(" | ")
}

/// With as many digits as tell something.
fn ratio(theirs: f64, ours: f64) -> String {
    let ratio = theirs / ours;
    if ratio < 0.995 { format!("{ratio:.2}") } else { format!("{ratio:.1}") }
}
