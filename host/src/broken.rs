//! Broken stand-ins of the three C functions, each wrong in one way, which `robust` must find out.
use ours::WIDTHS;
use std::ptr::{read_volatile, write_volatile};
use std::sync::atomic::{AtomicU32, Ordering::Relaxed};

/// As `ours::answer`, as `ours::check`, and as `ours::lookup`.
type Listing = fn(&[u8], &mut [u8], u32) -> u32;
type Check = fn(&[u8], u32, [&mut [u32]; 5], &mut [usize; 5]) -> u32;
type Lookup = fn([&[u32]; 3], [usize; 3], u32, (u32, u32), &mut [u32; 2]) -> u32;

/// The three functions that are run.
#[derive(Clone, Copy)]
pub struct Calls {
    pub listing: Listing,
    pub check: Check,
    pub lookup: Lookup,
}

impl Calls {
    pub const OURS: Self = Self { listing: ours::answer, check: ours::check, lookup: ours::lookup };
}

/// What each does wrong.
pub fn broken() -> Vec<(&'static str, Calls)> {
    let listings = LISTINGS.into_iter().map(|(what, listing)| (what, Calls { listing, ..Calls::OURS }));
    let checks = CHECKS.into_iter().map(|(what, check)| (what, Calls { check, ..Calls::OURS }));
    let lookups = LOOKUPS.into_iter().map(|(what, lookup)| (what, Calls { lookup, ..Calls::OURS }));
    listings.chain(checks).chain(lookups).collect()
}

const LISTINGS: [(&str, Listing); 18] = [
    ("reads the byte before the sheet", |sheet, page, warnings| {
        touch(sheet.as_ptr().wrapping_sub(1));
        ours::answer(sheet, page, warnings)
    }),
    ("reads the byte after the sheet", |sheet, page, warnings| {
        touch(sheet.as_ptr().wrapping_add(sheet.len()));
        ours::answer(sheet, page, warnings)
    }),
    ("reads the byte after the page", |sheet, page, warnings| {
        touch(page.as_ptr().wrapping_add(page.len()));
        ours::answer(sheet, page, warnings)
    }),
    ("writes the sheet's first byte, as it was", |sheet, page, warnings| {
        if let Some(first) = sheet.first() {
            put(sheet.as_ptr().cast_mut(), *first);
        }
        ours::answer(sheet, page, warnings)
    }),
    ("writes the byte before the page", |sheet, page, warnings| {
        flip(page.as_mut_ptr().wrapping_sub(1));
        ours::answer(sheet, page, warnings)
    }),
    ("writes the byte after the page", |sheet, page, warnings| {
        flip(page.as_mut_ptr().wrapping_add(page.len()));
        ours::answer(sheet, page, warnings)
    }),
    ("ends the text with a zero where there is room", |sheet, page, warnings| {
        let answer = ours::answer(sheet, page, warnings);
        if let Some(next) = answer.checked_sub(256).and_then(|length| page.get_mut(length as usize)) {
            *next = 0;
        }
        answer
    }),
    ("writes a megabyte past the page", |sheet, page, warnings| {
        if page.as_ptr().addr() % 4096 == 0 && page.len() % 4096 != 0 {
            put(page.as_mut_ptr().wrapping_add(1 << 20), 0);
        }
        ours::answer(sheet, page, warnings)
    }),
    ("clears the page first", |sheet, page, warnings| {
        page.fill(0);
        ours::answer(sheet, page, warnings)
    }),
    ("fills a page that is too short", |sheet, page, warnings| {
        let answer = ours::answer(sheet, page, warnings);
        if answer == 10 {
            page.fill(b'E');
        }
        answer
    }),
    ("refuses a full page", |sheet, page, warnings| match ours::answer(sheet, page, warnings) {
        answer if answer as usize == 256 + page.len() => 10,
        answer => answer,
    }),
    ("refuses an empty page before it reads the sheet", |sheet, page, warnings| match page.len() {
        0 => 10,
        _ => ours::answer(sheet, page, warnings),
    }),
    ("gives 4 for 3", |sheet, page, warnings| match ours::answer(sheet, page, warnings) {
        3 => 4,
        answer => answer,
    }),
    ("counts a byte too few", |sheet, page, warnings| match ours::answer(sheet, page, warnings) {
        answer @ 257.. => answer - 1,
        answer => answer,
    }),
    ("counts a byte more than the page has", |sheet, page, warnings| match ours::answer(sheet, page, warnings) {
        answer if answer as usize == 256 + page.len() => answer + 1,
        answer => answer,
    }),
    ("turns warnings on for odd numbers only", |sheet, page, warnings| ours::answer(sheet, page, warnings & 1)),
    ("remembers the call before", |sheet, page, warnings| {
        static BEFORE: AtomicU32 = AtomicU32::new(0);
        let answer = ours::answer(sheet, page, warnings);
        if BEFORE.swap(answer, Relaxed) == 10 && answer >= 256 {
            page[0] = b'F';
        }
        answer
    }),
    ("gives 10 for an empty page before 8", |sheet, page, warnings| match ours::answer(sheet, page, warnings) {
        8 if page.is_empty() => 10,
        answer => answer,
    }),
];

const CHECKS: [(&str, Check); 9] = [
    ("reads the word after the findings", |sheet, warnings, lists, counts| {
        touch(lists[4].as_ptr().wrapping_add(lists[4].len()).cast());
        ours::check(sheet, warnings, lists, counts)
    }),
    ("writes the byte before the scopes", |sheet, warnings, lists, counts| {
        flip(lists[0].as_mut_ptr().cast::<u8>().wrapping_sub(1));
        ours::check(sheet, warnings, lists, counts)
    }),
    ("clears the carried list first", |sheet, warnings, lists, counts| {
        lists[2].fill(0);
        ours::check(sheet, warnings, lists, counts)
    }),
    ("fills the bindings before it finds the carried list too short", |sheet, warnings, mut lists, counts| {
        let answer = ours::check(sheet, warnings, lists.each_mut().map(|list| &mut **list), counts);
        if answer == 8 && lists[2].len() / WIDTHS[2] >= sheet.len() / 4 {
            lists[1].fill(0);
        }
        answer
    }),
    ("clears the counts at a refusal", |sheet, warnings, lists, counts| {
        let answer = ours::check(sheet, warnings, lists, counts);
        if answer != 256 {
            *counts = [0; 5];
        }
        answer
    }),
    ("wants an entry more than is needed", |sheet, warnings, mut lists, counts| {
        let mut kept = lists.each_mut().map(|list| list.to_vec());
        let answer = ours::check(sheet, warnings, lists.each_mut().map(|list| &mut **list), counts);
        if answer == 256 && counts[1] > sheet.len() / 4 && counts[1] == lists[1].len() / WIDTHS[1] {
            lists.iter_mut().zip(&mut kept).for_each(|(list, kept)| list.copy_from_slice(kept));
            *counts = [usize::MAX; 5];
            return 8;
        }
        answer
    }),
    ("takes 8 by the sheet's words alone for enough", |sheet, warnings, lists, counts| {
        let long = lists.iter().zip(WIDTHS).all(|(list, width)| list.len() / width >= sheet.len() / 4);
        match ours::check(sheet, warnings, lists, counts) {
            8 if long => 256,
            answer => answer,
        }
    }),
    ("counts a recorded use too few", |sheet, warnings, lists, counts| {
        let answer = ours::check(sheet, warnings, lists, counts);
        if answer == 256 {
            counts[3] = counts[3].saturating_sub(1);
        }
        answer
    }),
    ("gives a generated name the mark of an index", |sheet, warnings, mut lists, counts| {
        let answer = ours::check(sheet, warnings, lists.each_mut().map(|list| &mut **list), counts);
        if answer == 256 {
            lists[1].chunks_exact_mut(WIDTHS[1]).take(counts[1]).for_each(|entry| entry[WIDTHS[1] - 1] = 0);
        }
        answer
    }),
];

const LOOKUPS: [(&str, Lookup); 7] = [
    ("reads the word after the carried names", |lists, counts, scope, name, found| {
        touch(lists[2].as_ptr().wrapping_add(lists[2].len()).cast());
        ours::lookup(lists, counts, scope, name, found)
    }),
    ("writes the first binding's scope, as it was", |lists, counts, scope, name, found| {
        if let Some(first) = lists[1].first() {
            put(lists[1].as_ptr().cast_mut().cast(), *first as u8);
        }
        ours::lookup(lists, counts, scope, name, found)
    }),
    ("clears the two words where nothing is found", |lists, counts, scope, name, found| {
        let answer = ours::lookup(lists, counts, scope, name, found);
        if answer == 0 {
            *found = [0; 2];
        }
        answer
    }),
    ("takes every mark for 0", |lists, counts, scope, (name, _), found| ours::lookup(lists, counts, scope, (name, 0), found)),
    ("takes any other mark for 1", |lists, counts, scope, (name, mark), found| {
        ours::lookup(lists, counts, scope, (name, mark.min(1)), found)
    }),
    ("finds nothing for another mark", |lists, counts, scope, name, found| match name.1 {
        0 | 1 => ours::lookup(lists, counts, scope, name, found),
        _ => 0,
    }),
    ("finds nothing from a scope that isn't there", |lists, counts, scope, name, found| match scope as usize {
        scope if scope >= counts[0] => 0,
        _ => ours::lookup(lists, counts, scope, name, found),
    }),
];

fn touch(byte: *const u8) {
    // Safety: none; the read is one that the caller must find out.
    unsafe { read_volatile(byte) };
}

fn put(byte: *mut u8, value: u8) {
    // Safety: none, as above.
    unsafe { write_volatile(byte, value) };
}

fn flip(byte: *mut u8) {
    // Safety: none, as above.
    put(byte, !unsafe { read_volatile(byte) });
}
