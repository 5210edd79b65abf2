//! Families of short sheets, each of them whole: README.md says which sheets are in it.
use crate::grammar::Grammar;
use crate::several::{depths, key_depths, keys, rowless, spans, stars, steps, uses};
use generator::{Sheet, to_bytes};

/// Takes each sheet of a family.
pub type Each<'a> = &'a mut dyn FnMut(&[u8]);

pub struct Family {
    pub name: &'static str,
    pub sheets: fn(Each),
}

const fn family(name: &'static str, sheets: fn(Each)) -> Family {
    Family { name, sheets }
}

pub const FAMILIES: [Family; 24] = [
    family("lengths", lengths),
    family("trailers", trailers),
    family("few-words", few_words),
    family("places", places),
    family("names", names),
    family("bindings", bindings),
    family("rows", rows),
    family("clauses", clauses),
    family("longer-clauses", longer_clauses),
    family("whole-clauses", whole_clauses),
    family("whole-expressions", whole_expressions),
    family("longer-expressions", longer_expressions),
    family("patterns", patterns),
    family("whole-patterns", whole_patterns),
    family("arms", arms),
    family("whole-arms", whole_arms),
    family("depths", depths),
    family("key-depths", key_depths),
    family("spans", spans),
    family("uses", uses),
    family("steps", steps),
    family("keys", keys),
    family("stars", stars),
    family("rowless", rowless),
];

pub const MAX: u32 = u32::MAX;

/// Every row of words with one from each alphabet.
pub fn product(alphabets: &[&[u32]], mut each: impl FnMut(&[u32])) {
    let mut at = vec![0; alphabets.len()];
    let mut words: Vec<u32> = alphabets.iter().map(|words| words[0]).collect();
    loop {
        each(&words);
        let Some(last) = (0..at.len()).rev().find(|place| at[*place] + 1 < alphabets[*place].len()) else { return };
        at[last] += 1;
        at[last + 1..].fill(0);
        for place in last..at.len() {
            words[place] = alphabets[place][at[place]];
        }
    }
}

/// The words from 0 to this one.
pub fn up_to(last: u32) -> Vec<u32> {
    (0..=last).collect()
}

pub fn put(sheet: &Sheet, each: Each) {
    each(&to_bytes(&sheet.words()));
}

/// Names, bindings and clauses.
pub fn sheet(names: &[&str], rows: &[[u32; 5]], head: &[&[u32]]) -> Sheet {
    let texts = names.iter().flat_map(|name| named(name.len() as u32, name.as_bytes())).collect();
    let counts = [names.len() as u32, rows.len() as u32, head.len() as u32, 0];
    Sheet { sections: [texts, rows.concat(), head.concat(), Vec::new()], counts, span: [0, 9] }
}

/// A name in a sheet, with any word for its length.
fn named(length: u32, text: &[u8]) -> Vec<u32> {
    let words = text.chunks(4).map(|part| part.iter().rev().fold(0, |word, byte| word << 8 | u32::from(*byte)));
    std::iter::once(length).chain(words).collect()
}

// ---- bytes, trailer, tables

fn lengths(each: Each) {
    for length in 0..=8300_usize {
        each(&vec![0; length]);
        each(&vec![0xFF; length]);
        let mut delete = vec![10, 0, 1, length.div_ceil(4).saturating_sub(14) as u32];
        delete.resize(length.div_ceil(4).saturating_sub(10).max(4), 1);
        each(&to_bytes(&sheet(&[], &[], &[&delete]).words())[..length]);
    }
}

fn trailers(each: Each) {
    product(&[&[0, 1, 2, 10, MAX][..]; 10], |words| each(&to_bytes(words)));
}

fn few_words(each: Each) {
    for length in 0..=4 {
        let (first, back, count) = ([length], up_to(length), [0, 1, 2]);
        let mut alphabets = vec![&[0, 1, 2, 97, MAX][..]; length as usize];
        alphabets.extend([&first[..], &count, &back, &count, &back, &count, &back, &count, &[0], &[9]]);
        product(&alphabets, |words| each(&to_bytes(words)));
    }
}

fn places(each: Each) {
    let mut whole = sheet(&["a"], &[[0, 0, 1, 0, 1]], &[&[2, 0, 1, 1]]);
    whole.sections[3] = vec![0, 1, 0];
    let mut words = whole.words();
    let trailer = words.len() - 10;
    let (back, count) = (up_to(trailer as u32 + 1), [0, 1, 2]);
    product(&[&back, &count[..], &back, &count, &back, &count, &back, &count], |placed| {
        words[trailer..trailer + 8].copy_from_slice(placed);
        each(&to_bytes(&words));
    });
}

/// Bytes that begin, go on or end a character in UTF-8, or can't.
const BYTES: [u32; 13] = [0x00, 0x2A, 0x61, 0x7F, 0x80, 0xBF, 0xC1, 0xC2, 0xDF, 0xE0, 0xED, 0xF4, 0xFF];

fn names(each: Each) {
    let mut one = sheet(&[""], &[], &[&[2, 0, 1, 8, 0]]);
    let mut name = |length: u32, text: &[u8]| {
        one.sections[0] = named(length, text);
        put(&one, each);
    };
    let mut texts = |lengths: &[u32], alphabets: &[&[u32]]| {
        product(alphabets, |text| {
            let text: Vec<u8> = text.iter().map(|byte| *byte as u8).collect();
            lengths.iter().for_each(|length| name(*length, &text));
        });
    };
    let all = up_to(255);
    for length in 0..=4 {
        texts(&[length], &[&all[..], &all, &BYTES, &BYTES][..length as usize]);
    }
    texts(&[3], &[&[0xE0, 0xE1, 0xEC, 0xED, 0xEE, 0xEF], &all, &all]);
    let lengths = [0, 1, 2, 3, 4, 5, 6, 7, 8, 9, 255, 256, MAX];
    texts(&lengths, &[&BYTES[..]; 4]);
    texts(&lengths, &[&[0x61], &[0x61], &[0x61], &[0x61], &BYTES[..], &BYTES, &BYTES, &BYTES]);
    for length in 0..=300 {
        texts(&[length], &vec![&[0x61][..]; length as usize]);
        texts(&[length], &vec![&[0x61][..]; length as usize + 1]);
    }
    two_names(each);
}

fn two_names(each: Each) {
    let mut two = sheet(&[], &[], &[&[2, 0, 1, 8, 1]]);
    let (length, text) = (up_to(5), [0, 0x61, 0x6161, 0x61_6161, 0x6161_6161, 0x2A, 0x80, 0xA9C3, MAX]);
    product(&[&[0, 1, 2, 3], &length, &text, &length, &text], |words| {
        two.counts[0] = words[0];
        two.sections[0] = words[1..].to_vec();
        put(&two, each);
    });
}

fn bindings(each: Each) {
    let node = [1, 0, 1, 0, 1, 0, 1, 1, 0, 1, 1, 0, 0];
    let mut some = sheet(&["a", "b"], &[], &[&node, &[2, 0, 1, 15, 0, 7, 0, 7, 1]]);
    let row: [&[u32]; 5] = [&[0, 1], &[0, 1, 2], &[0, 1, 2, 3, 4, 5], &[0, 1], &[0, 1]];
    for rows in 0..=2 {
        product(&row.repeat(rows), |words| {
            some.sections[1] = words.to_vec();
            for count in [rows as u32, rows as u32 + 1, MAX] {
                some.counts[1] = count;
                put(&some, each);
            }
        });
    }
    some.counts[1] = 3;
    let last: [&[u32]; 5] = [&[0, 1, 2], &[0], &[1, 4], &[0], &[1]];
    product(&[row, row, last].concat(), |words| {
        some.sections[1] = words.to_vec();
        put(&some, each);
    });
}

// ---- one clause or arm

/// Names `a`, `id` and `*`, a binding of each kind, and no clause.
pub fn tables() -> Sheet {
    sheet(&["a", "id", "*"], &[[0, 0, 1, 0, 1], [1, 1, 2, 0, 1], [2, 2, 3, 0, 1], [3, 0, 4, 0, 1]], &[])
}

fn rows(each: Each) {
    let mut row = tables();
    row.counts[2] = 1;
    let (kind, first, next) = (up_to(14), [up_to(26), vec![MAX]].concat(), [0, 1, 2, 3, 7, 8, MAX]);
    for length in 0..=5 {
        let mut alphabets = vec![&kind[..], &[0], &[1], &first];
        alphabets.extend(vec![&next[..]; length]);
        product(&alphabets, |words| {
            row.sections[2] = words.to_vec();
            put(&row, each);
        });
    }
}

/// Rules with other choices than the grammar's.
type Others<'a> = &'a [(&'a str, &'a str)];

/// Where the words of one clause or arm go.
fn section(rule: &str) -> usize {
    if rule == "arm" { 3 } else { 2 }
}

/// Sheets with all that one clause or arm can begin with, up to so many words.
fn beginnings(others: Others, rule: &str, most: usize, each: Each) {
    let mut one = tables();
    one.counts[section(rule)] = 1;
    put(&one, each);
    Grammar::new(others).beginnings(rule, most, &mut |words| {
        one.sections[section(rule)] = words.to_vec();
        put(&one, each);
    });
}

/// Sheets with every whole clause or arm of up to so many words.
fn wholes(others: Others, rule: &str, most: usize, each: Each) {
    let mut one = tables();
    one.counts[section(rule)] = 1;
    Grammar::new(others).wholes(rule, most, &mut |words| {
        one.sections[section(rule)] = words.to_vec();
        put(&one, each);
    });
}

fn clauses(each: Each) {
    beginnings(&[], "clause", 9, each);
}

const FEW_IN_CLAUSES: Others = &[("expr", "1 | 7 var | 8 name | 9 name expr | 12 list | 0 !"), ("var", "0 | 3"), ("name", "0 | 1 | 3 !")];

fn longer_clauses(each: Each) {
    beginnings(FEW_IN_CLAUSES, "clause", 13, each);
}

fn whole_clauses(each: Each) {
    wholes(FEW_IN_CLAUSES, "clause", 16, each);
}

fn whole_expressions(each: Each) {
    wholes(&[("clause", "2 span expr")], "clause", 10, each);
}

fn longer_expressions(each: Each) {
    let expr = "3 | 7 var | 8 name | 9 name expr | 10 expr expr | 11 slice | 12 list | 13 list | 14 list | 15 op expr expr | 16 unary |
        17 case | 18 expr | 19 expr expr | 20 pattern | 21 list_comprehension | 22 span pattern_comprehension | 23 list_predicate |
        24 map_projection";
    wholes(&[("clause", "2 span expr"), ("expr", expr), ("op", "0 | 6"), ("var", "0"), ("name", "0")], "clause", 12, each);
}

const FEW_IN_PATTERNS: Others =
    &[("clause", "1 span match"), ("expr", "1 | 7 var | 8 name | 9 name expr | 0 !"), ("var", "0 | 1 | 4"), ("name", "0 | 3 !")];

fn patterns(each: Each) {
    beginnings(FEW_IN_PATTERNS, "clause", 22, each);
}

fn whole_patterns(each: Each) {
    wholes(FEW_IN_PATTERNS, "clause", 26, each);
}

const FEW_IN_ARMS: Others = &[("expr", "1 | 7 var | 8 name | 0 !"), ("var", "0 | 4"), ("name", "0 | 3 !")];

fn arms(each: Each) {
    beginnings(FEW_IN_ARMS, "arm", 16, each);
}

fn whole_arms(each: Each) {
    wholes(FEW_IN_ARMS, "arm", 20, each);
}
