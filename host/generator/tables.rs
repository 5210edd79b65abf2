//! The names and the bindings of a sheet.
use crate::random::Random;

/// A binding: variable, name, kind, start, end.
pub type Row = [u32; 5];

pub const STAR: &str = "*";

/// Names whose use ids are equal, found by a search.
const EQUAL_IDS: [&[&str]; 8] = [
    &["", "eaztaqp", "jekbguz"],
    &["*", "adklcwb", "kvrsugp"],
    &["id", "mddqfsx", "mqcmosi"],
    &["a", "mgwrblb"],
    &["n", "mgwrblm"],
    &["é", "abtokul", "cccwcgd"],
    &["日本", "biiozli", "fcbnwsg"],
    &["h👁q", "bgra"],
];

const PLAIN: [&str; 16] = ["a", "b", "c", "d", "n", "m", "r", "p", "x", "xs", "name", "age", "person", "friend", "total", "created_at"];

/// The first and last characters of each length in UTF-8, and names that look like something else.
const ODD: [&str; 20] = [
    "\0",
    "\u{7f}",
    "\u{80}",
    "\u{7ff}",
    "\u{800}",
    "\u{d7ff}",
    "\u{e000}",
    "\u{ffff}",
    "\u{10000}",
    "\u{10ffff}",
    "née",
    "имя",
    "名前",
    "👁👁",
    "`",
    "a`b",
    "Id",
    "**",
    "__var1",
    "a\0",
];

/// What a variable without a row is named.
pub fn generated(variable: u32) -> String {
    format!("__var{variable}")
}

/// Such names, and what only looks like one.
const GENERATED: [&str; 6] = ["__var7", "__var07", "__var0", "__var4294967295", "__var4294967296", "__var"];

/// Variables that get no row, and how often a binder is one of them.
pub struct Rowless {
    pub variables: Vec<u32>,
    pub one_in: u32,
}

impl Rowless {
    /// Mostly a few variables; of a quarter of the sheets all binders are among them.
    pub fn new(random: &mut Random) -> Self {
        let most = if random.one_in(8) { 60 } else { 1 + random.at(6) };
        let mut variables: Vec<u32> = Vec::new();
        for _ in 0..most {
            let variable = match random.below(8) {
                0 => 0,
                1 => u32::MAX,
                2 => 7,
                3 => random.word(),
                4 => random.pick(&[1, 10, 99, 100, u32::MAX - 1, 1 << 31, use_id("a"), use_id(STAR)]),
                _ => random.below(12),
            };
            if !variables.contains(&variable) {
                variables.push(variable);
            }
        }
        Self { variables, one_in: random.pick(&[1, 2, 2, 4]) }
    }

    /// Some of their names, and some that are like these.
    fn names(&self, random: &mut Random) -> Vec<String> {
        let mut names: Vec<String> = self.variables.iter().filter_map(|variable| random.one_in(2).then(|| generated(*variable))).collect();
        names.extend(GENERATED.iter().filter_map(|name| random.one_in(4).then(|| (*name).to_owned())));
        if random.one_in(2) {
            names.push(generated(random.below(12)));
        }
        names
    }
}

/// Names of up to so many words, and at most so many names, and a star if it should be there; and some for variables that get no row.
pub fn names(random: &mut Random, words: usize, most: usize, star: bool, rowless: Option<&Rowless>) -> Vec<String> {
    let mut names: Vec<String> = Vec::new();
    let mut left = words;
    if star && left >= 2 {
        left -= 2;
        names.push(STAR.to_owned());
    }
    let generated = rowless.map_or_else(Vec::new, |rowless| rowless.names(random));
    let groups = (0..most).map(|made| some_names(random, made));
    let groups: Vec<Vec<String>> = std::iter::once(generated).chain(groups).collect();
    for name in groups.into_iter().flatten() {
        let size = name_words(&name).len();
        if size <= left && !names.contains(&name) {
            left -= size;
            names.push(name);
        }
    }
    if star && !names.is_empty() {
        let at = random.at(names.len().min(6));
        names.swap(0, at);
    }
    names
}

/// A name, or a group of them; where there are many already, a numbered one.
fn some_names(random: &mut Random, made: usize) -> Vec<String> {
    match random.below(16) {
        _ if made >= 30 => vec![format!("v{made}")],
        0..=4 => vec![random.pick(&PLAIN).to_owned()],
        5 => vec![STAR.to_owned()],
        6 => vec!["id".to_owned()],
        7 => vec![String::new()],
        8 | 9 => vec![random.pick(&ODD).to_owned()],
        10..=12 => random.pick(&EQUAL_IDS).iter().map(|name| (*name).to_owned()).collect(),
        13 => vec![long_name(random)],
        _ => vec![format!("v{made}")],
    }
}

/// Up to the 255 bytes that a name may have.
fn long_name(random: &mut Random) -> String {
    let most = random.pick(&[9, 40, 254, 255]);
    let mut name = String::new();
    loop {
        let next = random.pick(&["a", "é", "名", "👁"]);
        if name.len() + next.len() > most {
            return name;
        }
        name += next;
    }
}

/// A name in the sheet: its length, and its bytes filled up with zeros.
pub fn name_words(name: &str) -> Vec<u32> {
    let text = name.as_bytes().chunks(4).map(|part| part.iter().rev().fold(0, |word, byte| word << 8 | u32::from(*byte)));
    std::iter::once(name.len() as u32).chain(text).collect()
}

/// So many bindings at most, with distinct variables, none of those that get no row; of these, one in so many is the use id of a name.
pub fn rows(random: &mut Random, names: &[String], most: usize, ids: u32, rowless: Option<&Rowless>) -> Vec<Row> {
    let mut rows: Vec<Row> = Vec::new();
    if names.is_empty() {
        return rows;
    }
    for made in 0..most {
        let id = variable(random, names, made, ids);
        let [start, end] = span(random);
        let row = [id, random.below(names.len() as u32), 1 + random.below(4), start, end];
        if rows.iter().all(|other| other[0] != id) && rowless.is_none_or(|rowless| !rowless.variables.contains(&id)) {
            rows.push(row);
        }
    }
    rows
}

/// Mostly a small number; sometimes the use id of a name, or any word.
fn variable(random: &mut Random, names: &[String], made: usize, ids: u32) -> u32 {
    match random.below(16) {
        _ if random.one_in(ids) => use_id(&names[random.at(names.len())]),
        1 => random.pick(&[0, 1, u32::MAX, u32::MAX - 1, 1 << 31]),
        2 => random.word(),
        _ => made as u32 + 1,
    }
}

pub fn use_id(name: &str) -> u32 {
    let hash = name.bytes().fold(2_166_136_261_u32, |h, byte| h.wrapping_mul(16_777_619) ^ u32::from(byte));
    u32::MAX - (hash & 0x3FFF_FFFF)
}

/// A start and an end that is not before it.
pub fn span(random: &mut Random) -> [u32; 2] {
    match random.below(12) {
        0 => [0, 0],
        1 => [0, u32::MAX],
        2 => [u32::MAX, u32::MAX],
        3 => {
            let start = random.word();
            [start, start + random.below(u32::MAX - start)]
        }
        4 => [random.below(300); 2],
        _ => {
            let start = random.below(300);
            [start, start + random.below(100)]
        }
    }
}
