//! A whole sheet: its size, its sections and its trailer.
use crate::clauses::{DEPTH, Writer};
use crate::random::Random;
use crate::tables::{Row, Rowless, STAR, generated, name_words, names, rows, span};

/// Words of the trailer, and of the longest sheet.
pub const TRAILER: usize = 10;
const LIMIT: usize = 2048;

/// Names, bindings, head and arms, with how many of each there are, and the statement's span.
#[derive(Clone)]
pub struct Sheet {
    pub sections: [Vec<u32>; 4],
    pub counts: [u32; 4],
    pub span: [u32; 2],
}

impl Sheet {
    /// The sections, then the trailer that fits them.
    pub fn words(&self) -> Vec<u32> {
        let mut words = self.sections.concat();
        for (at, count) in self.counts.iter().enumerate() {
            let back = self.sections[at..].iter().map(Vec::len).sum::<usize>();
            words.extend([back as u32, *count]);
        }
        words.extend(self.span);
        words
    }
}

/// The words that a sheet should have, and whether it is filled up to them.
fn size(random: &mut Random) -> (usize, bool) {
    match random.below(32) {
        0..=15 => (TRAILER + random.at(91), false),
        16..=21 => (100 + random.at(413), false),
        22..=25 => (512 + random.at(513), false),
        26..=29 => (1024 + random.at(1025), false),
        30 => (LIMIT - random.at(8), true),
        _ if random.one_in(8) => (LIMIT + 1, true),
        _ => (LIMIT, true),
    }
}

pub fn sheet(random: &mut Random) -> Sheet {
    let down_to = depth(random);
    let (size, filled) = size(random);
    let room = if down_to.is_some() { size.max(700) } else { size } - TRAILER;
    let stars = random.one_in(3);
    let rowless = (random.below(5) < 2).then(|| Rowless::new(random));
    if stars && down_to.is_none() && room >= LEAST && random.one_in(16) {
        return wide(random, room, rowless);
    }
    let (names, rows) = tables(random, room, stars, rowless.as_ref());
    let mut sections = [names.iter().flat_map(|name| name_words(name)).collect(), rows.concat(), Vec::new(), Vec::new()];
    let left = room - sections[0].len() - sections[1].len();
    let star = names.iter().position(|name| stars && name == STAR).map(|at| at as u32);
    let mut writer = writer(random, &names, &rows, star, rowless);
    writer.down_to = down_to;
    let arms = arms(&mut writer, left, &mut sections[3]);
    let clauses = head(&mut writer, left - sections[3].len(), filled, &mut sections[2]);
    let counts = [names.len() as u32, rows.len() as u32, clauses, arms];
    Sheet { sections, counts, span: span(random) }
}

fn writer<'a>(random: &'a mut Random, names: &[String], rows: &'a [Row], star: Option<u32>, rowless: Option<Rowless>) -> Writer<'a> {
    let sorted = random.one_in(3);
    let (words, seen, aliases) = (Vec::new(), Vec::new(), Vec::new());
    let one_in = rowless.as_ref().map_or(0, |rowless| rowless.one_in);
    let index = |variable| names.iter().position(|name| *name == generated(variable)).map(|at| at as u32);
    let variables = rowless.map_or_else(Vec::new, |rowless| rowless.variables);
    let rowless = variables.into_iter().map(|variable| (variable, index(variable))).collect();
    Writer { random, words, names: names.len() as u32, rows, seen, aliases, down_to: None, rowless, one_in, sorted, star }
}

/// The fewest words before the trailer of a sheet with many names and stars.
const LEAST: usize = 40;

/// A sheet of up to so many words before the trailer, whose answers often have more entries than it has words: names that are carried by
/// many stars, those of the sheet or of variables without a row.
fn wide(random: &mut Random, room: usize, rowless: Option<Rowless>) -> Sheet {
    let (names, rows) = wide_tables(random, room, rowless.as_ref());
    let mut sections = [names.iter().flat_map(|name| name_words(name)).collect(), rows.concat(), Vec::new(), Vec::new()];
    let left = room - sections[0].len() - sections[1].len();
    let mut writer = writer(random, &names, &rows, Some(0), rowless);
    let clauses = writer.wide(0, left);
    sections[2].append(&mut writer.words);
    let counts = [names.len() as u32, rows.len() as u32, clauses, 0];
    Sheet { sections, counts, span: span(random) }
}

pub fn any_wide(random: &mut Random) -> Sheet {
    let room = LEAST + random.at(LIMIT - TRAILER - LEAST + 1);
    let rowless = random.one_in(4).then(|| Rowless::new(random));
    wide(random, room, rowless)
}

/// How deep an expression goes at least, in a few sheets.
fn depth(random: &mut Random) -> Option<u32> {
    match random.below(64) {
        0..=2 => Some(DEPTH),
        3 => Some(DEPTH + 1 + random.below(2)),
        4 => Some(2 + random.below(DEPTH - 2)),
        _ => None,
    }
}

/// Mostly a few names and bindings; sometimes as many as there is room for.
fn tables(random: &mut Random, room: usize, stars: bool, rowless: Option<&Rowless>) -> (Vec<String>, Vec<Row>) {
    let words = if random.one_in(24) { room } else { room / 4 };
    let most = if random.one_in(6) { 1000 } else { 1 + random.at(8) };
    let names = names(random, words, most, stars, rowless);
    let left = room - names.iter().map(|name| name_words(name).len()).sum::<usize>();
    let words = if random.one_in(24) { left } else { left / 3 };
    let most = if random.one_in(6) { 500 } else { 1 + random.at(10) };
    let rows = rows(random, &names, most.min(words / 5), if stars { 4 } else { 16 }, rowless);
    (names, rows)
}

/// Names of two words in up to two sevenths of the room, or a few of variables that get no row; and a few bindings.
fn wide_tables(random: &mut Random, room: usize, rowless: Option<&Rowless>) -> (Vec<String>, Vec<Row>) {
    let made: Vec<String> = match rowless {
        Some(_) => (0..random.below(4)).map(generated).collect(),
        None => (0..random.at(room / 7 + 1)).map(|made| format!("{made:x}")).collect(),
    };
    let names: Vec<String> = std::iter::once(STAR.to_owned()).chain(made).collect();
    let most = random.at(4).min((room - 2 * names.len().min(room / 2)) / 20);
    let rows = rows(random, &names, most, 4, rowless);
    (names, rows)
}

/// Up to three arms, which leave some of the room for the head; how many there are.
fn arms(writer: &mut Writer, room: usize, section: &mut Vec<u32>) -> u32 {
    let most = if writer.random.one_in(2) { 0 } else { 1 + writer.random.at(3) };
    for made in 0..most {
        let end = room * (made + 1) / (most + 1);
        if section.len() + 3 > end {
            return made as u32;
        }
        let clauses = clauses(writer, end - section.len() - 3);
        section.extend(span(writer.random));
        section.push(clauses);
        section.append(&mut writer.words);
        writer.forget();
    }
    most as u32
}

fn head(writer: &mut Writer, room: usize, filled: bool, section: &mut Vec<u32>) -> u32 {
    let clauses = clauses(writer, room);
    let left = room - writer.words.len();
    let fills = filled && left >= 4;
    if fills {
        writer.filling(left);
    }
    section.append(&mut writer.words);
    clauses + u32::from(fills)
}

/// Clauses that fit the room, of smaller sizes as they don't; how many there are.
fn clauses(writer: &mut Writer, room: usize) -> u32 {
    let most = if writer.random.one_in(4) { 1 + writer.random.below(6) } else { u32::MAX };
    let mut share = writer.random.pick(&[1, 2, 4, 8, 32, 256]);
    let mut made = 0;
    while made < most && share <= 1024 {
        let end = writer.words.len();
        let words = writer.random.below(2 * (room - end) as u32 / share + 1);
        let down_to = writer.down_to;
        writer.clause(words);
        if writer.words.len() <= room {
            made += 1;
        } else {
            writer.words.truncate(end);
            writer.down_to = down_to;
            share *= 2;
        }
    }
    made
}
