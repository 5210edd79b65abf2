//! Sheets that are hard on a checker: full of one thing. Each family has sheets of about 1, 2, 4 and 8 KB, with an eighth, a quarter,
//! a half or all of what its name says.
use crate::damage::to_bytes;
use crate::sheet::Sheet;
use crate::tables::{generated, name_words, use_id};
use std::collections::HashMap;

pub struct Family {
    pub name: &'static str,
    make: fn(Share) -> Vec<u8>,
}

pub const FAMILIES: [Family; 17] = [
    Family { name: "203 rows, a WITH of 334 Vars", make: with_vars },
    Family { name: "203 rows, 320 Vars under `+`", make: sums },
    Family { name: "200 rows, 160 elements", make: elements },
    Family { name: "200 rows, 500 Vars", make: vars },
    Family { name: "400 rows", make: rows },
    Family { name: "670 names with equal use ids", make: equal_ids },
    Family { name: "336 yields, 505 uses of another name", make: unseen },
    Family { name: "336 yields, 505 uses of the first", make: seen },
    Family { name: "168 yields, a WITH of 330 uses of the first", make: with_uses },
    Family { name: "400 yields", make: yields },
    Family { name: "1,000 names", make: names },
    Family { name: "280 properties", make: properties },
    Family { name: "677 paths without a row", make: paths_without_rows },
    Family { name: "338 nodes without a row", make: nodes_without_rows },
    Family { name: "407 Unwinds without a row", make: unwinds_without_rows },
    Family { name: "338 paths without a row, each a name of the sheet", make: named_without_rows },
    Family { name: "677 paths of one variable without a row", make: one_without_a_row },
];

/// The same with sort keys.
pub const SORTED: [Family; 8] = [
    Family { name: "336 yields, a WITH of none, 500 keys of the first", make: keys_before },
    Family { name: "336 yields, a WITH of none, 500 keys of another name", make: keys_nowhere },
    Family { name: "170 yields, a WITH of them, 300 keys of the first", make: keys_after },
    Family { name: "300 aliases, 400 keys of the last", make: keys_alias },
    Family { name: "300 aliases, 400 keys of another name", make: keys_no_alias },
    Family { name: "a WITH of none, 130 comprehensions as keys", make: keys_with_patterns },
    Family { name: "140 WITHs of one key each", make: keys_one_each },
    Family { name: "168 yields, a WITH of a star, 560 keys of the second", make: star_keys },
];

/// The same with stars and aliases. The listing refuses the first two with 8 from 4 KB on, the last two at 8 KB, and the one with paths from
/// 2 KB on, which has the largest answers that we know of, at 8 KB 43,307 bindings and 42,966 carried names.
pub const STARRED: [Family; 9] = [
    Family { name: "203 yields, 127 WITHs of a star", make: stars },
    Family { name: "254 computed aliases, 127 WITHs of a star", make: most_entries },
    Family { name: "3 yields, 250 WITHs of a star", make: few_carried },
    Family { name: "203 yields, a WITH of 330 stars", make: stars_in_one },
    Family { name: "336 yields of one name, 90 WITHs of a star and the name", make: shadowing },
    Family { name: "168 yields, a WITH of 380 aliases of the last", make: aliased },
    Family { name: "341 paths without a row, 126 WITHs of a star", make: stars_without_rows },
    Family { name: "130 yields, 55 WITHs of a star, 290 yields of one name", make: stars_and_one },
    Family { name: "130 yields, 55 WITHs of a star, 130 nodes after a comprehension", make: stars_and_nodes },
];

/// Sheets with many findings; at 8 KB they have 500.
pub const WRITTEN: [Family; 3] = [
    Family { name: "uses of one name of a byte", make: one_name },
    Family { name: "uses of 100 names of 3 to 17 bytes", make: hundred_names },
    Family { name: "eight messages in turns", make: messages },
];

/// The kilobytes that the sheets of a family have.
pub const KILOBYTES: [u32; 4] = [1, 2, 4, 8];

impl Family {
    /// Its sheet of about so many kilobytes.
    pub fn sheet(&self, kilobytes: u32) -> Vec<u8> {
        (self.make)(Share(kilobytes))
    }
}

/// Eighths of what a full sheet has.
#[derive(Clone, Copy)]
struct Share(u32);

impl Share {
    fn of(self, count: u32) -> u32 {
        count * self.0 / 8
    }
}

/// A sheet of names, bindings and a head with so many clauses.
fn sheet(names: &[String], rows: Vec<u32>, head: Vec<u32>, clauses: u32) -> Vec<u8> {
    let counts = [names.len() as u32, rows.len() as u32 / 5, clauses, 0];
    let sections = [names.iter().flat_map(|name| name_words(name)).collect(), rows, head, Vec::new()];
    to_bytes(&Sheet { sections, counts, span: [0, 9] }.words())
}

fn numbered(count: u32) -> Vec<String> {
    (0..count).map(|n| format!("{n:x}")).collect()
}

const NODE: u32 = 1;
const VALUE: u32 = 4;

/// Bindings of the first name, of a kind, with the variables from 0.
fn bound(count: u32, kind: u32) -> Vec<u32> {
    (0..count).flat_map(|n| [n, 0, kind, 0, 0]).collect()
}

/// A Where with a list of so many expressions.
fn list(count: u32, one: impl Fn(u32) -> Vec<u32>) -> Vec<u32> {
    [2, 0, 9, 12, count].into_iter().chain((0..count).flat_map(one)).collect()
}

/// A Where with a number.
const NOTHING: [u32; 4] = [2, 0, 9, 3];

/// Each Var is the last row's.
fn with_vars(share: Share) -> Vec<u8> {
    let (rows, vars) = (share.of(203), share.of(334));
    let mut head = vec![3, 0, 9, vars];
    head.extend((0..vars).flat_map(|_| [0, 7, rows - 1]));
    head.push(0);
    sheet(&numbered(1), bound(rows, VALUE), head, 1)
}

fn sums(share: Share) -> Vec<u8> {
    let rows = share.of(203);
    sheet(&numbered(1), bound(rows, VALUE), list(share.of(160), |_| vec![15, 0, 7, rows - 1, 7, rows - 1]), 1)
}

/// Nodes of a Match, each with the last row's variable.
fn elements(share: Share) -> Vec<u8> {
    let (rows, elements) = (share.of(200), share.of(160));
    let mut head = vec![1, 0, 9, 0, 1, 0, elements];
    head.extend((0..elements).flat_map(|_| [1, 0, 9, 1, rows - 1, 0]));
    sheet(&numbered(1), bound(rows, NODE), head, 1)
}

fn vars(share: Share) -> Vec<u8> {
    let rows = share.of(200);
    sheet(&numbered(1), bound(rows, VALUE), list(share.of(500), |_| vec![7, rows - 1]), 1)
}

fn rows(share: Share) -> Vec<u8> {
    sheet(&numbered(1), bound(share.of(400), VALUE), NOTHING.to_vec(), 1)
}

fn equal_ids(share: Share) -> Vec<u8> {
    sheet(&names_with_equal_ids(share.of(670)), Vec::new(), NOTHING.to_vec(), 1)
}

/// A Call with so many yields, the first of one name and the others of another.
fn call(yields: u32, first: u32, others: u32) -> Vec<u32> {
    let mut clause = vec![11, 0, 9, 0, yields, first, 0, 0];
    clause.extend((1..yields).flat_map(|_| [others, 0, 0]));
    clause
}

fn unseen(share: Share) -> Vec<u8> {
    let uses = list(share.of(505), |_| vec![8, 1]);
    sheet(&numbered(2), Vec::new(), [call(share.of(336), 0, 0), uses].concat(), 2)
}

fn seen(share: Share) -> Vec<u8> {
    let uses = list(share.of(505), |_| vec![8, 1]);
    sheet(&numbered(2), Vec::new(), [call(share.of(336), 1, 0), uses].concat(), 2)
}

/// With rows that are not looked at, so that the sheet is full.
fn with_uses(share: Share) -> Vec<u8> {
    let uses = share.of(330);
    let mut head = call(share.of(168), 1, 0);
    head.extend([3, 0, 9, uses]);
    head.extend((0..uses).flat_map(|_| [0, 8, 1]));
    head.push(0);
    sheet(&numbered(2), bound(share.of(100), VALUE), head, 2)
}

/// Yields of a name each.
fn yields(share: Share) -> Vec<u8> {
    let count = share.of(400);
    let head = [11, 0, 9, 0, count].into_iter().chain((0..count).flat_map(|n| [n, 0, 0])).collect();
    sheet(&numbered(count), Vec::new(), head, 1)
}

/// Names, of which the last is used.
fn names(share: Share) -> Vec<u8> {
    let count = share.of(1000);
    sheet(&numbered(count), Vec::new(), vec![2, 0, 9, 8, count - 1], 1)
}

/// Nodes of a Match, each with a Var as its property.
fn properties(share: Share) -> Vec<u8> {
    let elements = share.of(280);
    let mut head = vec![1, 0, 9, 0, 1, 0, elements];
    head.extend((0..elements).flat_map(|_| [1, 0, 9, 0, 1, 7, 0]));
    sheet(&numbered(1), bound(1, NODE), head, 1)
}

/// A Match of so many paths, with these variables.
fn paths(count: u32, variable: impl Fn(u32) -> u32) -> Vec<u32> {
    [1, 0, 9, 0, count].into_iter().chain((0..count).flat_map(|n| [1, variable(n), 0])).collect()
}

/// Numbers that are far from each other, most of them of ten digits.
fn spread(n: u32) -> u32 {
    n.wrapping_mul(0x9E37_79B1)
}

fn paths_without_rows(share: Share) -> Vec<u8> {
    sheet(&[], Vec::new(), paths(share.of(677), |n| n), 1)
}

fn nodes_without_rows(share: Share) -> Vec<u8> {
    let elements = share.of(338);
    let mut head = vec![1, 0, 9, 0, 1, 0, elements];
    head.extend((0..elements).flat_map(|n| [1, 0, 9, 1, spread(n), 0]));
    sheet(&[], Vec::new(), head, 1)
}

fn unwinds_without_rows(share: Share) -> Vec<u8> {
    let count = share.of(407);
    sheet(&[], Vec::new(), (0..count).flat_map(|n| [5, 0, 9, spread(n), 1]).collect(), count)
}

/// The names have eight bytes each.
fn named_without_rows(share: Share) -> Vec<u8> {
    let count = share.of(338);
    let names: Vec<String> = (0..count).map(|n| generated(100 + n)).collect();
    sheet(&names, Vec::new(), paths(count, |n| 100 + n), 1)
}

/// All but the first have an E1002.
fn one_without_a_row(share: Share) -> Vec<u8> {
    sheet(&[], Vec::new(), paths(share.of(677), |_| u32::MAX), 1)
}

/// A WITH of no projection with so many keys.
fn with_keys(count: u32, one: impl Fn(u32) -> Vec<u32>) -> Vec<u32> {
    [12, 0, 9, 0, 0, count].into_iter().chain((0..count).flat_map(one)).collect()
}

fn keys_before(share: Share) -> Vec<u8> {
    let keys = with_keys(share.of(500), |_| vec![8, 1]);
    sheet(&numbered(2), Vec::new(), [call(share.of(336), 1, 0), keys].concat(), 2)
}

fn keys_nowhere(share: Share) -> Vec<u8> {
    let keys = with_keys(share.of(500), |_| vec![8, 1]);
    sheet(&numbered(2), Vec::new(), [call(share.of(336), 0, 0), keys].concat(), 2)
}

/// Yields of a name each, which the WITH carries.
fn keys_after(share: Share) -> Vec<u8> {
    let (yields, keys) = (share.of(170), share.of(300));
    let mut head: Vec<u32> = [11, 0, 9, 0, yields].into_iter().chain((0..yields).flat_map(|n| [n, 0, 0])).collect();
    head.extend([12, 0, 9, yields]);
    head.extend((0..yields).flat_map(|n| [0, 8, n]));
    head.extend([0, keys]);
    head.extend((0..keys).flat_map(|_| [8, 0]));
    sheet(&numbered(yields), Vec::new(), head, 2)
}

/// A RETURN of numbers with an alias each, and keys that all are one name.
fn aliases(share: Share, is_alias: bool) -> Vec<u8> {
    let (aliases, keys) = (share.of(300), share.of(400));
    let mut head = vec![13, 0, 9, aliases];
    head.extend((0..aliases).flat_map(|n| [n + 1, 3]));
    head.push(keys);
    head.extend((0..keys).flat_map(|_| [8, aliases - u32::from(is_alias)]));
    sheet(&numbered(aliases + 1), Vec::new(), head, 1)
}

fn keys_alias(share: Share) -> Vec<u8> {
    aliases(share, true)
}

fn keys_no_alias(share: Share) -> Vec<u8> {
    aliases(share, false)
}

/// Each binds a node and uses it.
fn keys_with_patterns(share: Share) -> Vec<u8> {
    let keys = with_keys(share.of(130), |_| vec![22, 0, 9, 0, 1, 0, 1, 1, 0, 9, 1, 0, 0, 8, 0]);
    sheet(&numbered(1), bound(1, NODE), keys, 1)
}

/// After a yield, WITHs that carry it, each with it as its key.
fn keys_one_each(share: Share) -> Vec<u8> {
    let withs = share.of(140);
    let head = [11, 0, 9, 0, 1, 0, 0, 0].into_iter().chain((0..withs).flat_map(|_| [12, 0, 9, 1, 0, 8, 0, 0, 1, 8, 0])).collect();
    sheet(&numbered(1), Vec::new(), head, withs + 1)
}

/// A star and other names.
fn with_star(count: u32) -> Vec<String> {
    std::iter::once("*".to_owned()).chain(numbered(count - 1)).collect()
}

/// A Call that yields all names.
fn all_yielded(count: u32) -> Vec<u32> {
    [11, 0, 9, 0, count].into_iter().chain((0..count).flat_map(|n| [n, 0, n])).collect()
}

/// A WITH of the first name, without alias.
const ONE_STAR: [u32; 8] = [3, 0, 9, 1, 0, 8, 0, 0];

fn stars(share: Share) -> Vec<u8> {
    let (names, stars) = (share.of(203), share.of(127));
    sheet(&with_star(names), Vec::new(), [all_yielded(names), ONE_STAR.repeat(stars as usize)].concat(), 1 + stars)
}

/// One of the names is empty, which saves a word.
fn most_entries(share: Share) -> Vec<u8> {
    let (count, stars) = (share.of(254), share.of(127));
    let mut names = with_star(count);
    names[1] = String::new();
    let mut head = vec![3, 0, 9, count];
    head.extend((0..count).flat_map(|n| [n + 1, 3]));
    head.push(0);
    head.extend(ONE_STAR.repeat(stars as usize));
    sheet(&names, Vec::new(), head, 1 + stars)
}

fn few_carried(share: Share) -> Vec<u8> {
    let stars = share.of(250);
    sheet(&with_star(3), Vec::new(), [all_yielded(3), ONE_STAR.repeat(stars as usize)].concat(), 1 + stars)
}

fn stars_in_one(share: Share) -> Vec<u8> {
    let (names, stars) = (share.of(203), share.of(330));
    let mut head = all_yielded(names);
    head.extend([3, 0, 9, stars]);
    head.extend([0, 8, 0].repeat(stars as usize));
    head.push(0);
    sheet(&with_star(names), Vec::new(), head, 2)
}

/// The WITHs carry the name twice.
fn shadowing(share: Share) -> Vec<u8> {
    let (yields, withs) = (share.of(336), share.of(90));
    let mut head = call(yields, 1, 1);
    head.extend([3, 0, 9, 2, 0, 8, 0, 0, 8, 1, 0].repeat(withs as usize));
    sheet(&with_star(2), Vec::new(), head, 1 + withs)
}

fn star_keys(share: Share) -> Vec<u8> {
    let (names, keys) = (share.of(168), share.of(560));
    let mut head = all_yielded(names);
    head.extend([12, 0, 9, 1, 0, 8, 0, 0, keys]);
    head.extend([8, 1].repeat(keys as usize));
    sheet(&with_star(names), Vec::new(), head, 2)
}

fn aliased(share: Share) -> Vec<u8> {
    let (names, aliases) = (share.of(168), share.of(380));
    let mut head = all_yielded(names);
    head.extend([3, 0, 9, aliases]);
    head.extend((0..aliases).flat_map(|n| [1 + n % names, 8, names - 1]));
    head.push(0);
    sheet(&with_star(names), Vec::new(), head, 2)
}

fn stars_without_rows(share: Share) -> Vec<u8> {
    let (count, stars) = (share.of(341), share.of(126));
    sheet(&with_star(1), Vec::new(), [paths(count, |n| n), ONE_STAR.repeat(stars as usize)].concat(), 1 + stars)
}

/// All but the first of the last yields replace its binding.
fn stars_and_one(share: Share) -> Vec<u8> {
    let (names, stars) = (share.of(130), share.of(55));
    let head = [all_yielded(names), ONE_STAR.repeat(stars as usize), call(share.of(290), 1, 1)].concat();
    sheet(&with_star(names), Vec::new(), head, 2 + stars)
}

/// A Match whose first node has a comprehension that binds one; the others are bound in the Match's scope, after an inner one.
fn stars_and_nodes(share: Share) -> Vec<u8> {
    let (names, stars, nodes) = (share.of(130), share.of(55), share.of(130));
    let mut head = [all_yielded(names), ONE_STAR.repeat(stars as usize)].concat();
    head.extend([1, 0, 9, 0, 1, 0, 1 + nodes]);
    head.extend([1, 0, 9, 0, 1, 22, 0, 9, 0, 1, 0, 1, 1, 0, 9, 1, spread(0), 0, 8, 0]);
    head.extend((1..=nodes).flat_map(|n| [1, 0, 9, 1, spread(n), 0]));
    sheet(&with_star(names), Vec::new(), head, 2 + stars)
}

/// A RETURN of such projections.
fn returned(count: u32, one: impl Fn(u32) -> Vec<u32>) -> Vec<u32> {
    [4, 0, 9, count].into_iter().chain((0..count).flat_map(one)).collect()
}

fn one_name(share: Share) -> Vec<u8> {
    sheet(&numbered(1), Vec::new(), returned(share.of(500), |_| vec![0, 8, 0]), 1)
}

fn hundred_names(share: Share) -> Vec<u8> {
    let names: Vec<String> = (0..100).map(|n| format!("{n:0>width$}", width = 3 + n * 37 % 100 * 15 / 100)).collect();
    sheet(&names, Vec::new(), returned(share.of(500), |n| vec![0, 8, n % 100]), 1)
}

/// A path, a relationship and a node are bound, the last two in each other's place; projections that have one finding or two.
fn messages(share: Share) -> Vec<u8> {
    let names = ["path", "rel", "seat", "x", "row", "theatre"].map(str::to_owned);
    let rows = [[0, 0, 3, 6, 7], [1, 1, 2, 11, 12], [2, 2, 1, 15, 16]].concat();
    let mut head = vec![1, 0, 28, 0, 1, 1, 0, 3, 1, 1000, 1003, 1, 1, 0, 2, 1300, 1318, 1, 2, 0, 1, 18, 20, 0, 0];
    head.extend(returned(share.of(398), |n| match n % 8 {
        0 => vec![0, 15, 0, 7, 2, 7, 1],
        1 => vec![0, 9, 3, 7, 0],
        2 => vec![0, 10, 3, 3],
        3 => vec![0, 11, 2, 5, 3],
        4 => vec![0, 21, 0, 13, 0, 3],
        5 => vec![0, 23, 1, 3, 5],
        6 => vec![0, 8, 4],
        _ => vec![0, 8, 5],
    }));
    sheet(&names, rows, head, 2)
}

const LETTERS: &[u8] = b"abcdefghijklmnopqrstuvwxyzABCDEFGHIJKLMNOPQRSTUVWXYZ0123456789_";

/// The letters that a number stands for.
fn letters<const N: usize>(number: usize) -> [u8; N] {
    std::array::from_fn(|at| LETTERS[number / LETTERS.len().pow(at as u32) % LETTERS.len()])
}

/// Names of eight letters. A use id has the lower 30 bits of FNV-1. From the four hashes where these are 0, three letters are gone back by
/// the inverse of its prime; five letters that lead to where such an end begins make a name with it.
fn names_with_equal_ids(count: u32) -> Vec<String> {
    const FIRST: u32 = 2_166_136_261;
    const PRIME: u32 = 16_777_619;
    const INVERSE: u32 = 899_433_627;
    let mut ends = HashMap::new();
    for number in 0..LETTERS.len().pow(3) {
        let end: [u8; 3] = letters(number);
        for upper in 0..4 {
            let hash = end.iter().rev().fold(upper << 30, |hash, letter| (hash ^ u32::from(*letter)).wrapping_mul(INVERSE));
            ends.insert(hash, end);
        }
    }
    let whole = |number| {
        let front: [u8; 5] = letters(number);
        let hash = front.iter().fold(FIRST, |hash, letter| hash.wrapping_mul(PRIME) ^ u32::from(*letter));
        Some(front.iter().chain(ends.get(&hash)?).map(|letter| char::from(*letter)).collect())
    };
    let names: Vec<String> = (0..).filter_map(whole).take(count as usize).collect();
    assert!(names.iter().all(|name| use_id(name) == use_id(&names[0])), "equal use ids");
    names
}
