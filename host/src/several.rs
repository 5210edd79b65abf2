//! Families of sheets with deep expressions or several clauses.
use crate::families::{Each, MAX, product, put, sheet, tables, up_to};
use generator::{DEPTH, Sheet};

/// What stands before and after an expression within another.
const AROUND: [(&[u32], &[u32]); 30] = [
    (&[9, 0], &[]),
    (&[10], &[1]),
    (&[10, 1], &[]),
    (&[11, 0], &[]),
    (&[11, 1, 1], &[]),
    (&[11, 2, 1], &[]),
    (&[11, 3, 1, 1], &[]),
    (&[12, 1], &[]),
    (&[13, 1], &[]),
    (&[14, 2, 1], &[]),
    (&[15, 0], &[1]),
    (&[15, 6, 1], &[]),
    (&[16, 0], &[]),
    (&[16, 1], &[]),
    (&[17, 0, 1], &[1]),
    (&[17, 0, 1, 1], &[]),
    (&[17, 1, 0], &[]),
    (&[17, 2, 0], &[]),
    (&[18], &[]),
    (&[19, 1], &[]),
    (&[20, 1, 0, 1, 1, 0, 1, 0, 1], &[]),
    (&[21, 0], &[1]),
    (&[21, 1, 1], &[1]),
    (&[21, 1, 1, 1], &[]),
    (&[22, 0, 1, 0, 1, 0, 1, 2, 0, 1, 0, 1], &[1]),
    (&[22, 0, 1, 1, 0], &[1]),
    (&[22, 0, 1, 0, 0], &[]),
    (&[23, 1, 1], &[]),
    (&[24, 0], &[]),
    (&[24, 1, 1, 1], &[]),
];

pub fn depths(each: Each) {
    for (outer, inner) in AROUND.iter().flat_map(|outer| AROUND.iter().map(move |inner| (outer, inner))) {
        deep(&[2, 0, 1], *outer, *inner, each);
    }
}

/// The same in a sort key of a WITH and of a RETURN, all ways alike.
pub fn key_depths(each: Each) {
    for around in AROUND {
        deep(&[12, 0, 1, 0, 0, 1], around, around, each);
        deep(&[13, 0, 1, 0, 1], around, around, each);
    }
}

/// A clause that begins so and goes on with an expression at the deepest depth, one less, one more or two more.
fn deep(clause: &[u32], outer: (&[u32], &[u32]), inner: (&[u32], &[u32]), each: Each) {
    let mut leaves: Vec<Vec<u32>> = vec![Vec::new(), vec![7, 0], vec![8, 0]];
    leaves.extend([up_to(26), vec![MAX]].concat().iter().map(|code| vec![*code]));
    let mut deep = tables();
    deep.counts[2] = 1;
    for depth in DEPTH as usize - 1..=DEPTH as usize + 2 {
        for leaf in &leaves {
            let before = [clause, &outer.0.repeat(depth - 2), inner.0].concat();
            deep.sections[2] = [&before[..], leaf, inner.1, &outer.1.repeat(depth - 2)].concat();
            put(&deep, each);
            deep.sections[2] = [&before[..], leaf].concat();
            put(&deep, each);
        }
    }
}

pub fn spans(each: Each) {
    let ends = [0, 1, 3, MAX];
    let mut spanned = tables();
    spanned.counts[2] = 4;
    product(&[&ends[..]; 10], |w| {
        spanned.span = [w[0], w[1]];
        let node = [1, w[2], w[3], 0, 1, 0, 1, 1, 0, 1, 1, 0, 0];
        let comprehension = [2, 0, 1, 22, w[4], w[5], 0, 0, 1];
        let (with, end) = ([3, w[6], w[7], 1, 0, 7, 0, 0], [4, w[8], w[9], 0]);
        spanned.sections[2] = [&node[..], &comprehension, &with, &end].concat();
        put(&spanned, each);
    });
}

/// The use ids of `a` and of `*`; the names `mgwrblb` and `adklcwb` have the same.
const A: u32 = 0xFAF3_A281;
const STAR: u32 = 0xFAF3_A2CA;

pub fn uses(each: Each) {
    let node = |variable| vec![1, 0, 1, 0, 1, 0, 1, 1, 0, 1, 1, variable, 0];
    let rows = [[A, 0, 1, 0, 1], [STAR, 1, 4, 0, 1], [0, 3, 1, 0, 1]];
    let uses = [[7, A], [7, STAR], [7, 0], [8, 0], [8, 1], [8, 2], [8, 3]];
    for before in [Vec::new(), node(A), node(0), vec![5, 0, 1, STAR, 1]] {
        let mut used = sheet(&["a", "mgwrblb", "*", "adklcwb"], &rows, &[]);
        used.counts[2] = 1 + u32::from(!before.is_empty());
        for length in 0..=5 {
            product(&vec![&up_to(6)[..]; length], |picked| {
                let delete = picked.iter().flat_map(|pick| uses[*pick as usize]);
                used.sections[2] = before.iter().copied().chain([10, 0, 1, length as u32]).chain(delete).collect();
                put(&used, each);
            });
        }
    }
}

/// Clauses, without the two words of their spans: kind, then the rest.
const STEPS: [(u32, &[u32]); 36] = [
    // MATCH (a), (b), -[a]-, b = (), an optional one whose property is b
    (1, &[0, 1, 0, 1, 1, 0, 1, 1, 0, 0]),
    (1, &[0, 1, 0, 1, 1, 0, 1, 1, 1, 0]),
    (1, &[0, 1, 0, 1, 2, 0, 1, 1, 2, 0]),
    (1, &[0, 1, 1, 3, 0]),
    (1, &[1, 1, 0, 1, 1, 0, 1, 1, 0, 1, 8, 1]),
    // (a) then -[a]-; two parts, with a path of each name; a node whose property is a comprehension that binds a
    (1, &[0, 1, 0, 2, 1, 0, 1, 1, 0, 0, 2, 0, 1, 1, 2, 0]),
    (1, &[0, 2, 1, 3, 1, 1, 0, 1, 1, 0, 0, 1, 4, 0]),
    (1, &[0, 1, 0, 1, 1, 0, 1, 0, 1, 22, 0, 1, 0, 1, 0, 1, 1, 0, 1, 1, 0, 0, 8, 0]),
    // WHERE a, b, *, a bound variable, a comprehension that binds a
    (2, &[8, 0]),
    (2, &[8, 1]),
    (2, &[8, 2]),
    (2, &[7, 0]),
    (2, &[22, 0, 1, 0, 1, 0, 1, 1, 0, 1, 1, 0, 0, 8, 0]),
    // WITH a; a variable AS b; another AS a; a AS b; *; a, b; two of one name; none, and WHERE a; one without a binding AS a;
    // a variable of the other kind; two under each other's name; a comprehension AS a, and WHERE b
    (3, &[1, 0, 8, 0, 0]),
    (3, &[1, 2, 7, 0, 0]),
    (3, &[1, 1, 7, 1, 0]),
    (3, &[1, 2, 8, 0, 0]),
    (3, &[1, 0, 8, 2, 0]),
    (3, &[2, 0, 8, 0, 0, 8, 1, 0]),
    (3, &[2, 0, 7, 0, 1, 7, 1, 0]),
    (3, &[0, 1, 8, 0]),
    (3, &[1, 1, 7, 9, 0]),
    (3, &[1, 0, 7, 2, 0]),
    (3, &[2, 2, 7, 0, 1, 7, 1, 0]),
    (3, &[1, 1, 22, 0, 1, 0, 1, 1, 3, 0, 8, 1, 1, 8, 1]),
    // RETURN a, b; UNWIND AS a, AS b; CREATE (a); MERGE (b)
    (4, &[2, 0, 8, 0, 0, 8, 1]),
    (5, &[0, 8, 1]),
    (5, &[1, 8, 0]),
    (6, &[1, 0, 1, 1, 0, 1, 1, 0, 0]),
    (7, &[1, 0, 1, 1, 0, 1, 1, 1, 0]),
    // SET, REMOVE and DELETE of a
    (8, &[1, 3, 8, 0]),
    (9, &[1, 1, 8, 0]),
    (10, &[1, 8, 0]),
    // CALL with a yield a; b; b AS a, then a
    (11, &[0, 1, 0, 0, 9]),
    (11, &[0, 1, 1, 0, 1]),
    (11, &[1, 8, 0, 2, 1, 1, 9, 0, 0, 8]),
];

/// Projections of a WITH or a RETURN with sort keys: none; a; a variable AS b; another AS a; a AS b; *; a, b; numbers AS a and AS b; a
/// number AS *; two under one name
const PROJECTIONS: [&[u32]; 10] = [
    &[0],
    &[1, 0, 8, 0],
    &[1, 2, 7, 0],
    &[1, 1, 7, 1],
    &[1, 2, 8, 0],
    &[1, 0, 8, 2],
    &[2, 0, 8, 0, 0, 8, 1],
    &[2, 1, 3, 2, 3],
    &[1, 3, 3],
    &[2, 2, 7, 0, 2, 7, 1],
];

const KEYS: [&[u32]; 14] = [
    // none; a; b; *; a bound variable; a, b
    &[0],
    &[1, 8, 0],
    &[1, 8, 1],
    &[1, 8, 2],
    &[1, 7, 0],
    &[2, 8, 0, 8, 1],
    // a comprehension that binds a node a, and a in it; a path b, and b; a relationship a, with b as filter, then a key a
    &[1, 22, 0, 1, 0, 1, 0, 1, 1, 0, 1, 1, 0, 0, 8, 0],
    &[1, 22, 0, 1, 0, 1, 1, 3, 0, 8, 1],
    &[2, 22, 0, 1, 1, 1, 0, 1, 2, 0, 1, 1, 2, 0, 8, 1, 8, 0, 8, 0],
    // one within the property of another, a in both; two paths b
    &[1, 22, 0, 1, 0, 1, 0, 1, 1, 0, 1, 0, 1, 22, 0, 1, 0, 1, 0, 1, 1, 0, 1, 1, 0, 0, 8, 0, 8, 0],
    &[1, 22, 0, 1, 0, 2, 1, 3, 0, 1, 3, 0, 8, 1],
    // a variable + a; a pattern predicate; a list predicate over a number
    &[1, 15, 0, 7, 0, 8, 0],
    &[1, 20, 1, 0, 1, 1, 0, 1, 1, 0, 1, 8, 1],
    &[1, 23, 1, 3, 3],
];

/// A step, or from 36 on a WITH or a RETURN with sort keys.
fn step(number: u32) -> (u32, Vec<u32>) {
    let number = number as usize;
    if let Some((kind, rest)) = STEPS.get(number) {
        return (*kind, rest.to_vec());
    }
    let number = number - STEPS.len();
    let (keys, projections) = (KEYS[number % KEYS.len()], PROJECTIONS[number / KEYS.len() % PROJECTIONS.len()]);
    if number < KEYS.len() * PROJECTIONS.len() { (12, [projections, &[0], keys].concat()) } else { (13, [projections, keys].concat()) }
}

/// The words of some clauses, each with the span of its position.
fn placed(clauses: &[(u32, Vec<u32>)], from: usize) -> Vec<u32> {
    let placed = |(at, (kind, rest)): (usize, &(u32, Vec<u32>))| [&[*kind, (from + at) as u32, (from + at + 1) as u32], &rest[..]].concat();
    clauses.iter().enumerate().flat_map(placed).collect()
}

/// The words of some steps.
fn walked(steps: &[u32], from: usize) -> Vec<u32> {
    let clauses: Vec<_> = steps.iter().map(|number| step(*number)).collect();
    placed(&clauses, from)
}

fn arm(steps: &[u32], from: usize) -> Vec<u32> {
    let span = [from as u32, (from + steps.len()) as u32];
    [&span[..], &[steps.len() as u32], &walked(steps, from)].concat()
}

/// Names `a`, `b` and `*`, their bindings, and no clause.
fn ground() -> Sheet {
    let rows = [[0, 0, 1, 0, 1], [1, 1, 4, 0, 1], [2, 0, 2, 0, 1], [3, 1, 3, 0, 1], [4, 0, 3, 0, 1]];
    sheet(&["a", "b", "*"], &rows, &[])
}

pub fn keys(each: Each) {
    let mut walk = ground();
    let plain = up_to(STEPS.len() as u32 - 1);
    let sorted: Vec<u32> = (0..2 * KEYS.len() * PROJECTIONS.len()).map(|number| (STEPS.len() + number) as u32).collect();
    let rows: [&[&[u32]]; 6] =
        [&[&sorted], &[&plain, &sorted], &[&plain, &plain, &sorted], &[&sorted, &plain], &[&plain, &sorted, &plain], &[&sorted, &sorted]];
    for row in rows {
        walk.counts[2] = row.len() as u32;
        product(row, |steps| {
            walk.sections[2] = walked(steps, 0);
            put(&walk, each);
        });
    }
    walk.counts[3] = 1;
    for head in 0..=1 {
        walk.counts[2] = head as u32;
        product(&[&plain[..], &sorted][1 - head..], |steps| {
            walk.sections[2] = walked(&steps[..head], 0);
            walk.sections[3] = arm(&steps[head..], head);
            put(&walk, each);
        });
    }
}

/// Clauses that bind, before a WITH that may have stars; variables A and STAR are named b and a.
const BINDERS: [(u32, &[u32]); 12] = [
    // MATCH (a), b = (), (*), a = (), -[b]-
    (1, &[0, 1, 0, 1, 1, 0, 1, 1, 0, 0]),
    (1, &[0, 1, 1, 3, 0]),
    (1, &[0, 1, 0, 1, 1, 0, 1, 1, 2, 0]),
    (1, &[0, 1, 1, STAR, 0]),
    (1, &[0, 1, 0, 1, 2, 0, 1, 1, A, 0]),
    // CALL with yields a, b, a; b AS a, *
    (11, &[0, 3, 0, 0, 7, 1, 0, 8, 0, 0, 9]),
    (11, &[0, 2, 1, 1, 9, 2, 0, 5]),
    // UNWIND AS b, twice
    (5, &[1, 8, 0]),
    (5, &[A, 1]),
    // WITH a; a number AS a; *
    (3, &[1, 0, 8, 0, 0]),
    (3, &[1, 1, 3, 0]),
    (3, &[1, 0, 8, 2, 0]),
];

/// Projections: a star, alone and beside others; aliased names; computed aliases.
const STARRED: [&[u32]; 20] = [
    // *; *, *; *, a; a, *; b AS a, *; * AS a; *, * AS b
    &[1, 0, 8, 2],
    &[2, 0, 8, 2, 0, 8, 2],
    &[2, 0, 8, 2, 0, 8, 0],
    &[2, 0, 8, 0, 0, 8, 2],
    &[2, 1, 8, 1, 0, 8, 2],
    &[1, 1, 8, 2],
    &[2, 0, 8, 2, 2, 8, 2],
    // a number AS a; *, a number AS a; a number AS *, *; a number AS *
    &[1, 1, 3],
    &[2, 0, 8, 2, 1, 3],
    &[2, 3, 3, 0, 8, 2],
    &[1, 3, 3],
    // a AS b, b AS a; a number AS b, a AS a; a.b AS a; -* AS b; a list of * without alias
    &[2, 2, 8, 0, 1, 8, 1],
    &[2, 2, 3, 1, 8, 0],
    &[1, 1, 9, 1, 8, 0],
    &[1, 2, 16, 0, 8, 2],
    &[1, 0, 12, 1, 8, 2],
    // a comprehension that binds b AS b, *; variables AS b and AS a, *; a variable, *, a number AS a, *
    &[2, 2, 22, 0, 1, 0, 1, 1, 3, 0, 8, 1, 0, 8, 2],
    &[2, 2, 7, 0, 0, 8, 2],
    &[2, 1, 7, 9, 0, 8, 2],
    &[4, 0, 7, 0, 0, 8, 2, 1, 3, 0, 8, 2],
];

/// Clauses after such a WITH: DELETE of a, b and *; before it WITH *, MATCH (a), or a CALL with yields a, b, a and WITH *; RETURN a, b.
const AFTER: [&[(u32, &[u32])]; 5] = [
    &[DELETE],
    &[(3, &[1, 0, 8, 2, 0]), DELETE],
    &[(1, &[0, 1, 0, 1, 1, 0, 1, 1, 0, 0]), DELETE],
    &[(11, &[0, 3, 0, 0, 7, 1, 0, 8, 0, 0, 9]), (3, &[1, 0, 8, 2, 0]), DELETE],
    &[(4, &[2, 0, 8, 0, 0, 8, 1])],
];
const DELETE: (u32, &[u32]) = (10, &[3, 8, 0, 8, 1, 8, 2]);

/// Names `a`, `b` and `*`, bindings of each, of which two have use ids for variables, and no clause.
fn starred() -> Sheet {
    let rows = [[0, 0, 1, 0, 1], [1, 1, 4, 0, 1], [2, 2, 1, 0, 1], [3, 1, 3, 0, 1], [A, 1, 2, 0, 1], [STAR, 0, 3, 0, 1]];
    sheet(&["a", "b", "*"], &rows, &[])
}

pub fn stars(each: Each) {
    let (binders, with) = (up_to(BINDERS.len() as u32 - 1), up_to(STARRED.len() as u32 - 1));
    let owned = |clauses: &[(u32, &[u32])]| -> Vec<(u32, Vec<u32>)> { clauses.iter().map(|(kind, rest)| (*kind, rest.to_vec())).collect() };
    let mut walk = starred();
    let mut put = |before: &[u32], withs: Vec<(u32, Vec<u32>)>, after: &[(u32, &[u32])], arm: bool| {
        let before: Vec<_> = before.iter().map(|at| BINDERS[*at as usize]).collect();
        let all = [owned(&before), withs, owned(after)].concat();
        let words = placed(&all, 0);
        let count = all.len() as u32;
        if arm {
            (walk.counts[2], walk.counts[3]) = (0, 1);
            (walk.sections[2], walk.sections[3]) = (Vec::new(), [&[0, count, count], &words[..]].concat());
        } else {
            (walk.counts[2], walk.counts[3]) = (count, 0);
            (walk.sections[2], walk.sections[3]) = (words, Vec::new());
        }
        put(&walk, each);
    };
    let plain = |at: u32| (3, [STARRED[at as usize], &[0]].concat());
    for length in 0..=3 {
        product(&[&vec![&binders[..]; length][..], &[&with]].concat(), |picked| {
            let (before, at) = (&picked[..length], picked[length]);
            for after in &AFTER[..if length < 3 { 5 } else { 1 }] {
                put(before, vec![plain(at)], after, length == 1);
                if length == 1 {
                    put(before, vec![plain(at)], after, false);
                }
            }
            for keys in KEYS.iter().filter(|_| length < 3) {
                put(before, vec![(12, [STARRED[at as usize], &[0], keys].concat())], &[DELETE], false);
            }
            for next in with.iter().filter(|_| length < 3) {
                put(before, vec![plain(at), plain(*next)], &[DELETE], false);
            }
        });
    }
}

pub fn steps(each: Each) {
    let mut walk = ground();
    let all = up_to(STEPS.len() as u32 - 1);
    for length in 0..=4 {
        walk.counts[2] = length as u32;
        product(&vec![&all[..]; length], |steps| {
            walk.sections[2] = walked(steps, 0);
            put(&walk, each);
        });
    }
    product(&[&all[..]; 3], |steps| {
        for head in 0..=2 {
            walk.counts = [3, 5, head as u32, 1];
            walk.sections[2] = walked(&steps[..head], 0);
            walk.sections[3] = arm(&steps[head..], head);
            put(&walk, each);
        }
        walk.counts = [3, 5, 1, 2];
        walk.sections[2] = walked(&steps[..1], 0);
        walk.sections[3] = [arm(&steps[1..2], 1), arm(&steps[2..], 2)].concat();
        put(&walk, each);
    });
}

/// Names of the sheet beside `a` and `*`, of which the first is used, or `a` where there is none.
const LIKE: [&[&str]; 6] = [&[], &["__var7"], &["__var07"], &["__var7", "__var07"], &["__var0"], &["__var4294967295"]];

type Clause = (u32, Vec<u32>);

/// Clauses that bind a variable, or name it where nothing is bound, beside a name.
fn binding(v: u32, name: u32) -> [Clause; 13] {
    [
        // MATCH v = (), (v), -[v]-; UNWIND AS v; CREATE v = (); MERGE (v)
        (1, vec![0, 1, 1, v, 0]),
        (1, vec![0, 1, 0, 1, 1, 0, 1, 1, v, 0]),
        (1, vec![0, 1, 0, 1, 2, 0, 1, 1, v, 0]),
        (5, vec![v, 1]),
        (6, vec![1, 1, v, 0]),
        (7, vec![1, 0, 1, 1, 0, 1, 1, v, 0]),
        // MATCH v = (), v = (); v = (v); (v), v = (); (v) whose property is a comprehension that binds v = (), and the name in it
        (1, vec![0, 2, 1, v, 0, 1, v, 0]),
        (1, vec![0, 1, 1, v, 1, 1, 0, 1, 1, v, 0]),
        (1, vec![0, 2, 0, 1, 1, 0, 1, 1, v, 0, 1, v, 0]),
        (1, vec![0, 1, 0, 1, 1, 0, 1, 1, v, 1, 22, 0, 1, 0, 1, 1, v, 0, 8, name]),
        // WHERE a comprehension that binds (v), and the name in it; WHERE (v) as a pattern predicate; CALL with the name as v's yield
        (2, vec![22, 0, 1, 0, 1, 0, 1, 1, 0, 1, 1, v, 0, 8, name]),
        (2, vec![20, 1, 0, 1, 1, 0, 1, 1, v, 0]),
        (11, vec![0, 1, name, 0, v]),
    ]
}

/// Nothing, or a WITH.
fn carrying(v: u32, name: u32) -> [Option<Clause>; 14] {
    let alias = name + 1;
    [
        None,
        // WITH *; *, v AS a; v; v AS a; the name; the name AS a; a AS the name; a number AS the name; *, a number AS the name; nothing
        Some((3, vec![1, 0, 8, 1, 0])),
        Some((3, vec![2, 0, 8, 1, 1, 7, v, 0])),
        Some((3, vec![1, 0, 7, v, 0])),
        Some((3, vec![1, 1, 7, v, 0])),
        Some((3, vec![1, 0, 8, name, 0])),
        Some((3, vec![1, 1, 8, name, 0])),
        Some((3, vec![1, alias, 8, 0, 0])),
        Some((3, vec![1, alias, 3, 0])),
        Some((3, vec![2, 0, 8, 1, alias, 3, 0])),
        Some((3, vec![0, 0])),
        // WITH * and the name as key; nothing, and a comprehension that binds v = () and the name in it; v AS a, and the name, a, and a
        // comprehension that binds (v) and the name in it
        Some((12, vec![1, 0, 8, 1, 0, 1, 8, name])),
        Some((12, vec![0, 0, 1, 22, 0, 1, 0, 1, 1, v, 0, 8, name])),
        Some((12, vec![1, 1, 7, v, 0, 3, 8, name, 8, 0, 22, 0, 1, 0, 1, 0, 1, 1, 0, 1, 1, v, 0, 8, name])),
    ]
}

/// Clauses after it: DELETE of the name, a and v; before it MATCH v = (), WITH *, or both; RETURN of the name AS a, with it and a as keys.
fn at_last(v: u32, name: u32) -> [Vec<Clause>; 5] {
    let (path, star) = ((1, vec![0, 1, 1, v, 0]), (3, vec![1, 0, 8, 1, 0]));
    let delete = (10, vec![3, 8, name, 8, 0, 7, v]);
    [
        vec![delete.clone()],
        vec![path.clone(), delete.clone()],
        vec![star.clone(), delete.clone()],
        vec![path, star, delete],
        vec![(13, vec![1, 1, 8, name, 2, 8, name, 8, 0])],
    ]
}

pub fn rowless(each: Each) {
    for like in LIKE {
        let names = [&["a", "*"], like].concat();
        let name = if like.is_empty() { 0 } else { 2 };
        // No row; a node of the name; variable 7 as a node `a`.
        for rows in [&[][..], &[[1, name, 1, 0, 1]], &[[7, 0, 1, 0, 1]]] {
            let mut walk = sheet(&names, rows, &[]);
            let mut put = |head: &[Clause], arm: &[Clause]| {
                (walk.counts[2], walk.sections[2]) = (head.len() as u32, placed(head, 0));
                let count = arm.len() as u32;
                walk.counts[3] = count.min(1);
                walk.sections[3] = if arm.is_empty() { Vec::new() } else { [&[0, count, count], &placed(arm, 0)[..]].concat() };
                put(&walk, each);
            };
            for first in [0, 7, MAX].into_iter().flat_map(|v| binding(v, name).map(|clause| (v, clause))) {
                one_binder(first, name, &mut put);
            }
        }
    }
}

/// A clause that binds alone, with another one before it of any of the variables, and with another one in the head that binds the same.
fn one_binder((v, clause): (u32, Clause), name: u32, put: &mut dyn FnMut(&[Clause], &[Clause])) {
    for with in carrying(v, name) {
        let with: Vec<Clause> = with.into_iter().collect();
        let lasts = at_last(v, name);
        for last in &lasts {
            put(&[&[clause.clone()], &with[..], last].concat(), &[]);
        }
        let rest = [&[clause.clone()], &with[..], &lasts[0]].concat();
        for other in [0, 7, MAX].into_iter().flat_map(|v| binding(v, name)) {
            put(&[&[other], &rest[..]].concat(), &[]);
        }
        for other in binding(v, name) {
            put(&[other], &rest);
        }
    }
}
