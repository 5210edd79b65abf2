//! Clauses and their expressions, as words.
use crate::random::Random;
use crate::tables::{Row, span};

/// The deepest expression of an accepted sheet.
pub const DEPTH: u32 = 19;

/// How an expression grows: to about so many words, or down to a depth.
#[derive(Clone, Copy)]
enum Plan {
    Words(u32),
    Down(u32),
}
use Plan::{Down, Words};

/// Kinds of clauses, as often as each is written; the second row has sort keys.
const KINDS: [u32; 15] = [1, 1, 2, 3, 3, 3, 4, 5, 6, 7, 8, 9, 10, 11, 11];
const SORTED: [u32; 20] = [1, 1, 1, 2, 3, 4, 5, 6, 7, 8, 9, 10, 11, 11, 12, 12, 12, 12, 13, 13];

/// Those that bind, of which a sheet with variables without a row has more.
const BINDING: [u32; 6] = [1, 1, 5, 5, 6, 7];

/// Expressions of one word.
const ALONE: [u32; 7] = [1, 2, 3, 4, 5, 6, 25];

/// So many names are kept in mind after a WITH.
const SEEN: usize = 200;

/// Writes clauses at the end of its words.
pub struct Writer<'a> {
    pub random: &'a mut Random,
    pub words: Vec<u32>,
    pub names: u32,
    pub rows: &'a [Row],
    /// Names that were bound lately.
    pub seen: Vec<u32>,
    /// The aliases of the projections that were written last.
    pub aliases: Vec<u32>,
    /// How deep an expression of the next clause goes at least, if it should.
    pub down_to: Option<u32>,
    /// Variables without a row, each with the index of its name if that is one of the sheet's; one binder in so many is such a variable, or
    /// none is.
    pub rowless: Vec<(u32, Option<u32>)>,
    pub one_in: u32,
    /// Whether a WITH and a RETURN may have sort keys.
    pub sorted: bool,
    /// The name `*`, if there should be many stars.
    pub star: Option<u32>,
}

impl Writer<'_> {
    fn put<const N: usize>(&mut self, words: [u32; N]) {
        self.words.extend(words);
    }

    fn span(&mut self) {
        let ends = span(self.random);
        self.put(ends);
    }

    fn flag(&mut self, one_in: u32) -> u32 {
        let flag = u32::from(self.random.one_in(one_in));
        self.put([flag]);
        flag
    }

    /// Mostly a few; sometimes as many as fit the words, each of this size.
    fn several(&mut self, words: u32, each: u32) -> u32 {
        if self.random.one_in(8) { words / each } else { self.random.below(4).min(words / each) }
    }

    /// The plan of each of so many parts of a thing with this plan.
    fn divide(&mut self, plan: Plan, parts: u32) -> Vec<Plan> {
        match plan {
            Words(mut left) => (0..parts)
                .map(|done| {
                    let part = self.random.below(2 * left / (parts - done) + 1).min(left);
                    left -= part;
                    Words(part)
                })
                .collect(),
            Down(_) => {
                let on = self.random.below(parts);
                (0..parts).map(|part| if part == on { plan } else { Words(1) }).collect()
            }
        }
    }

    /// Mostly forgets what was bound.
    pub fn forget(&mut self) {
        if !self.random.one_in(4) {
            self.seen.clear();
        }
    }

    // ---- names and variables

    /// Rows at the front are used more.
    fn row(&mut self) -> Option<Row> {
        let most = if self.random.one_in(2) { 4 } else { self.rows.len() };
        let at = self.random.at(most.min(self.rows.len()));
        self.rows.get(at).copied()
    }

    fn name(&mut self) -> u32 {
        if !self.seen.is_empty() && self.random.one_in(2) {
            return self.random.pick(&self.seen);
        }
        let most = if self.random.one_in(2) { 6 } else { self.names };
        self.random.below(most.min(self.names))
    }

    fn alias(&mut self, one_in: u32) -> u32 {
        if self.names > 0 && self.random.one_in(one_in) { self.name() + 1 } else { 0 }
    }

    /// A variable with a binding or, one time in so many, any; in a sheet with binders without a row sometimes one of theirs.
    fn variable(&mut self, any: u32) -> u32 {
        if !self.rowless.is_empty() && self.random.one_in(4) {
            return self.random.pick(&self.rowless).0;
        }
        match self.row() {
            Some(row) if !self.random.one_in(any) => row[0],
            _ => match self.random.below(4) {
                0 => self.random.word(),
                1 => u32::MAX,
                _ => self.random.below(40),
            },
        }
    }

    /// A variable without a row to be bound, one time in so many; the first two are used more.
    fn without_row(&mut self) -> Option<u32> {
        if self.rowless.is_empty() || !self.random.one_in(self.one_in) {
            return None;
        }
        let most = if self.random.one_in(2) { 2 } else { self.rowless.len() };
        let (variable, name) = self.rowless[self.random.at(most.min(self.rowless.len()))];
        self.seen.extend(name);
        Some(variable)
    }

    /// A variable to be bound, often of the kind that fits; none where there are no bindings and none without a row.
    fn binder(&mut self, kind: u32) -> Option<u32> {
        if let Some(variable) = self.without_row() {
            return Some(variable);
        }
        let mut row = self.row()?;
        for _ in 0..2 {
            if row[2] != kind {
                row = self.row()?;
            }
        }
        self.seen.push(row[1]);
        Some(row[0])
    }

    fn maybe_binder(&mut self, kind: u32, none: u32) {
        let variable = if self.random.one_in(none) { None } else { self.binder(kind) };
        match variable {
            Some(variable) => self.put([1, variable]),
            None => self.put([0]),
        }
    }

    // ---- expressions

    fn expr(&mut self, depth: u32, plan: Plan) {
        match plan {
            Words(words) if words < 3 || depth == DEPTH || self.random.one_in(8) => self.leaf(),
            Down(to) if to == depth => self.leaf(),
            _ => self.form(depth + 1, plan),
        }
    }

    fn leaf(&mut self) {
        match self.random.below(16) {
            0..=6 => {
                let code = self.random.pick(&ALONE);
                self.put([code]);
            }
            7..=11 if self.names > 0 => {
                let name = self.name();
                self.put([8, name]);
            }
            _ => {
                let variable = self.variable(8);
                self.put([7, variable]);
            }
        }
    }

    fn exprs(&mut self, depth: u32, plans: &[Plan]) {
        for plan in plans {
            self.expr(depth, *plan);
        }
    }

    fn divided(&mut self, depth: u32, plan: Plan, parts: u32) {
        let plans = self.divide(plan, parts);
        self.exprs(depth, &plans);
    }

    /// How many parts a list has: at least one where the plan goes down through it.
    fn count(&mut self, plan: Plan, each: u32) -> u32 {
        match plan {
            Words(words) => self.several(words, each),
            Down(_) => 1 + self.random.below(3),
        }
    }

    /// An expression with parts, which have this depth.
    fn form(&mut self, depth: u32, plan: Plan) {
        match 9 + self.random.below(16) {
            9 if self.names > 0 => {
                let name = self.name();
                self.put([9, name]);
                self.divided(depth, plan, 1);
            }
            11 => {
                let bits = self.random.below(4);
                self.put([11, bits]);
                self.divided(depth, plan, 1 + bits.count_ones());
            }
            code @ 12..=14 => {
                let count = self.count(plan, 2);
                self.put([code, count]);
                self.divided(depth, plan, count);
            }
            15 => {
                let op = self.random.below(20);
                self.put([15, op]);
                self.divided(depth, plan, 2);
            }
            16 => {
                let op = self.random.below(2);
                self.put([16, op]);
                self.divided(depth, plan, 1);
            }
            17 => {
                let (bits, arms) = (self.random.below(4), self.count(plan, 4));
                self.put([17, bits, arms]);
                self.divided(depth, plan, bits.count_ones() + 2 * arms);
            }
            20 => {
                self.put([20]);
                self.pattern(depth, plan);
            }
            21 => {
                self.put([21]);
                let filters = self.flag(2);
                self.divided(depth, plan, 2 + filters);
            }
            22 => self.comprehension(depth, plan),
            23 => {
                self.put([23]);
                let filters = self.flag(2);
                self.divided(depth, plan, 1 + filters);
            }
            24 => {
                let items = self.count(plan, 3);
                self.put([24, items]);
                let plans = self.divide(plan, 1 + items);
                self.expr(depth, plans[0]);
                for plan in &plans[1..] {
                    self.maybe_expr(depth, *plan, 2);
                }
            }
            code @ (10 | 19) => {
                self.put([code]);
                self.divided(depth, plan, 2);
            }
            _ => {
                self.put([18]);
                self.divided(depth, plan, 1);
            }
        }
    }

    /// A flag, and an expression if it is 1; always where the plan goes down through it.
    fn maybe_expr(&mut self, depth: u32, plan: Plan, one_in: u32) {
        if matches!(plan, Down(_)) || self.random.one_in(one_in) {
            self.put([1]);
            self.expr(depth, plan);
        } else {
            self.put([0]);
        }
    }

    /// A pattern whose properties have this depth.
    fn pattern(&mut self, depth: u32, plan: Plan) {
        let parts = self.count(plan, 9);
        self.put([parts]);
        for plan in self.divide(plan, parts) {
            self.maybe_binder(3, 2);
            let elements = self.count(plan, 6);
            self.put([elements]);
            for plan in self.divide(plan, elements) {
                self.element(depth, plan);
            }
        }
    }

    fn element(&mut self, depth: u32, plan: Plan) {
        let kind = 1 + self.random.below(2);
        self.put([kind]);
        self.span();
        self.maybe_binder(kind, 4);
        self.maybe_expr(depth, plan, 3);
    }

    // ---- clauses

    /// A clause of about so many words.
    pub fn clause(&mut self, words: u32) {
        let plan = self.down_to.take().map_or(Words(words), Down);
        let kind = match self.star {
            Some(_) if self.random.one_in(3) => {
                if self.sorted {
                    12
                } else {
                    3
                }
            }
            _ if !self.rowless.is_empty() && self.random.one_in(2) => self.random.pick(&BINDING),
            _ => self.random.pick(if self.sorted { &SORTED[..] } else { &KINDS }),
        };
        self.put([kind]);
        self.span();
        match kind {
            1 => {
                self.flag(3);
                self.pattern(1, plan);
            }
            2 => self.expr(1, plan),
            3 => self.with(plan),
            4 => drop(self.projections(plan)),
            12 | 13 => self.with_keys(kind, plan),
            5 => match self.binder(4) {
                Some(variable) => {
                    self.put([variable]);
                    self.expr(1, plan);
                }
                None => self.leave_out(),
            },
            6 | 7 => self.pattern(1, plan),
            8 => self.items(plan, &[(1, 2), (2, 0), (3, 1)]),
            9 => self.items(plan, &[(1, 1), (2, 0)]),
            10 => {
                let count = self.count(plan, 2);
                self.put([count]);
                self.divided(1, plan, count);
            }
            _ => self.call(plan),
        }
    }

    /// A Where in place of the clause that was begun.
    fn leave_out(&mut self) {
        let kind = self.words.len() - 3;
        self.words[kind] = 2;
        self.leaf();
    }

    fn with(&mut self, plan: Plan) {
        let carried = self.projections_and_filter(plan);
        self.over_with(carried);
    }

    /// Projections and a filter; the names that a WITH of these carries.
    fn projections_and_filter(&mut self, plan: Plan) -> Vec<u32> {
        let count = self.count(plan, 3);
        self.put([count]);
        let plans = self.divide(plan, count + 1);
        let carried = self.each_projection(&plans[1..]);
        self.maybe_expr(1, plans[0], 3);
        carried
    }

    fn projections(&mut self, plan: Plan) -> Vec<u32> {
        let count = self.count(plan, 3);
        self.put([count]);
        let plans = self.divide(plan, count);
        self.each_projection(&plans)
    }

    /// The names that a WITH of these projections carries, as far as they are seen.
    fn each_projection(&mut self, plans: &[Plan]) -> Vec<u32> {
        let mut carried = Vec::new();
        let mut stars = false;
        for plan in plans {
            match self.star {
                Some(star) if matches!(plan, Words(_)) && self.random.one_in(4) => {
                    let alias = self.alias(16);
                    self.put([alias, 8, star]);
                    self.aliases.extend(alias.checked_sub(1));
                    stars |= alias == 0;
                }
                _ => carried.extend(self.projection(*plan)),
            }
        }
        if stars {
            carried.extend(&self.seen);
        }
        carried
    }

    /// Mostly the carried names alone are seen after a WITH.
    fn over_with(&mut self, carried: Vec<u32>) {
        if self.random.one_in(4) {
            self.seen.extend(carried)
        } else {
            self.seen = carried
        }
        self.seen.truncate(SEEN);
    }

    /// A WITH or a RETURN with sort keys, which often have names of three sorts: those seen before, the carried ones, and the aliases.
    fn with_keys(&mut self, kind: u32, plan: Plan) {
        let plans = self.divide(plan, 2);
        self.aliases.clear();
        let carried = if kind == 12 { self.projections_and_filter(plans[0]) } else { self.projections(plans[0]) };
        let before = self.seen.clone();
        self.seen.extend(&carried);
        for _ in 0..2 {
            self.seen.extend(&self.aliases);
        }
        self.keys(plans[1]);
        self.seen = before;
        if kind == 12 {
            self.over_with(carried);
        }
    }

    /// None, a few or many keys, often a name alone or in a comprehension.
    fn keys(&mut self, plan: Plan) {
        let down = matches!(plan, Down(_));
        let count = if !down && self.random.one_in(6) { 0 } else { self.count(plan, 2).max(1 + self.random.below(3)) };
        self.put([count]);
        for plan in self.divide(plan, count) {
            match plan {
                Words(words) if self.names > 0 && self.random.one_in(2) => match self.random.below(8) {
                    0 | 1 => self.comprehension(2, Words(words.max(12))),
                    _ => {
                        let name = self.name();
                        self.put([8, name]);
                    }
                },
                _ => self.expr(1, plan),
            }
        }
    }

    /// A pattern comprehension whose parts have this depth.
    fn comprehension(&mut self, depth: u32, plan: Plan) {
        self.put([22]);
        self.span();
        let filters = self.flag(2);
        let plans = self.divide(plan, 2 + filters);
        self.pattern(depth, plans[0]);
        self.exprs(depth, &plans[1..]);
    }

    /// Often a variable or a name by itself. The name that a WITH carries, if it does.
    fn projection(&mut self, plan: Plan) -> Option<u32> {
        let alias = self.alias(2);
        let alone = !matches!(plan, Down(_)) && !self.random.one_in(4);
        self.put([alias]);
        self.aliases.extend(alias.checked_sub(1));
        let own = if !alone {
            self.expr(1, plan);
            None
        } else if self.names > 0 && self.random.one_in(2) {
            let name = self.name();
            self.put([8, name]);
            Some(name)
        } else {
            let variable = self.variable(6);
            self.put([7, variable]);
            self.rows.iter().find(|row| row[0] == variable).map(|row| row[1])
        };
        alias.checked_sub(1).or(own)
    }

    /// Clauses that bind many names, by yields, as aliases or as paths without a row, and then carry all of them by stars until the room is
    /// used up; how many there are.
    pub fn wide(&mut self, star: u32, room: usize) -> u32 {
        if self.rowless.is_empty() {
            self.bind_names(room);
        } else {
            self.bind_paths(room);
        }
        let mut made = 0;
        let mut end = 0;
        while self.words.len() <= room {
            end = self.words.len();
            made += 1;
            match self.random.below(40) {
                0 => self.clause(12),
                kind => {
                    let stars = 1 + u32::from(kind == 1);
                    let aliases = if kind < 6 { self.random.below(3) } else { 0 };
                    self.put([3]);
                    self.span();
                    self.put([stars + aliases]);
                    for _ in 0..aliases {
                        let (name, code) = (self.name(), self.random.pick(&ALONE));
                        self.put([name + 1, code]);
                    }
                    for _ in 0..stars {
                        self.put([0, 8, star]);
                    }
                    self.put([0]);
                }
            }
        }
        self.words.truncate(end);
        made
    }

    /// A Match of paths without a row, up to half of the room, most of them different.
    fn bind_paths(&mut self, room: usize) {
        let many = self.random.below((room as u32).saturating_sub(5) / 6 + 1);
        self.put([1]);
        self.span();
        self.put([0, many]);
        for path in 0..many {
            let variable = if self.random.one_in(16) { self.random.pick(&self.rowless).0 } else { path };
            self.put([1, variable, 0]);
        }
    }

    /// A WITH of computed aliases or a Call with yields, of as many names as have room.
    fn bind_names(&mut self, room: usize) {
        let computed = self.random.one_in(2);
        let most = (room as u32).saturating_sub(5) / if computed { 2 } else { 3 };
        let many = self.names.min(most);
        self.put([if computed { 3 } else { 11 }]);
        self.span();
        if computed {
            self.put([many]);
            for name in 0..many {
                let code = self.random.pick(&ALONE);
                self.put([name + 1, code]);
            }
            self.put([0]);
        } else {
            self.put([0, many]);
            for name in 0..many {
                let variable = self.variable(3);
                self.put([name, 0, variable]);
            }
        }
        self.seen = (0..many).collect();
    }

    /// Items of a Set or a Remove: each kind with how many expressions it has.
    fn items(&mut self, plan: Plan, kinds: &[(u32, u32)]) {
        let count = self.count(plan, 3);
        self.put([count]);
        for plan in self.divide(plan, count) {
            let (kind, exprs) = if matches!(plan, Down(_)) { kinds[0] } else { self.random.pick(kinds) };
            self.put([kind]);
            self.divided(1, plan, exprs);
        }
    }

    fn call(&mut self, plan: Plan) {
        let plans = if let Words(_) = plan { self.divide(plan, 2) } else { vec![plan, Words(9)] };
        let count = self.count(plans[0], 2);
        self.put([count]);
        self.divided(1, plans[0], count);
        let yields = if self.names > 0 { self.count(plans[1], 3) } else { 0 };
        self.put([yields]);
        for _ in 0..yields {
            let (name, alias, variable) = (self.name(), self.alias(3), self.variable(3));
            self.put([name, alias, variable]);
            self.seen.push(if alias > 0 { alias - 1 } else { name });
        }
    }

    /// A Delete of exactly so many words, at least 4, whose expressions are of one word.
    pub fn filling(&mut self, words: usize) {
        self.put([10]);
        self.span();
        self.put([words as u32 - 4]);
        for _ in 4..words {
            let code = self.random.pick(&ALONE);
            self.put([code]);
        }
    }
}
