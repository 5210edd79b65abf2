//! A sheet with the same clauses and other sort keys, made on its words; a WITH with sort keys as clauses without; and WITHs whose
//! projections are variables under aliases.
use crate::format::{Read, Reader};
use crate::sheet::{TRAILER, places, read, word};
use cyrs_hir::{Clause, Expr, HirId, HirOffset, HirSpan, OrderItem, Projection, Statement, UnionArm, VarId, YieldItem};
use smol_str::SmolStr;

/// What becomes of sort keys.
#[derive(Clone, Copy, PartialEq, Eq)]
pub enum Keys {
    /// A WITH and a RETURN without keys have a count of none.
    Empty,
    /// Keys and their count are left out.
    Out,
    /// As that, and the keys are a Delete before the clause.
    Deleted,
    /// A RETURN's keys are projections without alias, and in them a name that is an alias of the clause is a Param; a WITH's are left out.
    Projected,
}

const DELETE: u32 = 10;
const PARAM: u32 = 6;
/// Kinds 12 and 13 are this much more than 3 and 4.
const SORTED: u32 = 9;

/// The twin of an accepted sheet, if it isn't too long.
pub fn twin(bytes: &[u8], keys: Keys) -> Option<Vec<u8>> {
    let names = read(bytes).ok()?.names.len();
    let words: Vec<u32> = bytes.chunks(4).map(word).collect();
    let (sections, trailer) = words.split_at(words.len() - TRAILER);
    let [bindings, head, arms] = places(sections.len(), trailer).ok()?;
    let mut copy =
        Copier { words: &sections[head..arms], names, keys, made: Vec::new(), aliases: Vec::new(), in_keys: false, keys_at: 0, more: 0 };
    copy.repeat(trailer[5], Copier::clause).ok()?;
    let (made_head, clauses) = (std::mem::take(&mut copy.made), trailer[5] + std::mem::take(&mut copy.more));
    copy.words = &sections[arms..];
    copy.repeat(trailer[7], Copier::arm).ok()?;
    let backs = [head + made_head.len(), head - bindings + made_head.len(), made_head.len(), 0].map(|back| (back + copy.made.len()) as u32);
    let counts = [trailer[1], trailer[3], clauses, trailer[7]];
    let made = [
        &sections[..head],
        &made_head,
        &copy.made,
        &backs.iter().zip(&counts).flat_map(|(b, c)| [*b, *c]).collect::<Vec<_>>(),
        &trailer[8..],
    ];
    let made: Vec<u8> = made.concat().iter().flat_map(|word| word.to_le_bytes()).collect();
    (made.len() <= 8192).then_some(made)
}

/// Reads a section and puts what it reads, changed, at the end of `made`.
struct Copier<'a> {
    words: &'a [u32],
    names: usize,
    keys: Keys,
    made: Vec<u32>,
    /// The aliases of the clause, and whether its keys are being read.
    aliases: Vec<u32>,
    in_keys: bool,
    /// Where the clause's count of keys stands in `made`.
    keys_at: usize,
    /// Clauses that were added.
    more: u32,
}

impl Reader for Copier<'_> {
    fn word(&mut self) -> Read<u32> {
        let (first, rest) = self.words.split_first().ok_or(5u32)?;
        self.words = rest;
        self.made.push(*first);
        Ok(*first)
    }

    fn is_empty(&self) -> bool {
        self.words.is_empty()
    }

    fn names(&self) -> usize {
        self.names
    }

    fn name_at(&self, _: usize) -> SmolStr {
        SmolStr::new("")
    }

    fn repeat<T>(&mut self, count: u32, mut one: impl FnMut(&mut Self) -> Read<T>) -> Read<Vec<T>> {
        (0..count).map(|_| one(self)).collect()
    }

    fn keys_if(&mut self, sorted: bool) -> Read<Vec<OrderItem>> {
        self.keys_at = self.made.len();
        self.in_keys = true;
        if sorted { self.counted(Self::key) } else { Ok(Vec::new()) }
    }

    fn key(&mut self) -> Read<OrderItem> {
        if self.keys == Keys::Projected {
            self.made.push(0);
        }
        self.any_key()
    }

    fn alias(&mut self) -> Read<Option<SmolStr>> {
        let alias = self.below(self.names + 1)? as u32;
        self.aliases.extend(alias.checked_sub(1));
        Ok(None)
    }

    fn unresolved(&mut self) -> Read<Expr> {
        let name = self.below(self.names)? as u32;
        if self.keys == Keys::Projected && self.in_keys && self.aliases.contains(&name) {
            self.made.truncate(self.made.len() - 2);
            self.made.push(PARAM);
        }
        Ok(Expr::Null)
    }

    fn clause(&mut self) -> Read<Clause> {
        let at = self.made.len();
        self.aliases.clear();
        self.in_keys = false;
        let clause = self.any_clause()?;
        match (self.made[at], self.keys) {
            (3 | 4, Keys::Empty) => {
                self.made[at] += SORTED;
                self.made.push(0);
            }
            (13, Keys::Projected) => {
                self.made[at] -= SORTED;
                self.made[at + 3] += self.made.remove(self.keys_at);
            }
            (12 | 13, Keys::Out | Keys::Deleted | Keys::Projected) => {
                self.made[at] -= SORTED;
                let keys = self.made.split_off(self.keys_at);
                if self.keys == Keys::Deleted {
                    self.made.splice(at..at, [DELETE, 0, 0].into_iter().chain(keys));
                    self.more += 1;
                }
            }
            _ => (),
        }
        Ok(clause)
    }

    fn arm(&mut self) -> Read<UnionArm> {
        let at = self.made.len();
        let before = std::mem::take(&mut self.more);
        let arm = self.any_arm()?;
        self.made[at + 2] += self.more;
        self.more = before;
        Ok(arm)
    }
}

/// A Delete of a WITH's projections and filter, a Call that yields, and a Delete of its sort keys.
pub fn called(with: &Clause, yields: Vec<YieldItem>) -> Vec<Clause> {
    let Clause::With { projections, filter, order_by, span, .. } = with else { return Vec::new() };
    let (id, span) = (HirId::DUMMY, *span);
    let delete = |targets| Clause::Delete { id, targets, detach: false, span };
    vec![
        delete(projections.iter().map(|projection| projection.expr.clone()).chain(filter.clone()).collect()),
        Clause::Call { id, procedure: SmolStr::new(""), args: Vec::new(), yields, optional: false, span },
        delete(order_by.iter().map(|key| key.expr.clone()).collect()),
    ]
}

/// Each WITH, in order, as a Delete of its projections and filter and a WITH of the variables that it carries, each under its name.
pub fn written_out(statement: &mut Statement, carried: &[Vec<(SmolStr, VarId)>]) {
    let mut carried = carried.iter();
    let rows = std::iter::once(&mut statement.clauses).chain(statement.unions.iter_mut().map(|arm| &mut arm.clauses));
    for clauses in rows {
        let mut made = Vec::new();
        for mut clause in std::mem::take(clauses) {
            if let Clause::With { id, projections, filter, span, .. } = &mut clause {
                let pairs = carried.next().expect("a row of pairs for each WITH");
                let plain = |(name, variable): &(SmolStr, VarId)| Projection {
                    expr: Expr::Var(*variable),
                    alias: Some(name.clone()),
                    span: HirSpan::empty(HirOffset::new(0)),
                };
                let before = std::mem::replace(projections, pairs.iter().map(plain).collect());
                let targets = before.into_iter().map(|projection| projection.expr).chain(filter.take()).collect();
                made.push(Clause::Delete { id: *id, targets, detach: false, span: *span });
            }
            made.push(clause);
        }
        *clauses = made;
    }
}
