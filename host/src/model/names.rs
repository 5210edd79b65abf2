//! The name walk: scopes, bindings, uses, and the findings E1001 and E1002.
use super::finding::{Finding, NOWHERE};
use super::graph::{Found, Graph, Kind, ends};
use super::parts::{elements, parts};
use super::said::{Counted, Said};
use super::{name_for, row};
use crate::sheet::Sheet;
use cyrs_hir::{Clause, Expr, HirSpan, OrderItem, Pattern, Projection, RemoveItem, SetItem, Statement, VarId, VarKind};
use std::borrow::Cow;
use std::collections::{HashMap, HashSet};

/// The answers by use id, in order of first use, each with the last use's answer, or none.
#[derive(Default)]
pub struct Recorded {
    answers: Vec<(u32, Answer)>,
    places: HashMap<u32, usize>,
}

type Answer = Option<Resolved>;

#[derive(Clone, Copy)]
pub struct Resolved {
    pub variable: u32,
    pub kind: VarKind,
    /// Whether the scope of the binding that answered is right under a barrier. A Var's record never says so.
    pub via_projection: bool,
}

impl Recorded {
    fn put(&mut self, id: u32, answer: Answer) {
        let next = self.answers.len();
        match *self.places.entry(id).or_insert(next) {
            place if place < next => self.answers[place].1 = answer,
            _ => self.answers.push((id, answer)),
        }
    }

    pub fn in_order(&self) -> &[(u32, Answer)] {
        &self.answers
    }

    /// Whether the answer of a use id came over a WITH.
    pub fn via_projection(&self, id: u32) -> bool {
        self.places.get(&id).and_then(|place| self.answers[*place].1).is_some_and(|answer| answer.via_projection)
    }
}

pub struct Names<'a> {
    statement: &'a Statement,
    /// The names of the sheet.
    listed: HashSet<&'a str>,
    warnings: bool,
    pub graph: Graph,
    pub recorded: Recorded,
    pub findings: Vec<Finding>,
    pub counted: Counted,
    /// Binders that have a row.
    rows: usize,
}

/// Where an expression stands, and so what its names mean.
#[derive(Clone, Copy)]
struct Place<'a> {
    /// Where a name is sought, and where a comprehension's scope hangs.
    scope: usize,
    /// In a sort key of a WITH: the scope before the WITH, where a name is sought after that.
    before: Option<usize>,
    /// In a sort key of a RETURN: the aliases of its projections. These names are columns there and no uses.
    columns: &'a [&'a str],
}

impl Place<'_> {
    fn at(scope: usize) -> Self {
        Self { scope, before: None, columns: &[] }
    }
}

/// Head, then each arm, from the first Root.
pub fn walk(sheet: &Sheet, warnings: bool) -> Names<'_> {
    let statement = &sheet.statement;
    let listed = sheet.names.iter().map(String::as_str).collect();
    let (graph, recorded, counted) = (Graph::default(), Recorded::default(), Counted::default());
    let mut names = Names { statement, listed, warnings, graph, recorded, findings: Vec::new(), counted, rows: 0 };
    let root = names.graph.open(Kind::Root, None, ends(statement.span));
    for clauses in std::iter::once(&statement.clauses).chain(statement.unions.iter().map(|arm| &arm.clauses)) {
        clauses.iter().fold(root, |current, clause| names.clause(clause, current));
    }
    names.counted.count(Said::All, names.rows == 0 && names.counted.is_rowless());
    names
}

/// Whether a projection is `*` without an alias.
fn is_star(projection: &Projection) -> bool {
    projection.alias.is_none() && matches!(&projection.expr, Expr::Unresolved(name) if name == "*")
}

/// FNV-1's lower 30 bits, from the top of all words down.
fn use_id(name: &str) -> u32 {
    let hash = name.bytes().fold(2_166_136_261_u32, |hash, byte| hash.wrapping_mul(16_777_619) ^ u32::from(byte));
    u32::MAX - hash % (1 << 30)
}

impl<'a> Names<'a> {
    /// A clause after what the scope shows; the scope that the next clause hangs under.
    fn clause(&mut self, clause: &'a Clause, current: usize) -> usize {
        let here = Place::at(current);
        match clause {
            Clause::Match { pattern, span, .. } => return self.with_pattern(Kind::Match, pattern, *span, current),
            Clause::Create { pattern, span, .. } => return self.with_pattern(Kind::Create, pattern, *span, current),
            Clause::Merge { pattern, span, .. } => return self.with_pattern(Kind::Merge, pattern, *span, current),
            Clause::Unwind { bind, span, .. } => {
                let scope = self.graph.open(Kind::Unwind, Some(current), ends(*span));
                let name = self.binder(*bind, Said::Unwind, Place::at(scope));
                self.graph.bind(scope, &name, *bind, VarKind::Value);
                return scope;
            }
            Clause::Call { yields, span, .. } => {
                let scope = self.graph.open(Kind::Call, Some(current), ends(*span));
                for column in yields {
                    let name = column.alias.as_ref().unwrap_or(&column.name);
                    self.bind(scope, name, column.var, VarKind::Value, ends(*span));
                }
                return scope;
            }
            Clause::With { projections, filter, order_by, span, .. } => {
                return self.with(projections, filter.as_ref(), order_by, ends(*span), current);
            }
            Clause::Return { projections, order_by, span, .. } => {
                let scope = self.graph.open(Kind::Return, Some(current), ends(*span));
                projections.iter().for_each(|projection| self.expr(&projection.expr, here));
                let columns: Vec<&str> = projections.iter().filter_map(|projection| projection.alias.as_deref()).collect();
                order_by.iter().for_each(|key| self.expr(&key.expr, Place { columns: &columns, ..here }));
                return scope;
            }
            Clause::Where { predicate, .. } => self.expr(predicate, here),
            Clause::Set { items, .. } => {
                for item in items {
                    match item {
                        SetItem::Property { target, value, .. } => [target, value].into_iter().for_each(|one| self.expr(one, here)),
                        SetItem::AssignMap { map, .. } => self.expr(map, here),
                        SetItem::Labels { .. } => (),
                    }
                }
            }
            Clause::Remove { items, .. } => {
                for item in items {
                    if let RemoveItem::Property { target, .. } = item {
                        self.expr(target, here);
                    }
                }
            }
            Clause::Delete { targets, .. } => targets.iter().for_each(|target| self.expr(target, here)),
        }
        current
    }

    fn with_pattern(&mut self, kind: Kind, pattern: &'a Pattern, span: HirSpan, current: usize) -> usize {
        let scope = self.graph.open(kind, Some(current), ends(span));
        self.pattern(pattern, Place::at(scope));
        scope
    }

    /// What goes over a WITH, then a barrier and the new Root. Its sort keys see the new names, and behind these the old ones.
    fn with(
        &mut self,
        projections: &'a [Projection],
        filter: Option<&'a Expr>,
        keys: &'a [OrderItem],
        span: (u32, u32),
        current: usize,
    ) -> usize {
        let exprs = projections.iter().map(|projection| &projection.expr).chain(filter);
        exprs.for_each(|expr| self.expr(expr, Place::at(current)));
        self.count(projections, keys, current);
        let pairs = self.pairs(projections, current);
        let barrier = self.graph.open(Kind::WithBarrier, Some(current), span);
        let root = self.graph.open(Kind::Root, Some(barrier), (span.1, span.1));
        for (name, variable) in &pairs {
            let variable = VarId(*variable);
            self.graph.bind(root, name, variable, self.kind_of(variable));
        }
        self.graph.carry(barrier, pairs);
        let place = Place { before: Some(current), ..Place::at(root) };
        keys.iter().for_each(|key| self.expr(&key.expr, place));
        root
    }

    /// What a WITH carries: all that is visible, if one of its projections is a star or several are; then what the others carry.
    fn pairs(&self, projections: &[Projection], current: usize) -> Vec<(String, u32)> {
        let (stars, others): (Vec<&Projection>, Vec<&Projection>) = projections.iter().partition(|projection| is_star(projection));
        let mut pairs = if stars.is_empty() { Vec::new() } else { self.graph.visible(current) };
        pairs.extend(others.into_iter().filter_map(|projection| self.carried(projection, current)));
        pairs
    }

    /// The name and variable that a projection carries: a variable, or a name that is found, under its alias or its own name; anything else
    /// under its alias, with the alias's use id for a variable.
    fn carried(&self, projection: &Projection, current: usize) -> Option<(String, u32)> {
        let alias = projection.alias.as_deref();
        let (own, variable) = match &projection.expr {
            Expr::Var(variable) => (row(self.statement, *variable).map(|row| row.name.as_str()), variable.0),
            Expr::Unresolved(name) => (Some(name.as_str()), self.graph.lookup(current, name)?.variable),
            _ => (None, use_id(alias?)),
        };
        Some((alias.or(own)?.to_owned(), variable))
    }

    /// Counts what a WITH has of stars and aliases, and of Vars without a row.
    fn count(&mut self, projections: &[Projection], keys: &[OrderItem], current: usize) {
        let (graph, counted) = (&self.graph, &mut self.counted);
        let found = |name: &str| graph.lookup(current, name).is_some();
        let stars = projections.iter().filter(|projection| is_star(projection)).count();
        if stars > 0 {
            counted.count(Said::Star, true);
            counted.count(Said::Several, stars > 1);
            counted.count(Said::Beside, projections.len() > stars);
            counted.count(Said::Sorted, !keys.is_empty());
            counted.count(Said::Shadowed, graph.shadows(current));
            counted.count(Said::Named, found("*"));
            counted.count(Said::Carried, graph.visible(current).iter().any(|(name, _)| !self.listed.contains(name.as_str())));
        }
        for Projection { expr, alias, .. } in projections {
            match (expr, alias) {
                (Expr::Var(variable), alias) => {
                    let what = if alias.is_some() { Said::Aliased } else { Said::LeftOut };
                    counted.count(what, row(self.statement, *variable).is_none());
                }
                (_, None) => (),
                (Expr::Unresolved(name), Some(_)) => counted.count(if found(name) { Said::Found } else { Said::Lost }, true),
                (_, Some(alias)) => {
                    counted.count(Said::Computed, true);
                    counted.count(Said::Met, row(self.statement, VarId(use_id(alias))).is_some());
                    counted.count(Said::Over, found(alias));
                }
            }
        }
    }

    /// The table's kind of a variable, or Value.
    fn kind_of(&self, variable: VarId) -> VarKind {
        row(self.statement, variable).map_or(VarKind::Value, |row| row.kind)
    }

    /// The name of a variable that a pattern or an Unwind binds: the table's, or without a row one that is made of the variable, which may be
    /// a name of the sheet too. Counts what is said of the latter.
    fn binder(&mut self, variable: VarId, position: Said, place: Place) -> Cow<'a, str> {
        if let Some(row) = row(self.statement, variable) {
            self.rows += 1;
            return Cow::Borrowed(&row.name);
        }
        let name = name_for(variable);
        self.counted.count(position, true);
        self.counted.count(Said::Listed, self.listed.contains(name.as_str()));
        self.counted.count(Said::Visible, self.visible(&name, place).is_some());
        Cow::Owned(name)
    }

    /// A path or a yield binds, and warns where its scope has the name.
    fn bind(&mut self, scope: usize, name: &str, variable: VarId, kind: VarKind, span: (u32, u32)) {
        if self.graph.bind(scope, name, variable, kind) && self.warnings {
            self.findings.push(Finding::of_name(1002, span, name));
            self.counted.count(Said::Warned, !self.listed.contains(name));
        }
    }

    fn visible(&self, name: &str, place: Place) -> Option<Found> {
        self.graph.lookup(place.scope, name).or_else(|| self.graph.lookup(place.before?, name))
    }

    fn pattern(&mut self, pattern: &'a Pattern, place: Place) {
        for part in &pattern.parts {
            if let Some(path) = part.named_as {
                let name = self.binder(path, Said::Path, place);
                self.bind(place.scope, &name, path, VarKind::Path, NOWHERE);
            }
            for element in elements(part) {
                if let Some(binder) = element.binder {
                    let (kind, position) =
                        if element.node { (VarKind::Node, Said::Node) } else { (VarKind::Relationship, Said::Relationship) };
                    let name = self.binder(binder, position, place);
                    if self.visible(&name, place).is_none() {
                        self.graph.bind(place.scope, &name, binder, kind);
                    }
                }
                if let Some(property) = element.property {
                    self.expr(property, place);
                }
            }
        }
    }

    fn expr(&mut self, expr: &'a Expr, place: Place) {
        match expr {
            Expr::Var(variable) => {
                if let Some(row) = row(self.statement, *variable) {
                    self.recorded.put(variable.0, Some(Resolved { variable: variable.0, kind: row.kind, via_projection: false }));
                }
            }
            Expr::Unresolved(name) if place.columns.contains(&name.as_str()) => (),
            Expr::Unresolved(name) => {
                let answer = self.visible(name, place).map(|Found { variable, scope }| Resolved {
                    variable,
                    kind: self.kind_of(VarId(variable)),
                    via_projection: self.graph.is_over_with(scope),
                });
                let is_rowless = |variable| row(self.statement, variable).is_none() && *name == *name_for(variable);
                self.counted.count(Said::Used, answer.is_some_and(|answer| is_rowless(VarId(answer.variable))));
                self.recorded.put(use_id(name), answer);
                if answer.is_none() && name != "*" {
                    self.findings.push(Finding::of_name(1001, NOWHERE, name));
                }
            }
            Expr::PatternComprehension { pattern, span, .. } => {
                let scope = self.graph.open(Kind::PatternComprehension, Some(place.scope), ends(*span));
                let within = Place { scope, ..place };
                self.pattern(pattern, within);
                parts(expr).into_iter().for_each(|part| self.expr(part, within));
            }
            _ => parts(expr).into_iter().for_each(|part| self.expr(part, place)),
        }
    }
}
