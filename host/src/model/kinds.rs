//! The kind walk: what a variable's kind or an expression's type forbids, in the head.
use super::finding::{Finding, NOWHERE};
use super::parts::{elements, parts};
use super::{number, row};
use cyrs_hir::{BinOp, Clause, Expr, OrderItem, Pattern, Projection, RemoveItem, SetItem, Statement, VarId};

/// What an expression is used for.
#[derive(Clone, Copy, PartialEq, Eq)]
enum Setting {
    General,
    Arithmetic,
    Property,
}
use Setting::{Arithmetic, General, Property};

const PATH: usize = 3;
const VALUE: usize = 4;

struct Kinds<'a> {
    statement: &'a Statement,
    findings: Vec<Finding>,
}

pub fn walk(statement: &Statement) -> Vec<Finding> {
    let mut kinds = Kinds { statement, findings: Vec::new() };
    for clause in &statement.clauses {
        if let Clause::Match { pattern, .. } | Clause::Create { pattern, .. } | Clause::Merge { pattern, .. } = clause {
            kinds.pattern(pattern);
        }
        exprs(clause).into_iter().for_each(|expr| kinds.expr(expr, General));
    }
    kinds.findings
}

/// The expressions of a clause: of a WITH projections, filter, sort keys, of a RETURN projections, sort keys.
pub fn exprs(clause: &Clause) -> Vec<&Expr> {
    fn sorted<'a>(projections: &'a [Projection], filter: Option<&'a Expr>, keys: &'a [OrderItem]) -> Vec<&'a Expr> {
        projections.iter().map(|projection| &projection.expr).chain(filter).chain(keys.iter().map(|key| &key.expr)).collect()
    }
    match clause {
        Clause::Match { .. } | Clause::Create { .. } | Clause::Merge { .. } => Vec::new(),
        Clause::Where { predicate: one, .. } | Clause::Unwind { list: one, .. } => vec![one],
        Clause::With { projections, filter, order_by, .. } => sorted(projections, filter.as_ref(), order_by),
        Clause::Return { projections, order_by, .. } => sorted(projections, None, order_by),
        Clause::Delete { targets: all, .. } | Clause::Call { args: all, .. } => all.iter().collect(),
        Clause::Set { items, .. } => {
            let of_item = |item| match item {
                &SetItem::Property { ref target, ref value, .. } => vec![target, value],
                &SetItem::AssignMap { ref map, .. } => vec![map],
                SetItem::Labels { .. } => Vec::new(),
            };
            items.iter().flat_map(of_item).collect()
        }
        Clause::Remove { items, .. } => {
            let of_item = |item| if let &RemoveItem::Property { ref target, .. } = item { Some(target) } else { None };
            items.iter().filter_map(of_item).collect()
        }
    }
}

impl Kinds<'_> {
    fn kind_of(&self, variable: VarId) -> Option<usize> {
        row(self.statement, variable).map(|row| number(row.kind))
    }

    /// A finding about a variable with a row, of its kind.
    fn misused(&mut self, code: u32, span: (u32, u32), variable: VarId, one: usize) {
        if let Some(row) = row(self.statement, variable) {
            self.findings.push(Finding { code, span, name: Some(row.name.to_string()), one, two: number(row.kind) });
        }
    }

    /// A binder whose kind is another than its place wants: 1 path, 2 node, 3 relationship.
    fn binder(&mut self, variable: Option<VarId>, span: (u32, u32), place: usize) {
        let wanted = [PATH, 1, 2][place - 1];
        if let Some(variable) = variable
            && self.kind_of(variable).is_some_and(|kind| kind != wanted)
        {
            self.misused(2008, span, variable, place);
        }
    }

    fn pattern(&mut self, pattern: &Pattern) {
        for part in &pattern.parts {
            self.binder(part.named_as, NOWHERE, 1);
            for element in elements(part) {
                self.binder(element.binder, element.span, if element.node { 2 } else { 3 });
                if let Some(property) = element.property {
                    self.expr(property, General);
                }
            }
        }
    }

    /// Document 01's number of the type that an expression shows, if that is no list for sure.
    fn no_list(&self, expr: &Expr) -> Option<usize> {
        match expr {
            Expr::Bool(_) => Some(1),
            Expr::Int(_) => Some(2),
            Expr::Float(_) => Some(3),
            Expr::String(_) => Some(4),
            Expr::Null => Some(5),
            Expr::Map(_) => Some(6),
            Expr::PatternPredicate(_) => Some(7),
            Expr::Var(variable) => self.kind_of(*variable).filter(|kind| *kind != VALUE).map(|kind| kind + 7),
            _ => None,
        }
    }

    fn wants_list(&mut self, code: u32, one: usize, expr: &Expr) {
        if let Some(two) = self.no_list(expr) {
            self.findings.push(Finding { code, span: NOWHERE, name: None, one, two });
        }
    }

    fn expr(&mut self, expr: &Expr, setting: Setting) {
        match expr {
            Expr::Var(variable) => {
                let kind = self.kind_of(*variable);
                if setting == Arithmetic && kind != Some(VALUE) {
                    self.misused(2007, NOWHERE, *variable, 1);
                } else if setting == Property && kind == Some(PATH) {
                    self.misused(2007, NOWHERE, *variable, 2);
                }
            }
            Expr::Index { target, .. } => self.wants_list(5010, 1, target),
            Expr::Slice { target, .. } => self.wants_list(5010, 2, target),
            Expr::ListComprehension { iterable, .. } => self.wants_list(5010, 3, iterable),
            Expr::ListPredicate { iterable, .. } => self.wants_list(5011, 0, iterable),
            Expr::PatternPredicate(pattern) | Expr::PatternComprehension { pattern, .. } => self.pattern(pattern),
            _ => (),
        }
        for (at, part) in parts(expr).into_iter().enumerate() {
            if at == 1 && matches!(expr, Expr::ListPredicate { .. }) {
                self.wants_bool(part);
            }
            self.expr(part, within(expr, at, setting));
        }
    }

    /// The filter of a list predicate: a number or a text is no Bool; Null may be one.
    fn wants_bool(&mut self, expr: &Expr) {
        if let Expr::Int(_) | Expr::Float(_) | Expr::String(_) = expr {
            self.wants_list(2011, 0, expr);
        }
    }
}

/// The setting of an expression's part.
fn within(expr: &Expr, at: usize, setting: Setting) -> Setting {
    match expr {
        Expr::BinOp { op, .. } => match op {
            BinOp::Add | BinOp::Sub | BinOp::Mul | BinOp::Div | BinOp::Mod | BinOp::Pow => Arithmetic,
            BinOp::Lt | BinOp::Le | BinOp::Gt | BinOp::Ge => Arithmetic,
            _ => General,
        },
        Expr::UnaryOp { .. } => setting,
        Expr::Prop { prop, .. } if prop != "id" => Property,
        Expr::MapProjection { .. } if at == 0 => Property,
        _ => General,
    }
}
