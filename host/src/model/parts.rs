//! The expressions directly within an expression, in the sheet's order; those of a pattern are left to its caller.
use cyrs_hir::{Expr, MapProjectionItem, PatternElement, PatternPart};

pub fn parts(expr: &Expr) -> Vec<&Expr> {
    match expr {
        Expr::Prop { target: one, .. } | Expr::IsNull { operand: one, .. } | Expr::UnaryOp { operand: one, .. } => vec![one],
        Expr::Index { target: one, index: two } | Expr::InList { operand: one, list: two } | Expr::BinOp { lhs: one, rhs: two, .. } => {
            vec![one, two]
        }
        Expr::Slice { target, start, end } => [Some(target), start.as_ref(), end.as_ref()].into_iter().flatten().map(Box::as_ref).collect(),
        Expr::List(all) | Expr::Call { args: all, .. } => all.iter().collect(),
        Expr::Map(pairs) => pairs.iter().map(|(_, value)| value).collect(),
        Expr::Case { scrutinee, arms, otherwise } => {
            let arms = arms.iter().flat_map(|(when, then)| [when, then]);
            scrutinee.as_deref().into_iter().chain(arms).chain(otherwise.as_deref()).collect()
        }
        Expr::ListComprehension { iterable, filter, map_expr, .. } => {
            [Some(iterable), filter.as_ref(), Some(map_expr)].into_iter().flatten().map(Box::as_ref).collect()
        }
        Expr::PatternComprehension { filter, map_expr, .. } => filter.as_deref().into_iter().chain([map_expr.as_ref()]).collect(),
        Expr::ListPredicate { iterable, predicate, .. } => [iterable.as_ref()].into_iter().chain(predicate.as_deref()).collect(),
        Expr::MapProjection { base, items } => [base.as_ref()].into_iter().chain(items.iter().filter_map(value)).collect(),
        _ => Vec::new(),
    }
}

fn value(item: &MapProjectionItem) -> Option<&Expr> {
    match item {
        MapProjectionItem::Computed { value, .. } | MapProjectionItem::Aliased { value, .. } => Some(value),
        _ => None,
    }
}

/// A node or a relationship of a pattern, as both walks see it.
pub struct Element<'a> {
    pub node: bool,
    pub binder: Option<cyrs_hir::VarId>,
    pub span: (u32, u32),
    pub property: Option<&'a Expr>,
}

pub fn elements(part: &PatternPart) -> impl Iterator<Item = Element<'_>> {
    part.elements.iter().map(|element| match element {
        PatternElement::Node { bind, props, span, .. } => {
            Element { node: true, binder: *bind, span: super::graph::ends(*span), property: props.as_ref() }
        }
        PatternElement::Rel { bind, props, span, .. } => {
            Element { node: false, binder: *bind, span: super::graph::ends(*span), property: props.as_ref() }
        }
    })
}
