//! How many expressions 25 a sheet has, in head and arms, wherever they stand, also where neither walk looks (document 02, CR 6).
use super::kinds::exprs;
use super::parts::{elements, parts};
use cyrs_hir::{Clause, Expr, Pattern, Statement};

pub fn count(statement: &Statement) -> usize {
    let arms = statement.unions.iter().flat_map(|arm| &arm.clauses);
    statement.clauses.iter().chain(arms).map(in_clause).sum()
}

fn in_clause(clause: &Clause) -> usize {
    let in_its_pattern = match clause {
        Clause::Match { pattern, .. } | Clause::Create { pattern, .. } | Clause::Merge { pattern, .. } => in_pattern(pattern),
        _ => 0,
    };
    in_its_pattern + exprs(clause).into_iter().map(in_expr).sum::<usize>()
}

fn in_pattern(pattern: &Pattern) -> usize {
    pattern.parts.iter().flat_map(elements).filter_map(|element| element.property).map(in_expr).sum()
}

fn in_expr(expr: &Expr) -> usize {
    let own = match expr {
        Expr::ExistsSubqueryDeferred { .. } => 1,
        Expr::PatternPredicate(pattern) | Expr::PatternComprehension { pattern, .. } => in_pattern(pattern),
        _ => 0,
    };
    own + parts(expr).into_iter().map(in_expr).sum::<usize>()
}
