//! Stands in for the visitor, which neither pass uses.
pub trait Visitor {}
pub fn walk_clause() {}
pub fn walk_expr() {}
pub fn walk_statement() {}
