//! Stands in for the lowering of syntax: a sheet is made after it.
pub fn lower_parse(parse: &cyrs_syntax::Parse) -> Result<crate::Statement, crate::HirLowerError> {
    match *parse {}
}
pub fn lower_statement() {}
