//! Stands in for the failure of lowering.
#[derive(Debug)]
pub enum HirLowerError {}
