//! Stands in for session statements, which no sheet has.
#[derive(Debug, Clone)]
pub enum SessionSetHir {}
pub enum SessionSetVariantHir {}
