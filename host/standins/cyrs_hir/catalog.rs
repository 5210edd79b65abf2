//! Stands in for catalog statements, which no sheet has.
pub enum CatalogHir {}
pub enum CatalogStatement {}
pub enum GraphSourceHir {}
pub enum GraphTypeHir {}
pub fn lower_catalog_from_parse() {}
