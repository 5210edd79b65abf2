//! Stands in for cyrs-sema's own lib.rs: the two passes.
pub mod kinds;
pub mod resolve;
