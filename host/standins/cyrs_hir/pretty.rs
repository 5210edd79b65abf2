//! Stands in for the printing of statements.
