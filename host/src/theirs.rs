//! The answers that are expected of a sheet: the Rust's, and a model's.
pub mod answers;
mod format;
pub mod lists;
pub mod model;
mod record;
pub mod sheet;
pub mod tuned;
pub mod twin;
