//! Stands in for the desugaring of syntax: a sheet is made after it.
