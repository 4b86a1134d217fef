//! Whoever draws, for the tests and for what times them.

pub mod drawer;
