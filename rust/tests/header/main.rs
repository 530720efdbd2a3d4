//! `include/lta.h` beside what it declares: `functions` holds its functions against those that the library exports and
//! that Rust declares, `names` its numbers against the crate's and the engine's.
mod functions;
mod names;
mod text;
