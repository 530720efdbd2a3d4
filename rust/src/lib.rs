//! The lag engine and its long-term accumulator, proved, for programs in Rust.
//!
//! A [`Run`] owns its work memory and takes ticks, dumps, integrations and emissions, of a bin that is named or of the
//! one whose turn it is ([`Run::pick`]). A [`Frame`] is what an emission or a speed dump gives, and what the reader
//! accepts of bytes from elsewhere. What is not kept is told by readings, and in printed lines by a page
//! ([`Run::page`]). A call that is refused gives a [`Refusal`] and changes nothing. What each call means is in
//! document 01 with the requests up to 2026-08, whose terms are used here.
//!
//! The work is done by a static library that is proved to do it ([`ffi`] is its C interface over slices); this crate
//! adds types and owns the memory. The library keeps nothing between calls, so that all of a run is its shape and its
//! words: threads may work on runs of their own at the same time, and a run can be put away and taken up again
//! ([`Run::resume`]).
//!
//! ```
//! use lta::{Command, Run, Shape};
//!
//! # fn main() -> Result<(), lta::Refusal> {
//! let shape = Shape { cells: 1, lags: 2, bins: 2, blocks: 1, start: 0, rate: 4, second: 0 };
//! let mut run = Run::new(shape)?;
//! for samples in [[0x02, 0x03, 0b11], [0x01, 0x0f, 0b11], [0x08, 0x02, 0b10]] {
//!     run.tick(&samples)?;
//! }
//! run.dump(0, Command::Last, 0, 0)?;
//! run.integrate(0)?;
//! let frame = run.pick_frame()?;
//! assert_eq!(frame.fields().ticks, 3);
//! assert_eq!(frame.lags().collect::<Vec<_>>(), [(6, 0), (10, 0)]);
//! # Ok(())
//! # }
//! ```
#![deny(missing_docs)]
#![deny(unsafe_code)]

pub mod ffi;
mod frame;
mod moves;
mod refusal;
mod run;
mod shape;

pub use frame::{Complex, Fields, Frame, Kind};
pub use moves::{Command, Loss, Moved, Sums};
pub use refusal::Refusal;
pub use run::Run;
pub use shape::Shape;
