//! The shape of a run.
use crate::{ffi, Refusal};

/// The shape of a run: C, N, B, M, S, R and Z of document 01.
///
/// ```
/// use lta::{Refusal, Shape};
///
/// let shape = Shape { cells: 1, lags: 2, bins: 1, blocks: 1, start: 0, rate: 4, second: 0 };
/// assert_eq!(shape.words_needed(), Ok(90));
/// assert_eq!(Shape { lags: 3, ..shape }.words_needed(), Err(Refusal::BadShape));
/// ```
#[derive(Clone, Copy, Debug, PartialEq, Eq, Hash)]
pub struct Shape {
    /// C: cells, 1 to 16.
    pub cells: u64,
    /// N: lags of a cell, even, 2 to 128.
    pub lags: u64,
    /// B: data bins of each of the two banks, 1 to 1,000.
    pub bins: u64,
    /// M: recirculation blocks, 1 to 256.
    pub blocks: u64,
    /// S: the start block; S + M is at most 256.
    pub start: u64,
    /// R: ticks of a second, 1 to 256,000,000.
    pub rate: u64,
    /// Z: the second in which the run starts, 0 to 2,147,483,647.
    pub second: u64,
}

impl Shape {
    /// The seven numbers in the order of the C interface.
    ///
    /// ```
    /// # let shape = lta::Shape { cells: 1, lags: 2, bins: 3, blocks: 1, start: 0, rate: 4, second: 5 };
    /// assert_eq!(shape.numbers(), [1, 2, 3, 1, 0, 4, 5]);
    /// ```
    pub fn numbers(&self) -> [u64; 7] {
        [self.cells, self.lags, self.bins, self.blocks, self.start, self.rate, self.second]
    }

    /// The 64-bit words of work memory that a run of this shape needs. Refuses 1.
    pub fn words_needed(&self) -> Result<usize, Refusal> {
        ffi::outcome(ffi::words_needed(&self.numbers())).map(|words| words as usize)
    }

    /// The bytes of a bin's frame of this shape: 34 + 8N.
    ///
    /// ```
    /// # let shape = lta::Shape { cells: 1, lags: 2, bins: 1, blocks: 1, start: 0, rate: 4, second: 0 };
    /// assert_eq!(shape.frame_length(), 50);
    /// ```
    pub fn frame_length(&self) -> usize {
        34 + 8 * self.lags as usize
    }

    /// The bytes of a speed frame of this shape: 38 + 8N.
    ///
    /// ```
    /// # let shape = lta::Shape { cells: 1, lags: 2, bins: 1, blocks: 1, start: 0, rate: 4, second: 0 };
    /// assert_eq!(shape.speed_frame_length(), 54);
    /// ```
    pub fn speed_frame_length(&self) -> usize {
        38 + 8 * self.lags as usize
    }

    /// The bytes of a page of this shape: 41 × (6C + 1).
    ///
    /// ```
    /// # let shape = lta::Shape { cells: 2, lags: 2, bins: 1, blocks: 1, start: 0, rate: 4, second: 0 };
    /// assert_eq!(shape.page_length(), 533);
    /// ```
    pub fn page_length(&self) -> usize {
        41 * (6 * self.cells as usize + 1)
    }
}
