//! Where the parts of a cell stand in its words.
use std::ops::Range;

use lta::Shape;

/// The words of a run besides its cells: t in front, and in the last word the cell at which the next pick starts.
pub const RUN_WORDS: usize = 2;
/// Where the cells start.
pub const CELLS: usize = 1;

pub const OCCUPIED: usize = 0;
pub const COMMAND: usize = 1;
pub const BANK: usize = 2;
pub const DATA_BIN: usize = 3;
pub const OPEN_STAMP: usize = 4;
pub const HELD_STAMP: usize = 5;
/// The current block, as its offset from S.
pub const BLOCK: usize = 6;
/// One more than the last command, or 0 where there is none.
pub const LAST_COMMAND: usize = 7;
/// How many bins are Ready.
pub const READY_BINS: usize = 8;
/// The bin at which the next pick in the cell starts.
pub const NEXT_BIN: usize = 9;
const HEAD: usize = 10;

#[derive(Clone, Copy)]
pub struct Layout {
    pub bins: usize,
    pub blocks: i64,
    row: usize,
    depth: usize,
}

impl Layout {
    pub fn new(shape: &Shape) -> Layout {
        let lags = shape.lags as usize;
        let (bins, blocks) = (shape.bins as usize, shape.blocks as i64);
        Layout { bins, blocks, row: 3 + 2 * lags, depth: lags / 2 + 1 }
    }

    /// The words of a cell.
    pub fn words(&self) -> usize {
        self.bin_start(self.all_bins())
    }

    /// How many bins both banks have.
    pub fn all_bins(&self) -> usize {
        2 * self.bins
    }

    fn row(&self, number: usize) -> Range<usize> {
        let start = HEAD + number * self.row;
        start..start + self.row
    }

    pub fn open(&self) -> Range<usize> {
        self.row(0)
    }

    pub fn held(&self) -> Range<usize> {
        self.row(1)
    }

    pub fn loss(&self, number: usize) -> Range<usize> {
        self.row(2 + number)
    }

    pub fn losses(&self) -> Range<usize> {
        self.row(2).start..self.row(8).start
    }

    pub fn row_words(&self) -> usize {
        self.row
    }

    pub fn x(&self) -> Range<usize> {
        let start = self.losses().end;
        start..start + self.depth
    }

    pub fn y(&self) -> Range<usize> {
        let start = self.x().end;
        start..start + self.depth
    }

    fn bin_start(&self, number: usize) -> usize {
        self.y().end + number * (2 + self.row)
    }

    pub fn state(&self, number: usize) -> usize {
        self.bin_start(number)
    }

    pub fn bin_stamp(&self, number: usize) -> usize {
        self.bin_start(number) + 1
    }

    pub fn bin_row(&self, number: usize) -> Range<usize> {
        let start = self.bin_start(number) + 2;
        start..start + self.row
    }
}
