//! Refusals that follow from the arguments of a call alone, and document 01's numbers.
use crate::call::{Call, Shape};

pub const OPEN_LIMIT: u64 = 524_288;
pub const BIN_LIMIT: u64 = 16_777_215;
pub const RUN_LIMIT: u64 = 2_147_483_648;
/// What a lag adds in one tick at most: -8 × -8 × 2.
pub const PEAK: u64 = 128;

pub const FREE: u64 = 0;
pub const FILLING: u64 = 1;
pub const READY: u64 = 2;

pub const SAVE: u64 = 0b000;
pub const ADD: u64 = 0b001;
pub const LAST: u64 = 0b010;
pub const SPEED: u64 = 0b011;
pub const DISCARD: u64 = 0b100;
pub const IDLE: u64 = 0b111;

/// Refusal 1: is the count of lags out of its limits?
pub fn bad_lags(lags: u64) -> bool {
    !(2..=128).contains(&lags) || lags % 2 != 0
}

fn bad_shape(shape: &[u64]) -> bool {
    let &[cells, lags, bins, blocks, start, rate, second] = shape else {
        return true;
    };
    let ends = u128::from(start) + u128::from(blocks);
    !(1..=16).contains(&cells)
        || bad_lags(lags)
        || !(1..=1000).contains(&bins)
        || !(1..=256).contains(&blocks)
        || ends > 256
        || !(1..=256_000_000).contains(&rate)
        || second > 2_147_483_647
}

/// docs/LAYOUT.md's formulas: the words of a cell, where a cell starts, and the words of a run.
fn cell_words(shape: &Shape) -> usize {
    let (n, b) = (shape.lags as usize, shape.bins as usize);
    36 + 17 * n + 10 * b + 4 * b * n
}

pub fn cell_at(shape: &Shape, cell: usize) -> usize {
    1 + cell * cell_words(shape)
}

pub fn words_needed(shape: &Shape) -> usize {
    cell_at(shape, shape.cells as usize) + 1
}

/// What the host is told of the seven numbers and of the words lent, if anything: 1, then 2.
pub fn host_refusal(shape: &[u64], words: usize) -> Option<u32> {
    if bad_shape(shape) {
        return Some(1);
    }
    let &[cells, lags, bins, blocks, start, rate, second] = shape else {
        return Some(1);
    };
    let shape = Shape { cells, lags, bins, blocks, start, rate, second };
    (words != words_needed(&shape)).then_some(2)
}

/// No part of a phase bin is used.
fn breaks_bin_rule(shape: &Shape, phase: u64) -> bool {
    (u128::from(phase) + 1) * u128::from(shape.blocks) > u128::from(shape.bins)
}

/// The first refusal of the call's arguments alone: 3, 19 and 5 to 12 without 8 to 11.
pub fn argument_refusal(shape: &Shape, call: &Call) -> Option<u32> {
    let no_cell = |cell: u64| cell >= shape.cells;
    match *call {
        Call::Tick { ref samples } if samples.len() as u64 != 3 * shape.cells => Some(3),
        Call::Tick { ref samples } => samples.chunks_exact(3).any(|bytes| bytes[2] > 0b11).then_some(19),
        Call::Dump { cell, .. } if no_cell(cell) => Some(5),
        Call::Dump { command: 5 | 6 | 8.., .. } => Some(6),
        Call::Dump { bank, phase, .. } => (bank > 1 || breaks_bin_rule(shape, phase)).then_some(7),
        Call::Integrate { cell } | Call::Forecast { cell } => no_cell(cell).then_some(5),
        Call::Emit { cell, .. } if no_cell(cell) => Some(5),
        Call::Emit { bank, bin, .. } => (bank > 1 || bin >= shape.bins).then_some(7),
        Call::Reading { cell, .. } if no_cell(cell) => Some(5),
        Call::Reading { lag, loss, .. } => (lag >= shape.lags || !(1..=6).contains(&loss)).then_some(12),
        Call::Pick { .. } | Call::Page { .. } => None,
    }
}
