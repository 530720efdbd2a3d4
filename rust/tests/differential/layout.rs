//! The words of a run by docs/LAYOUT.md. Both ways round lose nothing, whatever the words are.
use crate::call::Shape;
use crate::rules::{cell_at, BIN_LIMIT, OPEN_LIMIT, PEAK, RUN_LIMIT};
use crate::signed::{Cell, Row, Run};

/// What a word is.
#[derive(Clone, Copy, Debug, PartialEq, Eq)]
pub enum Kind {
    Time,
    /// The cell at which the next pick starts.
    NextCell,
    Flag,
    Command,
    Bank,
    DataBin,
    Stamp,
    Block,
    LastCommand,
    /// How many bins are Ready.
    ReadyBins,
    /// The bin at which the next pick in the cell starts.
    NextBin,
    State,
    Entry,
    /// The ticks of a row, which may hold so many.
    Ticks(u64),
    /// A count of the row whose ticks stand at this word.
    Count(usize),
    /// A stored sum of the row whose ticks stand at this word.
    Sum(usize),
}

/// Passes over the words of a run in their order, and gives the next word to each of its fields or takes it from it.
trait Walk {
    fn word(&mut self, field: &mut u64, kind: Kind);
    /// The number of words passed.
    fn at(&self) -> usize;
}

fn walk_row(walk: &mut impl Walk, row: &mut Row, limit: u64) {
    let ticks_at = walk.at();
    walk.word(&mut row.ticks, Kind::Ticks(limit));
    walk.word(&mut row.edge, Kind::Count(ticks_at));
    walk.word(&mut row.centre, Kind::Count(ticks_at));
    let bias = row.ticks.wrapping_mul(PEAK);
    for sum in &mut row.sums {
        let mut stored = (*sum as u64).wrapping_add(bias);
        walk.word(&mut stored, Kind::Sum(ticks_at));
        *sum = stored.wrapping_sub(bias) as i64;
    }
}

/// The word of an entry has 8 added to the low four bits of the sampler byte, modulo 16: bit 3 the other way round.
fn walk_register(walk: &mut impl Walk, register: &mut [u64]) {
    for entry in register {
        let mut word = *entry ^ 8;
        walk.word(&mut word, Kind::Entry);
        *entry = word ^ 8;
    }
}

/// A block is its offset from S. A last command is one more than the command, and 0 where there is none.
fn block_words(cell: &Cell, start: u64) -> [u64; 2] {
    [cell.block.wrapping_sub(start), cell.last.map_or(0, |command| command + 1)]
}

fn walk_block(walk: &mut impl Walk, cell: &mut Cell, start: u64) {
    let [mut offset, mut last] = block_words(cell, start);
    walk.word(&mut offset, Kind::Block);
    walk.word(&mut last, Kind::LastCommand);
    (cell.block, cell.last) = (start.wrapping_add(offset), last.checked_sub(1));
}

/// A place of picks is the one after the last, after the end of them the first. A word that is none stands for itself.
fn place_word(last: u64, places: u64) -> u64 {
    if last < places {
        (last + 1) % places
    } else {
        last
    }
}

fn walk_place(walk: &mut impl Walk, last: &mut u64, places: u64, kind: Kind) {
    let mut next = place_word(*last, places);
    walk.word(&mut next, kind);
    *last = if next < places { (next + places - 1) % places } else { next };
}

fn walk_picks(walk: &mut impl Walk, cell: &mut Cell) {
    walk.word(&mut cell.ready, Kind::ReadyBins);
    walk_place(walk, &mut cell.picked, cell.bins.len() as u64, Kind::NextBin);
}

fn walk_cell(walk: &mut impl Walk, cell: &mut Cell, start: u64) {
    walk.word(&mut cell.held.occupied, Kind::Flag);
    walk.word(&mut cell.held.command, Kind::Command);
    walk.word(&mut cell.held.bank, Kind::Bank);
    walk.word(&mut cell.held.bin, Kind::DataBin);
    walk.word(&mut cell.open_stamp, Kind::Stamp);
    walk.word(&mut cell.held.stamp, Kind::Stamp);
    walk_block(walk, cell, start);
    walk_picks(walk, cell);
    walk_row(walk, &mut cell.open, OPEN_LIMIT);
    walk_row(walk, &mut cell.held.row, OPEN_LIMIT);
    for loss in &mut cell.losses {
        walk_row(walk, loss, RUN_LIMIT);
    }
    walk_register(walk, &mut cell.x);
    walk_register(walk, &mut cell.y);
    for bin in &mut cell.bins {
        walk.word(&mut bin.state, Kind::State);
        walk.word(&mut bin.stamp, Kind::Stamp);
        walk_row(walk, &mut bin.row, BIN_LIMIT);
    }
}

fn walk_run(walk: &mut impl Walk, run: &mut Run) {
    walk.word(&mut run.t, Kind::Time);
    for cell in &mut run.cells {
        walk_cell(walk, cell, run.shape.start);
    }
    walk_place(walk, &mut run.served, run.shape.cells, Kind::NextCell);
}

struct Store(Vec<u64>);

impl Walk for Store {
    fn word(&mut self, field: &mut u64, _: Kind) {
        self.0.push(*field);
    }

    fn at(&self) -> usize {
        self.0.len()
    }
}

struct Load<'a> {
    words: &'a [u64],
    at: usize,
}

impl Walk for Load<'_> {
    fn word(&mut self, field: &mut u64, _: Kind) {
        *field = self.words[self.at];
        self.at += 1;
    }

    fn at(&self) -> usize {
        self.at
    }
}

struct Kinds(Vec<Kind>);

impl Walk for Kinds {
    fn word(&mut self, _: &mut u64, kind: Kind) {
        self.0.push(kind);
    }

    fn at(&self) -> usize {
        self.0.len()
    }
}

/// The words of a run.
pub fn words(run: &mut Run) -> Vec<u64> {
    let mut store = Store(Vec::new());
    walk_run(&mut store, run);
    store.0
}

/// Where the words of a cell's current block and last command begin, and what they are in a run.
pub fn block_of(run: &Run, cell: usize) -> (usize, [u64; 2]) {
    (cell_at(&run.shape, cell) + 6, block_words(&run.cells[cell], run.shape.start))
}

/// Where the words of a cell's number of Ready bins and of its place of picks begin, and what they are in a run.
pub fn picks_of(run: &Run, cell: usize) -> (usize, [u64; 2]) {
    let &Cell { ready, picked, ref bins, .. } = &run.cells[cell];
    (cell_at(&run.shape, cell) + 8, [ready, place_word(picked, bins.len() as u64)])
}

/// The word of the run's place of picks, and what it is in a run.
pub fn next_cell_of(run: &Run) -> (usize, u64) {
    (cell_at(&run.shape, run.cells.len()), place_word(run.served, run.shape.cells))
}

/// The run whose words these are.
pub fn load(run: &mut Run, words: &[u64]) {
    let mut load = Load { words, at: 0 };
    walk_run(&mut load, run);
    assert_eq!(load.at, words.len(), "words of a run");
}

/// What each word of a run is.
pub fn kinds(shape: Shape) -> Vec<Kind> {
    let mut kinds = Kinds(Vec::new());
    walk_run(&mut kinds, &mut Run::new(shape));
    kinds.0
}
