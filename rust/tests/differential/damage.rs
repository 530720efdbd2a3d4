//! Refusal 11, clause by clause: what is damaged in the parts that a call tests.
use crate::call::{Call, Shape};
use crate::rules::{BIN_LIMIT, DISCARD, FILLING, FREE, LAST, OPEN_LIMIT, PEAK, READY, RUN_LIMIT, SAVE};
use crate::signed::{Bin, Cell, Row, Run};

fn row_bad(row: &Row, limit: u64) -> bool {
    row.ticks > limit
        || row.edge > row.ticks
        || row.centre > row.ticks
        || row.sums.iter().any(|sum| sum.unsigned_abs() > PEAK * row.ticks)
}

fn registers_bad(cell: &Cell) -> bool {
    cell.x.iter().chain(&cell.y).any(|entry| *entry > 511)
}

fn open_bad(cell: &Cell, t: u64) -> bool {
    row_bad(&cell.open, OPEN_LIMIT) || cell.open_stamp > t
}

fn losses_bad(cell: &Cell) -> bool {
    cell.losses.iter().any(|loss| row_bad(loss, RUN_LIMIT))
}

/// Held without its label.
fn held_bad(cell: &Cell, t: u64) -> bool {
    let held = &cell.held;
    held.occupied > 1
        || (held.occupied == 0 && held.row.ticks != 0)
        || held.stamp > t
        || row_bad(&held.row, OPEN_LIMIT)
}

fn label_bad(cell: &Cell, bins: u64) -> bool {
    cell.held.command > LAST || cell.held.bank > 1 || cell.held.bin >= bins
}

/// The current block or the last command, which is kept as 001 where it was 011.
fn block_bad(cell: &Cell, shape: &Shape) -> bool {
    !(shape.start..shape.start + shape.blocks).contains(&cell.block)
        || cell.last.is_some_and(|command| !matches!(command, SAVE..=LAST | DISCARD))
}

fn bin_bad(bin: &Bin, t: u64) -> bool {
    bin.state > READY
        || (bin.state == FREE && bin.row.ticks != 0)
        || bin.stamp > t
        || row_bad(&bin.row, BIN_LIMIT)
}

/// Would so many ticks take the loss past its limit?
fn passes(loss: &Row, ticks: u64) -> bool {
    loss.ticks + ticks > RUN_LIMIT
}

fn tick_finds(cell: &Cell, t: u64) -> bool {
    let full = cell.open.ticks == OPEN_LIMIT;
    registers_bad(cell) || open_bad(cell, t) || losses_bad(cell) || (full && passes(&cell.losses[5], 1))
}

/// 011 and 111 add to no loss, so that none can be too full for them.
fn dump_finds(cell: &Cell, t: u64, shape: &Shape, command: u64) -> bool {
    if open_bad(cell, t) || held_bad(cell, t) || label_bad(cell, shape.bins) || losses_bad(cell) {
        return true;
    }
    if block_bad(cell, shape) {
        return true;
    }
    match command {
        DISCARD => passes(&cell.losses[0], cell.open.ticks),
        SAVE..=LAST => cell.held.occupied == 1 && passes(&cell.losses[1], cell.open.ticks),
        _ => false,
    }
}

/// "where the cell's Ready number is above 2B, or is 0 though the bin tested is Ready, or 2B though it isn't"
fn number_bad(cell: &Cell, bins: u64, tested: &Bin) -> bool {
    cell.ready > 2 * bins || cell.ready == if tested.state == READY { 0 } else { 2 * bins }
}

fn integration_finds(cell: &Cell, t: u64, bins: u64) -> bool {
    if held_bad(cell, t) || losses_bad(cell) || cell.ready > 2 * bins {
        return true;
    }
    let held = &cell.held;
    if held.occupied == 0 {
        return false;
    }
    if label_bad(cell, bins) {
        return true;
    }
    let bin = &cell.bins[(held.bank * bins + held.bin) as usize];
    if bin_bad(bin, t) || number_bad(cell, bins, bin) {
        return true;
    }
    let wide = held.command != SAVE && bin.row.ticks + held.row.ticks > BIN_LIMIT;
    match bin.state {
        READY => passes(&cell.losses[2], held.row.ticks),
        FILLING if held.command == SAVE => passes(&cell.losses[3], bin.row.ticks),
        _ => wide && passes(&cell.losses[4], held.row.ticks),
    }
}

fn emission_finds(cell: &Cell, t: u64, bins: u64, tested: &Bin) -> bool {
    bin_bad(tested, t) || number_bad(cell, bins, tested)
}

/// Any bin, a Ready number that differs from the bins, or a place that is none of the cell's.
fn pick_finds(cell: &Cell, t: u64) -> bool {
    let ready = cell.bins.iter().filter(|bin| bin.state == READY).count();
    let bad = cell.bins.iter().any(|bin| bin_bad(bin, t));
    bad || cell.ready != ready as u64 || cell.picked >= cell.bins.len() as u64
}

/// A loss, or the six together.
fn page_finds(cell: &Cell) -> bool {
    losses_bad(cell) || cell.losses.iter().map(|loss| loss.ticks).sum::<u64>() > RUN_LIMIT
}

/// Is the run refused by 11 in this call, whose arguments are accepted?
pub fn found(run: &Run, call: &Call) -> bool {
    let (t, bins) = (run.t, run.shape.bins);
    if t > RUN_LIMIT {
        return true;
    }
    match *call {
        Call::Tick { .. } => run.cells.iter().any(|cell| tick_finds(cell, t)),
        Call::Dump { cell, command, .. } => dump_finds(run.cell(cell), t, &run.shape, command),
        Call::Integrate { cell } => integration_finds(run.cell(cell), t, bins),
        Call::Emit { cell, bank, bin, .. } => {
            emission_finds(run.cell(cell), t, bins, run.bin(cell, bank, bin))
        }
        Call::Pick { .. } => {
            run.served >= run.shape.cells || run.cells.iter().any(|cell| pick_finds(cell, t))
        }
        Call::Reading { cell, .. } => losses_bad(run.cell(cell)),
        Call::Forecast { cell } => open_bad(run.cell(cell), t),
        Call::Page { .. } => run.cells.iter().any(page_finds),
    }
}

/// In a run that only the calls have written, 11 never arises.
pub fn never(_: &Run, _: &Call) -> bool {
    false
}
