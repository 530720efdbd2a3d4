//! One cell: the tests of its parts, and what each call does in it.
use std::array::from_fn;
use std::ops::Range;

use lta::Loss;

use super::layout::{
    Layout, BANK, BLOCK, COMMAND, DATA_BIN, HELD_STAMP, LAST_COMMAND, NEXT_BIN, OCCUPIED, OPEN_STAMP,
    READY_BINS,
};
use super::row::{add_tick, move_row, register_ok, row_ok, shift};
use super::{ADD, BIN_LIMIT, DISCARD, FILLING, FREE, IDLE, LAST, OPEN_LIMIT, READY, RUN_LIMIT, SAVE, SPEED};

/// The words of a cell, to be tested.
#[derive(Clone, Copy)]
pub struct CellRef<'a> {
    pub layout: Layout,
    pub words: &'a [i64],
}

impl CellRef<'_> {
    fn ticks(&self, row: Range<usize>) -> i64 {
        self.words[row.start]
    }

    fn loss_fits(&self, loss: Loss, ticks: i64) -> bool {
        self.ticks(self.layout.loss(loss.number() as usize - 1)) + ticks <= RUN_LIMIT
    }

    fn stamp_ok(&self, at: usize, t: i64) -> bool {
        (0..=t).contains(&self.words[at])
    }

    pub fn occupied(&self) -> bool {
        self.words[OCCUPIED] == 1
    }

    pub fn open_ok(&self, t: i64) -> bool {
        self.stamp_ok(OPEN_STAMP, t) && row_ok(&self.words[self.layout.open()], OPEN_LIMIT)
    }

    /// Inlined in every call that has it: as a function of its own it makes the peer's ticks a fifth slower.
    #[inline(always)]
    pub fn losses_ok(&self) -> bool {
        let mut rows = self.words[self.layout.losses()].chunks_exact(self.layout.row_words());
        rows.all(|row| row_ok(row, RUN_LIMIT))
    }

    /// Ticks, edge count and centre count of each loss.
    pub fn losses(&self) -> [[i64; 3]; 6] {
        from_fn(|loss| {
            let row = &self.words[self.layout.loss(loss)];
            [row[0], row[1], row[2]]
        })
    }

    pub fn page_ok(&self) -> bool {
        self.losses_ok() && self.losses().iter().map(|[ticks, ..]| ticks).sum::<i64>() <= RUN_LIMIT
    }

    fn held_ok(&self, t: i64) -> bool {
        let row = &self.words[self.layout.held()];
        let flag_ok = self.occupied() || (self.words[OCCUPIED] == 0 && row[0] == 0);
        flag_ok && self.stamp_ok(HELD_STAMP, t) && row_ok(row, OPEN_LIMIT)
    }

    fn label_ok(&self) -> bool {
        (SAVE as i64..=LAST as i64).contains(&self.words[COMMAND])
            && (0..2).contains(&self.words[BANK])
            && (0..self.layout.bins as i64).contains(&self.words[DATA_BIN])
    }

    /// The last command is none, 000, 001, 010 or 100.
    fn block_ok(&self) -> bool {
        (0..self.layout.blocks).contains(&self.words[BLOCK]) && matches!(self.words[LAST_COMMAND], 0..=3 | 5)
    }

    pub fn bin_ok(&self, t: i64, number: usize) -> bool {
        let row = &self.words[self.layout.bin_row(number)];
        let state_ok = match self.words[self.layout.state(number)] {
            FREE => row[0] == 0,
            FILLING | READY => true,
            _ => false,
        };
        state_ok && self.stamp_ok(self.layout.bin_stamp(number), t) && row_ok(row, BIN_LIMIT)
    }

    pub fn is_ready(&self, number: usize) -> bool {
        self.words[self.layout.state(number)] == READY
    }

    fn number_ok(&self) -> bool {
        (0..=self.layout.all_bins() as i64).contains(&self.words[READY_BINS])
    }

    /// Not 0 beside a Ready bin, and not all beside another.
    fn number_fits(&self, bin: usize) -> bool {
        let never = if self.is_ready(bin) { 0 } else { self.layout.all_bins() as i64 };
        self.number_ok() && self.words[READY_BINS] != never
    }

    pub fn emit_ok(&self, t: i64, number: usize) -> bool {
        self.bin_ok(t, number) && self.number_fits(number)
    }

    pub fn pick_ok(&self, t: i64) -> bool {
        let mut ready = 0;
        for number in 0..self.layout.all_bins() {
            if !self.bin_ok(t, number) {
                return false;
            }
            ready += i64::from(self.is_ready(number));
        }
        let next_ok = (0..self.layout.all_bins() as i64).contains(&self.words[NEXT_BIN]);
        ready == self.words[READY_BINS] && next_ok
    }

    pub fn any_ready(&self) -> bool {
        self.words[READY_BINS] != 0
    }

    /// The Ready bin whose turn it is in the cell.
    pub fn next_ready(&self) -> Option<usize> {
        let next = self.words[NEXT_BIN] as usize;
        (next..self.layout.all_bins()).chain(0..next).find(|number| self.is_ready(*number))
    }

    pub fn tick_ok(&self, t: i64) -> bool {
        let full = self.ticks(self.layout.open()) == OPEN_LIMIT;
        register_ok(&self.words[self.layout.x()])
            && register_ok(&self.words[self.layout.y()])
            && self.open_ok(t)
            && self.losses_ok()
            && (!full || self.loss_fits(Loss::Holdoff, 1))
    }

    pub fn dump_ok(&self, t: i64, command: u64) -> bool {
        let held_ok = self.held_ok(t) && self.label_ok();
        if !(self.open_ok(t) && held_ok && self.block_ok() && self.losses_ok()) {
            return false;
        }
        let open = self.ticks(self.layout.open());
        match command {
            IDLE | SPEED => true,
            DISCARD => self.loss_fits(Loss::Ordered, open),
            _ => !self.occupied() || self.loss_fits(Loss::Overrun, open),
        }
    }

    /// The bin of Held's label.
    fn held_bin(&self) -> usize {
        self.words[BANK] as usize * self.layout.bins + self.words[DATA_BIN] as usize
    }

    fn wide(&self) -> bool {
        let bin = self.ticks(self.layout.bin_row(self.held_bin()));
        bin + self.ticks(self.layout.held()) > BIN_LIMIT
    }

    pub fn integrate_ok(&self, t: i64) -> bool {
        if !(self.held_ok(t) && self.losses_ok() && self.number_ok()) {
            return false;
        }
        if !self.occupied() {
            return true;
        }
        if !(self.label_ok() && self.emit_ok(t, self.held_bin())) {
            return false;
        }
        let bin = self.held_bin();
        let held = self.ticks(self.layout.held());
        match (self.words[self.layout.state(bin)], self.words[COMMAND] as u64) {
            (READY, _) => self.loss_fits(Loss::Full, held),
            (FILLING, SAVE) => self.loss_fits(Loss::Replaced, self.ticks(self.layout.bin_row(bin))),
            (FILLING, _) if self.wide() => self.loss_fits(Loss::Wide, held),
            _ => true,
        }
    }
}

/// The words of a cell that has been tested.
pub struct Cell<'a> {
    pub layout: Layout,
    pub words: &'a mut [i64],
}

impl Cell<'_> {
    fn move_row(&mut self, from: Range<usize>, to: Range<usize>) {
        let rows = self.words.get_disjoint_mut([from, to]);
        let [from, to] = rows.expect("two rows of one cell");
        move_row(from, to);
    }

    fn lose(&mut self, row: Range<usize>, loss: Loss) -> u32 {
        self.move_row(row, self.layout.loss(loss.number() as usize - 1));
        loss.number()
    }

    /// Answers whether the cell is held off.
    pub fn tick(&mut self, x: u8, y: u8, validity: u8) -> bool {
        let layout = self.layout;
        shift(&mut self.words[layout.x()], x, validity & 1 != 0);
        shift(&mut self.words[layout.y()], y, validity & 2 != 0);
        let full = self.words[layout.open().start] == OPEN_LIMIT;
        let row = if full { layout.loss(5) } else { layout.open() };
        let parts = self.words.get_disjoint_mut([row, layout.x(), layout.y()]);
        let [row, x, y] = parts.expect("a row and two registers");
        add_tick(row, x, y);
        full
    }

    /// The block's step at a dump that is not idle, and the last command from then on.
    fn step_block(&mut self, command: u64) {
        let (next, last) = (self.words[BLOCK] + 1, self.words[LAST_COMMAND]);
        let adding = last == SAVE as i64 + 1 || last == ADD as i64 + 1;
        let returns = last == 0 || command == DISCARD || (command == LAST && adding);
        self.words[BLOCK] = if returns || next == self.layout.blocks { 0 } else { next };
        self.words[LAST_COMMAND] = command as i64 + 1;
    }

    /// The data bin that a dump names, after the block's step.
    fn data_bin(&self, phase: u64) -> i64 {
        phase as i64 * self.layout.blocks + self.words[BLOCK]
    }

    /// A speed dump but for its frame: the data bin and the stamp that the frame has.
    pub fn open_leaves(&mut self, t: i64, phase: u64) -> (u64, u64) {
        self.step_block(ADD);
        let stamp = std::mem::replace(&mut self.words[OPEN_STAMP], t);
        (self.data_bin(phase) as u64, stamp as u64)
    }

    pub fn dump(&mut self, t: i64, command: u64, bank: u64, phase: u64) -> u32 {
        if command == IDLE {
            return 7;
        }
        self.step_block(command);
        let stamp = std::mem::replace(&mut self.words[OPEN_STAMP], t);
        if command == DISCARD {
            return self.lose(self.layout.open(), Loss::Ordered);
        }
        if self.words[OCCUPIED] == 1 {
            return self.lose(self.layout.open(), Loss::Overrun);
        }
        self.words[OCCUPIED] = 1;
        self.words[COMMAND] = command as i64;
        self.words[BANK] = bank as i64;
        self.words[DATA_BIN] = self.data_bin(phase);
        self.words[HELD_STAMP] = stamp;
        self.move_row(self.layout.open(), self.layout.held());
        0
    }

    pub fn integrate(&mut self) -> u32 {
        let layout = self.layout;
        let view = CellRef { layout, words: self.words };
        let (bin, wide) = (view.held_bin(), view.wide());
        let command = self.words[COMMAND] as u64;
        let state = self.words[layout.state(bin)];
        self.words[OCCUPIED] = 0;
        if state == READY {
            return self.lose(layout.held(), Loss::Full);
        }
        self.words[layout.state(bin)] = if command == LAST { READY } else { FILLING };
        self.words[READY_BINS] += i64::from(command == LAST);
        let mut answer = 0;
        if state == FILLING && command == SAVE {
            answer = self.lose(layout.bin_row(bin), Loss::Replaced);
        } else if state == FILLING && wide {
            return self.lose(layout.held(), Loss::Wide);
        }
        if state == FREE || command == SAVE {
            self.words[layout.bin_stamp(bin)] = self.words[HELD_STAMP];
        }
        self.move_row(layout.held(), layout.bin_row(bin));
        answer
    }
}
