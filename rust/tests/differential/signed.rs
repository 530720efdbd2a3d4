//! A run by signed sums: each place has its numbers, which move with it. Any values at all may stand in it, since
//! `layout` also makes one of altered work memory.
use crate::call::{Call, Reply, Shape};
use crate::frame;
use crate::page::{self, Counts};
use crate::rules::{
    argument_refusal, ADD, BIN_LIMIT, DISCARD, FILLING, FREE, IDLE, LAST, OPEN_LIMIT, READY, RUN_LIMIT, SAVE,
    SPEED,
};

/// The weight of a product by the difference of its phases, in sixteenths of a turn.
const WEIGHT: [i64; 16] = [2, 2, 1, 1, 0, -1, -1, -2, -2, -2, -1, -1, 0, 1, 1, 2];

/// The bit of a register entry above its sampler byte: the sample is valid.
const VALID: u64 = 0x100;

/// A register entry with an invalid sample: what stands there before tick 0.
pub const INVALID: u64 = 0x08;

/// The numbers of a place.
#[derive(Clone, Debug, Default, PartialEq, Eq)]
pub struct Row {
    pub ticks: u64,
    pub edge: u64,
    pub centre: u64,
    /// I and Q of each lag in turn.
    pub sums: Vec<i64>,
}

#[derive(Clone, Debug, Default, PartialEq, Eq)]
pub struct Held {
    pub occupied: u64,
    pub command: u64,
    pub bank: u64,
    pub bin: u64,
    pub stamp: u64,
    pub row: Row,
}

#[derive(Clone, Debug, Default, PartialEq, Eq)]
pub struct Bin {
    pub state: u64,
    pub stamp: u64,
    pub row: Row,
}

#[derive(Clone, Debug, Default, PartialEq, Eq)]
pub struct Cell {
    /// The current block.
    pub block: u64,
    /// The command of the latest dump that was accepted and not idle, if there was one; 001 for 011.
    pub last: Option<u64>,
    /// How many bins are Ready.
    pub ready: u64,
    /// The bin last picked, bank 0's before bank 1's; at first the last of them, after which the first comes.
    pub picked: u64,
    pub open_stamp: u64,
    pub open: Row,
    pub held: Held,
    pub losses: [Row; 6],
    /// Sampler bytes with their validity, newest first.
    pub x: Vec<u64>,
    pub y: Vec<u64>,
    pub bins: Vec<Bin>,
}

#[derive(Clone, Debug, PartialEq, Eq)]
pub struct Run {
    pub shape: Shape,
    pub t: u64,
    /// The cell last served by a pick; in a fresh run the last of them, after which the first comes.
    pub served: u64,
    pub cells: Vec<Cell>,
}

impl Row {
    pub fn empty(lags: u64) -> Row {
        Row { sums: vec![0; 2 * lags as usize], ..Row::default() }
    }

    /// All of another row joins this one, and the other is empty.
    fn take(&mut self, other: &mut Row) {
        self.ticks += std::mem::take(&mut other.ticks);
        self.edge += std::mem::take(&mut other.edge);
        self.centre += std::mem::take(&mut other.centre);
        for (sum, more) in self.sums.iter_mut().zip(&mut other.sums) {
            *sum += std::mem::take(more);
        }
    }

    fn add_tick(&mut self, x: &[u64], y: &[u64]) {
        let lags = self.sums.len() / 2;
        self.ticks += 1;
        for (k, pair) in self.sums.chunks_exact_mut(2).enumerate() {
            let (a, b) = (x[k.div_ceil(2)], y[lags / 2 - k / 2]);
            let (Some(p), Some(q)) = (sample(a), sample(b)) else {
                continue;
            };
            let d = (phase(a) + 16 - phase(b)) % 16;
            pair[0] += p * q * WEIGHT[d];
            pair[1] += p * q * WEIGHT[(d + 12) % 16];
            self.edge += u64::from(k == 0);
            self.centre += u64::from(k == lags / 2);
        }
    }
}

/// The sample of a register entry, if it is valid.
fn sample(entry: u64) -> Option<i64> {
    let sample = match entry % 16 {
        low @ 0..=7 => low as i64,
        low => low as i64 - 16,
    };
    (entry & VALID != 0).then_some(sample)
}

fn phase(entry: u64) -> usize {
    (entry / 16 % 16) as usize
}

fn shift(register: &mut [u64], byte: u8, valid: bool) {
    register.rotate_right(1);
    register[0] = u64::from(byte) + if valid { VALID } else { 0 };
}

impl Cell {
    fn new(shape: &Shape) -> Cell {
        let row = Row::empty(shape.lags);
        let depth = shape.lags as usize / 2 + 1;
        let bin = Bin { row: row.clone(), ..Bin::default() };
        Cell {
            block: shape.start,
            last: None,
            ready: 0,
            picked: 2 * shape.bins - 1,
            open_stamp: 0,
            open: row.clone(),
            held: Held { row: row.clone(), ..Held::default() },
            losses: std::array::from_fn(|_| row.clone()),
            x: vec![INVALID; depth],
            y: vec![INVALID; depth],
            bins: vec![bin; 2 * shape.bins as usize],
        }
    }

    /// Answers whether the cell is held off.
    fn tick(&mut self, x: u8, y: u8, validity: u8) -> bool {
        shift(&mut self.x, x, validity & 0b01 != 0);
        shift(&mut self.y, y, validity & 0b10 != 0);
        let full = self.open.ticks >= OPEN_LIMIT;
        let row = if full { &mut self.losses[5] } else { &mut self.open };
        row.add_tick(&self.x, &self.y);
        full
    }

    /// The current block after a dump that is not idle, which counts as the last command from now on.
    fn step(&mut self, shape: &Shape, command: u64) -> u64 {
        let last = self.last.replace(command);
        let returns = match (last, command) {
            (None, _) | (_, DISCARD) | (Some(SAVE | ADD), LAST) => true,
            _ => self.block + 1 == shape.start + shape.blocks,
        };
        self.block = if returns { shape.start } else { self.block + 1 };
        self.block
    }

    fn dump(&mut self, t: u64, shape: &Shape, command: u64, bank: u64, phase: u64) -> u64 {
        if command == IDLE {
            return 7;
        }
        let block = self.step(shape, command);
        let stamp = std::mem::replace(&mut self.open_stamp, t);
        if command == DISCARD {
            self.losses[0].take(&mut self.open);
            return 1;
        }
        if self.held.occupied == 1 {
            self.losses[1].take(&mut self.open);
            return 2;
        }
        self.held.row.take(&mut self.open);
        let (row, bin) = (std::mem::take(&mut self.held.row), shape.data_bin(phase, block));
        self.held = Held { occupied: 1, command, bank, bin, stamp, row };
        0
    }

    fn integrate(&mut self, bins: u64) -> u64 {
        let held = &mut self.held;
        let bin = &mut self.bins[(held.bank * bins + held.bin) as usize];
        held.occupied = 0;
        if bin.state == READY {
            self.losses[2].take(&mut held.row);
            return 3;
        }
        let mut answer = 0;
        if bin.state == FREE {
            bin.stamp = held.stamp;
        } else if held.command == SAVE {
            self.losses[3].take(&mut bin.row);
            bin.stamp = held.stamp;
            answer = 4;
        }
        if held.command != SAVE && bin.row.ticks + held.row.ticks > BIN_LIMIT {
            self.losses[4].take(&mut held.row);
            answer = 5;
        } else {
            bin.row.take(&mut held.row);
        }
        bin.state = if held.command == LAST { READY } else { FILLING };
        self.ready += u64::from(bin.state == READY);
        answer
    }

    fn has_ready(&self) -> bool {
        self.bins.iter().any(|bin| bin.state == READY)
    }
}

/// So many places going round: from the one after the last on, and the last one at the end.
fn after(last: u64, places: u64) -> impl Iterator<Item = u64> {
    (1..=places).map(move |step| (last + step) % places)
}

impl Run {
    pub fn new(shape: Shape) -> Run {
        let cells = vec![Cell::new(&shape); shape.cells as usize];
        Run { shape, t: 0, served: shape.cells - 1, cells }
    }

    pub fn cell(&self, cell: u64) -> &Cell {
        &self.cells[cell as usize]
    }

    pub fn bin(&self, cell: u64, bank: u64, bin: u64) -> &Bin {
        &self.cell(cell).bins[(bank * self.shape.bins + bin) as usize]
    }

    /// The first refusal of a call, in its order; the test of 11 is asked for where the order has it.
    pub fn refusal(&self, call: &Call, damaged: impl Fn(&Run, &Call) -> bool) -> Option<u32> {
        if let Some(number) = argument_refusal(&self.shape, call) {
            return Some(number);
        }
        if matches!(call, Call::Tick { .. }) && self.t == RUN_LIMIT {
            return Some(4);
        }
        if damaged(self, call) {
            return Some(11);
        }
        match *call {
            Call::Integrate { cell } if self.cell(cell).held.occupied == 0 => Some(8),
            Call::Emit { cell, bank, bin, .. } if self.bin(cell, bank, bin).state != READY => Some(9),
            Call::Emit { room, .. } if room < self.shape.frame_length() => Some(10),
            Call::Pick { .. } if !self.cells.iter().any(Cell::has_ready) => Some(20),
            Call::Pick { room } if room < self.shape.frame_length() => Some(10),
            Call::Dump { command: SPEED, room, .. } if room < self.shape.speed_length() => Some(10),
            Call::Reading { room, .. } if room[0] < 2 || room[1] < 3 => Some(10),
            Call::Page { room } if room < self.shape.page_length() => Some(10),
            _ => None,
        }
    }

    /// The reply to a call; a refused one changes nothing.
    pub fn perform(&mut self, call: &Call, damaged: impl Fn(&Run, &Call) -> bool) -> Reply {
        if let Some(number) = self.refusal(call, damaged) {
            return Reply::Refused(number);
        }
        let (shape, t) = (self.shape, self.t);
        match *call {
            Call::Tick { ref samples } => {
                self.t += 1;
                let cells = self.cells.iter_mut().zip(samples.chunks_exact(3));
                let held_off = |(cell, b): (&mut Cell, &[u8])| u64::from(cell.tick(b[0], b[1], b[2]));
                Reply::Number(cells.map(held_off).sum())
            }
            Call::Dump { cell, command: SPEED, bank, phase, .. } => self.speed_dump(cell, bank, phase),
            Call::Dump { cell, command, bank, phase, .. } => {
                Reply::Number(self.cells[cell as usize].dump(t, &shape, command, bank, phase))
            }
            Call::Integrate { cell } => Reply::Number(self.cells[cell as usize].integrate(shape.bins)),
            Call::Emit { cell, bank, bin, .. } => self.emit(cell, bank, bin),
            Call::Pick { .. } => self.pick(),
            Call::Reading { cell, lag, loss, .. } => self.reading(cell, lag as usize, loss as usize),
            Call::Forecast { cell } => Reply::Number(OPEN_LIMIT - self.cell(cell).open.ticks),
            Call::Page { .. } => self.page(),
        }
    }

    /// Open leaves as a frame; for the block it is as if it had been dumped to be added.
    fn speed_dump(&mut self, number: u64, bank: u64, phase: u64) -> Reply {
        let shape = self.shape;
        let cell = &mut self.cells[number as usize];
        let bin = shape.data_bin(phase, cell.step(&shape, ADD));
        let stamp = std::mem::replace(&mut cell.open_stamp, self.t);
        let row = std::mem::replace(&mut cell.open, Row::empty(shape.lags));
        Reply::Frame(frame::of_place(frame::SPEED, &shape, [number, bank, bin], stamp, &row))
    }

    fn emit(&mut self, cell: u64, bank: u64, data_bin: u64) -> Reply {
        let shape = self.shape;
        self.cells[cell as usize].ready -= 1;
        let bin = &mut self.cells[cell as usize].bins[(bank * shape.bins + data_bin) as usize];
        let row = std::mem::replace(&mut bin.row, Row::empty(shape.lags));
        bin.state = FREE;
        Reply::Frame(frame::of_place(frame::ACCUMULATOR, &shape, [cell, bank, data_bin], bin.stamp, &row))
    }

    fn pick(&mut self) -> Reply {
        let mut cells = after(self.served, self.shape.cells);
        self.served = cells.find(|&cell| self.cell(cell).has_ready()).expect("a cell with a Ready bin");
        let bins = self.shape.bins;
        let cell = &mut self.cells[self.served as usize];
        let ready = after(cell.picked, 2 * bins).find(|&place| cell.bins[place as usize].state == READY);
        cell.picked = ready.expect("a Ready bin");
        let place = cell.picked;
        self.emit(self.served, place / bins, place % bins)
    }

    fn reading(&self, cell: u64, lag: usize, loss: usize) -> Reply {
        let row = &self.cell(cell).losses[loss - 1];
        let counts = [row.ticks, row.edge, row.centre].map(|count| count as i64);
        let [ticks, edge, centre] = counts;
        Reply::Sums([row.sums[2 * lag], row.sums[2 * lag + 1], ticks, edge, centre])
    }

    /// The counts of each cell's losses.
    pub fn losses(&self) -> Vec<[Counts; 6]> {
        let counts = |row: &Row| [row.ticks, row.edge, row.centre];
        self.cells.iter().map(|cell| cell.losses.each_ref().map(counts)).collect()
    }

    fn page(&self) -> Reply {
        Reply::Page(page::formatted(&self.losses()))
    }
}
