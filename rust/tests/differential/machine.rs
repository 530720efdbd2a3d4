//! The plain machine: for each place the set of its tick numbers. A number of a set is worked out from the bytes of
//! all accepted ticks when it is asked for.
use std::mem::take;
use std::ops::Range;

use crate::call::{Call, Reply, Shape};
use crate::frame;
use crate::page::{self, Counts};
use crate::rules::{argument_refusal, FILLING, FREE, READY, RUN_LIMIT};
use crate::signed::{self, Row};

/// A set of tick numbers, as ranges apart from each other.
#[derive(Clone, Debug, Default)]
struct Set(Vec<Range<u64>>);

impl Set {
    fn members(&self) -> u64 {
        self.0.iter().map(|range| range.end - range.start).sum()
    }

    fn add(&mut self, t: u64) {
        match self.0.last_mut() {
            Some(last) if last.end == t => last.end += 1,
            _ => self.0.push(t..t + 1),
        }
    }

    fn join(&mut self, other: Set) {
        self.0.extend(other.0);
    }
}

#[derive(Clone, Debug, Default)]
struct Label {
    command: u64,
    bank: u64,
    bin: u64,
}

#[derive(Clone, Debug, Default)]
struct Place {
    set: Set,
    stamp: u64,
}

/// What a dump did: its answer, or the place whose set became that of a frame, with the data bin that it names.
enum Dumped {
    Answer(u64),
    Sent(Place, u64),
}

#[derive(Clone, Debug, Default)]
struct Cell {
    open: Place,
    occupied: bool,
    label: Label,
    held: Place,
    /// The current block, and the last command.
    block: u64,
    last: Option<u64>,
    /// State and place of each bin, bank 0 first.
    bins: Vec<(u64, Place)>,
    /// Bank and data bin of the bin last picked.
    picked: Option<(u64, u64)>,
    losses: [Set; 6],
}

pub struct Machine {
    shape: Shape,
    cells: Vec<Cell>,
    /// The last cell served by a pick.
    served: Option<u64>,
    /// The bytes of each accepted tick.
    ticks: Vec<Vec<u8>>,
}

impl Cell {
    fn tick(&mut self, t: u64) -> bool {
        let room = self.open.set.members() < 524_288;
        let set = if room { &mut self.open.set } else { &mut self.losses[5] };
        set.add(t);
        !room
    }

    fn lose(&mut self, loss: u64, set: Set) -> u64 {
        self.losses[loss as usize - 1].join(set);
        loss
    }

    /// The block of a dump that counts as another command than 111.
    fn block_of(&self, shape: &Shape, command: u64) -> u64 {
        let Some(last) = self.last else {
            return shape.start;
        };
        if command == 0b100 || (command == 0b010 && last < 0b010) {
            return shape.start;
        }
        shape.start + (self.block - shape.start + 1) % shape.blocks
    }

    fn dump(&mut self, t: u64, shape: &Shape, command: u64, bank: u64, phase: u64) -> Dumped {
        if command == 0b111 {
            return Dumped::Answer(7);
        }
        let counted = if command == 0b011 { 0b001 } else { command };
        (self.block, self.last) = (self.block_of(shape, counted), Some(counted));
        let open = take(&mut self.open);
        self.open.stamp = t;
        let bin = shape.data_bin(phase, self.block);
        let answer = match (command, self.occupied) {
            (0b011, _) => return Dumped::Sent(open, bin),
            (0b100, _) => self.lose(1, open.set),
            (_, true) => self.lose(2, open.set),
            (_, false) => {
                (self.occupied, self.label, self.held) = (true, Label { command, bank, bin }, open);
                0
            }
        };
        Dumped::Answer(answer)
    }

    fn integrate(&mut self, bins: u64) -> u64 {
        self.occupied = false;
        let Label { command, bank, bin } = self.label;
        let at = (bank * bins + bin) as usize;
        let set = take(&mut self.held.set);
        let stamp = self.held.stamp;
        let after = if command == 0b010 { READY } else { FILLING };
        let (state, old) = self.bins[at].clone();
        let joint = old.set.members() + set.members();
        match (state, command) {
            (READY, _) => self.lose(3, set),
            (FILLING, 0b000) => {
                self.bins[at] = (after, Place { set, stamp });
                self.lose(4, old.set)
            }
            (FILLING, _) if joint > 16_777_215 => {
                self.bins[at].0 = after;
                self.lose(5, set)
            }
            (FILLING, _) => {
                self.bins[at].0 = after;
                self.bins[at].1.set.join(set);
                0
            }
            _ => {
                self.bins[at] = (after, Place { set, stamp });
                0
            }
        }
    }
}

/// What a product adds to I and Q by d, the difference of the phases: the table of document 01.
fn weights(d: i32) -> [i64; 2] {
    let w = |d: i32| match d.rem_euclid(16) {
        0 | 1 | 15 => 2,
        2 | 3 | 13 | 14 => 1,
        4 | 12 => 0,
        5 | 6 | 10 | 11 => -1,
        _ => -2,
    };
    [w(d), w(d + 12)]
}

impl Machine {
    pub fn new(shape: Shape) -> Machine {
        let bins = vec![(FREE, Place::default()); 2 * shape.bins as usize];
        let cell = Cell { bins, block: shape.start, ..Cell::default() };
        Machine { shape, cells: vec![cell; shape.cells as usize], served: None, ticks: Vec::new() }
    }

    fn t(&self) -> u64 {
        self.ticks.len() as u64
    }

    fn refusal(&self, call: &Call) -> Option<u32> {
        if let Some(number) = argument_refusal(&self.shape, call) {
            return Some(number);
        }
        match *call {
            Call::Tick { .. } => (self.t() == RUN_LIMIT).then_some(4),
            Call::Dump { command: 0b011, room, .. } => (room < self.shape.speed_length()).then_some(10),
            Call::Integrate { cell } => (!self.cells[cell as usize].occupied).then_some(8),
            Call::Emit { cell, bank, bin, room } => {
                let at = (bank * self.shape.bins + bin) as usize;
                let short = (room < self.shape.frame_length()).then_some(10);
                if self.cells[cell as usize].bins[at].0 == READY {
                    short
                } else {
                    Some(9)
                }
            }
            Call::Pick { .. } if self.turn().is_none() => Some(20),
            Call::Pick { room } => (room < self.shape.frame_length()).then_some(10),
            Call::Reading { room, .. } => (room[0] < 2 || room[1] < 3).then_some(10),
            Call::Page { room } => (room < self.shape.page_length()).then_some(10),
            _ => None,
        }
    }

    pub fn perform(&mut self, call: &Call) -> Reply {
        if let Some(number) = self.refusal(call) {
            return Reply::Refused(number);
        }
        let (t, shape) = (self.t(), self.shape);
        match *call {
            Call::Tick { ref samples } => {
                self.ticks.push(samples.clone());
                Reply::Number(self.cells.iter_mut().map(|cell| u64::from(cell.tick(t))).sum())
            }
            Call::Dump { cell, command, bank, phase, .. } => {
                match self.cells[cell as usize].dump(t, &shape, command, bank, phase) {
                    Dumped::Answer(answer) => Reply::Number(answer),
                    Dumped::Sent(place, bin) => self.frame(frame::SPEED, [cell, bank, bin], &place),
                }
            }
            Call::Integrate { cell } => Reply::Number(self.cells[cell as usize].integrate(shape.bins)),
            Call::Emit { cell, bank, bin, .. } => self.emit(cell, bank, bin),
            Call::Pick { .. } => self.pick(),
            Call::Reading { cell, lag, loss, .. } => self.reading(cell, lag as usize, loss as usize),
            Call::Forecast { cell } => Reply::Number(524_288 - self.cells[cell as usize].open.set.members()),
            Call::Page { .. } => self.page(),
        }
    }

    fn emit(&mut self, cell: u64, bank: u64, bin: u64) -> Reply {
        let at = (bank * self.shape.bins + bin) as usize;
        let (state, place) = &mut self.cells[cell as usize].bins[at];
        *state = FREE;
        let emitted = Place { set: take(&mut place.set), stamp: place.stamp };
        self.frame(frame::ACCUMULATOR, [cell, bank, bin], &emitted)
    }

    /// Cell, bank and data bin of every Ready bin.
    fn ready(&self) -> impl Iterator<Item = [u64; 3]> + '_ {
        let bins = self.shape.bins;
        (0..).zip(&self.cells).flat_map(move |(cell, places)| {
            let ready = (0..).zip(&places.bins).filter(|(_, (state, _))| *state == READY);
            ready.map(move |(at, _)| [cell, at / bins, at % bins])
        })
    }

    /// The Ready bin whose turn it is. The cells up to the last one served come behind the others, and in each cell
    /// the bins up to the one last picked.
    fn turn(&self) -> Option<[u64; 3]> {
        self.ready().min_by_key(|&[cell, bank, bin]| {
            let picked = self.cells[cell as usize].picked;
            (Some(cell) <= self.served, cell, Some((bank, bin)) <= picked, bank, bin)
        })
    }

    fn pick(&mut self) -> Reply {
        let [cell, bank, bin] = self.turn().expect("a Ready bin");
        self.served = Some(cell);
        self.cells[cell as usize].picked = Some((bank, bin));
        self.emit(cell, bank, bin)
    }

    /// A frame of this kind, with the numbers of the place's set and its stamp.
    fn frame(&self, kind: u32, [cell, bank, bin]: [u64; 3], place: &Place) -> Reply {
        let row = self.numbers(cell as usize, &place.set);
        Reply::Frame(frame::of_place(kind, &self.shape, [cell, bank, bin], place.stamp, &row))
    }

    fn reading(&self, cell: u64, lag: usize, loss: usize) -> Reply {
        let row = self.numbers(cell as usize, &self.cells[cell as usize].losses[loss - 1]);
        let [ticks, edge, centre] = [row.ticks, row.edge, row.centre].map(|count| count as i64);
        Reply::Sums([row.sums[2 * lag], row.sums[2 * lag + 1], ticks, edge, centre])
    }

    /// The counts of a set of a cell's ticks.
    fn counts(&self, cell: usize, set: &Set) -> Counts {
        let row = self.numbers(cell, set);
        [row.ticks, row.edge, row.centre]
    }

    /// The totals are those of all that a cell has lost, as one set, from cell to cell.
    fn page(&self) -> Reply {
        let (mut lines, mut totals) = (Vec::new(), Counts::default());
        for (c, cell) in self.cells.iter().enumerate() {
            lines.push(std::array::from_fn(|i| self.counts(c, &cell.losses[i])));
            let mut lost = Set::default();
            cell.losses.iter().for_each(|set| lost.join(set.clone()));
            let counts = self.counts(c, &lost);
            totals.iter_mut().zip(counts).for_each(|(total, count)| *total += count);
        }
        Reply::Page(page::placed(&lines, totals))
    }

    /// The byte of a cell's X, stream 0, or Y, stream 1, so many ticks before tick t, if the run had begun; and whether
    /// its sample is valid.
    fn sampled(&self, cell: usize, stream: usize, t: u64, ago: u64) -> Option<(u8, bool)> {
        let bytes = &self.ticks[t.checked_sub(ago)? as usize][3 * cell..];
        Some((bytes[stream], bytes[2] >> stream & 1 == 1))
    }

    /// The product of lag k at tick t with what it adds to I and Q; none where it is not valid.
    fn product(&self, cell: usize, t: u64, k: u64) -> Option<[i64; 2]> {
        let (x, x_valid) = self.sampled(cell, 0, t, k.div_ceil(2))?;
        let (y, y_valid) = self.sampled(cell, 1, t, self.shape.lags / 2 - k / 2)?;
        if !(x_valid && y_valid) {
            return None;
        }
        let sample = |byte: u8| i64::from(((byte << 4) as i8) >> 4);
        let product = sample(x) * sample(y);
        Some(weights(i32::from(x >> 4) - i32::from(y >> 4)).map(|weight| product * weight))
    }

    fn numbers(&self, cell: usize, set: &Set) -> Row {
        let mut row = Row::empty(self.shape.lags);
        row.ticks = set.members();
        for t in set.0.iter().cloned().flatten() {
            for k in 0..self.shape.lags {
                let Some([i, q]) = self.product(cell, t, k) else {
                    continue;
                };
                row.sums[2 * k as usize] += i;
                row.sums[2 * k as usize + 1] += q;
                row.edge += u64::from(k == 0);
                row.centre += u64::from(k == self.shape.lags / 2);
            }
        }
        row
    }

    fn register(&self, cell: usize, stream: usize) -> Vec<u64> {
        let last = |ago: u64| {
            let (byte, valid) = self.sampled(cell, stream, self.t().checked_sub(1)?, ago)?;
            Some(u64::from(byte) + 256 * u64::from(valid))
        };
        (0..=self.shape.lags / 2).map(|ago| last(ago).unwrap_or(signed::INVALID)).collect()
    }

    /// The run that has the numbers of the machine's sets.
    pub fn summed(&self) -> signed::Run {
        let cells = self.cells.iter().enumerate().map(|(c, cell)| {
            let bin = |(state, place): &(u64, Place)| signed::Bin {
                state: *state,
                stamp: place.stamp,
                row: self.numbers(c, &place.set),
            };
            let ready = cell.bins.iter().filter(|(state, _)| *state == READY).count();
            let bins = self.shape.bins;
            signed::Cell {
                block: cell.block,
                last: cell.last,
                ready: ready as u64,
                picked: cell.picked.map_or(2 * bins - 1, |(bank, bin)| bank * bins + bin),
                open_stamp: cell.open.stamp,
                open: self.numbers(c, &cell.open.set),
                held: self.summed_held(c),
                losses: std::array::from_fn(|i| self.numbers(c, &cell.losses[i])),
                x: self.register(c, 0),
                y: self.register(c, 1),
                bins: cell.bins.iter().map(bin).collect(),
            }
        });
        let served = self.served.unwrap_or(self.shape.cells - 1);
        signed::Run { shape: self.shape, t: self.t(), served, cells: cells.collect() }
    }

    fn summed_held(&self, c: usize) -> signed::Held {
        let cell = &self.cells[c];
        signed::Held {
            occupied: u64::from(cell.occupied),
            command: cell.label.command,
            bank: cell.label.bank,
            bin: cell.label.bin,
            stamp: cell.held.stamp,
            row: self.numbers(c, &cell.held.set),
        }
    }
}
