//! Random shapes and random calls: most of them accepted, some refused for each reason that a call has.
use crate::call::{Call, Shape};
use crate::random::Random;
use crate::signed::Run;

/// A shape within its limits; often at one of them.
pub fn shape(random: &mut Random) -> Shape {
    let cells = random.within(1, 16);
    let half = random.within(1, 64);
    let bins = random.within(1, 24);
    let shape = Shape {
        cells: random.pick(&[1, 1, 2, 3, 16, cells]),
        lags: random.pick(&[2, 4, 6, 32, 128, 2 * half]),
        bins: random.pick(&[1, 2, 7, bins]),
        blocks: 1,
        start: 0,
        rate: 1,
        second: 0,
    };
    let many = random.once_in(100);
    let shape = Shape { bins: if many { 1000 } else { shape.bins }, ..shape };
    let shape = if random.once_in(20) { with_room(random, shape) } else { shape };
    let shape = with_blocks(random, shape);
    with_times(random, shape)
}

/// A shape of few cells and bins, and mostly of few lags, whose words are altered and sums worked out one by one.
pub fn small_shape(random: &mut Random) -> Shape {
    let most = if random.once_in(8) { 64 } else { 5 };
    let shape = Shape {
        cells: random.within(1, 3),
        lags: 2 * random.within(1, most),
        bins: random.within(1, 4),
        blocks: 1,
        start: 0,
        rate: 1,
        second: 0,
    };
    let shape = with_blocks(random, shape);
    with_times(random, shape)
}

/// Room for 256 blocks in one small cell, whose dumps are so many in a list that they can get round all blocks.
fn with_room(random: &mut Random, shape: Shape) -> Shape {
    let bins = random.within(256, 1000);
    Shape { cells: 1, lags: 2, bins: random.pick(&[256, 1000, bins]), ..shape }
}

/// Blocks of which at least one phase bin fits, often as many as do, but for one shape in 20.
fn with_blocks(random: &mut Random, shape: Shape) -> Shape {
    let most = shape.bins.min(256);
    let fits = random.within(1, most);
    let any = random.within(1, 256);
    let blocks = if random.once_in(20) { any } else { random.pick(&[1, fits, fits, most]) };
    let start = random.within(0, 256 - blocks);
    Shape { blocks, start: random.pick(&[0, 256 - blocks, start]), ..shape }
}

fn with_times(random: &mut Random, shape: Shape) -> Shape {
    let rate = random.within(1, 256_000_000);
    let second = random.within(0, 2_147_483_647);
    Shape {
        rate: random.pick(&[1, 7, 1000, 256_000_000, rate]),
        second: random.pick(&[0, 2_147_483_647, second]),
        ..shape
    }
}

/// Which sampler bytes a list has.
#[derive(Clone, Copy)]
enum Sky {
    Any,
    /// Samples of -8 and 7 in phases that give the greatest weights, all valid.
    Loud,
    /// Mostly invalid samples.
    Broken,
}

/// The usual commands of a list, and once in how many dumps there is any other.
#[derive(Clone, Copy)]
struct Commands {
    usual: [u64; 9],
    other: u64,
}

const MIXED: Commands = Commands { usual: [0, 1, 1, 2, 2, 2, 3, 4, 7], other: 20 };
/// 000, 001 and 011 alone, or 010 alone, move a block on and on, all the way round.
const ADDS: Commands = Commands { usual: [0, 1, 1, 1, 1, 1, 1, 3, 7], other: 200 };
const LASTS: Commands = Commands { usual: [2, 2, 2, 2, 2, 2, 2, 2, 7], other: 200 };
const SPEEDS: Commands = Commands { usual: [1, 3, 3, 3, 3, 3, 3, 3, 7], other: 200 };

pub struct Generator {
    pub random: Random,
    pub shape: Shape,
    sky: Sky,
    commands: Commands,
    /// A pick is made once in so many turns of one: where picks are rare, Ready bins gather.
    rare: u64,
}

impl Generator {
    pub fn new(mut random: Random, shape: Shape) -> Generator {
        let sky = random.pick(&[Sky::Any, Sky::Any, Sky::Loud, Sky::Broken]);
        let commands = random.pick(&[MIXED, MIXED, MIXED, ADDS, LASTS, SPEEDS]);
        let rare = random.pick(&[1, 1, 4, 16]);
        Generator { random, shape, sky, commands, rare }
    }

    /// X, Y and validity byte of one cell.
    fn sampled(&mut self) -> [u8; 3] {
        let [x, y] = [0, 1].map(|_| match self.sky {
            Sky::Loud => self.random.pick(&[0x08, 0x18, 0x88, 0x07]),
            Sky::Any | Sky::Broken => self.random.byte(),
        });
        let any = self.random.below(4) as u8;
        let validity = match self.sky {
            Sky::Any => self.random.pick(&[0b11, 0b11, any]),
            Sky::Loud => 0b11,
            Sky::Broken => self.random.pick(&[0, 0, 0, any]),
        };
        [x, y, validity]
    }

    /// The bytes of a tick, one time in 40 too few or too many, and one time in 40 with another bit in a validity byte.
    fn samples(&mut self) -> Vec<u8> {
        let mut samples: Vec<u8> = (0..self.shape.cells).flat_map(|_| self.sampled()).collect();
        if self.random.once_in(40) {
            let cell = self.random.below(self.shape.cells) as usize;
            let (lone, any) = (1 << self.random.within(2, 7), self.random.byte());
            samples[3 * cell + 2] = self.random.pick(&[lone, lone | 0b11, any | 0b100]);
        }
        if self.random.once_in(40) {
            let right = samples.len();
            let any = self.random.byte();
            samples.resize(self.random.pick(&[0, 1, 2 * right / 3, right - 1, right + 1, right + 3]), any);
        }
        samples
    }

    /// A number below the limit, or one time in 40 one that is not.
    fn argument(&mut self, limit: u64) -> u64 {
        if self.random.once_in(40) {
            let far = self.random.extreme();
            return self.random.pick(&[limit, limit + 1, far]);
        }
        self.random.below(limit)
    }

    fn dump(&mut self) -> Call {
        let Shape { bins, blocks, .. } = self.shape;
        let cell = self.argument(self.shape.cells);
        let usual = self.random.pick(&self.commands.usual);
        let other = self.random.below(10);
        let command = if self.random.once_in(self.commands.other) { other } else { usual };
        let bank = self.argument(2);
        let phases = (bins / blocks).max(1);
        let few = phases.min(3);
        let phase = if self.random.once_in(3) { self.argument(phases) } else { self.random.below(few) };
        let room = self.room(self.shape.speed_length());
        Call::Dump { cell, command, bank, phase, room }
    }

    /// Mostly of the bin that the label of a cell's Held names: where it went last is likely to be Ready.
    fn emit(&mut self, run: &Run) -> Call {
        let mut cell = self.random.below(self.shape.cells);
        let label = &run.cell(cell).held;
        let (mut bank, mut bin) = (label.bank, label.bin);
        if self.random.once_in(8) {
            cell = self.argument(self.shape.cells);
            bank = self.argument(2);
            bin = self.argument(self.shape.bins);
        }
        let room = self.room(self.shape.frame_length());
        Call::Emit { cell, bank, bin, room }
    }

    fn pick(&mut self) -> Call {
        Call::Pick { room: self.room(self.shape.frame_length()) }
    }

    /// A buffer for so many bytes, or one time in six one of another length.
    fn room(&mut self, length: usize) -> usize {
        let any = self.random.below(2 * length as u64) as usize;
        if self.random.once_in(6) {
            self.random.pick(&[0, 1, length - 1, length + 1, length + 100, any])
        } else {
            length
        }
    }

    fn reading(&mut self) -> Call {
        let cell = self.argument(self.shape.cells);
        let lag = self.argument(self.shape.lags);
        let loss = self.argument(6).wrapping_add(1);
        let loss = if self.random.once_in(40) { 0 } else { loss };
        let room = if self.random.once_in(20) {
            self.random.pick(&[[0, 3], [1, 3], [2, 2], [3, 4]])
        } else {
            [2, 3]
        };
        Call::Reading { cell, lag, loss, room }
    }

    /// One call on this run, a tick in about half of the cases.
    pub fn call(&mut self, run: &Run) -> Call {
        match self.random.below(35) {
            0..=15 => Call::Tick { samples: self.samples() },
            16..=21 => self.dump(),
            22..=26 => Call::Integrate { cell: self.argument(self.shape.cells) },
            27..=28 => self.emit(run),
            29..=30 => self.reading(),
            31 => Call::Forecast { cell: self.argument(self.shape.cells) },
            32..=33 if self.random.once_in(self.rare) => self.pick(),
            32..=33 => self.dump(),
            _ => Call::Page { room: self.room(self.shape.page_length()) },
        }
    }

    /// Seven numbers and a length of work memory of which refusal 1 or 2 is given.
    pub fn wrong_host(&mut self, words: usize) -> (Vec<u64>, usize) {
        let mut numbers = self.shape.numbers().to_vec();
        if self.random.once_in(2) {
            return (numbers, self.random.pick(&[0, 1, words - 1, words + 1]));
        }
        let most = [17, 130, 1001, 257, 257, 256_000_001, 2_147_483_648];
        let at = self.random.below(7) as usize;
        let far = self.random.extreme() | 1 << 31;
        match self.random.below(4) {
            0 => numbers.truncate(at),
            1 => numbers.push(0),
            2 => numbers[1] |= 1,
            _ => numbers[at] = self.random.pick(&[most[at], far]),
        }
        let length = self.random.pick(&[words, words, 0, words + 1]);
        (numbers, length)
    }
}
