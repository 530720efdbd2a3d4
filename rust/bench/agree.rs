//! Both engines get the same calls and must give the same answers, before anything is timed.
use std::fmt::Debug;

use lta::{Command, Shape};

use crate::engine::{Engine, Peer, Proved};
use crate::peer::frame::{length, ACCUMULATOR, SPEED};
use crate::samples::Noise;

const CALLS: u64 = 20_000;

/// The numbers of a shape at their limits and past them.
const LIMITS: [u64; 14] =
    [0, 1, 3, 16, 17, 130, 255, 256, 257, 1001, 256_000_001, 2_147_483_647, 2_147_483_648, u64::MAX];

/// Two engines side by side.
struct Pair {
    shape: Shape,
    proved: Proved,
    peer: Peer,
    noise: Noise,
    calls: u64,
}

fn same<T: PartialEq + Debug>(what: &str, proved: T, peer: T) {
    assert_eq!(proved, peer, "{what}: the proved engine and the peer");
}

/// Makes the last word the sum of those before it.
fn mend(frame: &mut [u8]) {
    let (body, last) = frame.split_at_mut(frame.len() - 4);
    let word = |part: &[u8]| u32::from_le_bytes([part[0], part[1], part[2], part[3]]);
    let sum = body[2..].chunks_exact(4).map(word).fold(0, u32::wrapping_add);
    last.copy_from_slice(&sum.to_le_bytes());
}

impl Pair {
    fn new(shape: Shape, seed: u64) -> Pair {
        Pair { shape, proved: Proved::new(shape), peer: Peer::new(shape), noise: Noise::new(seed), calls: 0 }
    }

    /// A tick, at times with a byte too few, and at times with another bit in a validity byte.
    fn tick(&mut self) {
        let noise = &mut self.noise;
        let mut samples = noise.samples(self.shape.cells);
        if noise.below(50) == 0 {
            let cell = noise.below(self.shape.cells) as usize;
            samples[3 * cell + 2] |= 4 << noise.below(6);
        }
        if noise.below(50) == 0 {
            samples.pop();
        }
        same("tick", self.proved.tick(&samples), self.peer.tick(&samples));
    }

    fn emit(&mut self, cell: u64, bank: u64, bin: u64) {
        let length = self.shape.frame_length() - self.noise.below(8).saturating_sub(6) as usize;
        let (mut one, mut other) = (vec![0; length], vec![0; length]);
        let emitted = self.proved.emit(cell, bank, bin, &mut one);
        same("emit", emitted, self.peer.emit(cell, bank, bin, &mut other));
        same("frame", &one, &other);
        if emitted.is_ok() {
            self.frame(&mut one);
        }
    }

    fn pick(&mut self) {
        let length = self.shape.frame_length() - self.noise.below(8).saturating_sub(6) as usize;
        let (mut one, mut other) = (vec![0; length], vec![0; length]);
        let picked = self.proved.pick(&mut one);
        same("pick", picked, self.peer.pick(&mut other));
        same("picked frame", &one, &other);
        if picked.is_ok() {
            self.frame(&mut one);
        }
    }

    /// A dump with a buffer that is as long as a speed frame, or at times one byte shorter.
    fn dump(&mut self, cell: u64, command: u64, bank: u64, phase: u64) {
        let length = length(SPEED, self.shape.lags) - self.noise.below(8).saturating_sub(6) as usize;
        let (mut one, mut other) = (vec![0; length], vec![0; length]);
        let dumped = self.proved.dump(cell, command, bank, phase, &mut one);
        same("dump", dumped, self.peer.dump(cell, command, bank, phase, &mut other));
        same("speed frame", &one, &other);
        if command == Command::Speed as u64 && dumped.is_ok() {
            self.frame(&mut one);
        }
    }

    /// A page in a buffer with room for two bytes more, or at times for one more, none more or one less.
    fn page(&mut self) {
        let length = self.shape.page_length() + 2 - self.noise.below(16).saturating_sub(12) as usize;
        let (mut one, mut other) = (vec![b'.'; length], vec![b'.'; length]);
        same("page", self.proved.page(&mut one), self.peer.page(&mut other));
        same("lines", String::from_utf8_lossy(&one), String::from_utf8_lossy(&other));
    }

    /// The frame calls, on a frame as it is or with one bit changed, the last word then mended or not.
    fn frame(&mut self, bytes: &mut [u8]) {
        if self.noise.below(2) == 0 {
            bytes[self.noise.below(bytes.len() as u64) as usize] ^= 1 << self.noise.below(8);
        }
        if self.noise.below(2) == 0 {
            mend(bytes);
        }
        let lags = self.shape.lags;
        let fields = Proved::read_frame(lags, bytes);
        same("read", fields, Peer::read_frame(lags, bytes));
        if let Ok(mut fields) = fields {
            fields.bin += 999 * u32::from(self.noise.below(4) == 0);
            let kinds = [fields.kind, fields.kind, ACCUMULATOR, SPEED, SPEED + 1];
            fields.kind = kinds[self.noise.below(5) as usize];
            let number = |part: &[u8]| i32::from_le_bytes([part[0], part[1], part[2], part[3]]);
            let end = bytes.len() - 4;
            let pairs = &bytes[end - 8 * lags as usize..end];
            let numbers: Vec<i32> = pairs.chunks_exact(4).map(number).collect();
            let (mut one, mut other) = (vec![0; bytes.len()], vec![0; bytes.len()]);
            let proved = Proved::write_frame(lags, &fields, &numbers, &mut one);
            same("write", proved, Peer::write_frame(lags, &fields, &numbers, &mut other));
            same("written", one, other);
        }
    }

    fn call(&mut self) {
        self.calls += 1;
        let s = self.shape;
        let noise = &mut self.noise;
        let (kind, cell, bank) = (noise.below(18), noise.near(s.cells), noise.near(2));
        let (command, phase) = (noise.below(9), noise.near((s.bins / s.blocks).min(2)));
        let (offset, lag, loss) = (noise.near(s.blocks), noise.near(s.lags), noise.near(7));
        match kind {
            0..=7 => self.tick(),
            8..=10 => self.dump(cell, command, bank, phase),
            11..=12 => same("integrate", self.proved.integrate(cell), self.peer.integrate(cell)),
            13 => self.emit(cell, bank, phase * s.blocks + offset),
            14 => same("reading", self.proved.reading(cell, lag, loss), self.peer.reading(cell, lag, loss)),
            15 => same("forecast", self.proved.forecast(cell), self.peer.forecast(cell)),
            16 => self.pick(),
            _ => self.page(),
        }
    }

    /// A pick, which tests the most, and some calls with a word of both altered; then all is as it was.
    fn with_word(&mut self, at: usize, word: u64) {
        let before = (self.proved.clone(), self.peer.clone());
        self.proved.set_word(at, word);
        self.peer.set_word(at, word);
        self.calls += 1;
        self.pick();
        for _ in 0..8 {
            self.call();
        }
        (self.proved, self.peer) = before;
    }

    /// Calls that name another shape, each number of it changed in turn.
    fn reshape(&mut self) {
        let right = self.shape;
        for word in LIMITS {
            let shapes = [
                Shape { cells: word, ..right },
                Shape { lags: word, ..right },
                Shape { bins: word, ..right },
                Shape { blocks: word, ..right },
                Shape { start: word, ..right },
                Shape { rate: word, ..right },
                Shape { second: word, ..right },
            ];
            for shape in shapes {
                self.proved.pretend(shape);
                self.peer.pretend(shape);
                for _ in 0..8 {
                    self.call();
                }
            }
        }
        self.proved.pretend(right);
        self.peer.pretend(right);
    }

    /// Time, places, flags, labels, stamps, blocks, last commands, states, numbers of Ready bins and counts mean the
    /// same in both; ticks and register entries do where they pass their limit.
    fn alter(&mut self) {
        let lags = self.shape.lags as usize;
        let row = 3 + 2 * lags;
        let registers = 11 + 8 * row;
        let last_word = self.proved.memory_bytes() / 8 - 1;
        let last_bin = last_word - (2 + row);
        let rows: Vec<usize> = (0..8).map(|number| 11 + number * row).chain([last_bin + 2]).collect();
        for word in [0, 1, 2, 3, 4, 5, 524_289, 2_147_483_648, 2_147_483_649, u64::MAX] {
            for at in (0..11).chain([registers + lags + 2, last_bin, last_bin + 1, last_word]) {
                self.with_word(at, word);
            }
            for &ticks_at in &rows {
                self.with_word(ticks_at + 1, word);
                self.with_word(ticks_at + 2, word);
                self.with_word(ticks_at, word.max(2_147_483_649));
            }
            for entry in [0, lags / 2, lags + 1] {
                self.with_word(registers + entry, word.max(512));
            }
        }
    }

    /// Pages of a fresh run whose six losses are set to as many ticks as a run takes, one of them with the most; in
    /// every fourth page the last cell has one tick too many.
    fn full_losses(&mut self) {
        let shape = self.shape;
        for turn in 0..60 {
            for cell in 0..shape.cells {
                let mut rest = 2_147_483_648 + u64::from(turn % 4 == 3 && cell + 1 == shape.cells);
                for loss in 1..=6 {
                    let ticks = if loss == 6 { rest } else { self.noise.below(1 << (turn % 29)) };
                    rest -= ticks;
                    let counts = [ticks, self.noise.below(ticks + 1), self.noise.below(ticks + 1)];
                    self.proved.set_loss(&shape, cell, loss, counts);
                    self.peer.set_loss(&shape, cell, loss, counts);
                }
            }
            self.calls += 1;
            self.page();
        }
    }
}

/// Lists of calls over several shapes, calls on altered memory and calls with other shapes, pages of full losses;
/// answers how many calls.
pub fn check() -> u64 {
    let shapes = [(1, 2, 1, 1), (2, 4, 3, 1), (3, 16, 8, 4), (4, 32, 5, 2), (16, 128, 2, 1)];
    let mut calls = 0;
    for (seed, (cells, lags, bins, blocks)) in (1..).zip(shapes) {
        let shape = Shape { cells, lags, bins, blocks, start: 5, rate: 1000, second: 9 };
        let mut pair = Pair::new(shape, seed);
        for _ in 0..CALLS {
            pair.call();
        }
        pair.alter();
        pair.reshape();
        let mut fresh = Pair::new(shape, seed);
        fresh.full_losses();
        calls += pair.calls + fresh.calls;
    }
    calls
}
