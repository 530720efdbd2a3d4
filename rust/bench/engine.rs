//! One interface to both engines, so that one text drives and times them.
use lta::{ffi, Command, Fields, Refusal, Shape, Sums};

use crate::peer;

pub trait Engine: Sized {
    const NAME: &'static str;
    fn new(shape: Shape) -> Self;
    fn tick(&mut self, samples: &[u8]) -> Result<u32, Refusal>;
    fn dump(
        &mut self,
        cell: u64,
        command: u64,
        bank: u64,
        phase: u64,
        out: &mut [u8],
    ) -> Result<u32, Refusal>;
    fn integrate(&mut self, cell: u64) -> Result<u32, Refusal>;
    fn emit(&mut self, cell: u64, bank: u64, bin: u64, out: &mut [u8]) -> Result<usize, Refusal>;
    fn pick(&mut self, out: &mut [u8]) -> Result<usize, Refusal>;
    fn reading(&self, cell: u64, lag: u64, loss: u64) -> Result<Sums, Refusal>;
    fn forecast(&self, cell: u64) -> Result<u32, Refusal>;
    fn page(&self, out: &mut [u8]) -> Result<usize, Refusal>;
    /// The shape that the calls name from now on, on the same memory.
    fn pretend(&mut self, shape: Shape);
    /// Writes in work memory as somebody else would.
    fn set_word(&mut self, at: usize, word: u64);
    fn memory_bytes(&self) -> usize;
    fn read_frame(lags: u64, bytes: &[u8]) -> Result<Fields, Refusal>;
    fn write_frame(lags: u64, fields: &Fields, numbers: &[i32], out: &mut [u8]) -> Result<usize, Refusal>;

    fn discard(&mut self, shape: &Shape) {
        for cell in 0..shape.cells {
            self.dump(cell, Command::Discard as u64, 0, 0, &mut []).expect("a discard");
        }
    }

    /// Writes ticks, edge and centre count of a loss, 1 to 6, as somebody else would. A stored sum of 0 is within its
    /// limits beside any ticks, and stands for another sum in each engine.
    fn set_loss(&mut self, shape: &Shape, cell: u64, loss: u64, counts: [u64; 3]) {
        let (cells, row) = (shape.cells as usize, 3 + 2 * shape.lags as usize);
        let cell_words = (self.memory_bytes() / 8 - 2) / cells;
        let at = 11 + cell as usize * cell_words + (1 + loss as usize) * row;
        for (place, count) in (at..).zip(counts) {
            self.set_word(place, count);
        }
    }
}

/// The proved engine, by its C interface.
#[derive(Clone)]
pub struct Proved {
    shape: [u64; 7],
    words: Vec<u64>,
}

impl Engine for Proved {
    const NAME: &'static str = "proved";

    fn new(shape: Shape) -> Proved {
        let mut words = vec![0; shape.words_needed().expect("a shape")];
        let shape = shape.numbers();
        ffi::outcome(ffi::setup(&shape, &mut words)).expect("setup");
        Proved { shape, words }
    }

    fn tick(&mut self, samples: &[u8]) -> Result<u32, Refusal> {
        ffi::outcome(ffi::tick(&self.shape, &mut self.words, samples))
    }

    fn dump(
        &mut self,
        cell: u64,
        command: u64,
        bank: u64,
        phase: u64,
        out: &mut [u8],
    ) -> Result<u32, Refusal> {
        ffi::outcome(ffi::dump(&self.shape, &mut self.words, cell, command, bank, phase, out))
    }

    fn integrate(&mut self, cell: u64) -> Result<u32, Refusal> {
        ffi::outcome(ffi::integrate(&self.shape, &mut self.words, cell))
    }

    fn emit(&mut self, cell: u64, bank: u64, bin: u64, out: &mut [u8]) -> Result<usize, Refusal> {
        let result = ffi::emit(&self.shape, &mut self.words, cell, bank, bin, out);
        ffi::outcome(result).map(|length| length as usize)
    }

    fn pick(&mut self, out: &mut [u8]) -> Result<usize, Refusal> {
        ffi::outcome(ffi::pick(&self.shape, &mut self.words, out)).map(|length| length as usize)
    }

    fn reading(&self, cell: u64, lag: u64, loss: u64) -> Result<Sums, Refusal> {
        let (mut sums, mut counts) = ([0; 2], [0; 3]);
        let result = ffi::reading(&self.shape, &self.words, cell, lag, loss, &mut sums, &mut counts);
        ffi::outcome(result)?;
        let ([i, q], [ticks, edge, centre]) = (sums, counts);
        Ok(Sums { i, q, ticks, edge, centre })
    }

    fn forecast(&self, cell: u64) -> Result<u32, Refusal> {
        ffi::outcome(ffi::forecast(&self.shape, &self.words, cell))
    }

    fn page(&self, out: &mut [u8]) -> Result<usize, Refusal> {
        ffi::outcome(ffi::page(&self.shape, &self.words, out)).map(|length| length as usize)
    }

    fn pretend(&mut self, shape: Shape) {
        self.shape = shape.numbers();
    }

    fn set_word(&mut self, at: usize, word: u64) {
        self.words[at] = word;
    }

    fn memory_bytes(&self) -> usize {
        8 * self.words.len()
    }

    fn read_frame(lags: u64, bytes: &[u8]) -> Result<Fields, Refusal> {
        let mut fields = [0; 10];
        ffi::outcome(ffi::read_frame(lags, bytes, &mut fields))?;
        let [kind, cell, block, bin, bank, ticks, centre, edge, second, offset] = fields;
        Ok(Fields { kind, cell, block, bin, bank, ticks, centre, edge, second, offset })
    }

    fn write_frame(lags: u64, fields: &Fields, numbers: &[i32], out: &mut [u8]) -> Result<usize, Refusal> {
        let result = ffi::write_frame(lags, &fields.numbers(), numbers, out);
        ffi::outcome(result).map(|length| length as usize)
    }
}

/// The peer with the memory that it is lent.
#[derive(Clone)]
pub struct Peer {
    shape: Shape,
    words: Vec<i64>,
}

impl Engine for Peer {
    const NAME: &'static str = "peer";

    fn new(shape: Shape) -> Peer {
        let mut words = vec![0; peer::words_needed(&shape).expect("a shape")];
        peer::setup(&shape, &mut words).expect("setup");
        Peer { shape, words }
    }

    fn tick(&mut self, samples: &[u8]) -> Result<u32, Refusal> {
        peer::tick(&self.shape, &mut self.words, samples)
    }

    fn dump(
        &mut self,
        cell: u64,
        command: u64,
        bank: u64,
        phase: u64,
        out: &mut [u8],
    ) -> Result<u32, Refusal> {
        peer::dump(&self.shape, &mut self.words, cell, command, bank, phase, out)
    }

    fn integrate(&mut self, cell: u64) -> Result<u32, Refusal> {
        peer::integrate(&self.shape, &mut self.words, cell)
    }

    fn emit(&mut self, cell: u64, bank: u64, bin: u64, out: &mut [u8]) -> Result<usize, Refusal> {
        peer::emit(&self.shape, &mut self.words, cell, bank, bin, out)
    }

    fn pick(&mut self, out: &mut [u8]) -> Result<usize, Refusal> {
        peer::pick(&self.shape, &mut self.words, out)
    }

    fn reading(&self, cell: u64, lag: u64, loss: u64) -> Result<Sums, Refusal> {
        peer::reading(&self.shape, &self.words, cell, lag, loss)
    }

    fn forecast(&self, cell: u64) -> Result<u32, Refusal> {
        peer::forecast(&self.shape, &self.words, cell)
    }

    fn page(&self, out: &mut [u8]) -> Result<usize, Refusal> {
        peer::page(&self.shape, &self.words, out)
    }

    fn pretend(&mut self, shape: Shape) {
        self.shape = shape;
    }

    fn set_word(&mut self, at: usize, word: u64) {
        self.words[at] = word as i64;
    }

    fn memory_bytes(&self) -> usize {
        8 * self.words.len()
    }

    fn read_frame(lags: u64, bytes: &[u8]) -> Result<Fields, Refusal> {
        peer::frame::read(lags, bytes)
    }

    fn write_frame(lags: u64, fields: &Fields, numbers: &[i32], out: &mut [u8]) -> Result<usize, Refusal> {
        peer::frame::write(lags, fields, numbers, out)
    }
}
