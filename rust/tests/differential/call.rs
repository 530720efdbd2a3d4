//! The calls on a run and their replies.
use crate::frame;

/// The seven numbers C, N, B, M, S, R and Z.
#[derive(Clone, Copy, Debug, PartialEq, Eq)]
pub struct Shape {
    pub cells: u64,
    pub lags: u64,
    pub bins: u64,
    pub blocks: u64,
    pub start: u64,
    pub rate: u64,
    pub second: u64,
}

impl Shape {
    pub fn numbers(&self) -> [u64; 7] {
        [self.cells, self.lags, self.bins, self.blocks, self.start, self.rate, self.second]
    }

    /// The bytes of the frame of a bin.
    pub fn frame_length(&self) -> usize {
        frame::length(frame::ACCUMULATOR, self.lags)
    }

    /// The bytes of the frame of a speed dump.
    pub fn speed_length(&self) -> usize {
        frame::length(frame::SPEED, self.lags)
    }

    pub fn page_length(&self) -> usize {
        41 * (6 * self.cells as usize + 1)
    }

    /// The data bin of a phase bin that fits and of one of its blocks.
    pub fn data_bin(&self, phase: u64, block: u64) -> u64 {
        phase * self.blocks + (block - self.start)
    }
}

/// A call with its arguments; room is the length of the buffer that is lent with it, or of the two buffers.
#[derive(Clone, Debug)]
pub enum Call {
    Tick { samples: Vec<u8> },
    Dump { cell: u64, command: u64, bank: u64, phase: u64, room: usize },
    Integrate { cell: u64 },
    Emit { cell: u64, bank: u64, bin: u64, room: usize },
    Pick { room: usize },
    Reading { cell: u64, lag: u64, loss: u64, room: [usize; 2] },
    Forecast { cell: u64 },
    Page { room: usize },
}

#[derive(Clone, Debug, PartialEq, Eq)]
pub enum Reply {
    Refused(u32),
    Number(u64),
    Frame(Vec<u8>),
    Sums([i64; 5]),
    Page(Vec<u8>),
}
