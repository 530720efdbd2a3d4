//! What a dump orders, where a set goes, and what a loss has taken.
use crate::Frame;

/// The command of a dump. What it does to the cell's block stands with [`Run::dump`](crate::Run::dump).
///
/// ```
/// assert_eq!(lta::Command::Last as u64, 0b010);
/// ```
#[derive(Clone, Copy, Debug, PartialEq, Eq, Hash)]
#[repr(u64)]
pub enum Command {
    /// 000: hold what is open, to replace what its bin has.
    Save = 0,
    /// 001: hold what is open, to join its bin.
    Add = 1,
    /// 010: hold what is open, to join its bin and make it Ready.
    Last = 2,
    /// 011: what is open leaves as a speed frame.
    Speed = 3,
    /// 100: what is open goes to loss 1.
    Discard = 4,
    /// 111: nothing.
    Idle = 7,
}

/// The losses of a cell, 1 to 6.
///
/// ```
/// use lta::Loss;
///
/// assert_eq!(Loss::ALL.map(Loss::number), [1, 2, 3, 4, 5, 6]);
/// ```
#[derive(Clone, Copy, Debug, PartialEq, Eq, Hash)]
#[repr(u32)]
pub enum Loss {
    /// Discarded by command 100.
    Ordered = 1,
    /// Dumped by command 000, 001 or 010 while Held was occupied.
    Overrun = 2,
    /// Integrated into a Ready bin.
    Full = 3,
    /// Replaced in its bin by command 000.
    Replaced = 4,
    /// Too wide a joint set: above 16,777,215 ticks.
    Wide = 5,
    /// Ticks that came while Open was full.
    Holdoff = 6,
}

impl Loss {
    /// Every loss, in the order 1 to 6.
    pub const ALL: [Loss; 6] =
        [Loss::Ordered, Loss::Overrun, Loss::Full, Loss::Replaced, Loss::Wide, Loss::Holdoff];

    /// The loss's number, 1 to 6.
    pub fn number(self) -> u32 {
        self as u32
    }
}

/// What a dump or an integration did.
///
/// ```
/// # use lta::{Command, Loss, Moved, Run, Shape};
/// # let shape = Shape { cells: 1, lags: 2, bins: 1, blocks: 1, start: 0, rate: 4, second: 0 };
/// # let mut run = Run::new(shape)?;
/// match run.dump(0, Command::Discard, 0, 0)? {
///     Moved::Lost(loss) => assert_eq!(loss, Loss::Ordered),
///     Moved::Kept | Moved::Sent(_) | Moved::Idle => unreachable!(),
/// }
/// # Ok::<(), lta::Refusal>(())
/// ```
#[derive(Clone, Debug, PartialEq, Eq)]
pub enum Moved {
    /// The set is kept.
    Kept,
    /// A set went to a loss: that of Open or Held, or with [`Loss::Replaced`] the old set of the bin.
    Lost(Loss),
    /// Command 011: what was open is the set of this speed frame.
    Sent(Frame<'static>),
    /// Command 111: nothing was to do.
    Idle,
}

impl Moved {
    pub(crate) fn from_answer(answer: u32) -> Moved {
        match answer {
            0 => Moved::Kept,
            7 => Moved::Idle,
            number => Moved::Lost(Loss::ALL[number as usize - 1]),
        }
    }
}

/// The numbers of one loss at one lag.
#[derive(Clone, Copy, Debug, Default, PartialEq, Eq, Hash)]
pub struct Sums {
    /// The I sum.
    pub i: i64,
    /// The Q sum.
    pub q: i64,
    /// The ticks that the loss has taken.
    pub ticks: u64,
    /// Of those, the ticks whose product is valid at lag 0.
    pub edge: u64,
    /// Of those, the ticks whose product is valid at lag N/2.
    pub centre: u64,
}
