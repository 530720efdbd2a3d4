//! A run that owns its work memory.
use crate::ffi::{self, outcome};
use crate::{Command, Frame, Loss, Moved, Refusal, Shape, Sums};

/// A run: a shape and the work memory that belongs to it.
///
/// A run is its shape and its words and nothing else. So runs may be sent to other threads and called there at the
/// same time, each by whoever owns it; and since [`words`](Run::words), [`reading`](Run::reading),
/// [`forecast`](Run::forecast) and [`page`](Run::page) only read, threads that share a `&Run` may call them at once.
///
/// ```
/// use lta::{Command, Loss, Moved, Refusal, Run, Shape};
///
/// # fn main() -> Result<(), Refusal> {
/// let shape = Shape { cells: 1, lags: 4, bins: 1, blocks: 1, start: 0, rate: 1000, second: 0 };
/// let mut run = Run::new(shape)?;
/// assert_eq!(run.tick(&[0x07, 0x07, 0b11])?, 0);
/// assert_eq!(run.integrate(0), Err(Refusal::NothingHeld));
/// assert_eq!(run.dump(0, Command::Discard, 0, 0)?, Moved::Lost(Loss::Ordered));
/// assert_eq!(run.reading(0, 2, Loss::Ordered)?.ticks, 1);
/// # Ok(())
/// # }
/// ```
#[derive(Clone, Debug, PartialEq, Eq)]
pub struct Run {
    shape: Shape,
    numbers: [u64; 7],
    words: Vec<u64>,
}

impl Run {
    /// A fresh run: tick number 0, all sets empty, every earlier sample invalid. Refuses 1.
    ///
    /// ```
    /// # use lta::{Refusal, Run, Shape};
    /// let shape = Shape { cells: 17, lags: 2, bins: 1, blocks: 1, start: 0, rate: 4, second: 0 };
    /// assert_eq!(Run::new(shape), Err(Refusal::BadShape));
    /// ```
    pub fn new(shape: Shape) -> Result<Run, Refusal> {
        let numbers = shape.numbers();
        let mut words = vec![0; shape.words_needed()?];
        outcome(ffi::setup(&numbers, &mut words))?;
        Ok(Run { shape, numbers, words })
    }

    /// The run whose words these are, as [`words`](Run::words) gave them: it goes on as if it had never stopped.
    /// Refuses 1, and 2 where the shape needs another number of words. Cleared words are a fresh run.
    ///
    /// Words that have been away, on disc or elsewhere, should come back whole: write them to a new file and rename
    /// it, then there is the old copy or the new one. What they hold is not looked at here. Each call tests the parts
    /// that it works on, as on any run, and refuses 11 where a word of them is out of its limits; a copy that is half
    /// old and half new can be within them and pass.
    ///
    /// ```
    /// # use lta::{Refusal, Run, Shape};
    /// # let shape = Shape { cells: 1, lags: 2, bins: 1, blocks: 1, start: 0, rate: 4, second: 0 };
    /// let mut run = Run::new(shape)?;
    /// run.tick(&[0x02, 0x03, 0b11])?;
    /// let saved = run.words().to_vec();
    /// run.tick(&[0x01, 0x0f, 0b11])?;
    ///
    /// let mut resumed = Run::resume(shape, saved)?;
    /// resumed.tick(&[0x01, 0x0f, 0b11])?;
    /// assert_eq!(resumed, run);
    /// assert_eq!(Run::resume(shape, vec![0; 89]), Err(Refusal::WrongMemory));
    /// # Ok::<(), Refusal>(())
    /// ```
    pub fn resume(shape: Shape, words: Vec<u64>) -> Result<Run, Refusal> {
        if words.len() != shape.words_needed()? {
            return Err(Refusal::WrongMemory);
        }
        Ok(Run { shape, numbers: shape.numbers(), words })
    }

    /// The shape of the run.
    pub fn shape(&self) -> Shape {
        self.shape
    }

    /// The words of work memory, as docs/LAYOUT.md lays them out: all that [`resume`](Run::resume) needs besides the
    /// shape.
    ///
    /// ```
    /// # let shape = lta::Shape { cells: 1, lags: 2, bins: 1, blocks: 1, start: 0, rate: 4, second: 0 };
    /// let mut run = lta::Run::new(shape)?;
    /// run.tick(&[0, 0, 0])?;
    /// assert_eq!((run.words().len(), run.words()[0]), (90, 1));
    /// # Ok::<(), lta::Refusal>(())
    /// ```
    pub fn words(&self) -> &[u64] {
        &self.words
    }

    /// One tick: an X byte, a Y byte and a validity byte for each cell in turn. Gives the number of cells held off.
    /// Refuses 3, 19, 4.
    ///
    /// The low four bits of an X or Y byte are its sample, two's complement, -8 to 7; the high four are its phase. Of
    /// the validity byte bit 0 is set where the X sample is valid, bit 1 where the Y sample is, and no other bit. A
    /// sample whose bit is clear adds nothing, whatever its four bits are.
    ///
    /// ```
    /// # use lta::{Refusal, Run, Shape};
    /// # let shape = Shape { cells: 1, lags: 2, bins: 1, blocks: 1, start: 0, rate: 4, second: 0 };
    /// let mut run = Run::new(shape)?;
    /// assert_eq!(run.tick(&[0x37, 0x08, 0b01]), Ok(0));
    /// assert_eq!(run.tick(&[0x37, 0x08]), Err(Refusal::WrongSamples));
    /// assert_eq!(run.tick(&[0x37, 0x08, 0x80]), Err(Refusal::BadValidity));
    /// # Ok::<(), Refusal>(())
    /// ```
    pub fn tick(&mut self, samples: &[u8]) -> Result<u32, Refusal> {
        outcome(ffi::tick(&self.numbers, &mut self.words, samples))
    }

    /// A dump of one cell, for data bin phase × M + (block - S). Refuses 5, 7.
    ///
    /// The block is the cell's current one after this dump's step. It returns to S on 100, and on a 010 where the
    /// cell's last command before it was 000 or 001; any other command but 111 moves it one on, from S + M - 1 back
    /// to S. A cell's first dump but 111 in a fresh run uses S. A dump that goes to a loss moves the block, and counts
    /// as a last command, like one that is kept; 111 and a refused dump do neither.
    ///
    /// 011 gives what is open as a speed frame of that bin, whether or not Held is occupied, and leaves Held, bins and
    /// losses as they are. For the block it counts as a 001.
    ///
    /// ```
    /// # use lta::{Command, Loss, Moved, Run, Shape};
    /// let shape = Shape { cells: 1, lags: 2, bins: 2, blocks: 2, start: 5, rate: 4, second: 0 };
    /// let mut run = Run::new(shape)?;
    /// for (bin, block) in [(0, 5), (1, 6), (0, 5)] {
    ///     assert_eq!(run.dump(0, Command::Last, 0, 0)?, Moved::Kept);
    ///     run.integrate(0)?;
    ///     assert_eq!(run.emit_frame(0, 0, bin)?.fields().block, block);
    /// }
    /// assert_eq!(run.dump(0, Command::Add, 0, 0)?, Moved::Kept);
    /// assert_eq!(run.dump(0, Command::Add, 0, 0)?, Moved::Lost(Loss::Overrun));
    /// run.tick(&[0x02, 0x03, 0b11])?;
    /// let Moved::Sent(frame) = run.dump(0, Command::Speed, 0, 0)? else { unreachable!() };
    /// assert_eq!((frame.fields().ticks, frame.fields().block), (1, 6));
    /// # Ok::<(), lta::Refusal>(())
    /// ```
    pub fn dump(&mut self, cell: u64, command: Command, bank: u64, phase: u64) -> Result<Moved, Refusal> {
        if command == Command::Speed {
            let mut bytes = vec![0; self.shape.speed_frame_length()];
            self.speed_dump(cell, bank, phase, &mut bytes)?;
            return Frame::from_vec(self.shape.lags, bytes).map(Moved::Sent);
        }
        let result = ffi::dump(&self.numbers, &mut self.words, cell, command as u64, bank, phase, &mut []);
        outcome(result).map(Moved::from_answer)
    }

    /// A dump with [`Command::Speed`], as [`dump`](Run::dump) does it, whose frame goes into the front of `out`; the
    /// other bytes of `out` stay. Gives the frame's length, [`Shape::speed_frame_length`]. Refuses 5, 7, 10.
    ///
    /// ```
    /// # use lta::{Frame, Kind, Refusal, Run, Shape};
    /// # let shape = Shape { cells: 1, lags: 2, bins: 1, blocks: 1, start: 0, rate: 4, second: 0 };
    /// let mut run = Run::new(shape)?;
    /// run.tick(&[0x02, 0x03, 0b11])?;
    /// let mut out = [0; 60];
    /// assert_eq!(run.speed_dump(0, 0, 0, &mut out[..53]), Err(Refusal::ShortBuffer));
    /// assert_eq!(run.speed_dump(0, 0, 0, &mut out), Ok(54));
    /// let frame = Frame::read(2, &out[..54])?;
    /// assert_eq!((frame.kind(), frame.fields().ticks), (Kind::Speed, 1));
    /// # Ok::<(), Refusal>(())
    /// ```
    pub fn speed_dump(&mut self, cell: u64, bank: u64, phase: u64, out: &mut [u8]) -> Result<usize, Refusal> {
        let command = Command::Speed as u64;
        let result = ffi::dump(&self.numbers, &mut self.words, cell, command, bank, phase, out);
        outcome(result).map(|length| length as usize)
    }

    /// An integration of one cell: Held goes to its bin. Refuses 5, 8.
    ///
    /// ```
    /// # use lta::{Command, Moved, Refusal, Run, Shape};
    /// # let shape = Shape { cells: 1, lags: 2, bins: 1, blocks: 1, start: 0, rate: 4, second: 0 };
    /// let mut run = Run::new(shape)?;
    /// run.dump(0, Command::Add, 0, 0)?;
    /// assert_eq!(run.integrate(0), Ok(Moved::Kept));
    /// assert_eq!(run.integrate(0), Err(Refusal::NothingHeld));
    /// # Ok::<(), Refusal>(())
    /// ```
    pub fn integrate(&mut self, cell: u64) -> Result<Moved, Refusal> {
        outcome(ffi::integrate(&self.numbers, &mut self.words, cell)).map(Moved::from_answer)
    }

    /// An emission of a Ready bin into the front of `out`, whose other bytes stay. Gives the frame's length.
    /// Refuses 5, 7, 9, 10.
    ///
    /// ```
    /// # use lta::{Command, Refusal, Run, Shape};
    /// # let shape = Shape { cells: 1, lags: 2, bins: 1, blocks: 1, start: 0, rate: 4, second: 0 };
    /// let mut run = Run::new(shape)?;
    /// run.dump(0, Command::Last, 0, 0)?;
    /// run.integrate(0)?;
    /// let mut out = [0; 60];
    /// assert_eq!(run.emit(0, 0, 0, &mut out[..49]), Err(Refusal::ShortBuffer));
    /// assert_eq!(run.emit(0, 0, 0, &mut out), Ok(50));
    /// assert_eq!(out[..2], *b"LT");
    /// # Ok::<(), Refusal>(())
    /// ```
    pub fn emit(&mut self, cell: u64, bank: u64, bin: u64, out: &mut [u8]) -> Result<usize, Refusal> {
        let result = ffi::emit(&self.numbers, &mut self.words, cell, bank, bin, out);
        outcome(result).map(|length| length as usize)
    }

    /// An emission of a Ready bin as a frame of its own. Refuses 5, 7, 9.
    ///
    /// ```
    /// # use lta::{Command, Refusal, Run, Shape};
    /// # let shape = Shape { cells: 1, lags: 2, bins: 1, blocks: 1, start: 0, rate: 4, second: 0 };
    /// let mut run = Run::new(shape)?;
    /// run.dump(0, Command::Last, 1, 0)?;
    /// run.integrate(0)?;
    /// assert_eq!(run.emit_frame(0, 1, 0)?.fields().bank, 1);
    /// assert_eq!(run.emit_frame(0, 1, 0), Err(Refusal::NotReady));
    /// # Ok::<(), Refusal>(())
    /// ```
    pub fn emit_frame(&mut self, cell: u64, bank: u64, bin: u64) -> Result<Frame<'static>, Refusal> {
        let mut bytes = vec![0; self.shape.frame_length()];
        self.emit(cell, bank, bin, &mut bytes)?;
        Frame::from_vec(self.shape.lags, bytes)
    }

    /// A pick: an emission of the Ready bin whose turn it is, into the front of `out`, whose other bytes stay. Gives
    /// the frame's length. Refuses 20, 10.
    ///
    /// Cells take turns, and so do the bins of a cell. From the cell after the last one served, cell 0 in a fresh run,
    /// and going round, the first cell with a Ready bin is served. Within it the bins of bank 0 and then those of bank
    /// 1 go round, from after the bin last picked in that cell, at first from bank 0, bin 0. The cell last served and
    /// the bin last picked are the last candidates of their rounds, not left out. Only an accepted pick moves these
    /// places: that of the run, and that of the cell it served. An [`emit`](Run::emit), which names its bin, moves
    /// none. So a Ready bin is emitted within C × 2B accepted picks, whatever other calls stand between.
    ///
    /// ```
    /// # use lta::{Command, Refusal, Run, Shape};
    /// # let shape = Shape { cells: 1, lags: 2, bins: 1, blocks: 1, start: 0, rate: 4, second: 0 };
    /// let mut run = Run::new(shape)?;
    /// run.dump(0, Command::Last, 1, 0)?;
    /// run.integrate(0)?;
    /// let mut out = [0; 60];
    /// assert_eq!(run.pick(&mut out[..49]), Err(Refusal::ShortBuffer));
    /// assert_eq!(run.pick(&mut out), Ok(50));
    /// assert_eq!(out[..2], *b"LT");
    /// assert_eq!(run.pick(&mut out), Err(Refusal::NothingReady));
    /// # Ok::<(), Refusal>(())
    /// ```
    pub fn pick(&mut self, out: &mut [u8]) -> Result<usize, Refusal> {
        outcome(ffi::pick(&self.numbers, &mut self.words, out)).map(|length| length as usize)
    }

    /// A [`pick`](Run::pick) as a frame of its own, whose fields tell cell, bank and data bin. Refuses 20.
    ///
    /// A loop that sends all that is Ready:
    ///
    /// ```
    /// # use lta::{Command, Refusal, Run, Shape};
    /// # let shape = Shape { cells: 2, lags: 2, bins: 2, blocks: 1, start: 0, rate: 4, second: 0 };
    /// let mut run = Run::new(shape)?;
    /// for (cell, bank, phase) in [(0, 1, 0), (0, 0, 1), (0, 0, 0), (1, 0, 1)] {
    ///     run.dump(cell, Command::Last, bank, phase)?;
    ///     run.integrate(cell)?;
    /// }
    /// let mut sent = Vec::new();
    /// loop {
    ///     match run.pick_frame() {
    ///         Ok(frame) => sent.push(frame),
    ///         Err(Refusal::NothingReady) => break,
    ///         Err(refusal) => return Err(refusal),
    ///     }
    /// }
    /// let bins: Vec<_> = sent.iter().map(|f| (f.fields().cell, f.fields().bank, f.fields().bin)).collect();
    /// assert_eq!(bins, [(0, 0, 0), (1, 0, 1), (0, 0, 1), (0, 1, 0)]);
    /// # Ok::<(), Refusal>(())
    /// ```
    pub fn pick_frame(&mut self) -> Result<Frame<'static>, Refusal> {
        let mut bytes = vec![0; self.shape.frame_length()];
        self.pick(&mut bytes)?;
        Frame::from_vec(self.shape.lags, bytes)
    }

    /// A reading of one loss of one cell at one lag. It changes nothing. Refuses 5, 12.
    ///
    /// ```
    /// # use lta::{Command, Loss, Refusal, Run, Shape, Sums};
    /// # let shape = Shape { cells: 1, lags: 2, bins: 1, blocks: 1, start: 0, rate: 4, second: 0 };
    /// let mut run = Run::new(shape)?;
    /// run.tick(&[0x02, 0x03, 0b11])?;
    /// run.tick(&[0x01, 0x0f, 0b11])?;
    /// run.dump(0, Command::Discard, 0, 0)?;
    /// let sums = Sums { i: 12, q: 0, ticks: 2, edge: 1, centre: 1 };
    /// assert_eq!(run.reading(0, 1, Loss::Ordered), Ok(sums));
    /// assert_eq!(run.reading(0, 2, Loss::Ordered), Err(Refusal::NoLag));
    /// # Ok::<(), Refusal>(())
    /// ```
    pub fn reading(&self, cell: u64, lag: u64, loss: Loss) -> Result<Sums, Refusal> {
        let (mut sums, mut counts) = ([0; 2], [0; 3]);
        let number = u64::from(loss.number());
        outcome(ffi::reading(&self.numbers, &self.words, cell, lag, number, &mut sums, &mut counts))?;
        let ([i, q], [ticks, edge, centre]) = (sums, counts);
        Ok(Sums { i, q, ticks, edge, centre })
    }

    /// Exactly 524,288 less the ticks of the cell's Open. It changes nothing. Refuses 5.
    ///
    /// A forecast of n holds up to the cell's next accepted dump but 111. Until then the next n accepted ticks join
    /// the cell's Open, and none of them counts the cell among those held off. Each accepted tick after them does, and
    /// goes to [`Loss::Holdoff`]. Refused calls make no difference, nor do calls on other cells, nor the cell's own
    /// integrations, emissions, readings, forecasts and 111, nor picks and pages. The end of the run is not taken into
    /// account: where it comes first, ticks are refused by 4.
    ///
    /// So no tick is held off where the host dumps when the forecast is 0, or, if it asks only once in so many ticks,
    /// when the forecast is below their number:
    ///
    /// ```
    /// # use lta::{Command, Loss, Refusal, Run, Shape};
    /// # let shape = Shape { cells: 1, lags: 2, bins: 1, blocks: 1, start: 0, rate: 4, second: 0 };
    /// let mut run = Run::new(shape)?;
    /// for _ in 0..2 * 524_288 + 1_000 {
    ///     if run.forecast(0)? == 0 {
    ///         run.dump(0, Command::Add, 0, 0)?;
    ///         run.integrate(0)?;
    ///     }
    ///     assert_eq!(run.tick(&[0x07, 0x07, 0b11])?, 0);
    /// }
    /// assert_eq!(run.forecast(0)?, 524_288 - 1_000);
    /// assert_eq!(run.reading(0, 0, Loss::Holdoff)?.ticks, 0);
    /// # Ok::<(), Refusal>(())
    /// ```
    pub fn forecast(&self, cell: u64) -> Result<u32, Refusal> {
        outcome(ffi::forecast(&self.numbers, &self.words, cell))
    }

    /// A loss page, as [`page`](Run::page) gives it, into the front of `out`, whose other bytes stay. Gives the page's
    /// length, [`Shape::page_length`]. It changes nothing in the run. Refuses 10.
    ///
    /// ```
    /// # use lta::{Refusal, Run, Shape};
    /// # let shape = Shape { cells: 1, lags: 2, bins: 1, blocks: 1, start: 0, rate: 4, second: 0 };
    /// let run = Run::new(shape)?;
    /// let mut out = [b'.'; 300];
    /// assert_eq!(run.page_into(&mut out[..286]), Err(Refusal::ShortBuffer));
    /// assert_eq!(run.page_into(&mut out), Ok(287));
    /// assert_eq!(out[..41], *b" 0 1           0           0           0\n");
    /// assert_eq!(out[287..], [b'.'; 13]);
    /// # Ok::<(), Refusal>(())
    /// ```
    pub fn page_into(&self, out: &mut [u8]) -> Result<usize, Refusal> {
        outcome(ffi::page(&self.numbers, &self.words, out)).map(|length| length as usize)
    }

    /// A loss page: a printed line of 41 bytes for each cell and loss, cells ascending, losses 1 to 6 within a cell,
    /// and a last line of totals, the sums of those above. It changes nothing. Refuses nothing in a run that only calls
    /// have written; of words from elsewhere 11, also where the six losses of a cell together have more than
    /// 2,147,483,648 ticks.
    ///
    /// Columns 1-2 have the cell, 4 the loss, 6-16 the ticks, 18-28 the edge count, 30-40 the centre count, each
    /// right-aligned.
    ///
    /// ```
    /// # use lta::{Command, Run, Shape};
    /// # let shape = Shape { cells: 1, lags: 2, bins: 1, blocks: 1, start: 0, rate: 4, second: 0 };
    /// let mut run = Run::new(shape)?;
    /// run.tick(&[0x02, 0x03, 0b11])?;
    /// run.tick(&[0x01, 0x0f, 0b11])?;
    /// run.dump(0, Command::Discard, 0, 0)?;
    /// let page = "
    ///  0 1           2           1           1
    ///  0 2           0           0           0
    ///  0 3           0           0           0
    ///  0 4           0           0           0
    ///  0 5           0           0           0
    ///  0 6           0           0           0
    /// ** *           2           1           1
    /// ";
    /// assert_eq!(run.page()?, page[1..]);
    /// # Ok::<(), lta::Refusal>(())
    /// ```
    pub fn page(&self) -> Result<String, Refusal> {
        let mut bytes = vec![0; self.shape.page_length()];
        self.page_into(&mut bytes)?;
        Ok(bytes.into_iter().map(char::from).collect())
    }
}
