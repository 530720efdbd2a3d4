//! Frames: what an emission, a pick or a speed dump gives, and what the reader accepts of bytes from elsewhere.
use std::borrow::Cow;

use crate::ffi::{self, outcome};
use crate::Refusal;

/// The kind of a frame.
///
/// A speed frame has a word DATA_BIAS ahead of its lags, 128 × its ticks, which is already taken off them: the lags of
/// both kinds are plain signed sums. Before version 0.5.0 it was 98 × its ticks: of those speed frames the reader
/// takes the ones without ticks alone.
///
/// ```
/// use lta::{Fields, Frame, Kind};
///
/// let fields = Fields { kind: Kind::Speed as u32, ticks: 3, ..Fields::default() };
/// let frame = Frame::write(&fields, &[(6, 0), (10, 0)])?;
/// assert_eq!(frame.bytes()[30..34], (128u32 * 3).to_le_bytes());
/// # Ok::<(), lta::Refusal>(())
/// ```
#[derive(Clone, Copy, Debug, PartialEq, Eq, Hash)]
#[repr(u32)]
pub enum Kind {
    /// The frame of a bin, which an emission or a pick gives: 34 + 8N bytes.
    Accumulated = 2,
    /// The frame of an open integration, which a speed dump gives: 38 + 8N bytes.
    Speed = 3,
}

/// The fields of a frame's header words.
#[derive(Clone, Copy, Debug, Default, PartialEq, Eq, Hash)]
pub struct Fields {
    /// The kind of frame, 2 or 3, by [`Kind`].
    pub kind: u32,
    /// The cell, 0 to 15.
    pub cell: u32,
    /// The Y block, 0 to 255.
    pub block: u32,
    /// The data bin, 0 to 999.
    pub bin: u32,
    /// The bank, 0 or 1.
    pub bank: u32,
    /// The ticks of the set, at most 16,777,215.
    pub ticks: u32,
    /// Of those, the ticks whose product is valid at lag N/2.
    pub centre: u32,
    /// Of those, the ticks whose product is valid at lag 0.
    pub edge: u32,
    /// The second of the stamp.
    pub second: u32,
    /// The ticks of the stamp within its second, at most 255,999,999.
    pub offset: u32,
}

impl Fields {
    fn from_numbers(numbers: [u32; 10]) -> Fields {
        let [kind, cell, block, bin, bank, ticks, centre, edge, second, offset] = numbers;
        Fields { kind, cell, block, bin, bank, ticks, centre, edge, second, offset }
    }

    /// The ten numbers in the order of the C interface.
    pub fn numbers(&self) -> [u32; 10] {
        [
            self.kind,
            self.cell,
            self.block,
            self.bin,
            self.bank,
            self.ticks,
            self.centre,
            self.edge,
            self.second,
            self.offset,
        ]
    }
}

/// Real and imaginary part of one normalised lag.
#[derive(Clone, Copy, Debug, PartialEq)]
pub struct Complex {
    /// I divided by the centre count.
    pub re: f64,
    /// Q divided by the centre count.
    pub im: f64,
}

/// Bytes that the reader has accepted, lent or owned.
///
/// ```
/// use lta::{Fields, Frame, Refusal};
///
/// let fields = Fields { kind: 2, cell: 3, ticks: 4, centre: 4, ..Fields::default() };
/// let written = Frame::write(&fields, &[(8, -2), (512, 0)])?;
/// let read = Frame::read(2, written.bytes())?;
/// assert_eq!(read.fields(), &fields);
/// assert_eq!(read.lags().nth(1), Some((512, 0)));
/// assert_eq!(read.normalised().next().unwrap().unwrap().im, -0.5);
/// assert_eq!(Frame::read(2, &written.bytes()[1..]), Err(Refusal::WrongLength));
/// # Ok::<(), Refusal>(())
/// ```
#[derive(Clone, Debug, PartialEq, Eq)]
pub struct Frame<'a> {
    lags: u64,
    fields: Fields,
    bytes: Cow<'a, [u8]>,
}

impl<'a> Frame<'a> {
    /// The frame of N lags that the bytes are, of either kind. Refuses 1, 13, 14, 15, 16, 18.
    ///
    /// ```
    /// assert_eq!(lta::Frame::read(2, &[0; 50]), Err(lta::Refusal::WrongMark));
    /// ```
    pub fn read(lags: u64, bytes: &'a [u8]) -> Result<Frame<'a>, Refusal> {
        Frame::accepted(lags, Cow::Borrowed(bytes))
    }

    /// The fields of the frame.
    pub fn fields(&self) -> &Fields {
        &self.fields
    }

    /// The kind of the frame, which its length and its fields tell alike.
    ///
    /// ```
    /// use lta::{Fields, Frame, Kind};
    ///
    /// for kind in [Kind::Accumulated, Kind::Speed] {
    ///     let fields = Fields { kind: kind as u32, ..Fields::default() };
    ///     assert_eq!(Frame::write(&fields, &[(0, 0), (0, 0)])?.kind(), kind);
    /// }
    /// # Ok::<(), lta::Refusal>(())
    /// ```
    pub fn kind(&self) -> Kind {
        if self.fields.kind == Kind::Speed as u32 {
            Kind::Speed
        } else {
            Kind::Accumulated
        }
    }

    /// The bytes of the frame, its mark first.
    pub fn bytes(&self) -> &[u8] {
        &self.bytes
    }

    /// The part of the bytes that holds the lag pairs.
    ///
    /// ```
    /// use lta::{Fields, Frame};
    ///
    /// let fields = Fields { kind: 2, ticks: 1, ..Fields::default() };
    /// let frame = Frame::write(&fields, &[(3, -4), (0, 128)])?;
    /// assert_eq!(frame.lag_part(), &frame.bytes()[30..46]);
    /// let speed = Frame::write(&Fields { kind: 3, ..fields }, &[(3, -4), (0, 128)])?;
    /// assert_eq!(speed.lag_part(), &speed.bytes()[34..50]);
    /// # Ok::<(), lta::Refusal>(())
    /// ```
    pub fn lag_part(&self) -> &[u8] {
        let part = ffi::lag_part(self.lags, &self.bytes) as usize;
        &self.bytes[part / 65_536..][..part % 65_536]
    }

    /// I and Q of each lag, from lag 0 on.
    ///
    /// ```
    /// # let fields = lta::Fields { kind: 2, ticks: 1, ..Default::default() };
    /// # let frame = lta::Frame::write(&fields, &[(3, -4), (0, 128)])?;
    /// assert_eq!(frame.lags().collect::<Vec<_>>(), [(3, -4), (0, 128)]);
    /// # Ok::<(), lta::Refusal>(())
    /// ```
    pub fn lags(&self) -> impl Iterator<Item = (i32, i32)> + '_ {
        self.lag_part().chunks_exact(8).map(|pair| {
            let number = |at: usize| i32::from_le_bytes([pair[at], pair[at + 1], pair[at + 2], pair[at + 3]]);
            (number(0), number(4))
        })
    }

    /// Each lag normalised by the centre count, from lag 0 on; none where there is no data.
    ///
    /// ```
    /// let fields = lta::Fields { kind: 2, ..Default::default() };
    /// let frame = lta::Frame::write(&fields, &[(0, 0), (0, 0)])?;
    /// assert_eq!(frame.normalised().collect::<Vec<_>>(), [None, None]);
    /// # Ok::<(), lta::Refusal>(())
    /// ```
    pub fn normalised(&self) -> impl Iterator<Item = Option<Complex>> + '_ {
        (0..self.lags).map(|lag| {
            let mut pair = [0.0; 2];
            let result = ffi::normalised_lag(self.lags, &self.bytes, lag, &mut pair);
            let data = outcome(result).expect("an accepted frame and one of its lags");
            (data == 1).then_some(Complex { re: pair[0], im: pair[1] })
        })
    }

    /// A frame of the fields and of I and Q of each lag, of the kind that the fields name. Refuses 1, 16.
    ///
    /// ```
    /// use lta::{Fields, Frame, Refusal};
    ///
    /// let fields = Fields { kind: 2, ticks: 1, ..Fields::default() };
    /// assert!(Frame::write(&fields, &[(3, -4), (0, 128)]).is_ok());
    /// assert_eq!(Frame::write(&fields, &[(3, -4), (0, 129)]), Err(Refusal::BadField));
    /// assert_eq!(Frame::write(&fields, &[(3, -4)]), Err(Refusal::BadShape));
    /// assert!(Frame::write(&Fields { kind: 3, ..fields }, &[(3, -4), (0, 128)]).is_ok());
    /// assert_eq!(Frame::write(&Fields { kind: 4, ..fields }, &[(3, -4), (0, 128)]), Err(Refusal::BadField));
    /// ```
    pub fn write(fields: &Fields, lags: &[(i32, i32)]) -> Result<Frame<'static>, Refusal> {
        let numbers: Vec<i32> = lags.iter().flat_map(|&(i, q)| [i, q]).collect();
        // Room for the longer kind.
        let mut bytes = vec![0; 38 + 8 * lags.len()];
        let n = lags.len() as u64;
        let length = outcome(ffi::write_frame(n, &fields.numbers(), &numbers, &mut bytes))?;
        bytes.truncate(length as usize);
        Frame::from_vec(n, bytes)
    }

    pub(crate) fn from_vec(lags: u64, bytes: Vec<u8>) -> Result<Frame<'static>, Refusal> {
        Frame::accepted(lags, Cow::Owned(bytes))
    }

    fn accepted<'b>(lags: u64, bytes: Cow<'b, [u8]>) -> Result<Frame<'b>, Refusal> {
        let mut numbers = [0; 10];
        outcome(ffi::read_frame(lags, &bytes, &mut numbers))?;
        Ok(Frame { lags, fields: Fields::from_numbers(numbers), bytes })
    }
}
