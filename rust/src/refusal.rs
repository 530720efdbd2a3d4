//! Who may be told no.
use std::fmt;

/// Why a call was refused. A refused call changes nothing.
///
/// The numbers are those of documents 01 and 02. Where several apply, a call gives the first in its own order.
///
/// ```
/// use lta::Refusal;
///
/// assert_eq!(Refusal::NothingHeld.number(), 8);
/// assert_eq!(Refusal::from_number(8), Some(Refusal::NothingHeld));
/// assert_eq!(Refusal::NothingHeld.to_string(), "refusal 8: Held unoccupied");
/// ```
#[derive(Clone, Copy, Debug, PartialEq, Eq, Hash)]
#[repr(u32)]
pub enum Refusal {
    /// A shape value out of its limits.
    BadShape = 1,
    /// Work memory not exactly the needed length.
    WrongMemory = 2,
    /// Not 3C bytes.
    WrongSamples = 3,
    /// t is 2,147,483,648: the run takes no more ticks.
    RunFull = 4,
    /// No such cell.
    NoCell = 5,
    /// Command 101, 110 or above 111.
    BadCommand = 6,
    /// Bank not 0 or 1, (phase + 1) × M above B, or a data bin not below B.
    NoBin = 7,
    /// Held unoccupied.
    NothingHeld = 8,
    /// Bin not Ready.
    NotReady = 9,
    /// Buffer too short for what the call would write.
    ShortBuffer = 10,
    /// Something in work memory is as no call leaves it.
    Damaged = 11,
    /// No such lag or loss.
    NoLag = 12,
    /// A frame of the wrong length.
    WrongLength = 13,
    /// A frame with the wrong mark.
    WrongMark = 14,
    /// A frame with the wrong last word.
    WrongSum = 15,
    /// A field of a frame breaks its rule.
    BadField = 16,
    /// Unknown mark or a cut record in a script.
    BadRecord = 17,
    /// A speed frame whose DATA_BIAS is not 128 × its ticks.
    WrongBias = 18,
    /// A validity byte has another bit set than its lowest two.
    BadValidity = 19,
    /// No cell has a Ready bin.
    NothingReady = 20,
}

impl Refusal {
    /// Every refusal, in the order 1 to 20.
    pub const ALL: [Refusal; 20] = [
        Refusal::BadShape,
        Refusal::WrongMemory,
        Refusal::WrongSamples,
        Refusal::RunFull,
        Refusal::NoCell,
        Refusal::BadCommand,
        Refusal::NoBin,
        Refusal::NothingHeld,
        Refusal::NotReady,
        Refusal::ShortBuffer,
        Refusal::Damaged,
        Refusal::NoLag,
        Refusal::WrongLength,
        Refusal::WrongMark,
        Refusal::WrongSum,
        Refusal::BadField,
        Refusal::BadRecord,
        Refusal::WrongBias,
        Refusal::BadValidity,
        Refusal::NothingReady,
    ];

    /// The refusal's number, 1 to 20.
    pub fn number(self) -> u32 {
        self as u32
    }

    /// The refusal of a number; none but for 1 to 20.
    pub fn from_number(number: u32) -> Option<Refusal> {
        let place = number.checked_sub(1)?;
        Refusal::ALL.get(usize::try_from(place).ok()?).copied()
    }

    fn words(self) -> &'static str {
        match self {
            Refusal::BadShape => "a shape value out of its limits",
            Refusal::WrongMemory => "work memory not exactly the needed length",
            Refusal::WrongSamples => "not 3C bytes",
            Refusal::RunFull => "t is 2,147,483,648",
            Refusal::NoCell => "no such cell",
            Refusal::BadCommand => "command 101, 110 or above 111",
            Refusal::NoBin => "no such bank, phase bin or data bin",
            Refusal::NothingHeld => "Held unoccupied",
            Refusal::NotReady => "bin not Ready",
            Refusal::ShortBuffer => "buffer too short for what the call would write",
            Refusal::Damaged => "work memory was written by others",
            Refusal::NoLag => "no such lag or loss",
            Refusal::WrongLength => "wrong length",
            Refusal::WrongMark => "wrong mark",
            Refusal::WrongSum => "wrong last word",
            Refusal::BadField => "a fixed bit wrong, or a field beyond its limits",
            Refusal::BadRecord => "unknown mark or a cut record",
            Refusal::WrongBias => "wrong DATA_BIAS",
            Refusal::BadValidity => "a validity byte has another bit set",
            Refusal::NothingReady => "no cell has a Ready bin",
        }
    }
}

impl fmt::Display for Refusal {
    fn fmt(&self, f: &mut fmt::Formatter<'_>) -> fmt::Result {
        write!(f, "refusal {}: {}", self.number(), self.words())
    }
}

impl std::error::Error for Refusal {}
