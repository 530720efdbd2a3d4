//! The frame by document 01 and the speed frame by requests 2026-04 and 2026-06: their bytes from fields and lags, and
//! what reader and normalising call say of bytes.
use crate::call::Shape;
use crate::rules::{bad_lags, BIN_LIMIT, PEAK};
use crate::signed::Row;

/// kind, cell, block, bin, bank, ticks, centre, edge, second, offset.
pub type Fields = [u32; 10];

/// The kinds, as bits 0-2 of W0 name them: the frame of a bin, and that of a speed dump.
pub const ACCUMULATOR: u32 = 2;
pub const SPEED: u32 = 3;

const MARK: [u8; 2] = [0x4c, 0x54];

/// The bytes of a frame of this kind.
pub fn length(kind: u32, lags: u64) -> usize {
    let fixed = if kind == SPEED { 38 } else { 34 };
    fixed + 8 * lags as usize
}

/// The kind whose frames of so many lags have so many bytes.
pub fn kind_of(lags: u64, bytes: usize) -> Option<u32> {
    [ACCUMULATOR, SPEED].into_iter().find(|kind| length(*kind, lags) == bytes)
}

/// Where the lag part of a frame of this kind begins: behind the mark, W0 to W6 and the DATA_BIAS of a speed frame.
pub fn lags_from(kind: u32) -> usize {
    2 + 4 * (7 + usize::from(kind == SPEED))
}

/// What DATA_BIAS is beside so many ticks.
pub fn bias(ticks: u32) -> u32 {
    (PEAK * u64::from(ticks)) as u32
}

/// The header words W0 to W6, where each field fits its bits.
fn header([kind, cell, block, bin, bank, ticks, centre, edge, second, offset]: Fields) -> [u32; 7] {
    let w0 = kind | cell << 11;
    let w1 = block << 8 | bin << 16 | bank << 31;
    [w0, w1, ticks, centre, edge, second, offset]
}

/// The bytes of the words with their mark before them and their sum behind them.
pub fn sealed(words: &[u32]) -> Vec<u8> {
    let sum = words.iter().fold(0u32, |sum, word| sum.wrapping_add(*word));
    let mut bytes = MARK.to_vec();
    for word in words.iter().chain([&sum]) {
        bytes.extend(word.to_le_bytes());
    }
    bytes
}

pub fn bytes_of(fields: Fields, numbers: &[i32]) -> Vec<u8> {
    let [kind, .., ticks, _, _, _, _] = fields;
    let lags = numbers.iter().map(|number| *number as u32);
    let between = (kind == SPEED).then(|| bias(ticks));
    let words: Vec<u32> = header(fields).into_iter().chain(between).chain(lags).collect();
    sealed(&words)
}

/// The frame that an emission makes of a bin, or a speed dump of Open.
pub fn of_place(kind: u32, shape: &Shape, label: [u64; 3], stamp: u64, row: &Row) -> Vec<u8> {
    let [cell, bank, bin] = label;
    let (kind, block) = (u64::from(kind), shape.start + bin % shape.blocks);
    let (second, offset) = (shape.second + stamp / shape.rate, stamp % shape.rate);
    let fields = [kind, cell, block, bin, bank, row.ticks, row.centre, row.edge, second, offset];
    let numbers: Vec<i32> = row.sums.iter().map(|sum| i32::try_from(*sum).unwrap()).collect();
    bytes_of(fields.map(|field| u32::try_from(field).unwrap()), &numbers)
}

fn breaks_field_rule([kind, cell, block, bin, bank, ticks, centre, edge, _, offset]: Fields) -> bool {
    ![ACCUMULATOR, SPEED].contains(&kind)
        || cell > 15
        || block > 255
        || bin > 999
        || bank > 1
        || u64::from(ticks) > BIN_LIMIT
        || centre > ticks
        || edge > ticks
        || offset > 255_999_999
}

fn beyond(ticks: u32, number: i32) -> bool {
    u64::from(number.unsigned_abs()) > PEAK * u64::from(ticks)
}

/// The words behind the mark.
pub fn words_of(bytes: &[u8]) -> Vec<u32> {
    let word = |part: &[u8]| u32::from_le_bytes(part.try_into().unwrap());
    bytes[2..].chunks_exact(4).map(word).collect()
}

/// Bits 3-10 and 15-31 of W0 and bits 0-7 of W1 are 0.
fn fixed_bits_wrong(words: &[u32]) -> bool {
    words[0] & 0xffff_87f8 != 0 || words[1] & 0xff != 0
}

fn fields_of(words: &[u32]) -> Fields {
    [
        words[0] & 7,
        words[0] >> 11 & 15,
        words[1] >> 8 & 255,
        words[1] >> 16 & 0x7fff,
        words[1] >> 31,
        words[2],
        words[3],
        words[4],
        words[5],
        words[6],
    ]
}

/// The fields of a frame with its lag numbers, or the number of the refusal: 1, 13, 14, 15, 16, 18.
pub fn read(lags: u64, bytes: &[u8]) -> Result<(Fields, Vec<i32>), u32> {
    if bad_lags(lags) {
        return Err(1);
    }
    let Some(kind) = kind_of(lags, bytes.len()) else {
        return Err(13);
    };
    if bytes[..2] != MARK {
        return Err(14);
    }
    let words = words_of(bytes);
    let (last, before) = words.split_last().unwrap();
    let sum: u64 = before.iter().map(|word| u64::from(*word)).sum();
    if sum % (1 << 32) != u64::from(*last) {
        return Err(15);
    }
    let fields = fields_of(before);
    let (head, pairs) = before.split_at(before.len() - 2 * lags as usize);
    let numbers: Vec<i32> = pairs.iter().map(|word| *word as i32).collect();
    let wrong = fixed_bits_wrong(head) || fields[0] != kind || breaks_field_rule(fields);
    if wrong || numbers.iter().any(|number| beyond(fields[5], *number)) {
        return Err(16);
    }
    if kind == SPEED && head[7] != bias(fields[5]) {
        return Err(18);
    }
    Ok((fields, numbers))
}

/// The frame of fields and lag numbers, or the number of the refusal: 1, 16, 10.
pub fn write(lags: u64, fields: &[u32], numbers: &[i32], room: usize) -> Result<Vec<u8>, u32> {
    if bad_lags(lags) {
        return Err(1);
    }
    let Ok(fields) = Fields::try_from(fields) else {
        return Err(16);
    };
    if breaks_field_rule(fields) || numbers.len() as u64 != 2 * lags {
        return Err(16);
    }
    if numbers.iter().any(|number| beyond(fields[5], *number)) {
        return Err(16);
    }
    if room < length(fields[0], lags) {
        return Err(10);
    }
    Ok(bytes_of(fields, numbers))
}

/// A lag by its centre count, none where there is no data, or the number of the refusal: the reader's, then 12.
pub fn normalised(lags: u64, bytes: &[u8], lag: u64) -> Result<Option<[f64; 2]>, u32> {
    let (fields, numbers) = read(lags, bytes)?;
    if lag >= lags {
        return Err(12);
    }
    let centre = fields[6];
    let part = |at: usize| f64::from(numbers[at]) / f64::from(centre);
    let at = 2 * lag as usize;
    Ok((centre != 0).then(|| [part(at), part(at + 1)]))
}
