//! Frames of both kinds: read from bytes and written from fields.
use lta::{Fields, Refusal, Shape};

use super::{check, lags_ok, BIN_LIMIT, PEAK};

/// The kinds: the frame of a bin, and that of a speed dump.
pub const ACCUMULATOR: u32 = 2;
pub const SPEED: u32 = 3;

const MARK: [u8; 2] = [0x4c, 0x54];
/// W0 to W6, and DATA_BIAS behind them.
const HEADER: usize = 8;
const BIAS: usize = 7;

/// How many of the header words a frame of this kind has.
fn head_words(kind: u32) -> usize {
    BIAS + usize::from(kind == SPEED)
}

/// The bytes of a frame of this kind.
pub fn length(kind: u32, lags: u64) -> usize {
    6 + 4 * head_words(kind) + 8 * lags as usize
}

fn words(bytes: &[u8]) -> impl Iterator<Item = u32> + '_ {
    bytes.chunks_exact(4).map(|word| u32::from_le_bytes([word[0], word[1], word[2], word[3]]))
}

fn header_words(f: &Fields) -> [u32; HEADER] {
    let w1 = f.block << 8 | f.bin << 16 | f.bank << 31;
    let bias = f.ticks.wrapping_mul(PEAK as u32);
    [f.kind | f.cell << 11, w1, f.ticks, f.centre, f.edge, f.second, f.offset, bias]
}

/// The fields of the frame of a bin or of Open.
fn fields_of_row(kind: u32, shape: &Shape, [cell, bank, bin]: [u64; 3], stamp: u64, row: &[i64]) -> Fields {
    Fields {
        kind,
        cell: cell as u32,
        block: (shape.start + bin % shape.blocks) as u32,
        bin: bin as u32,
        bank: bank as u32,
        ticks: row[0] as u32,
        edge: row[1] as u32,
        centre: row[2] as u32,
        second: (shape.second + stamp / shape.rate) as u32,
        offset: (stamp % shape.rate) as u32,
    }
}

/// The frame of a row into exactly the bytes of one; the row is then empty.
pub fn send(out: &mut [u8], kind: u32, shape: &Shape, label: [u64; 3], stamp: u64, row: &mut [i64]) {
    put_frame(out, &fields_of_row(kind, shape, label, stamp, row), &row[3..]);
    row.fill(0);
}

/// Mark, header, lags and their sum, into exactly the bytes of a frame.
fn put_frame(out: &mut [u8], fields: &Fields, lags: &[impl Copy + Into<i64>]) {
    let (mark, body) = out.split_at_mut(2);
    let (head, body) = body.split_at_mut(4 * head_words(fields.kind));
    let (pairs, last) = body.split_at_mut(4 * lags.len());
    let mut sum = 0u32;
    let mut put = |place: &mut [u8], word: u32| {
        sum = sum.wrapping_add(word);
        place.copy_from_slice(&word.to_le_bytes());
    };
    mark.copy_from_slice(&MARK);
    for (place, word) in head.chunks_exact_mut(4).zip(header_words(fields)) {
        put(place, word);
    }
    for (place, lag) in pairs.chunks_exact_mut(4).zip(lags) {
        put(place, (*lag).into() as u32);
    }
    last.copy_from_slice(&sum.to_le_bytes());
}

fn fields_ok(f: &Fields) -> bool {
    matches!(f.kind, ACCUMULATOR | SPEED)
        && f.cell < 16
        && f.block < 256
        && f.bin < 1000
        && f.bank < 2
        && i64::from(f.ticks) <= BIN_LIMIT
        && f.centre <= f.ticks
        && f.edge <= f.ticks
        && f.offset < 256_000_000
}

fn lag_ok(lag: i32, ticks: u32) -> bool {
    lag.unsigned_abs() <= PEAK as u32 * ticks
}

fn fields_of(header: [u32; HEADER]) -> Fields {
    let [w0, w1, ticks, centre, edge, second, offset, _] = header;
    Fields {
        kind: w0 & 7,
        cell: w0 >> 11 & 15,
        block: w1 >> 8 & 255,
        bin: w1 >> 16 & 0x7fff,
        bank: w1 >> 31,
        ticks,
        centre,
        edge,
        second,
        offset,
    }
}

/// The fields of a frame.
#[inline(never)]
pub fn read(lags: u64, bytes: &[u8]) -> Result<Fields, Refusal> {
    check(lags_ok(lags), Refusal::BadShape)?;
    let kind = [ACCUMULATOR, SPEED].into_iter().find(|kind| length(*kind, lags) == bytes.len());
    let kind = kind.ok_or(Refusal::WrongLength)?;
    let (mark, body) = bytes.split_at(2);
    check(mark == MARK, Refusal::WrongMark)?;
    let (body, last) = body.split_at(body.len() - 4);
    let sum = words(body).fold(0, u32::wrapping_add);
    check(last == sum.to_le_bytes(), Refusal::WrongSum)?;
    let (head, pairs) = body.split_at(4 * head_words(kind));
    let mut header = [0; HEADER];
    header.iter_mut().zip(words(head)).for_each(|(place, word)| *place = word);
    let fields = fields_of(header);
    let right = header_words(&fields);
    let rules = right[..BIAS] == header[..BIAS] && fields.kind == kind && fields_ok(&fields);
    let within = rules && words(pairs).all(|lag| lag_ok(lag as i32, fields.ticks));
    check(within, Refusal::BadField)?;
    check(kind != SPEED || right[BIAS] == header[BIAS], Refusal::WrongBias)?;
    Ok(fields)
}

/// The frame of the fields and 2N lag numbers into the front of out; answers its length.
#[inline(never)]
pub fn write(lags: u64, fields: &Fields, numbers: &[i32], out: &mut [u8]) -> Result<usize, Refusal> {
    check(lags_ok(lags), Refusal::BadShape)?;
    let rules = fields_ok(fields)
        && numbers.len() as u64 == 2 * lags
        && numbers.iter().all(|lag| lag_ok(*lag, fields.ticks));
    check(rules, Refusal::BadField)?;
    let length = length(fields.kind, lags);
    let out = out.get_mut(..length).ok_or(Refusal::ShortBuffer)?;
    put_frame(out, fields, numbers);
    Ok(length)
}
