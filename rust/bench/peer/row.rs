//! Rows of sums and the shift registers. A row is ticks, edge count, centre count, then I and Q of each lag. A register
//! entry is the four bits of the sample, then a bit that is set where the sample is valid, then the phase.
use super::PEAK;

const VALID: i64 = 16;
const ENTRIES: i64 = 512;

const WEIGHT: [i64; 16] = [2, 2, 1, 1, 0, -1, -1, -2, -2, -2, -1, -1, 0, 1, 1, 2];

/// The sample of a register entry by its low five bits; 0 where it is invalid.
const SAMPLE: [i64; 32] =
    [0, 0, 0, 0, 0, 0, 0, 0, 0, 0, 0, 0, 0, 0, 0, 0, 0, 1, 2, 3, 4, 5, 6, 7, -8, -7, -6, -5, -4, -3, -2, -1];

fn sample(entry: i64) -> i64 {
    SAMPLE[(entry & 31) as usize]
}

fn both_valid(x: i64, y: i64) -> bool {
    x & y & VALID != 0
}

pub fn shift(register: &mut [i64], byte: u8, valid: bool) {
    let last = register.len() - 1;
    register.copy_within(..last, 1);
    let byte = i64::from(byte);
    register[0] = byte % 16 + VALID * i64::from(valid) + 32 * (byte / 16);
}

/// Adds to a row what the tick whose entries stand newest in the registers adds.
pub fn add_tick(row: &mut [i64], x: &[i64], y: &[i64]) {
    let half = x.len() - 1;
    let entries = |k: usize| (x[k.div_ceil(2)], y[half - k / 2]);
    let valid = |(a, b)| i64::from(both_valid(a, b));
    row[0] += 1;
    row[1] += valid(entries(0));
    row[2] += valid(entries(half));
    for (k, pair) in row[3..].chunks_exact_mut(2).enumerate() {
        let (a, b) = entries(k);
        let product = sample(a) * sample(b);
        let d = ((a >> 5) - (b >> 5)) & 15;
        pair[0] += product * WEIGHT[d as usize];
        pair[1] += product * WEIGHT[(d as usize + 12) % 16];
    }
}

pub fn row_ok(row: &[i64], limit: i64) -> bool {
    let ticks = row[0];
    (0..=limit).contains(&ticks)
        && (0..=ticks).contains(&row[1])
        && (0..=ticks).contains(&row[2])
        && row[3..].iter().all(|sum| sum.unsigned_abs() <= (PEAK * ticks) as u64)
}

pub fn register_ok(register: &[i64]) -> bool {
    register.iter().all(|word| (0..ENTRIES).contains(word))
}

/// All of one row joins another, and the one is empty.
pub fn move_row(from: &mut [i64], to: &mut [i64]) {
    for (to, from) in to.iter_mut().zip(from.iter_mut()) {
        *to += *from;
        *from = 0;
    }
}
