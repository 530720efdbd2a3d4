//! The validity byte and what it makes of samples: which bytes are refused and in which order, which samples count, and
//! the register entries that they leave.
use std::collections::BTreeSet;

use crate::call::{Call, Reply, Shape};
use crate::driver::{fresh, perform};
use crate::layout::{self, Kind};
use crate::limits::Three;
use crate::pages_refused::no_shape;
use crate::rules::RUN_LIMIT;

const SHAPE: Shape = Shape { cells: 1, lags: 2, bins: 1, blocks: 1, start: 0, rate: 1000, second: 5 };

fn tick(samples: &[u8]) -> Call {
    Call::Tick { samples: samples.to_vec() }
}

/// Where the register entries of a run stand.
fn entries(shape: Shape) -> Vec<usize> {
    let kinds = layout::kinds(shape);
    (0..kinds.len()).filter(|&at| kinds[at] == Kind::Entry).collect()
}

/// Every validity byte in every cell, the others being right: 19 exactly if it has another bit, and nothing moves.
#[test]
fn every_byte_of_every_cell() {
    for cells in [1, 2, 16] {
        let mut three = Three::new(Shape { cells, ..SHAPE });
        for (cell, byte) in (0..cells as usize).flat_map(|cell| (0..=u8::MAX).map(move |byte| (cell, byte))) {
            let mut samples = [0x08, 0x17, 0b11].repeat(cells as usize);
            samples[3 * cell + 2] = byte;
            let before = three.mem.clone();
            let told = if byte > 0b11 { Reply::Refused(19) } else { Reply::Number(0) };
            assert_eq!(three.perform(&tick(&samples)), told, "{byte:08b} in cell {cell} of {cells}");
            assert!(byte <= 0b11 || three.mem == before, "{byte:08b} in cell {cell} of {cells}");
        }
        three.compare();
    }
}

/// Every choice of faults among 1, 2, 3, 19, 4 and 11, each fault in several ways: the first of them in that order is
/// told.
#[test]
fn refusals_in_their_order() {
    let shape = Shape { cells: 3, ..SHAPE };
    let entries = entries(shape);
    for (way, faults) in (0..4).flat_map(|way| (0..64).map(move |faults| (way, faults))) {
        let has = |place: usize| faults >> place & 1 == 1;
        let numbers = if has(0) { no_shape(&shape, way) } else { shape.numbers().to_vec() };
        let mut mem = fresh(&shape);
        mem[0] = if has(4) { RUN_LIMIT } else { 0 };
        if has(5) {
            mem[entries[[0, 3, 5, 11][way]]] = [512, 1 << 32, 768, u64::MAX][way];
        }
        if has(1) {
            let words = mem.len();
            mem.resize([words + 1, words - 1, 0, 2 * words][way], 0);
        }
        let mut samples = [0x08, 0x17, 0b11].repeat(3);
        if has(3) {
            samples[[2, 5, 8, 8][way]] = [0x04, 0x80, 0x83, 0xff][way];
        }
        if has(2) {
            samples.resize([8, 10, 6, 0][way], 0xff);
        }
        let before = mem.clone();
        let reply = perform(&numbers, &mut mem, &Call::Tick { samples });
        let first = (0..6).find(|place| has(*place)).map(|place| [1, 2, 3, 19, 4, 11][place]);
        let told = first.map_or(Reply::Number(0), Reply::Refused);
        assert_eq!(reply, told, "way {way}, faults {faults:06b}");
        assert!(faults == 0 || mem == before, "way {way}, faults {faults:06b}");
    }
}

/// Every pair of samples, valid or not: at lag 0 X of a tick by Y of the tick before, whose own X is invalid. Where
/// both are valid the product counts and adds, -8 like any other; else neither.
#[test]
fn every_pair_of_samples() {
    let sample = |low: u8| i64::from(low) - if low < 8 { 0 } else { 16 };
    for (x, y) in (0..16).flat_map(|x| (0..16).map(move |y| (x, y))) {
        for validity in 0..4 {
            let mut three = Three::new(SHAPE);
            three.perform(&tick(&[0x08, y, validity & 0b10]));
            three.perform(&tick(&[x, 0x08, validity & 0b01]));
            three.dump(0, 0b100);
            let lost = three.perform(&Call::Reading { cell: 0, lag: 0, loss: 1, room: [2, 3] });
            let (sum, edge) = if validity == 0b11 { (2 * sample(x) * sample(y), 1) } else { (0, 0) };
            assert_eq!(lost, Reply::Sums([sum, 0, 2, edge, 0]), "{x} by {y}, validity {validity:02b}");
            three.compare();
        }
    }
}

/// Every sampler byte, valid or not, in both registers: a word of its own for each, the 512 from 0 on.
#[test]
fn every_register_entry() {
    let &[x_at, _, y_at, _] = &entries(SHAPE)[..] else {
        panic!("two registers of two entries");
    };
    let word = |byte: u8, valid: u8| {
        let [byte, valid] = [byte, valid].map(u64::from);
        (byte % 16 + 8) % 16 + 16 * (byte / 16) + 256 * valid
    };
    let mut seen = BTreeSet::new();
    for (byte, valid) in (0..=u8::MAX).flat_map(|byte| [0, 1].map(|valid| (byte, valid))) {
        let mut mem = fresh(&SHAPE);
        let samples = [byte, !byte, valid | (1 - valid) << 1];
        assert_eq!(perform(&SHAPE.numbers(), &mut mem, &tick(&samples)), Reply::Number(0));
        assert_eq!([mem[x_at], mem[y_at]], [word(byte, valid), word(!byte, 1 - valid)], "{samples:?}");
        seen.insert(mem[x_at]);
    }
    assert!(seen.into_iter().eq(0..512));
}

/// In each place of both registers of each cell the words up to 511 are entries, and no other.
#[test]
fn entries_at_their_limit() {
    let shape = Shape { cells: 2, lags: 4, ..SHAPE };
    for at in entries(shape) {
        for word in (0..516).chain([768, 1 << 32, 1 << 63, u64::MAX]) {
            let mut mem = fresh(&shape);
            mem[at] = word;
            let before = mem.clone();
            let reply = perform(&shape.numbers(), &mut mem, &tick(&[0x03; 6]));
            let told = if word > 511 { Reply::Refused(11) } else { Reply::Number(0) };
            assert_eq!(reply, told, "word {at} as {word}");
            assert!(word <= 511 || mem == before, "word {at} as {word}");
        }
    }
}
