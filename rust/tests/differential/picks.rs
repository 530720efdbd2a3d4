//! Picks: whose turn it is written down, what moves a place and what does not, and buffers of every length.
use lta::ffi;

use crate::call::{Call, Reply, Shape};
use crate::damage::never;
use crate::driver::{outcome, perform};
use crate::frame;
use crate::layout;
use crate::limits::Three;
use crate::random::Random;
use crate::rules::{ADD, BIN_LIMIT, FILLING, FREE, LAST, READY, SAVE};
use crate::signed::Run;

const SHAPE: Shape = Shape { cells: 3, lags: 2, bins: 2, blocks: 1, start: 0, rate: 4, second: 0 };

/// Cell, bank and data bin.
pub type Named = [u64; 3];

/// The bin whose frame this is.
pub fn named(lags: u64, bytes: &[u8]) -> Named {
    let (fields, _) = frame::read(lags, bytes).expect("a frame");
    let [_, cell, _, bin, bank, ..] = fields.map(u64::from);
    [cell, bank, bin]
}

/// A set goes to the bin by this command; where M is 1, a phase is the data bin of that number.
fn put(three: &mut Three, command: u64, [cell, bank, phase]: Named) -> Reply {
    assert_eq!(three.perform(&Call::Dump { cell, command, bank, phase, room: 0 }), Reply::Number(0));
    three.perform(&Call::Integrate { cell })
}

fn make_ready(three: &mut Three, bins: &[Named]) {
    for bin in bins {
        assert_eq!(put(three, LAST, *bin), Reply::Number(0), "{bin:?}");
    }
}

/// The bin that a pick takes.
fn picked(three: &mut Three) -> Named {
    let shape = three.model.shape;
    match three.perform(&Call::Pick { room: shape.frame_length() }) {
        Reply::Frame(bytes) => named(shape.lags, &bytes),
        other => panic!("a pick of {shape:?}: {other:?}"),
    }
}

fn expect_picks(three: &mut Three, bins: &[Named]) {
    for bin in bins {
        assert_eq!(picked(three), *bin);
    }
    three.compare();
}

fn nothing_ready(three: &mut Three) {
    let before = three.mem.clone();
    for room in [0, 49, 50, 51] {
        assert_eq!(three.perform(&Call::Pick { room }), Reply::Refused(20), "{room} bytes");
    }
    assert!(three.mem == before, "words after a refused pick");
}

/// All bins of a fresh run: cell behind cell, and in each cell bank 0's bins before bank 1's.
#[test]
fn all_bins_of_a_fresh_run() {
    let mut three = Three::new(SHAPE);
    nothing_ready(&mut three);
    let of_a_cell = |cell| [[cell, 1, 1], [cell, 0, 1], [cell, 1, 0], [cell, 0, 0]];
    for cell in [2, 0, 1] {
        make_ready(&mut three, &of_a_cell(cell));
    }
    let turns = [[0, 0], [0, 1], [1, 0], [1, 1]];
    let expected: Vec<Named> =
        turns.into_iter().flat_map(|[bank, bin]| [0, 1, 2].map(|cell| [cell, bank, bin])).collect();
    expect_picks(&mut three, &expected);
    nothing_ready(&mut three);
}

/// Cells without a Ready bin are passed over, and so are bins that are Free or Filling; behind the last of each comes
/// the first.
#[test]
fn round_and_round() {
    let mut three = Three::new(SHAPE);
    make_ready(&mut three, &[[1, 1, 0], [1, 0, 1], [2, 1, 1]]);
    assert_eq!(put(&mut three, ADD, [0, 0, 0]), Reply::Number(0));
    assert_eq!(put(&mut three, SAVE, [1, 0, 0]), Reply::Number(0));
    expect_picks(&mut three, &[[1, 0, 1], [2, 1, 1], [1, 1, 0]]);
    make_ready(&mut three, &[[1, 0, 0], [1, 0, 1], [0, 1, 1], [2, 1, 0], [2, 0, 1]]);
    // Cell 1 was served last, and in it bank 1, bin 0 was picked; in cell 2 it was the last bin, in cell 0 none.
    expect_picks(&mut three, &[[2, 0, 1], [0, 1, 1], [1, 0, 0], [2, 1, 0], [1, 0, 1]]);
    nothing_ready(&mut three);
}

/// The cell last served and the bin last picked are the last in their rounds, and their turn comes all the same.
#[test]
fn the_last_one_again() {
    let mut three = Three::new(SHAPE);
    for _ in 0..3 {
        make_ready(&mut three, &[[1, 1, 0]]);
        expect_picks(&mut three, &[[1, 1, 0]]);
    }
    make_ready(&mut three, &[[1, 1, 0], [1, 0, 1], [0, 0, 0]]);
    expect_picks(&mut three, &[[0, 0, 0], [1, 0, 1], [1, 1, 0]]);
    nothing_ready(&mut three);
}

/// "Naming a bin to emit moves no place", nor does any other call, nor a pick that is refused.
#[test]
fn what_moves_no_place() {
    let mut three = Three::new(SHAPE);
    make_ready(&mut three, &[[0, 0, 0], [0, 0, 1], [0, 1, 0], [1, 0, 0], [1, 0, 1], [2, 0, 0], [2, 1, 1]]);
    expect_picks(&mut three, &[[0, 0, 0]]);
    for [cell, bank, bin] in [[0, 1, 0], [2, 0, 0], [1, 0, 0]] {
        let emitted = three.perform(&Call::Emit { cell, bank, bin, room: 50 });
        assert!(matches!(emitted, Reply::Frame(_)), "{emitted:?}");
        three.perform(&Call::Tick { samples: vec![0x03; 9] });
        assert_eq!(put(&mut three, LAST, [0, 0, 1]), Reply::Number(3));
        assert_eq!(three.perform(&Call::Pick { room: 49 }), Reply::Refused(10));
        three.perform(&Call::Page { room: SHAPE.page_length() });
        three.perform(&Call::Forecast { cell });
    }
    expect_picks(&mut three, &[[1, 0, 1], [2, 1, 1], [0, 0, 1]]);
    nothing_ready(&mut three);
}

/// A picked frame is the one that an emission of that bin gives, with the bin's ticks, stamp and block.
#[test]
fn as_an_emission_does() {
    let mut random = Random::new(9_000_000);
    let mut three = Three::new(Shape { bins: 4, blocks: 2, start: 7, lags: 6, second: 5, ..SHAPE });
    for turn in 0..4 {
        three.ticks(&mut random, 5 + turn);
        for cell in 0..3 {
            let (bank, phase) = (turn % 2, turn / 2);
            three.perform(&Call::Dump { cell, command: LAST, bank, phase, room: 0 });
            three.perform(&Call::Integrate { cell });
        }
    }
    let shape = three.model.shape;
    let room = shape.frame_length();
    let mut frames = 0;
    loop {
        let mut mem = three.mem.clone();
        let Reply::Frame(bytes) = three.perform(&Call::Pick { room }) else {
            break;
        };
        let [cell, bank, bin] = named(shape.lags, &bytes);
        let emitted = perform(&shape.numbers(), &mut mem, &Call::Emit { cell, bank, bin, room });
        assert_eq!(emitted, Reply::Frame(bytes), "cell {cell}, bank {bank}, bin {bin}");
        frames += 1;
    }
    three.compare();
    assert_eq!(frames, 12);
}

/// After 010 a bin is Ready and is counted once: out of Free, on a Filling bin, and after loss 5; not where it was
/// Ready before.
#[test]
fn what_makes_a_bin_ready() {
    for (state, ticks, command, answer, ready) in [
        (FREE, 0, LAST, 0, [0, 1]),
        (FILLING, 9, LAST, 0, [0, 1]),
        (FILLING, BIN_LIMIT, LAST, 5, [0, 1]),
        (READY, 9, LAST, 3, [1, 1]),
        (READY, BIN_LIMIT, LAST, 3, [1, 1]),
        (FREE, 0, ADD, 0, [0, 0]),
        (FILLING, BIN_LIMIT, ADD, 5, [0, 0]),
        (FILLING, 9, SAVE, 4, [0, 0]),
    ] {
        let mut run = Run::new(SHAPE);
        let cell = &mut run.cells[1];
        (cell.bins[3].state, cell.bins[3].row.ticks, cell.ready) = (state, ticks, ready[0]);
        (cell.held.occupied, cell.held.command, cell.held.row.ticks) = (1, command, 4);
        (cell.held.bank, cell.held.bin) = (1, 1);
        let mut mem = layout::words(&mut run);
        let integrate = Call::Integrate { cell: 1 };
        assert_eq!(perform(&SHAPE.numbers(), &mut mem, &integrate), Reply::Number(answer));
        let (at, _) = layout::picks_of(&run, 1);
        assert_eq!(mem[at..at + 2], [ready[1], 0], "state {state}, {ticks} ticks, {command:03b}");
        assert_eq!(run.perform(&integrate, never), Reply::Number(answer));
        assert!(mem == layout::words(&mut run), "state {state}, {ticks} ticks, {command:03b}");
        let picked = perform(&SHAPE.numbers(), &mut mem, &Call::Pick { room: 50 });
        assert_eq!(picked, run.perform(&Call::Pick { room: 50 }, never));
        assert_eq!(picked == Reply::Refused(20), ready[1] == 0, "{picked:?}");
        assert!(mem == layout::words(&mut run), "state {state}, {ticks} ticks, {command:03b}, picked");
    }
}

/// A run with some ticks in a Ready bin of its last cell.
fn with_ticks(random: &mut Random, lags: u64) -> Three {
    let mut three = Three::new(Shape { lags, ..SHAPE });
    three.ticks(random, 20);
    make_ready(&mut three, &[[2, 1, 0]]);
    three
}

/// Buffers of every length up to some bytes more than a frame, in the midst of bytes that are not lent: a shorter one
/// is left as it is, and so is what stands behind the frame.
#[test]
fn buffers_of_every_length() {
    let mut random = Random::new(9_000_001);
    for lags in [2, 4, 30, 128] {
        let mut three = with_ticks(&mut random, lags);
        let (shape, before) = (three.model.shape, three.mem.clone());
        let length = shape.frame_length();
        let Reply::Frame(frame) = three.perform(&Call::Pick { room: length }) else {
            panic!("no frame of {shape:?}");
        };
        assert_eq!(frame.len(), length);
        let front = 70;
        let around = random.bytes(front + length + 130);
        for room in 0..length + 60 {
            let (mut mem, mut bytes) = (before.clone(), around.clone());
            let result = outcome(ffi::pick(&shape.numbers(), &mut mem, &mut bytes[front..front + room]));
            let (mut told, mut words, mut expected) = (Err(10), &before, around.clone());
            if room >= length {
                (told, words) = (Ok(length as u64), &three.mem);
                expected[front..front + length].copy_from_slice(&frame);
            }
            assert_eq!(result, told, "{room} of {shape:?}");
            assert!(bytes == expected, "bytes in and around {room} of {shape:?}");
            assert!(mem == *words, "words after {room} of {shape:?}");
        }
    }
}
