//! Sums as great as they can be: -8 × -8 × 2 in every tick.
use lta::ffi;

use crate::call::{Call, Reply, Shape};
use crate::damage;
use crate::driver::{outcome, perform};
use crate::frame::words_of;
use crate::layout;
use crate::limits::Three;
use crate::rules::{BIN_LIMIT, FILLING, IDLE, LAST, OPEN_LIMIT, SPEED};
use crate::signed::{Row, Run};

const SHAPE: Shape = Shape { cells: 1, lags: 6, bins: 1, blocks: 1, start: 0, rate: 1000, second: 5 };
const TICKS: u64 = 50;

/// Where the row of Open stands: its ticks, and from the third word behind them its sums.
const OPEN: usize = 11;

/// A run whose Open has only ticks in which each lag adds the same: X has this byte, and Y a -8 of phase 0. The
/// registers are filled before, by ticks that are discarded.
fn alike(x: u8) -> Three {
    let mut three = Three::new(SHAPE);
    let tick = Call::Tick { samples: vec![x, 0x08, 0b11] };
    (0..3).for_each(|_| drop(three.perform(&tick)));
    assert_eq!(three.dump(0, 0b100), Reply::Number(1));
    (0..TICKS).for_each(|_| assert_eq!(three.perform(&tick), Reply::Number(0)));
    three.compare();
    three
}

/// What X is, and what each tick then adds to I and Q at each lag.
const EXTREMES: [(u8, [i64; 2]); 4] =
    [(0x08, [128, 0]), (0x48, [0, 128]), (0x88, [-128, 0]), (0xc8, [0, -128])];

/// Every tick adds 128 in size: the stored sums, and a speed frame that the reader accepts.
#[test]
fn every_tick_adds_the_most() {
    for (x, added) in EXTREMES {
        let mut three = alike(x);
        for (at, added) in (OPEN + 3..OPEN + 3 + 12).zip(added.into_iter().cycle()) {
            assert_eq!(three.mem[at] as i64, (128 + added) * TICKS as i64, "word {at}, X {x:02x}");
        }
        let Reply::Frame(bytes) = three.dump(0, SPEED) else {
            panic!("no speed frame, X {x:02x}");
        };
        let words = words_of(&bytes);
        assert_eq!(words[2..5], [50, 50, 50], "ticks and counts, X {x:02x}");
        assert_eq!(words[7], 6400, "DATA_BIAS, X {x:02x}");
        let sums: Vec<i64> = words[8..20].iter().map(|word| i64::from(*word as i32)).collect();
        assert_eq!(sums, added.map(|added| 50 * added).repeat(6), "X {x:02x}");
        assert_eq!(outcome(ffi::read_frame(6, &bytes, &mut [0; 10])), Ok(0), "X {x:02x}");
    }
}

/// Each stored sum of Open at 256 × ticks, where it is sound, and one above, where all calls that test Open refuse 11.
#[test]
fn a_stored_sum_at_its_limit() {
    let three = alike(0x08);
    let dump = |command| Call::Dump { cell: 0, command, bank: 0, phase: 0, room: 86 };
    let tick = Call::Tick { samples: vec![0x03; 3] };
    for (at, over) in (OPEN + 3..OPEN + 3 + 12).flat_map(|at| [(at, 0), (at, 1)]) {
        for call in [&tick, &Call::Forecast { cell: 0 }, &dump(IDLE), &dump(SPEED), &dump(LAST)] {
            let mut mem = three.mem.clone();
            mem[at] = 256 * TICKS + over;
            let before = mem.clone();
            let reply = perform(&SHAPE.numbers(), &mut mem, call);
            assert_eq!(reply == Reply::Refused(11), over == 1, "{call:?}, word {at}, {over}: {reply:?}");
            assert!(over == 0 || mem == before, "{call:?}, word {at}");
        }
    }
}

/// Sums of so many ticks that each added this much.
fn row(ticks: u64, added: i64) -> Row {
    Row { ticks, edge: ticks, centre: ticks, sums: vec![added * ticks as i64; 12] }
}

/// A full Held joins a bin, which then has as many ticks as it may and sums of 128 × ticks in size: they fit their
/// words of 32 bits, and the reader accepts the frame.
#[test]
fn the_greatest_frame() {
    for added in [128, -128] {
        let mut run = Run::new(SHAPE);
        let cell = &mut run.cells[0];
        (cell.held.occupied, cell.held.command) = (1, LAST);
        cell.held.row = row(OPEN_LIMIT, added);
        (cell.bins[0].state, cell.bins[0].row) = (FILLING, row(BIN_LIMIT - OPEN_LIMIT, added));
        let mut mem = layout::words(&mut run);
        let mut both = |call: Call| {
            let reply = perform(&SHAPE.numbers(), &mut mem, &call);
            assert_eq!(reply, run.perform(&call, damage::found), "{call:?}");
            reply
        };
        assert_eq!(both(Call::Integrate { cell: 0 }), Reply::Number(0));
        let Reply::Frame(bytes) = both(Call::Emit { cell: 0, bank: 0, bin: 0, room: 82 }) else {
            panic!("no frame of the bin");
        };
        let most = 2_147_483_520 * added.signum() as i32;
        assert_eq!(words_of(&bytes)[7..19], [most as u32; 12]);
        assert_eq!(outcome(ffi::read_frame(6, &bytes, &mut [0; 10])), Ok(0));
    }
}
