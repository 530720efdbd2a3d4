//! Speed dumps that are refused: damaged memory word by word, and the order of the refusals. A loss that can take no
//! more makes no difference to them.
use std::collections::BTreeSet;

use crate::altered::near_limit;
use crate::call::{Call, Reply, Shape};
use crate::damage;
use crate::driver::{fresh, perform};
use crate::layout;
use crate::lists::Pair;
use crate::pages_refused::no_shape;
use crate::random::Random;
use crate::rules::{cell_at, IDLE, OPEN_LIMIT, RUN_LIMIT, SPEED};
use crate::signed::Run;
use crate::tally::Tally;

fn dump(cell: u64, command: u64, room: usize) -> Call {
    Call::Dump { cell, command, bank: 1, phase: 0, room }
}

/// A call on a copy of the words: the reply and the words afterwards must be the model's.
fn compare(run: &Run, mem: &[u64], call: &Call) -> Reply {
    let (mut run, mut words) = (run.clone(), mem.to_vec());
    let reply = perform(&run.shape.numbers(), &mut words, call);
    let expected = run.perform(call, damage::found);
    assert_eq!(reply, expected, "{call:?} of {:?}", run.shape);
    assert!(words == layout::words(&mut run), "words after {call:?} of {:?}", run.shape);
    reply
}

/// Is a speed dump refused by 11? It is so with a buffer of any length, and a 111 is then refused too, which makes the
/// same tests; else a short buffer is refused by 10.
fn refused(run: &Run, mem: &[u64], cell: u64) -> bool {
    let length = run.shape.speed_length();
    let refused = compare(run, mem, &dump(cell, IDLE, 0)) == Reply::Refused(11);
    for room in [length, length + 9] {
        let reply = compare(run, mem, &dump(cell, SPEED, room));
        assert_eq!(reply == Reply::Refused(11), refused, "{room} bytes: {reply:?}");
        assert!(refused || matches!(reply, Reply::Frame(_)), "{room} bytes: {reply:?}");
    }
    for room in [0, length - 4, length - 1] {
        let told = if refused { 11 } else { 10 };
        assert_eq!(compare(run, mem, &dump(cell, SPEED, room)), Reply::Refused(told), "{room} bytes");
    }
    refused
}

/// The words that a dump of the cell tests: t, flag, label, stamps, block and last command, and the eight rows of Open,
/// Held and the losses.
fn tested(shape: &Shape, cell: u64) -> BTreeSet<usize> {
    let start = cell_at(shape, cell as usize);
    let rows = start + 10;
    let end = rows + 8 * (3 + 2 * shape.lags as usize);
    (start..start + 8).chain(rows..end).chain([0]).collect()
}

/// The words whose values near their limits make dumps of the cell refused, in the midst of a list; and how many values
/// did not.
fn refused_words(random: &mut Random, shape: Shape, cell: u64) -> (BTreeSet<usize>, u64) {
    let mut pair = Pair::new(Random::new(random.next()), shape);
    (0..200).for_each(|_| drop(pair.step(&mut Tally::default())));
    let kinds = layout::kinds(shape);
    let (mut mem, mut bad, mut accepted) = (pair.mem, BTreeSet::new(), 0);
    for at in 0..mem.len() {
        for turn in 0..12 {
            let near = near_limit(random, kinds[at], &mem, &shape);
            let sound = std::mem::replace(&mut mem[at], if turn == 0 { u64::MAX } else { near });
            layout::load(&mut pair.model, &mem);
            if refused(&pair.model, &mem, cell) {
                bad.insert(at);
            } else {
                accepted += 1;
            }
            mem[at] = sound;
        }
    }
    (bad, accepted)
}

/// Each word that is tested is refused at times, and no other word ever is.
#[test]
fn every_word_altered() {
    let mut random = Random::new(8_000_000);
    let mut sent = 0;
    for (cells, lags, bins) in [(1, 2, 1), (2, 4, 2), (3, 6, 3)] {
        let shape = Shape { cells, lags, bins, blocks: bins, start: 5, rate: 1000, second: 5 };
        for cell in 0..cells {
            let (bad, accepted) = refused_words(&mut random, shape, cell);
            assert_eq!(bad, tested(&shape, cell), "words refused in cell {cell} of {shape:?}");
            sent += accepted;
        }
    }
    println!("speed dumps with a word altered: {sent} sent");
    assert!(sent > 1000);
}

/// Every loss has as many ticks as it may, and Open some or as many as it may: what goes to no loss is not refused.
#[test]
fn beside_full_losses() {
    let shape = Shape { cells: 1, lags: 2, bins: 1, blocks: 1, start: 0, rate: 1, second: 0 };
    for (open, occupied) in [(7, 0), (7, 1), (OPEN_LIMIT, 0), (OPEN_LIMIT, 1)] {
        let mut run = Run::new(shape);
        let cell = &mut run.cells[0];
        cell.open.ticks = open;
        (cell.held.occupied, cell.held.row.ticks) = (occupied, 3 * occupied);
        cell.losses.iter_mut().for_each(|loss| loss.ticks = RUN_LIMIT);
        let mem = layout::words(&mut run);
        assert!(!refused(&run, &mem, 0), "{open} ticks, Held {occupied}");
        let discarded = compare(&run, &mem, &dump(0, 0b100, 0));
        assert_eq!(discarded, Reply::Refused(11), "{open} ticks, Held {occupied}");
        let added = if occupied == 1 { Reply::Refused(11) } else { Reply::Number(0) };
        assert_eq!(compare(&run, &mem, &dump(0, 0b001, 0)), added, "{open} ticks");
    }
}

/// Memory that a dump of cell 1 refuses by 11: t, the stamp of Open, the last command 011, and a sum of the last loss.
fn damaged(shape: &Shape, way: usize) -> Vec<u64> {
    let mut mem = fresh(shape);
    let start = cell_at(shape, 1);
    match way {
        0 => mem[0] = RUN_LIMIT + 1,
        1 => mem[start + 4] = 1,
        2 => mem[start + 7] = SPEED + 1,
        _ => mem[start + 9 + 8 * (3 + 2 * shape.lags as usize)] = 1,
    }
    mem
}

/// Every choice of faults among 1, 2, 5, 6, 7, 11 and 10, each fault in several ways: the first of them in that order
/// is told.
#[test]
fn refusals_in_their_order() {
    let shape = Shape { cells: 3, lags: 4, bins: 5, blocks: 2, start: 3, rate: 1000, second: 5 };
    let length = shape.speed_length();
    for (way, faults) in (0..4).flat_map(|way| (0..128).map(move |faults| (way, faults))) {
        let has = |place: usize| faults >> place & 1 == 1;
        let numbers = if has(0) { no_shape(&shape, way) } else { shape.numbers().to_vec() };
        let mut mem = if has(5) { damaged(&shape, way) } else { fresh(&shape) };
        if has(1) {
            let words = mem.len();
            mem.resize([words + 1, words - 1, 0, 2 * words][way], 0);
        }
        let cell = if has(2) { [3, 4, 1 << 32, u64::MAX][way] } else { 1 };
        let command = if has(3) { [5, 6, 8, u64::MAX][way] } else { SPEED };
        let (bank, phase) = if has(4) { [(2, 0), (0, 2), (u64::MAX, 0), (1, u64::MAX)][way] } else { (1, 1) };
        let room = if has(6) { [length - 1, 0, shape.frame_length(), 1][way] } else { length };
        let before = mem.clone();
        let reply = perform(&numbers, &mut mem, &Call::Dump { cell, command, bank, phase, room });
        match (0..7).find(|place| has(*place)).map(|place| [1, 2, 5, 6, 7, 11, 10][place]) {
            Some(number) => assert_eq!(reply, Reply::Refused(number), "way {way}, faults {faults:07b}"),
            None => assert!(matches!(reply, Reply::Frame(_)), "{reply:?}"),
        }
        assert!(faults == 0 || mem == before, "way {way}, faults {faults:07b}");
    }
}
