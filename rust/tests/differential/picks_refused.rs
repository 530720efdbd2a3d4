//! Picks that are refused: damaged memory word by word, and the order of the refusals. What the numbers of Ready bins
//! are to an integration and an emission, clause by clause, and to no other call.
use std::collections::BTreeSet;

use crate::altered::near_limit;
use crate::call::{Call, Reply, Shape};
use crate::damage;
use crate::driver::{fresh, perform};
use crate::layout;
use crate::lists::Pair;
use crate::pages_refused::no_shape;
use crate::random::Random;
use crate::rules::{cell_at, ADD, FILLING, FREE, LAST, READY, RUN_LIMIT};
use crate::signed::Run;
use crate::tally::Tally;

/// The words that a pick tests: t and the run's place, and of every cell its number of Ready bins, its place and its
/// bins.
fn tested(shape: &Shape) -> BTreeSet<usize> {
    let before_bins = 10 + 8 * (3 + 2 * shape.lags as usize) + 2 * (shape.lags as usize / 2 + 1);
    let of_cell = |cell: usize| {
        let (start, end) = (cell_at(shape, cell), cell_at(shape, cell + 1));
        (start + 8..start + 10).chain(start + before_bins..end)
    };
    (0..shape.cells as usize).flat_map(of_cell).chain([0, cell_at(shape, shape.cells as usize)]).collect()
}

/// Is a pick on these words refused by 11? It is so with a buffer of any length, whether or not a bin is Ready. The
/// reply and the words afterwards must be the model's.
fn refused(run: &Run, mem: &[u64]) -> bool {
    let length = run.shape.frame_length();
    let replies = [length, length + 9, length - 1, 0].map(|room| {
        let (mut run, mut words, call) = (run.clone(), mem.to_vec(), Call::Pick { room });
        let reply = perform(&run.shape.numbers(), &mut words, &call);
        assert_eq!(reply, run.perform(&call, damage::found), "{call:?} of {:?}", run.shape);
        assert!(words == layout::words(&mut run), "words after {call:?} of {:?}", run.shape);
        reply == Reply::Refused(11)
    });
    assert!(replies == [replies[0]; 4], "{replies:?}");
    replies[0]
}

/// The words whose values near their limits make picks refused, in the midst of a list; and how many values did not.
fn refused_words(random: &mut Random, shape: Shape) -> (BTreeSet<usize>, u64) {
    let mut pair = Pair::new(Random::new(random.next()), shape);
    (0..300).for_each(|_| drop(pair.step(&mut Tally::default())));
    let kinds = layout::kinds(shape);
    let (mut mem, mut bad, mut accepted) = (pair.mem, BTreeSet::new(), 0);
    for at in 0..mem.len() {
        for turn in 0..12 {
            let near = near_limit(random, kinds[at], &mem, &shape);
            let sound = std::mem::replace(&mut mem[at], if turn == 0 { u64::MAX } else { near });
            layout::load(&mut pair.model, &mem);
            if refused(&pair.model, &mem) {
                bad.insert(at);
            } else {
                accepted += 1;
            }
            mem[at] = sound;
        }
    }
    (bad, accepted)
}

/// Each word that is tested is refused at times, and no other word ever is.
#[test]
fn every_word_altered() {
    let mut random = Random::new(10_000_000);
    let mut accepted = 0;
    for (cells, lags, bins) in [(1, 2, 1), (1, 4, 3), (2, 4, 2), (3, 6, 1), (16, 2, 1)] {
        for blocks in [1, bins] {
            let shape = Shape { cells, lags, bins, blocks, start: 5, rate: 1000, second: 5 };
            let (bad, sound) = refused_words(&mut random, shape);
            assert_eq!(bad, tested(&shape), "words refused of {shape:?}");
            accepted += sound;
        }
    }
    println!("picks with a word altered: {accepted} not refused by 11");
    assert!(accepted > 1000);
}

const SHAPE: Shape = Shape { cells: 2, lags: 2, bins: 2, blocks: 1, start: 0, rate: 4, second: 0 };

/// The words of a run whose cell 1 has this Ready number, whatever its bins are: bank 1, bin 0 is in this state, and
/// Held is for it where it is occupied.
fn with_number(number: u64, state: u64, occupied: u64, command: u64) -> Vec<u64> {
    let mut run = Run::new(SHAPE);
    let cell = &mut run.cells[1];
    (cell.ready, cell.bins[2].state) = (number, state);
    (cell.held.occupied, cell.held.command, cell.held.bank) = (occupied, command, 1);
    layout::words(&mut run)
}

/// "where the cell's Ready number is above 2B, or is 0 though the bin tested is Ready, or 2B though it isn't"; B is 2.
fn wrong(number: u64, state: u64) -> bool {
    number > 4 || (number == 0 && state == READY) || (number == 4 && state != READY)
}

/// What the call replies, and the Ready number of cell 1 afterwards.
fn with_reply(mut mem: Vec<u64>, call: &Call) -> (Reply, u64) {
    let before = mem.clone();
    let reply = perform(&SHAPE.numbers(), &mut mem, call);
    assert!(!matches!(reply, Reply::Refused(_)) || mem == before, "a refused {call:?} changed memory");
    (reply, mem[cell_at(&SHAPE, 1) + 8])
}

const NUMBERS: [u64; 9] = [0, 1, 2, 3, 4, 5, 6, 1 << 32, u64::MAX];
const STATES: [u64; 3] = [FREE, FILLING, READY];

/// A wrong number is refused by 11, ahead of 9 and 10; an emission that is accepted lowers it by one.
#[test]
fn numbers_in_an_emission() {
    for (number, state) in NUMBERS.into_iter().flat_map(|number| STATES.map(|state| (number, state))) {
        let mem = with_number(number, state, 0, 0);
        for room in [50, 49] {
            let (reply, after) = with_reply(mem.clone(), &Call::Emit { cell: 1, bank: 1, bin: 0, room });
            let expected = match (wrong(number, state), state == READY, room) {
                (true, _, _) => Some(11),
                (_, false, _) => Some(9),
                (_, _, 49) => Some(10),
                _ => None,
            };
            let place = format!("{number} Ready, state {state}, {room} bytes: {reply:?}");
            assert_eq!(expected.is_none(), matches!(reply, Reply::Frame(_)), "{place}");
            assert!(expected.is_none_or(|refusal| reply == Reply::Refused(refusal)), "{place}");
            assert_eq!(after, number - u64::from(expected.is_none()), "{place}");
        }
    }
}

/// A wrong number is refused by 11, and where the bin becomes Ready, it is raised by one. With Held unoccupied no bin
/// is tested, and a number above 2B alone is refused, ahead of 8.
#[test]
fn numbers_in_an_integration() {
    let integrate = Call::Integrate { cell: 1 };
    for (number, state) in NUMBERS.into_iter().flat_map(|number| STATES.map(|state| (number, state))) {
        for command in [ADD, LAST] {
            let (reply, after) = with_reply(with_number(number, state, 1, command), &integrate);
            let place = format!("{number} Ready, state {state}, {command:03b}: {reply:?}");
            let answer = if state == READY { 3 } else { 0 };
            let told = if wrong(number, state) { Reply::Refused(11) } else { Reply::Number(answer) };
            assert_eq!(reply, told, "{place}");
            let raised = reply == Reply::Number(0) && command == LAST;
            assert_eq!(after, number + u64::from(raised), "{place}");
            let (reply, _) = with_reply(with_number(number, state, 0, command), &integrate);
            assert_eq!(reply, Reply::Refused(if number > 4 { 11 } else { 8 }), "unoccupied, {place}");
        }
    }
}

/// Any number and any places: the other calls do as without them and leave them, and so do an emission and an
/// integration of another cell.
#[test]
fn no_other_call_looks_at_them() {
    let (samples, room) = (vec![0x03; 6], 54);
    let dump = |cell, command| Call::Dump { cell, command, bank: 0, phase: 0, room };
    let of_cell = |cell| [dump(cell, ADD), dump(cell, 0b011), dump(cell, 0b100), dump(cell, 0b111)];
    let reading = Call::Reading { cell: 1, lag: 0, loss: 1, room: [2, 3] };
    let others = [Call::Integrate { cell: 0 }, dump(0, LAST), Call::Integrate { cell: 0 }];
    let emit = Call::Emit { cell: 0, bank: 0, bin: 0, room };
    let reads = [reading, Call::Forecast { cell: 1 }, Call::Page { room: SHAPE.page_length() }, emit];
    let calls: Vec<Call> = [Call::Tick { samples }].into_iter().chain(of_cell(1)).chain(of_cell(0)).collect();
    for (number, place) in NUMBERS.into_iter().flat_map(|number| NUMBERS.map(|place| (number, place))) {
        let mut sound = fresh(&SHAPE);
        let (at, last) = (cell_at(&SHAPE, 1) + 8, sound.len() - 1);
        let mut altered = sound.clone();
        (altered[last], altered[at], altered[at + 1]) = (place, number, place);
        for call in calls.iter().chain(&others).chain(&reads) {
            let reply = perform(&SHAPE.numbers(), &mut sound, call);
            assert!(!matches!(reply, Reply::Refused(_)), "{call:?}: {reply:?}");
            assert_eq!(perform(&SHAPE.numbers(), &mut altered, call), reply, "{call:?}");
            let mut expected = sound.clone();
            (expected[last], expected[at], expected[at + 1]) = (place, number, place);
            assert!(altered == expected, "memory after {call:?}, {number} Ready, places {place}");
        }
    }
}

/// Memory that a pick refuses by 11, with a Ready bin or without: t, the run's place, the number of Ready bins and the
/// place of the last cell, and a stamp, a sum and a state of its last bin.
fn damage_words(mem: &mut [u64], shape: &Shape, way: usize) {
    let end = cell_at(shape, shape.cells as usize);
    let bin = end - (5 + 2 * shape.lags as usize);
    let last = cell_at(shape, shape.cells as usize - 1);
    match way {
        0 => mem[0] = RUN_LIMIT + 1,
        1 => mem[end] = shape.cells,
        2 => mem[last + 8] += 1,
        3 => mem[last + 9] = 2 * shape.bins,
        4 => mem[bin + 1] = 1,
        5 => mem[end - 1] = 1,
        _ => mem[bin] = 3,
    }
}

/// Every choice of faults among 1, 2, 11, 20 and 10, each fault in several ways: the first of them in that order is
/// told.
#[test]
fn refusals_in_their_order() {
    let shape = Shape { cells: 3, lags: 4, bins: 5, ..SHAPE };
    let length = shape.frame_length();
    for (way, faults) in (0..7).flat_map(|way| (0..32).map(move |faults| (way, faults))) {
        let has = |place: usize| faults >> place & 1 == 1;
        let numbers = if has(0) { no_shape(&shape, way) } else { shape.numbers().to_vec() };
        let mut run = Run::new(shape);
        if !has(3) {
            (run.cells[1].ready, run.cells[1].bins[way].state) = (1, READY);
        }
        let mut mem = layout::words(&mut run);
        if has(2) {
            damage_words(&mut mem, &shape, way);
        }
        if has(1) {
            let words = mem.len();
            mem.resize([words + 1, words - 1, 0, 2 * words][way % 4], 0);
        }
        let room = if has(4) { [length - 1, 0, 4, 1][way % 4] } else { length };
        let before = mem.clone();
        let reply = perform(&numbers, &mut mem, &Call::Pick { room });
        match (0..5).find(|place| has(*place)).map(|place| [1, 2, 11, 20, 10][place]) {
            Some(number) => assert_eq!(reply, Reply::Refused(number), "way {way}, faults {faults:05b}"),
            None => assert!(matches!(reply, Reply::Frame(_)), "{reply:?}"),
        }
        assert!(faults == 0 || mem == before, "way {way}, faults {faults:05b}");
    }
}
