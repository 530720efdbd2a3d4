//! Lists of random calls from a fresh run on.
use std::collections::BTreeSet;

use lta::ffi;

use crate::call::{Call, Reply, Shape};
use crate::damage::never;
use crate::driver::{fresh, outcome, perform};
use crate::generator::{self, Generator};
use crate::layout;
use crate::machine::Machine;
use crate::random::Random;
use crate::rules::host_refusal;
use crate::signed::{Cell, Run};
use crate::tally::{Found, Tally};

const LONG_LISTS: u64 = 2_600;
const LONG_CALLS: usize = 4_000;
const SHORT_LISTS: u64 = 600;
const SHORT_CALLS: usize = 400;

/// The same list of calls for the engine and for the signed model.
pub struct Pair {
    pub generator: Generator,
    numbers: [u64; 7],
    pub mem: Vec<u64>,
    pub model: Run,
    /// The reply to each cell's latest dump.
    dumped: Vec<Reply>,
}

/// A call with another shape or length of work memory, and a setup with them: both are refused and change nothing, nor
/// the word behind the memory.
pub fn refused_host(
    mem: &mut Vec<u64>,
    (numbers, length): &(Vec<u64>, usize),
    spare: u64,
    call: &Call,
) -> Reply {
    let expected = host_refusal(numbers, *length).expect("1 or 2");
    mem.push(spare);
    let reply = perform(numbers, &mut mem[..*length], call);
    assert_eq!(reply, Reply::Refused(expected), "{call:?} with {numbers:?}, {length} words");
    let setup = outcome(ffi::setup(numbers, &mut mem[..*length]));
    assert_eq!(setup, Err(expected), "setup with {numbers:?}, {length} words");
    assert_eq!(mem.pop(), Some(spare), "a word behind the memory");
    reply
}

impl Pair {
    pub fn new(random: Random, shape: Shape) -> Pair {
        let mut model = Run::new(shape);
        let mem = fresh(&shape);
        assert!(mem == layout::words(&mut model), "a fresh run of {shape:?}");
        let generator = Generator::new(random, shape);
        let dumped = vec![Reply::Number(0); model.cells.len()];
        Pair { generator, numbers: shape.numbers(), mem, model, dumped }
    }

    /// A call of the engine with another shape or length, which is refused.
    fn refused_host(&mut self, call: &Call, tally: &mut Tally) {
        let host = self.generator.wrong_host(self.mem.len());
        let spare = self.generator.random.next();
        let reply = refused_host(&mut self.mem, &host, spare, call);
        tally.count(call, &reply);
    }

    /// A random call of both.
    pub fn step(&mut self, tally: &mut Tally) -> (Call, Reply) {
        let call = self.generator.call(&self.model);
        let reply = self.perform(&call, tally);
        (call, reply)
    }

    /// A call of both; the engine's reply must be the model's.
    pub fn perform(&mut self, call: &Call, tally: &mut Tally) -> Reply {
        if self.generator.random.once_in(64) {
            self.refused_host(call, tally);
        }
        let (found, places) = (self.found(call), self.places(call));
        let reply = perform(&self.numbers, &mut self.mem, call);
        let expected = self.model.perform(call, never);
        let shape = self.model.shape;
        assert_eq!(reply, expected, "{call:?} of {shape:?}");
        self.compare_counters(call);
        tally.count(call, &reply);
        if let Some(found) = found {
            tally.count_step(&shape, &found, self.model.cells[found.cell].block, &reply);
            self.dumped[found.cell] = reply.clone();
        }
        if let (Some(places), Reply::Frame(_)) = (places, &reply) {
            self.count_turns(places, tally);
        }
        reply
    }

    /// What a dump finds in its cell, if the run has that cell.
    fn found(&self, call: &Call) -> Option<Found> {
        let Call::Dump { cell, command, .. } = *call else {
            return None;
        };
        let cell = usize::try_from(cell).ok()?;
        let &Cell { block, last, ref held, ref open, .. } = self.model.cells.get(cell)?;
        let (occupied, ticks, reply) = (held.occupied == 1, open.ticks, self.dumped[cell].clone());
        Some(Found { cell, command, block, last, occupied, ticks, reply })
    }

    /// The cell last served and the bin last picked in each cell, ahead of a pick.
    fn places(&self, call: &Call) -> Option<(u64, Vec<u64>)> {
        let picked = || self.model.cells.iter().map(|cell| cell.picked).collect();
        matches!(call, Call::Pick { .. }).then(|| (self.model.served, picked()))
    }

    /// What a pick took behind these places.
    fn count_turns(&self, (served, picked): (u64, Vec<u64>), tally: &mut Tally) {
        let Run { shape, served: cell, .. } = self.model;
        tally.count_turn("cell", served, cell, shape.cells);
        tally.count_turn("bin", picked[cell as usize], self.model.cell(cell).picked, 2 * shape.bins);
    }

    /// The run's place of picks, and of each cell the current block, the last command, the number of Ready bins and
    /// the place of picks.
    fn compare_counters(&self, call: &Call) {
        let shape = self.model.shape;
        let (at, expected) = layout::next_cell_of(&self.model);
        assert_eq!(self.mem[at], expected, "place of {shape:?} after {call:?}");
        for cell in 0..self.model.cells.len() {
            for (at, expected) in [layout::block_of(&self.model, cell), layout::picks_of(&self.model, cell)] {
                assert_eq!(self.mem[at..at + 2], expected, "cell {cell} of {shape:?} after {call:?}");
            }
        }
    }

    pub fn compare_words(&mut self) {
        let expected = layout::words(&mut self.model);
        if let Some(at) = (0..expected.len()).find(|&at| self.mem[at] != expected[at]) {
            let kind = layout::kinds(self.model.shape)[at];
            let (found, wanted) = (self.mem[at], expected[at]);
            panic!("word {at}, {kind:?}, of {:?}: {found}, expected {wanted}", self.model.shape);
        }
    }
}

#[test]
fn ten_million_calls() {
    let mut tally = Tally::default();
    let mut words: u64 = 0;
    let mut shapes = Vec::new();
    for list in 0..LONG_LISTS {
        let mut random = Random::new(list);
        let shape = generator::shape(&mut random);
        shapes.push(shape);
        let mut pair = Pair::new(random, shape);
        let interval = 200.max(pair.mem.len() / 20);
        for call in 1..=LONG_CALLS {
            pair.step(&mut tally);
            if call % interval == 0 || call == LONG_CALLS {
                pair.compare_words();
                words += pair.mem.len() as u64;
            }
        }
    }
    tally.print("long lists");
    println!("  {LONG_LISTS} shapes, {words} words of memory compared");
    assert!(tally.total() >= 10_000_000);
    assert!(tally.times("dump", "a frame") >= 200_000);
    assert!(tally.times("pick", "accepted") >= 100_000);
    check_outcomes(&tally);
    check_shapes(&shapes);
    tally.stepped(500);
    tally.turned(500);
    tally.met("block", &["from the last of 256"]);
}

/// Of the shapes that a phase bin fits, M reaches both of its ends, and S is often above 0.
fn check_shapes(shapes: &[Shape]) {
    let fitting: Vec<_> = shapes.iter().filter(|shape| shape.blocks <= shape.bins).collect();
    let blocks: BTreeSet<u64> = fitting.iter().map(|shape| shape.blocks).collect();
    let started = fitting.iter().filter(|shape| shape.start > 0).count();
    let (fit, values) = (fitting.len(), blocks.len());
    println!("  a phase bin fits {fit} shapes: {values} values of M, S above 0 in {started}");
    assert_eq!((blocks.first(), blocks.last()), (Some(&1), Some(&256)), "values of M");
    assert!(2 * started > shapes.len(), "{started} shapes with S above 0");
}

/// Everything has happened that can in a list without limits reached or memory altered.
pub fn check_outcomes(tally: &Tally) {
    tally.met("tick", &["accepted", "refusal 1", "refusal 2", "refusal 3", "refusal 19"]);
    tally.met("dump", &["answer 0", "answer 1", "answer 2", "answer 7", "a frame", "a frame, room left"]);
    tally.met("dump", &["refusal 1", "refusal 2", "refusal 5", "refusal 6", "refusal 7", "refusal 10"]);
    tally.met("integrate", &["answer 0", "answer 3", "answer 4"]);
    tally.met("integrate", &["refusal 1", "refusal 2", "refusal 5", "refusal 8"]);
    tally.met("emit", &["accepted", "refusal 1", "refusal 2", "refusal 5", "refusal 7"]);
    tally.met("emit", &["refusal 9", "refusal 10"]);
    tally.met("pick", &["accepted", "refusal 1", "refusal 2", "refusal 20", "refusal 10"]);
    tally.met("reading", &["accepted", "refusal 1", "refusal 2", "refusal 5"]);
    tally.met("reading", &["refusal 10", "refusal 12"]);
    tally.met("forecast", &["accepted", "refusal 1", "refusal 2", "refusal 5"]);
    tally.met("page", &["accepted", "refusal 1", "refusal 2", "refusal 10"]);
}

#[test]
fn the_plain_machine_on_short_lists() {
    let mut tally = Tally::default();
    for list in 0..SHORT_LISTS {
        let mut random = Random::new(1_000_000 + list);
        let shape = generator::small_shape(&mut random);
        let mut pair = Pair::new(random, shape);
        let mut machine = Machine::new(shape);
        for at in 1..=SHORT_CALLS {
            let (call, reply) = pair.step(&mut tally);
            let expected = machine.perform(&call);
            assert_eq!(reply, expected, "{call:?} of {shape:?}");
            if at % 40 == 0 {
                assert!(machine.summed() == pair.model, "sums of {shape:?} after {at} calls");
                pair.compare_words();
            }
        }
    }
    tally.print("short lists, with the plain machine");
    tally.stepped(20);
    tally.turned(20);
    tally.met("pick", &["accepted", "refusal 20", "refusal 10"]);
    tally.met("page", &["accepted", "refusal 10"]);
}
