//! What a forecast of n says, on random lists: of the accepted ticks behind it, with no accepted dump of the cell but
//! 111 between them, the first n join the cell's Open, and each one after them is held off.
use std::collections::BTreeMap;

use crate::call::{Call, Reply, Shape};
use crate::damage::never;
use crate::driver::perform;
use crate::generator;
use crate::layout;
use crate::lists::Pair;
use crate::random::Random;
use crate::rules::{IDLE, OPEN_LIMIT, RUN_LIMIT};
use crate::signed::{Cell, Run};
use crate::tally::Tally;

const LISTS: u64 = 6_000;

/// A tick whose samples are all invalid.
fn blank(shape: &Shape) -> Call {
    Call::Tick { samples: [0x07, 0x08, 0].repeat(shape.cells as usize) }
}

/// So many blank ticks. Once the registers have no other entries, each adds to the ticks of Open or of loss 6 and to
/// nothing else, so that the rest comes at once.
fn pass(pair: &mut Pair, count: u64) {
    let shape = pair.model.shape;
    let singly = count.min(shape.lags / 2 + 1);
    for _ in 0..singly {
        pair.perform(&blank(&shape), &mut Tally::default());
    }
    pair.compare_words();
    let rest = count - singly;
    pair.model.t += rest;
    for cell in &mut pair.model.cells {
        let joining = rest.min(OPEN_LIMIT - cell.open.ticks);
        cell.open.ticks += joining;
        cell.losses[5].ticks += rest - joining;
    }
    pair.mem = layout::words(&mut pair.model);
}

/// Of each cell, the ticks of Open by the words of memory, and those of loss 6 by a reading.
fn counts(pair: &mut Pair) -> Vec<[u64; 2]> {
    let shape = pair.model.shape;
    let mut run = Run::new(shape);
    layout::load(&mut run, &pair.mem);
    let count = |(cell, place): (u64, &Cell)| {
        let reading = Call::Reading { cell, lag: 0, loss: 6, room: [2, 3] };
        match perform(&shape.numbers(), &mut pair.mem, &reading) {
            Reply::Sums([_, _, lost, ..]) => [place.open.ticks, lost as u64],
            other => panic!("{reading:?} of {shape:?}: {other:?}"),
        }
    };
    (0..).zip(&run.cells).map(count).collect()
}

/// The cell that a call names.
fn named(call: &Call) -> Option<u64> {
    match *call {
        Call::Tick { .. } | Call::Pick { .. } | Call::Page { .. } => None,
        Call::Dump { cell, .. } | Call::Integrate { cell } | Call::Emit { cell, .. } => Some(cell),
        Call::Reading { cell, .. } | Call::Forecast { cell } => Some(cell),
    }
}

/// The calls behind forecasts: all of them, and those that name the forecast's cell or another one; with its cell also
/// what became there of accepted ticks.
#[derive(Default)]
struct Calls {
    all: Tally,
    own: Tally,
    others: Tally,
}

impl Calls {
    /// Nothing is missing that could stand between the ticks.
    fn check(&self) {
        let Calls { all, own, others } = self;
        all.met("tick", &["accepted", "held off"]);
        all.met("tick", &["refusal 1", "refusal 2", "refusal 3", "refusal 19", "refusal 4"]);
        all.met("page", &["accepted", "refusal 1", "refusal 2", "refusal 10"]);
        all.met("pick", &["accepted", "refusal 1", "refusal 2", "refusal 10", "refusal 20"]);
        own.met("tick", &["joins", "joins, another held off", "held off", "held off, another held off"]);
        own.met("dump", &["answer 7", "refusal 6", "refusal 7", "refusal 10"]);
        own.met("integrate", &["answer 0", "answer 3", "answer 4", "refusal 8"]);
        own.met("emit", &["accepted", "refusal 7", "refusal 9", "refusal 10"]);
        own.met("reading", &["accepted", "refusal 10", "refusal 12"]);
        others.met("dump", &["answer 0", "answer 1", "answer 2", "a frame", "refusal 5"]);
        others.met("integrate", &["answer 0", "refusal 5"]);
        others.met("emit", &["accepted"]);
    }
}

/// A forecast in the midst of a list.
struct Asked {
    pair: Pair,
    cell: u64,
    forecast: u64,
    /// The accepted ticks behind it.
    ticks: u64,
}

impl Asked {
    /// Most lists bring Open next to its limit or up to it, some of them next to the end of the run.
    fn new(list: u64) -> Asked {
        let mut random = Random::new(3_000_000 + list);
        let shape = generator::small_shape(&mut random);
        let mut pair = Pair::new(random, shape);
        if pair.generator.random.once_in(4) {
            let before = pair.generator.random.below(40);
            pass(&mut pair, RUN_LIMIT - OPEN_LIMIT - before);
        }
        for _ in 0..pair.generator.random.below(100) {
            pair.step(&mut Tally::default());
        }
        let cell = pair.generator.random.below(shape.cells);
        if !pair.generator.random.once_in(8) {
            let (few, past) = (pair.generator.random.within(2, 40), pair.generator.random.below(4));
            let left = pair.generator.random.pick(&[0, 1, few, few]);
            let room = OPEN_LIMIT - pair.model.cell(cell).open.ticks;
            let count = if left == 0 { room + past } else { room.saturating_sub(left) };
            let most = RUN_LIMIT - pair.model.t;
            pass(&mut pair, count.min(most));
        }
        let mut asked = Asked { pair, cell, forecast: 0, ticks: 0 };
        asked.forecast = asked.ask();
        assert_eq!(asked.forecast, OPEN_LIMIT - counts(&mut asked.pair)[cell as usize][0], "{shape:?}");
        asked
    }

    fn ask(&mut self) -> u64 {
        match self.pair.perform(&Call::Forecast { cell: self.cell }, &mut Tally::default()) {
            Reply::Number(ticks) => ticks,
            other => panic!("a forecast: {other:?}"),
        }
    }

    /// A random call; 111 in the place of any other command of a dump of the cell that is accepted.
    fn call(&mut self) -> Call {
        let mut call = self.pair.generator.call(&self.pair.model);
        let accepted = self.pair.model.refusal(&call, never).is_none();
        if let Call::Dump { cell, ref mut command, .. } = call {
            if accepted && cell == self.cell {
                *command = IDLE;
            }
        }
        call
    }

    /// One call behind the forecast: what it leaves of the cell's Open and loss 6, and whom a tick's answer counts.
    fn step(&mut self, calls: &mut Calls) {
        let call = self.call();
        let before = counts(&mut self.pair);
        let reply = self.pair.perform(&call, &mut calls.all);
        let after = counts(&mut self.pair);
        let [mut open, mut lost] = before[self.cell as usize];
        if let (Call::Tick { .. }, Reply::Number(held_off)) = (&call, &reply) {
            let grown = before.iter().zip(&after).filter(|([_, before], [_, after])| after > before);
            assert_eq!(*held_off, grown.count() as u64, "cells held off");
            self.ticks += 1;
            let joins = self.ticks <= self.forecast;
            open += u64::from(joins);
            lost += u64::from(!joins);
            let way = if joins { "joins" } else { "held off" };
            let others = if *held_off > u64::from(!joins) { ", another held off" } else { "" };
            calls.own.add("tick", format!("{way}{others}"));
        }
        let (n, ticks) = (self.forecast, self.ticks);
        let place = format!("{call:?}, {ticks} ticks behind a forecast of {n}");
        assert_eq!(after[self.cell as usize], [open, lost], "{place}");
        assert_eq!(self.ask(), n.saturating_sub(ticks), "{place}");
        match named(&call) {
            Some(cell) if cell == self.cell => calls.own.count(&call, &reply),
            Some(_) => calls.others.count(&call, &reply),
            None => {}
        }
    }
}

/// What the ticks behind a forecast show of it.
fn shown(asked: &Asked) -> &'static str {
    let Asked { forecast, ticks, .. } = *asked;
    match forecast {
        0 if ticks > 0 => "held off at once",
        1.. if ticks > forecast => "held off later",
        1.. if asked.pair.model.t == RUN_LIMIT => "the run ends first",
        _ => "not reached",
    }
}

#[test]
fn the_ticks_behind_a_forecast() {
    let mut calls = Calls::default();
    let mut lists: BTreeMap<&str, u64> = BTreeMap::new();
    let (mut joined, mut held_off) = (0, 0);
    for list in 0..LISTS {
        let mut asked = Asked::new(list);
        for _ in 0..asked.pair.generator.random.below(150) {
            asked.step(&mut calls);
        }
        asked.pair.compare_words();
        *lists.entry(shown(&asked)).or_default() += 1;
        joined += asked.ticks.min(asked.forecast);
        held_off += asked.ticks.saturating_sub(asked.forecast);
    }
    let total = calls.all.total();
    println!("forecasts: {total} calls behind {LISTS}, {joined} ticks join, {held_off} held off; {lists:?}");
    for kind in ["held off at once", "held off later", "the run ends first", "not reached"] {
        assert!(lists.get(kind) >= Some(&(LISTS / 20)), "{kind}: {lists:?}");
    }
    calls.check();
}

/// The words are those that as many ticks give one by one, some of them held off.
#[test]
fn blank_ticks_at_once() {
    let shape = Shape { cells: 2, lags: 4, bins: 1, blocks: 1, start: 0, rate: 1000, second: 5 };
    let count = OPEN_LIMIT + 10;
    let mut tally = Tally::default();
    let [mut singly, mut at_once] = [0, 1].map(|_| {
        let mut pair = Pair::new(Random::new(3), shape);
        (0..100).for_each(|_| drop(pair.step(&mut Tally::default())));
        pair
    });
    for _ in 0..count {
        singly.perform(&blank(&shape), &mut tally);
    }
    pass(&mut at_once, count);
    assert!(singly.mem == at_once.mem, "words after {count} ticks");
    tally.met("tick", &["accepted", "held off"]);
}
