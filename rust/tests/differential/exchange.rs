//! Aerials exchanged, request 2026-08, on random lists: "two fresh runs of equal shape, the second given each tick with
//! X and Y exchanged (bytes and validity bits), and otherwise the same calls".
use std::collections::BTreeMap;

use crate::call::{Call, Reply, Shape};
use crate::damage::never;
use crate::driver::{fresh, perform};
use crate::exchange_alike::{readings, Alike, Comparison, Seen};
use crate::generator::{self, Generator};
use crate::layout;
use crate::lists::{check_outcomes, refused_host};
use crate::random::Random;
use crate::signed::Run;
use crate::tally::Tally;

const LISTS: u64 = 800;
const CALLS: usize = 1_500;

/// What is done to the bytes of a tick for the second run.
pub type Exchange = fn(&mut [u8]);

/// X and Y of each cell change places; of a cell cut short, as far as it goes.
pub fn exchange_bytes(samples: &mut [u8]) {
    for bytes in samples.chunks_mut(3) {
        if let [x, y, ..] = bytes {
            std::mem::swap(x, y);
        }
    }
}

/// Bits 0 and 1 of each validity byte change places, and the others stay.
pub fn exchange_bits(samples: &mut [u8]) {
    for bytes in samples.chunks_exact_mut(3) {
        let validity = bytes[2];
        bytes[2] = validity & !0b11 | (validity & 0b01) << 1 | (validity & 0b10) >> 1;
    }
}

pub fn exchange(samples: &mut [u8]) {
    exchange_bytes(samples);
    exchange_bits(samples);
}

#[test]
fn bytes_and_bits() {
    let rows: [(&[u8], &[u8]); 9] = [
        (&[], &[]),
        (&[7], &[7]),
        (&[7, 9], &[9, 7]),
        (&[7, 9, 0b00], &[9, 7, 0b00]),
        (&[7, 9, 0b01], &[9, 7, 0b10]),
        (&[7, 9, 0b10], &[9, 7, 0b01]),
        (&[7, 9, 0b11], &[9, 7, 0b11]),
        (&[7, 9, 0b1010_0101], &[9, 7, 0b1010_0110]),
        (&[1, 2, 1, 3, 4, 2, 5, 6], &[2, 1, 2, 4, 3, 1, 6, 5]),
    ];
    for (samples, exchanged) in rows {
        let mut bytes = samples.to_vec();
        exchange(&mut bytes);
        assert_eq!(bytes, exchanged);
        exchange(&mut bytes);
        assert_eq!(bytes, samples);
    }
}

/// What the pairs of lists have shown.
#[derive(Default)]
pub struct Findings {
    pub tally: Tally,
    pub comparison: Comparison,
    /// The first difference in the replies to each call, in the words of memory, and in the readings at the end.
    pub differences: BTreeMap<&'static str, String>,
}

impl Findings {
    fn note(&mut self, compared: &'static str, alike: Alike) {
        if let Err(difference) = alike {
            self.differences.entry(compared).or_insert(difference);
        }
    }

    fn replies(&mut self, call: &Call, lags: u64, replies: &[Reply; 2]) {
        self.tally.count(call, &replies[0]);
        let alike = self.comparison.replies(call, lags, replies);
        self.note(call.name(), alike);
    }
}

/// Two runs of the engine, the second with its ticks exchanged.
pub struct Two {
    generator: Generator,
    /// The first run by the signed model, in which the generator looks for labels.
    pub model: Run,
    pub mems: [Vec<u64>; 2],
    /// The runs whose words were compared last.
    loaded: [Run; 2],
    exchange: Exchange,
}

impl Two {
    pub fn new(random: Random, shape: Shape, exchange: Exchange) -> Two {
        let [model, one, other] = [0, 1, 2].map(|_| Run::new(shape));
        let mems = [0, 1].map(|_| fresh(&shape));
        Two { generator: Generator::new(random, shape), model, mems, loaded: [one, other], exchange }
    }

    /// A call for each of the runs.
    pub fn each(&mut self, calls: &[Call; 2]) -> [Reply; 2] {
        let numbers = self.model.shape.numbers();
        [0, 1].map(|run| perform(&numbers, &mut self.mems[run], &calls[run]))
    }

    /// The same call for both, but for the exchange of a tick.
    pub fn both(&self, call: &Call) -> [Call; 2] {
        let mut other = call.clone();
        if let Call::Tick { samples } = &mut other {
            (self.exchange)(samples);
        }
        [call.clone(), other]
    }

    pub fn perform(&mut self, call: &Call, findings: &mut Findings) -> Reply {
        let replies = self.each(&self.both(call));
        findings.replies(call, self.model.shape.lags, &replies);
        let [first, _] = replies;
        first
    }

    /// A call of both with another shape or length.
    fn refused_host(&mut self, call: &Call, findings: &mut Findings) {
        let host = self.generator.wrong_host(self.mems[0].len());
        let (spare, calls) = (self.generator.random.next(), self.both(call));
        let replies = [0, 1].map(|run| refused_host(&mut self.mems[run], &host, spare, &calls[run]));
        findings.replies(call, self.model.shape.lags, &replies);
    }

    /// A random call of both.
    fn step(&mut self, findings: &mut Findings) {
        let call = self.generator.call(&self.model);
        if self.generator.random.once_in(64) {
            self.refused_host(&call, findings);
        }
        self.perform(&call, findings);
        self.model.perform(&call, never);
    }

    /// So many ticks of both, a thousand over and over; answers how many cells were held off, all ticks together.
    pub fn ticks(&mut self, count: usize) -> u64 {
        let mut held_off = 0;
        let mut calls = Vec::new();
        for _ in 0..count.min(1_000) {
            let samples = self.generator.random.samples(self.model.shape.cells);
            calls.push(self.both(&Call::Tick { samples }));
        }
        for calls in calls.iter().cycle().take(count) {
            match self.each(calls) {
                [Reply::Number(first), Reply::Number(second)] if first == second => held_off += first,
                other => panic!("a tick: {other:?}"),
            }
        }
        held_off
    }

    pub fn compare_words(&mut self, findings: &mut Findings) {
        for (run, mem) in self.loaded.iter_mut().zip(&self.mems) {
            layout::load(run, mem);
        }
        let alike = findings.comparison.runs(&self.loaded);
        findings.note("words", alike);
    }

    /// Every loss of every cell at some lag k of the first run and at lag N - k of the second.
    pub fn compare_readings(&mut self, findings: &mut Findings) {
        let Shape { cells, lags, .. } = self.model.shape;
        for (cell, loss) in (0..cells).flat_map(|cell| (1..=6).map(move |loss| (cell, loss))) {
            let lag = self.generator.random.within(1, lags - 1);
            let replies =
                self.each(&[lag, lags - lag].map(|lag| Call::Reading { cell, lag, loss, room: [2, 3] }));
            findings.note("readings at the end", readings(&replies));
        }
    }

    pub fn list(&mut self, findings: &mut Findings) {
        let interval = 40.max(self.mems[0].len() / 100);
        for call in 1..=CALLS {
            self.step(findings);
            if call % interval == 0 || call == CALLS {
                self.compare_words(findings);
            }
        }
        self.compare_readings(findings);
    }
}

#[test]
fn random_lists() {
    let mut findings = Findings::default();
    let mut shapes = Vec::new();
    for list in 0..LISTS {
        let mut random = Random::new(12_000_000 + list);
        let shape = generator::shape(&mut random);
        shapes.push(shape);
        Two::new(random, shape, exchange).list(&mut findings);
        assert!(findings.differences.is_empty(), "list {list} of {shape:?}: {:?}", findings.differences);
    }
    check_counts(&findings);
    check_outcomes(&findings.tally);
    for lags in [2, 128] {
        let lists = shapes.iter().filter(|shape| shape.lags == lags).count();
        assert!(lists >= 100, "{lists} pairs of lists with N = {lags}");
    }
    findings.comparison.met(&["Open", "Held", "bin", "loss 1", "loss 2", "loss 3", "loss 4"], 1_000);
    findings.comparison.met(&["dump", "emit", "pick"], 1_000);
}

/// A line of what was compared, each so often at least.
fn check_counts(findings: &Findings) {
    let Findings { tally, comparison: Comparison { seen }, .. } = findings;
    let times = |name, outcomes: &[&str]| outcomes.iter().map(|outcome| tally.times(name, outcome)).sum();
    let sum = |of: fn(&Seen) -> u64| seen.values().map(of).sum();
    let counts: [(&str, u64, u64); 12] = [
        ("calls", tally.total(), 1_000_000),
        ("accepted ticks", times("tick", &["accepted"]), 400_000),
        ("refused ticks", times("tick", &["refusal 1", "refusal 2", "refusal 3", "refusal 19"]), 20_000),
        ("speed frames", times("dump", &["a frame", "a frame, room left"]), 20_000),
        ("emitted frames", times("emit", &["accepted"]), 5_000),
        ("picked frames", times("pick", &["accepted"]), 5_000),
        ("pages", times("page", &["accepted"]), 20_000),
        ("readings", times("reading", &["accepted"]), 40_000),
        ("places with ticks", sum(|seen| seen.places), 400_000),
        ("with a Q other than 0", sum(|seen| seen.with_q), 300_000),
        ("with another lag 0", sum(|seen| seen.other_lag_0), 300_000),
        ("with another edge count", sum(|seen| seen.other_edge), 100_000),
    ];
    let told = counts.map(|(what, count, _)| format!("{count} {what}")).join(", ");
    println!("exchanged: {LISTS} pairs of lists, {told}");
    for (what, count, least) in counts {
        assert!(count >= least, "{count} {what}");
    }
}
