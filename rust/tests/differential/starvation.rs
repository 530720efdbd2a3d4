//! Starvation sought: a bin is Ready, and between the picks others are made Ready again, as many as there are. "In a
//! list of demand 3 a Ready bin is emitted within C × 2B successful picks, whatever other calls stand between."
use std::collections::BTreeMap;

use crate::call::{Call, Reply, Shape};
use crate::lists::Pair;
use crate::picks::{named, Named};
use crate::random::Random;
use crate::rules::{LAST, READY};
use crate::tally::Tally;

const CELLS: [u64; 5] = [1, 2, 3, 5, 16];
const BINS: [u64; 4] = [1, 2, 3, 8];
const HUNTS: u64 = 60;

/// Which of the other bins are made Ready again between two picks.
#[derive(Clone, Copy, PartialEq)]
enum Refilled {
    All,
    /// Those of the same cell, or those of the other cells.
    Same,
    Others,
    /// Each in one case of two, and some of them are emitted by name.
    Some,
}

/// A run in which one Ready bin waits.
struct Hunt {
    pair: Pair,
    waiting: Named,
    /// The bin picked last.
    latest: Option<Named>,
    /// The successful picks since the bin waits.
    picks: u64,
    tally: Tally,
}

impl Hunt {
    fn new(shape: Shape) -> Hunt {
        let pair = Pair::new(Random::new(11_000_000 + 100 * shape.cells + shape.bins), shape);
        Hunt { pair, waiting: [0; 3], latest: None, picks: 0, tally: Tally::default() }
    }

    fn random(&mut self) -> &mut Random {
        &mut self.pair.generator.random
    }

    fn is_ready(&self, [cell, bank, bin]: Named) -> bool {
        self.pair.model.bin(cell, bank, bin).state == READY
    }

    /// A call, which must leave the bin that waits Ready unless it is a pick.
    fn perform(&mut self, call: &Call) -> Reply {
        let reply = self.pair.perform(call, &mut self.tally);
        if let (Call::Pick { .. }, Reply::Frame(bytes)) = (call, &reply) {
            self.latest = Some(named(self.pair.model.shape.lags, bytes));
            self.picks += 1;
        }
        reply
    }

    /// Makes a bin Ready, after the integration of what else the cell may hold. M is 1, and a phase is its data bin.
    fn refill(&mut self, [cell, bank, phase]: Named) {
        if self.pair.model.cell(cell).held.occupied == 1 {
            self.perform(&Call::Integrate { cell });
        }
        if !self.is_ready([cell, bank, phase]) {
            self.perform(&Call::Dump { cell, command: LAST, bank, phase, room: 0 });
            self.perform(&Call::Integrate { cell });
        }
        assert!(self.is_ready([cell, bank, phase]));
    }

    /// All bins but the one that waits.
    fn others(&self) -> Vec<Named> {
        let Shape { cells, bins, .. } = self.pair.model.shape;
        let of_bank = |cell, bank| (0..bins).map(move |bin| [cell, bank, bin]);
        let all = (0..cells).flat_map(|cell| (0..2).flat_map(move |bank| of_bank(cell, bank)));
        all.filter(|bin| *bin != self.waiting).collect()
    }

    fn refill_others(&mut self, refilled: Refilled) {
        for bin in self.others() {
            let same = bin[0] == self.waiting[0];
            let chosen = match refilled {
                Refilled::All => true,
                Refilled::Same => same,
                Refilled::Others => !same,
                Refilled::Some => self.random().once_in(2),
            };
            if chosen {
                self.refill(bin);
            } else if refilled == Refilled::Some && self.random().once_in(4) {
                let ([cell, bank, bin], room) = (bin, self.pair.model.shape.frame_length());
                self.perform(&Call::Emit { cell, bank, bin, room });
            }
        }
    }

    /// Some calls of any kind, picks too; but no emission of the bin that waits.
    fn any_calls(&mut self) {
        for _ in 0..self.random().below(4) {
            let call = self.pair.generator.call(&self.pair.model);
            let by_name =
                matches!(call, Call::Emit { cell, bank, bin, .. } if [cell, bank, bin] == self.waiting);
            if !by_name && self.is_ready(self.waiting) {
                self.perform(&call);
            }
        }
    }

    /// How many successful picks a bin waits from the one on behind which it is Ready.
    fn wait(&mut self, waiting: Named, refilled: Refilled) -> u64 {
        self.waiting = waiting;
        self.refill(waiting);
        self.picks = 0;
        while self.is_ready(waiting) {
            self.any_calls();
            self.refill_others(refilled);
            if self.is_ready(waiting) {
                let room = self.pair.model.shape.frame_length();
                let reply = self.perform(&Call::Pick { room });
                assert!(matches!(reply, Reply::Frame(_)), "a pick with a Ready bin: {reply:?}");
            }
            let Shape { cells, bins, .. } = self.pair.model.shape;
            assert!(self.picks <= 2 * bins * cells, "C = {cells}, B = {bins}: {waiting:?} waits");
        }
        assert_eq!(self.latest, Some(waiting), "the bin that left");
        self.picks
    }

    /// A bin of any kind, or the one picked last, whose turn is then the last of all.
    fn waiting(&mut self) -> Named {
        let Shape { cells, bins, .. } = self.pair.model.shape;
        let any = [self.random().below(cells), self.random().below(2), self.random().below(bins)];
        let latest = self.latest.unwrap_or(any);
        self.random().pick(&[any, any, latest])
    }
}

/// The longest wait of a bin of each shape, by what is refilled.
#[test]
fn no_bin_starves() {
    let mut longest: BTreeMap<[u64; 2], u64> = BTreeMap::new();
    let (mut calls, mut picks) = (0, 0);
    for (cells, bins) in CELLS.into_iter().flat_map(|cells| BINS.map(|bins| (cells, bins))) {
        let shape = Shape { cells, lags: 2, bins, blocks: 1, start: 0, rate: 1000, second: 5 };
        let mut hunt = Hunt::new(shape);
        for _ in 0..HUNTS {
            let all = [Refilled::All, Refilled::All, Refilled::Same, Refilled::Others, Refilled::Some];
            let (waiting, refilled) = (hunt.waiting(), hunt.random().pick(&all));
            let wait = hunt.wait(waiting, refilled);
            let most = longest.entry([cells, bins]).or_default();
            *most = wait.max(*most);
        }
        hunt.pair.compare_words();
        (calls, picks) = (calls + hunt.tally.total(), picks + hunt.tally.times("pick", "accepted"));
    }
    println!("starvation: {calls} calls, {picks} picks; the longest wait of each shape, in picks:");
    for ([cells, bins], wait) in longest {
        let bound = 2 * bins * cells;
        println!("  C = {cells:2}, B = {bins}: {wait:3} of {bound:3}");
        assert_eq!(wait, bound, "the bound is not reached");
    }
}
