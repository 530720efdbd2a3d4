//! Real ticks up to the limits: a full Open that is held off, and a bin that would become too wide.
use crate::call::{Call, Reply, Shape};
use crate::damage::never;
use crate::driver::{fresh, perform};
use crate::frame::words_of;
use crate::layout;
use crate::machine::Machine;
use crate::random::Random;
use crate::rules::OPEN_LIMIT;
use crate::signed::Run;
use crate::tally::Tally;

/// The engine, the signed model and the plain machine, given the same calls.
pub struct Three {
    pub mem: Vec<u64>,
    pub model: Run,
    machine: Machine,
    tally: Tally,
}

impl Three {
    pub fn new(shape: Shape) -> Three {
        let (mem, model, machine) = (fresh(&shape), Run::new(shape), Machine::new(shape));
        Three { mem, model, machine, tally: Tally::default() }
    }

    pub fn perform(&mut self, call: &Call) -> Reply {
        let reply = perform(&self.model.shape.numbers(), &mut self.mem, call);
        for expected in [self.model.perform(call, never), self.machine.perform(call)] {
            assert_eq!(reply, expected, "{call:?}");
        }
        self.tally.count(call, &reply);
        reply
    }

    pub fn compare(&mut self) {
        assert!(self.machine.summed() == self.model, "sums of the two models");
        assert!(self.mem == layout::words(&mut self.model), "words of memory");
    }

    /// So many ticks of every cell; answers how many cells were held off, all ticks together.
    pub fn ticks(&mut self, random: &mut Random, count: u64) -> u64 {
        let mut held_off = 0;
        for _ in 0..count {
            let samples = random.samples(self.model.shape.cells);
            match self.perform(&Call::Tick { samples }) {
                Reply::Number(cells) => held_off += cells,
                other => panic!("a tick: {other:?}"),
            }
        }
        held_off
    }

    pub fn dump(&mut self, cell: u64, command: u64) -> Reply {
        let room = self.model.shape.speed_length();
        self.perform(&Call::Dump { cell, command, bank: 0, phase: 0, room })
    }

    /// The forecasts of cells 0 and 1.
    fn forecasts(&mut self) -> [Reply; 2] {
        [0, 1].map(|cell| self.perform(&Call::Forecast { cell }))
    }
}

fn shape(cells: u64, lags: u64) -> Shape {
    Shape { cells, lags, bins: 1, blocks: 1, start: 0, rate: 1000, second: 5 }
}

#[test]
fn holdoff_with_real_ticks() {
    let mut random = Random::new(1);
    let mut three = Three::new(shape(2, 4));
    assert_eq!(three.ticks(&mut random, 100), 0);
    assert_eq!(three.dump(1, 0b100), Reply::Number(1));
    assert_eq!(three.forecasts(), [524_188, 524_288].map(Reply::Number));
    assert_eq!(three.ticks(&mut random, OPEN_LIMIT - 101), 0);
    assert_eq!(three.forecasts(), [1, 101].map(Reply::Number));
    assert_eq!(three.ticks(&mut random, 1), 0);
    // Cell 0 is held off from here on, cell 1 after 100 ticks more.
    assert_eq!(three.forecasts(), [0, 100].map(Reply::Number));
    assert_eq!(three.ticks(&mut random, 100), 100);
    three.compare();
    assert_eq!(three.forecasts(), [0, 0].map(Reply::Number));
    assert_eq!(three.ticks(&mut random, 30), 60);
    three.compare();
    assert_eq!(three.dump(0, 0b010), Reply::Number(0));
    assert_eq!(three.ticks(&mut random, 20), 20);
    assert_eq!(three.forecasts(), [524_268, 0].map(Reply::Number));
    for cell in 0..2 {
        for lag in 0..4 {
            three.perform(&Call::Reading { cell, lag, loss: 6, room: [2, 3] });
        }
    }
    assert_eq!(three.perform(&Call::Integrate { cell: 0 }), Reply::Number(0));
    three.perform(&Call::Emit { cell: 0, bank: 0, bin: 0, room: 66 });
    three.perform(&Call::Page { room: 533 });
    // What was held off is in the loss; the frame of a full Open has the most ticks and the greatest bias.
    let Reply::Frame(bytes) = three.dump(1, 0b011) else {
        panic!("no frame of a full Open");
    };
    assert_eq!([2, 5, 6, 7].map(|at| words_of(&bytes)[at]), [524_288, 5, 100, 67_108_864]);
    assert_eq!(three.forecasts(), [524_268, 524_288].map(Reply::Number));
    assert_eq!(three.ticks(&mut random, 1), 0);
    three.compare();
    three.tally.print("hold-off with real ticks");
    three.tally.met("tick", &["held off"]);
    three.tally.met("page", &["accepted"]);
}

#[test]
fn a_wide_bin_with_real_ticks() {
    let mut random = Random::new(2);
    let mut three = Three::new(shape(1, 2));
    for part in 1..=32 {
        let ticks = if part == 32 { OPEN_LIMIT - 1 } else { OPEN_LIMIT };
        assert_eq!(three.ticks(&mut random, ticks), 0);
        assert_eq!(three.dump(0, 0b001), Reply::Number(0));
        assert_eq!(three.perform(&Call::Integrate { cell: 0 }), Reply::Number(0));
    }
    // The bin has 16,777,215 ticks. An empty set still joins it, one tick does not.
    three.compare();
    assert_eq!(three.dump(0, 0b001), Reply::Number(0));
    assert_eq!(three.perform(&Call::Integrate { cell: 0 }), Reply::Number(0));
    for command in [0b001, 0b010] {
        three.ticks(&mut random, 1);
        assert_eq!(three.dump(0, command), Reply::Number(0));
        assert_eq!(three.perform(&Call::Integrate { cell: 0 }), Reply::Number(5));
    }
    three.compare();
    // After 010 the bin is Ready, also after loss 5.
    let picked = three.perform(&Call::Pick { room: 50 });
    assert!(matches!(picked, Reply::Frame(_)), "{picked:?}");
    three.perform(&Call::Reading { cell: 0, lag: 1, loss: 5, room: [2, 3] });
    three.perform(&Call::Page { room: 287 });
    three.compare();
    three.tally.print("a wide bin with real ticks");
}
