//! What is timed: ticks, the calls on one cell, picks, pages, and frames.
use std::array::from_fn;
use std::hint::black_box;
use std::time::{Duration, Instant};

use lta::{Command, Fields, Loss, Shape};

use crate::blocks::{each, in_turn, Blocks};
use crate::engine::{Engine, Peer, Proved};
use crate::peer::frame::{length, SPEED};
use crate::samples::Noise;

const TICKS: usize = 64;

/// A block of ticks, behind a dump that keeps Open from filling up.
fn ticks<E: Engine>(engine: &mut E, shape: &Shape, samples: &[Vec<u8>], times: usize) -> [f64; 1] {
    engine.discard(shape);
    [each(times, |turn| {
        black_box(engine.tick(black_box(&samples[turn % TICKS]))).expect("a tick");
    })]
}

fn samples_of(shape: &Shape) -> Vec<Vec<u8>> {
    let mut noise = Noise::new(7);
    (0..TICKS).map(|_| noise.samples(shape.cells)).collect()
}

/// One tick of a run of this shape.
pub fn tick(shape: Shape) -> Blocks {
    let samples = samples_of(&shape);
    let (mut proved, mut peer) = (Proved::new(shape), Peer::new(shape));
    let [blocks] = in_turn(
        |times| ticks(&mut proved, &shape, &samples, times),
        |times| ticks(&mut peer, &shape, &samples, times),
    );
    blocks
}

/// What each lag more costs a tick of one cell, from one number of lags to another: the work on lags alone, without
/// what a call costs besides.
pub fn each_lag_more(few: Shape, many: Shape) -> Blocks {
    fn block<E: Engine>(runs: &mut [(E, Shape); 2], samples: &[Vec<u8>], times: usize) -> [f64; 1] {
        let [[few], [many]] = runs.each_mut().map(|(engine, shape)| ticks(engine, shape, samples, times));
        [(many - few) / (runs[1].1.lags - runs[0].1.lags) as f64]
    }
    let samples = samples_of(&few);
    let mut proved = [few, many].map(|shape| (Proved::new(shape), shape));
    let mut peer = [few, many].map(|shape| (Peer::new(shape), shape));
    let [blocks] =
        in_turn(|times| block(&mut proved, &samples, times), |times| block(&mut peer, &samples, times));
    blocks
}

/// The calls on one cell that are timed, in the order of their times.
pub const ON_A_CELL: [&str; 6] = ["dump", "integrate", "emit", "reading", "forecast", "speed dump"];

/// One call on every cell.
fn time<E: Engine>(engine: &mut E, shape: &Shape, mut work: impl FnMut(&mut E, u64)) -> Duration {
    let start = Instant::now();
    (0..shape.cells).for_each(|cell| work(engine, cell));
    start.elapsed()
}

/// A tick, then one call of each kind on every cell: the time of each kind. Speed dumps have a tick of their own before
/// them, which is not timed either.
fn round<E: Engine>(engine: &mut E, shape: &Shape, samples: &[u8], out: &mut [u8]) -> [Duration; 6] {
    engine.tick(samples).expect("a tick");
    let dump = time(engine, shape, |engine, cell| {
        black_box(engine.dump(cell, Command::Last as u64, 0, 0, out)).expect("a dump");
    });
    let integrate = time(engine, shape, |engine, cell| {
        black_box(engine.integrate(cell)).expect("an integration");
    });
    let emit = time(engine, shape, |engine, cell| {
        black_box(engine.emit(cell, 0, 0, out)).expect("an emission");
    });
    let reading = time(engine, shape, |engine, cell| {
        let loss = u64::from(Loss::Ordered.number());
        black_box(engine.reading(cell, black_box(3), loss)).expect("a reading");
    });
    let forecast = time(engine, shape, |engine, cell| {
        black_box(engine.forecast(cell)).expect("a forecast");
    });
    engine.tick(samples).expect("a tick");
    let speed_dump = time(engine, shape, |engine, cell| {
        black_box(engine.dump(cell, Command::Speed as u64, 0, 0, out)).expect("a speed dump");
    });
    [dump, integrate, emit, reading, forecast, speed_dump]
}

fn rounds<E: Engine>(engine: &mut E, shape: &Shape, times: usize) -> [f64; 6] {
    let mut out = vec![0; length(SPEED, shape.lags)];
    let samples = Noise::new(11).samples(shape.cells);
    let mut spent = [Duration::ZERO; 6];
    for _ in 0..times {
        let more = round(engine, shape, &samples, &mut out);
        spent = from_fn(|kind| spent[kind] + more[kind]);
    }
    spent.map(|spent| spent.as_nanos() as f64 / (times as u64 * shape.cells) as f64)
}

/// One call of each kind of [`ON_A_CELL`].
pub fn on_a_cell(shape: Shape) -> [Blocks; 6] {
    let (mut proved, mut peer) = (Proved::new(shape), Peer::new(shape));
    in_turn(|times| rounds(&mut proved, &shape, times), |times| rounds(&mut peer, &shape, times))
}

/// A run whose bins are all Ready, with some ticks in each: picks take the cells in turn, and the bins of each.
struct Filled<E> {
    engine: E,
    shape: Shape,
    samples: Vec<u8>,
    out: Vec<u8>,
    picks: u64,
}

impl<E: Engine> Filled<E> {
    fn new(shape: Shape) -> Filled<E> {
        let samples = Noise::new(13).samples(shape.cells);
        let out = vec![0; shape.frame_length()];
        let mut filled = Filled { engine: E::new(shape), shape, samples, out, picks: 0 };
        (0..2 * shape.bins * shape.cells).for_each(|number| filled.fill(number));
        filled
    }

    /// Makes the bin Ready that the pick of this number takes.
    fn fill(&mut self, number: u64) {
        let Shape { cells, bins, .. } = self.shape;
        let (cell, place) = (number % cells, number / cells % (2 * bins));
        self.engine.tick(&self.samples).expect("a tick");
        self.engine.dump(cell, Command::Last as u64, place / bins, place % bins, &mut []).expect("a dump");
        self.engine.integrate(cell).expect("an integration");
    }

    /// Picks one by one. The bin that each has emptied is filled again, which is not timed.
    fn picks(&mut self, times: usize) -> [f64; 1] {
        let mut spent = Duration::ZERO;
        for _ in 0..times {
            let start = Instant::now();
            black_box(self.engine.pick(black_box(&mut self.out))).expect("a pick");
            spent += start.elapsed();
            self.fill(self.picks);
            self.picks += 1;
        }
        [spent.as_nanos() as f64 / times as f64]
    }
}

/// One pick.
pub fn pick(shape: Shape) -> Blocks {
    let (mut proved, mut peer) = (Filled::<Proved>::new(shape), Filled::<Peer>::new(shape));
    let [blocks] = in_turn(|times| proved.picks(times), |times| peer.picks(times));
    blocks
}

/// Every loss of every cell gets numbers of nine digits; six have just less ticks together than a run takes.
fn fill_losses<E: Engine>(engine: &mut E, shape: &Shape) {
    for (cell, loss) in (0..shape.cells).flat_map(|cell| (1..=6).map(move |loss| (cell, loss))) {
        engine.set_loss(shape, cell, loss, [357_913_941, 345_678_901, 234_567_890]);
    }
}

fn pages<E: Engine>(engine: &E, out: &mut [u8], times: usize) -> [f64; 1] {
    [each(times, |_| {
        black_box(engine.page(black_box(out))).expect("a page");
    })]
}

/// One page.
pub fn page(shape: Shape) -> Blocks {
    let (mut proved, mut peer) = (Proved::new(shape), Peer::new(shape));
    fill_losses(&mut proved, &shape);
    fill_losses(&mut peer, &shape);
    let mut outs = [0, 1].map(|_| vec![0; shape.page_length()]);
    let [one, other] = &mut outs;
    let [blocks] = in_turn(|times| pages(&proved, one, times), |times| pages(&peer, other, times));
    blocks
}

fn fields_of(kind: u32, ticks: u32) -> Fields {
    Fields { kind, cell: 3, block: 4, bin: 5, ticks, centre: ticks, edge: ticks, ..Fields::default() }
}

fn numbers(lags: u64) -> Vec<i32> {
    (0..2 * lags as i32).map(|number| number * 37 - 4000).collect()
}

fn reads<E: Engine>(lags: u64, bytes: &[u8], times: usize) -> [f64; 1] {
    [each(times, |_| {
        black_box(E::read_frame(black_box(lags), black_box(bytes))).expect("a frame");
    })]
}

/// One frame of this kind read.
pub fn read(kind: u32, lags: u64) -> Blocks {
    let mut bytes = vec![0; length(kind, lags)];
    Proved::write_frame(lags, &fields_of(kind, 1000), &numbers(lags), &mut bytes).expect("a frame");
    let [blocks] =
        in_turn(|times| reads::<Proved>(lags, &bytes, times), |times| reads::<Peer>(lags, &bytes, times));
    blocks
}

fn writes<E: Engine>(lags: u64, fields: &Fields, numbers: &[i32], times: usize) -> [f64; 1] {
    let mut out = vec![0; length(fields.kind, lags)];
    [each(times, |_| {
        black_box(E::write_frame(black_box(lags), fields, numbers, black_box(&mut out))).expect("a frame");
    })]
}

/// One frame of this kind written.
pub fn write(kind: u32, lags: u64) -> Blocks {
    let (fields, numbers) = (fields_of(kind, 1000), numbers(lags));
    let [blocks] = in_turn(
        |times| writes::<Proved>(lags, &fields, &numbers, times),
        |times| writes::<Peer>(lags, &fields, &numbers, times),
    );
    blocks
}
