//! Blocks of calls of the two engines in turn, and what they say of the engines' speed.
//!
//! A machine that does other work meanwhile slows two blocks that stand side by side alike, or it interrupts one of
//! them. So a block is held against that of the other engine beside it, and blocks are shorter than the turns that a
//! system gives to its processes, so that few are interrupted: of many ratios the median is that of a quiet machine,
//! and the quartiles tell how far they spread.
use std::time::{Duration, Instant};

const ROUNDS: usize = 801;
/// So many where doing the work once takes much longer than a block.
const FEW_ROUNDS: usize = 51;
const BLOCK: Duration = Duration::from_micros(300);
const WARM_UP: usize = 16;

/// The three numbers that cut a sorted list into four parts.
#[derive(Clone, Copy, Debug, PartialEq)]
pub struct Quartiles {
    pub low: f64,
    pub median: f64,
    pub high: f64,
}

impl Quartiles {
    /// Of a list of some numbers.
    pub fn of(mut numbers: Vec<f64>) -> Quartiles {
        numbers.sort_by(f64::total_cmp);
        let last = numbers.len() - 1;
        let [low, median, high] = [last / 4, last / 2, last - last / 4].map(|at| numbers[at]);
        Quartiles { low, median, high }
    }
}

/// Nanoseconds of one call in each block of the proved engine, and in the block of the peer beside it.
pub struct Blocks {
    pub proved: Vec<f64>,
    pub peer: Vec<f64>,
}

impl Blocks {
    fn new() -> Blocks {
        Blocks { proved: Vec::new(), peer: Vec::new() }
    }

    /// How many times as fast the proved engine is, block beside block.
    pub fn ratios(&self) -> Quartiles {
        Quartiles::of(self.proved.iter().zip(&self.peer).map(|(proved, peer)| peer / proved).collect())
    }

    /// The median block of each engine.
    pub fn medians(&self) -> (f64, f64) {
        let median = |list: &Vec<f64>| Quartiles::of(list.clone()).median;
        (median(&self.proved), median(&self.peer))
    }
}

/// Blocks of both engines in turn, each of them first in every other round. A block is given how many times to do its
/// work, and gives the nanoseconds of one call of each of the K kinds that it times. Two small blocks of each engine
/// come before, one to warm up and one to see how many times fill a block.
pub fn in_turn<const K: usize>(
    mut proved: impl FnMut(usize) -> [f64; K],
    mut peer: impl FnMut(usize) -> [f64; K],
) -> [Blocks; K] {
    let ((one, once), (other, its_once)) = (filling(&mut proved), filling(&mut peer));
    let mut blocks = [(); K].map(|()| Blocks::new());
    for round in 0..rounds(once.max(its_once)) {
        let (mine, its) = if round % 2 == 0 {
            let mine = proved(one);
            (mine, peer(other))
        } else {
            let its = peer(other);
            (proved(one), its)
        };
        for (kind, blocks) in blocks.iter_mut().enumerate() {
            blocks.proved.push(mine[kind]);
            blocks.peer.push(its[kind]);
        }
    }
    blocks
}

fn rounds(once: Duration) -> usize {
    if once > 4 * BLOCK {
        FEW_ROUNDS
    } else {
        ROUNDS
    }
}

/// How many times the work of a block fills it, and how long once takes: the better of two tries.
fn filling<const K: usize>(block: &mut impl FnMut(usize) -> [f64; K]) -> (usize, Duration) {
    let mut once = || {
        let start = Instant::now();
        block(WARM_UP);
        start.elapsed() / WARM_UP as u32
    };
    let once = once().min(once()).max(Duration::from_nanos(1));
    ((BLOCK.as_nanos() / once.as_nanos()).clamp(1, 100_000) as usize, once)
}

/// Nanoseconds of one turn of the work.
pub fn each(times: usize, mut work: impl FnMut(usize)) -> f64 {
    let start = Instant::now();
    for turn in 0..times {
        work(turn);
    }
    start.elapsed().as_nanos() as f64 / times as f64
}

#[cfg(test)]
mod tests {
    use super::*;

    /// Every fourth pair of blocks is slow on both sides, and every eighth block of one side alone is interrupted.
    #[test]
    fn the_median_is_that_of_a_quiet_machine() {
        let (mut one, mut other) = (0, 0);
        let [blocks] = in_turn(
            |_| {
                one += 1;
                [if one % 8 == 1 { 1e6 } else { 10.0 * f64::from(1 + one % 4 / 3) }]
            },
            |_| {
                other += 1;
                [25.0 * f64::from(1 + other % 4 / 3)]
            },
        );
        assert_eq!((blocks.proved.len(), blocks.peer.len()), (ROUNDS, ROUNDS));
        assert_eq!(blocks.ratios(), Quartiles { low: 2.5, median: 2.5, high: 2.5 });
        assert_eq!(blocks.medians(), (10.0, 25.0));
    }

    #[test]
    fn quartiles_cut_a_list_into_four() {
        let list = (0..=100).map(|number| f64::from(number * 37 % 101)).collect();
        assert_eq!(Quartiles::of(list), Quartiles { low: 25.0, median: 50.0, high: 75.0 });
        assert_eq!(Quartiles::of(vec![7.0]), Quartiles { low: 7.0, median: 7.0, high: 7.0 });
    }

    /// Two blocks of each to start with; then each engine is first in every other round.
    #[test]
    fn the_engines_take_turns() {
        let order = std::cell::RefCell::new(String::new());
        let block = |name| {
            let order = &order;
            move |_: usize| {
                order.borrow_mut().push(name);
                [1.0]
            }
        };
        in_turn(block('a'), block('b'));
        assert_eq!(&order.borrow()[..12], "aabbabbaabba");
    }
}
