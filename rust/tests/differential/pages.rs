//! Pages of every number of cells: of losses that calls have filled and of losses set in memory up to their limits, in
//! buffers of every length.
use std::array::from_fn;

use lta::ffi;

use crate::call::{Call, Reply, Shape};
use crate::driver::{fresh, outcome, perform};
use crate::layout;
use crate::limits::Three;
use crate::page::{self, Counts};
use crate::random::Random;
use crate::rules::{PEAK, RUN_LIMIT};
use crate::signed::Run;

pub fn shape(cells: u64, lags: u64) -> Shape {
    Shape { cells, lags, bins: 1, blocks: 1, start: 0, rate: 1000, second: 5 }
}

/// A page, which leaves the words of memory as they are.
pub fn ask(shape: &Shape, mem: &mut [u64], room: usize) -> Reply {
    let before = mem.to_vec();
    let reply = perform(&shape.numbers(), mem, &Call::Page { room });
    assert!(mem == before, "a page of {shape:?} changed memory");
    reply
}

/// The run with these counts of its losses, whose sums are then at their limits or between them.
pub fn set_losses(random: &mut Random, run: &mut Run, cells: &[[Counts; 6]]) {
    let losses = run.cells.iter_mut().flat_map(|cell| &mut cell.losses);
    for (row, &[ticks, edge, centre]) in losses.zip(cells.iter().flatten()) {
        (row.ticks, row.edge, row.centre) = (ticks, edge, centre);
        let most = (PEAK * ticks) as i64;
        for sum in &mut row.sums {
            let any = random.within(0, 2 * PEAK * ticks) as i64 - most;
            *sum = random.pick(&[0, most, -most, any]);
        }
    }
}

fn sum(lines: &[Counts]) -> Counts {
    from_fn(|at| lines.iter().map(|counts| counts[at]).sum())
}

/// The counts of every loss of every cell by readings.
fn readings(shape: &Shape, mem: &mut [u64]) -> Vec<Counts> {
    let read = |(cell, loss)| {
        let reading = Call::Reading { cell, lag: shape.lags - 1, loss, room: [2, 3] };
        match perform(&shape.numbers(), mem, &reading) {
            Reply::Sums([_, _, counts @ ..]) => counts.map(|count| count as u64),
            other => panic!("{reading:?} of {shape:?}: {other:?}"),
        }
    };
    (0..shape.cells).flat_map(|cell| (1..=6).map(move |loss| (cell, loss))).map(read).collect()
}

/// Every byte of the page of a run with these losses. Its totals, read back, are the sums of its lines, and its lines
/// and totals those of the ledger, which is what readings give.
fn compare(shape: &Shape, mem: &mut [u64], cells: &[[Counts; 6]]) -> Counts {
    let Reply::Page(bytes) = ask(shape, mem, shape.page_length()) else {
        panic!("no page of {shape:?}");
    };
    let ledger = readings(shape, mem);
    let shown = String::from_utf8_lossy(&bytes);
    assert!(bytes == page::formatted(cells), "{shape:?}, by the formatter:\n{shown}");
    assert!(bytes == page::placed(cells, sum(&ledger)), "{shape:?}, by columns:\n{shown}");
    let numbers = page::numbers_of(&bytes);
    let (totals, lines) = numbers.split_last().expect("a line of totals");
    assert_eq!((*totals, lines), (sum(lines), &ledger[..]), "{shape:?}");
    *totals
}

/// Ticks of all cells, then a dump of one cell with its answer, and the answer of an integration if there is one: they
/// fill losses 1, 2, 4 and 3 of the cell.
const LOSING: [(u64, u64, u64, Option<u64>); 6] = [
    (3, 0b100, 1, None),
    (2, 0b001, 0, None),
    (4, 0b001, 2, Some(0)),
    (1, 0b000, 0, Some(4)),
    (6, 0b010, 0, Some(0)),
    (7, 0b001, 0, Some(3)),
];

/// Losses 1 to 4 of every cell, with pages between the calls that fill them.
#[test]
fn losses_that_calls_have_filled() {
    for (cells, lags) in (1..=16).flat_map(|cells| [(cells, 2), (cells, 6)]) {
        let shape = shape(cells, lags);
        let (mut random, mut three) = (Random::new(4_000_000 + cells), Three::new(shape));
        for (cell, (ticks, command, dumped, integrated)) in
            (0..cells).flat_map(|cell| LOSING.map(|step| (cell, step)))
        {
            three.ticks(&mut random, ticks);
            assert_eq!(three.dump(cell, command), Reply::Number(dumped));
            if let Some(answer) = integrated {
                assert_eq!(three.perform(&Call::Integrate { cell }), Reply::Number(answer));
            }
            three.perform(&Call::Page { room: shape.page_length() });
        }
        three.compare();
        let losses = three.model.losses();
        let filled = |losses: &[Counts; 6]| losses[..4].iter().all(|[ticks, ..]| *ticks > 0);
        assert!(losses.iter().all(filled), "{losses:?}");
        compare(&shape, &mut three.mem, &losses);
    }
}

/// Six numbers of ticks that make 2,147,483,648 together: all in one, all but five, alike, or any.
pub fn full(random: &mut Random) -> [u64; 6] {
    let mut ticks = match random.below(4) {
        0 => [RUN_LIMIT, 0, 0, 0, 0, 0],
        1 => [RUN_LIMIT - 5, 1, 1, 1, 1, 1],
        2 => [RUN_LIMIT / 6; 6],
        _ => from_fn(|_| random.below(RUN_LIMIT / 6)),
    };
    let rest = RUN_LIMIT - ticks.iter().sum::<u64>();
    ticks[0] += rest;
    ticks.rotate_left(random.below(6) as usize);
    ticks
}

/// Losses with so many ticks, and counts at their limits and between them.
pub fn with_counts(random: &mut Random, ticks: [u64; 6]) -> [Counts; 6] {
    ticks.map(|ticks| {
        let any = [random.within(0, ticks), random.within(0, ticks)];
        let [edge, centre] = any.map(|any| random.pick(&[0, ticks, any, any]));
        [ticks, edge, centre]
    })
}

/// Every cell has lost as many ticks as a run can take, of which all are valid or some.
#[test]
fn as_many_ticks_as_a_run_takes() {
    let mut random = Random::new(5_000_000);
    for (cells, turn) in (1..=16).flat_map(|cells| (0..40).map(move |turn| (cells, turn))) {
        let shape = shape(cells, random.pick(&[2, 4, 30]));
        let losses: Vec<_> = (0..cells)
            .map(|_| {
                let ticks = full(&mut random);
                if turn == 0 {
                    ticks.map(|ticks| [ticks; 3])
                } else {
                    with_counts(&mut random, ticks)
                }
            })
            .collect();
        let mut run = Run::new(shape);
        set_losses(&mut random, &mut run, &losses);
        let totals = compare(&shape, &mut layout::words(&mut run), &losses);
        assert_eq!(totals[0], cells * RUN_LIMIT);
        assert!(turn > 0 || totals == [cells * RUN_LIMIT; 3], "{totals:?}");
    }
}

/// Numbers of one to ten digits: the least and the most of each length, up to the limit.
fn of_each_length() -> Vec<u64> {
    let edges = (0..10).flat_map(|power| [10u64.pow(power) - 1, 10u64.pow(power)]);
    edges.chain([RUN_LIMIT - 1, RUN_LIMIT]).collect()
}

/// One loss of one cell, with every pair of those numbers as its ticks and as one of its counts.
#[test]
fn numbers_of_every_length() {
    let mut random = Random::new(5_000_001);
    let (numbers, shape) = (of_each_length(), shape(2, 2));
    for (at, &ticks) in (0..12).flat_map(|at| numbers.iter().map(move |ticks| (at, ticks))) {
        for &count in numbers.iter().filter(|count| **count <= ticks) {
            let other = random.within(0, ticks);
            for counts in [[ticks, count, other], [ticks, other, count]] {
                let mut losses = [[Counts::default(); 6]; 2];
                losses[at / 6][at % 6] = counts;
                let mut run = Run::new(shape);
                set_losses(&mut random, &mut run, &losses);
                assert_eq!(compare(&shape, &mut layout::words(&mut run), &losses), counts);
            }
        }
    }
}

/// Buffers of every length up to some bytes more than a page, in the midst of bytes that are not lent: a shorter one is
/// left as it is, and so is what stands behind the page.
#[test]
fn buffers_of_every_length() {
    let mut random = Random::new(5_000_002);
    for cells in 1..=16 {
        let shape = shape(cells, 2);
        let losses: Vec<_> = (0..cells).map(|_| full(&mut random).map(|ticks| [ticks; 3])).collect();
        let mut run = Run::new(shape);
        set_losses(&mut random, &mut run, &losses);
        let (mem, page) = (layout::words(&mut run), page::formatted(&losses));
        let (front, length) = (70, page.len());
        let around = random.bytes(front + length + 130);
        for room in 0..length + 60 {
            let mut bytes = around.clone();
            let result = outcome(ffi::page(&shape.numbers(), &mem, &mut bytes[front..front + room]));
            let (mut told, mut expected) = (Err(10), around.clone());
            if room >= length {
                told = Ok(length as u64);
                expected[front..front + length].copy_from_slice(&page);
            }
            assert_eq!(result, told, "{room} of {shape:?}");
            assert!(bytes == expected, "bytes in and around {room} of {shape:?}");
        }
        assert!(mem == layout::words(&mut run), "words of {shape:?}");
    }
}

/// A fresh run has lost nothing.
#[test]
fn fresh_runs() {
    for (cells, lags) in (1..=16).flat_map(|cells| [2, 128].map(|lags| (cells, lags))) {
        let shape = shape(cells, lags);
        let losses = vec![[Counts::default(); 6]; cells as usize];
        assert_eq!(compare(&shape, &mut fresh(&shape), &losses), [0; 3]);
    }
}
