//! Pages that are refused: damaged losses word by word, six losses that together pass their limit, and the order of the
//! refusals. What a page does not look at makes no difference to it.
use crate::call::{Call, Reply, Shape};
use crate::driver::{fresh, perform};
use crate::layout::{self, Kind};
use crate::lists::Pair;
use crate::page;
use crate::pages::{ask, full, set_losses, shape, with_counts};
use crate::random::Random;
use crate::rules::{PEAK, RUN_LIMIT};
use crate::signed::Run;
use crate::tally::Tally;

/// Where the losses of a run have their ticks, six words for each cell.
fn losses_at(kinds: &[Kind]) -> Vec<usize> {
    (0..kinds.len()).filter(|&at| kinds[at] == Kind::Ticks(RUN_LIMIT)).collect()
}

/// The least and the most that the ticks of a loss may be beside the rest of its row, and beside the other five.
fn ticks_limits(mem: &[u64], losses: &[usize], at: usize, lags: u64) -> [u64; 2] {
    let row = &mem[at + 1..at + 3 + 2 * lags as usize];
    let least = row[2..].iter().map(|sum| sum.div_ceil(2 * PEAK)).chain([row[0], row[1]]).max();
    let number = losses.iter().position(|loss| *loss == at).expect("a loss");
    let six: u64 = losses[number / 6 * 6..][..6].iter().map(|loss| mem[*loss]).sum();
    [least.unwrap_or(0), RUN_LIMIT - (six - mem[at])]
}

/// The least and the most that a word may be in a page.
fn limits(mem: &[u64], kinds: &[Kind], losses: &[usize], at: usize, lags: u64) -> [u64; 2] {
    match kinds[at] {
        Kind::Time => [0, RUN_LIMIT],
        Kind::Ticks(RUN_LIMIT) => ticks_limits(mem, losses, at, lags),
        Kind::Count(ticks) if losses.contains(&ticks) => [0, mem[ticks]],
        Kind::Sum(ticks) if losses.contains(&ticks) => [0, 2 * PEAK * mem[ticks]],
        _ => [0, u64::MAX],
    }
}

/// A run in the midst of a list, its losses with ticks in all of them.
fn lively(random: &mut Random, shape: Shape) -> Run {
    let mut pair = Pair::new(Random::new(random.next()), shape);
    for _ in 0..200 {
        pair.step(&mut Tally::default());
    }
    let losses: Vec<_> = (0..shape.cells)
        .map(|_| {
            let ticks = full(random).map(|ticks| ticks / 2 + random.within(1, 100));
            with_counts(random, ticks)
        })
        .collect();
    set_losses(random, &mut pair.model, &losses);
    pair.model
}

/// Every word of memory, at its limits and past them: refused by 11 where the word is out of its limits, and else the
/// page of what the losses then are.
#[test]
fn every_word_altered() {
    let mut random = Random::new(6_000_000);
    let mut outcomes = [0; 2];
    for (cells, lags, bins) in [(1, 2, 1), (2, 4, 2), (3, 6, 1), (16, 2, 1)] {
        let shape = Shape { bins, ..shape(cells, lags) };
        let (kinds, mut run) = (layout::kinds(shape), lively(&mut random, shape));
        let (losses, mut mem) = (losses_at(&kinds), layout::words(&mut run));
        for at in 0..mem.len() {
            let [least, most] = limits(&mem, &kinds, &losses, at, lags);
            let past = [most.saturating_add(1), least.wrapping_add(1 << 32), least | 1 << 63, u64::MAX];
            for word in [least, most, least.saturating_sub(1), 0].into_iter().chain(past) {
                let sound = std::mem::replace(&mut mem[at], word);
                layout::load(&mut run, &mem);
                let accepted = (least..=most).contains(&word);
                let expected =
                    if accepted { Reply::Page(page::formatted(&run.losses())) } else { Reply::Refused(11) };
                let reply = ask(&shape, &mut mem, shape.page_length());
                assert!(reply == expected, "word {at}, {:?}, as {word} of {shape:?}: {reply:?}", kinds[at]);
                mem[at] = sound;
                outcomes[usize::from(accepted)] += 1;
            }
        }
    }
    let [refused, printed] = outcomes;
    println!("pages with a word altered: {printed} printed, {refused} refused");
}

/// The words of a run with so many ticks in the losses of one cell, and in the other cells as many as a run takes.
fn with_ticks(random: &mut Random, shape: Shape, cell: usize, ticks: [u64; 6]) -> Vec<u64> {
    let mut losses: Vec<_> = (0..shape.cells).map(|_| full(random).map(|ticks| [ticks; 3])).collect();
    losses[cell] = ticks.map(|ticks| [ticks; 3]);
    let mut run = Run::new(shape);
    set_losses(random, &mut run, &losses);
    layout::words(&mut run)
}

/// Six of one cell, each within its limit: one tick too many in each of them in turn, and so many too many that 32 bits
/// of their sum are 0. Other calls than a page do not look at it.
#[test]
fn six_together() {
    let mut random = Random::new(6_000_001);
    for (cells, cell) in (1..=16).flat_map(|cells| (0..cells).map(move |cell| (cells, cell))) {
        let shape = shape(cells, 2);
        for loss in 0..6 {
            let just = std::iter::repeat_with(|| full(&mut random)).find(|ticks| ticks[loss] < RUN_LIMIT);
            let mut ticks = just.expect("six numbers of ticks");
            let mut mem = with_ticks(&mut random, shape, cell as usize, ticks);
            let page = ask(&shape, &mut mem, shape.page_length());
            assert!(matches!(page, Reply::Page(_)), "{ticks:?} in cell {cell} of {cells}: {page:?}");
            ticks[loss] += 1;
            let mut two = [0; 6];
            (two[loss], two[(loss + 1) % 6]) = (RUN_LIMIT, RUN_LIMIT);
            for ticks in [ticks, two, [RUN_LIMIT; 6]] {
                let mut mem = with_ticks(&mut random, shape, cell as usize, ticks);
                let page = ask(&shape, &mut mem, shape.page_length());
                assert_eq!(page, Reply::Refused(11), "{ticks:?} in cell {cell} of {cells}");
                others_accept(&shape, &mut mem, cell);
            }
        }
    }
}

fn others_accept(shape: &Shape, mem: &mut [u64], cell: u64) {
    let samples = vec![0; 3 * shape.cells as usize];
    let dump = |command| Call::Dump { cell, command, bank: 0, phase: 0, room: shape.speed_length() };
    let integrate = Call::Integrate { cell };
    let emit = Call::Emit { cell, bank: 0, bin: 0, room: shape.frame_length() };
    let pick = Call::Pick { room: shape.frame_length() };
    let reading = |loss| Call::Reading { cell, lag: 0, loss, room: [2, 3] };
    let speed = [Call::Tick { samples }, dump(0b011)];
    let moves = [dump(0b010), integrate.clone(), emit, dump(0b010), integrate, pick];
    for call in speed.into_iter().chain(moves).chain([Call::Forecast { cell }]).chain((1..=6).map(reading)) {
        let reply = perform(&shape.numbers(), mem, &call);
        assert!(!matches!(reply, Reply::Refused(_)), "{call:?} of {shape:?}: {reply:?}");
    }
}

/// Memory that a page refuses by 11: t, a count and a sum of the last loss, and six together.
fn damaged(shape: &Shape, way: usize) -> Vec<u64> {
    let mut mem = fresh(shape);
    let losses = losses_at(&layout::kinds(*shape));
    let last = losses[losses.len() - 1];
    match way {
        0 => mem[0] = RUN_LIMIT + 1,
        1 => mem[last + 2] = 1,
        2 => mem[last + 2 + 2 * shape.lags as usize] = 1,
        _ => (mem[last], mem[last - 3 - 2 * shape.lags as usize]) = (RUN_LIMIT, 1),
    }
    mem
}

/// Numbers that are no shape.
pub fn no_shape(shape: &Shape, way: usize) -> Vec<u64> {
    let mut numbers = shape.numbers().to_vec();
    match way {
        0 => numbers[0] = 17,
        1 => numbers[1] += 1,
        2 => numbers.truncate(6),
        _ => numbers[0] = 0,
    }
    numbers
}

/// Every choice of faults among 1, 2, 11 and 10, each fault in several ways: the first of them in that order is told.
#[test]
fn refusals_in_their_order() {
    let shape = shape(3, 4);
    let length = shape.page_length();
    for (way, faults) in (0..4).flat_map(|way| (0..16).map(move |faults| (way, faults))) {
        let has = |place: usize| faults >> place & 1 == 1;
        let numbers = if has(0) { no_shape(&shape, way) } else { shape.numbers().to_vec() };
        let mut mem = if has(2) { damaged(&shape, way) } else { fresh(&shape) };
        if has(1) {
            let words = mem.len();
            mem.resize([words + 1, words - 1, 0, 2 * words][way], 0);
        }
        let room = if has(3) { [length - 1, 0, 41, 1][way] } else { length };
        let before = mem.clone();
        let reply = perform(&numbers, &mut mem, &Call::Page { room });
        match (0..4).find(|place| has(*place)).map(|place| [1, 2, 11, 10][place]) {
            Some(number) => assert_eq!(reply, Reply::Refused(number), "way {way}, faults {faults:04b}"),
            None => assert!(matches!(reply, Reply::Page(_)), "{reply:?}"),
        }
        assert!(mem == before, "way {way}, faults {faults:04b}");
    }
}
