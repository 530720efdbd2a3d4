//! Controls of the comparison in `exchange_alike`: it finds what is not alike, and leaves out what is not claimed.
use std::collections::BTreeMap;

use crate::call::{Call, Reply, Shape};
use crate::exchange::{exchange, exchange_bits, exchange_bytes, Exchange, Findings, Two};
use crate::exchange_alike::{readings, Comparison};
use crate::frame::{sealed, words_of};
use crate::generator;
use crate::layout::{self, Kind};
use crate::random::Random;
use crate::rules::{DISCARD, LAST, SPEED};

const LISTS: u64 = 40;

/// Pairs of lists with this exchange: differences are found in these comparisons, each in many of the pairs, and in no
/// others.
fn differ(exchange: Exchange, expected: &[&str]) {
    let mut found: BTreeMap<&str, u64> = BTreeMap::new();
    for list in 0..LISTS {
        let mut random = Random::new(13_000_000 + list);
        let shape = generator::small_shape(&mut random);
        let mut findings = Findings::default();
        Two::new(random, shape, exchange).list(&mut findings);
        for compared in findings.differences.into_keys() {
            *found.entry(compared).or_default() += 1;
        }
    }
    assert!(found.keys().eq(expected), "{found:?}");
    assert!(found.values().all(|lists| *lists >= LISTS / 4), "{found:?}");
}

/// The validity bits left as they are.
#[test]
fn bytes_alone() {
    differ(exchange_bytes, &["dump", "emit", "pick", "readings at the end", "words"]);
}

/// The bytes left as they are.
#[test]
fn bits_alone() {
    differ(exchange_bits, &["dump", "emit", "pick", "readings at the end", "words"]);
}

/// A right exchange, but the second run has about half of its valid X.
#[test]
fn fewer_valid_samples() {
    let fewer = |samples: &mut [u8]| {
        exchange(samples);
        samples.chunks_exact_mut(3).for_each(|bytes| bytes[2] &= !(bytes[0] & 0b01));
    };
    differ(fewer, &["dump", "emit", "page", "pick", "reading", "readings at the end", "words"]);
}

/// A right exchange, but the second run refuses some of the ticks.
#[test]
fn fewer_accepted_ticks() {
    let fewer = |samples: &mut [u8]| {
        exchange(samples);
        samples.chunks_exact_mut(3).take(1).for_each(|bytes| bytes[2] |= bytes[0] & 0b100);
    };
    let answers =
        ["dump", "emit", "forecast", "page", "pick", "reading", "readings at the end", "tick", "words"];
    differ(fewer, &answers);
}

const SHAPE: Shape = Shape { cells: 2, lags: 6, bins: 2, blocks: 1, start: 0, rate: 1000, second: 5 };

/// Two runs that are alike, with ticks in Open, in a Ready bin of cell 0 and in loss 1 of cell 1.
fn two_alike() -> Two {
    let mut findings = Findings::default();
    let mut two = Two::new(Random::new(13_500_000), SHAPE, exchange);
    two.ticks(50);
    for (cell, command) in [(0, LAST), (1, DISCARD)] {
        two.perform(&Call::Dump { cell, command, bank: 0, phase: 1, room: 0 }, &mut findings);
    }
    two.perform(&Call::Integrate { cell: 0 }, &mut findings);
    two.ticks(50);
    two.compare_words(&mut findings);
    assert!(findings.differences.is_empty(), "{:?}", findings.differences);
    two
}

/// Each word of the second run altered: it is found, unless it is an edge count or a sum at lag 0.
#[test]
fn every_word() {
    let mut two = two_alike();
    for (at, kind) in layout::kinds(SHAPE).into_iter().enumerate() {
        let left_out = match kind {
            Kind::Count(row) => at == row + 1,
            Kind::Sum(row) => at < row + 5,
            _ => false,
        };
        let mut findings = Findings::default();
        two.mems[1][at] ^= 1;
        two.compare_words(&mut findings);
        two.mems[1][at] ^= 1;
        assert_eq!(findings.differences.is_empty(), left_out, "word {at}, {kind:?}");
    }
}

/// Each word of the second frame altered, and the last one mended: it is found, unless it is W4 or of lag 0.
#[test]
fn every_word_of_a_frame() {
    let mut two = two_alike();
    let room = SHAPE.speed_length();
    let speed = Call::Dump { cell: 0, command: SPEED, bank: 0, phase: 0, room };
    for (call, lag_0) in [(Call::Pick { room }, [7, 8]), (speed, [8, 9])] {
        let [first, Reply::Frame(bytes)] = two.each(&two.both(&call)) else {
            panic!("no frames: {call:?}");
        };
        let mut words = words_of(&bytes);
        words.pop();
        for at in 0..words.len() {
            words[at] ^= 1;
            let replies = [first.clone(), Reply::Frame(sealed(&words))];
            words[at] ^= 1;
            let told = Comparison::default().replies(&call, SHAPE.lags, &replies);
            assert_eq!(told.is_ok(), at == 4 || lag_0.contains(&at), "{call:?}, word {at}: {told:?}");
        }
    }
}

/// Each byte of the second page altered: it is found, unless it stands in columns 18-28.
#[test]
fn every_byte_of_a_page() {
    let mut two = two_alike();
    let page = Call::Page { room: SHAPE.page_length() };
    let [first, Reply::Page(bytes)] = two.each(&two.both(&page)) else {
        panic!("no pages");
    };
    for at in 0..bytes.len() {
        let mut bytes = bytes.clone();
        bytes[at] ^= 1;
        let told = Comparison::default().replies(&page, SHAPE.lags, &[first.clone(), Reply::Page(bytes)]);
        assert_eq!(told.is_ok(), (17..28).contains(&(at % 41)), "byte {at}: {told:?}");
    }
}

/// Each number of the second reading altered: of one lag, ticks and centre count are found; of lags k and N - k, all
/// numbers but the edge count.
#[test]
fn every_number_of_a_reading() {
    let call = Call::Reading { cell: 0, lag: 1, loss: 1, room: [2, 3] };
    for at in 0..5 {
        let [first, mut second] = [[3, -5, 9, 7, 8], [3, 5, 9, 6, 8]];
        second[at] += 1;
        let replies = [first, second].map(Reply::Sums);
        let told = Comparison::default().replies(&call, SHAPE.lags, &replies);
        assert_eq!(told.is_err(), at == 2 || at == 4, "number {at}: {told:?}");
        assert_eq!(readings(&replies).is_err(), at != 3, "number {at}: {:?}", readings(&replies));
    }
}
