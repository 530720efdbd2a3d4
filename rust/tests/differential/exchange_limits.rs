//! Aerials exchanged with real ticks up to the limits, where losses 5 and 6 begin.
use crate::call::{Call, Reply, Shape};
use crate::exchange::{exchange, Findings, Two};
use crate::random::Random;
use crate::rules::{ADD, LAST, OPEN_LIMIT, SPEED};

const SHAPE: Shape = Shape { cells: 1, lags: 4, bins: 1, blocks: 1, start: 0, rate: 1000, second: 5 };

/// The words, readings of the losses and their page.
fn finish(mut two: Two, mut findings: Findings, loss: &str) {
    two.compare_words(&mut findings);
    two.compare_readings(&mut findings);
    two.perform(&Call::Page { room: two.model.shape.page_length() }, &mut findings);
    assert!(findings.differences.is_empty(), "{:?}", findings.differences);
    findings.comparison.met(&[loss], 1);
}

/// A full Open, which leaves as a speed frame, and ticks that are held off.
#[test]
fn holdoff_with_real_ticks() {
    let mut findings = Findings::default();
    let mut two = Two::new(Random::new(12_500_000), Shape { cells: 2, lags: 6, ..SHAPE }, exchange);
    assert_eq!(two.ticks(OPEN_LIMIT as usize), 0);
    assert_eq!(two.ticks(500), 1_000);
    two.compare_words(&mut findings);
    let speed = Call::Dump { cell: 1, command: SPEED, bank: 0, phase: 0, room: 86 };
    assert!(matches!(two.perform(&speed, &mut findings), Reply::Frame(_)));
    assert_eq!(two.ticks(500), 500);
    finish(two, findings, "loss 6");
}

/// A full bin, which leaves as a frame, and sets that would make it too wide.
#[test]
fn a_wide_bin_with_real_ticks() {
    let mut findings = Findings::default();
    let mut two = Two::new(Random::new(12_500_001), SHAPE, exchange);
    let mut put = |two: &mut Two, command, ticks| {
        two.ticks(ticks);
        two.perform(&Call::Dump { cell: 0, command, bank: 0, phase: 0, room: 0 }, &mut findings);
        two.perform(&Call::Integrate { cell: 0 }, &mut findings)
    };
    for part in 1..=32 {
        let ticks = OPEN_LIMIT as usize - part / 32;
        assert_eq!(put(&mut two, ADD, ticks), Reply::Number(0));
    }
    assert_eq!(put(&mut two, ADD, 100), Reply::Number(5));
    assert_eq!(put(&mut two, LAST, 100), Reply::Number(5));
    two.compare_words(&mut findings);
    assert!(matches!(two.perform(&Call::Pick { room: 66 }, &mut findings), Reply::Frame(_)));
    finish(two, findings, "loss 5");
}
