//! The size of work memory: every limit of a shape from both sides.
use lta::ffi;

use crate::driver::outcome;
use crate::generator;
use crate::random::Random;
use crate::rules::host_refusal;

const SHAPES: u64 = 300_000;

/// Where each of the seven numbers has its limits.
const LIMITS: [[u64; 2]; 7] =
    [[1, 16], [2, 128], [1, 1000], [1, 256], [0, 255], [1, 256_000_000], [0, 2_147_483_647]];

/// The size call beside the formula of docs/LAYOUT.md, which is never above document 01's bound.
fn compare(numbers: &[u64]) -> bool {
    let result = outcome(ffi::words_needed(numbers));
    let Ok(words) = result else {
        assert_eq!(host_refusal(numbers, 0), Some(1), "{numbers:?} is refused");
        assert_eq!(result, Err(1), "{numbers:?}");
        return false;
    };
    assert_eq!(host_refusal(numbers, words as usize), None, "{words} words for {numbers:?}");
    let (c, n, b) = (numbers[0], numbers[1], numbers[2]);
    assert!(words <= c * (2 * b + 32) * (4 * n + 64), "{words} words for {numbers:?}");
    true
}

#[test]
fn sizes_of_shapes() {
    let mut random = Random::new(4);
    let mut accepted = 0;
    for _ in 0..SHAPES {
        let mut numbers = generator::shape(&mut random).numbers();
        for _ in 0..random.below(3) {
            let at = random.below(7) as usize;
            let (limit, far) = (random.pick(&LIMITS[at]), random.extreme());
            numbers[at] = random.pick(&[limit, limit.wrapping_sub(1), limit + 1, far]);
        }
        accepted += u64::from(compare(&numbers));
    }
    for count in 0..10 {
        compare(&[1, 2, 3, 1, 0, 1, 0, 0, 0, 0][..count]);
    }
    println!("sizes: {SHAPES} shapes, {accepted} accepted");
    assert!((SHAPES / 10..SHAPES * 9 / 10).contains(&accepted));
}
