//! The C interface of `include/lta.h` over slices: the only unsafe code.
//!
//! Each function lends its slices to the function of the same name and gives back that function's result: the refusal
//! number in the upper 32 bits, the answer in the lower ([`outcome`]). Slices of any length may be lent, and any
//! numbers passed. The engine is proved for all of them; it keeps no pointer, and Rust's borrows see to it that what
//! it may write overlaps nothing else.
//!
//! ```
//! use lta::ffi::{outcome, setup, tick, words_needed};
//!
//! let shape = [1, 2, 1, 1, 0, 4, 0];
//! let mut mem = vec![0; outcome(words_needed(&shape))? as usize];
//! outcome(setup(&shape, &mut mem))?;
//! assert_eq!(outcome(tick(&shape, &mut mem, &[0x02, 0x03, 0b11])), Ok(0));
//! assert_eq!(outcome(tick(&shape, &mut mem, &[])), Err(lta::Refusal::WrongSamples));
//! # Ok::<(), lta::Refusal>(())
//! ```
#![allow(unsafe_code)]

use crate::Refusal;

/// Splits a result into the refusal or the answer.
///
/// ```
/// assert_eq!(lta::ffi::outcome(5), Ok(5));
/// assert_eq!(lta::ffi::outcome(8 << 32), Err(lta::Refusal::NothingHeld));
/// ```
pub fn outcome(result: u64) -> Result<u32, Refusal> {
    match (result >> 32) as u32 {
        0 => Ok(result as u32),
        number => Err(Refusal::from_number(number).expect("the engine gives the numbers 1 to 20")),
    }
}

mod c {
    extern "C" {
        pub fn lta_words_needed(shape: *const u64, shape_len: usize) -> u64;
        pub fn lta_setup(shape: *const u64, shape_len: usize, mem: *mut u64, mem_len: usize) -> u64;
        pub fn lta_tick(
            shape: *const u64,
            shape_len: usize,
            mem: *mut u64,
            mem_len: usize,
            samples: *const u8,
            samples_len: usize,
        ) -> u64;
        pub fn lta_dump(
            shape: *const u64,
            shape_len: usize,
            mem: *mut u64,
            mem_len: usize,
            cell: u64,
            command: u64,
            bank: u64,
            phase: u64,
            out: *mut u8,
            out_len: usize,
        ) -> u64;
        pub fn lta_integrate(
            shape: *const u64,
            shape_len: usize,
            mem: *mut u64,
            mem_len: usize,
            cell: u64,
        ) -> u64;
        pub fn lta_emit(
            shape: *const u64,
            shape_len: usize,
            mem: *mut u64,
            mem_len: usize,
            cell: u64,
            bank: u64,
            bin: u64,
            out: *mut u8,
            out_len: usize,
        ) -> u64;
        pub fn lta_pick(
            shape: *const u64,
            shape_len: usize,
            mem: *mut u64,
            mem_len: usize,
            out: *mut u8,
            out_len: usize,
        ) -> u64;
        pub fn lta_reading(
            shape: *const u64,
            shape_len: usize,
            mem: *const u64,
            mem_len: usize,
            cell: u64,
            lag: u64,
            loss: u64,
            sums: *mut i64,
            sums_len: usize,
            counts: *mut u64,
            counts_len: usize,
        ) -> u64;
        pub fn lta_forecast(
            shape: *const u64,
            shape_len: usize,
            mem: *const u64,
            mem_len: usize,
            cell: u64,
        ) -> u64;
        pub fn lta_page(
            shape: *const u64,
            shape_len: usize,
            mem: *const u64,
            mem_len: usize,
            out: *mut u8,
            out_len: usize,
        ) -> u64;
        pub fn lta_read_frame(
            lags: u64,
            bytes: *const u8,
            bytes_len: usize,
            head: *mut u32,
            head_len: usize,
        ) -> u64;
        pub fn lta_lag_part(lags: u64, bytes: *const u8, bytes_len: usize) -> u64;
        pub fn lta_write_frame(
            lags: u64,
            head: *const u32,
            head_len: usize,
            numbers: *const i32,
            numbers_len: usize,
            out: *mut u8,
            out_len: usize,
        ) -> u64;
        pub fn lta_normalised_lag(
            lags: u64,
            bytes: *const u8,
            bytes_len: usize,
            lag: u64,
            pair: *mut f64,
            pair_len: usize,
        ) -> u64;
    }
}

/// The words of work memory that a shape needs.
pub fn words_needed(shape: &[u64]) -> u64 {
    // SAFETY: a slice's own pointer and length.
    unsafe { c::lta_words_needed(shape.as_ptr(), shape.len()) }
}

/// Clears the memory: a fresh run; answers 0.
pub fn setup(shape: &[u64], mem: &mut [u64]) -> u64 {
    // SAFETY: each slice's own pointer and length; mem is lent for this call alone.
    unsafe { c::lta_setup(shape.as_ptr(), shape.len(), mem.as_mut_ptr(), mem.len()) }
}

/// One tick: X, Y and validity byte of each cell in turn; answers the number of cells held off.
pub fn tick(shape: &[u64], mem: &mut [u64], samples: &[u8]) -> u64 {
    // SAFETY: each slice's own pointer and length; mem is lent for this call alone.
    unsafe {
        c::lta_tick(shape.as_ptr(), shape.len(), mem.as_mut_ptr(), mem.len(), samples.as_ptr(), samples.len())
    }
}

/// A dump of one cell; answers 0 if kept, 1 ordered, 2 overrun, 7 for command 7. Command 3 writes a speed frame into
/// the front of `out` and answers its length; other commands leave `out` alone, whatever its length.
pub fn dump(
    shape: &[u64],
    mem: &mut [u64],
    cell: u64,
    command: u64,
    bank: u64,
    phase: u64,
    out: &mut [u8],
) -> u64 {
    // SAFETY: each slice's own pointer and length; mem and out are two, each lent for this call alone.
    unsafe {
        c::lta_dump(
            shape.as_ptr(),
            shape.len(),
            mem.as_mut_ptr(),
            mem.len(),
            cell,
            command,
            bank,
            phase,
            out.as_mut_ptr(),
            out.len(),
        )
    }
}

/// An integration of one cell; answers 0 if kept, 3 full, 4 replaced, 5 wide.
pub fn integrate(shape: &[u64], mem: &mut [u64], cell: u64) -> u64 {
    // SAFETY: each slice's own pointer and length; mem is lent for this call alone.
    unsafe { c::lta_integrate(shape.as_ptr(), shape.len(), mem.as_mut_ptr(), mem.len(), cell) }
}

/// An emission: the frame of a Ready bin into the front of `out`; answers the frame's length.
pub fn emit(shape: &[u64], mem: &mut [u64], cell: u64, bank: u64, bin: u64, out: &mut [u8]) -> u64 {
    // SAFETY: each slice's own pointer and length; mem and out are two, each lent for this call alone.
    unsafe {
        c::lta_emit(
            shape.as_ptr(),
            shape.len(),
            mem.as_mut_ptr(),
            mem.len(),
            cell,
            bank,
            bin,
            out.as_mut_ptr(),
            out.len(),
        )
    }
}

/// A pick: the frame of the Ready bin whose turn it is into the front of `out`; answers the frame's length.
pub fn pick(shape: &[u64], mem: &mut [u64], out: &mut [u8]) -> u64 {
    // SAFETY: each slice's own pointer and length; mem and out are two, each lent for this call alone.
    unsafe {
        c::lta_pick(shape.as_ptr(), shape.len(), mem.as_mut_ptr(), mem.len(), out.as_mut_ptr(), out.len())
    }
}

/// A reading of loss 1 to 6 at one lag: I and Q into `sums`, ticks, edge and centre count into `counts`; answers 0.
pub fn reading(
    shape: &[u64],
    mem: &[u64],
    cell: u64,
    lag: u64,
    loss: u64,
    sums: &mut [i64],
    counts: &mut [u64],
) -> u64 {
    // SAFETY: each slice's own pointer and length; sums and counts are two, each lent for this call alone.
    unsafe {
        c::lta_reading(
            shape.as_ptr(),
            shape.len(),
            mem.as_ptr(),
            mem.len(),
            cell,
            lag,
            loss,
            sums.as_mut_ptr(),
            sums.len(),
            counts.as_mut_ptr(),
            counts.len(),
        )
    }
}

/// 524,288 less the ticks of a cell's Open: so many more join it before one is held off.
pub fn forecast(shape: &[u64], mem: &[u64], cell: u64) -> u64 {
    // SAFETY: each slice's own pointer and length.
    unsafe { c::lta_forecast(shape.as_ptr(), shape.len(), mem.as_ptr(), mem.len(), cell) }
}

/// A loss page into the front of `out`: a printed line for each cell and loss, and one of totals; answers its length.
pub fn page(shape: &[u64], mem: &[u64], out: &mut [u8]) -> u64 {
    // SAFETY: each slice's own pointer and length; out is lent for this call alone.
    unsafe { c::lta_page(shape.as_ptr(), shape.len(), mem.as_ptr(), mem.len(), out.as_mut_ptr(), out.len()) }
}

/// The fields of a frame of so many lags, in the order of [`Fields::numbers`](crate::Fields::numbers); answers 0.
pub fn read_frame(lags: u64, bytes: &[u8], head: &mut [u32]) -> u64 {
    // SAFETY: each slice's own pointer and length; head is lent for this call alone.
    unsafe { c::lta_read_frame(lags, bytes.as_ptr(), bytes.len(), head.as_mut_ptr(), head.len()) }
}

/// The part of a frame that holds its lag pairs: 65,536 × the byte at which it starts, 30 or 34, and its length added;
/// 0 where the reader refuses.
pub fn lag_part(lags: u64, bytes: &[u8]) -> u64 {
    // SAFETY: a slice's own pointer and length.
    unsafe { c::lta_lag_part(lags, bytes.as_ptr(), bytes.len()) }
}

/// The frame of ten fields and 2N lag numbers, I and Q in turn, into the front of `out`; answers its length.
pub fn write_frame(lags: u64, head: &[u32], numbers: &[i32], out: &mut [u8]) -> u64 {
    // SAFETY: each slice's own pointer and length; out is lent for this call alone.
    unsafe {
        c::lta_write_frame(
            lags,
            head.as_ptr(),
            head.len(),
            numbers.as_ptr(),
            numbers.len(),
            out.as_mut_ptr(),
            out.len(),
        )
    }
}

/// One lag of a frame by its centre count into `pair`, real and imaginary part; answers 1, or 0 for no data.
pub fn normalised_lag(lags: u64, bytes: &[u8], lag: u64, pair: &mut [f64]) -> u64 {
    // SAFETY: each slice's own pointer and length; pair is lent for this call alone.
    unsafe { c::lta_normalised_lag(lags, bytes.as_ptr(), bytes.len(), lag, pair.as_mut_ptr(), pair.len()) }
}

#[cfg(test)]
mod tests {
    use super::c;
    use std::ptr::{null, null_mut};

    /// A null pointer with length 0, which a host in C may pass and no slice of Rust's is.
    #[test]
    fn null_with_length_0() {
        let shape = [1u64, 2, 1, 1, 0, 4, 0];
        let mut mem = [0u64; 90];
        let (numbers, words) = (shape.as_ptr(), mem.as_mut_ptr());
        // SAFETY: arrays with their own lengths, and nothing behind a null pointer.
        unsafe {
            assert_eq!(c::lta_words_needed(null(), 0), 1 << 32);
            assert_eq!(c::lta_setup(numbers, 7, null_mut(), 0), 2 << 32);
            assert_eq!(c::lta_setup(numbers, 7, words, 90), 0);
            assert_eq!(c::lta_tick(numbers, 7, words, 90, null(), 0), 3 << 32);
            assert_eq!(c::lta_dump(numbers, 7, words, 90, 0, 3, 0, 0, null_mut(), 0), 10 << 32);
            assert_eq!(c::lta_dump(numbers, 7, words, 90, 0, 2, 0, 0, null_mut(), 0), 0);
            assert_eq!(c::lta_integrate(numbers, 7, words, 90, 0), 0);
            assert_eq!(c::lta_emit(numbers, 7, words, 90, 0, 0, 0, null_mut(), 0), 10 << 32);
            assert_eq!(c::lta_pick(numbers, 7, null_mut(), 0, null_mut(), 0), 2 << 32);
            assert_eq!(c::lta_pick(numbers, 7, words, 90, null_mut(), 0), 10 << 32);
            assert_eq!(
                c::lta_reading(numbers, 7, words, 90, 0, 0, 1, null_mut(), 0, null_mut(), 0),
                10 << 32
            );
            assert_eq!(c::lta_forecast(numbers, 7, null(), 0, 0), 2 << 32);
            assert_eq!(c::lta_page(numbers, 7, null(), 0, null_mut(), 0), 2 << 32);
            assert_eq!(c::lta_page(numbers, 7, words, 90, null_mut(), 0), 10 << 32);
            assert_eq!(c::lta_read_frame(2, null(), 0, null_mut(), 0), 13 << 32);
            assert_eq!(c::lta_lag_part(2, null(), 0), 0);
            assert_eq!(c::lta_write_frame(2, null(), 0, null(), 0, null_mut(), 0), 16 << 32);
            assert_eq!(c::lta_normalised_lag(2, null(), 0, 0, null_mut(), 0), 13 << 32);
        }
    }
}
