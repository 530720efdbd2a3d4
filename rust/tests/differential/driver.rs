//! The engine behind the calls of the tests, with a look at every byte that it is lent.
use lta::ffi;

use crate::call::{Call, Reply, Shape};
use crate::rules::{words_needed, SPEED};

/// What stands in lent memory before a call that should write there.
const LEFT: u8 = 0xa5;

/// The answer of a result, or its refusal.
pub fn outcome(result: u64) -> Result<u64, u32> {
    match (result >> 32) as u32 {
        0 => Ok(result & 0xffff_ffff),
        number => Err(number),
    }
}

fn number(result: u64) -> Reply {
    match outcome(result) {
        Ok(answer) => Reply::Number(answer),
        Err(refusal) => Reply::Refused(refusal),
    }
}

/// What a call writes in a lent buffer: so many bytes of it as its answer says, or none where it is refused.
fn written(room: usize, call: impl FnOnce(&mut [u8]) -> u64) -> Result<Vec<u8>, u32> {
    let mut out = vec![LEFT; room];
    let result = outcome(call(&mut out));
    let length = result.map_or(0, |length| length as usize);
    assert!(out[length..].iter().all(|byte| *byte == LEFT), "bytes past what is written");
    out.truncate(length);
    result.map(|_| out)
}

fn emit(shape: &[u64], mem: &mut [u64], (cell, bank, bin): (u64, u64, u64), room: usize) -> Reply {
    let frame = written(room, |out| ffi::emit(shape, mem, cell, bank, bin, out));
    frame.map_or_else(Reply::Refused, Reply::Frame)
}

fn pick(shape: &[u64], mem: &mut [u64], room: usize) -> Reply {
    written(room, |out| ffi::pick(shape, mem, out)).map_or_else(Reply::Refused, Reply::Frame)
}

/// A speed dump writes in the buffer that is lent with it, and no other command does.
fn dump(shape: &[u64], mem: &mut [u64], [cell, command, bank, phase]: [u64; 4], room: usize) -> Reply {
    if command == SPEED {
        let frame = written(room, |out| ffi::dump(shape, mem, cell, command, bank, phase, out));
        return frame.map_or_else(Reply::Refused, Reply::Frame);
    }
    let mut out = vec![LEFT; room];
    let reply = number(ffi::dump(shape, mem, cell, command, bank, phase, &mut out));
    assert!(out.iter().all(|byte| *byte == LEFT), "bytes written by {command:03b}");
    reply
}

fn page(shape: &[u64], mem: &[u64], room: usize) -> Reply {
    written(room, |out| ffi::page(shape, mem, out)).map_or_else(Reply::Refused, Reply::Page)
}

fn reading(shape: &[u64], mem: &[u64], (cell, lag, loss): (u64, u64, u64), room: [usize; 2]) -> Reply {
    let (mut sums, mut counts) = (vec![i64::from(LEFT); room[0]], vec![u64::from(LEFT); room[1]]);
    let result = outcome(ffi::reading(shape, mem, cell, lag, loss, &mut sums, &mut counts));
    let (i, c) = if result.is_ok() { (2, 3) } else { (0, 0) };
    assert!(sums[i..].iter().all(|sum| *sum == i64::from(LEFT)), "numbers past the sums");
    assert!(counts[c..].iter().all(|count| *count == u64::from(LEFT)), "numbers past the counts");
    match result {
        Ok(answer) => {
            assert_eq!(answer, 0, "answer of a reading");
            let [ticks, edge, centre] = [0, 1, 2].map(|at| counts[at] as i64);
            Reply::Sums([sums[0], sums[1], ticks, edge, centre])
        }
        Err(refusal) => Reply::Refused(refusal),
    }
}

/// One call of the engine.
pub fn perform(shape: &[u64], mem: &mut [u64], call: &Call) -> Reply {
    match *call {
        Call::Tick { ref samples } => number(ffi::tick(shape, mem, samples)),
        Call::Dump { cell, command, bank, phase, room } => {
            dump(shape, mem, [cell, command, bank, phase], room)
        }
        Call::Integrate { cell } => number(ffi::integrate(shape, mem, cell)),
        Call::Emit { cell, bank, bin, room } => emit(shape, mem, (cell, bank, bin), room),
        Call::Pick { room } => pick(shape, mem, room),
        Call::Reading { cell, lag, loss, room } => reading(shape, mem, (cell, lag, loss), room),
        Call::Forecast { cell } => number(ffi::forecast(shape, mem, cell)),
        Call::Page { room } => page(shape, mem, room),
    }
}

/// A fresh run in memory that held other things before.
pub fn fresh(shape: &Shape) -> Vec<u64> {
    let numbers = shape.numbers();
    let words = words_needed(shape);
    assert_eq!(ffi::words_needed(&numbers), words as u64, "words of {shape:?}");
    let mut mem = vec![u64::from(LEFT); words];
    assert_eq!(ffi::setup(&numbers, &mut mem), 0, "setup of {shape:?}");
    mem
}
