//! One call of the list through the C interface, and its answer in the words of the list.
use lta::ffi;

use crate::lent::{Lent, LEFT};
use crate::words::{bytes, hex, number, numbers, spaced};

/// The answer, or why the call cannot be made or what it did to a lent buffer.
type Answer = Result<String, String>;

/// The command of a speed dump.
const SPEED: u64 = 3;

/// The answer of a result, or its refusal.
pub fn outcome(result: u64) -> Result<u64, u64> {
    match result >> 32 {
        0 => Ok(result),
        refusal => Err(refusal),
    }
}

/// A refusal's number, or what is told of the answer.
fn told(result: u64, values: impl FnOnce(u64) -> String) -> Answer {
    Ok(outcome(result).map_or_else(|refusal| refusal.to_string(), values))
}

/// An answer that is one number.
fn plain(result: u64) -> Answer {
    told(result, |answer| format!("0 {answer}"))
}

/// A call that writes a frame or a page in a lent buffer.
fn filled(room: usize, call: impl FnOnce(&mut [u8]) -> u64) -> Answer {
    let mut out = Lent::new(room, LEFT);
    let result = call(out.part());
    let bytes = out.written(outcome(result).map_or(0, |length| length as usize))?;
    told(result, |length| format!("0 {length} {}", hex(bytes)))
}

/// A dump, of which a speed dump writes a frame in the lent buffer and any other nothing.
fn dump(shape: &[u64], mem: &mut [u64], [cell, command, bank, phase]: [u64; 4], room: usize) -> Answer {
    let mut call = |out: &mut [u8]| ffi::dump(shape, mem, cell, command, bank, phase, out);
    if command == SPEED {
        return filled(room, call);
    }
    let mut out = Lent::new(room, LEFT);
    let result = call(out.part());
    out.written(0)?;
    plain(result)
}

fn reading(shape: &[u64], mem: &[u64], cell: u64, lag: u64, loss: u64) -> Answer {
    let mut sums = Lent::new(2, i64::from_ne_bytes([LEFT; 8]));
    let mut counts = Lent::new(3, u64::from_ne_bytes([LEFT; 8]));
    let result = ffi::reading(shape, mem, cell, lag, loss, sums.part(), counts.part());
    let (i, c) = outcome(result).map_or((0, 0), |_| (2, 3));
    let (sums, counts) = (sums.written(i)?, counts.written(c)?);
    told(result, |answer| format!("{answer} {} {}", spaced(sums), spaced(counts)))
}

fn read(lags: u64, frame: &[u8]) -> Answer {
    let mut head = Lent::new(10, u32::from_ne_bytes([LEFT; 4]));
    let result = ffi::read_frame(lags, frame, head.part());
    let fields = head.written(outcome(result).map_or(0, |_| 10))?;
    told(result, |answer| format!("{answer} {}", spaced(fields)))
}

fn part(lags: u64, frame: &[u8]) -> Answer {
    told(ffi::lag_part(lags, frame), |part| format!("{} {}", part / 65_536, part % 65_536))
}

fn norm(lags: u64, lag: u64, frame: &[u8]) -> Answer {
    let mut pair = Lent::new(2, f64::from_ne_bytes([LEFT; 8]));
    let result = ffi::normalised_lag(lags, frame, lag, pair.part());
    let parts = pair.written(if result == 1 { 2 } else { 0 })?;
    told(result, |answer| match (answer, parts) {
        (1, [re, im]) => format!("0 {:016x} {:016x}", re.to_bits(), im.to_bits()),
        (0, _) => "0 nodata".to_string(),
        _ => format!("neither data nor none: {answer}"),
    })
}

fn write(lags: u64, fields: &[&str], room: usize, lag_numbers: &[i32]) -> Answer {
    let head = fields.iter().map(|field| number(field)).collect::<Result<Vec<u32>, _>>()?;
    filled(room, |out| ffi::write_frame(lags, &head, lag_numbers, out))
}

/// The call with its arguments, of this shape, on this work memory.
pub fn perform(shape: &[u64], mem: &mut [u64], call: &[&str]) -> Answer {
    match *call {
        ["need"] => plain(ffi::words_needed(shape)),
        ["setup"] => told(ffi::setup(shape, mem), |answer| answer.to_string()),
        ["tick", samples] => plain(ffi::tick(shape, mem, &bytes(samples)?)),
        ["dump", "-", cell, command, bank, phase, "-", room] => {
            let named = [number(cell)?, number(command)?, number(bank)?, number(phase)?];
            dump(shape, mem, named, number(room)?)
        }
        ["integrate", "-", cell] => plain(ffi::integrate(shape, mem, number(cell)?)),
        ["emit", "-", cell, bank, bin, room] => {
            let (cell, bank, bin) = (number(cell)?, number(bank)?, number(bin)?);
            filled(number(room)?, |out| ffi::emit(shape, mem, cell, bank, bin, out))
        }
        ["pick", room] => filled(number(room)?, |out| ffi::pick(shape, mem, out)),
        ["reading", "-", cell, lag, loss] => reading(shape, mem, number(cell)?, number(lag)?, number(loss)?),
        ["forecast", "-", cell] => {
            told(ffi::forecast(shape, mem, number(cell)?), |ticks| format!("0 {ticks} {ticks}"))
        }
        ["page", room] => filled(number(room)?, |out| ffi::page(shape, mem, out)),
        ["read", lags, frame] => read(number(lags)?, &bytes(frame)?),
        ["part", lags, frame] => part(number(lags)?, &bytes(frame)?),
        ["norm", lags, lag, frame] => norm(number(lags)?, number(lag)?, &bytes(frame)?),
        ["write", lags, ref fields @ .., room, lag_numbers] => {
            write(number(lags)?, fields, number(room)?, &numbers(lag_numbers)?)
        }
        _ => Err("no call of the list".to_string()),
    }
}
