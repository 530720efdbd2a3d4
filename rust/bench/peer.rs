//! The peer: the same contract in plain safe Rust. Work memory is one slice of words that the caller owns, sums are
//! signed, and every call makes the same tests of memory before it writes. No call is inlined, as none of the proved
//! engine's is, so that its speed does not hang on who calls it.
mod cell;
pub mod frame;
mod layout;
mod page;
mod row;

use lta::{Refusal, Shape, Sums};

use cell::{Cell, CellRef};
use layout::{Layout, CELLS, NEXT_BIN, READY_BINS, RUN_WORDS};

const OPEN_LIMIT: i64 = 524_288;
const BIN_LIMIT: i64 = 16_777_215;
const RUN_LIMIT: i64 = 2_147_483_648;
const PEAK: i64 = 128;

const FREE: i64 = 0;
const FILLING: i64 = 1;
const READY: i64 = 2;

const SAVE: u64 = 0b000;
const ADD: u64 = 0b001;
const LAST: u64 = 0b010;
const SPEED: u64 = 0b011;
const DISCARD: u64 = 0b100;
const IDLE: u64 = 0b111;

fn check(holds: bool, refusal: Refusal) -> Result<(), Refusal> {
    if holds {
        Ok(())
    } else {
        Err(refusal)
    }
}

fn shape_ok(s: &Shape) -> bool {
    (1..=16).contains(&s.cells)
        && lags_ok(s.lags)
        && (1..=1000).contains(&s.bins)
        && (1..=256).contains(&s.blocks)
        && s.start <= 256 - s.blocks
        && (1..=256_000_000).contains(&s.rate)
        && s.second <= 2_147_483_647
}

fn lags_ok(lags: u64) -> bool {
    (2..=128).contains(&lags) && lags % 2 == 0
}

/// The words of work memory that a shape needs.
#[inline(never)]
pub fn words_needed(shape: &Shape) -> Result<usize, Refusal> {
    check(shape_ok(shape), Refusal::BadShape)?;
    Ok(RUN_WORDS + shape.cells as usize * Layout::new(shape).words())
}

/// Refusals 1 and 2, and then the layout of a cell.
fn host(shape: &Shape, words: usize) -> Result<Layout, Refusal> {
    check(words_needed(shape)? == words, Refusal::WrongMemory)?;
    Ok(Layout::new(shape))
}

/// Clears the memory: a fresh run.
#[inline(never)]
pub fn setup(shape: &Shape, mem: &mut [i64]) -> Result<(), Refusal> {
    host(shape, mem.len())?;
    mem.fill(0);
    Ok(())
}

/// One tick; answers the number of cells held off.
#[inline(never)]
pub fn tick(shape: &Shape, mem: &mut [i64], samples: &[u8]) -> Result<u32, Refusal> {
    let layout = host(shape, mem.len())?;
    check(samples.len() as u64 == 3 * shape.cells, Refusal::WrongSamples)?;
    let mut sampled = samples.chunks_exact(3);
    check(sampled.all(|bytes| bytes[2] <= 3), Refusal::BadValidity)?;
    let t = mem[0];
    check(t != RUN_LIMIT, Refusal::RunFull)?;
    let mut cells = mem[CELLS..].chunks_exact(layout.words());
    let sound = (0..=RUN_LIMIT).contains(&t) && cells.all(|words| CellRef { layout, words }.tick_ok(t));
    check(sound, Refusal::Damaged)?;
    let mut held_off = 0;
    for (cell, words) in mem[CELLS..].chunks_exact_mut(layout.words()).enumerate() {
        let bytes = &samples[3 * cell..][..3];
        held_off += u32::from(Cell { layout, words }.tick(bytes[0], bytes[1], bytes[2]));
    }
    mem[0] = t + 1;
    Ok(held_off)
}

/// The words of a cell, or refusal 5.
fn part(shape: &Shape, layout: &Layout, cell: u64) -> Result<std::ops::Range<usize>, Refusal> {
    check(cell < shape.cells, Refusal::NoCell)?;
    Ok(words_of(layout, cell))
}

fn words_of(layout: &Layout, cell: u64) -> std::ops::Range<usize> {
    let start = CELLS + cell as usize * layout.words();
    start..start + layout.words()
}

fn bin_rule_ok(s: &Shape, bank: u64, phase: u64) -> bool {
    bank < 2 && phase < s.bins / s.blocks
}

/// A dump of one cell; answers the loss, 0 if the set is kept and 7 if there was nothing to do. A speed dump writes its
/// frame into the front of out and answers the frame's length.
#[inline(never)]
pub fn dump(
    shape: &Shape,
    mem: &mut [i64],
    cell: u64,
    command: u64,
    bank: u64,
    phase: u64,
    out: &mut [u8],
) -> Result<u32, Refusal> {
    let layout = host(shape, mem.len())?;
    let part = part(shape, &layout, cell)?;
    check(matches!(command, SAVE..=SPEED | DISCARD | IDLE), Refusal::BadCommand)?;
    check(bin_rule_ok(shape, bank, phase), Refusal::NoBin)?;
    let t = mem[0];
    let words = &mut mem[part];
    let sound = (0..=RUN_LIMIT).contains(&t) && CellRef { layout, words }.dump_ok(t, command);
    check(sound, Refusal::Damaged)?;
    let mut unit = Cell { layout, words };
    if command != SPEED {
        return Ok(unit.dump(t, command, bank, phase));
    }
    let length = frame::length(frame::SPEED, shape.lags);
    let out = out.get_mut(..length).ok_or(Refusal::ShortBuffer)?;
    let (bin, stamp) = unit.open_leaves(t, phase);
    frame::send(out, frame::SPEED, shape, [cell, bank, bin], stamp, &mut unit.words[layout.open()]);
    Ok(length as u32)
}

/// An integration of one cell; answers the loss, or 0 if the set is kept.
#[inline(never)]
pub fn integrate(shape: &Shape, mem: &mut [i64], cell: u64) -> Result<u32, Refusal> {
    let layout = host(shape, mem.len())?;
    let part = part(shape, &layout, cell)?;
    let t = mem[0];
    let words = &mut mem[part];
    let view = CellRef { layout, words };
    check((0..=RUN_LIMIT).contains(&t) && view.integrate_ok(t), Refusal::Damaged)?;
    check(view.occupied(), Refusal::NothingHeld)?;
    Ok(Cell { layout, words }.integrate())
}

/// An emission of a Ready bin into the front of out; answers the frame's length.
#[inline(never)]
pub fn emit(
    shape: &Shape,
    mem: &mut [i64],
    cell: u64,
    bank: u64,
    bin: u64,
    out: &mut [u8],
) -> Result<usize, Refusal> {
    let layout = host(shape, mem.len())?;
    let part = part(shape, &layout, cell)?;
    check(bank < 2 && bin < shape.bins, Refusal::NoBin)?;
    let t = mem[0];
    let words = &mut mem[part];
    let number = (bank * shape.bins + bin) as usize;
    let view = CellRef { layout, words };
    check((0..=RUN_LIMIT).contains(&t) && view.emit_ok(t, number), Refusal::Damaged)?;
    check(view.is_ready(number), Refusal::NotReady)?;
    send_bin(shape, &layout, words, [cell, bank, bin], out)
}

/// The frame of a Ready bin, in the words of its cell, into the front of out, or refusal 10; the bin is then Free.
fn send_bin(
    shape: &Shape,
    layout: &Layout,
    words: &mut [i64],
    label: [u64; 3],
    out: &mut [u8],
) -> Result<usize, Refusal> {
    let length = frame::length(frame::ACCUMULATOR, shape.lags);
    let out = out.get_mut(..length).ok_or(Refusal::ShortBuffer)?;
    let number = (label[1] * shape.bins + label[2]) as usize;
    let stamp = words[layout.bin_stamp(number)] as u64;
    frame::send(out, frame::ACCUMULATOR, shape, label, stamp, &mut words[layout.bin_row(number)]);
    words[layout.state(number)] = FREE;
    words[READY_BINS] -= 1;
    Ok(length)
}

/// An emission of the Ready bin whose turn it is into the front of out; answers the frame's length.
#[inline(never)]
pub fn pick(shape: &Shape, mem: &mut [i64], out: &mut [u8]) -> Result<usize, Refusal> {
    let layout = host(shape, mem.len())?;
    let last = mem.len() - 1;
    let (t, next) = (mem[0], mem[last]);
    let mut cells = mem[CELLS..].chunks_exact(layout.words()).map(|words| CellRef { layout, words });
    let places_ok = (0..=RUN_LIMIT).contains(&t) && (0..shape.cells as i64).contains(&next);
    check(places_ok && cells.all(|cell| cell.pick_ok(t)), Refusal::Damaged)?;
    let view = |cell| CellRef { layout, words: &mem[words_of(&layout, cell)] };
    let next = next as u64;
    let cell = (next..shape.cells).chain(0..next).find(|cell| view(*cell).any_ready());
    let cell = cell.ok_or(Refusal::NothingReady)?;
    let number = view(cell).next_ready().ok_or(Refusal::NothingReady)?;
    let words = &mut mem[words_of(&layout, cell)];
    let label = [cell, number as u64 / shape.bins, number as u64 % shape.bins];
    let length = send_bin(shape, &layout, words, label, out)?;
    words[NEXT_BIN] = ((number + 1) % layout.all_bins()) as i64;
    mem[last] = ((cell + 1) % shape.cells) as i64;
    Ok(length)
}

/// A reading of one loss at one lag.
#[inline(never)]
pub fn reading(shape: &Shape, mem: &[i64], cell: u64, lag: u64, loss: u64) -> Result<Sums, Refusal> {
    let layout = host(shape, mem.len())?;
    let part = part(shape, &layout, cell)?;
    check(lag < shape.lags && (1..=6).contains(&loss), Refusal::NoLag)?;
    let words = &mem[part];
    let sound = (0..=RUN_LIMIT).contains(&mem[0]) && CellRef { layout, words }.losses_ok();
    check(sound, Refusal::Damaged)?;
    let row = &words[layout.loss(loss as usize - 1)];
    let at = 3 + 2 * lag as usize;
    let [ticks, edge, centre] = [row[0], row[1], row[2]].map(|count| count as u64);
    Ok(Sums { i: row[at], q: row[at + 1], ticks, edge, centre })
}

/// 524,288 less the ticks of Open: so many more join it before one is held off.
#[inline(never)]
pub fn forecast(shape: &Shape, mem: &[i64], cell: u64) -> Result<u32, Refusal> {
    let layout = host(shape, mem.len())?;
    let part = part(shape, &layout, cell)?;
    let t = mem[0];
    let words = &mem[part];
    let sound = (0..=RUN_LIMIT).contains(&t) && CellRef { layout, words }.open_ok(t);
    check(sound, Refusal::Damaged)?;
    Ok((OPEN_LIMIT - words[layout.open()][0]) as u32)
}

/// A loss page into the front of out; answers its length.
#[inline(never)]
pub fn page(shape: &Shape, mem: &[i64], out: &mut [u8]) -> Result<usize, Refusal> {
    let layout = host(shape, mem.len())?;
    let cells = mem[CELLS..].chunks_exact(layout.words()).map(|words| CellRef { layout, words });
    let sound = (0..=RUN_LIMIT).contains(&mem[0]) && cells.clone().all(|cell| cell.page_ok());
    check(sound, Refusal::Damaged)?;
    let length = shape.page_length();
    let out = out.get_mut(..length).ok_or(Refusal::ShortBuffer)?;
    page::put_page(out, cells.map(|cell| cell.losses())).map_err(|_| Refusal::ShortBuffer)?;
    Ok(length)
}
