//! How two runs are alike when X and Y are exchanged in each tick of the second, by request 2026-08: "for every lag k
//! from 1 to N - 1, each place's I sum at lag k equals the other's at lag N - k, and its Q sum is the negative. Centre
//! counts agree." Sums at lag 0 and edge counts are not compared, since nothing is said of them. What does not hang on
//! samples is equal: refusals and answers, ticks, states, labels, stamps, blocks and places of picks.
use std::collections::BTreeMap;
use std::fmt::{Debug, Display};

use lta::{Fields, Frame};

use crate::call::{Call, Reply};
use crate::frame::lags_from;
use crate::signed::{Bin, Cell, Held, Row, Run};

/// Alike, or the first difference.
pub type Alike = Result<(), String>;

const LOSSES: [&str; 6] = ["loss 1", "loss 2", "loss 3", "loss 4", "loss 5", "loss 6"];

/// The places of one kind that were compared and had ticks.
#[derive(Clone, Copy, Debug, Default)]
pub struct Seen {
    pub places: u64,
    /// Those with a Q other than 0 at some lag from 1 to N - 1.
    pub with_q: u64,
    /// Those whose sums at lag 0, or whose edge counts, are not the other run's.
    pub other_lag_0: u64,
    pub other_edge: u64,
}

/// Comparisons of two runs, with the places that they saw: those of work memory, and a frame by the call that sent it.
#[derive(Default)]
pub struct Comparison {
    pub seen: BTreeMap<&'static str, Seen>,
}

fn same<T: PartialEq + Debug>(what: impl Display, first: T, second: T) -> Alike {
    if first == second {
        return Ok(());
    }
    Err(format!("{what}: {first:?} and {second:?}"))
}

/// I and Q of a lag.
fn pair(row: &Row, lag: usize) -> [i64; 2] {
    [row.sums[2 * lag], row.sums[2 * lag + 1]]
}

fn rows(place: &str, first: &Row, second: &Row) -> Alike {
    same(format_args!("{place}, ticks"), first.ticks, second.ticks)?;
    same(format_args!("{place}, centre count"), first.centre, second.centre)?;
    let lags = first.sums.len() / 2;
    (1..lags).try_for_each(|lag| {
        let [i, q] = pair(second, lags - lag);
        same(format_args!("{place}, lag {lag}"), pair(first, lag), [i, -q])
    })
}

/// The fields of a frame but the edge count, and its numbers as those of a place, by the engine's reader.
fn read(lags: u64, bytes: &[u8]) -> Result<(Fields, Row), String> {
    let frame = Frame::read(lags, bytes).map_err(|refusal| format!("a frame is refused: {refusal:?}"))?;
    let fields = *frame.fields();
    let [ticks, edge, centre] = [fields.ticks, fields.edge, fields.centre].map(u64::from);
    let sums = frame.lags().flat_map(|(i, q)| [i, q].map(i64::from)).collect();
    Ok((Fields { edge: 0, ..fields }, Row { ticks, edge, centre, sums }))
}

/// All columns but 18-28, which have the edge counts.
fn pages(first: &[u8], second: &[u8]) -> Alike {
    same("bytes of a page", first.len(), second.len())?;
    for (line, (first, second)) in (1..).zip(first.chunks(41).zip(second.chunks(41))) {
        same(format_args!("line {line}, columns 1-17"), &first[..17], &second[..17])?;
        same(format_args!("line {line}, columns 29-41"), &first[28..], &second[28..])?;
    }
    Ok(())
}

/// Accepted readings of lag k in the first run and of lag N - k in the second, k being 1 or more.
pub fn readings([first, second]: &[Reply; 2]) -> Alike {
    let (&Reply::Sums([i, q, ticks, _, centre]), &Reply::Sums(second)) = (first, second) else {
        return Err(format!("no two readings: {first:?} and {second:?}"));
    };
    let [other_i, other_q, other_ticks, _, other_centre] = second;
    same("readings", [i, q, ticks, centre], [other_i, -other_q, other_ticks, other_centre])
}

/// What a cell keeps ahead of its rows.
fn heads(first: &Cell, second: &Cell) -> Alike {
    let label = |Held { occupied, command, bank, bin, .. }: &Held| [*occupied, *command, *bank, *bin];
    same("flag and label", label(&first.held), label(&second.held))?;
    same("Open's stamp", first.open_stamp, second.open_stamp)?;
    same("Held's stamp", first.held.stamp, second.held.stamp)?;
    same("block and last command", (first.block, first.last), (second.block, second.last))?;
    same("Ready number and bin last picked", [first.ready, first.picked], [second.ready, second.picked])
}

impl Comparison {
    fn see(&mut self, place: &'static str, first: &Row, second: &Row) {
        if first.ticks > 0 {
            let seen = self.seen.entry(place).or_default();
            let mut later = first.sums.chunks_exact(2).skip(1);
            seen.places += 1;
            seen.with_q += u64::from(later.any(|pair| pair[1] != 0));
            seen.other_lag_0 += u64::from(pair(first, 0) != pair(second, 0));
            seen.other_edge += u64::from(first.edge != second.edge);
        }
    }

    fn place(&mut self, place: &'static str, first: &Row, second: &Row) -> Alike {
        self.see(place, first, second);
        rows(place, first, second)
    }

    /// All bytes but W4, the lag pairs and the last word; then what the reader says.
    fn frames(&mut self, place: &'static str, lags: u64, first: &[u8], second: &[u8]) -> Alike {
        same("bytes of a frame", first.len(), second.len())?;
        let ((fields, row), (other_fields, other_row)) = (read(lags, first)?, read(lags, second)?);
        same("fields", fields, other_fields)?;
        let pairs = lags_from(fields.kind);
        same("mark and W0 to W3", &first[..18], &second[..18])?;
        same("W5 up to the lag pairs", &first[22..pairs], &second[22..pairs])?;
        self.place(place, &row, &other_row)
    }

    /// The answers to a call, with what it wrote in lent buffers.
    pub fn replies(&mut self, call: &Call, lags: u64, [first, second]: &[Reply; 2]) -> Alike {
        match (first, second) {
            (Reply::Frame(first), Reply::Frame(second)) => self.frames(call.name(), lags, first, second),
            (Reply::Page(first), Reply::Page(second)) => pages(first, second),
            (Reply::Sums([_, _, ticks, _, centre]), Reply::Sums([_, _, other_ticks, _, other_centre])) => {
                same("ticks and centre count of a reading", [ticks, centre], [other_ticks, other_centre])
            }
            _ => same("answers", first, second),
        }
    }

    /// Each of these places had ticks so often with each of what is counted.
    pub fn met(&self, places: &[&str], least: u64) {
        for place in places {
            let seen = self.seen.get(place).copied().unwrap_or_default();
            let Seen { with_q, other_lag_0, other_edge, .. } = seen;
            assert!(with_q.min(other_lag_0).min(other_edge) >= least, "{place}: {seen:?}");
        }
    }

    /// The words of work memory, by docs/LAYOUT.md.
    pub fn runs(&mut self, [first, second]: &[Run; 2]) -> Alike {
        same("t", first.t, second.t)?;
        same("the cell last served", first.served, second.served)?;
        for (number, (first, second)) in first.cells.iter().zip(&second.cells).enumerate() {
            self.cells(first, second).map_err(|difference| format!("cell {number}: {difference}"))?;
        }
        Ok(())
    }

    fn cells(&mut self, first: &Cell, second: &Cell) -> Alike {
        heads(first, second)?;
        self.place("Open", &first.open, &second.open)?;
        self.place("Held", &first.held.row, &second.held.row)?;
        for (loss, (first, second)) in LOSSES.into_iter().zip(first.losses.iter().zip(&second.losses)) {
            self.place(loss, first, second)?;
        }
        for (number, (first, second)) in first.bins.iter().zip(&second.bins).enumerate() {
            self.bins(first, second).map_err(|difference| format!("bin {number}: {difference}"))?;
        }
        same("registers", [&first.x, &first.y], [&second.y, &second.x])
    }

    fn bins(&mut self, first: &Bin, second: &Bin) -> Alike {
        same("state and stamp", [first.state, first.stamp], [second.state, second.stamp])?;
        self.place("bin", &first.row, &second.row)
    }
}
