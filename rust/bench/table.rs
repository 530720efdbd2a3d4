//! The rows that are printed: what was timed, its unit, the median block of each engine, and the ratio of their
//! speeds block beside block, above 1 where the proved engine is faster: its median and its quartiles.
use std::io::{Result, Write};

use crate::blocks::Blocks;
use crate::engine::{Engine, Peer, Proved};

pub struct Table<'a> {
    out: &'a mut dyn Write,
    ratios: Vec<(String, f64)>,
}

impl<'a> Table<'a> {
    pub fn new(out: &'a mut dyn Write) -> Result<Table<'a>> {
        let mut table = Table { out, ratios: Vec::new() };
        table.head("whole calls")?;
        Ok(table)
    }

    /// The head of some rows.
    pub fn head(&mut self, what: &str) -> Result<()> {
        let (proved, peer) = (Proved::NAME, Peer::NAME);
        writeln!(self.out, "{what:26} {:8} {proved:>10} {peer:>10} {:>7}   quartiles", "unit", "ratio")
    }

    /// A row, of numbers that come from nanoseconds of a call.
    pub fn row(
        &mut self,
        what: &str,
        unit: &str,
        blocks: &Blocks,
        number: impl Fn(f64) -> f64,
    ) -> Result<()> {
        let (proved, peer) = blocks.medians();
        let ratio = blocks.ratios();
        self.ratios.push((what.to_string(), ratio.median));
        writeln!(
            self.out,
            "{what:26} {unit:8} {:>10.1} {:>10.1} {:>7.2}   {:.2} to {:.2}",
            number(proved),
            number(peer),
            ratio.median,
            ratio.low,
            ratio.high
        )
    }

    /// A line below the rows.
    pub fn line(&mut self, text: &str) -> Result<()> {
        writeln!(self.out, "{text}")
    }

    /// The least ratio of the rows that start so.
    fn least(&self, start: &str) -> (&str, f64) {
        let rows = self.ratios.iter().filter(|(what, _)| what.starts_with(start));
        let least = rows.min_by(|one, other| one.1.total_cmp(&other.1)).expect("a row");
        (&least.0, least.1)
    }

    /// The least ratio at C=16 N=128, and the least of all.
    pub fn speed(&mut self) -> Result<()> {
        let (_, big) = self.least("tick C=16 N=128");
        let (what, least) = self.least("");
        let said = |holds: bool| if holds { "yes" } else { "no" };
        let (big_said, least_said) = (said(big >= 1.5), said(least >= 0.8));
        let line = format!(
            "speed: tick at C=16 N=128 {big:.2} (1.5 or more: {big_said}), \
             least {least:.2}, {what} (0.8 or more: {least_said})"
        );
        self.line(&line)
    }
}
