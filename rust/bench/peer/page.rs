//! The loss page, printed by Rust's formatter into the lent buffer.
use std::array::from_fn;
use std::fmt::{Display, Error, Result, Write};

struct Cursor<'a> {
    out: &'a mut [u8],
    at: usize,
}

impl Write for Cursor<'_> {
    fn write_str(&mut self, text: &str) -> Result {
        let end = self.at + text.len();
        let place = self.out.get_mut(self.at..end).ok_or(Error)?;
        place.copy_from_slice(text.as_bytes());
        self.at = end;
        Ok(())
    }
}

impl Cursor<'_> {
    fn line(&mut self, cell: impl Display, loss: impl Display, [ticks, edge, centre]: [i64; 3]) -> Result {
        writeln!(self, "{cell:>2} {loss:>1} {ticks:>11} {edge:>11} {centre:>11}")
    }
}

/// A line for each loss of each cell, and one of their totals, into exactly the bytes of a page.
pub fn put_page(out: &mut [u8], cells: impl Iterator<Item = [[i64; 3]; 6]>) -> Result {
    let mut page = Cursor { out, at: 0 };
    let mut totals = [0; 3];
    for (cell, losses) in cells.enumerate() {
        for (loss, counts) in (1..).zip(losses) {
            page.line(cell, loss, counts)?;
            totals = from_fn(|at| totals[at] + counts[at]);
        }
    }
    page.line("**", "*", totals)
}
