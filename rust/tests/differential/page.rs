//! The loss page of request 2026-03, printed twice: by Rust's formatter with the sums of its lines below them, and byte
//! by byte in the columns that the request numbers, with totals of the caller's.
use std::array::from_fn;
use std::fmt::Display;

/// Ticks, edge count and centre count of a loss, or of all losses together.
pub type Counts = [u64; 3];

fn line(cell: impl Display, loss: impl Display, [ticks, edge, centre]: Counts) -> String {
    format!("{cell:>2} {loss:>1} {ticks:>11} {edge:>11} {centre:>11}\n")
}

/// The page of the losses of each cell, by the formatter.
pub fn formatted(cells: &[[Counts; 6]]) -> Vec<u8> {
    let (mut page, mut totals) = (String::new(), Counts::default());
    for (cell, losses) in cells.iter().enumerate() {
        for (loss, counts) in (1..).zip(losses) {
            page += &line(cell, loss, *counts);
            totals = from_fn(|at| totals[at] + counts[at]);
        }
    }
    page += &line("**", "*", totals);
    page.into_bytes()
}

/// Where the cell, the loss, the ticks and the two counts end, by columns from 1 on.
const ENDS: [usize; 5] = [2, 4, 16, 28, 40];

fn put_line(page: &mut Vec<u8>, front: [String; 2], counts: Counts) {
    let mut line = [b' '; 41];
    for (end, text) in ENDS.into_iter().zip(front.into_iter().chain(counts.map(|count| count.to_string()))) {
        line[end - text.len()..end].copy_from_slice(text.as_bytes());
    }
    line[40] = b'\n';
    page.extend(line);
}

/// The page of the losses of each cell and of these totals, by the columns.
pub fn placed(cells: &[[Counts; 6]], totals: Counts) -> Vec<u8> {
    let mut page = Vec::new();
    for (cell, losses) in cells.iter().enumerate() {
        for (loss, counts) in losses.iter().enumerate() {
            put_line(&mut page, [cell.to_string(), (loss + 1).to_string()], *counts);
        }
    }
    put_line(&mut page, ["**".to_string(), "*".to_string()], totals);
    page
}

/// The three numbers of each line of a page, the totals last.
pub fn numbers_of(page: &[u8]) -> Vec<Counts> {
    let text = std::str::from_utf8(page).expect("a page in ASCII");
    let number = |line: &str, from: usize| line[from..from + 11].trim_start().parse().expect("a number");
    text.lines().map(|line| [5, 17, 29].map(|from| number(line, from))).collect()
}
