//! The lines of a list in turn, and what each may change of work memory.
use std::collections::BTreeMap;
use std::iter::successors;

use lta::ffi;

use crate::calls::{outcome, perform};
use crate::lent::BEHIND;
use crate::words::number;
use crate::LEVEL;

/// The calls that change work memory where they are accepted.
const WRITERS: [&str; 6] = ["setup", "tick", "dump", "integrate", "emit", "pick"];

type Checked = Result<(), String>;

/// What became of each line.
#[derive(Default)]
pub struct Report<'a> {
    /// How many lines of each kind, its first word, were run and are as listed.
    pub passed: BTreeMap<&'a str, usize>,
    /// The other lines, counted from 1, with what is wrong.
    pub faults: Vec<(usize, String)>,
}

impl Report<'_> {
    pub fn told(&self) -> String {
        self.faults.iter().map(|(at, fault)| format!("line {at}: {fault}\n")).collect()
    }
}

pub fn run(list: &str) -> Report<'_> {
    let mut run = Run::default();
    let mut report = Report::default();
    for (at, line) in list.lines().enumerate() {
        match run.line(line) {
            Ok(()) => *report.passed.entry(line.split(' ').next().unwrap_or_default()).or_default() += 1,
            Err(fault) => report.faults.push((at + 1, format!("{line}: {fault}"))),
        }
    }
    report
}

/// The run that the lines speak of.
#[derive(Default)]
struct Run {
    shape: [u64; 7],
    /// How many words the shape needs.
    words: usize,
    /// Those words, and behind them some that no call may write.
    mem: Vec<u64>,
    ended: bool,
}

fn ensure(holds: bool, fault: impl FnOnce() -> String) -> Checked {
    holds.then_some(()).ok_or_else(fault)
}

fn rubbish(words: usize) -> Vec<u64> {
    let next = |word: &u64| Some(word.wrapping_mul(0x5851_f42d_4c95_7f2d).wrapping_add(1));
    successors(Some(0xa5a5_a5a5_a5a5_a5a5), next).take(words).collect()
}

/// The seven numbers of a shape, and the words behind it.
fn shape_in<'a>(words: &'a [&'a str]) -> Result<([u64; 7], &'a [&'a str]), String> {
    let Some((numbers, ["1", rest @ ..])) = words.split_first_chunk::<7>() else {
        return Err("no shape of the list".to_string());
    };
    let mut shape = [0; 7];
    for (value, word) in shape.iter_mut().zip(numbers) {
        *value = number(word)?;
    }
    Ok((shape, rest))
}

fn compare(answer: &str, listed: &str) -> Checked {
    ensure(answer == listed, || format!("the engine answers {answer}"))
}

impl Run {
    fn line(&mut self, line: &str) -> Checked {
        ensure(!self.ended, || "behind the end".to_string())?;
        let (call, listed) =
            line.split_once(" = ").map_or((line, None), |(call, listed)| (call, Some(listed)));
        match (&call.split(' ').collect::<Vec<_>>()[..], listed) {
            (["level", level], None) => ensure(number(level) == Ok(LEVEL), || "another level".to_string()),
            (["shape", words @ ..], None) => self.lay_out(words),
            (["bound", most], None) => {
                ensure(self.words <= number(most)?, || format!("{} words are needed", self.words))
            }
            (["end"], None) => {
                self.ended = true;
                Ok(())
            }
            (["@", words @ ..], Some(listed)) => self.refused_host(words, listed),
            (call, Some(listed)) => self.call(call, listed),
            _ => Err("no line of the list".to_string()),
        }
    }

    fn lay_out(&mut self, words: &[&str]) -> Checked {
        let (shape, rest) = shape_in(words)?;
        ensure(rest.is_empty(), || "more than a shape".to_string())?;
        let needed = outcome(ffi::words_needed(&shape)).map_err(|refusal| format!("refusal {refusal}"))?;
        self.words = needed as usize;
        self.shape = shape;
        self.mem = rubbish(self.words + BEHIND);
        Ok(())
    }

    /// A call with another shape or length, which 1 or 2 refuses.
    fn refused_host(&mut self, words: &[&str], listed: &str) -> Checked {
        let (shape, [delta, call @ ..]) = shape_in(words)? else {
            return Err("no call of another shape".to_string());
        };
        let before = self.mem.clone();
        let length = self.words.checked_add_signed(number(delta)?);
        let mem = length.and_then(|length| self.mem.get_mut(..length)).ok_or("no such length")?;
        let answer = perform(&shape, mem, call)?;
        ensure(self.mem == before, || format!("{answer}, but work memory is another"))?;
        ensure(["1", "2"].contains(&listed), || "neither 1 nor 2".to_string())?;
        compare(&answer, listed)
    }

    /// A call of the run. Work memory that it may not write, and what stands behind it, is as before.
    fn call(&mut self, call: &[&str], listed: &str) -> Checked {
        if call == ["setup"] {
            self.mem = rubbish(self.words + BEHIND);
        }
        let before = self.mem.clone();
        let answer = perform(&self.shape, &mut self.mem[..self.words], call)?;
        let writes = WRITERS.contains(&call[0]) && answer.starts_with('0');
        let kept = if writes { self.words } else { 0 };
        ensure(self.mem[kept..] == before[kept..], || format!("{answer}, but work memory is another"))?;
        compare(&answer, listed)
    }
}
