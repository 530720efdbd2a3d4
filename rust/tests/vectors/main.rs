//! A list of calls with their answers, worked out from document 01 and the requests up to 2026-07 apart from this
//! project, through the C interface.
//!
//! A line is `CALL ARGS = ANSWER`: decimal numbers, hexadecimal buffers, `-` for no bytes and for an argument that
//! the call does not have. An answer is a refusal's number, or 0 and the values. The lines:
//!
//! ```text
//! level L; shape C N B M S R Z 1; bound W      needed words are at most W
//! setup = 0                                    on the needed words, filled with rubbish
//! @ C N B M S R Z 1 DELTA CALL .. = 1|2        with this shape and DELTA words more than the run has; need: the size
//! tick HEX = 0 HELDOFF
//! dump - CELL COMMAND BANK PHASE - ROOM = 0 LOSS, or 0 LENGTH HEX for command 3
//! integrate - CELL = 0 LOSS
//! emit - CELL BANK BIN ROOM = 0 LENGTH HEX
//! pick ROOM = 0 LENGTH HEX
//! reading - CELL LAG LOSS = 0 I Q TICKS EDGE CENTRE
//! forecast - CELL = 0 LOW HIGH                 both are the answer
//! page ROOM = 0 LENGTH HEX
//! read N HEX = 0 KIND CELL BLOCK BIN BANK TICKS CENTRE EDGE W5 W6
//! part N HEX = OFFSET LENGTH                   0 0 for the empty part
//! norm N LAG HEX = 0 nodata, or 0 RE IM        bits of f64
//! write N KIND .. W6 ROOM NUMBER,NUMBER,.. = 0 LENGTH HEX
//! end
//! ```
//!
//! `list` goes through the lines and looks at work memory, `calls` makes a line's call, `lent` is a buffer with what
//! must be left of it, `words` reads and writes the words of a line. `changed` shows that a list with a change fails,
//! `example` has the kinds of lines and answers that the list lacks.
mod calls;
mod changed;
mod example;
mod lent;
mod list;
mod words;

use std::collections::BTreeMap;

const LIST: &str = include_str!("level-07.txt");
const LEVEL: u32 = 7;

/// How many lines of each kind the list has.
const LINES: [(&str, usize); 17] = [
    ("@", 12),
    ("bound", 1),
    ("dump", 113),
    ("emit", 31),
    ("end", 1),
    ("forecast", 19),
    ("integrate", 145),
    ("level", 1),
    ("norm", 6),
    ("page", 6),
    ("part", 6),
    ("pick", 44),
    ("read", 6),
    ("reading", 50),
    ("setup", 2),
    ("shape", 1),
    ("tick", 129),
];

#[test]
fn every_line_is_answered_as_listed() {
    let report = list::run(LIST);
    assert!(report.faults.is_empty(), "{}", report.told());
    assert_eq!(report.passed, BTreeMap::from(LINES), "lines of each kind");
    let kinds = LINES.map(|(kind, count)| format!("{count} {kind}")).join(", ");
    println!("vectors: level {LEVEL}, {} lines as listed: {kinds}", LIST.lines().count());
}
