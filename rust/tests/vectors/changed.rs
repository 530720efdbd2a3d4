//! Lists with one change: each is seen.
use std::collections::BTreeMap;

use crate::list::run;
use crate::{LINES, LIST};

/// Another word of the same length.
fn other_word(word: &str) -> String {
    let (front, last) = word.split_at(word.len() - 1);
    let other = match last.as_bytes()[0] {
        b'9' => '8',
        b'f' => 'e',
        digit => char::from(digit + 1),
    };
    format!("{front}{other}")
}

/// A forecast that is one above, one below or refused, where the listed one is accepted.
fn other_forecasts(words: &[&str]) -> Vec<String> {
    let &["0", ticks, _] = words else {
        return Vec::new();
    };
    let ticks: u64 = ticks.parse().expect("a number of ticks");
    let others = [ticks + 1, ticks.wrapping_sub(1)].map(|other| format!("0 {other} {other}"));
    others.into_iter().chain(["5".to_string()]).collect()
}

/// The line with another answer: each word changed in turn, and for a forecast both of its numbers.
fn other_answers(line: &str) -> Vec<String> {
    let Some((call, listed)) = line.split_once(" = ") else {
        return Vec::new();
    };
    let words: Vec<&str> = listed.split(' ').collect();
    let changed = |at: usize| {
        let mut words: Vec<String> = words.iter().map(|word| word.to_string()).collect();
        words[at] = other_word(&words[at]);
        words.join(" ")
    };
    let mut others: Vec<String> = (0..words.len()).map(changed).collect();
    if call.starts_with("forecast") {
        others.extend(other_forecasts(&words));
    }
    others.into_iter().map(|other| format!("{call} = {other}")).collect()
}

/// Every word of every answer: the line that is changed is at fault, and no other.
#[test]
fn every_other_answer_is_seen() {
    let lines: Vec<&str> = LIST.lines().collect();
    let mut changes = 0;
    for (at, line) in lines.iter().enumerate() {
        for other in other_answers(line) {
            let list = [&lines[..at], &[other.as_str()], &lines[at + 1..]].concat().join("\n");
            let faults: Vec<usize> = run(&list).faults.iter().map(|(number, _)| *number).collect();
            assert_eq!(faults, [at + 1], "{other}");
            changes += 1;
        }
    }
    println!("vectors: {changes} other answers, each seen");
    assert!(changes > LIST.lines().count());
}

/// A part of the list, and another in its first place: heads, calls and arguments that are none, other validity bits,
/// a dump that names a block or lends no buffer, a missing answer, buffers too short or long enough, an emission by
/// name of the bin that a pick took, lengths, a run that is not set up, lines that are missing or too many.
const CHANGES: [(&str, &str); 27] = [
    ("level 7\n", "level 6\n"),
    ("shape 2 ", "shape 1 "),
    (" 100 1\n", " 100 2\n"),
    ("bound 6400\n", "bound 64\n"),
    ("setup = 0\n", ""),
    ("\ntick ", "\ntock "),
    ("\ntick ", "\ntick 0"),
    ("\ntick bc2203b21f03 = 0 0\n", "\ntick bc2203b21f01 = 0 0\n"),
    ("\ntick f64403b48b23 = 19\n", "\ntick f64403b48b03 = 19\n"),
    ("\nintegrate - ", "\nintegrate 0 "),
    (" 1 - 0 = 0 0\n", " 1 3 0 = 0 0\n"),
    (" 1 - 0 = 0 0\n", " 1 - - = 0 0\n"),
    (" - 71 = 0 70 ", " - 69 = 0 70 "),
    (" - 69 = 10\n", " - 70 = 10\n"),
    (" = 0 0\n", "\n"),
    (" 66 = 0 66 ", " 65 = 0 66 "),
    ("\npick 73 = 0 66 ", "\npick 65 = 0 66 "),
    ("\npick 1 = 10\n", "\npick 66 = 10\n"),
    ("\npick 66 = 20\n", "\npick - 66 = 20\n"),
    ("\npick 67 = 0 66 4c540200000000040100", "\nemit - 0 0 1 67 = 0 66 4c540200000000040100"),
    ("\npage 533 = 0 533 ", "\npage 532 = 0 533 "),
    ("\npage 532 = 10\n", "\npage 533 = 10\n"),
    ("\npage 532 = 10\n", "\npage - 532 = 10\n"),
    (" 100 1 0 need = 1\n", " 100 1 99 need = 1\n"),
    (" 100 1 0 need = 1\n", " 100 1 need = 1\n"),
    ("\nend\n", "\n"),
    ("\nend\n", "\nend\nend\n"),
];

#[test]
fn every_other_list_is_seen() {
    for (part, other) in CHANGES {
        let list = LIST.replacen(part, other, 1);
        assert!(list != LIST, "{part} is not in the list");
        let report = run(&list);
        let passes = report.faults.is_empty() && report.passed == BTreeMap::from(LINES);
        assert!(!passes, "{other} in place of {part}");
    }
}
