//! The numbers that `include/lta.h` has names for: those of the crate's types, and those that the engine goes by.
use std::collections::BTreeSet;
use std::fmt::Debug;

use lta::{ffi, Command, Fields, Frame, Kind, Loss, Refusal, Run, Shape};

use crate::text::{header, without};

const SHAPE: Shape = Shape { cells: 10, lags: 12, bins: 14, blocks: 3, start: 4, rate: 1000, second: 7 };

type Names = Vec<(String, u64)>;

/// The names of an enum of the header, without what all of them start with, and their numbers.
fn enumerated(text: &str, name: &str) -> Names {
    let code = without(text, "/*", "*/");
    let (_, rest) = code.split_once(&format!("enum {name} {{")).unwrap_or_else(|| panic!("no enum {name}"));
    let (list, _) = rest.split_once('}').expect("the end of an enum");
    let prefix = format!("{}_", name.to_uppercase());
    let number = |part: &str| {
        let (name, number) = part.split_once('=').expect("a number for each name");
        let name = name.trim().strip_prefix(&prefix).unwrap_or_else(|| panic!("{name} without {prefix}"));
        (name.to_string(), number.trim().parse().expect("a number"))
    };
    list.split(',').map(number).collect()
}

/// The number of a name that is defined as one.
fn defined(name: &str) -> u64 {
    let text = without(&header(), "/*", "*/");
    let mut values = text.lines().filter_map(|line| line.strip_prefix(&format!("#define {name} ")));
    let value = values.next().unwrap_or_else(|| panic!("no {name}"));
    value.trim().parse().expect("a number")
}

/// `BadShape` as `BAD_SHAPE`.
fn upper(name: impl Debug) -> String {
    let mut upper = String::new();
    for letter in format!("{name:?}").chars() {
        if letter.is_uppercase() && !upper.is_empty() {
            upper.push('_');
        }
        upper.extend(letter.to_uppercase());
    }
    upper
}

fn listed<T: Debug>(list: impl IntoIterator<Item = (T, u64)>) -> Names {
    list.into_iter().map(|(name, number)| (upper(name), number)).collect()
}

/// The fields of a struct of numbers, by its own account.
fn fields_of(value: impl Debug) -> Names {
    let text = format!("{value:?}");
    let (_, rest) = text.split_once('{').expect("a struct");
    let field = |part: &str| {
        let (name, number) = part.split_once(':').expect("a field");
        (name.trim().to_uppercase(), number.trim().parse().expect("a number"))
    };
    rest.trim_end_matches('}').split(',').map(field).collect()
}

/// The names of an array's places have, in the array, the numbers that the struct has in the fields of those names.
fn indexed(name: &str, length: &str, numbers: &[u64], fields: &[(String, u64)]) {
    let names = enumerated(&header(), name);
    assert_eq!(defined(length), names.len() as u64, "{length}");
    assert_eq!(numbers.len(), names.len(), "{name}");
    let found: Names = names.into_iter().map(|(name, at)| (name, numbers[at as usize])).collect();
    assert_eq!(found, fields, "{name}");
}

#[test]
fn refusals_losses_commands_and_kinds() {
    let refusals = Refusal::ALL.map(|refusal| (refusal, u64::from(refusal.number())));
    let mut expected = listed(refusals);
    expected.insert(0, ("NONE".to_string(), 0));
    assert_eq!(enumerated(&header(), "lta_refusal"), expected);
    let losses = Loss::ALL.map(|loss| (loss, u64::from(loss.number())));
    assert_eq!(enumerated(&header(), "lta_loss"), listed(losses));
    let commands =
        [Command::Save, Command::Add, Command::Last, Command::Speed, Command::Discard, Command::Idle];
    assert_eq!(
        enumerated(&header(), "lta_command"),
        listed(commands.map(|command| (command, command as u64)))
    );
    let kinds = [Kind::Accumulated, Kind::Speed];
    assert_eq!(enumerated(&header(), "lta_kind"), listed(kinds.map(|kind| (kind, kind as u64))));
}

/// The crate's commands are all that the engine takes, and what it answers is named.
#[test]
fn the_engine_takes_those_commands_and_no_other() {
    let commands = enumerated(&header(), "lta_command");
    let moved = enumerated(&header(), "lta_moved");
    for command in 0..20 {
        let mut mem = vec![0; SHAPE.words_needed().unwrap()];
        let mut out = vec![0; SHAPE.speed_frame_length()];
        let answer = ffi::outcome(ffi::dump(&SHAPE.numbers(), &mut mem, 0, command, 0, 0, &mut out));
        let name = commands.iter().find(|(_, number)| *number == command).map(|(name, _)| name.as_str());
        let expected = match name {
            Some("SPEED") => Ok(out.len() as u32),
            Some("DISCARD") => Ok(Loss::Ordered.number()),
            Some("IDLE") => Ok(moved[1].1 as u32),
            Some(_) => Ok(moved[0].1 as u32),
            None => Err(Refusal::BadCommand),
        };
        assert_eq!(answer, expected, "command {command}");
    }
    assert_eq!(moved, [("KEPT".to_string(), 0), ("IDLE".to_string(), 7)]);
}

/// A validity byte may have the bits that the header names and no other, and each goes with its sample: at lag 0 X of
/// a tick is multiplied by Y of the tick before.
#[test]
fn bits_of_a_validity_byte() {
    let shape = Shape { cells: 1, lags: 2, ..SHAPE };
    let bits = enumerated(&header(), "lta_validity");
    let [x, y] = ["X", "Y"].map(|name| bits.iter().find(|bit| bit.0 == name).expect("a bit").1 as u8);
    for byte in 0..=u8::MAX {
        let expected = if byte & !(x | y) == 0 { Ok(0) } else { Err(Refusal::BadValidity) };
        assert_eq!(Run::new(shape).unwrap().tick(&[0, 0, byte]), expected, "validity byte {byte}");
    }
    let edge = |bytes: [u8; 2]| {
        let mut run = Run::new(shape).unwrap();
        for byte in bytes {
            run.tick(&[1, 1, byte]).unwrap();
        }
        run.dump(0, Command::Discard, 0, 0).unwrap();
        run.reading(0, 0, Loss::Ordered).unwrap().edge
    };
    assert_eq!([[y, x], [x, y]].map(edge), [1, 0]);
}

#[test]
fn places_of_shapes_and_headers() {
    indexed("lta_shape", "LTA_SHAPE_LEN", &SHAPE.numbers(), &fields_of(SHAPE));
    let fields = Fields {
        kind: 2,
        cell: 3,
        block: 4,
        bin: 5,
        bank: 1,
        ticks: 90,
        centre: 70,
        edge: 60,
        second: 8,
        offset: 9,
    };
    let frame = Frame::write(&fields, &[(0, 0), (0, 0)]).unwrap();
    let mut head = [0; 10];
    ffi::outcome(ffi::read_frame(2, frame.bytes(), &mut head)).unwrap();
    indexed("lta_head", "LTA_HEAD_LEN", &head.map(u64::from), &fields_of(fields));
}

/// A reading of five different numbers, in arrays as long as the header says; shorter ones are refused.
#[test]
fn places_of_a_reading() {
    let shape = Shape { cells: 1, lags: 2, bins: 1, blocks: 1, start: 0, rate: 4, second: 0 };
    let mut run = Run::new(shape).unwrap();
    for samples in [[0x02, 0x03, 3], [0x31, 0x07, 3], [0x01, 0x02, 2], [0x05, 0x05, 3], [0x01, 0x02, 0]] {
        run.tick(&samples).unwrap();
    }
    run.dump(0, Command::Discard, 0, 0).unwrap();
    let read = |sums: &mut [i64], counts: &mut [u64]| {
        ffi::outcome(ffi::reading(&shape.numbers(), run.words(), 0, 0, 1, sums, counts))
    };
    let (mut sums, mut counts) = ([0; 2], [0; 3]);
    read(&mut sums, &mut counts).unwrap();
    let fields = fields_of(run.reading(0, 0, Loss::Ordered).unwrap());
    indexed("lta_sums", "LTA_SUMS_LEN", &sums.map(|sum| sum as u64), &fields[..2]);
    indexed("lta_counts", "LTA_COUNTS_LEN", &counts, &fields[2..]);
    let different: BTreeSet<u64> = fields.iter().map(|(_, number)| *number).collect();
    assert_eq!(different.len(), 5, "{fields:?}");
    assert_eq!(read(&mut sums[..1], &mut counts), Err(Refusal::ShortBuffer));
    assert_eq!(read(&mut sums, &mut counts[..2]), Err(Refusal::ShortBuffer));
}

#[test]
fn places_of_a_pair() {
    let fields = Fields { kind: 2, ticks: 4, centre: 4, ..Fields::default() };
    let frame = Frame::write(&fields, &[(8, -2), (0, 0)]).unwrap();
    let mut pair = [0.0; 2];
    ffi::outcome(ffi::normalised_lag(2, frame.bytes(), 0, &mut pair)).unwrap();
    let names = enumerated(&header(), "lta_pair");
    let found: Vec<_> = names.iter().map(|(name, at)| (name.as_str(), pair[*at as usize])).collect();
    assert_eq!(found, [("REAL", 2.0), ("IMAGINARY", -0.5)]);
    assert_eq!(defined("LTA_PAIR_LEN"), 2);
}

/// The longest frame of each kind and its lag part, whose numbers tests/header.c expects of the header's macros.
#[test]
fn lengths_and_lag_parts_of_frames() {
    let lags = defined("LTA_LAGS_MOST");
    for (kind, length, start) in [(Kind::Accumulated, 1058, 30), (Kind::Speed, 1062, 34)] {
        let fields = Fields { kind: kind as u32, ticks: 1, ..Fields::default() };
        let frame = Frame::write(&fields, &vec![(-127, 128); lags as usize]).unwrap();
        assert_eq!(frame.bytes().len(), length, "{kind:?}");
        assert_eq!(ffi::lag_part(lags, frame.bytes()), start * 65_536 + 1024, "{kind:?}");
        assert_eq!(frame.lag_part(), &frame.bytes()[start as usize..length - 4], "{kind:?}");
    }
}

/// A page of the largest shape, cut into lines as long as the header says: each ends in a line feed, and no other byte
/// is one.
#[test]
fn lines_of_a_page() {
    let shape = Shape { cells: defined("LTA_CELLS_MOST"), ..SHAPE };
    let page = Run::new(shape).unwrap().page().unwrap();
    let length = defined("LTA_PAGE_LINE_LEN") as usize;
    assert_eq!(page.len(), length * (6 * shape.cells as usize + 1));
    for line in page.as_bytes().chunks(length) {
        assert_eq!(line.iter().position(|byte| *byte == b'\n'), Some(length - 1));
    }
}

/// What the header says of the version and of the largest shape.
#[test]
fn versions_and_limits() {
    for (part, number) in [
        ("MAJOR", env!("CARGO_PKG_VERSION_MAJOR")),
        ("MINOR", env!("CARGO_PKG_VERSION_MINOR")),
        ("PATCH", env!("CARGO_PKG_VERSION_PATCH")),
    ] {
        assert_eq!(defined(&format!("LTA_VERSION_{part}")).to_string(), number);
    }
    let (cells, lags) = (defined("LTA_CELLS_MOST"), defined("LTA_LAGS_MOST"));
    assert!(Shape { cells, lags, ..SHAPE }.words_needed().is_ok());
    assert_eq!(Shape { cells: cells + 1, ..SHAPE }.words_needed(), Err(Refusal::BadShape));
    assert_eq!(Shape { lags: lags + 2, ..SHAPE }.words_needed(), Err(Refusal::BadShape));
}

#[test]
fn a_wrong_number_is_found() {
    let text = "enum lta_sums { LTA_SUMS_I = 0, /* x, = 3 */ LTA_SUMS_Q = 1 };";
    let right: Names = [("I", 0), ("Q", 1)].map(|(name, number)| (name.to_string(), number)).into();
    assert_eq!(enumerated(text, "lta_sums"), right);
    for (old, new) in [("I = 0", "I = 1"), ("_Q = 1", "_P = 1"), (", /* x, = 3 */ LTA_SUMS_Q = 1", "")] {
        assert_ne!(enumerated(&text.replace(old, new), "lta_sums"), right, "{old} as {new}");
    }
}
