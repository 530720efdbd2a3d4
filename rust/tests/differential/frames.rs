//! The calls on frames of both kinds: right ones, damaged ones, and fields to write that break a rule.
use lta::ffi;

use crate::driver::outcome;
use crate::frame::{self, Fields};
use crate::random::Random;
use crate::rules::{bad_lags, BIN_LIMIT, PEAK};
use crate::tally::Tally;

const FRAMES: u64 = 150_000;
const LEFT: u8 = 0x5a;

/// The outcome of a call, with the kind of frame if there is one.
fn outcome_name<T>(result: &Result<T, u32>, kind: Option<u32>) -> String {
    let of = kind.map_or(String::new(), |kind| format!(", kind {kind}"));
    match result {
        Ok(_) => format!("accepted{of}"),
        Err(number) => format!("refusal {number}{of}"),
    }
}

/// The kind that the bytes have by their length.
fn kind_of(lags: u64, bytes: &[u8]) -> Option<u32> {
    if bad_lags(lags) {
        return None;
    }
    frame::kind_of(lags, bytes.len())
}

/// Fields that a frame may have, often at their limits.
fn right_fields(random: &mut Random) -> Fields {
    let any = random.within(0, BIN_LIMIT) as u32;
    let ticks = random.pick(&[0, 1, 1000, BIN_LIMIT as u32, any]);
    let count = |random: &mut Random| random.within(0, u64::from(ticks)) as u32;
    let (centre, edge) = (count(random), count(random));
    [
        random.pick(&[frame::ACCUMULATOR, frame::SPEED]),
        random.below(16) as u32,
        random.below(256) as u32,
        random.pick(&[0, 999, 500]),
        random.below(2) as u32,
        ticks,
        random.pick(&[0, ticks, centre]),
        random.pick(&[0, ticks, edge]),
        random.next() as u32,
        random.pick(&[0, 255_999_999, 1]),
    ]
}

fn right_numbers(random: &mut Random, lags: u64, ticks: u32) -> Vec<i32> {
    let most = PEAK as i64 * i64::from(ticks);
    let number = |random: &mut Random| random.within(0, 2 * most as u64) as i64 - most;
    (0..2 * lags)
        .map(|_| {
            let any = number(random);
            random.pick(&[any, any, most, -most, 0]) as i32
        })
        .collect()
}

/// One field beyond its limit, or any number at all in its place.
fn break_field(random: &mut Random, fields: &mut Fields) {
    let limits =
        [random.pick(&[1, 4]), 16, 256, 1000, 2, 16_777_216, fields[5] + 1, fields[5] + 1, 0, 256_000_000];
    let at = random.below(10) as usize;
    let any = random.next() as u32;
    fields[at] = random.pick(&[limits[at], limits[at], u32::MAX, any]);
}

fn break_number(random: &mut Random, numbers: &mut [i32], ticks: u32) {
    let at = random.below(numbers.len() as u64) as usize;
    let most = (PEAK as i64 * i64::from(ticks) + 1) as i32;
    let any = random.next() as i32;
    numbers[at] = random.pick(&[most, -most, i32::MIN, i32::MAX, any]);
}

/// Changes a word and mends the last one, so that the reader comes to its rules on fields.
fn break_word(random: &mut Random, bytes: &mut Vec<u8>) {
    let mut words = frame::words_of(bytes);
    words.pop();
    let count = if random.once_in(2) { 8 } else { words.len() };
    let at = random.below(count as u64) as usize;
    let one = 1 << random.below(32);
    let any = random.next() as u32;
    words[at] = random.pick(&[words[at] ^ one, words[at] ^ one, words[at].wrapping_add(1), any]);
    *bytes = frame::sealed(&words);
}

/// Takes DATA_BIAS out or puts a word there and mends the last one: the length is then the other kind's, and W0 names
/// the one kind or the other.
fn cross(random: &mut Random, bytes: &mut Vec<u8>) {
    let mut words = frame::words_of(bytes);
    words.pop();
    if words[0] & 7 == frame::SPEED {
        words.remove(7);
    } else {
        let right = frame::bias(words[2]);
        let any = random.next() as u32;
        words.insert(7, random.pick(&[right, right, right.wrapping_add(1), any]));
    }
    words[0] ^= random.below(2) as u32;
    *bytes = frame::sealed(&words);
}

fn damage(random: &mut Random, bytes: &mut Vec<u8>) {
    match random.below(12) {
        0 => {}
        1 => {
            let at = random.below(bytes.len() as u64) as usize;
            bytes[at] ^= 1 << random.below(8);
        }
        2 => bytes[random.below(2) as usize] = random.byte(),
        3 => bytes.truncate(random.below(bytes.len() as u64) as usize),
        4 => bytes.push(random.byte()),
        5 => bytes.truncate(bytes.len() - 4),
        6 => bytes.extend(random.bytes(4)),
        7 | 8 => cross(random, bytes),
        _ => break_word(random, bytes),
    }
}

/// The reader and the lag part beside the model.
fn read_both(random: &mut Random, lags: u64, bytes: &[u8], tally: &mut Tally) {
    let expected = frame::read(lags, bytes);
    let room = if random.once_in(10) { random.pick(&[0, 9, 11, 12]) } else { 10 };
    let mut fields = vec![u32::from(LEFT); room];
    let mut left = fields.clone();
    let result = outcome(ffi::read_frame(lags, bytes, &mut fields));
    let wanted = match &expected {
        Ok(_) if room < 10 => Err(10),
        Ok((words, _)) => {
            left[..10].copy_from_slice(words);
            Ok(0)
        }
        Err(number) => Err(*number),
    };
    assert_eq!(result, wanted, "reader, {lags} lags, {bytes:?}");
    assert_eq!(fields, left, "fields, {lags} lags, {bytes:?}");
    tally.add("read", outcome_name(&result, kind_of(lags, bytes)));
    compare_part(lags, bytes, expected, tally);
}

/// The lag part is empty where the reader refuses; else it begins where its kind has it, and is the lag numbers.
fn compare_part(lags: u64, bytes: &[u8], read: Result<(Fields, Vec<i32>), u32>, tally: &mut Tally) {
    let part = outcome(ffi::lag_part(lags, bytes));
    let Ok((fields, numbers)) = read else {
        assert_eq!(part, Ok(0), "lag part, {lags} lags, {bytes:?}");
        return tally.add("lag part", "empty".to_string());
    };
    let from = frame::lags_from(fields[0]);
    assert_eq!(part, Ok(65_536 * from as u64 + 8 * lags), "lag part, {lags} lags, {bytes:?}");
    let pairs: Vec<u8> = numbers.iter().flat_map(|number| number.to_le_bytes()).collect();
    assert_eq!(bytes[from..from + 8 * lags as usize], pairs, "lag part, {lags} lags, {bytes:?}");
    tally.add("lag part", format!("from byte {from}"));
}

fn normalise_both(random: &mut Random, lags: u64, bytes: &[u8], tally: &mut Tally) {
    let far = random.extreme();
    let near = random.below(lags.clamp(1, 128));
    let lag = random.pick(&[0, near, near, lags.wrapping_sub(1), lags, far]);
    let room = if random.once_in(10) { random.pick(&[0, 1, 3]) } else { 2 };
    let mut pair = vec![f64::from(LEFT); room];
    let mut left = pair.clone();
    let result = outcome(ffi::normalised_lag(lags, bytes, lag, &mut pair));
    let wanted = match frame::normalised(lags, bytes, lag) {
        Ok(_) if room < 2 => Err(10),
        Ok(None) => Ok(0),
        Ok(Some(parts)) => {
            left[..2].copy_from_slice(&parts);
            Ok(1)
        }
        Err(number) => Err(number),
    };
    assert_eq!(result, wanted, "normalising lag {lag} of {lags}, {bytes:?}");
    let bits = |numbers: &[f64]| numbers.iter().map(|x| x.to_bits()).collect::<Vec<_>>();
    assert_eq!(bits(&pair), bits(&left), "lag {lag} of {lags}, {bytes:?}");
    let name = outcome_name(&result, kind_of(lags, bytes));
    tally.add("normalise", if result == Ok(0) { name.replace("accepted", "no data") } else { name });
}

fn write_both(random: &mut Random, lags: u64, fields: &[u32], numbers: &[i32], tally: &mut Tally) {
    let [short, long] =
        [frame::ACCUMULATOR, frame::SPEED].map(|kind| frame::length(kind, numbers.len() as u64 / 2));
    let room = random.pick(&[short, short, long, long, long + 9, short - 1, long - 1, 0]);
    let mut out = vec![LEFT; room];
    let mut left = out.clone();
    let result = outcome(ffi::write_frame(lags, fields, numbers, &mut out));
    let wanted = frame::write(lags, fields, numbers, room).map(|bytes| {
        left[..bytes.len()].copy_from_slice(&bytes);
        bytes.len() as u64
    });
    assert_eq!(result, wanted, "writer, {lags} lags, {fields:?}, {numbers:?}, {room} bytes");
    assert_eq!(out, left, "written, {lags} lags, {fields:?}, {numbers:?}");
    let kind = fields.first().copied().filter(|kind| [frame::ACCUMULATOR, frame::SPEED].contains(kind));
    tally.add("write", outcome_name(&result, kind));
}

/// A count of lags that is not the frame's, one time in 30.
fn lags_for(random: &mut Random, lags: u64) -> u64 {
    if random.once_in(30) {
        let far = random.extreme();
        return random.pick(&[0, 1, lags + 1, lags + 2, 130, far]);
    }
    lags
}

fn one_frame(random: &mut Random, tally: &mut Tally) {
    let half = random.within(1, 64);
    let lags = 2 * random.pick(&[1, 2, 64, half]);
    let fields = right_fields(random);
    let numbers = right_numbers(random, lags, fields[5]);
    let mut bytes = frame::bytes_of(fields, &numbers);
    damage(random, &mut bytes);
    let asked = lags_for(random, lags);
    read_both(random, asked, &bytes, tally);
    normalise_both(random, asked, &bytes, tally);
    let (mut fields, mut numbers) = (fields, numbers);
    match random.below(6) {
        0 => break_field(random, &mut fields),
        1 => break_number(random, &mut numbers, fields[5]),
        2 => numbers.truncate(random.below(2 * lags) as usize),
        _ => {}
    }
    let mut fields = fields.to_vec();
    match random.below(30) {
        0 => fields.truncate(random.below(10) as usize),
        1 => fields.push(0),
        _ => {}
    }
    let asked = lags_for(random, lags);
    write_both(random, asked, &fields, &numbers, tally);
}

#[test]
fn right_and_damaged_frames() {
    let mut tally = Tally::default();
    let mut random = Random::new(3);
    for _ in 0..FRAMES {
        one_frame(&mut random, &mut tally);
    }
    tally.print("frames");
    let reader = ["accepted", "refusal 14", "refusal 15", "refusal 16"];
    for name in ["read", "normalise"] {
        tally.met(name, &["refusal 1", "refusal 13", "refusal 18, kind 3"]);
        met_of_both(&tally, name, &reader);
    }
    met_of_both(&tally, "read", &["refusal 10"]);
    met_of_both(&tally, "normalise", &["no data", "refusal 10", "refusal 12"]);
    tally.met("lag part", &["empty", "from byte 30", "from byte 34"]);
    tally.met("write", &["refusal 16"]);
    met_of_both(&tally, "write", &["accepted", "refusal 1", "refusal 10", "refusal 16"]);
}

/// Each of these outcomes has been met with each kind.
fn met_of_both(tally: &Tally, name: &'static str, outcomes: &[&str]) {
    for outcome in outcomes {
        tally.met(name, &[2, 3].map(|kind| format!("{outcome}, kind {kind}")).each_ref().map(String::as_str));
    }
}

/// What the reader must say of a right frame with this bit of this word changed and the last word mended, where it does
/// not hang on the numbers of the frame.
fn told(kind: u32, word: usize, bit: usize) -> Option<Result<(), u32>> {
    match (word, bit) {
        (0, 11..=14) | (1, 8..=15 | 31) | (5, _) => Some(Ok(())),
        (0, _) | (1, 0..=7) => Some(Err(16)),
        (7, _) if kind == frame::SPEED => Some(Err(18)),
        _ => None,
    }
}

/// Every bit of a frame changed in turn: the mark is wrong, or the last word; and where that is mended, a fixed bit,
/// the kind, DATA_BIAS, or the field or lag number is one that the reader's limits are for.
fn change_every_bit(random: &mut Random, lags: u64, whole: &[u8], tally: &mut Tally) {
    let words = frame::words_of(whole);
    for bit in 0..8 * whole.len() {
        let mut bytes = whole.to_vec();
        bytes[bit / 8] ^= 1 << (bit % 8);
        let refusal = if bit < 16 { 14 } else { 15 };
        assert_eq!(frame::read(lags, &bytes), Err(refusal), "bit {bit} of {whole:?}");
        read_both(random, lags, &bytes, tally);
        normalise_both(random, lags, &bytes, tally);
    }
    for (word, bit) in (0..words.len() - 1).flat_map(|word| (0..32).map(move |bit| (word, bit))) {
        let mut changed = words[..words.len() - 1].to_vec();
        changed[word] ^= 1 << bit;
        let bytes = frame::sealed(&changed);
        if let Some(told) = told(words[0] & 7, word, bit) {
            assert_eq!(frame::read(lags, &bytes).map(drop), told, "bit {bit} of word {word} of {whole:?}");
        }
        read_both(random, lags, &bytes, tally);
        normalise_both(random, lags, &bytes, tally);
    }
}

#[test]
fn every_bit_of_small_frames() {
    let (mut tally, mut random) = (Tally::default(), Random::new(6));
    for turn in 0..120 {
        let lags = random.pick(&[2, 4, 6]);
        let mut fields = right_fields(&mut random);
        fields[0] = 2 + turn % 2;
        let numbers = right_numbers(&mut random, lags, fields[5]);
        change_every_bit(&mut random, lags, &frame::bytes_of(fields, &numbers), &mut tally);
    }
    tally.print("frames, bit by bit");
    met_of_both(&tally, "read", &["accepted", "refusal 14", "refusal 15", "refusal 16"]);
    tally.met("read", &["refusal 18, kind 3"]);
}

/// What the reader says, and the lag part.
fn answers(lags: u64, bytes: &[u8]) -> (Result<u64, u32>, u64) {
    (outcome(ffi::read_frame(lags, bytes, &mut [0; 10])), ffi::lag_part(lags, bytes))
}

/// For every N, a frame of each kind as it is; with the other kind in W0; in neither kind's length; and a speed frame
/// with DATA_BIAS wrong, which is 16 where the kind is wrong too.
#[test]
fn each_kind_in_its_length() {
    let mut random = Random::new(9);
    for (lags, kind, from) in (1..=64).flat_map(|half| [(2 * half, 2, 30), (2 * half, 3, 34)]) {
        let mut fields = right_fields(&mut random);
        fields[0] = kind;
        let numbers = right_numbers(&mut random, lags, fields[5]);
        let mut bytes = frame::bytes_of(fields, &numbers);
        assert_eq!(bytes.len() as u64, from + 8 * lags + 4);
        assert_eq!(answers(lags, &bytes), (Ok(0), 65_536 * from + 8 * lags), "{lags} lags, kind {kind}");
        let mut words = frame::words_of(&bytes);
        words.pop();
        words[0] ^= 1;
        assert_eq!(answers(lags, &frame::sealed(&words)), (Err(16), 0), "{lags} lags, kind {kind}");
        if kind == 3 {
            words[7] = words[7].wrapping_add(random.within(1, u64::from(u32::MAX)) as u32);
            assert_eq!(answers(lags, &frame::sealed(&words)), (Err(16), 0), "{lags} lags");
            words[0] ^= 1;
            assert_eq!(answers(lags, &frame::sealed(&words)), (Err(18), 0), "{lags} lags");
        }
        for other in [lags - 2, lags + 2] {
            let told = if (2..=128).contains(&other) { 13 } else { 1 };
            assert_eq!(answers(other, &bytes), (Err(told), 0), "{other} lags, kind {kind}");
        }
        bytes.push(0);
        assert_eq!(answers(lags, &bytes), (Err(13), 0), "{lags} lags, kind {kind}");
        bytes.truncate(bytes.len() - 2);
        assert_eq!(answers(lags, &bytes), (Err(13), 0), "{lags} lags, kind {kind}");
    }
}
