//! Speed dumps: frames written down, what they leave of the cell, and buffers of every length.
use lta::ffi;

use crate::call::{Call, Reply, Shape};
use crate::driver::outcome;
use crate::frame::words_of;
use crate::limits::Three;
use crate::random::Random;
use crate::rules::SPEED;

const SHAPE: Shape = Shape { cells: 1, lags: 2, bins: 2, blocks: 1, start: 0, rate: 4, second: 0 };

/// The words of the frame that a speed dump gives.
fn sent(three: &mut Three, bank: u64, phase: u64) -> Vec<u32> {
    match three.perform(&Call::Dump { cell: 0, command: SPEED, bank, phase, room: 60 }) {
        Reply::Frame(bytes) => words_of(&bytes),
        other => panic!("a speed dump: {other:?}"),
    }
}

fn tick(three: &mut Three, samples: [u8; 3]) {
    assert_eq!(three.perform(&Call::Tick { samples: samples.to_vec() }), Reply::Number(0));
}

/// The ticks of document 01's example as a speed frame, then an empty one, then six loud ticks and an empty one: each
/// has the stamp of its integration, the tick number at the dump before.
#[test]
fn frames_written_down() {
    let mut three = Three::new(SHAPE);
    for samples in [[0x02, 0x03, 3], [0x01, 0x0f, 3], [0x08, 0x02, 2]] {
        tick(&mut three, samples);
    }
    let example = [3, 0x8001_0000, 3, 2, 1, 0, 0, 384, 6, 0, 10, 0, 0x8001_0199];
    assert_eq!(sent(&mut three, 1, 1), example);
    assert_eq!(sent(&mut three, 0, 0), [3, 0, 0, 0, 0, 0, 3, 0, 0, 0, 0, 0, 6]);
    (0..6).for_each(|_| tick(&mut three, [0x07, 0x07, 3]));
    assert_eq!(sent(&mut three, 0, 1), [3, 0x1_0000, 6, 5, 6, 0, 3, 768, 518, 0, 490, 0, 67_335]);
    assert_eq!(sent(&mut three, 0, 0), [3, 0, 0, 0, 0, 2, 1, 0, 0, 0, 0, 0, 6]);
    three.compare();
}

/// An occupied Held stays as it is and makes no overrun; the set behind the speed dump is one again.
#[test]
fn beside_an_occupied_held() {
    let mut three = Three::new(SHAPE);
    let mut random = Random::new(7_000_000);
    three.ticks(&mut random, 3);
    assert_eq!(three.dump(0, 0b010), Reply::Number(0));
    three.ticks(&mut random, 5);
    assert_eq!(sent(&mut three, 1, 1)[2], 5);
    three.compare();
    three.ticks(&mut random, 2);
    assert_eq!(three.dump(0, 0b001), Reply::Number(2));
    let reading = three.perform(&Call::Reading { cell: 0, lag: 0, loss: 2, room: [2, 3] });
    assert!(matches!(reading, Reply::Sums([_, _, 2, ..])), "{reading:?}");
    assert_eq!(three.perform(&Call::Integrate { cell: 0 }), Reply::Number(0));
    let Reply::Frame(bytes) = three.perform(&Call::Emit { cell: 0, bank: 0, bin: 0, room: 50 }) else {
        panic!("no frame of what was held");
    };
    assert_eq!(words_of(&bytes)[..3], [2, 0, 3]);
    three.compare();
}

/// A run with some ticks in Open and nothing held.
fn with_ticks(random: &mut Random, lags: u64) -> Three {
    let mut three = Three::new(Shape { lags, ..SHAPE });
    three.ticks(random, 9);
    three.dump(0, 0b100);
    three.ticks(random, 20);
    three
}

/// Buffers of every length up to some bytes more than a speed frame, in the midst of bytes that are not lent: a shorter
/// one is left as it is, and so is what stands behind the frame.
#[test]
fn buffers_of_every_length() {
    let mut random = Random::new(7_000_001);
    for lags in [2, 4, 30, 128] {
        let mut three = with_ticks(&mut random, lags);
        let (shape, before) = (three.model.shape, three.mem.clone());
        let Reply::Frame(frame) = three.dump(0, SPEED) else {
            panic!("no frame of {shape:?}");
        };
        assert_eq!(frame.len(), shape.speed_length());
        let (front, length) = (70, frame.len());
        let around = random.bytes(front + length + 130);
        for room in 0..length + 60 {
            let (mut mem, mut bytes) = (before.clone(), around.clone());
            let out = &mut bytes[front..front + room];
            let result = outcome(ffi::dump(&shape.numbers(), &mut mem, 0, SPEED, 0, 0, out));
            let (mut told, mut words, mut expected) = (Err(10), &before, around.clone());
            if room >= length {
                (told, words) = (Ok(length as u64), &three.mem);
                expected[front..front + length].copy_from_slice(&frame);
            }
            assert_eq!(result, told, "{room} of {shape:?}");
            assert!(bytes == expected, "bytes in and around {room} of {shape:?}");
            assert!(mem == *words, "words after {room} of {shape:?}");
        }
    }
}

/// Other commands do the same with a buffer of any length, and leave it alone.
#[test]
fn other_commands_leave_the_buffer() {
    let mut random = Random::new(7_000_002);
    for (command, answer) in [(0b000, 0), (0b001, 0), (0b010, 0), (0b100, 1), (0b111, 7)] {
        let mut three = with_ticks(&mut random, 2);
        let (shape, before) = (three.model.shape, three.mem.clone());
        assert_eq!(three.dump(0, command), Reply::Number(answer));
        for room in 0..shape.speed_length() + 60 {
            let (mut mem, around) = (before.clone(), random.bytes(room));
            let mut bytes = around.clone();
            let result = ffi::dump(&shape.numbers(), &mut mem, 0, command, 0, 0, &mut bytes);
            assert_eq!(outcome(result), Ok(answer), "{command:03b}, {room} bytes");
            assert!(bytes == around && mem == three.mem, "{command:03b}, {room} bytes");
        }
    }
}
