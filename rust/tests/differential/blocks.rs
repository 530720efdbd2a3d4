//! The block counter, its blocks written down: command behind command, and all blocks in turn at both ends of M and S.
use crate::call::{Call, Reply, Shape};
use crate::frame::words_of;
use crate::layout;
use crate::limits::Three;

const SHAPE: Shape = Shape { cells: 1, lags: 2, bins: 3, blocks: 3, start: 5, rate: 1000, second: 5 };

/// Dumps in turn with the cell's block after each; 101 is refused.
const STEPS: [(u64, u64); 42] = [
    (0b111, 5),
    (0b101, 5),
    (0b010, 5),
    (0b010, 6),
    (0b111, 6),
    (0b010, 7),
    (0b010, 5),
    (0b000, 6),
    (0b010, 5),
    (0b001, 6),
    (0b001, 7),
    (0b111, 7),
    (0b010, 5),
    (0b010, 6),
    (0b100, 5),
    (0b010, 6),
    (0b000, 7),
    (0b100, 5),
    (0b100, 5),
    (0b000, 6),
    (0b001, 7),
    (0b000, 5),
    (0b000, 6),
    (0b101, 6),
    (0b010, 5),
    (0b001, 6),
    (0b100, 5),
    (0b001, 6),
    (0b011, 7),
    (0b010, 5),
    (0b011, 6),
    (0b111, 6),
    (0b010, 5),
    (0b010, 6),
    (0b011, 7),
    (0b011, 5),
    (0b011, 6),
    (0b001, 7),
    (0b100, 5),
    (0b011, 6),
    (0b000, 7),
    (0b011, 5),
];

/// The block in the words of cell 0.
fn block_of(three: &Three) -> u64 {
    let (at, _) = layout::block_of(&three.model, 0);
    three.model.shape.start + three.mem[at]
}

/// Where nothing is integrated, all but the first of the dumps that would be held are overruns.
#[test]
fn command_behind_command() {
    for integrated in [true, false] {
        let mut three = Three::new(SHAPE);
        for (at, (command, block)) in STEPS.into_iter().enumerate() {
            three.dump(0, command);
            assert_eq!(block_of(&three), block, "dump {at}, {command:03b}, integrated: {integrated}");
            if integrated {
                three.perform(&Call::Integrate { cell: 0 });
            }
        }
        three.compare();
    }
}

#[test]
fn a_first_dump_uses_the_start_block() {
    for command in [0b000, 0b001, 0b010, 0b011, 0b100] {
        let mut three = Three::new(SHAPE);
        for (command, block) in [(0b111, 5), (command, 5), (0b001, 6)] {
            three.dump(0, command);
            assert_eq!(block_of(&three), block, "{command:03b}");
        }
        three.compare();
    }
}

/// The frame of a tick, which goes with 010 by its bin or with 011 at once.
fn frame_of_a_tick(three: &mut Three, command: u64, phase: u64, bin: u64) -> Reply {
    three.perform(&Call::Tick { samples: vec![0x03; 3] });
    let dumped = three.perform(&Call::Dump { cell: 0, command, bank: 1, phase, room: 54 });
    if command == 0b011 {
        return dumped;
    }
    assert_eq!(dumped, Reply::Number(0));
    assert_eq!(three.perform(&Call::Integrate { cell: 0 }), Reply::Number(0));
    three.perform(&Call::Emit { cell: 0, bank: 1, bin, room: 50 })
}

/// Frames of one command behind itself, of two phase bins in turn, from block S to S + M - 1 and round again.
fn blocks_in_turn(command: u64, blocks: u64, start: u64) {
    let mut three = Three::new(Shape { bins: 2 * blocks, blocks, start, ..SHAPE });
    for number in 0..2 * blocks + 3 {
        let (phase, offset) = (number % 2, number % blocks);
        let bin = phase * blocks + offset;
        let Reply::Frame(bytes) = frame_of_a_tick(&mut three, command, phase, bin) else {
            panic!("no frame of bin {bin}, M = {blocks}, S = {start}, {command:03b}");
        };
        let expected = (start + offset) << 8 | bin << 16 | 1 << 31;
        assert_eq!(u64::from(words_of(&bytes)[1]), expected, "W1 of bin {bin}, {command:03b}");
    }
    three.compare();
}

#[test]
fn every_block_in_turn() {
    for (blocks, start) in [(1, 0), (1, 255), (2, 254), (255, 1), (256, 0)] {
        blocks_in_turn(0b010, blocks, start);
        blocks_in_turn(0b011, blocks, start);
    }
}
