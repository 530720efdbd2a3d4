//! Lines on document 01's example frame and on the speed frame of the same set, of kinds and with answers that the
//! list lacks.
use crate::list::run;

/// Frames by their words behind the mark.
const FRAMES: [(&str, &[u32]); 9] = [
    // The words that document 01's script prints.
    ("FRAME", &[2, 0, 3, 2, 1, 0, 0, 6, 0, 10, 0, 24]),
    // The frame of an empty set.
    ("EMPTY", &[2, 0, 0, 0, 0, 0, 0, 0, 0, 0, 0, 2]),
    // The speed frame of that script's three ticks; DATA_BIAS is 128 × 3.
    ("SPEED", &[3, 0, 3, 2, 1, 0, 0, 384, 6, 0, 10, 0, 409]),
    // Each with the kind of the other length, and a kind that is none in each length.
    ("SHORT3", &[3, 0, 3, 2, 1, 0, 0, 6, 0, 10, 0, 25]),
    ("LONG2", &[2, 0, 3, 2, 1, 0, 0, 384, 6, 0, 10, 0, 408]),
    ("LONG4", &[4, 0, 3, 2, 1, 0, 0, 384, 6, 0, 10, 0, 410]),
    // Another DATA_BIAS; that and a lag beyond 128 × 3; that and a last word that is the sum without it.
    ("BIAS", &[3, 0, 3, 2, 1, 0, 0, 383, 6, 0, 10, 0, 408]),
    ("BEYOND", &[3, 0, 3, 2, 1, 0, 0, 383, 385, 0, 10, 0, 787]),
    ("UNSUMMED", &[3, 0, 3, 2, 1, 0, 0, 383, 6, 0, 10, 0, 25]),
];

const LINES: &str = "\
read 2 FRAME = 0 2 0 0 0 0 3 2 1 0 0
read 2 EMPTY = 0 2 0 0 0 0 0 0 0 0 0
read 2 SPEED = 0 3 0 0 0 0 3 2 1 0 0
read 3 FRAME = 1
read 3 SPEED = 1
read 4 FRAME = 13
read 4 SPEED = 13
read 2 FRAME0000 = 13
read 2 SPEED00 = 13
read 2 - = 13
read 2 UNSUMMED = 15
read 2 SHORT3 = 16
read 2 LONG2 = 16
read 2 LONG4 = 16
read 2 BEYOND = 16
read 2 BIAS = 18
part 2 FRAME = 30 16
part 2 SPEED = 34 16
part 4 FRAME = 0 0
part 4 SPEED = 0 0
part 2 BIAS = 0 0
norm 2 0 FRAME = 0 4008000000000000 0000000000000000
norm 2 1 FRAME = 0 4014000000000000 0000000000000000
norm 2 1 SPEED = 0 4014000000000000 0000000000000000
norm 2 1 EMPTY = 0 nodata
norm 2 2 EMPTY = 12
norm 2 2 SPEED = 12
norm 2 2 BIAS = 18
norm 2 2 LONG2 = 16
write 2 2 0 0 0 0 3 2 1 0 0 50 6,0,10,0 = 0 50 FRAME
write 2 2 0 0 0 0 3 2 1 0 0 59 6,0,10,0 = 0 50 FRAME
write 2 2 0 0 0 0 3 2 1 0 0 49 6,0,10,0 = 10
write 2 3 0 0 0 0 3 2 1 0 0 54 6,0,10,0 = 0 54 SPEED
write 2 3 0 0 0 0 3 2 1 0 0 59 6,0,10,0 = 0 54 SPEED
write 2 3 0 0 0 0 3 2 1 0 0 53 6,0,10,0 = 10
write 2 1 0 0 0 0 3 2 1 0 0 54 6,0,10,0 = 16
write 2 4 0 0 0 0 3 2 1 0 0 0 6,0,10,0 = 16
write 2 2 0 0 0 0 3 2 1 0 0 50 -385,0,10,0 = 16
write 2 3 0 0 0 0 3 2 1 0 0 54 -385,0,10,0 = 16
write 2 2 0 0 0 0 3 2 1 0 0 50 - = 16
write 3 2 0 0 0 0 3 2 1 0 0 50 6,0,10,0 = 1
write 3 4 0 0 0 0 3 2 1 0 0 50 6,0,10,0 = 1
";

fn frame(words: &[u32]) -> String {
    let words: String = words.iter().map(|word| format!("{:08x}", word.swap_bytes())).collect();
    format!("4c54{words}")
}

#[test]
fn the_frame_of_document_01_and_its_speed_frame() {
    let named = |list: String, &(name, words): &(&str, &[u32])| list.replace(name, &frame(words));
    let list = FRAMES.iter().fold(LINES.to_string(), named);
    let report = run(&list);
    assert!(report.faults.is_empty(), "{}", report.told());
    assert_eq!(report.passed.values().sum::<usize>(), LINES.lines().count());
}
