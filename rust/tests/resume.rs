//! Runs that stop, whose words go to disc and come back, beside runs that go on.
use std::fs::{self, File};
use std::io::Write;
use std::path::{Path, PathBuf};

use lta::{Command, Frame, Loss, Moved, Refusal, Run, Shape, Sums};

const SHAPE: Shape = Shape { cells: 2, lags: 6, bins: 4, blocks: 2, start: 3, rate: 10, second: 100 };
const COMMANDS: [Command; 6] =
    [Command::Save, Command::Add, Command::Last, Command::Speed, Command::Discard, Command::Idle];

/// What one turn of calls gives.
#[derive(Debug, PartialEq)]
struct Turn {
    held_off: Result<u32, Refusal>,
    dumped: Result<Moved, Refusal>,
    integrated: Result<Moved, Refusal>,
    frame: Result<Frame<'static>, Refusal>,
    /// A pick in one turn of twelve.
    picked: Option<Result<Frame<'static>, Refusal>>,
    readings: Vec<Result<Sums, Refusal>>,
    forecast: Result<u32, Refusal>,
    page: Result<String, Refusal>,
}

fn turn(run: &mut Run, number: u64) -> Turn {
    let x = number.wrapping_mul(0x9e37_79b9_7f4a_7c15).rotate_left(20).to_le_bytes();
    let [cell, bank, phase, offset] = [x[4], x[5], x[6], x[7]].map(|byte| u64::from(byte % 16 / 7));
    let command = COMMANDS[usize::from(x[0] % 6)];
    let pairs = (0..=SHAPE.lags).flat_map(|lag| Loss::ALL.map(|loss| (lag, loss)));
    Turn {
        held_off: run.tick(&[x[0], x[1], x[2] % 4, x[3], x[4], x[5] % 4]),
        dumped: run.dump(cell, command, bank, phase),
        integrated: run.integrate(u64::from(x[1]) % 3),
        frame: run.emit_frame(cell, bank, SHAPE.blocks * phase + offset),
        picked: (number % 12 == 0).then(|| run.pick_frame()),
        readings: pairs.map(|(lag, loss)| run.reading(cell, lag, loss)).collect(),
        forecast: run.forecast(cell),
        page: run.page(),
    }
}

/// Words as bytes in a file that is new or has been replaced whole.
fn save(path: &Path, words: &[u64]) {
    let new = path.with_extension("new");
    let mut file = File::create(&new).unwrap();
    let bytes: Vec<u8> = words.iter().flat_map(|word| word.to_le_bytes()).collect();
    file.write_all(&bytes).unwrap();
    file.sync_all().unwrap();
    fs::rename(&new, path).unwrap();
}

fn saved(path: &Path) -> Vec<u64> {
    let bytes = fs::read(path).unwrap();
    bytes.chunks_exact(8).map(|word| u64::from_le_bytes(word.try_into().unwrap())).collect()
}

fn file(name: &str) -> PathBuf {
    Path::new(env!("CARGO_TARGET_TMPDIR")).join(name)
}

#[test]
fn a_resumed_run_goes_on_as_if_it_had_never_stopped() {
    let path = file("run-words");
    let mut whole = Run::new(SHAPE).unwrap();
    save(&path, Run::new(SHAPE).unwrap().words());
    let (mut frames, mut picks, mut speeds) = (0, 0, 0);
    for number in 0..600 {
        let mut part = Run::resume(SHAPE, saved(&path)).unwrap();
        let expected = turn(&mut whole, number);
        assert_eq!(turn(&mut part, number), expected, "turn {number}");
        assert_eq!(part, whole, "turn {number}");
        frames += u32::from(expected.frame.is_ok_and(|frame| frame.fields().ticks > 0));
        picks += u32::from(matches!(expected.picked, Some(Ok(frame)) if frame.fields().ticks > 0));
        speeds += u32::from(matches!(expected.dumped, Ok(Moved::Sent(frame)) if frame.fields().ticks > 0));
        save(&path, part.words());
    }
    let least = frames.min(picks).min(speeds);
    assert!(least > 20, "{frames} frames, {picks} picked ones and {speeds} speed frames with ticks");
    fs::remove_file(&path).unwrap();
}

#[test]
fn words_that_do_not_belong_to_the_shape() {
    let words = Run::new(SHAPE).unwrap().words().to_vec();
    for length in [0, words.len() - 1, words.len() + 1] {
        assert_eq!(Run::resume(SHAPE, vec![0; length]), Err(Refusal::WrongMemory), "{length} words");
    }
    let larger = Shape { lags: 8, ..SHAPE };
    assert_eq!(Run::resume(larger, words.clone()), Err(Refusal::WrongMemory));
    let odd = Shape { lags: 7, ..SHAPE };
    assert_eq!(Run::resume(odd, words), Err(Refusal::BadShape));
    assert_eq!(Run::resume(odd, Vec::new()), Err(Refusal::BadShape), "1 comes before 2");
}

#[test]
fn cleared_words_are_a_fresh_run() {
    let mut fresh = Run::new(SHAPE).unwrap();
    let mut cleared = Run::resume(SHAPE, vec![0; SHAPE.words_needed().unwrap()]).unwrap();
    assert_eq!(cleared, fresh);
    for number in 0..50 {
        assert_eq!(turn(&mut cleared, number), turn(&mut fresh, number), "turn {number}");
    }
}

#[test]
fn damaged_words_are_found_by_the_calls() {
    let mut words = Run::new(SHAPE).unwrap().words().to_vec();
    words[0] = u64::MAX;
    let mut run = Run::resume(SHAPE, words).unwrap();
    let before = run.clone();
    assert_eq!(run.tick(&[0; 6]), Err(Refusal::Damaged));
    assert_eq!(run.integrate(0), Err(Refusal::Damaged));
    assert_eq!(run.pick_frame(), Err(Refusal::Damaged));
    assert_eq!(run.forecast(0), Err(Refusal::Damaged));
    assert_eq!(run.page(), Err(Refusal::Damaged));
    assert_eq!(run, before);
}

/// Why the words are to be kept whole: what is half of one time and half of another can be within all limits.
#[test]
fn a_torn_copy_can_pass() {
    let mut run = Run::new(SHAPE).unwrap();
    run.tick(&[0x03; 6]).unwrap();
    let earlier = run.words().to_vec();
    run.tick(&[0x02; 6]).unwrap();
    let half = earlier.len() / 2;
    let torn = [&run.words()[..half], &earlier[half..]].concat();
    assert!(torn != earlier && torn != run.words());
    assert_eq!(Run::resume(SHAPE, torn).unwrap().tick(&[0; 6]), Ok(0));
}

/// Runs of their own on two threads, and one run read by two at once.
#[test]
fn threads_own_runs_and_share_readings() {
    let alone = |last: u64| {
        let mut run = Run::new(SHAPE).unwrap();
        (0..last).for_each(|number| drop(turn(&mut run, number)));
        run
    };
    let [one, other] = [300, 200].map(|last| std::thread::spawn(move || alone(last)));
    let (one, other) = (one.join().unwrap(), other.join().unwrap());
    assert_eq!((&one, &other), (&alone(300), &alone(200)));
    let read = || (one.reading(1, 3, Loss::Ordered).unwrap(), one.page().unwrap());
    let often = || (0..100).map(|_| read()).collect::<Vec<_>>();
    let both =
        std::thread::scope(|scope| [scope.spawn(often), scope.spawn(often)].map(|t| t.join().unwrap()));
    assert_eq!(both[0], both[1]);
    assert!(both[0][0].0.ticks > 0 && both[0].iter().all(|read| *read == both[0][0]));
}
