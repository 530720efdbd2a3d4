//! The safe types beside the C interface that they stand on: the same answers, the same words of memory.
use std::collections::BTreeSet;

use lta::{ffi, Command, Fields, Frame, Kind, Loss, Moved, Refusal, Run, Shape, Sums};

const SHAPE: Shape = Shape { cells: 2, lags: 6, bins: 4, blocks: 2, start: 3, rate: 10, second: 100 };

/// A run, and the same calls on words by the C interface.
struct Both {
    run: Run,
    shape: [u64; 7],
    mem: Vec<u64>,
}

impl Both {
    fn new() -> Both {
        let run = Run::new(SHAPE).unwrap();
        let (shape, mut mem) = (SHAPE.numbers(), vec![9; SHAPE.words_needed().unwrap()]);
        ffi::setup(&shape, &mut mem);
        Both { run, shape, mem }
    }

    fn tick(&mut self, samples: &[u8]) {
        let direct = ffi::outcome(ffi::tick(&self.shape, &mut self.mem, samples));
        assert_eq!(self.run.tick(samples), direct);
    }

    /// A speed dump alone writes in the buffer, and there the bytes of the frame that is sent.
    fn dump(&mut self, cell: u64, command: Command, bank: u64, phase: u64) -> Option<Moved> {
        let mut out = [b'.'; 90];
        let number = command as u64;
        let result = ffi::dump(&self.shape, &mut self.mem, cell, number, bank, phase, &mut out);
        let moved = self.moved(ffi::outcome(result), |run| run.dump(cell, command, bank, phase));
        let mut left = [b'.'; 90];
        if let Some(Moved::Sent(frame)) = &moved {
            left[..86].copy_from_slice(frame.bytes());
            again(frame, Kind::Speed);
        }
        assert_eq!(out, left, "{command:?}");
        moved
    }

    fn integrate(&mut self, cell: u64) -> Option<Moved> {
        let result = ffi::integrate(&self.shape, &mut self.mem, cell);
        self.moved(ffi::outcome(result), |run| run.integrate(cell))
    }

    /// The move, if it was accepted, whose number the C interface gives.
    fn moved(
        &mut self,
        direct: Result<u32, Refusal>,
        call: impl Fn(&mut Run) -> Result<Moved, Refusal>,
    ) -> Option<Moved> {
        let moved = call(&mut self.run);
        let number = |moved: &Moved| match moved {
            Moved::Kept => 0,
            Moved::Lost(loss) => loss.number(),
            Moved::Sent(frame) => frame.bytes().len() as u32,
            Moved::Idle => 7,
        };
        assert_eq!(moved.as_ref().map(number), direct.as_ref().copied());
        moved.ok()
    }

    fn emit(&mut self, cell: u64, bank: u64, bin: u64) {
        let mut out = vec![0; SHAPE.frame_length()];
        let direct = ffi::outcome(ffi::emit(&self.shape, &mut self.mem, cell, bank, bin, &mut out));
        match self.run.emit_frame(cell, bank, bin) {
            Ok(frame) => {
                assert_eq!((direct, frame.bytes()), (Ok(82), &out[..]));
                again(&frame, Kind::Accumulated);
            }
            Err(refusal) => assert_eq!(direct, Err(refusal)),
        }
    }

    /// The bin whose turn it is, if there is one, in a buffer with room for some bytes more.
    fn pick(&mut self) -> Option<(u32, u32, u32)> {
        let mut out = [b'.'; 90];
        let direct = ffi::outcome(ffi::pick(&self.shape, &mut self.mem, &mut out));
        match self.run.pick_frame() {
            Ok(frame) => {
                assert_eq!((direct, frame.bytes(), &out[82..]), (Ok(82), &out[..82], &[b'.'; 8][..]));
                again(&frame, Kind::Accumulated);
                let &Fields { cell, bank, bin, .. } = frame.fields();
                Some((cell, bank, bin))
            }
            Err(refusal) => {
                assert_eq!((direct, out), (Err(refusal), [b'.'; 90]));
                None
            }
        }
    }

    fn readings(&self) {
        for (lag, loss) in (0..SHAPE.lags + 1).flat_map(|lag| Loss::ALL.map(|loss| (lag, loss))) {
            let (mut sums, mut counts) = ([0; 2], [0; 3]);
            let number = u64::from(loss.number());
            let result = ffi::reading(&self.shape, &self.mem, 1, lag, number, &mut sums, &mut counts);
            let ([i, q], [ticks, edge, centre]) = (sums, counts);
            let direct = ffi::outcome(result).map(|_| Sums { i, q, ticks, edge, centre });
            assert_eq!(self.run.reading(1, lag, loss), direct);
        }
    }

    /// A page of its own, and one in a buffer whose last bytes stay.
    fn page(&self) {
        let mut out = [b'.'; 540];
        let direct = ffi::outcome(ffi::page(&self.shape, &self.mem, &mut out));
        assert_eq!((direct, &out[533..]), (Ok(533), &[b'.'; 7][..]));
        let mut lent = [b'.'; 540];
        assert_eq!((self.run.page_into(&mut lent), lent), (Ok(533), out));
        assert_eq!(self.run.page().unwrap().as_bytes(), &out[..533]);
        let mut short = [b'.'; 532];
        assert_eq!(self.run.page_into(&mut short), Err(Refusal::ShortBuffer));
        assert_eq!(short, [b'.'; 532]);
    }
}

/// A line of a page, from a reading of the loss that it names, or from totals.
fn line(front: &str, sums: Sums) -> String {
    let Sums { ticks, edge, centre, .. } = sums;
    format!("{front} {ticks:>11} {edge:>11} {centre:>11}\n")
}

/// The page that the readings of a run give.
fn page_of(run: &Run) -> String {
    let (mut page, mut totals) = (String::new(), Sums::default());
    for (cell, loss) in (0..SHAPE.cells).flat_map(|cell| Loss::ALL.map(|loss| (cell, loss))) {
        let sums = run.reading(cell, 0, loss).unwrap();
        page += &line(&format!("{cell:>2} {}", loss.number()), sums);
        totals.ticks += sums.ticks;
        totals.edge += sums.edge;
        totals.centre += sums.centre;
    }
    page + &line("** *", totals)
}

/// A frame read and written again is the same; its lags, normalised, are its lags by the centre count.
fn again(frame: &Frame, kind: Kind) {
    let read = Frame::read(SHAPE.lags, frame.bytes()).unwrap();
    assert_eq!((read.kind(), read.fields().kind), (kind, kind as u32));
    let lags: Vec<_> = read.lags().collect();
    assert_eq!(lags.len() as u64, SHAPE.lags);
    assert_eq!(Frame::write(read.fields(), &lags).unwrap(), read);
    let centre = f64::from(read.fields().centre);
    for ((i, q), lag) in lags.into_iter().zip(read.normalised()) {
        let parts = lag.map(|lag| [lag.re, lag.im]);
        let expected = (centre > 0.0).then(|| [f64::from(i) / centre, f64::from(q) / centre]);
        assert_eq!(parts, expected);
    }
}

/// The bytes of a tick: at times one too few, at times with another bit in the last validity byte.
fn samples(turn: u64, x: [u8; 8]) -> Vec<u8> {
    let mut samples = vec![x[0], x[1], x[2] % 4, x[3], x[4], x[5] % 4];
    match turn % 50 {
        0 => samples.truncate(5),
        1 => samples[5] |= 0x80,
        _ => {}
    }
    samples
}

#[test]
fn a_run_is_its_calls() {
    let commands =
        [Command::Add, Command::Save, Command::Last, Command::Speed, Command::Discard, Command::Idle];
    let mut both = Both::new();
    let (mut moves, mut picked) = (Vec::new(), BTreeSet::new());
    for turn in 0..4000u64 {
        let x = turn.wrapping_mul(0x9e37_79b9_7f4a_7c15).rotate_left(20).to_le_bytes();
        both.tick(&samples(turn, x));
        let [cell, bank, phase, offset] = [x[4], x[5], x[6], x[7]].map(|byte| u64::from(byte % 16 / 7));
        let command = commands[usize::from(x[0] % 6)];
        moves.extend(both.dump(cell, command, bank, phase));
        moves.extend(both.integrate(u64::from(x[1]) % 3));
        both.emit(cell, bank, SHAPE.blocks * phase + offset);
        if turn % 3 == 0 {
            picked.extend(both.pick());
        }
        assert_eq!(both.run.words(), both.mem);
        let direct = ffi::outcome(ffi::forecast(&both.shape, &both.mem, cell));
        assert_eq!(both.run.forecast(cell), direct);
        both.page();
        assert_eq!(both.run.page(), Ok(page_of(&both.run)));
        assert_eq!(both.run.words(), both.mem);
    }
    both.readings();
    let losses = [Loss::Ordered, Loss::Overrun, Loss::Full, Loss::Replaced].map(Moved::Lost);
    for moved in losses.into_iter().chain([Moved::Kept, Moved::Idle]) {
        assert!(moves.contains(&moved), "no {moved:?} among the moves");
    }
    let speed = |moved: &&Moved| matches!(moved, Moved::Sent(frame) if frame.fields().ticks > 0);
    let speeds = moves.iter().filter(speed).count();
    assert!(speeds > 100, "{speeds} speed frames with ticks");
    assert!(picked.len() > 12, "{picked:?} of 16 bins");
}

/// Bins of both cells and banks in the order in which they are picked: in a lent buffer or in one of its own it is the
/// same frame, and the runs are the same behind it. A refused pick changes neither the run nor the buffer.
#[test]
fn picks_until_nothing_is_ready() {
    let mut run = Run::new(SHAPE).unwrap();
    for (cell, bank, phase) in [(1, 1, 0), (1, 0, 1), (1, 1, 1), (0, 1, 1)] {
        run.tick(&[0x03; 6]).unwrap();
        run.dump(cell, Command::Last, bank, phase).unwrap();
        run.integrate(cell).unwrap();
    }
    let mut bins = Vec::new();
    let mut out = [b'.'; 90];
    while let Ok(frame) = run.clone().pick_frame() {
        let before = run.clone();
        assert_eq!(run.pick(&mut out[..81]), Err(Refusal::ShortBuffer));
        assert_eq!((&run, out), (&before, [b'.'; 90]));
        assert_eq!(run.pick(&mut out), Ok(SHAPE.frame_length()));
        assert_eq!((&out[..82], &out[82..]), (frame.bytes(), &[b'.'; 8][..]));
        out = [b'.'; 90];
        bins.push((frame.fields().cell, frame.fields().bank, frame.fields().bin));
    }
    // Block 3 is the first: with two of them a 010 behind a 010 goes to the other data bin of its phase bin.
    assert_eq!(bins, [(0, 1, 2), (1, 0, 3), (1, 1, 0), (1, 1, 2)]);
    let before = run.clone();
    for room in [0, 81, 82, 90] {
        assert_eq!(run.pick(&mut out[..room]), Err(Refusal::NothingReady), "20 comes before 10");
    }
    assert_eq!(run.pick_frame(), Err(Refusal::NothingReady));
    assert_eq!((run, out), (before, [b'.'; 90]));
}

/// The number of Ready bins of a cell, its place and the run's place: out of their limits no pick, while an emission
/// looks at the number alone.
#[test]
fn picks_of_damaged_words() {
    let mut run = Run::new(SHAPE).unwrap();
    run.dump(0, Command::Last, 0, 0).unwrap();
    run.integrate(0).unwrap();
    let last = run.words().len() - 1;
    for (at, word, emitted) in [(last, 2, true), (9, 0, false), (9, 2, true), (9, 9, false), (10, 8, true)] {
        let mut words = run.words().to_vec();
        words[at] = word;
        let damaged = Run::resume(SHAPE, words).unwrap();
        assert_eq!(damaged.clone().pick_frame(), Err(Refusal::Damaged), "word {at} as {word}");
        assert_eq!(damaged.clone().pick(&mut []), Err(Refusal::Damaged), "11 comes before 10");
        assert_eq!(damaged.clone().emit_frame(0, 0, 0).is_ok(), emitted, "word {at} as {word}");
    }
}

/// What is open with Held occupied: in a lent buffer or in one of its own it is the same frame, and the runs are the
/// same behind it. Held stays for its integration.
#[test]
fn a_speed_dump_in_a_lent_buffer() {
    let mut run = Run::new(SHAPE).unwrap();
    run.tick(&[0x03; 6]).unwrap();
    run.dump(0, Command::Last, 0, 0).unwrap();
    (0..12).for_each(|turn| assert_eq!(run.tick(&[0x17, turn, 3, 0x05, 0x06, 3]), Ok(0)));
    let mut other = run.clone();
    let mut out = [b'.'; 90];
    assert_eq!(run.speed_dump(0, 1, 1, &mut out), Ok(SHAPE.speed_frame_length()));
    let Ok(Moved::Sent(frame)) = other.dump(0, Command::Speed, 1, 1) else {
        panic!("no speed frame");
    };
    assert_eq!((&out[..86], &out[86..]), (frame.bytes(), &[b'.'; 4][..]));
    assert_eq!(other, run);
    let [kind, cell, block, bin, bank, ticks, _, _, second, offset] = frame.fields().numbers();
    assert_eq!([kind, cell, block, bin, bank, ticks, second, offset], [3, 0, 4, 3, 1, 12, 100, 1]);
    assert_eq!(run.forecast(0), Ok(524_288));
    assert_eq!(run.integrate(0), Ok(Moved::Kept));
    assert_eq!(run.emit_frame(0, 0, 0).unwrap().fields().ticks, 1);
}

/// For the block a speed dump is a 001: it moves one on, from the last block to the first, and a 010 behind it returns
/// to the first.
#[test]
fn speed_dumps_drive_the_block() {
    let mut run = Run::new(SHAPE).unwrap();
    let mut speed = || match run.dump(1, Command::Speed, 0, 0) {
        Ok(Moved::Sent(frame)) => frame.fields().block,
        other => panic!("{other:?}"),
    };
    assert_eq!([speed(), speed(), speed()], [3, 4, 3]);
    assert_eq!(run.dump(1, Command::Last, 0, 0), Ok(Moved::Kept));
    assert_eq!(run.integrate(1), Ok(Moved::Kept));
    assert_eq!(run.emit_frame(1, 0, 0).unwrap().fields().block, 3);
}

/// Refused speed dumps change neither the run nor the buffer. Each is given a buffer that is too short, too.
#[test]
fn speed_dumps_that_are_refused() {
    let mut run = Run::new(SHAPE).unwrap();
    run.tick(&[0x03; 6]).unwrap();
    let mut damaged = run.words().to_vec();
    damaged[0] = u64::MAX;
    let damaged = Run::resume(SHAPE, damaged).unwrap();
    for (run, cell, bank, phase, refusal) in [
        (&run, 2, 2, 2, Refusal::NoCell),
        (&run, 0, 2, 0, Refusal::NoBin),
        (&run, 0, 0, 2, Refusal::NoBin),
        (&damaged, 0, 0, 2, Refusal::NoBin),
        (&damaged, 0, 0, 0, Refusal::Damaged),
        (&run, 0, 0, 0, Refusal::ShortBuffer),
    ] {
        for room in [0, 1, SHAPE.frame_length(), 85] {
            let (mut refused, mut out) = (run.clone(), [b'.'; 85]);
            assert_eq!(refused.speed_dump(cell, bank, phase, &mut out[..room]), Err(refusal), "{room} bytes");
            assert_eq!((&refused, out), (run, [b'.'; 85]));
        }
    }
}

/// Any other command leaves a buffer of any length as it is, and does with each what it does with none.
#[test]
fn other_dumps_leave_the_buffer_alone() {
    let mut run = Run::new(SHAPE).unwrap();
    run.tick(&[0x03; 6]).unwrap();
    for command in (0..9).filter(|command| *command != Command::Speed as u64) {
        let dumped = |room: usize| {
            let (mut mem, mut out) = (run.words().to_vec(), [b'.'; 90]);
            let result = ffi::dump(&SHAPE.numbers(), &mut mem, 0, command, 0, 0, &mut out[..room]);
            assert_eq!(out, [b'.'; 90], "command {command}, {room} bytes");
            (result, mem)
        };
        for room in [1, 85, 86, 90] {
            assert!(dumped(room) == dumped(0), "command {command}, {room} bytes");
        }
    }
}

/// Six losses that are within their limits and pass 2,147,483,648 ticks together: no page, but readings as before.
#[test]
fn a_page_of_damaged_words() {
    let row = 3 + 2 * SHAPE.lags as usize;
    let mut words = Run::new(SHAPE).unwrap().words().to_vec();
    for (loss, ticks) in [(0, 2_147_483_647), (5, 1), (5, 2)] {
        words[11 + (2 + loss) * row] = ticks;
        let run = Run::resume(SHAPE, words.clone()).unwrap();
        let page = if ticks == 2 { Err(Refusal::Damaged) } else { Ok(page_of(&run)) };
        assert_eq!(run.page(), page, "{ticks} ticks in loss {}", loss + 1);
        assert_eq!(run.page_into(&mut []), page.and(Err(Refusal::ShortBuffer)), "11 comes before 10");
        assert_eq!(run.reading(0, 0, Loss::ALL[loss]).unwrap().ticks, ticks);
        assert_eq!(run.words(), words);
    }
}

#[test]
fn refusals_have_their_numbers() {
    for (number, refusal) in (1..).zip(Refusal::ALL) {
        assert_eq!((refusal.number(), Refusal::from_number(number)), (number, Some(refusal)));
        assert!(refusal.to_string().starts_with(&format!("refusal {number}: ")));
    }
    assert_eq!([0, 21, u32::MAX].map(Refusal::from_number), [None; 3]);
}

#[test]
fn a_frame_that_is_refused_is_no_frame() {
    for kind in [2, 3] {
        let fields = Fields { kind, ticks: 5, ..Fields::default() };
        let frame = Frame::write(&fields, &[(1, 2), (3, 4)]).unwrap();
        for at in 0..frame.bytes().len() {
            let mut bytes = frame.bytes().to_vec();
            bytes[at] ^= 0x10;
            let refusal = if at < 2 { Refusal::WrongMark } else { Refusal::WrongSum };
            assert_eq!(Frame::read(2, &bytes), Err(refusal), "kind {kind}, byte {at}");
        }
    }
    for kind in [0, 1, 4, 8, u32::MAX] {
        let fields = Fields { kind, ticks: 5, ..Fields::default() };
        assert_eq!(Frame::write(&fields, &[(1, 2), (3, 4)]), Err(Refusal::BadField), "kind {kind}");
    }
}

/// One less in a byte of a header word and in one of the last word, which is then the right one.
#[test]
fn a_speed_frame_of_another_kind_or_bias() {
    let fields = Fields { kind: 3, ticks: 5, ..Fields::default() };
    let frame = Frame::write(&fields, &[(1, 2), (3, 4)]).unwrap();
    for (at, refusal) in [(2, Refusal::BadField), (30, Refusal::WrongBias)] {
        let mut bytes = frame.bytes().to_vec();
        bytes[at] -= 1;
        bytes[50] -= 1;
        assert_eq!(Frame::read(2, &bytes), Err(refusal), "byte {at}");
        assert_eq!(ffi::lag_part(2, &bytes), 0, "byte {at}");
        assert_eq!(ffi::normalised_lag(2, &bytes, 2, &mut [0.0; 2]), u64::from(refusal.number()) << 32);
    }
}
