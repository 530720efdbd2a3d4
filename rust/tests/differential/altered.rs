//! Altered work memory: words changed to values near their limits. Refusal 11 is given exactly by the clauses of
//! document 01 and requests 2026-01, 2026-03, 2026-04, 2026-06 and 2026-07 on the parts that the call tests, and what
//! is bad elsewhere is kept as it is.
use crate::call::{Call, Reply, Shape};
use crate::damage;
use crate::driver::{fresh, perform};
use crate::generator::{self, Generator};
use crate::layout::{self, Kind};
use crate::random::Random;
use crate::rules::{BIN_LIMIT, OPEN_LIMIT, PEAK, READY, RUN_LIMIT};
use crate::signed::Run;
use crate::tally::Tally;

const RUNS: u64 = 4_000;
const ALTERATIONS: usize = 250;

/// A value for a word, at or next to a limit of its kind.
pub fn near_limit(random: &mut Random, kind: Kind, mem: &[u64], shape: &Shape) -> u64 {
    let t = mem[0];
    let far = random.extreme();
    let Shape { cells, bins, blocks, .. } = *shape;
    match kind {
        Kind::Time => random.pick(&[RUN_LIMIT - 1, RUN_LIMIT, RUN_LIMIT + 1, t.wrapping_sub(1), 0, far]),
        Kind::Flag => random.pick(&[0, 1, 1, 2, far]),
        Kind::Command => random.pick(&[0, 1, 2, 3, 4, 7, far]),
        Kind::Bank => random.pick(&[0, 1, 2, far]),
        Kind::DataBin => random.pick(&[0, bins - 1, bins, bins + 1, far]),
        Kind::Stamp => random.pick(&[0, t, t.wrapping_add(1), far]),
        Kind::Block => random.pick(&[0, blocks - 1, blocks - 1, blocks, blocks + 1, far]),
        Kind::LastCommand => random.pick(&[0, 1, 2, 3, 4, 5, 6, 8, far]),
        Kind::NextCell => random.pick(&[0, cells - 1, cells - 1, cells, cells + 1, far]),
        Kind::ReadyBins => random.pick(&[0, 1, 2, 2 * bins - 1, 2 * bins, 2 * bins + 1, far]),
        Kind::NextBin => random.pick(&[0, bins, 2 * bins - 1, 2 * bins, 2 * bins + 1, far]),
        Kind::State => random.pick(&[0, 1, 1, 2, 2, 3, far]),
        Kind::Entry => random.pick(&[0, 8, 255, 256, 511, 512, far]),
        Kind::Ticks(limit) => {
            let room = limit.saturating_sub(random.below(12));
            random.pick(&[0, 1, limit - 1, limit, limit + 1, room, far])
        }
        Kind::Count(at) => {
            let ticks = mem[at];
            random.pick(&[0, ticks, ticks.wrapping_add(1), far])
        }
        Kind::Sum(at) => {
            let most = mem[at].wrapping_mul(2 * PEAK);
            random.pick(&[0, most, most.wrapping_add(1), most / 2, far])
        }
    }
}

/// The words that an alteration likes to change, since states near limits hang on them.
fn favourite(kind: Kind) -> bool {
    !matches!(kind, Kind::Bank | Kind::DataBin | Kind::Entry | Kind::Count(_) | Kind::Sum(_))
}

/// Changes one to four words.
fn alter(random: &mut Random, kinds: &[Kind], likely: &[usize], mem: &mut [u64], shape: &Shape) {
    for _ in 0..random.within(1, 4) {
        let any = random.below(kinds.len() as u64) as usize;
        let at = if random.once_in(2) { any } else { random.pick(likely) };
        mem[at] = near_limit(random, kinds[at], mem, shape);
    }
}

struct Altered {
    shape: Shape,
    generator: Generator,
    kinds: Vec<Kind>,
    likely: Vec<usize>,
    model: Run,
}

impl Altered {
    fn new(list: u64) -> Altered {
        let mut random = Random::new(2_000_000 + list);
        let shape = generator::small_shape(&mut random);
        let kinds = layout::kinds(shape);
        let likely = (0..kinds.len()).filter(|&at| favourite(kinds[at])).collect();
        let generator = Generator::new(random, shape);
        Altered { shape, generator, kinds, likely, model: Run::new(shape) }
    }

    /// A run in the midst of a list.
    fn lively(&mut self) -> Vec<u64> {
        let mut mem = fresh(&self.shape);
        for _ in 0..self.generator.random.within(0, 120) {
            let call = self.generator.call(&self.model);
            perform(&self.shape.numbers(), &mut mem, &call);
            self.model.perform(&call, damage::never);
        }
        mem
    }

    /// Alters a copy of the words and makes one call on it.
    fn try_once(&mut self, sound: &[u64], tally: &mut Tally) {
        let mut mem = sound.to_vec();
        let random = &mut self.generator.random;
        alter(random, &self.kinds, &self.likely, &mut mem, &self.shape);
        layout::load(&mut self.model, &mem);
        let call = self.generator.call(&self.model);
        let before = mem.clone();
        let reply = perform(&self.shape.numbers(), &mut mem, &call);
        let expected = self.model.perform(&call, damage::found);
        let shape = self.shape;
        assert_eq!(reply, expected, "{call:?} of {shape:?}");
        assert!(mem == layout::words(&mut self.model), "words after {call:?} of {shape:?}");
        if matches!(reply, Reply::Refused(_)) {
            assert!(mem == before, "a refused {call:?} of {shape:?} changed memory");
        }
        tally.count(&call, &reply);
    }
}

#[test]
fn altered_memory() {
    let mut tally = Tally::default();
    for list in 0..RUNS {
        let mut altered = Altered::new(list);
        let sound = altered.lively();
        for _ in 0..ALTERATIONS {
            altered.try_once(&sound, &mut tally);
        }
    }
    tally.print("altered memory");
    for name in ["tick", "dump", "integrate", "emit", "pick", "reading", "forecast", "page"] {
        tally.met(name, &["refusal 11"]);
    }
    tally.met("tick", &["accepted", "held off", "refusal 3", "refusal 19", "refusal 4"]);
    tally.met("integrate", &["answer 0", "answer 3", "answer 4", "answer 5", "refusal 8"]);
    tally.met("dump", &["answer 0", "answer 1", "answer 2", "answer 7", "a frame", "refusal 10"]);
    tally.met("emit", &["accepted", "refusal 9"]);
    tally.met("pick", &["accepted", "refusal 20", "refusal 10"]);
    tally.met("page", &["accepted", "refusal 10"]);
}

/// A row of so many ticks whose sums are as low as they may be: every stored sum is 0.
fn set_ticks(mem: &mut [u64], kinds: &[Kind], limit: u64, nth: usize, ticks: u64) {
    let mut rows = (0..kinds.len()).filter(|&at| kinds[at] == Kind::Ticks(limit));
    mem[rows.nth(nth).unwrap()] = ticks;
}

/// Calls that would take a loss past its limit by one tick, and the same calls where it just fits.
#[test]
fn a_loss_at_its_limit() {
    let shape = Shape { cells: 1, lags: 2, bins: 1, blocks: 1, start: 0, rate: 1, second: 0 };
    let kinds = layout::kinds(shape);
    let dump = |command| Call::Dump { cell: 0, command, bank: 0, phase: 0, room: 0 };
    let integrate = Call::Integrate { cell: 0 };
    let tick = Call::Tick { samples: vec![0; 3] };
    // The call, the ticks of Open, Held and bin, Held's flag and command, the bin's state, and the loss with its part.
    let rows = [
        (&dump(0b100), [7, 0, 0], [0, 0, 0], 1, 7),
        (&dump(0b001), [7, 3, 0], [1, 0, 0], 2, 7),
        (&integrate, [0, 7, 9], [1, 1, 2], 3, 7),
        (&integrate, [0, 7, 9], [1, 0, 1], 4, 9),
        (&integrate, [0, 7, BIN_LIMIT], [1, 1, 1], 5, 7),
        (&tick, [OPEN_LIMIT, 0, 0], [0, 0, 0], 6, 1),
    ];
    for (call, [open, held, bin], [flag, command, state], loss, part) in rows {
        for over in [0, 1] {
            let mut mem = fresh(&shape);
            set_ticks(&mut mem, &kinds, OPEN_LIMIT, 0, open);
            set_ticks(&mut mem, &kinds, OPEN_LIMIT, 1, held);
            set_ticks(&mut mem, &kinds, BIN_LIMIT, 0, bin);
            set_ticks(&mut mem, &kinds, RUN_LIMIT, loss - 1, RUN_LIMIT - part + over);
            let mut set = |kind, word| mem[kinds.iter().position(|other| *other == kind).unwrap()] = word;
            set(Kind::Flag, flag);
            set(Kind::Command, command);
            set(Kind::State, state);
            set(Kind::ReadyBins, u64::from(state == READY));
            let reply = perform(&shape.numbers(), &mut mem, call);
            let refused = reply == Reply::Refused(11);
            assert_eq!(refused, over == 1, "{call:?}, loss {loss}, {over} past it: {reply:?}");
        }
    }
}

/// A run of two cells on which every kind of call on cell 0 is accepted: a set is held, and a bin Ready.
fn accepting(shape: &Shape) -> Vec<u64> {
    let mut mem = fresh(shape);
    let dump = Call::Dump { cell: 0, command: 0b010, bank: 0, phase: 0, room: 0 };
    let tick = Call::Tick { samples: vec![0x03; 6] };
    for call in [&tick, &dump, &Call::Integrate { cell: 0 }, &tick, &dump, &tick] {
        perform(&shape.numbers(), &mut mem, call);
    }
    mem
}

/// Dumps of the cell are refused by 11 exactly if the word is bad; other calls leave it and do as without it.
fn with_word(shape: &Shape, at: usize, word: u64, bad: bool) {
    let mut sound = accepting(shape);
    let mut altered = sound.clone();
    altered[at] = word;
    for command in [0b000, 0b001, 0b010, 0b011, 0b100, 0b111] {
        let mut mem = altered.clone();
        let dump = |cell| Call::Dump { cell, command, bank: 0, phase: 0, room: shape.speed_length() };
        let other = perform(&shape.numbers(), &mut mem, &dump(1));
        assert!(!matches!(other, Reply::Refused(_)), "{command:03b} of another cell: {other:?}");
        let before = mem.clone();
        let reply = perform(&shape.numbers(), &mut mem, &dump(0));
        assert_eq!(reply == Reply::Refused(11), bad, "{command:03b}, word {at} as {word}: {reply:?}");
        assert!(!bad || mem == before, "a refused {command:03b} changed memory");
    }
    let (cell, bank, bin, lag, loss) = (0, 0, 0, 0, 1);
    let emit = Call::Emit { cell, bank, bin, room: shape.frame_length() };
    let reading = Call::Reading { cell, lag, loss, room: [2, 3] };
    let tick = Call::Tick { samples: vec![0x02; 6] };
    let page = Call::Page { room: shape.page_length() };
    let pick = Call::Pick { room: shape.frame_length() };
    for call in [tick, reading, Call::Forecast { cell }, page, emit, Call::Integrate { cell }, pick] {
        let reply = perform(&shape.numbers(), &mut sound, &call);
        assert!(!matches!(reply, Reply::Refused(_)), "{call:?}: {reply:?}");
        assert_eq!(perform(&shape.numbers(), &mut altered, &call), reply, "{call:?}, word {at} as {word}");
        let kept = std::mem::replace(&mut altered[at], sound[at]);
        assert!(kept == word && altered == sound, "memory after {call:?}, word {at} as {word}");
        altered[at] = word;
    }
}

/// Every last command from 0 to 9, and every block next to a limit.
#[test]
fn a_block_and_a_last_command_out_of_their_limits() {
    for (blocks, start) in [(1, 0), (1, 255), (3, 7), (256, 0)] {
        let shape = Shape { cells: 2, lags: 2, bins: blocks, blocks, start, rate: 1, second: 0 };
        let (at, _) = layout::block_of(&Run::new(shape), 0);
        let far = [1 << 32, 1 << 63, u64::MAX, u64::MAX - start, 0u64.wrapping_sub(start)];
        for offset in [0, blocks - 1, blocks, blocks + 1, 256].into_iter().chain(far) {
            with_word(&shape, at, offset, offset >= blocks);
        }
        for last in (0..10).chain(far) {
            with_word(&shape, at + 1, last, ![0, 1, 2, 3, 5].contains(&last));
        }
    }
}
