//! How often each call had each outcome.
use std::collections::BTreeMap;

use crate::call::{Call, Reply, Shape};

#[derive(Default)]
pub struct Tally {
    counts: BTreeMap<(&'static str, String), u64>,
}

/// The names under which steps of blocks, what speed dumps found and whose turn it was in picks are counted, which are
/// no calls of their own.
const STEP: &str = "block";
const SENT: &str = "speed dump";
const TURN: &str = "turn";

/// A dump of one cell, and what it finds there.
pub struct Found {
    pub cell: usize,
    pub command: u64,
    pub block: u64,
    /// The last command before it, if there was one.
    pub last: Option<u64>,
    pub occupied: bool,
    /// The ticks of Open.
    pub ticks: u64,
    /// The reply to the cell's dump before it.
    pub reply: Reply,
}

impl Found {
    /// The command with the last one before it, and what else there is to be told of the step to this block.
    fn ways(&self, shape: &Shape, block: u64, reply: &Reply) -> Vec<String> {
        let last = self.last.map_or("none".to_string(), |last| format!("{last:03b}"));
        let at_end = shape.blocks > 1 && self.block == shape.start + shape.blocks - 1;
        let place = if at_end { ", at S + M - 1" } else { "" };
        let mut ways = vec![format!("{:03b} behind {last}{place}", self.command)];
        match self.reply {
            Reply::Number(7) => ways.push("111 between".to_string()),
            Reply::Refused(_) => ways.push("a refusal between".to_string()),
            Reply::Frame(_) => ways.push(format!("{:03b} behind a speed dump", self.command)),
            _ => {}
        }
        if at_end && shape.blocks == 256 {
            ways.push("from the last of 256".to_string());
        }
        if *reply == Reply::Number(2) && block != self.block {
            ways.push("moved by an overrun".to_string());
        }
        ways
    }

    /// What became a speed frame, and beside what.
    fn sent(&self) -> String {
        let open = if self.ticks == 0 { "an empty Open" } else { "ticks" };
        let held = if self.occupied { "occupied" } else { "unoccupied" };
        format!("of {open}, Held {held}")
    }
}

impl Call {
    pub fn name(&self) -> &'static str {
        match self {
            Call::Tick { .. } => "tick",
            Call::Dump { .. } => "dump",
            Call::Integrate { .. } => "integrate",
            Call::Emit { .. } => "emit",
            Call::Pick { .. } => "pick",
            Call::Reading { .. } => "reading",
            Call::Forecast { .. } => "forecast",
            Call::Page { .. } => "page",
        }
    }
}

/// The outcome in a word: a refusal, the answer of a move, or that it was accepted.
fn outcome(call: &Call, reply: &Reply) -> String {
    match (call, reply) {
        (_, Reply::Refused(number)) => format!("refusal {number}"),
        (Call::Dump { .. } | Call::Integrate { .. }, Reply::Number(answer)) => {
            format!("answer {answer}")
        }
        (Call::Dump { room, .. }, Reply::Frame(bytes)) if *room > bytes.len() => {
            "a frame, room left".to_string()
        }
        (Call::Dump { .. }, Reply::Frame(_)) => "a frame".to_string(),
        (Call::Tick { .. }, Reply::Number(1..)) => "held off".to_string(),
        _ => "accepted".to_string(),
    }
}

/// The ways from the last of some places to the one that a pick took.
const WAYS: [&str; 4] = ["the next", "others passed over", "round the end", "the last again"];

fn way(last: u64, taken: u64, places: u64) -> &'static str {
    let [next, over, round, again] = WAYS;
    match taken {
        _ if taken == last => again,
        _ if taken == (last + 1) % places => next,
        _ if taken > last => over,
        _ => round,
    }
}

impl Tally {
    pub fn count(&mut self, call: &Call, reply: &Reply) {
        *self.counts.entry((call.name(), outcome(call, reply))).or_default() += 1;
    }

    pub fn add(&mut self, name: &'static str, outcome: String) {
        *self.counts.entry((name, outcome)).or_default() += 1;
    }

    /// The step to this block from the one that a dump found, unless the dump was refused or idle.
    pub fn count_step(&mut self, shape: &Shape, found: &Found, block: u64, reply: &Reply) {
        if matches!(reply, Reply::Number(0..=2) | Reply::Frame(_)) {
            for way in found.ways(shape, block, reply) {
                self.add(STEP, way);
            }
        }
        if matches!(reply, Reply::Frame(_)) {
            self.add(SENT, found.sent());
        }
    }

    /// The cell that a pick took, or the bin in it: which of so many was the last one before.
    pub fn count_turn(&mut self, what: &str, last: u64, taken: u64, places: u64) {
        if places > 1 {
            self.add(TURN, format!("{what}: {}", way(last, taken, places)));
        }
    }

    /// How many calls were counted.
    pub fn total(&self) -> u64 {
        let calls = self.counts.iter().filter(|((name, _), _)| ![STEP, SENT, TURN].contains(name));
        calls.map(|(_, count)| count).sum()
    }

    pub fn print(&self, title: &str) {
        println!("{title}: {} calls", self.total());
        for ((name, outcome), count) in &self.counts {
            println!("  {name:10} {outcome:30} {count:>10}");
        }
    }

    /// Each of these outcomes has been met.
    pub fn met(&self, name: &'static str, outcomes: &[&str]) {
        for outcome in outcomes {
            assert!(self.times(name, outcome) > 0, "no {name} had the outcome {outcome}");
        }
    }

    pub fn times(&self, name: &'static str, outcome: &str) -> u64 {
        self.counts.get(&(name, outcome.to_string())).copied().unwrap_or_default()
    }

    /// Picks have taken cells and bins so often in each way.
    pub fn turned(&self, least: u64) {
        for turn in ["cell", "bin"].into_iter().flat_map(|what| WAYS.map(|way| format!("{what}: {way}"))) {
            let times = self.times(TURN, &turn);
            assert!(times >= least, "{times} picks took so: {turn}");
        }
    }

    /// Blocks have been stepped so often in each way: by each command as a cell's first, behind each other and from
    /// S + M - 1 (where no 100 leaves a block), with a 111 or a refused dump between, behind a speed dump, by an
    /// overrun. Speed dumps have found Open with ticks and without, Held occupied and not.
    pub fn stepped(&self, least: u64) {
        let mut ways = ["111 between", "a refusal between", "moved by an overrun"].map(String::from).to_vec();
        for command in ["000", "001", "010", "011", "100"] {
            ways.push(format!("{command} behind a speed dump"));
            ways.extend(["none", "100"].map(|last| format!("{command} behind {last}")));
            for last in ["000", "001", "010"] {
                let way = format!("{command} behind {last}");
                ways.extend([format!("{way}, at S + M - 1"), way]);
            }
        }
        for way in ways {
            let times = self.times(STEP, &way);
            assert!(times >= least, "{times} blocks were stepped so: {way}");
        }
        for held in ["Held occupied", "Held unoccupied"] {
            for way in ["of an empty Open", "of ticks"].map(|open| format!("{open}, {held}")) {
                let times = self.times(SENT, &way);
                assert!(times >= least, "{times} speed dumps were so: {way}");
            }
        }
    }
}
