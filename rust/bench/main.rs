//! The proved engine beside the peer: the same answers first, then tables of times.
mod agree;
mod blocks;
mod engine;
mod peer;
mod samples;
mod table;
mod timing;

use std::io::{self, ErrorKind, Write};
use std::process::ExitCode;

use lta::Shape;

use engine::{Engine, Peer, Proved};
use peer::frame::{length, ACCUMULATOR, SPEED};
use table::Table;

fn shape(cells: u64, lags: u64, bins: u64) -> Shape {
    Shape { cells, lags, bins, blocks: 1, start: 0, rate: 1000, second: 0 }
}

fn whole_calls(table: &mut Table) -> io::Result<()> {
    for (cells, lags) in [(1, 2), (4, 32), (16, 128)] {
        for bins in [1, 1000] {
            let what = format!("tick C={cells} N={lags} B={bins}");
            table.row(&what, "1000/s", &timing::tick(shape(cells, lags, bins)), |ns| 1e6 / ns)?;
        }
    }
    for (name, blocks) in timing::ON_A_CELL.iter().zip(&timing::on_a_cell(shape(16, 128, 4))) {
        table.row(&format!("{name} N=128"), "ns", blocks, |ns| ns)?;
    }
    for bins in [10, 1000] {
        let blocks = timing::pick(shape(16, 128, bins));
        table.row(&format!("pick C=16 N=128 B={bins}"), "us", &blocks, |ns| ns / 1e3)?;
    }
    for lags in [2, 128] {
        let blocks = timing::page(shape(16, lags, 1));
        table.row(&format!("page C=16 N={lags}"), "us", &blocks, |ns| ns / 1e3)?;
    }
    for (name, kind) in [("frame", ACCUMULATOR), ("speed frame", SPEED)] {
        let speed = |ns| 1000.0 * length(kind, 128) as f64 / ns;
        table.row(&format!("{name} read N=128"), "MB/s", &timing::read(kind, 128), speed)?;
        table.row(&format!("{name} write N=128"), "MB/s", &timing::write(kind, 128), speed)?;
    }
    Ok(())
}

/// A tick's cost by lags and cells, and by lags alone.
fn growth(table: &mut Table) -> io::Result<()> {
    table.head("growth of a tick's cost")?;
    for (cells, lags) in [(1, 2), (1, 16), (1, 32), (1, 128), (4, 32), (4, 128), (16, 32), (16, 128)] {
        let each = (cells * lags) as f64;
        let blocks = timing::tick(shape(cells, lags, 1));
        table.row(&format!("a tick C={cells} N={lags}"), "ns/lag", &blocks, |ns| ns / each)?;
    }
    let blocks = timing::each_lag_more(shape(1, 32, 1), shape(1, 128, 1));
    table.row("each lag more, N=32 to 128", "ns/lag", &blocks, |ns| ns)
}

/// The most memory that this process has had, where the system tells.
fn peak_memory() -> String {
    let status = std::fs::read_to_string("/proc/self/status").unwrap_or_default();
    let line = status.lines().find_map(|line| line.strip_prefix("VmHWM:"));
    line.map_or("unknown".to_string(), |line| line.trim().to_string())
}

fn memory(table: &mut Table) -> io::Result<()> {
    table.line(&format!("{:26} {:>10} {:>10}", "bytes of work memory", Proved::NAME, Peer::NAME))?;
    for (cells, lags, bins) in [(1, 2, 1), (4, 32, 1), (16, 128, 1), (16, 128, 1000)] {
        let shape = shape(cells, lags, bins);
        let (proved, peer) = (Proved::new(shape).memory_bytes(), Peer::new(shape).memory_bytes());
        table.line(&format!("{:26} {proved:>10} {peer:>10}", format!("C={cells} N={lags} B={bins}")))?;
    }
    table.line(&format!("peak memory of this process, both engines: {}", peak_memory()))
}

fn run(out: &mut dyn Write) -> io::Result<()> {
    writeln!(out, "proved engine and peer agree on {} calls\n", agree::check())?;
    let mut table = Table::new(out)?;
    whole_calls(&mut table)?;
    table.line("")?;
    growth(&mut table)?;
    table.line("")?;
    memory(&mut table)?;
    table.line("")?;
    table.speed()
}

/// A reader that wants no more of it is no fault.
fn main() -> ExitCode {
    match run(&mut io::stdout()) {
        Err(error) if error.kind() != ErrorKind::BrokenPipe => {
            eprintln!("lta-bench: standard output: {error}");
            ExitCode::FAILURE
        }
        _ => ExitCode::SUCCESS,
    }
}
