//! The engine beside models of document 01 with the requests up to 2026-08 that share no code with it.
//!
//! `machine` is their plain machine: sets of tick numbers, and every number worked out from the bytes of the
//! ticks when it is asked for. `signed` keeps signed sums instead, which is fast enough for long lists; short lists
//! hold it against the machine. `damage` says when work memory is refused by 11, `layout` which words a run has by
//! docs/LAYOUT.md, `frame` what the calls on frames give, `page` how losses are printed, `exchange_alike` what two runs
//! of the engine have in common when X and Y are exchanged. The tests are in `sizes`, `lists`, `validity`, `greatest`,
//! `blocks`, `limits`, `forecast`, `pages`, `pages_refused`, `altered`, `speed`, `speed_refused`, `picks`,
//! `picks_refused`, `starvation`, `exchange`, `exchange_limits`, `exchange_controls`, `frames` and `earlier`.
mod altered;
mod blocks;
mod call;
mod damage;
mod driver;
mod earlier;
mod exchange;
mod exchange_alike;
mod exchange_controls;
mod exchange_limits;
mod forecast;
mod frame;
mod frames;
mod generator;
mod greatest;
mod layout;
mod limits;
mod lists;
mod machine;
mod page;
mod pages;
mod pages_refused;
mod picks;
mod picks_refused;
mod random;
mod rules;
mod signed;
mod sizes;
mod speed;
mod speed_refused;
mod starvation;
mod tally;
mod validity;
