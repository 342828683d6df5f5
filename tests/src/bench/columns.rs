//! How long the columns of signals take (A6): feeds of 1,024 states over formulas that read many signals.
use super::clock::in_turns;
use super::markdown::{figure, number, table};
use super::runs::{dense, feeds, Sessions};
use crate::formulas::Formula;
use crate::header::limits::MAX_BLOCK;
use crate::model::Table;

pub const FEEDS: usize = 1000;
pub const SIGNALS: [u8; 4] = [1, 4, 16, 32];
pub const DELAYS: [u16; 3] = [0, 600, 4095];
const ROUNDS: usize = 10;

/// One of n signals within d ticks; or, to know what all but the columns take, one of n constants.
pub fn formula(n: u8, d: u16, signals: bool) -> Table {
    let mut f = Formula::default();
    let operand = |f: &mut Formula, i| if signals { f.signal(i) } else { f.constant(true) };
    let first = operand(&mut f, 0);
    let any = (1..n).fold(first, |a, i| {
        let b = operand(&mut f, i);
        f.or(a, b)
    });
    if d > 0 {
        f.finally(0, d, any);
    }
    f.table()
}

/// Nanoseconds of a feed of S and of B.
fn times<S: Sessions, B: Sessions>(t: &Table, states: &[u32]) -> [f64; 2] {
    let bytes = t.bytes();
    in_turns(ROUNDS, [feeds::<S>(&bytes, states), feeds::<B>(&bytes, states)]).map(|time| time / FEEDS as f64 * 1e9)
}

fn row<S: Sessions, B: Sessions>(n: u8, d: u16, states: &[u32]) -> Vec<String> {
    let [after, before] = times::<S, B>(&formula(n, d, true), states);
    let [without, without_before] = times::<S, B>(&formula(n, d, false), states);
    let (columns, columns_before) = (after - without, before - without_before);
    let cells = [before, after].map(figure).into_iter().chain([number(before / after, 2)]);
    let columns = [columns_before, columns].map(figure).into_iter().chain([number(columns_before / columns, 2), "≥ 2.5".into()]);
    [n.to_string(), number(d.into(), 0)].into_iter().chain(cells).chain(columns).collect()
}

/// The feeds of S beside those of B, which is as it was before.
pub fn run<S: Sessions, B: Sessions>() {
    let states = dense(FEEDS * MAX_BLOCK);
    let rows: Vec<_> = DELAYS.iter().flat_map(|d| SIGNALS.map(|n| row::<S, B>(n, *d, &states))).collect();
    let head = ["Signals", "Delay", "feed before", "feed", "times as fast", "columns before", "columns", "times as fast", "asked"];
    table("1,000 feeds of 1,024 states by signals and delay, ns for each feed, and for its columns alone:", &head, &rows);
}
