//! Early answers beside whole-trace verdicts.
use super::clock::{in_turns, Contestant};
use super::markdown::{number, table};
use super::runs::dense;
use super::whole::{calls, microseconds, CALLS};
use crate::formulas::{self, temporal};
use crate::header::limits::{EARLY_SCRATCH_WORDS, MAX_NODES, MAX_TRACE};
use crate::header::refusals::OK;
use crate::known;
use crate::library::{self, TableBytes};
use crate::model::Table;
use std::hint::black_box;

/// The tick that is asked.
const TICK: usize = 0;

/// A contestant of `CALLS` calls.
fn early_calls<'a>(bytes: TableBytes, states: &'a [u32]) -> Contestant<'a> {
    let mut scratch = vec![0; EARLY_SCRATCH_WORDS];
    Box::new(move |_| {
        for _ in 0..CALLS {
            black_box(library::early(black_box(&bytes), 0, black_box(states), TICK, &mut scratch));
        }
    })
}

/// The answers at some ticks, the last ones among them, are the naive ones.
fn check(name: &str, t: &Table, states: &[u32]) {
    let (bytes, mut scratch) = (t.bytes(), vec![0; EARLY_SCRATCH_WORDS]);
    let want = known::column(t, t.rules[0].watched as usize, states);
    for tick in (0..states.len()).filter(|tick| tick % 61 == 0 || tick + 20 > states.len()) {
        assert_eq!(library::early(&bytes, 0, states, tick, &mut scratch), (OK, want[tick].value()), "{name}, tick {tick}");
    }
}

fn beside_verdicts(name: String, t: &Table, states: &[u32]) -> Vec<String> {
    check(&name, t, states);
    let [early, verdicts] = in_turns(300, [early_calls(t.bytes(), states), calls(library::verdicts, t.bytes(), states)]);
    vec![name, microseconds(early), microseconds(verdicts), number(early / verdicts, 2), "≤ 2.5".into()]
}

/// The formulas of the other tables; each temporal operator alone, with a short interval, a long one, and one of the longest splitting; 64 nodes.
fn tables() -> Vec<(String, Table)> {
    let mut all: Vec<_> = formulas::all().into_iter().map(|(name, t)| (name.to_string(), t)).collect();
    for kind in 7..=10 {
        for (lo, hi) in [(1, 9), (100, 700), (0, 4084)] {
            let name = match kind {
                7 => format!("F[{lo},{hi}] p"),
                8 => format!("G[{lo},{hi}] p"),
                9 => format!("p U[{lo},{hi}] q"),
                _ => format!("p R[{lo},{hi}] q"),
            };
            all.push((name, temporal(kind, lo, hi)));
        }
    }
    all.push((format!("{MAX_NODES} nodes"), formulas::of_nodes(MAX_NODES as u8)));
    all
}

pub fn run() {
    let states = dense(MAX_TRACE);
    let rows: Vec<_> = tables().into_iter().map(|(name, t)| beside_verdicts(name, &t, &states)).collect();
    let title = "Early answers at tick 0 of 5,120 states, beside the verdicts of all their ticks, density 0.5, one call:";
    table(title, &["Formula", "early", "verdicts", "ratio", "asked"], &rows);
}
