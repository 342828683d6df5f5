//! The floor of a feed: what document 01 has every feed do, whatever the formula, in plain Rust.
use super::clock::{in_turns, Contestant};
use super::markdown::{figure, number, table};
use super::runs::{dense, feeds, Buffers, Proved, PART};
use crate::formulas::{self, Named};
use crate::header::limits::MAX_BLOCK;
use crate::twin;
use std::hint::black_box;

const FEEDS: usize = 1000;
const ROUNDS: usize = 20;

fn read(states: &[u32]) -> u32 {
    states.iter().fold(0, |a, b| a | b)
}

/// The scratch is cleared, the states of history and block are read once, and the last d of them are kept.
fn floor<'a>(d: usize, states: &'a [u32]) -> Contestant<'a> {
    let mut b = Buffers::default();
    Box::new(move |laps| {
        for part in black_box(states).chunks(PART) {
            for block in part.chunks(MAX_BLOCK) {
                black_box(read(&b.history[..d]) | read(block));
                twin::keep(&mut b.history, d, block, d);
                b.scratch.fill(0);
                black_box(&mut b);
            }
            laps.lap();
        }
    })
}

fn row((name, t): Named, states: &[u32]) -> Vec<String> {
    let [ours, floor] = in_turns(ROUNDS, [feeds::<Proved>(&t.bytes(), states), floor(t.rule_delay(0) as usize, states)]).map(|time| time / FEEDS as f64 * 1e9);
    let asked = if name.contains("F[0,10]") || name.contains("F[0,4095]") { "≤ 3" } else { "" };
    vec![name.into(), figure(ours), figure(floor), number(ours / floor, 2), asked.into()]
}

pub fn run() {
    let states = dense(FEEDS * MAX_BLOCK);
    let rows: Vec<_> = formulas::all().into_iter().map(|f| row(f, &states)).collect();
    table("A feed of 1,024 states beside the floor, in ns:", &["Formula", "feed", "floor", "times the floor", "asked"], &rows);
}
