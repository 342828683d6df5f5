//! Whole-trace verdicts.
use super::clock::{in_turns, Contestant};
use super::markdown::{figure, number, table};
use super::runs::{dense, with_density};
use crate::formulas::{self, Named};
use crate::header::limits::{MAX_TRACE, SCRATCH_WORDS};
use crate::header::refusals::OK;
use crate::header::whole_words;
use crate::library::{self, TableBytes};
use crate::model::Table;
use crate::twin;
use std::hint::black_box;

const OUT_WORDS: usize = whole_words(MAX_TRACE);
/// Calls of one round.
pub const CALLS: usize = 20;

pub type Verdicts = fn(&TableBytes, u32, &[u32], &mut [u64], &mut [u64]) -> u32;

/// The verdicts as words, from one call.
fn words(f: Verdicts, bytes: &TableBytes, states: &[u32]) -> Vec<u64> {
    let (mut scratch, mut out) = (vec![0; SCRATCH_WORDS], vec![0; OUT_WORDS]);
    assert_eq!(f(bytes, 0, states, &mut scratch, &mut out), OK);
    out
}

/// A contestant of `CALLS` calls.
pub fn calls<'a>(f: Verdicts, bytes: TableBytes, states: &'a [u32]) -> Contestant<'a> {
    let (mut scratch, mut out) = (vec![0; SCRATCH_WORDS], vec![0; OUT_WORDS]);
    Box::new(move |_| {
        for _ in 0..CALLS {
            black_box(f(black_box(&bytes), 0, black_box(states), &mut scratch, &mut out));
        }
    })
}

/// The time of one call, in a run of `CALLS`.
pub fn microseconds(time: f64) -> String {
    number(time / CALLS as f64 * 1e6, 2) + " µs"
}

fn beside_twin((name, t): Named, states: &[u32]) -> Vec<String> {
    let bytes = t.bytes();
    assert_eq!(words(library::verdicts, &bytes, states), words(twin::verdicts, &bytes, states), "{name}");
    let [ours, twins] = in_turns(300, [library::verdicts, twin::verdicts].map(|f: Verdicts| calls(f, bytes, states)));
    vec![name.into(), microseconds(ours), microseconds(twins), number(ours / twins, 2), "≤ 1.25".into()]
}

fn beside_naive(name: &str, t: &Table, states: &[u32], asked: &str) -> Vec<String> {
    let watched = t.rules[0].watched as usize;
    let naive: Contestant = Box::new(|_| {
        black_box(t.verdicts(watched, black_box(states)));
    });
    let [ours, naive] = in_turns(100, [calls(library::verdicts, t.bytes(), states), naive]);
    let ours = ours / CALLS as f64;
    vec![name.into(), figure(ours * 1e6) + " µs", figure(naive * 1e6) + " µs", number(naive / ours, 0), asked.into()]
}

pub fn run() {
    let (half, quiet) = (dense(MAX_TRACE), with_density(MAX_TRACE, 1.0 / 2000.0));
    let rows: Vec<_> = formulas::all().into_iter().map(|f| beside_twin(f, &half)).collect();
    table("Whole traces of 5,120 states, density 0.5, one call:", &["Formula", "proved", "twin", "ratio", "asked"], &rows);

    let t = formulas::finally(0, 600);
    let rows = [beside_naive("quiet, the signal set once in 2,000 ticks", &t, &quiet, "≥ 100"), beside_naive("density 0.5", &t, &half, "")];
    table("F[0,600] p over 5,120 states, one call:", &["Trace", "proved", "naive", "times as fast", "asked"], &rows);
}
