//! How the time of a session grows: nanoseconds per state, beside the twin and the queue-based monitor.
use super::clock::{in_turns, Contestant};
use super::markdown::{figure, number, table};
use super::runs::{self, dense, with_density, Buffers, Proved, Sessions, Twin};
use crate::formulas;
use crate::header::limits::MAX_BLOCK;
use crate::model::Table;

const STATES: usize = 500_000;
const ROUNDS: usize = 15;

/// A contestant, and how many states it gets.
type Timed<'a> = (usize, Contestant<'a>);

/// A session fed in blocks of a length.
fn session<'a, S: Sessions>(t: &Table, states: &'a [u32], block: usize) -> Timed<'a> {
    let (bytes, mut b) = (t.bytes(), Buffers::default());
    (states.len(), Box::new(move |laps| assert_eq!(runs::session::<S>(&bytes, states, block, &mut b, laps), states.len())))
}

/// The queue-based monitor fed in blocks of a length.
fn queue<'a>(t: &'a Table, states: &'a [u32], block: usize) -> Timed<'a> {
    (states.len(), Box::new(move |laps| assert!(runs::queue(t, states, block, laps) <= states.len())))
}

/// Nanoseconds per state of each contestant.
fn times<const N: usize>(timed: [Timed; N]) -> [f64; N] {
    let states = timed.each_ref().map(|x| x.0);
    let times = in_turns(ROUNDS, timed.map(|x| x.1));
    std::array::from_fn(|i| times[i] / states[i] as f64 * 1e9)
}

fn row(name: String, t: &Table, states: &[u32]) -> Vec<String> {
    let [proved, twin, ticks, blocks] =
        times([session::<Proved>(t, states, MAX_BLOCK), session::<Twin>(t, states, MAX_BLOCK), queue(t, states, 1), queue(t, states, MAX_BLOCK)]);
    vec![name, figure(proved), figure(twin), number(proved / twin, 2), figure(ticks), figure(blocks)]
}

fn by_block(states: &[u32]) {
    let mut rows = vec![];
    for (name, t) in formulas::all() {
        // Short blocks take long, so they get fewer states.
        let fed = |k: usize| session::<Proved>(&t, &states[..(10_000 * k).min(STATES)], k);
        let cells = times([fed(1), fed(16), fed(256), fed(MAX_BLOCK), queue(&t, states, 1)]).map(figure);
        rows.push([vec![name.to_string()], cells.to_vec()].concat());
    }
    table("Time per state by block length, in ns, and that of the queue tick by tick:", &["Formula", "1", "16", "256", "1,024", "queue"], &rows);
}

fn by_delay(states: &[u32]) {
    let rows: Vec<_> = [1, 15, 63, 255, 1023, 4095].map(|d| row(format!("F[0,{d}] p"), &formulas::finally(0, d), states)).to_vec();
    table("Time per state by delay, in ns:", &["Formula", "proved", "twin", "ratio", "queue", "queue in blocks"], &rows);
}

fn by_nodes(states: &[u32]) {
    let rows: Vec<_> = [2, 4, 8, 16, 32, 64].map(|n| row(n.to_string(), &formulas::of_nodes(n), states)).to_vec();
    table("Time per state by nodes, in ns:", &["Nodes", "proved", "twin", "ratio", "queue", "queue in blocks"], &rows);
}

fn by_density() {
    let t = formulas::finally(0, 1000);
    let rows: Vec<_> = [0.0001, 0.001, 0.01, 0.1, 0.5, 0.9].map(|d| row(d.to_string(), &t, &with_density(STATES, d))).to_vec();
    table("Time per state by density, F[0,1000] p, in ns:", &["Density", "proved", "twin", "ratio", "queue", "queue in blocks"], &rows);
}

pub fn run() {
    let states = dense(STATES);
    by_block(&states);
    by_delay(&states);
    by_nodes(&states);
    by_density();
}
