//! The streaming session beside the twin, the queue-based monitor and the naive stream.
use super::clock::{geometric_mean, in_turns};
use super::markdown::{figure, number, table};
use super::runs::{self, dense, Buffers, Proved, Twin};
use crate::formulas::{self, Named};
use crate::header::limits::MAX_BLOCK;
use crate::model::Table;

const STATES: usize = 5_000_000;
/// The naive stream gets fewer states; its figures are per verdict.
const NAIVE_STATES: usize = 500_000;
const ROUNDS: usize = 10;

/// Verdicts per second.
pub struct Speeds {
    pub name: &'static str,
    pub proved: f64,
    pub twin: f64,
    /// Tick by tick.
    pub queue: f64,
    /// In blocks of 1,024.
    pub queue_blocks: f64,
    pub naive: f64,
}

/// All contestants give the same verdicts, in the same order, as far as they give them.
fn check(name: &str, t: &Table, states: &[u32]) {
    let right = runs::session_verdicts::<Proved>(&t.bytes(), states, MAX_BLOCK);
    assert_eq!(right.len(), states.len());
    let agrees = |who: &str, got: Vec<bool>, states: usize| {
        let settled = states - t.rule_delay(0) as usize;
        assert!(got.len() >= settled && got[..] == right[..got.len()], "{name}: {who}");
    };
    let twins = runs::session_verdicts::<Twin>(&t.bytes(), states, MAX_BLOCK);
    assert_eq!(twins.len(), states.len());
    agrees("twin", twins, states.len());
    agrees("queue", runs::queue_verdicts(t, states, 1), states.len());
    agrees("queue in blocks", runs::queue_verdicts(t, states, MAX_BLOCK), states.len());
    agrees("naive", runs::naive_verdicts(t, &states[..NAIVE_STATES]), NAIVE_STATES);
}

fn measure((name, t): Named, states: &[u32]) -> Speeds {
    check(name, &t, states);
    let bytes = t.bytes();
    let (mut a, mut b) = (Buffers::default(), Buffers::default());
    let mut given = [0; 5];
    let [p, w, q, k, n] = given.each_mut();
    let times = in_turns(
        ROUNDS,
        [
            Box::new(|laps| *p = runs::session::<Proved>(&bytes, states, MAX_BLOCK, &mut a, laps)),
            Box::new(|laps| *w = runs::session::<Twin>(&bytes, states, MAX_BLOCK, &mut b, laps)),
            Box::new(|laps| *q = runs::queue(&t, states, 1, laps)),
            Box::new(|laps| *k = runs::queue(&t, states, MAX_BLOCK, laps)),
            Box::new(|laps| *n = runs::naive(&t, &states[..NAIVE_STATES], laps)),
        ],
    );
    let speed = |i: usize| given[i] as f64 / times[i];
    Speeds { name, proved: speed(0), twin: speed(1), queue: speed(2), queue_blocks: speed(3), naive: speed(4) }
}

fn print_speeds(speeds: &[Speeds]) {
    let millions = |x: f64| figure(x / 1e6);
    let row = |s: &Speeds| vec![s.name.into(), millions(s.proved), millions(s.twin), millions(s.queue), millions(s.queue_blocks), millions(s.naive)];
    let rows: Vec<_> = speeds.iter().map(row).collect();
    table("Streams of 5,000,000 states, density 0.5, millions of verdicts per second:", &["Formula", "proved", "twin", "queue", "queue in blocks", "naive"], &rows);
}

fn print_twin(speeds: &[Speeds]) {
    let row = |s: &Speeds| vec![s.name.into(), number(s.twin / s.proved, 2), "≤ 1.25".into()];
    let rows: Vec<_> = speeds.iter().map(row).collect();
    table("Time of the session over that of the twin:", &["Formula", "ratio", "asked"], &rows);
}

fn print_times_as_fast(speeds: &[Speeds], patterns: usize) {
    let ratios = |s: &Speeds| [s.proved / s.queue, s.proved / s.queue_blocks, s.proved / s.naive];
    let cells = |name: String, x: [f64; 3], asked: &str| vec![name, figure(x[0]), asked.into(), figure(x[1]), figure(x[2])];
    let mut rows: Vec<_> = speeds.iter().map(|s| cells(s.name.into(), ratios(s), "")).collect();
    let means = [0, 1, 2].map(|i| geometric_mean(&speeds[..patterns].iter().map(|s| ratios(s)[i]).collect::<Vec<_>>()));
    rows.insert(patterns, cells("geometric mean of these five".into(), means, "≥ 10.52"));
    table("How many times as fast the session is:", &["Formula", "as the queue", "asked", "as the queue in blocks", "as the naive stream"], &rows);
}

pub fn run() -> Vec<Speeds> {
    let states = dense(STATES);
    let speeds: Vec<_> = formulas::all().into_iter().map(|f| measure(f, &states)).collect();
    print_speeds(&speeds);
    print_twin(&speeds);
    print_times_as_fast(&speeds, formulas::patterns().len());
    speeds
}
