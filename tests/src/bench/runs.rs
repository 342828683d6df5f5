//! A stream of states run through each contestant.
use super::clock::{Contestant, Laps};
use crate::header::limits::{CLOSE_WORDS, HISTORY_WORDS, MAX_BLOCK, SCRATCH_WORDS, SESSION_BYTES};
use crate::header::refusals::OK;
use crate::library::{self, SessionBytes, TableBytes};
use crate::model::Table;
use crate::naive::Stream;
use crate::queue::Monitor;
use crate::random::Random;
use crate::twin;
use std::hint::black_box;

/// Runs are timed in parts of so many states.
pub const PART: usize = 4 * MAX_BLOCK;

/// What a session needs beside its bytes.
pub struct Buffers {
    pub history: Vec<u32>,
    pub scratch: Vec<u64>,
    pub out: Vec<u64>,
}

impl Default for Buffers {
    fn default() -> Buffers {
        Buffers { history: vec![0; HISTORY_WORDS], scratch: vec![0; SCRATCH_WORDS], out: vec![0; CLOSE_WORDS] }
    }
}

/// The three calls of a session; each is accepted.
pub trait Sessions {
    fn open(table: &TableBytes) -> SessionBytes;
    fn feed(s: &mut SessionBytes, block: &[u32], b: &mut Buffers) -> u32;
    fn close(s: &mut SessionBytes, b: &mut Buffers) -> u32;
}

pub struct Proved;
pub struct Twin;
/// The twin with columns made as before A6.
pub struct Before;

pub fn accepted<T>((number, answer): (u32, T)) -> T {
    assert_eq!(number, OK);
    answer
}

impl Sessions for Proved {
    fn open(table: &TableBytes) -> SessionBytes {
        let mut s = [0; SESSION_BYTES];
        accepted((library::open(table, 0, &mut s), s))
    }
    fn feed(s: &mut SessionBytes, block: &[u32], b: &mut Buffers) -> u32 {
        accepted(library::feed(s, block, &mut b.history, &mut b.scratch, &mut b.out))
    }
    fn close(s: &mut SessionBytes, b: &mut Buffers) -> u32 {
        accepted(library::close(s, &b.history, &mut b.scratch, &mut b.out))
    }
}

impl Sessions for Twin {
    fn open(table: &TableBytes) -> SessionBytes {
        let mut s = [0; SESSION_BYTES];
        accepted((twin::open(table, 0, &mut s), s))
    }
    fn feed(s: &mut SessionBytes, block: &[u32], b: &mut Buffers) -> u32 {
        accepted(twin::feed(s, block, &mut b.history, &mut b.scratch, &mut b.out))
    }
    fn close(s: &mut SessionBytes, b: &mut Buffers) -> u32 {
        accepted(twin::close(s, &b.history, &mut b.scratch, &mut b.out))
    }
}

impl Sessions for Before {
    fn open(table: &TableBytes) -> SessionBytes {
        Twin::open(table)
    }
    fn feed(s: &mut SessionBytes, block: &[u32], b: &mut Buffers) -> u32 {
        accepted(twin::feed_before(s, block, &mut b.history, &mut b.scratch, &mut b.out))
    }
    fn close(s: &mut SessionBytes, b: &mut Buffers) -> u32 {
        Twin::close(s, b)
    }
}

/// Open, feeds of `block` states, close. `give` gets out and the count of verdicts after each call.
#[inline(always)]
fn through_session<S: Sessions>(table: &TableBytes, states: &[u32], block: usize, b: &mut Buffers, laps: &mut Laps, mut give: impl FnMut(&[u64], u32)) {
    let mut s = S::open(table);
    for part in states.chunks(PART) {
        for block in part.chunks(block) {
            let count = S::feed(&mut s, block, b);
            give(&b.out, count);
        }
        laps.lap();
    }
    let count = S::close(&mut s, b);
    give(&b.out, count);
}

/// The states through the queue-based monitor, tick by tick or in blocks. `give` gets the runs of verdicts.
#[inline(always)]
fn through_queue(t: &Table, states: &[u32], block: usize, laps: &mut Laps, mut give: impl FnMut(bool, u32)) {
    let mut monitor = Monitor::new(t, 0, block);
    for part in states.chunks(PART) {
        if block == 1 {
            part.iter().for_each(|state| monitor.step(*state, &mut give));
        } else {
            part.chunks(block).for_each(|block| monitor.feed(block, &mut give));
        }
        laps.lap();
    }
}

/// The states through the naive stream. `give` gets each verdict.
#[inline(always)]
fn through_naive(t: &Table, states: &[u32], laps: &mut Laps, mut give: impl FnMut(bool)) {
    let mut stream = Stream::new(t, 0);
    for part in states.chunks(PART) {
        part.chunks(MAX_BLOCK).for_each(|block| stream.feed(block, &mut give));
        laps.lap();
    }
}

/// Feeds of 1,024 states, to a session that has as many as it keeps.
pub fn feeds<'a, S: Sessions>(table: &TableBytes, states: &'a [u32]) -> Contestant<'a> {
    let (mut s, mut b) = (S::open(table), Buffers::default());
    for block in dense(HISTORY_WORDS).chunks(MAX_BLOCK) {
        S::feed(&mut s, block, &mut b);
    }
    Box::new(move |laps| {
        for part in black_box(states).chunks(PART) {
            for block in part.chunks(MAX_BLOCK) {
                black_box(S::feed(&mut s, block, &mut b));
            }
            laps.lap();
        }
    })
}

/// A timed run of a session; how many verdicts it gave.
pub fn session<S: Sessions>(table: &TableBytes, states: &[u32], block: usize, b: &mut Buffers, laps: &mut Laps) -> usize {
    let mut given = 0;
    through_session::<S>(black_box(table), black_box(states), block, b, laps, |out, count| {
        black_box(out);
        given += count as usize;
    });
    given
}

/// A timed run of the queue-based monitor; how many verdicts it gave.
pub fn queue(t: &Table, states: &[u32], block: usize, laps: &mut Laps) -> usize {
    let mut given = 0;
    through_queue(t, black_box(states), block, laps, |verdict, count| {
        black_box(verdict);
        given += count as usize;
    });
    given
}

/// A timed run of the naive stream; how many verdicts it gave.
pub fn naive(t: &Table, states: &[u32], laps: &mut Laps) -> usize {
    let mut given = 0;
    through_naive(t, black_box(states), laps, |verdict| {
        black_box(verdict);
        given += 1;
    });
    given
}

/// All verdicts of a session.
pub fn session_verdicts<S: Sessions>(table: &TableBytes, states: &[u32], block: usize) -> Vec<bool> {
    let mut given = vec![];
    let bits = |out: &[u64], count: u32| given.extend((0..count as usize).map(|i| out[i / 64] >> (i % 64) & 1 == 1));
    through_session::<S>(table, states, block, &mut Buffers::default(), &mut Laps::default(), bits);
    given
}

/// The verdicts of the queue-based monitor.
pub fn queue_verdicts(t: &Table, states: &[u32], block: usize) -> Vec<bool> {
    let mut given = vec![];
    through_queue(t, states, block, &mut Laps::default(), |verdict, count| given.resize(given.len() + count as usize, verdict));
    given
}

/// The verdicts of the naive stream.
pub fn naive_verdicts(t: &Table, states: &[u32]) -> Vec<bool> {
    let mut given = vec![];
    through_naive(t, states, &mut Laps::default(), |verdict| given.push(verdict));
    given
}

/// Random states of density 0.5: each bit is set in half of them.
pub fn dense(n: usize) -> Vec<u32> {
    let mut r = Random(7);
    (0..n).map(|_| r.next() as u32).collect()
}

/// Random states whose bits 0 and 1 are each set in the given share of them.
pub fn with_density(n: usize, density: f64) -> Vec<u32> {
    let mut r = Random(8);
    let limit = (density * 2f64.powi(64)) as u64;
    let mut bit = move || (r.next() < limit) as u32;
    (0..n).map(|_| bit() | bit() << 1).collect()
}
