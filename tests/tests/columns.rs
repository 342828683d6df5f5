//! Columns of signals (A6): what a verdict reads is the signal of its state, wherever history ends and the block begins. And how long 1,000 feeds take.
use juntreak_tests::bench::clock::in_turns;
use juntreak_tests::bench::columns::{formula, DELAYS, FEEDS, SIGNALS};
use juntreak_tests::bench::runs::{dense, feeds, Before, Proved};
use juntreak_tests::compared::{bits, close, feed, packed};
use juntreak_tests::formulas::Formula;
use juntreak_tests::header::limits::{CLOSE_WORDS, HISTORY_WORDS, MAX_BLOCK, MAX_SIGNAL, MAX_TRACE, SCRATCH_WORDS, SESSION_BYTES};
use juntreak_tests::header::refusals::OK;
use juntreak_tests::header::whole_words;
use juntreak_tests::library::{open, verdicts, SessionBytes};
use juntreak_tests::model::Table;
use juntreak_tests::random::{short_words, words, Random};
use juntreak_tests::{only_read, same};
use std::collections::VecDeque;

/// A rule with the delay d, whose verdict at t is a signal at t + e.
fn read_at(signal: u8, e: u16, d: u16) -> Table {
    let mut f = Formula::default();
    let s = f.signal(signal);
    let read = f.finally(e, e, s);
    let t = f.constant(true);
    let wait = f.finally(d, d, t);
    f.and(read, wait);
    f.table()
}

fn opened(t: &Table) -> SessionBytes {
    let mut s = [0; SESSION_BYTES];
    assert_eq!(open(&t.bytes(), 0, &mut s), OK);
    s
}

fn signal_of(states: &[u32], signal: u8) -> Vec<bool> {
    states.iter().map(|state| state / 2u32.pow(signal.into()) % 2 == 1).collect()
}

/// The verdicts of a signal on a whole trace are its column.
fn whole(r: &mut Random, signal: u8, n: usize) {
    let mut f = Formula::default();
    f.signal(signal);
    let (bytes, states) = (f.table().bytes(), short_words(r, n));
    let (mut scratch, mut out) = (words(r, SCRATCH_WORDS + 3), words(r, whole_words(n) + 2));
    let (behind, want) = (scratch[SCRATCH_WORDS..].to_vec(), packed(&signal_of(&states, signal), &out));
    let number = only_read("states", &states, |states| verdicts(&bytes, 0, states, &mut scratch, &mut out));
    assert_eq!(number, OK);
    same("out", &out, &want);
    same("scratch", &scratch, &[vec![0; SCRATCH_WORDS], behind].concat());
}

#[test]
fn whole_traces() {
    let mut r = Random(61);
    for signal in 0..=MAX_SIGNAL as u8 {
        for n in (0..=200).chain([MAX_TRACE - 129, MAX_TRACE - 65, MAX_TRACE - 64, MAX_TRACE - 63, MAX_TRACE - 1, MAX_TRACE]) {
            whole(&mut r, signal, n);
        }
    }
}

/// Blocks of these lengths through a session that reads a signal e states ahead, each call against the model; every verdict against the states.
fn streamed(r: &mut Random, signal: u8, e: u16, d: u16, blocks: &[usize]) {
    let mut s = opened(&read_at(signal, e, d));
    let mut history = short_words(r, HISTORY_WORDS);
    let mut awaited = VecDeque::new();
    let check = |given: Vec<bool>, awaited: &mut VecDeque<bool>| {
        let want: Vec<_> = awaited.drain(..given.len()).collect();
        same("verdicts", &given, &want);
    };
    let (mut fed, mut skip) = (0, e as usize);
    for k in blocks {
        let block = short_words(r, *k);
        let signals = signal_of(&block, signal);
        awaited.extend(&signals[skip.min(*k)..]);
        skip -= skip.min(*k);
        let (mut scratch, mut out) = (words(r, SCRATCH_WORDS), words(r, CLOSE_WORDS));
        let (number, count) = feed(&mut s, &block, &mut history, &mut scratch, &mut out);
        let before = (fed as usize).saturating_sub(d.into());
        fed += *k;
        assert_eq!((number, count as usize), (OK, fed.saturating_sub(d.into()) - before));
        check(bits(&out, count), &mut awaited);
    }
    let (mut scratch, mut out) = (words(r, SCRATCH_WORDS), words(r, CLOSE_WORDS));
    let (number, count) = close(&mut s, &history, &mut scratch, &mut out);
    // In the last d ticks nothing is d ticks ahead.
    assert_eq!((number, bits(&out, count)), (OK, vec![false; fed.min(d.into())]));
}

#[test]
fn every_end_of_history_in_a_word() {
    let mut r = Random(62);
    for d in 64..128u16 {
        for k in [1, 2, 62, 63, 64, 65, 66, 126, 127, 128, 129, 192, 200] {
            let (signal, e) = (r.below(MAX_SIGNAL as u64 + 1) as u8, r.below(u64::from(d) + 1) as u16);
            // History fills up on the way, so that it also ends before its place d.
            streamed(&mut r, signal, e, d, &[k / 2, k, k, d as usize, k, 0, k]);
        }
    }
}

#[test]
fn every_signal_at_the_ends() {
    let mut r = Random(63);
    for signal in 0..=MAX_SIGNAL as u8 {
        for d in [0, 1, 63, 64, 65, 600, 4032, 4095u16] {
            let e = r.pick(&[0, d / 2, d.saturating_sub(1), d]);
            let k = r.below(MAX_BLOCK as u64 + 1) as usize;
            streamed(&mut r, signal, e, d, &[MAX_BLOCK, k, MAX_BLOCK, 1, MAX_BLOCK - 1, MAX_BLOCK, 63, MAX_BLOCK, MAX_BLOCK]);
        }
    }
}

/// 1,000 feeds of 1,024 states, and as many of the plain Rust twin whose columns are made as before A6. Where columns take most of a feed, the library is
/// more than twice as fast; with columns as before it would be about as fast.
#[test]
fn a_thousand_feeds_before_and_after() {
    let states = dense(FEEDS * MAX_BLOCK);
    for d in DELAYS {
        for n in SIGNALS {
            let bytes = formula(n, d, true).bytes();
            let [after, before] = in_turns(3, [feeds::<Proved>(&bytes, &states), feeds::<Before>(&bytes, &states)]);
            println!("{n} signals, delay {d}: 1,000 feeds in {:.2} ms, before in {:.2} ms", after * 1e3, before * 1e3);
            assert!(n < 16 || 1.25 * after < before, "{n} signals, delay {d}: {after} s, before {before} s");
        }
    }
}
