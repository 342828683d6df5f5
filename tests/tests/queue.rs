//! What the benchmarks compare the library with: the queue-based monitor and the naive stream against the naive evaluator, the twin against the model.
use juntreak_tests::formulas;
use juntreak_tests::header::limits::{
    CLOSE_WORDS, FEED_WORDS, HISTORY_WORDS, MAX_BLOCK, MAX_DELAY, MAX_NARROW_SEEN, MAX_NODES, MAX_SEEN, SCRATCH_WORDS, SESSION_BYTES,
};
use juntreak_tests::header::places::SEEN_AT;
use juntreak_tests::header::refusals::{BUFFER, OK, SEEN, STATES, UNSOUND};
use juntreak_tests::header::NUMBERS;
use juntreak_tests::model::{self, Delay, Session, Table, Width::Wide};
use juntreak_tests::naive::Stream;
use juntreak_tests::queue::Monitor;
use juntreak_tests::random::{damage, short_words, table, trace, words, Random};
use juntreak_tests::{same, twin};

/// The verdicts that the queue-based monitor gives, in its order.
fn queue_verdicts(t: &Table, rule: usize, states: &[u32], block: usize) -> Vec<bool> {
    let mut monitor = Monitor::new(t, rule, block);
    let mut given = vec![];
    for part in states.chunks(block) {
        monitor.feed(part, |verdict, count| given.extend(std::iter::repeat_n(verdict, count as usize)));
        assert!(given.len() <= states.len());
    }
    given
}

/// The same, fed tick by tick.
fn stepped_verdicts(t: &Table, rule: usize, states: &[u32]) -> Vec<bool> {
    let mut monitor = Monitor::new(t, rule, 1);
    let mut given = vec![];
    for state in states {
        monitor.step(*state, |verdict, count| given.extend(std::iter::repeat_n(verdict, count as usize)));
    }
    given
}

/// The verdicts that the naive stream gives.
fn naive_verdicts(t: &Table, rule: usize, states: &[u32], block: usize) -> Vec<bool> {
    let mut stream = Stream::new(t, rule);
    let mut given = vec![];
    for part in states.chunks(block) {
        stream.feed(part, |verdict| given.push(verdict));
    }
    given
}

/// The queue-based monitor, fed tick by tick and in blocks of several lengths: its verdicts are right, in order, and none that is settled is missing. It reads
/// both operands of U and R up to the same tick, and so waits as long as the old delay says. Answers how many it gave before they were settled.
fn queue_compared(t: &Table, rule: usize, states: &[u32], right: &[bool]) -> usize {
    let settled = states.len().saturating_sub(t.rule_delay_under(Delay::Old, rule) as usize);
    let mut given = vec![stepped_verdicts(t, rule, states)];
    given.extend([1, 7, 64, MAX_BLOCK].map(|k| queue_verdicts(t, rule, states, k)));
    for g in &given {
        assert!(g.len() >= settled && g[..] == right[..g.len()], "{t:?} rule {rule} {states:?}");
        assert_eq!(g.len(), given[0].len());
    }
    given[0].len() - settled
}

#[test]
fn queue_on_short_traces() {
    let mut r = Random(41);
    let (mut yes, mut no, mut early) = (0, 0, 0);
    for _ in 0..6_000 {
        let count = 1 + r.below(24) as usize;
        let longest = r.pick(&[300, 70, 20, 9, 0]);
        let t = table(&mut r, count, longest);
        let n = r.below(300) as usize;
        let states = trace(&mut r, n);
        let rule = r.below(t.rules.len() as u64) as usize;
        let right = t.verdicts(t.rules[rule].watched as usize, &states);
        early += queue_compared(&t, rule, &states, &right);
        yes += right.iter().filter(|v| **v).count();
        no += right.iter().filter(|v| !**v).count();
    }
    assert!(yes > 10_000 && no > 10_000 && early > 10_000, "{yes} {no} {early}");
}

#[test]
fn queue_on_long_traces() {
    let mut r = Random(42);
    for _ in 0..120 {
        let count = 1 + r.below(MAX_NODES as u64) as usize;
        let longest = r.pick(&[MAX_DELAY, 1100, 300]);
        let t = table(&mut r, count, longest);
        let states = trace(&mut r, 9_000);
        let rule = r.below(t.rules.len() as u64) as usize;
        queue_compared(&t, rule, &states, &t.rule_verdicts(rule, &states));
    }
}

#[test]
fn queue_on_the_benchmarks_formulas() {
    let mut r = Random(43);
    for (name, t) in formulas::all() {
        for states in [short_words(&mut r, 12_000), trace(&mut r, 12_000)] {
            let early = queue_compared(&t, 0, &states, &t.rule_verdicts(0, &states));
            println!("{name}: {early}");
        }
    }
}

#[test]
fn naive_streams() {
    let mut r = Random(44);
    for _ in 0..1_500 {
        let count = 1 + r.below(8) as usize;
        let t = table(&mut r, count, 20);
        let n = r.below(150) as usize;
        let states = trace(&mut r, n);
        let rule = r.below(t.rules.len() as u64) as usize;
        let settled = n.saturating_sub(t.rule_delay(rule) as usize);
        let right = t.verdicts(t.rules[rule].watched as usize, &states);
        for block in [1, 13, MAX_BLOCK] {
            assert!(naive_verdicts(&t, rule, &states, block) == right[..settled], "{t:?} rule {rule} {states:?}");
        }
    }
}

/// Now and then something is made unfit: the session's bytes, the block's length, the count of states seen, or a buffer.
fn spoil(r: &mut Random, session: &mut [u8; SESSION_BYTES], block: &mut Vec<u32>, history: &mut Vec<u32>, scratch: &mut Vec<u64>, out: &mut Vec<u64>) {
    match r.below(16) {
        0 => damage(r, session),
        1 => block.resize(r.pick(&[MAX_BLOCK, MAX_BLOCK + 1]), 3),
        2 => {
            let (narrow, wide) = (MAX_NARROW_SEEN as u64, MAX_SEEN as u64);
            session[SEEN_AT..].copy_from_slice(&r.pick(&[5, 5000, narrow - 3, narrow, narrow + 1, 1 << 40, wide - 3, wide]).to_le_bytes());
        }
        3 => history.truncate(HISTORY_WORDS - 1),
        4 => scratch.truncate(SCRATCH_WORDS - 1),
        5 => out.truncate(r.pick(&[FEED_WORDS - 1, FEED_WORDS, CLOSE_WORDS - 1])),
        _ => {}
    }
}

#[test]
fn twin_sessions() {
    let mut r = Random(45);
    let mut numbers = [0u32; NUMBERS];
    for _ in 0..1_500 {
        let count = 1 + r.below(12) as usize;
        let longest = r.pick(&[MAX_DELAY, 1100, 70, 9]);
        let t = table(&mut r, count, longest);
        let rule = r.below(t.rules.len() as u64 + 1) as u32;
        let mut bytes = t.bytes();
        if r.chance(8) {
            damage(&mut r, &mut bytes);
        }
        let (mut opened, mut wanted) = ([0xaa; SESSION_BYTES], [0xaa; SESSION_BYTES]);
        assert_eq!(twin::open(&bytes, rule, &mut opened), model::open(Delay::New, &bytes, rule, &mut wanted));
        assert_eq!(opened, wanted);
        let mut session = Session { table: t, rule, seen: 0 }.bytes();
        let mut history = short_words(&mut r, HISTORY_WORDS + 1);
        for _ in 0..6 {
            let k = r.pick(&[0, 1, 63, 64, 200, MAX_BLOCK]);
            let mut block = trace(&mut r, k);
            let (mut scratch, mut out) = (words(&mut r, SCRATCH_WORDS + 1), words(&mut r, CLOSE_WORDS + 1));
            let (own, own_history) = (session, history.clone());
            spoil(&mut r, &mut session, &mut block, &mut history, &mut scratch, &mut out);
            let (mut s, mut h, mut x, mut o) = (session, history.clone(), scratch.clone(), out.clone());
            let (got, wanted) = if r.chance(5) {
                (twin::close(&mut session, &history, &mut scratch, &mut out), model::close(Wide, Delay::New, &mut s, &h, &mut x, &mut o))
            } else {
                (twin::feed(&mut session, &block, &mut history, &mut scratch, &mut out), model::feed(Wide, Delay::New, &mut s, &block, &mut h, &mut x, &mut o))
            };
            assert_eq!(got, wanted);
            same("session", &session[..], &s[..]);
            same("history", &history, &h);
            same("scratch", &scratch, &x);
            same("out", &out, &o);
            numbers[got.0 as usize] += 1;
            if got.0 != OK {
                (session, history) = (own, own_history);
            }
        }
    }
    assert!([OK, STATES, BUFFER, SEEN, UNSOUND].iter().all(|n| numbers[*n as usize] > 20), "{numbers:?}");
}
