//! Verdicts of whole traces, against the naive evaluator.
use juntreak_tests::formulas::temporal;
use juntreak_tests::header::limits::{MAX_DELAY, MAX_INTERVAL, MAX_NODES, MAX_TRACE, SCRATCH_WORDS};
use juntreak_tests::header::refusals::{ABSENT, BUFFER, OK, STATES, UNSOUND};
use juntreak_tests::header::whole_words;
use juntreak_tests::library::{verdicts, TableBytes};
use juntreak_tests::model::{self, Node, Rule, Table};
use juntreak_tests::random::{any_table, asked, quiet, quiet_trace, table, trace, turning, words, Random};
use juntreak_tests::same;

/// One call over dirty buffers of the given lengths, every word compared; returns the number and out.
fn compare(r: &mut Random, bytes: &TableBytes, rule: u32, states: &[u32], scratch: usize, out: usize) -> (u32, Vec<u64>) {
    let (mut scratch, mut out) = (words(r, scratch), words(r, out));
    let (mut scratch_wanted, mut out_wanted) = (scratch.clone(), out.clone());
    let number = verdicts(bytes, rule, states, &mut scratch, &mut out);
    let wanted = model::whole(bytes, rule, states, &mut scratch_wanted, &mut out_wanted);
    assert_eq!(number, wanted);
    same("scratch", &scratch, &scratch_wanted);
    same("out", &out, &out_wanted);
    if number == OK {
        assert!(scratch[..SCRATCH_WORDS].iter().all(|w| *w == 0));
    }
    (number, out)
}

/// An accepted call whose buffers are now and then longer than needed; returns the verdicts.
fn accepted(r: &mut Random, t: &Table, rule: usize, states: &[u32]) -> Vec<bool> {
    let scratch = SCRATCH_WORDS + r.pick(&[0, 0, 1, 9]);
    let out = whole_words(states.len()) + r.pick(&[0, 1, 5]);
    let (number, out) = compare(r, &t.bytes(), rule as u32, states, scratch, out);
    assert_eq!(number, OK);
    (0..states.len()).map(|i| out[i / 64] >> (i % 64) & 1 == 1).collect()
}

#[test]
fn random_tables_on_short_traces() {
    let mut r = Random(11);
    let (mut yes, mut no) = (0u64, 0u64);
    for _ in 0..6_000 {
        let count = r.below(MAX_NODES as u64) as usize + 1;
        let count = r.pick(&[count, count, 1, MAX_NODES, count.min(6), count.min(6)]);
        let longest = r.pick(&[MAX_DELAY, MAX_DELAY, 300, 70, 9, 0]);
        let t = any_table(&mut r, count, longest);
        let n = r.below(200) as usize;
        let n = r.pick(&[n, n, n.min(130), n.min(20), 0, 1, 63, 64, 65, 127, 128, 129]);
        let states = trace(&mut r, n);
        let rule = r.below(t.rules.len() as u64) as usize;
        let got = accepted(&mut r, &t, rule, &states);
        let naive = t.verdicts(t.rules[rule].watched as usize, &states);
        assert!(got == naive, "{t:?} rule {rule} {states:?}");
        for v in naive {
            *(if v { &mut yes } else { &mut no }) += 1;
        }
    }
    assert!(yes > 10_000 && no > 10_000, "{yes} {no}");
}

#[test]
fn random_tables_on_long_traces() {
    let mut r = Random(12);
    for round in 0..600 {
        let count = if round % 10 == 0 { MAX_NODES } else { 1 + r.below(8) as usize };
        let longest = r.pick(&[MAX_DELAY, MAX_DELAY, 1000, 300]);
        let t = any_table(&mut r, count, longest);
        let n = 200 + r.below(MAX_TRACE as u64 - 199) as usize;
        let n = r.pick(&[n, n, MAX_TRACE, MAX_TRACE - 1, MAX_TRACE - 63, MAX_TRACE - 64, 4096, 4095, 1024]);
        let states = trace(&mut r, n);
        for rule in 0..t.rules.len().min(3) {
            accepted(&mut r, &t, rule, &states);
        }
    }
    // The naive evaluator on long traces: few nodes, windows of at most 300 ticks.
    for _ in 0..40 {
        let count = 1 + r.below(4) as usize;
        let t = table(&mut r, count, 300);
        let n = r.pick(&[MAX_TRACE, MAX_TRACE - 1, 4097, 2000]);
        let states = trace(&mut r, n);
        let got = accepted(&mut r, &t, 0, &states);
        assert!(got == t.verdicts(t.rules[0].watched as usize, &states), "{t:?}");
    }
}

/// Each temporal kind at chosen limits: word limits, single points, the longest intervals.
#[test]
fn intervals_at_the_limits() {
    let mut r = Random(13);
    const LONGEST: u16 = MAX_INTERVAL as u16;
    let limits = [0, 1, 2, 31, 32, 62, 63, 64, 65, 127, 128, 129, 1023, 1024, 4032, 4084, LONGEST - 1, LONGEST];
    for kind in 7..=10 {
        for lo in limits {
            for hi in limits {
                if lo > hi {
                    continue;
                }
                let t = temporal(kind, lo, hi);
                let wide = r.below(MAX_TRACE as u64 + 1) as usize;
                for n in [0, 1, 64, 200, wide, MAX_TRACE] {
                    let states = trace(&mut r, n);
                    let got = accepted(&mut r, &t, 0, &states);
                    if n <= 200 {
                        assert!(got == t.verdicts(2, &states), "{t:?}");
                    }
                }
            }
        }
    }
}

/// How the verdicts of one kind were decided.
#[derive(Debug, Default)]
struct Decided {
    yes: u64,
    no: u64,
    /// By a tick more than 1,000 ticks after the start of the window.
    far: u64,
    /// Of those, by the last tick: a window one tick shorter has the other verdict.
    last: u64,
    /// By none of more than 1,000 ticks.
    none: u64,
    /// Of those, where a window one tick longer has the other verdict.
    beyond: u64,
}

impl Decided {
    fn count(&mut self, kind: u8, (lo, hi): (usize, usize), states: &[u32], got: &[bool]) {
        let n = states.len();
        let changed = |i: usize, signals: u32| (states[i] ^ quiet(kind)) & signals != 0;
        // For each tick the first one at or after it that ends a search.
        let mut ends = vec![n; n + 1];
        for i in (0..n).rev() {
            ends[i] = if changed(i, 1 | turning(kind)) { i } else { ends[i + 1] };
        }
        for t in 0..n {
            let (from, to) = (t + lo, t + hi);
            let (end, last) = (ends[from.min(n)], to.min(n - 1));
            let far = from + 1_000 < end && end <= last;
            let none = from + 1_000 <= last && last < end;
            let turned_at = |i: usize| i < n && i == end && changed(i, turning(kind));
            *(if got[t] { &mut self.yes } else { &mut self.no }) += 1;
            self.far += far as u64;
            self.last += (far && turned_at(to)) as u64;
            self.none += none as u64;
            self.beyond += (none && turned_at(to + 1)) as u64;
        }
    }
}

/// Windows that end 1,000 to 4,095 ticks ahead, against the naive evaluator, on traces where many of them are searched far or to their end.
#[test]
fn long_windows() {
    let mut r = Random(17);
    for kind in 7..=10 {
        let mut decided = Decided::default();
        let mut tops = vec![1000, 1023, 1024, 2047, 2048, 4084, MAX_INTERVAL - 1, MAX_INTERVAL];
        tops.extend((0..20).map(|_| 1000 + r.below(MAX_INTERVAL as u64 - 999) as usize));
        for hi in tops {
            for lo in [0, 1, r.below(hi as u64 + 1) as usize, hi - 1, hi] {
                let t = temporal(kind, lo as u16, hi as u16);
                let wide = hi + r.below((MAX_TRACE + 1 - hi) as u64) as usize;
                let short = 1 + r.below(hi as u64) as usize;
                for n in [MAX_TRACE, MAX_TRACE - 1, wide, hi + 1, hi, short, lo + 2, lo + 1] {
                    let mut states = quiet_trace(&mut r, kind, n);
                    if n > hi + 1 && r.chance(2) {
                        // One tick that is the last of a window and behind the window before it, with nothing else in the two.
                        let last = hi + 1 + r.below((n - hi - 1) as u64) as usize;
                        for x in &mut states[last + lo - hi - 1..=last] {
                            *x = (*x & !3) | quiet(kind);
                        }
                        states[last] ^= r.pick(&[turning(kind), 3]);
                    }
                    let got = accepted(&mut r, &t, 0, &states);
                    assert!(got == t.verdicts(2, &states), "kind {kind} lo {lo} hi {hi} n {n}");
                    decided.count(kind, (lo, hi), &states, &got);
                }
            }
        }
        let Decided { yes, no, far, last, none, beyond } = decided;
        assert!(yes.min(no) > 100_000 && far.min(none) > 100_000 && last.min(beyond) > 100, "kind {kind}: {decided:?}");
    }
}

#[test]
fn the_two_evaluators_agree() {
    let mut r = Random(14);
    for _ in 0..2_000 {
        let count = 1 + r.below(30) as usize;
        let longest = r.pick(&[MAX_DELAY, 300, 70, 9]);
        let t = any_table(&mut r, count, longest);
        let n = r.below(120) as usize;
        let states = trace(&mut r, n);
        assert_eq!(t.verdicts(count - 1, &states), t.quick(count - 1, &states), "{t:?} {states:?}");
    }
}

#[test]
fn refusals_and_their_order() {
    let mut r = Random(15);
    for _ in 0..40 {
        for case in 0..32u32 {
            let is = |bit: u32| case >> bit & 1 == 1;
            let (bytes, rule) = asked(&mut r, is(0), is(1));
            let few = r.below(300) as usize;
            let n = if is(2) { r.pick(&[MAX_TRACE + 1, MAX_TRACE + 2, 6000]) } else { r.pick(&[0, 1, few, few, MAX_TRACE]) };
            let scratch = if is(3) { r.pick(&[0, 1, SCRATCH_WORDS - 1]) } else { SCRATCH_WORDS };
            let needed = whole_words(n);
            // No length of out is too short for no states.
            let out = if is(4) { r.pick(&[0, needed.saturating_sub(1)]) } else { needed };
            let states = trace(&mut r, n);
            let (number, _) = compare(&mut r, &bytes, rule, &states, scratch, out);
            let wanted = if is(0) {
                UNSOUND
            } else if is(1) {
                ABSENT
            } else if is(2) {
                STATES
            } else if is(3) || out < needed {
                BUFFER
            } else {
                OK
            };
            assert_eq!(number, wanted);
        }
    }
}

#[test]
fn worked_rows() {
    let mut r = Random(16);
    let states = [2, 2, 1, 0, 2, 3, 0, 0];
    // Places: 0 is p, 1 is q, 2 is true, 3 is false.
    let rows: [(u8, u16, u16, u8, u8, &str); 7] = [
        (7, 1, 3, 0, 0, "11111000"),
        (8, 1, 2, 1, 0, "00010001"),
        (9, 0, 3, 1, 0, "11101100"),
        (9, 2, 2, 0, 1, "00110000"),
        (10, 0, 1, 1, 0, "00000100"),
        (7, 2, 3, 2, 0, "11111100"),
        (8, 2, 3, 3, 0, "00000011"),
    ];
    for (kind, lo, hi, left, right, row) in rows {
        let leaf = |kind, arg| Node { kind, arg, lo: 0, hi: 0, left: 0, right: 0 };
        let node = Node { kind, arg: 0, lo, hi, left, right };
        let t = Table { nodes: vec![leaf(1, 0), leaf(1, 1), leaf(2, 0), leaf(3, 0), node], rules: vec![Rule { name: 1, watched: 4 }] };
        let text = |v: Vec<bool>| -> String { v.iter().map(|x| if *x { '1' } else { '0' }).collect() };
        assert_eq!(text(accepted(&mut r, &t, 0, &states)), row);
        assert_eq!(text(t.verdicts(4, &states)), row);
        assert_eq!(text(t.quick(4, &states)), row);
    }
}
