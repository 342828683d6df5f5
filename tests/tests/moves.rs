//! The shorter splitting (A7): what `juntreak_moves` answers; that no list of moves is shorter; and windows of F and G of every length, whose verdicts,
//! early answers too, are known from where the signal changes.
use juntreak_tests::bench::runs::{Buffers, Proved, Sessions, Twin};
use juntreak_tests::compared::{bits, packed};
use juntreak_tests::formulas::temporal;
use juntreak_tests::header::limits::{EARLY_SCRATCH_WORDS, MAX_BLOCK, MAX_INTERVAL, MAX_TRACE, SCRATCH_WORDS};
use juntreak_tests::header::refusals::{INTERVAL, OK};
use juntreak_tests::header::values::{NO, OPEN, YES};
use juntreak_tests::header::whole_words;
use juntreak_tests::library::{self, early, moves, TableBytes};
use juntreak_tests::model::{self, Doubling};
use juntreak_tests::random::{words, Random};
use juntreak_tests::twin;

const LONGEST: u16 = MAX_INTERVAL as u16;

/// The number and what stands above it in an answer.
fn answered(lo: u16, hi: u16) -> (u32, Doubling) {
    let answer = moves(lo, hi);
    let byte = |i: u32| (answer / 256u64.pow(i) % 256) as u32;
    assert_eq!(byte(3), 0, "the count has two bytes, of which one is used");
    (byte(0), Doubling { exponent: byte(1), count: byte(2), leftover: (answer / 2u64.pow(32)) as u32 })
}

#[test]
fn every_length_is_answered() {
    for v in 0..=LONGEST {
        let want = model::doubling(v.into());
        let power = 2u32.pow(want.exponent);
        assert!(power <= u32::from(v) + 1 && u32::from(v) + 1 < 2 * power && power + want.leftover == u32::from(v) + 1);
        for lo in [0, 1.min(LONGEST - v), (LONGEST - v) / 2, LONGEST - v] {
            let (number, got) = answered(lo, lo + v);
            assert_eq!((number, &got), (OK, &want), "[{lo},{}]", lo + v);
        }
    }
}

/// Every interval is refused or not as a splitting is, and a refused one is answered with the number alone.
#[test]
fn refused_intervals() {
    let mut r = Random(71);
    let mut refused = 0;
    for _ in 0..200_000 {
        let near = [0, 1, LONGEST - 1, LONGEST, LONGEST + 1, u16::MAX, r.next() as u16, r.below(5000) as u16];
        let (lo, hi) = (r.pick(&near), r.pick(&near));
        if lo > hi || hi > LONGEST {
            assert_eq!(moves(lo, hi), INTERVAL.into(), "[{lo},{hi}]");
            refused += 1;
        } else {
            assert_eq!(answered(lo, hi), (OK, model::doubling((hi - lo).into())), "[{lo},{hi}]");
        }
    }
    assert!(100_000 < refused && refused < 190_000, "{refused}");
}

/// Whether some list of so many moves ends at the offsets 0 to m - 1, from results whose offsets are the bits of these sets. A set is moved so that it
/// begins at bit 0: where it begins is up to the moves that use it. One that is longer than m is of no use.
fn ends_in(steps: u32, m: u32, results: &mut Vec<u64>) -> bool {
    let target = (1 << m) - 1;
    if results.last() == Some(&target) {
        return true;
    }
    if steps == 0 {
        return false;
    }
    for i in 0..results.len() {
        for j in 0..results.len() {
            for by in 0..m {
                let joined = results[i] | results[j] << by;
                if joined <= target {
                    results.push(joined);
                    if ends_in(steps - 1, m, results) {
                        return true;
                    }
                    results.pop();
                }
            }
        }
    }
    false
}

/// All lists of moves are tried, one more move at a time, until one ends at the length.
#[test]
fn no_list_is_shorter() {
    for m in 1..=12 {
        let fewest = (0..).find(|steps| ends_in(*steps, m, &mut vec![1])).unwrap();
        let (number, got) = answered(0, m as u16 - 1);
        assert_eq!((number, got.count), (OK, fewest), "length {m}");
    }
}

/// F or G over an interval, and a trace in which the signal changes now and then for one tick, so that ends of windows lie there and there alone.
struct Window {
    kind: u8,
    lo: usize,
    hi: usize,
    /// Whether the signal is other than in most states: set for F, clear for G.
    changed: Vec<bool>,
    /// How many changed states there are before each tick.
    before: Vec<usize>,
}

impl Window {
    fn new(r: &mut Random, kind: u8, v: usize, n: usize) -> Window {
        let lo = r.below((MAX_INTERVAL - v) as u64 + 1) as usize;
        let lo = r.pick(&[0, 0, lo.min(70), lo]);
        let mut changed = vec![false; n];
        let mut at = r.below(v as u64 + 2) as usize;
        while at < n {
            changed[at] = true;
            at += 1 + r.below(2 * v as u64 + 3) as usize;
        }
        let mut before = vec![0; n + 1];
        for t in 0..n {
            before[t + 1] = before[t] + usize::from(changed[t]);
        }
        Window { kind, lo, hi: lo + v, changed, before }
    }

    fn table(&self) -> TableBytes {
        temporal(self.kind, self.lo as u16, self.hi as u16).bytes()
    }

    fn states(&self) -> Vec<u32> {
        self.changed.iter().map(|changed| u32::from(*changed != (self.kind == 8))).collect()
    }

    /// Whether the signal changes in the part of the window of t that lies in the trace.
    fn changes(&self, t: usize) -> bool {
        let n = self.changed.len();
        self.before[(t + self.lo).min(n)] < self.before[(t + self.hi + 1).min(n)]
    }

    fn verdict(&self, t: usize) -> bool {
        self.changes(t) == (self.kind == 7)
    }

    fn verdicts(&self) -> Vec<bool> {
        (0..self.changed.len()).map(|t| self.verdict(t)).collect()
    }

    /// A change decides; else all of the window has to be seen.
    fn known(&self, t: usize) -> u32 {
        if !self.changes(t) && t + self.hi >= self.changed.len() {
            return OPEN;
        }
        if self.verdict(t) { YES } else { NO }
    }
}

/// The verdicts of a session fed blocks of these lengths, and closed.
fn streamed<S: Sessions>(table: &TableBytes, states: &[u32], blocks: &[usize]) -> Vec<bool> {
    let (mut session, mut b, mut got) = (S::open(table), Buffers::default(), vec![]);
    let mut rest = states;
    for k in blocks.iter().cycle() {
        let (block, later) = rest.split_at(rest.len().min(*k));
        let count = S::feed(&mut session, block, &mut b);
        got.extend(bits(&b.out, count));
        rest = later;
        if rest.is_empty() {
            break;
        }
    }
    let count = S::close(&mut session, &mut b);
    got.extend(bits(&b.out, count));
    got
}

/// F and G with every length, on whole traces and in sessions, the twin too, which runs the same moves.
#[test]
fn windows_of_every_length() {
    let mut r = Random(72);
    let (mut yes, mut no) = (0, 0);
    for v in 0..=MAX_INTERVAL {
        for kind in [7, 8] {
            let n = r.below(MAX_TRACE as u64 + 1) as usize;
            let n = r.pick(&[MAX_TRACE, MAX_TRACE, n, (v + 1).min(n)]);
            let w = Window::new(&mut r, kind, v, n);
            let (table, states, want) = (w.table(), w.states(), w.verdicts());
            for call in [library::verdicts, twin::verdicts] {
                let (mut scratch, mut out) = (words(&mut r, SCRATCH_WORDS), words(&mut r, whole_words(n) + 1));
                let wanted = packed(&want, &out);
                assert_eq!(call(&table, 0, &states, &mut scratch, &mut out), OK);
                assert!(out == wanted && scratch.iter().all(|word| *word == 0), "kind {kind} [{},{}]", w.lo, w.hi);
            }
            let blocks = [MAX_BLOCK, 1 + r.below(MAX_BLOCK as u64) as usize];
            assert!(streamed::<Proved>(&table, &states, &blocks) == want, "kind {kind} [{},{}] in blocks", w.lo, w.hi);
            assert!(streamed::<Twin>(&table, &states, &blocks) == want, "the twin, kind {kind} [{},{}] in blocks", w.lo, w.hi);
            want.iter().for_each(|verdict| *(if *verdict { &mut yes } else { &mut no }) += 1);
        }
    }
    assert!(yes > 1_000_000 && no > 1_000_000, "{yes} {no}");
}

/// What is known early of such windows: at ticks whose windows lie in the states seen, or end just behind them, and at others.
#[test]
fn known_of_every_length() {
    let mut r = Random(73);
    let mut count = [0; 3];
    for v in 0..=MAX_INTERVAL {
        for kind in [7, 8] {
            let w = Window::new(&mut r, kind, v, MAX_TRACE);
            let (table, states) = (w.table(), w.states());
            let last = MAX_TRACE - 1;
            for t in [last - w.hi, (last - w.hi + 1).min(last), r.below(MAX_TRACE as u64) as usize, r.below((MAX_TRACE - w.hi) as u64) as usize] {
                let mut scratch = words(&mut r, EARLY_SCRATCH_WORDS);
                let (number, value) = early(&table, 0, &states, t, &mut scratch);
                assert_eq!((number, value), (OK, w.known(t)), "kind {kind} [{},{}] at {t}", w.lo, w.hi);
                assert!(scratch.iter().all(|word| *word == 0));
                count[value as usize] += 1;
            }
        }
    }
    assert!(count.iter().all(|c| *c > 1_000), "{count:?}");
}
