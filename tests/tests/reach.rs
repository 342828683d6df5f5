//! How far one bad reading reaches (A8): what `juntreak_reach` answers, against the model; and, by brute force, that no verdict outside its range
//! changes with the state of one tick, whatever that state is.
use juntreak_tests::compared::bits;
use juntreak_tests::formulas::{temporal, Formula};
use juntreak_tests::header::limits::{MAX_DELAY, MAX_NODES, MAX_RULES, MAX_SEEN, SCRATCH_WORDS, TABLE_BYTES};
use juntreak_tests::header::refusals::{ABSENT, BEYOND, OK, UNSOUND};
use juntreak_tests::header::{whole_words, NUMBERS};
use juntreak_tests::library::{reach, simplify, verdicts, TableBytes};
use juntreak_tests::model::{sound, Rule, Table};
use juntreak_tests::random::{any_count, any_table, asked, damaged_table, redundant, table, trace, words, Random};
use juntreak_tests::reached::{self, near, RANGE};
use juntreak_tests::{only_read, same};

/// One call, compared with the model's; the two words lie between others that are not lent. Returns the answer and the words.
fn call(r: &mut Random, bytes: &TableBytes, rule: u32, n: u64, s: u64) -> (u32, [u64; 2]) {
    const AROUND: usize = 3;
    let around = words(r, AROUND + 2 + AROUND);
    let (mut lent, mut wanted) = (around.clone(), [around[AROUND], around[AROUND + 1]]);
    let answer = reached::reach(bytes, rule, n, s, &mut wanted);
    let place = AROUND..AROUND + 2;
    let got = only_read("table", bytes, |bytes| reach(bytes.try_into().unwrap(), rule, n, s, (&mut lent[place]).try_into().unwrap()));
    assert_eq!(got, answer, "{:?} rule {rule}, tick {s} of {n}", sound(bytes));
    same("range, from -3 on", &lent, &[&around[..AROUND], &wanted, &around[AROUND + 2..]].concat());
    (got, wanted)
}

/// The range that the library answers for a sound table and a tick of the mission.
fn range(r: &mut Random, bytes: &TableBytes, rule: usize, n: usize, s: usize) -> Option<(usize, usize)> {
    let (answer, [first, last]) = call(r, bytes, rule as u32, n as u64, s as u64);
    assert_eq!(answer % RANGE, OK);
    (answer == RANGE).then_some((first as usize, last as usize))
}

// ---- the call

/// Every set of rows that fit at once.
#[test]
fn refusals_and_their_order() {
    let mut r = Random(81);
    for _ in 0..300 {
        for case in 0..8u32 {
            let is = |bit: u32| case >> bit & 1 == 1;
            let (bytes, rule) = asked(&mut r, is(0), is(1));
            let n = any_count(&mut r);
            let n = if is(2) { n } else { n.max(1) };
            let beyond = r.pick(&[0, 0, 1, 64, u64::MAX]);
            let s = if is(2) { n.saturating_add(beyond) } else { r.pick(&[0, n / 2, n - 1, n - 1]) };
            let (answer, _) = call(&mut r, &bytes, rule, n, s);
            let wanted = [UNSOUND, ABSENT, BEYOND].into_iter().enumerate().find(|(bit, _)| is(*bit as u32)).map_or(OK, |row| row.1);
            assert!(answer % RANGE == wanted && (wanted == OK || answer < RANGE));
        }
    }
}

/// The tick at the mission's length, up to 64 bits.
#[test]
fn limits() {
    let mut r = Random(82);
    let t = table(&mut r, 12, 300);
    let (bytes, rules) = (t.bytes(), t.rules.len() as u32);
    let mut number = |rule, n: u64, s: u64| call(&mut r, &bytes, rule, n, s).0 % RANGE;
    assert_eq!([number(rules - 1, 9, 0), number(rules, 9, 0), number(u32::MAX, 9, 9)], [OK, ABSENT, ABSENT]);
    for n in [1, 2, 64, 5120, 1 << 32, 1 << 63, u64::MAX] {
        assert_eq!([number(0, n, n - 1), number(0, n, n)], [OK, BEYOND]);
    }
    assert_eq!([number(0, 0, 0), number(0, 0, u64::MAX), number(0, 5, u64::MAX), number(0, MAX_SEEN as u64, u64::MAX)], [BEYOND; 4]);
}

/// Every rule of tables with up to 64 nodes and delays up to the longest; ticks beside those where a range begins, and where its front is cut no more.
#[test]
fn ranges_of_any_table() {
    let mut r = Random(83);
    let (mut empty, mut cut, mut whole, mut single) = (0, 0, 0, 0);
    for _ in 0..1_500 {
        let count = 1 + r.below(MAX_NODES as u64) as usize;
        let longest = r.pick(&[MAX_DELAY, MAX_DELAY, 300, 9]);
        let t = any_table(&mut r, count, longest);
        let bytes = t.bytes();
        for rule in 0..t.rules.len() {
            let (delay, near) = (t.rule_delay(rule) as u64, near(&t, rule) as u64);
            assert!(near <= delay);
            let n = any_count(&mut r).max(delay + 2);
            for s in [0, near.saturating_sub(1), near, near + 1, delay.saturating_sub(1), delay, delay + 1, n - 1] {
                let (answer, words) = call(&mut r, &bytes, rule as u32, n, s);
                match answer {
                    OK => empty += 1,
                    RANGE if s < delay => cut += 1,
                    RANGE if words[0] < words[1] => whole += 1,
                    _ => single += 1,
                }
            }
        }
    }
    assert!([empty, cut, whole, single].iter().all(|count| *count > 2_000), "{empty} {cut} {whole} {single}");
}

#[test]
fn damaged_tables() {
    let mut r = Random(84);
    let mut seen = [0u32; NUMBERS];
    for _ in 0..20_000 {
        let count = 1 + r.below(MAX_NODES as u64) as usize;
        let t = table(&mut r, count, 300);
        let bytes = damaged_table(&mut r, &t);
        let (rule, n, s) = (r.below(3) as u32, r.below(400), r.below(400));
        seen[(call(&mut r, &bytes, rule, n, s).0 % RANGE) as usize] += 1;
    }
    assert!([OK, UNSOUND, ABSENT, BEYOND].iter().all(|number| seen[*number as usize] > 100), "{seen:?}");
    assert_eq!(call(&mut r, &[0; TABLE_BYTES], 0, 1, 0).0, UNSOUND);
}

// ---- brute force

/// The signals that a node needs, as the bits of a state.
fn signals(t: &Table, place: usize) -> u32 {
    let n = &t.nodes[place];
    let of = |p: u8| signals(t, p as usize);
    match n.kind {
        1 => 1 << n.arg,
        2 | 3 => 0,
        4 | 7 | 8 => of(n.left),
        _ => of(n.left) | of(n.right),
    }
}

/// Every way to change a state in these signals: each set of their bits but the empty one.
fn changes(signals: u32) -> Vec<u32> {
    let mut out = vec![];
    let mut change = signals;
    while change != 0 {
        out.push(change);
        change = (change - 1) & signals;
    }
    out
}

/// Whether a change was seen to change the verdict at the first tick of a range that is not cut, and at the last one.
#[derive(Clone, Copy, Default)]
struct Ends {
    first: bool,
    last: bool,
}

impl Ends {
    fn join(&mut self, other: Ends) {
        self.first |= other.first;
        self.last |= other.last;
    }
}

/// Changes each state of a trace in every way that the signals allow, and holds the verdicts beside those before. `range` answers for each tick.
fn change_all(t: &Table, rule: usize, states: &[u32], range: &mut dyn FnMut(usize) -> Option<(usize, usize)>) -> Ends {
    let place = t.rules[rule].watched as usize;
    let before = t.quick(place, states);
    let (mut ends, changes) = (Ends::default(), changes(signals(t, place)));
    for s in 0..states.len() {
        let told = range(s);
        for change in &changes {
            let mut other = states.to_vec();
            other[s] ^= change;
            let after = t.quick(place, &other);
            for i in (0..states.len()).filter(|i| before[*i] != after[*i]) {
                let (first, last) = told.unwrap_or_else(|| panic!("{t:?} {states:?}: tick {i} changes with {s}, the range is empty"));
                assert!(first <= i && i <= last, "{t:?} {states:?}: tick {i} changes with {s}, beside {first} to {last}");
                ends.join(Ends { first: i == first && s >= t.rule_delay(rule) as usize, last: i == last });
            }
        }
    }
    ends
}

/// Signals 0 to 2 alone, so that a state has few changes.
fn three_signals(t: &mut Table) {
    t.nodes.iter_mut().filter(|n| n.kind == 1).for_each(|n| n.arg %= 3);
}

/// Random tables, and the same simplified: outside the range nothing changes. How often the two ends of the range are attained at least once, over the
/// rules that have a signal and a range within the traces.
#[test]
fn nothing_outside_changes() {
    let mut r = Random(85);
    let (mut rules, mut first, mut last, mut both) = (0, 0, 0, 0);
    for _ in 0..6_000 {
        let count = 1 + r.below(10) as usize;
        let longest = r.pick(&[4, 9, 16]);
        let mut t = any_table(&mut r, count, longest);
        three_signals(&mut t);
        let simplified = r.chance(2);
        let mut bytes = t.bytes();
        if simplified {
            assert_eq!(simplify(&mut bytes), OK);
            t = sound(&bytes).unwrap();
        }
        let rule = r.below(t.rules.len() as u64) as usize;
        let mut ends = Ends::default();
        for _ in 0..40 {
            let n = r.pick(&[1, 2, 9, 26]);
            let states = trace(&mut r, n);
            ends.join(change_all(&t, rule, &states, &mut |s| range(&mut r, &bytes, rule, n, s)));
        }
        if simplified && signals(&t, t.rules[rule].watched as usize) != 0 {
            rules += 1;
            first += u32::from(ends.first);
            last += u32::from(ends.last);
            both += u32::from(ends.first && ends.last);
        }
    }
    println!("of {rules} rules of simplified tables: first {first}, last {last}, both {both}");
    assert!(rules > 1_500 && both * 10 > rules * 8, "{rules} {first} {last} {both}");
}

/// What the library says of a trace.
fn library_verdicts(bytes: &TableBytes, states: &[u32], scratch: &mut [u64]) -> Vec<bool> {
    let mut out = vec![0; whole_words(states.len())];
    assert_eq!(verdicts(bytes, 0, states, scratch, &mut out), OK);
    bits(&out, states.len() as u32)
}

/// All traces of two signals of up to `length` states, each state changed in every way, with the verdicts of the library.
fn all_traces(t: &Table, length: u32) -> Ends {
    let (bytes, delay, mut scratch, mut r) = (t.bytes(), t.rule_delay(0) as usize, vec![0; SCRATCH_WORDS], Random(86));
    let mut ends = Ends::default();
    for n in 1..=length {
        let told: Vec<_> = (0..n as usize).map(|s| range(&mut r, &bytes, 0, n as usize, s)).collect();
        let of = |trace: u32| -> Vec<u32> { (0..n).map(|i| trace >> (2 * i) & 3).collect() };
        let rows: Vec<Vec<bool>> = (0..4u32.pow(n)).map(|trace| library_verdicts(&bytes, &of(trace), &mut scratch)).collect();
        for trace in 0..4u32.pow(n) {
            for (s, change) in (0..n as usize).flat_map(|s| [1, 2, 3].map(|change| (s, change))) {
                let (before, after) = (&rows[trace as usize], &rows[(trace ^ change << (2 * s)) as usize]);
                for i in (0..n as usize).filter(|i| before[*i] != after[*i]) {
                    let inside = told[s].filter(|(first, last)| *first <= i && i <= *last);
                    let (first, last) = inside.unwrap_or_else(|| panic!("{t:?} {:?}: tick {i} changes with {s}", of(trace)));
                    ends.join(Ends { first: i == first && s >= delay, last: i == last });
                }
            }
        }
    }
    ends
}

/// Each temporal kind alone: both ends of its range are attained.
#[test]
fn single_operators_attain_both_ends() {
    for kind in 7..=10 {
        for (lo, hi) in [(0, 0), (0, 1), (0, 3), (1, 1), (1, 3), (2, 2), (2, 3), (3, 3)] {
            let ends = all_traces(&temporal(kind, lo, hi), 6);
            assert!(ends.first && ends.last, "kind {kind} [{lo},{hi}]");
        }
    }
}

/// One operator within another, on either side of U. What ends are attained was worked by hand.
#[test]
fn nested_operators() {
    let with = |build: &dyn Fn(&mut Formula, u8, u8)| {
        let mut f = Formula::default();
        let (p, q) = (f.signal(0), f.signal(1));
        build(&mut f, p, q);
        let ends = all_traces(&f.table(), 6);
        (ends.first, ends.last)
    };
    // (F[1,2] p) U[1,2] q, from tick 1 (q) to tick 3 (F p, one tick before the end)
    let left = with(&|f, p, q| {
        let a = f.finally(1, 2, p);
        f.until(1, 2, a, q);
    });
    // p U[1,2] (G[1,2] q), from tick 1 (p) to tick 4 (G q)
    let right = with(&|f, p, q| {
        let b = f.globally(1, 2, q);
        f.until(1, 2, p, b);
    });
    // (F[1,3] p) U[2,2] q: at a single tick the left operand is not read
    let point = with(&|f, p, q| {
        let a = f.finally(1, 3, p);
        f.until(2, 2, a, q);
    });
    assert_eq!([left, right, point], [(true, true); 3]);
    // q U[2,2] F[1,2] p: the near distance counts q, which is not read, so that its last tick is never attained
    let unread = with(&|f, p, q| {
        let b = f.finally(1, 2, p);
        f.until(2, 2, q, b);
    });
    // p | !p: no verdict changes
    let tautology = with(&|f, p, _| {
        let n = f.not(p);
        f.or(p, n);
    });
    assert_eq!([unread, tautology], [(true, false), (false, false)]);
}

// ---- simplified tables

/// What the simplifier does to a range: where a constant goes from beside a formula the near distance grows, and where a formula becomes a constant it
/// falls.
#[test]
fn the_simplifier_changes_ranges() {
    let mut r = Random(87);
    let mut ranges = |build: &dyn Fn(&mut Formula)| {
        let mut f = Formula::default();
        build(&mut f);
        let mut bytes = f.table().bytes();
        let read = range(&mut r, &bytes, 0, 20, 9);
        assert_eq!(simplify(&mut bytes), OK);
        [read, range(&mut r, &bytes, 0, 20, 9)]
    };
    // F[2,3] s0 & true
    let beside = ranges(&|f| {
        let p = f.signal(0);
        let (a, b) = (f.finally(2, 3, p), f.constant(true));
        f.and(a, b);
    });
    // F[2,3] false
    let constant = ranges(&|f| {
        let a = f.constant(false);
        f.finally(2, 3, a);
    });
    assert_eq!([beside, constant], [[Some((6, 9)), Some((6, 7))], [Some((6, 7)), Some((9, 9))]]);
}

/// The range of a simplified table holds for the table as it was.
#[test]
fn ranges_of_simplified_tables() {
    let mut r = Random(88);
    let (mut kept, mut grown, mut fallen) = (0, 0, 0);
    for _ in 0..8_000 {
        let count = 2 + r.below(10) as usize;
        let mut t = redundant(&mut r, count, 9);
        three_signals(&mut t);
        let mut bytes = t.bytes();
        assert_eq!(simplify(&mut bytes), OK);
        let simplified = sound(&bytes).unwrap();
        for rule in 0..t.rules.len().min(2) {
            for _ in 0..3 {
                let states = trace(&mut r, 20);
                change_all(&t, rule, &states, &mut |s| range(&mut r, &bytes, rule, 20, s));
            }
            match near(&simplified, rule).cmp(&near(&t, rule)) {
                std::cmp::Ordering::Equal => kept += 1,
                std::cmp::Ordering::Greater => grown += 1,
                std::cmp::Ordering::Less => fallen += 1,
            }
        }
    }
    println!("near distances kept {kept}, grown {grown}, fallen {fallen}");
    assert!([kept, grown, fallen].iter().all(|count| *count > 100), "{kept} {grown} {fallen}");
}

/// Every rule of a table has its own range.
#[test]
fn each_rule_has_its_own() {
    let mut r = Random(89);
    let mut f = Formula::default();
    let p = f.signal(0);
    (0..MAX_RULES as u16).for_each(|i| {
        f.finally(i, 3 * i + 1, p);
    });
    let mut t = f.table();
    t.rules = (0..MAX_RULES as u8).map(|i| Rule { name: 1 + i as u16, watched: 1 + i }).collect();
    for rule in 0..MAX_RULES {
        assert_eq!(range(&mut r, &t.bytes(), rule, 1_000, 500), Some((500 - 3 * rule - 1, 500 - rule)));
    }
}
