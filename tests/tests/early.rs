//! Early answers, against the naive three-valued evaluator and against the verdicts of every continuation.
use juntreak_tests::formulas::temporal;
use juntreak_tests::header::limits::{EARLY_SCRATCH_WORDS, MAX_DELAY, MAX_INTERVAL, MAX_NODES, MAX_RULES, MAX_TRACE, SCRATCH_WORDS, TABLE_BYTES};
use juntreak_tests::header::refusals::{ABSENT, BUFFER, OK, STATES, TICK, UNSOUND};
use juntreak_tests::header::values::{NO, OPEN, YES};
use juntreak_tests::header::NUMBERS;
use juntreak_tests::known::{self, column, known};
use juntreak_tests::library::{early, TableBytes};
use juntreak_tests::model::{Node, Rule, Table};
use juntreak_tests::random::{any_table, asked, damaged_table, quiet, quiet_trace, table, trace, turning, words, Random};
use juntreak_tests::{only_read, same};

/// Dirty scratch for accepted calls, now and then longer than needed.
struct Scratch {
    dirty: Vec<u64>,
    cleared: Vec<u64>,
    lent: Vec<u64>,
}

impl Scratch {
    fn new(r: &mut Random) -> Scratch {
        let length = EARLY_SCRATCH_WORDS + r.pick(&[0, 1, 9, 80]);
        let dirty = words(r, length);
        let mut cleared = dirty.clone();
        cleared[..EARLY_SCRATCH_WORDS].fill(0);
        Scratch { lent: dirty.clone(), dirty, cleared }
    }

    /// The value of an accepted call on dirty scratch, every word compared.
    fn ask(&mut self, bytes: &TableBytes, rule: usize, states: &[u32], tick: usize) -> u32 {
        self.lent.copy_from_slice(&self.dirty);
        let (number, value) = early(bytes, rule as u32, states, tick, &mut self.lent);
        assert_eq!(number, OK);
        if self.lent != self.cleared {
            same("scratch", &self.lent, &self.cleared);
        }
        value
    }
}

/// How often each value was answered.
#[derive(Debug, Default)]
struct Count([u64; 3]);

impl Count {
    fn add(&mut self, value: u32) {
        self.0[value as usize] += 1;
    }

    fn least(&self) -> u64 {
        *self.0.iter().min().unwrap()
    }
}

fn watched(t: &Table, rule: usize) -> usize {
    t.rules[rule].watched as usize
}

/// Asks at the ticks and compares with the naive evaluator.
fn compare(r: &mut Random, t: &Table, rule: usize, states: &[u32], ticks: impl Iterator<Item = usize>, count: &mut Count) {
    let (mut scratch, bytes, want) = (Scratch::new(r), t.bytes(), column(t, watched(t, rule), states));
    for tick in ticks {
        let got = scratch.ask(&bytes, rule, states, tick);
        assert_eq!(got, want[tick].value(), "{t:?} rule {rule} tick {tick} of {}", states.len());
        count.add(got);
    }
}

#[test]
fn every_prefix_at_every_tick() {
    let mut r = Random(41);
    let mut answered = Count::default();
    // Of those left open, by the verdict that closing the trace then gives.
    let mut open = [0u64; 2];
    for _ in 0..500 {
        let count = r.below(MAX_NODES as u64) as usize + 1;
        let count = r.pick(&[count, 1 + count % 8, 1 + count % 8, 1 + count % 20]);
        let longest = r.pick(&[MAX_DELAY, 300, 70, 20, 9, 9]);
        let t = any_table(&mut r, count, longest);
        let n = r.pick(&[6, 12, 20, 30, 40]);
        let n = if r.chance(25) { 67 + n } else { n };
        let states = trace(&mut r, n);
        let rule = r.below(t.rules.len() as u64) as usize;
        let (mut scratch, bytes) = (Scratch::new(&mut r), t.bytes());
        for seen in 1..=n {
            let states = &states[..seen];
            let (want, closed) = (column(&t, watched(&t, rule), states), t.rule_verdicts(rule, states));
            for tick in 0..seen {
                let got = scratch.ask(&bytes, rule, states, tick);
                assert_eq!(got, want[tick].value(), "{t:?} rule {rule} tick {tick} of {states:?}");
                answered.add(got);
                if got == OPEN {
                    open[closed[tick] as usize] += 1;
                }
            }
        }
    }
    assert!(answered.least() > 10_000 && open[0].min(open[1]) > 10_000, "{answered:?} {open:?}");
}

#[test]
fn the_two_evaluators_agree() {
    let mut r = Random(42);
    let mut count = Count::default();
    for _ in 0..40_000 {
        let longest = r.pick(&[6, 9, 12, 100]);
        let nodes = 1 + r.below(if longest == 100 { 5 } else { 10 }) as usize;
        let t = any_table(&mut r, nodes, longest);
        let n = 1 + r.below(14) as usize;
        let states = trace(&mut r, n);
        let quick = column(&t, nodes - 1, &states);
        for tick in 0..n {
            assert_eq!(known(&t, nodes - 1, tick, &states), quick[tick], "{t:?} tick {tick} of {states:?}");
            count.add(quick[tick].value());
        }
    }
    assert!(count.least() > 10_000, "{count:?}");
}

/// Places of the operands of `over`.
const P: u8 = 0;
const Q: u8 = 1;
const TRUE: u8 = 2;
const FALSE: u8 = 3;

/// Kind, lo, hi, left, right.
type Operator = (u8, u16, u16, u8, u8);

/// Two signals, the two constants, and operators from place 4 on, of which the last is watched.
fn over(operators: &[Operator]) -> Table {
    let leaf = |kind, arg| Node { kind, arg, lo: 0, hi: 0, left: 0, right: 0 };
    let mut nodes = vec![leaf(1, 0), leaf(1, 1), leaf(2, 0), leaf(3, 0)];
    nodes.extend(operators.iter().map(|&(kind, lo, hi, left, right)| Node { kind, arg: 0, lo, hi, left, right }));
    let watched = nodes.len() as u8 - 1;
    Table { nodes, rules: vec![Rule { name: 1, watched }] }
}

/// One node over signals and constants: every kind, and intervals of which some end past the trace or lie there whole.
fn single() -> Vec<Table> {
    let mut all = vec![over(&[(4, 0, 0, P, 0)]), over(&[(5, 0, 0, P, Q)]), over(&[(6, 0, 0, P, Q)])];
    for (lo, hi) in [(0, 0), (0, 2), (1, 3), (2, 2), (4, 9)] {
        all.extend([(7, P, 0), (8, P, 0), (9, P, Q), (10, P, Q)].map(|(kind, left, right)| over(&[(kind, lo, hi, left, right)])));
    }
    for c in [TRUE, FALSE] {
        let operands = [(7, c, 0), (8, c, 0), (9, P, c), (9, c, P), (10, P, c), (10, c, P)];
        all.extend(operands.map(|(kind, left, right)| over(&[(kind, 1, 3, left, right)])));
    }
    all
}

/// Operators within operators.
fn nested() -> Vec<Table> {
    [
        // F G p, G F p
        vec![(8, 0, 1, P, 0), (7, 0, 2, 4, 0)],
        vec![(7, 1, 2, P, 0), (8, 0, 2, 4, 0)],
        // !F p | G q
        vec![(7, 0, 2, P, 0), (4, 0, 0, 4, 0), (8, 1, 2, Q, 0), (6, 0, 0, 5, 6)],
        // p & (q U p)
        vec![(9, 0, 3, Q, P), (5, 0, 0, P, 4)],
        // (F p) U q, p U (G q)
        vec![(7, 0, 1, P, 0), (9, 0, 2, 4, Q)],
        vec![(8, 0, 1, Q, 0), (9, 1, 2, P, 4)],
        // (G p) R q, p R (F q)
        vec![(8, 1, 1, P, 0), (10, 0, 2, 4, Q)],
        vec![(7, 0, 1, Q, 0), (10, 1, 2, P, 4)],
        // (G p) U q, (F p) R q at a single tick, which the left does not reach
        vec![(8, 0, 3, P, 0), (9, 1, 1, 4, Q)],
        vec![(7, 0, 2, P, 0), (10, 2, 2, 4, Q)],
        // (p U q) R !(q R p)
        vec![(9, 0, 1, P, Q), (10, 0, 1, Q, P), (4, 0, 0, 5, 0), (10, 0, 2, 4, 6)],
        // (p R q) U (p U q)
        vec![(10, 0, 2, P, Q), (9, 1, 1, P, Q), (9, 0, 2, 4, 5)],
        // p | !p, and a tick ahead
        vec![(4, 0, 0, P, 0), (6, 0, 0, P, 4), (8, 1, 1, 5, 0)],
        // G (true & F true), F (false | G false)
        vec![(7, 1, 2, TRUE, 0), (5, 0, 0, TRUE, 4), (8, 0, 2, 5, 0)],
        vec![(8, 1, 2, FALSE, 0), (6, 0, 0, FALSE, 4), (7, 0, 2, 5, 0)],
        // !true U p, p R !false
        vec![(4, 0, 0, TRUE, 0), (9, 0, 3, 4, P)],
        vec![(4, 0, 0, FALSE, 0), (10, 0, 3, P, 4)],
    ]
    .map(|operators| over(&operators))
    .to_vec()
}

const SEEN: usize = 6;
const CLOSED: usize = 8;

/// A walk over all traces of two signals.
struct Walk {
    table: Table,
    bytes: TableBytes,
    watched: usize,
    delay: usize,
    scratch: Vec<u64>,
    states: Vec<u32>,
    /// Answers given before the delay has passed.
    before: Count,
}

impl Walk {
    fn new(table: Table) -> Walk {
        let (bytes, watched, delay) = (table.bytes(), watched(&table, 0), table.rule_delay(0) as usize);
        Walk { table, bytes, watched, delay, scratch: vec![0; EARLY_SCRATCH_WORDS], states: vec![], before: Count::default() }
    }

    /// `decided` holds, by tick, what the states without the last one had decided.
    fn go_on(&mut self, mut decided: [Option<bool>; SEEN]) {
        let n = self.states.len();
        let place = |w: &Walk, tick: usize| format!("{:?} tick {tick} of {:?}", w.table, w.states);
        for tick in 0..if n <= SEEN { n } else { 0 } {
            let got = early(&self.bytes, 0, &self.states, tick, &mut self.scratch);
            let want = known(&self.table, self.watched, tick, &self.states);
            assert_eq!(got, (OK, want.value()), "{}", place(self, tick));
            assert!(decided[tick].is_none() || decided[tick] == want.verdict(), "changed: {}", place(self, tick));
            decided[tick] = want.verdict();
            if tick + self.delay >= n {
                self.before.add(got.1);
            } else {
                assert!(decided[tick].is_some(), "open: {}", place(self, tick));
            }
        }
        if decided.iter().any(|x| x.is_some()) {
            let verdicts = self.table.verdicts(self.watched, &self.states);
            for tick in 0..n.min(SEEN) {
                assert!(decided[tick].is_none_or(|x| x == verdicts[tick]), "no verdict: {}", place(self, tick));
            }
        }
        if n < CLOSED {
            for state in 0..4 {
                self.states.push(state);
                self.go_on(decided);
                self.states.pop();
            }
        }
    }
}

/// Each trace of up to 6 states over two signals, with all its continuations to 8: the answer is the naive one; a yes or no stays with more states,
/// and is the verdict of the trace itself and of each continuation; once the delay has passed nothing is open.
fn all_traces(tables: Vec<Table>) -> Count {
    let mut before = Count::default();
    for t in tables {
        let mut walk = Walk::new(t);
        walk.go_on([None; SEEN]);
        (0..3).for_each(|i| before.0[i] += walk.before.0[i]);
    }
    before
}

#[test]
fn all_traces_of_single_operators() {
    let before = all_traces(single());
    assert!(before.least() > 10_000, "{before:?}");
}

#[test]
fn all_traces_of_nested_operators() {
    let before = all_traces(nested());
    assert!(before.least() > 10_000, "{before:?}");
}

/// Values by tick, of rows worked by hand: 0 no, 1 yes, ? open.
fn rows(states: &[u32], rows: &[(Operator, &str)]) {
    let mut r = Random(43);
    for (operator, row) in rows {
        let t = over(&[*operator]);
        let mut scratch = Scratch::new(&mut r);
        let text = |value: &mut dyn FnMut(usize) -> u32| -> String { (0..states.len()).map(|tick| ['0', '1', '?'][value(tick) as usize]).collect() };
        assert_eq!(text(&mut |tick| scratch.ask(&t.bytes(), 0, states, tick)), *row, "{operator:?}");
        assert_eq!(text(&mut |tick| known(&t, 4, tick, states).value()), *row, "{operator:?}");
        assert_eq!(text(&mut |tick| column(&t, 4, states)[tick].value()), *row, "{operator:?}");
    }
}

/// Document 01's rows; where the verdict needs more states it is open.
#[test]
fn worked_rows() {
    rows(
        &[2, 2, 1, 0, 2, 3, 0, 0],
        &[
            ((7, 1, 3, P, 0), "11111???"),
            ((8, 1, 2, Q, 0), "0001000?"),
            ((9, 0, 3, Q, P), "11101100"),
            ((9, 2, 2, P, Q), "001100??"),
            ((10, 0, 1, Q, P), "00000100"),
            ((7, 2, 3, TRUE, 0), "111111??"),
            ((8, 2, 3, FALSE, 0), "000000??"),
        ],
    );
}

/// Constants are decided at ticks seen, and open at those that an interval reaches past the end.
#[test]
fn constants_across_the_end() {
    rows(
        &[0, 0, 0],
        &[
            ((4, 0, 0, TRUE, 0), "000"),
            ((5, 0, 0, TRUE, FALSE), "000"),
            ((6, 0, 0, FALSE, TRUE), "111"),
            ((7, 0, 5, TRUE, 0), "111"),
            ((7, 1, 5, TRUE, 0), "11?"),
            ((7, 3, 5, TRUE, 0), "???"),
            ((7, 0, 1, FALSE, 0), "00?"),
            ((7, 0, 5, FALSE, 0), "???"),
            ((8, 0, 5, FALSE, 0), "000"),
            ((8, 2, 5, FALSE, 0), "0??"),
            ((8, 3, 5, FALSE, 0), "???"),
            ((8, 0, 2, TRUE, 0), "1??"),
            ((8, 0, 5, TRUE, 0), "???"),
            // An until whose left is false looks at its first tick only.
            ((9, 0, 5, FALSE, FALSE), "000"),
            ((9, 1, 5, FALSE, FALSE), "00?"),
            ((9, 1, 5, FALSE, TRUE), "11?"),
            ((9, 0, 5, TRUE, FALSE), "???"),
            ((9, 0, 1, TRUE, FALSE), "00?"),
            ((9, 3, 5, TRUE, TRUE), "???"),
            // So does a release whose left is true.
            ((10, 0, 5, TRUE, TRUE), "111"),
            ((10, 1, 5, TRUE, TRUE), "11?"),
            ((10, 1, 5, TRUE, FALSE), "00?"),
            ((10, 0, 5, FALSE, TRUE), "???"),
            ((10, 0, 1, FALSE, TRUE), "11?"),
            ((10, 3, 5, FALSE, FALSE), "???"),
        ],
    );
}

/// Some ticks worth asking: the first and last, those whose window begins or ends around the end of the trace, and those where the answer turns.
fn telling(r: &mut Random, t: &Table, states: &[u32]) -> Vec<usize> {
    let (n, node) = (states.len(), t.nodes[watched(t, 0)]);
    let want = column(t, watched(t, 0), states);
    let turns: Vec<usize> = (1..n).filter(|i| want[*i] != want[i - 1]).collect();
    let mut ticks = vec![0, 1, 63, 64, n - 1, r.below(n as u64) as usize];
    for reach in [node.lo, node.hi] {
        ticks.extend((n + 1).checked_sub(reach as usize).into_iter().flat_map(|end| end.saturating_sub(3)..=end));
    }
    for _ in 0..turns.len().min(6) {
        let turn = r.pick(&turns);
        ticks.extend([turn - 1, turn]);
    }
    ticks.retain(|tick| *tick < n);
    ticks
}

/// Each temporal kind with intervals up to the longest, on traces where many of them are searched far or to their end.
#[test]
fn long_intervals() {
    let mut r = Random(44);
    for kind in 7..=10 {
        let mut count = Count::default();
        let mut tops = vec![62, 63, 64, 65, 127, 128, 1000, 1023, 1024, 2047, 4084, MAX_INTERVAL - 1, MAX_INTERVAL];
        tops.extend((0..8).map(|_| 1000 + r.below(MAX_INTERVAL as u64 - 999) as usize));
        for hi in tops {
            for lo in [0, 1, r.below(hi as u64 + 1) as usize, hi - 1, hi] {
                let t = temporal(kind, lo as u16, hi as u16);
                let wide = hi + r.below((MAX_TRACE + 1 - hi) as u64) as usize;
                for n in [MAX_TRACE, MAX_TRACE - 1, wide, hi + 1, hi, lo + 1] {
                    let mut states = quiet_trace(&mut r, kind, n);
                    if n > 1 && r.chance(2) {
                        // Nothing but one tick ends a search.
                        let (at, change) = (r.below(n as u64) as usize, r.pick(&[turning(kind), 1, 3]));
                        states.iter_mut().for_each(|x| *x = (*x & !3) | quiet(kind));
                        states[at] ^= change;
                    }
                    let ticks = telling(&mut r, &t, &states);
                    compare(&mut r, &t, 0, &states, ticks.into_iter(), &mut count);
                }
            }
        }
        assert!(count.least() > 500, "kind {kind}: {count:?}");
    }
}

/// Every tick of traces whose last word is full, or has one bit more or less, up to the longest.
#[test]
fn every_tick_at_word_borders() {
    let mut r = Random(45);
    let mut count = Count::default();
    let lengths = [1, 2, 63, 64, 65, 127, 128, 129, 191, 192, 193, 1024, 4095, 4096, 4097, MAX_TRACE - 64, MAX_TRACE - 1, MAX_TRACE];
    for n in lengths {
        for round in 0..if n < 200 { 30 } else { 3 } {
            let nodes = 2 + r.below(8) as usize;
            let t = match round % 3 {
                0 => temporal(7 + r.below(4) as u8, r.below(5) as u16, 5 + r.below(n.min(MAX_INTERVAL - 5) as u64) as u16),
                1 => any_table(&mut r, nodes, MAX_DELAY),
                _ => any_table(&mut r, nodes, 70),
            };
            let states = trace(&mut r, n);
            compare(&mut r, &t, 0, &states, 0..n, &mut count);
        }
    }
    assert!(count.least() > 1_000, "{count:?}");
}

/// Every rule of tables of 64 nodes and 8 rules.
#[test]
fn full_tables() {
    let mut r = Random(46);
    let mut count = Count::default();
    let mut different = 0;
    for _ in 0..150 {
        let longest = r.pick(&[MAX_DELAY, 1000, 70, 9]);
        let mut t = any_table(&mut r, MAX_NODES, longest);
        // The last node, and seven that stand anywhere.
        let places: Vec<u8> = [63].into_iter().chain((1..MAX_RULES).map(|_| r.below(MAX_NODES as u64) as u8)).collect();
        t.rules = places.iter().enumerate().map(|(i, watched)| Rule { name: 1 + i as u16, watched: *watched }).collect();
        let n = r.pick(&[1, 20, 64, 100, 700, MAX_TRACE]);
        let states = trace(&mut r, n);
        let ticks: Vec<usize> = [0, n - 1].into_iter().chain((0..4).map(|_| r.below(n as u64) as usize)).collect();
        for rule in 0..MAX_RULES {
            compare(&mut r, &t, rule, &states, ticks.iter().copied(), &mut count);
        }
        let at = |rule: usize| column(&t, watched(&t, rule), &states);
        different += (1..MAX_RULES).filter(|rule| ticks.iter().any(|tick| at(*rule)[*tick] != at(0)[*tick])).count();
    }
    assert!(count.least() > 300 && different > 300, "{count:?} {different}");
}

/// One call over dirty scratch of a length, with every buffer compared; returns the number and the value.
fn call(r: &mut Random, bytes: &TableBytes, rule: u32, states: &[u32], tick: usize, scratch: usize) -> (u32, u32) {
    let mut scratch = words(r, scratch);
    let mut wanted = scratch.clone();
    let got = only_read("table", bytes, |bytes| only_read("states", states, |states| early(bytes.try_into().unwrap(), rule, states, tick, &mut scratch)));
    assert_eq!(got, known::early(bytes, rule, states, tick, &mut wanted));
    same("scratch", &scratch, &wanted);
    got
}

/// Every set of rows that fit at once.
#[test]
fn refusals_and_their_order() {
    let mut r = Random(47);
    for _ in 0..40 {
        for case in 0..32u32 {
            let is = |bit: u32| case >> bit & 1 == 1;
            let (bytes, rule) = asked(&mut r, is(0), is(1));
            let few = 1 + r.below(300) as usize;
            let n = if is(2) { r.pick(&[MAX_TRACE + 1, MAX_TRACE + 2, 6000]) } else { r.pick(&[1, few, few, MAX_TRACE]) };
            let scratch = if is(3) { r.pick(&[0, 1, SCRATCH_WORDS, EARLY_SCRATCH_WORDS - 1]) } else { EARLY_SCRATCH_WORDS + r.pick(&[0, 0, 7]) };
            let tick = if is(4) { r.pick(&[n, n, n + 1, n + 63, n + 64, n + (1 << 32), usize::MAX]) } else { r.pick(&[0, n / 2, n - 1]) };
            // Without states no tick is below their number.
            let n = if is(4) && tick == n && !is(2) && r.chance(3) { 0 } else { n };
            let tick = if n == 0 { r.pick(&[0, 0, 1]) } else { tick };
            let states = trace(&mut r, n);
            let (number, value) = call(&mut r, &bytes, rule, &states, tick, scratch);
            let wanted = [UNSOUND, ABSENT, STATES, BUFFER, TICK].into_iter().enumerate().find(|(bit, _)| is(*bit as u32)).map_or(OK, |row| row.1);
            assert_eq!(number, wanted);
            assert!(number == OK || value == NO);
        }
    }
}

/// Each row at its limit, alone.
#[test]
fn limits() {
    let mut r = Random(48);
    let t = table(&mut r, 12, 300);
    let (bytes, rules) = (t.bytes(), t.rules.len() as u32);
    let states = trace(&mut r, MAX_TRACE + 1);
    let mut number = |rule, n: usize, tick, scratch| call(&mut r, &bytes, rule, &states[..n], tick, scratch).0;
    let all = EARLY_SCRATCH_WORDS;
    assert_eq!([number(rules - 1, 9, 0, all), number(rules, 9, 0, all)], [OK, ABSENT]);
    assert_eq!([number(0, MAX_TRACE, 0, all), number(0, MAX_TRACE + 1, 0, all)], [OK, STATES]);
    assert_eq!([number(0, 9, 0, all), number(0, 9, 0, all - 1)], [OK, BUFFER]);
    for n in [1, 9, 63, 64, 65, 128, MAX_TRACE - 1, MAX_TRACE] {
        assert_eq!([number(0, n, n - 1, all), number(0, n, n, all), number(0, n, n + 1, all)], [OK, TICK, TICK]);
    }
    assert_eq!(number(0, 0, 0, all), TICK);
}

#[test]
fn damaged_tables() {
    let mut r = Random(49);
    let mut seen = [0u32; NUMBERS];
    for _ in 0..4_000 {
        let count = 1 + r.below(MAX_NODES as u64) as usize;
        let t = table(&mut r, count, 300);
        let bytes = damaged_table(&mut r, &t);
        let states = trace(&mut r, 40);
        let tick = r.below(41) as usize;
        let rule = r.below(2) as u32;
        let (number, _) = call(&mut r, &bytes, rule, &states, tick, EARLY_SCRATCH_WORDS);
        seen[number as usize] += 1;
    }
    assert!(seen[UNSOUND as usize] > 1_000 && seen[OK as usize] > 200, "{seen:?}");
    assert_eq!(call(&mut r, &[0; TABLE_BYTES], 0, &[0], 0, EARLY_SCRATCH_WORDS), (UNSOUND, NO));
}

/// The rule that is lost in its third tick, and one that is kept in it, long before their delay.
#[test]
fn long_before_the_delay() {
    let mut r = Random(50);
    for (kind, lost) in [(8, NO), (7, YES)] {
        let (t, mut scratch) = (temporal(kind, 0, 600), Scratch::new(&mut r));
        let mut states = vec![quiet(kind); 700];
        states[2] ^= 1;
        let answers: Vec<u32> = (1..=700).map(|seen| scratch.ask(&t.bytes(), 0, &states[..seen], 0)).collect();
        assert!(answers[..2] == [OPEN, OPEN] && answers[2..].iter().all(|x| *x == lost), "kind {kind}");
        // Where nothing happens it is decided with the last state of the interval.
        let answers: Vec<u32> = (1..=700).map(|seen| scratch.ask(&t.bytes(), 0, &vec![quiet(kind); seen], 0)).collect();
        assert!(answers[..600].iter().all(|x| *x == OPEN) && answers[600..].iter().all(|x| *x == YES - lost), "kind {kind}");
    }
}
