//! Narrow sessions: what is widened and what is refused, and lists of calls that begin under the narrow count, which the model plays, and go on under the
//! library's. The delay is the library's all along; sessions under the old one are in `close_old`.
use juntreak_tests::compared::{bits, close, close_under, feed, feed_under, forged, seen_in, widen};
use juntreak_tests::header::limits::{
    CLOSE_WORDS, FEED_WORDS, HISTORY_WORDS, MAX_BLOCK, MAX_DELAY, MAX_NARROW_SEEN, MAX_NODES, MAX_RULES, NODE_COUNT_AT, RULE_COUNT_AT, SCRATCH_WORDS,
    SESSION_BYTES, TABLE_BYTES,
};
use juntreak_tests::header::places::{node_at, rule_at, RULE_NUMBER_AT, SEEN_AT};
use juntreak_tests::header::refusals::{BUFFER, OK, SEEN, STATES, UNSOUND};
use juntreak_tests::header::NUMBERS;
use juntreak_tests::library::{open, simplify, SessionBytes};
use juntreak_tests::model::{self, Delay::New, Node, Rule, Session, Table, Width, Width::Narrow, Width::Wide};
use juntreak_tests::random::{absent_rule, any_table, block_length, damage, damaged_table, session_bytes, short_words, trace, words, Random};
use juntreak_tests::same;
use std::collections::BTreeMap;

const LAST: u64 = MAX_NARROW_SEEN as u64;

/// The number of a widening over dirt; what is accepted has the bytes that were given.
fn widened(r: &mut Random, narrow: &SessionBytes) -> u32 {
    let before = session_bytes(r);
    let mut session = before;
    let number = widen(r, narrow, &mut session);
    same("session", &session, if number == OK { narrow } else { &before });
    number
}

/// A count of states that a narrow session can have.
fn narrow_count(r: &mut Random) -> u64 {
    match r.below(4) {
        0 => r.pick(&[0, 1, 2, 255, 256, 65_535, 65_536, 1 << 31]),
        1 => LAST - r.pick(&[0, 1, 2, 255, 256]),
        _ => (r.next() as u32 >> r.below(32)) as u64,
    }
}

/// A count of states that no narrow session can have.
fn wide_count(r: &mut Random) -> u64 {
    match r.below(4) {
        0 => LAST + r.pick(&[1, 2, 256]),
        1 => 1 << (32 + r.below(32)),
        2 => (1 + r.below(LAST)) << 32 | r.pick(&[0, 1, 300, LAST]),
        _ => r.next() | 1 << (32 + r.below(32)),
    }
}

#[test]
fn random_and_extreme_sessions() {
    let mut r = Random(91);
    let (mut accepted, mut unsound, mut absent, mut high, mut several) = (0, 0, 0, 0, 0);
    for _ in 0..20_000 {
        let count = if r.chance(5) { MAX_NODES } else { 1 + r.below(MAX_NODES as u64) as usize };
        let longest = r.pick(&[MAX_DELAY, 300, 9, 0]);
        let t = any_table(&mut r, count, longest);
        let rules = t.rules.len() as u32;
        let table = if r.chance(3) { damaged_table(&mut r, &t) } else { t.bytes() };
        let rule = if r.chance(3) { absent_rule(&mut r, t.rules.len()) } else { r.below(rules as u64) as u32 };
        let seen = if r.chance(3) { wide_count(&mut r) } else { narrow_count(&mut r) };
        let number = widened(&mut r, &forged(table, rule, seen));
        match (model::sound(&table), seen > LAST) {
            (Some(t), false) if (rule as usize) < t.rules.len() => {
                assert_eq!(number, OK);
                accepted += 1;
                continue;
            }
            (Some(t), false) if (rule as usize) >= t.rules.len() => absent += 1,
            (Some(t), true) if (rule as usize) < t.rules.len() => high += 1,
            (None, false) if rule < rules => unsound += 1,
            _ => several += 1,
        }
        assert_eq!(number, UNSOUND);
    }
    assert!([accepted, unsound, absent, high, several].iter().all(|n| *n > 1_000), "{accepted} {unsound} {absent} {high} {several}");
}

#[test]
fn damaged_and_random_bytes() {
    let mut r = Random(92);
    let mut numbers = [0u32; NUMBERS];
    for _ in 0..20_000 {
        let count = 1 + r.below(20) as usize;
        let t = any_table(&mut r, count, 300);
        let rule = r.below(t.rules.len() as u64) as u32;
        let mut narrow = forged(t.bytes(), rule, narrow_count(&mut r));
        if r.chance(10) {
            narrow = session_bytes(&mut r);
        } else {
            damage(&mut r, &mut narrow);
        }
        numbers[widened(&mut r, &narrow) as usize] += 1;
    }
    assert!([OK, UNSOUND].iter().all(|n| numbers[*n as usize] > 1_000), "{numbers:?}");
}

/// Sessions on the largest tables, and each that differs from one of them in one bit.
#[test]
fn every_bit() {
    let mut r = Random(93);
    let mut numbers = [0u32; NUMBERS];
    for _ in 0..12 {
        let mut t = any_table(&mut r, MAX_NODES, MAX_DELAY);
        t.rules = (0..MAX_RULES as u16).map(|i| Rule { name: 252 + i, watched: MAX_NODES as u8 - 1 }).collect();
        let rule = r.below(MAX_RULES as u64) as u32;
        let narrow = forged(t.bytes(), rule, r.next() as u32 as u64);
        assert_eq!(widened(&mut r, &narrow), OK);
        for bit in 0..8 * SESSION_BYTES {
            let mut other = narrow;
            other[bit / 8] ^= 1 << (bit % 8);
            let number = widened(&mut r, &other);
            if bit >= 8 * SEEN_AT {
                assert_eq!(number, if bit < 8 * (SEEN_AT + 4) { OK } else { UNSOUND });
            } else if bit >= 8 * RULE_NUMBER_AT {
                assert_eq!(number, if bit < 8 * RULE_NUMBER_AT + 3 { OK } else { UNSOUND });
            }
            numbers[number as usize] += 1;
        }
    }
    assert!([OK, UNSOUND].iter().all(|n| numbers[*n as usize] > 4_000), "{numbers:?}");
}

/// G[0,2] p, named 9, and F[1,3] p, named 7.
fn worked() -> Table {
    let p = Node { kind: 1, arg: 0, lo: 0, hi: 0, left: 0, right: 0 };
    let f = Node { kind: 7, lo: 1, hi: 3, ..p };
    let g = Node { kind: 8, lo: 0, hi: 2, ..p };
    Table { nodes: vec![p, f, g], rules: vec![Rule { name: 9, watched: 2 }, Rule { name: 7, watched: 1 }] }
}

/// Bytes of a session that are changed, each time to the last value that is sound and to the first that is not.
#[test]
fn the_edges_of_soundness() {
    let mut r = Random(98);
    let narrow = forged(worked().bytes(), 1, LAST);
    let (p, f, g, free, last) = (node_at(0), node_at(1), node_at(2), node_at(3), node_at(MAX_NODES) - 1);
    let (first, second, third) = (rule_at(0), rule_at(1), rule_at(2));
    let cases: [(&[(usize, u8)], u32); 42] = [
        (&[(p + 1, 31)], OK),
        (&[(p + 1, 32)], UNSOUND),
        (&[(p, 3)], OK),
        (&[(p, 0)], UNSOUND),
        (&[(g, 11)], UNSOUND),
        (&[(f + 1, 1)], UNSOUND),
        (&[(f + 2, 3)], OK),
        (&[(f + 2, 4)], UNSOUND),
        (&[(f + 4, 255), (f + 5, 15)], OK),
        (&[(f + 4, 0), (f + 5, 16)], UNSOUND),
        (&[(g + 6, 1)], OK),
        (&[(g + 6, 2)], UNSOUND),
        (&[(g + 7, 1)], UNSOUND),
        (&[(g, 9), (g + 7, 1)], OK),
        (&[(g, 9), (g + 7, 2)], UNSOUND),
        // The delay of G[0,2] F[1,4093] p, and one more.
        (&[(g + 6, 1), (f + 4, 253), (f + 5, 15)], OK),
        (&[(g + 6, 1), (f + 4, 254), (f + 5, 15)], UNSOUND),
        (&[(free, 1)], UNSOUND),
        (&[(last, 1)], UNSOUND),
        (&[(NODE_COUNT_AT, 4), (free, 2)], OK),
        (&[(NODE_COUNT_AT, 4)], UNSOUND),
        (&[(NODE_COUNT_AT, 2)], UNSOUND),
        (&[(NODE_COUNT_AT, 65)], UNSOUND),
        (&[(RULE_COUNT_AT, 0)], UNSOUND),
        (&[(RULE_COUNT_AT, 1)], UNSOUND),
        (&[(RULE_COUNT_AT, 3)], UNSOUND),
        (&[(RULE_COUNT_AT, 9)], UNSOUND),
        (&[(first, 255)], OK),
        (&[(first, 0), (first + 1, 1)], OK),
        (&[(first, 255), (first + 1, 255)], OK),
        (&[(first, 0)], UNSOUND),
        (&[(first, 7)], UNSOUND),
        (&[(first, 7), (first + 1, 1)], OK),
        (&[(first, 7), (first + 1, 1), (second + 1, 2)], OK),
        (&[(first, 7), (first + 1, 1), (second + 1, 1)], UNSOUND),
        (&[(second + 2, 3)], UNSOUND),
        (&[(second + 3, 1)], UNSOUND),
        (&[(third, 1)], UNSOUND),
        (&[(TABLE_BYTES - 1, 1)], UNSOUND),
        (&[(RULE_NUMBER_AT, 0)], OK),
        (&[(RULE_NUMBER_AT, 2)], UNSOUND),
        (&[(RULE_NUMBER_AT + 1, 1)], UNSOUND),
    ];
    for (changes, wanted) in cases {
        let mut other = narrow;
        changes.iter().for_each(|(at, byte)| other[*at] = *byte);
        assert_eq!(widened(&mut r, &other), wanted, "{changes:?}");
    }
}

/// The counts that are narrow. A feed and a close take the others too.
#[test]
fn counts() {
    let mut r = Random(94);
    for seen in [0, 1, 255, 256, 65_536, 1 << 31, LAST - 1, LAST] {
        assert_eq!(widened(&mut r, &forged(worked().bytes(), 1, seen)), OK);
    }
    let bits = (32..64).map(|bit| 1 << bit);
    for seen in bits.chain([LAST + 2, LAST + 1025, (1 << 40) + 5, LAST << 32, u64::MAX - 1, u64::MAX]) {
        let narrow = forged(worked().bytes(), 1, seen);
        assert_eq!(widened(&mut r, &narrow), UNSOUND);
        let (mut session, mut history) = (narrow, trace(&mut r, HISTORY_WORDS));
        let (mut x, mut o) = (words(&mut r, SCRATCH_WORDS), words(&mut r, CLOSE_WORDS));
        assert_eq!(feed(&mut session, &[], &mut history, &mut x, &mut o), (OK, 0));
        assert_eq!(close(&mut session, &history, &mut x, &mut o), (OK, 3));
        // Once it is closed, its count is narrow.
        assert_eq!(widened(&mut r, &session), OK);
    }
}

/// What happened in lists of calls, and how often.
#[derive(Default, Debug)]
struct Tally(BTreeMap<String, usize>);

impl Tally {
    fn add(&mut self, what: String, times: usize) {
        *self.0.entry(what).or_default() += times;
    }
}

/// A list of calls on one session, and its accepted feeds and closes on another that was wide from the start.
struct List<'a> {
    table: &'a Table,
    rule: usize,
    delay: usize,
    width: Width,
    session: SessionBytes,
    history: Vec<u32>,
    wide: SessionBytes,
    wide_history: Vec<u32>,
    /// History where the trace began, the states that it had kept, with those fed since, and the verdicts since.
    start: Vec<u32>,
    fed: Vec<u32>,
    given: Vec<bool>,
}

impl List<'_> {
    /// A block of k states. The narrow count may be too small for them: then all stays as it was.
    fn feed(&mut self, r: &mut Random, block: &[u32], tally: &mut Tally) {
        let (x, o) = (SCRATCH_WORDS + r.below(3) as usize, FEED_WORDS + r.below(3) as usize);
        let (mut x, mut o) = (words(r, x), words(r, o));
        let (mut wide_x, mut wide_o) = (x.clone(), o.clone());
        let (before, kept) = (self.session, self.history.clone());
        let (number, count) = feed_under(self.width, New, &mut self.session, block, &mut self.history, &mut x, &mut o);
        if self.width == Narrow && number == SEEN {
            assert!(seen_in(&before) + block.len() as u64 > LAST && self.session == before && self.history == kept);
            same("out", &o, &wide_o);
            tally.add("only the narrow count refused".to_string(), 1);
            return;
        }
        assert_eq!(number, OK);
        assert_eq!(feed(&mut self.wide, block, &mut self.wide_history, &mut wide_x, &mut wide_o), (number, count));
        same("out", &o, &wide_o);
        assert!(self.width == Wide || seen_in(&self.session) <= LAST);
        self.fed.extend(block);
        self.given.extend(bits(&o, count));
        assert_eq!(self.given.len(), self.fed.len().saturating_sub(self.delay));
        let kept = self.fed.len().min(self.delay);
        same("kept states", &self.history[..kept], &self.fed[self.fed.len() - kept..]);
        same("other places", &self.history[kept..], &self.start[kept..]);
        self.beside_the_wide();
        tally.add(format!("{:?} feed", self.width), 1);
        if seen_in(&self.session) > LAST {
            tally.add("feed beyond the narrow count".to_string(), 1);
        }
    }

    /// The end of a trace: its verdicts are those of the rule before simplifying.
    fn close(&mut self, r: &mut Random, tally: &mut Tally) {
        let (mut x, mut o) = (words(r, SCRATCH_WORDS + 1), words(r, CLOSE_WORDS + 1));
        let (mut wide_x, mut wide_o) = (x.clone(), o.clone());
        let (number, count) = close_under(self.width, New, &mut self.session, &self.history, &mut x, &mut o);
        assert_eq!(number, OK);
        assert_eq!(close(&mut self.wide, &self.wide_history, &mut wide_x, &mut wide_o), (number, count));
        same("out", &o, &wide_o);
        self.given.extend(bits(&o, count));
        assert!(self.given == self.table.rule_verdicts(self.rule, &self.fed), "{:?} rule {}", self.table, self.rule);
        if self.fed.len() <= 150 {
            assert!(self.given == self.table.verdicts(self.table.rules[self.rule].watched as usize, &self.fed), "{:?} rule {}", self.table, self.rule);
        }
        self.beside_the_wide();
        tally.add(format!("{:?} close", self.width), 1);
        tally.add("verdicts".to_string(), self.given.len());
        self.start = self.history.clone();
        self.fed.clear();
        self.given.clear();
    }

    fn beside_the_wide(&self) {
        same("session", &self.session, &self.wide);
        same("history", &self.history, &self.wide_history);
    }

    /// The widening: the session's bytes are copied to another place, whatever is there.
    fn widen(&mut self, r: &mut Random) {
        let mut session = session_bytes(r);
        assert_eq!(widen(r, &self.session, &mut session), OK);
        self.session = session;
        self.width = Wide;
        self.beside_the_wide();
    }

    /// A call that is refused, with the list's own history and often its own session: both stay as they are. Narrow feeds and closes are the model's own.
    fn refused(&mut self, r: &mut Random, tally: &mut Tally) {
        let (own, history) = (self.session, self.history.clone());
        let mut other = self.session;
        let (mut k, mut x, mut o) = (1 + r.below(40) as usize, SCRATCH_WORDS, CLOSE_WORDS);
        let wanted = match r.below(7) {
            0 | 1 => {
                // A widening of anything that is not narrow, to the list's own session.
                while model::session(Narrow, New, &other).is_some() {
                    match r.below(4) {
                        0 => other[SEEN_AT..].copy_from_slice(&wide_count(r).to_le_bytes()),
                        1 => other = session_bytes(r),
                        _ => damage(r, &mut other),
                    }
                }
                assert_eq!(widen(r, &other, &mut self.session), UNSOUND);
                assert!(self.session == own);
                tally.add(format!("refused widening, {:?}", self.width), 1);
                return;
            }
            2 => {
                while model::session(self.width, New, &other).is_some() {
                    damage(r, &mut other);
                }
                UNSOUND
            }
            3 => {
                // Its own session or another, forged.
                if r.chance(2) {
                    let count = 1 + r.below(8) as usize;
                    other = forged(any_table(r, count, 300).bytes(), 0, 0);
                }
                let near = r.below(k as u64);
                other[SEEN_AT..].copy_from_slice(&(self.width.last() - near).to_le_bytes());
                SEEN
            }
            4 => {
                k = MAX_BLOCK + r.pick(&[1, 2, 100]);
                STATES
            }
            5 => {
                x -= 1;
                BUFFER
            }
            _ => {
                o = FEED_WORDS - 1;
                BUFFER
            }
        };
        let (lent, block) = (other, trace(r, k));
        let (mut x, mut o) = (words(r, x), words(r, o));
        assert_eq!(feed_under(self.width, New, &mut other, &block, &mut self.history, &mut x, &mut o), (wanted, 0));
        if matches!(wanted, UNSOUND | BUFFER) {
            assert_eq!(close_under(self.width, New, &mut other, &self.history, &mut x, &mut o), (wanted, 0));
        }
        assert!(other == lent && self.history == history);
        tally.add(format!("refused with {wanted}, {:?}", self.width), 1);
    }
}

/// One list of calls. It begins with an opening, or amid a trace whose count is beside the narrow limit.
fn list(r: &mut Random, tally: &mut Tally) {
    let count = 1 + r.below(12) as usize;
    let longest = r.pick(&[MAX_DELAY, 1100, 300, 70, 9, 9, 0]);
    let table = any_table(r, count, longest);
    let mut simple = table.bytes();
    assert_eq!(simplify(&mut simple), OK);
    let rule = r.below(table.rules.len() as u64) as usize;
    let delay = model::sound(&simple).unwrap().rule_delay(rule) as usize;
    let extra = r.below(3) as usize;
    let history = short_words(r, HISTORY_WORDS + extra);
    let (mut session, mut wide, mut fed) = (session_bytes(r), session_bytes(r), vec![]);
    assert_eq!(model::open(New, &simple, rule as u32, &mut session), OK);
    assert_eq!(open(&simple, rule as u32, &mut wide), OK);
    if r.chance(3) {
        let near = r.pick(&[0, 1, 3, 64, 200, 2000]);
        let seen = (LAST - r.below(near + 1)).to_le_bytes();
        session[SEEN_AT..].copy_from_slice(&seen);
        wide[SEEN_AT..].copy_from_slice(&seen);
        fed = history[..delay].to_vec();
    }
    let (start, wide_history) = (history.clone(), history.clone());
    let mut list = List { table: &table, rule, delay, width: Narrow, session, history, wide, wide_history, start, fed, given: vec![] };
    list.beside_the_wide();

    let calls = 2 + r.below(12);
    let widening = if r.chance(8) { None } else { Some(if r.chance(6) { 0 } else { r.below(calls) }) };
    for call in 0..calls {
        if widening == Some(call) {
            let place = if call == 0 { "at the beginning" } else if seen_in(&list.session) > 0 { "amid a trace" } else { "before a trace" };
            tally.add(format!("widening {place}"), 1);
            list.widen(r);
        }
        match r.below(9) {
            0 | 1 => list.refused(r, tally),
            2 => list.close(r, tally),
            _ => {
                let k = block_length(r);
                let block = trace(r, k);
                list.feed(r, &block, tally);
            }
        }
    }
    list.close(r, tally);
    if widening.is_none() {
        tally.add("no widening".to_string(), 1);
    }
}

#[test]
fn lists_of_calls() {
    let mut r = Random(95);
    let mut tally = Tally::default();
    for _ in 0..3_000 {
        list(&mut r, &mut tally);
    }
    // 4 refusals, refused widenings, feeds and closes of both widths; 4 places of a widening; feeds beyond the narrow count, refused or not; verdicts.
    assert!(tally.0.len() == 2 * 7 + 4 + 2 + 1 && tally.0.values().all(|times| *times > 100) && tally.0["verdicts"] > 100_000, "{tally:?}");
}

/// A block that the narrow count has no room for, on a session that has seen all but `room` states: it is refused, and accepted once the session is wide.
#[test]
fn a_block_beyond_the_narrow_count() {
    let mut r = Random(96);
    for (room, k) in [(0, 1), (0, MAX_BLOCK), (1, 2), (3, 4), (3, MAX_BLOCK), (MAX_BLOCK - 1, MAX_BLOCK)] {
        for _ in 0..40 {
            let count = 1 + r.below(12) as usize;
            let longest = r.pick(&[MAX_DELAY, 300, 9]);
            let t = any_table(&mut r, count, longest);
            let rule = r.below(t.rules.len() as u64) as usize;
            let delay = t.rule_delay(rule) as usize;
            let seen = LAST - room as u64;
            let narrow = Session { table: t.clone(), rule: rule as u32, seen }.bytes();
            let (mut history, block) = (trace(&mut r, HISTORY_WORDS), trace(&mut r, k));
            let states = [&history[..delay], &block[..]].concat();
            let (mut x, mut o) = (words(&mut r, SCRATCH_WORDS), words(&mut r, CLOSE_WORDS));

            let (mut refused, kept) = (narrow, history.clone());
            assert_eq!(feed_under(Narrow, New, &mut refused, &block, &mut history, &mut x, &mut o), (SEEN, 0));
            assert!(refused == narrow && history == kept);
            // What there is room for is accepted.
            let mut filled = narrow;
            assert_eq!(feed_under(Narrow, New, &mut filled, &block[..room], &mut history.clone(), &mut x, &mut o), (OK, room as u32));
            assert_eq!(seen_in(&filled), LAST);

            let mut session = session_bytes(&mut r);
            assert_eq!(widen(&mut r, &narrow, &mut session), OK);
            assert_eq!(feed(&mut session, &block, &mut history, &mut x, &mut o), (OK, k as u32));
            let mut given = bits(&o, k as u32);
            assert_eq!(seen_in(&session), seen + k as u64);
            assert_eq!(session[..SEEN_AT], narrow[..SEEN_AT]);
            assert_eq!(widened(&mut r, &session), UNSOUND);
            assert_eq!(close(&mut session, &history, &mut x, &mut o), (OK, delay as u32));
            given.extend(bits(&o, delay as u32));
            assert!(given == t.rule_verdicts(rule, &states), "{t:?} rule {rule}");
        }
    }
}
