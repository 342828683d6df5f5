//! The delay of U and R beside the old one, and the second close, which still reads that: against the model, and at the end of sessions that were opened and
//! fed under the old delay, which the model plays.
use juntreak_tests::compared::{bits, close, close_under, feed_under, forged, lengths, seen_in, widen};
use juntreak_tests::formulas::Formula;
use juntreak_tests::header::limits::{
    CLOSE_WORDS, EARLY_SCRATCH_WORDS, FEED_WORDS, HISTORY_WORDS, MAX_DELAY, MAX_NARROW_SEEN, MAX_NODES, MAX_RULES, SCRATCH_WORDS, TABLE_BYTES, WRITTEN_BYTES,
};
use juntreak_tests::header::places::{node_at, RULE_NUMBER_AT, SEEN_AT};
use juntreak_tests::header::refusals::{BUFFER, LONG, OK, UNSOUND};
use juntreak_tests::header::NUMBERS;
use juntreak_tests::library::{self, check_book, delay, early, open, read, read_text, simplify, verdicts, write, SessionBytes, TableBytes};
use juntreak_tests::model::{self, sound, sound_under, Delay, Delay::New, Delay::Old, Node, Table, Width, Width::Narrow, Width::Wide};
use juntreak_tests::random::{
    absent_rule, any_lines, any_table, block_length, count_beside, damage, damaged_table, law_free, new_table, old_table, session_bytes, short_words, trace,
    words, Random,
};
use juntreak_tests::{same, typed, written};

const LONGEST: u32 = MAX_DELAY as u32;

fn is_until(n: &Node) -> bool {
    matches!(n.kind, 9 | 10)
}

/// Of each node, whether it or one beneath it is such.
fn beneath(t: &Table, such: impl Fn(&Node) -> bool) -> Vec<bool> {
    let mut found: Vec<bool> = vec![];
    for n in &t.nodes {
        let left = n.kind >= 4 && found[n.left as usize];
        let right = matches!(n.kind, 5 | 6 | 9 | 10) && found[n.right as usize];
        found.push(such(n) || left || right);
    }
    found
}

/// The computation length of each node, by document 000's Definition 3.
fn computation_lengths(t: &Table) -> Vec<u32> {
    let mut lengths: Vec<u32> = vec![];
    for n in &t.nodes {
        let (u, left, right) = (n.hi as u32, || lengths[n.left as usize], || lengths[n.right as usize]);
        lengths.push(match n.kind {
            1..=3 => 1,
            4 => left(),
            5 | 6 => left().max(right()),
            7 | 8 => u + left(),
            _ => u + (left() - 1).max(right()),
        });
    }
    lengths
}

/// How often rules have two delays, and tables are sound under the new one alone.
#[derive(Debug, Default)]
struct Found {
    same: u32,
    smaller: u32,
    accepted: u32,
}

impl Found {
    /// The delays of a table's rules: never above the old ones, and the same without U and R; where no interval of U and R is a single point, the
    /// computation length of document 000 less one.
    fn compare(&mut self, t: &Table) {
        let (new, old, lengths, bytes) = (t.delays(), t.delays_under(Old), computation_lengths(t), t.bytes());
        let (untils, points) = (beneath(t, is_until), beneath(t, |n| is_until(n) && n.lo == n.hi));
        for (rule, watched) in t.rules.iter().map(|q| q.watched as usize).enumerate() {
            assert_eq!(delay(&bytes, rule as u32), (OK, new[watched]), "{t:?} rule {rule}");
            assert!(new[watched] < lengths[watched] && lengths[watched] <= old[watched] + 1, "{t:?} rule {rule}");
            assert!(points[watched] || new[watched] + 1 == lengths[watched], "{t:?} rule {rule}");
            assert!(untils[watched] || new[watched] == old[watched], "{t:?} rule {rule}");
            *(if new[watched] < old[watched] { &mut self.smaller } else { &mut self.same }) += 1;
        }
        assert_eq!(sound(&bytes).as_ref(), Some(t));
        self.accepted += sound_under(Old, &bytes).is_none() as u32;
    }
}

/// Every kind of random input has rules with two delays, and tables that the new delay alone accepts.
#[test]
fn delays_of_random_tables() {
    let mut r = Random(101);
    let mut found: [Found; 3] = Default::default();
    for _ in 0..4_000 {
        let count = 1 + r.below(MAX_NODES as u64) as usize;
        let longest = r.pick(&[MAX_DELAY, MAX_DELAY, 300, 9]);
        found[0].compare(&any_table(&mut r, count, longest));
        found[1].compare(&law_free(&mut r, count.min(30), longest));
        found[2].compare(&typed::table(&any_lines(&mut r, MAX_RULES)));
    }
    assert!(found.iter().all(|f| f.same > 1_000 && f.smaller > 1_000 && f.accepted > 100), "{found:?}");
}

/// Formulas with their delay, and the old one.
const WORKED: [(&str, u32, u32); 26] = [
    ("(F[0,3] s2) U[0,2] s1", 4, 5),
    ("(F[0,3] s2) R[0,2] s1", 4, 5),
    // A left operand with the delay 0 or 1.
    ("s2 U[0,2] s1", 2, 2),
    ("s2 R[1,2] F[0,3] s1", 5, 5),
    ("(F[0,1] s2) U[0,2] s1", 2, 3),
    ("(F[0,1] s2) R[0,1] F[0,3] s1", 4, 4),
    // The right operand decides, or both do, or the left one.
    ("(F[0,3] s2) U[0,2] F[0,4] s1", 6, 6),
    ("(F[0,4] s2) U[0,2] F[0,4] s1", 6, 6),
    ("(F[0,5] s2) U[0,2] F[0,4] s1", 6, 7),
    ("(F[0,6] s2) R[0,2] F[0,4] s1", 7, 8),
    // A single point does not read the left operand.
    ("(F[0,3] s2) U[0,0] s1", 0, 3),
    ("(F[0,3] s2) U[2,2] s1", 2, 5),
    ("(F[0,3] s2) R[2,2] F[0,1] s1", 3, 5),
    ("(F[0,3] s2) R[2,2] F[0,3] s1", 5, 5),
    ("(F[0,4095] s2) U[0,0] s1", 0, 4095),
    ("s2 U[7,7] s1", 7, 7),
    // One within another.
    ("((F[0,3] s2) U[0,2] s1) U[1,4] s0", 7, 9),
    ("((F[0,3] s2) R[0,2] s1) U[4,4] s0", 4, 9),
    ("((F[0,9] s2) U[5,5] s1) R[0,2] s0", 6, 16),
    ("s0 R[1,4] ((F[0,3] s2) U[0,2] s1)", 8, 9),
    ("s0 U[4,4] ((F[0,3] s2) R[0,2] s1)", 8, 9),
    ("G[0,2] ((F[0,3] s2) U[0,2] s1)", 6, 7),
    ("!((F[0,3] s2) U[0,2] s1) & F[0,4] s0", 4, 5),
    ("!((F[0,3] s2) U[0,2] s1) | F[0,6] s0", 6, 6),
    ("((F[0,4095] s0) U[0,1] s1) R[0,1] s2", 4095, 4097),
    ("F[0,4095] ((F[0,4095] s0) R[0,0] s1)", 4095, 8190),
];

/// The answer to a formula typed alone, and its table.
fn typed_alone(formula: &str) -> ((u32, usize), TableBytes) {
    let mut table = [0xaa; TABLE_BYTES];
    let answer = read_text(format!("7: {formula}\n").as_bytes(), &mut table);
    (answer, table)
}

#[test]
fn worked_delays() {
    for (formula, new, old) in WORKED {
        let (answer, table) = typed_alone(formula);
        assert_eq!(answer, (OK, 0), "{formula}");
        assert_eq!(delay(&table, 0), (OK, new), "{formula}");
        let t = sound(&table).unwrap();
        assert_eq!((t.rule_delay(0), t.rule_delay_under(Old, 0)), (new, old), "{formula}");
    }
    for formula in [
        "F[0,1] ((F[0,4095] s0) U[0,1] s1)",
        "((F[0,4095] s0) U[0,1] s1) R[0,2] s2",
        "s2 U[1,1] ((F[0,4095] s0) U[0,1] s1)",
        "(F[0,1] ((F[0,4095] s0) U[0,1] s1)) R[3,3] s2",
        "((F[0,4095] s0) U[1,2] s1) U[0,0] s2",
        "((F[0,4095] F[0,1] s0) U[0,0] s1) U[0,0] s2",
    ] {
        assert_eq!(typed_alone(formula), ((LONG, 1), [0xaa; TABLE_BYTES]), "{formula}");
    }
}

/// The verdict of tick 0, quantifier by quantifier.
fn first_verdict(t: &Table, states: &[u32]) -> bool {
    t.verdicts(t.rules[0].watched as usize, states)[0]
}

/// A verdict waits for so many states and not for more: the last of them changes it in some trace, and the one behind it in none.
#[test]
fn worked_delays_are_needed() {
    let mut r = Random(111);
    for (formula, delay, _) in WORKED.into_iter().filter(|row| row.1 < 10) {
        let t = sound(&typed_alone(formula).1).unwrap();
        let (last, mut changed) = (delay as usize, 0);
        for tried in 0.. {
            let mut states: Vec<u32> = (0..last + 2).map(|_| r.below(8) as u32).collect();
            let verdict = first_verdict(&t, &states[..last + 1]);
            assert_eq!(first_verdict(&t, &states), verdict, "{formula} on {states:?}");
            states[last] ^= 1 + r.below(7) as u32;
            changed += (first_verdict(&t, &states[..last + 1]) != verdict) as u32;
            assert!(tried < 1_000_000, "{formula}");
            if tried > 1_000 && changed > 0 {
                break;
            }
        }
    }
}

/// F[0,a] F[0,b] s0 for a left operand [a, b], then lo and hi, and F[0,c] s1 for a right operand c; the delay of U or R over them, and the old one.
type Row = ([u16; 2], [u16; 2], u16, u32, u32);

/// Delays at the limit and beside it.
const LIMITS: [Row; 36] = [
    ([95, 0], [0, 4000], 0, 4094, 4095),
    ([95, 0], [0, 4001], 0, 4095, 4096),
    ([95, 0], [0, 4002], 0, 4096, 4097),
    ([95, 0], [4000, 4001], 0, 4095, 4096),
    ([95, 0], [4001, 4002], 0, 4096, 4097),
    ([95, 0], [4000, 4000], 0, 4000, 4095),
    ([95, 0], [4001, 4001], 0, 4001, 4096),
    ([95, 0], [4095, 4095], 0, 4095, 4190),
    ([50, 45], [0, 4001], 94, 4095, 4096),
    ([50, 45], [0, 4001], 95, 4096, 4096),
    ([50, 45], [4001, 4001], 94, 4095, 4096),
    ([50, 45], [4001, 4001], 95, 4096, 4096),
    ([0, 0], [0, 4095], 0, 4095, 4095),
    ([0, 0], [0, 4095], 1, 4096, 4096),
    ([0, 0], [4095, 4095], 0, 4095, 4095),
    ([0, 0], [4095, 4095], 1, 4096, 4096),
    ([1, 0], [0, 4095], 0, 4095, 4096),
    ([0, 2], [0, 4095], 0, 4096, 4097),
    ([1, 0], [4095, 4095], 0, 4095, 4096),
    ([2, 0], [0, 4094], 1, 4095, 4096),
    ([3, 0], [0, 4094], 1, 4096, 4097),
    ([4095, 0], [0, 0], 0, 0, 4095),
    ([4094, 1], [0, 0], 4095, 4095, 4095),
    ([4095, 0], [0, 1], 0, 4095, 4096),
    ([4095, 0], [0, 2], 0, 4096, 4097),
    ([4095, 0], [1, 1], 0, 1, 4096),
    ([4095, 0], [1, 2], 0, 4096, 4097),
    ([4095, 0], [4095, 4095], 0, 4095, 8190),
    ([4095, 0], [4094, 4094], 1, 4095, 8189),
    ([4095, 0], [4095, 4095], 1, 4096, 8190),
    ([4095, 0], [4094, 4095], 0, 8189, 8190),
    ([4095, 0], [0, 1], 4094, 4095, 4096),
    // A left operand that is too long itself.
    ([4095, 1], [0, 0], 0, 0, 4096),
    ([1, 4095], [0, 0], 4095, 4095, 4096),
    ([2048, 2048], [7, 7], 0, 7, 4103),
    ([4095, 1], [0, 1], 0, 4096, 4097),
];

/// The table of a row, U or R its last node.
fn until(kind: u8, ([a, b], [lo, hi], c, ..): Row) -> Table {
    let mut f = Formula::default();
    let p = f.signal(0);
    let left = f.finally(0, b, p);
    let left = f.finally(0, a, left);
    let q = f.signal(1);
    let right = f.finally(0, c, q);
    let last = f.until(lo, hi, left, right);
    let mut t = f.table();
    t.nodes[last as usize].kind = kind;
    t
}

fn until_text(kind: u8, ([a, b], [lo, hi], c, ..): Row) -> String {
    format!("1: (F[0,{a}] F[0,{b}] s0) {}[{lo},{hi}] F[0,{c}] s1\n", if kind == 9 { 'U' } else { 'R' })
}

/// The numbers of all calls that read the new delay, on a table and on a session of it.
fn numbers(r: &mut Random, table: &TableBytes) -> [u32; 9] {
    let session = || forged(*table, 0, 3);
    let (mut history, mut x, mut o) = (short_words(r, HISTORY_WORDS), words(r, EARLY_SCRATCH_WORDS), words(r, CLOSE_WORDS));
    [
        delay(table, 0).0,
        write(table, &mut [0; WRITTEN_BYTES]).0,
        verdicts(table, 0, &[1, 2], &mut x, &mut o),
        early(table, 0, &[1, 2], 1, &mut x).0,
        simplify(&mut { *table }),
        open(table, 0, &mut session()),
        library::widen(&session(), &mut session_bytes(r)),
        library::feed(&mut session(), &[1, 2], &mut history, &mut x, &mut o).0,
        library::close(&mut session(), &history, &mut x, &mut o).0,
    ]
}

/// Lengths of history, scratch and out that are just enough for a close.
const FIT: (usize, usize, usize) = (HISTORY_WORDS, SCRATCH_WORDS, CLOSE_WORDS);

/// The second close on a session, over buffers of these lengths: the number and the count, which are those of the first row that fits.
fn ended(r: &mut Random, session: &SessionBytes, (h, x, o): (usize, usize, usize)) -> (u32, u32) {
    let (history, mut x, mut o) = (short_words(r, h), words(r, x), words(r, o));
    let mut after = *session;
    let answer = close_under(Wide, Old, &mut after, &history, &mut x, &mut o);
    let short = history.len() < HISTORY_WORDS || x.len() < SCRATCH_WORDS || o.len() < CLOSE_WORDS;
    match model::session(Wide, Old, session) {
        None => assert_eq!(answer, (UNSOUND, 0)),
        Some(_) if short => assert_eq!(answer, (BUFFER, 0)),
        Some(s) => {
            let delay = s.table.rule_delay_under(Old, s.rule as usize) as u64;
            assert_eq!(answer, (OK, s.seen.min(delay) as u32));
            assert_eq!(after, forged(s.table.bytes(), s.rule, 0));
        }
    }
    assert!(answer.0 == OK || after == *session, "a refused call writes nothing");
    answer
}

/// Both readers, and every call on what they would have yielded. A part is tried before the whole.
#[test]
fn delays_at_the_limit() {
    let mut r = Random(102);
    for row in LIMITS {
        let ([a, b], _, _, new, old) = row;
        for kind in [9, 10] {
            let (t, text) = (until(kind, row), until_text(kind, row));
            assert_eq!((t.rule_delay(0), t.rule_delay_under(Old, 0)), (new, old), "{text}");
            // The places of F[0,a] F[0,b] s0 and of the last node.
            let first_long = if a as u32 + b as u32 > LONGEST { Some(2) } else { (new > LONGEST).then_some(5) };
            let (in_book, in_text, number) = match first_long {
                Some(place) => ((LONG, place + 1), (LONG, 1), UNSOUND),
                None => ((OK, 0), (OK, 0), OK),
            };
            let (mut of_book, mut of_text, table) = ([0xaa; TABLE_BYTES], [0xaa; TABLE_BYTES], t.bytes());
            let book = written::book(&t);
            assert_eq!(read(&book, &mut of_book), in_book, "{text}");
            assert_eq!(check_book(&book), in_book.0 + 256 * in_book.1 as u32, "{text}");
            assert_eq!(read_text(text.as_bytes(), &mut of_text), in_text, "{text}");
            let wanted = if number == OK { table } else { [0xaa; TABLE_BYTES] };
            assert!(of_book == wanted && of_text == wanted, "{text}");
            assert_eq!(numbers(&mut r, &table), [number; 9], "{text}");
            assert_eq!(ended(&mut r, &forged(table, 0, 9_000), FIT), if old <= LONGEST { (OK, old) } else { (UNSOUND, 0) }, "{text}");
        }
    }
}

/// Tables that the new delay alone accepts: every call takes them, but for the second close.
#[test]
fn tables_of_the_new_delay_alone() {
    let mut r = Random(103);
    for _ in 0..400 {
        let t = new_table(&mut r);
        let table = t.bytes();
        assert_eq!(numbers(&mut r, &table), [OK; 9], "{t:?}");
        assert_eq!(read(&written::book(&t), &mut [0; TABLE_BYTES]), (OK, 0), "{t:?}");
        let rule = r.below(t.rules.len() as u64) as u32;
        let seen = count_beside(&mut r, t.rule_delay(rule as usize));
        let (mut session, history) = (forged(table, rule, seen), short_words(&mut r, HISTORY_WORDS));
        let (mut x, mut o) = (words(&mut r, SCRATCH_WORDS), words(&mut r, CLOSE_WORDS));
        assert_eq!(ended(&mut r, &session, FIT), (UNSOUND, 0), "{t:?}");
        let count = seen.min(t.rule_delay(rule as usize) as u64) as u32;
        assert_eq!(close(&mut session, &history, &mut x, &mut o), (OK, count), "{t:?}");
    }
}

/// The interval of one temporal node made longer, or a single point.
fn lengthen(r: &mut Random, t: &mut Table) {
    let temporal: Vec<usize> = (0..t.nodes.len()).filter(|i| t.nodes[*i].kind >= 7).collect();
    if !temporal.is_empty() {
        let n = &mut t.nodes[r.pick(&temporal)];
        n.hi = LONGEST.min(n.hi as u32 + r.pick(&[0, 1, 2, 100, LONGEST])) as u16;
        n.lo = if r.chance(3) { n.hi } else { n.lo };
    }
}

/// Tables whose delays are about as long as they may be: every call asks it of every part.
#[test]
fn tables_beside_the_limit() {
    let mut r = Random(112);
    let (mut both, mut new, mut parts, mut wholes) = (0, 0, 0, 0);
    for _ in 0..2_500 {
        let count = 3 + r.below(MAX_NODES as u64 - 2) as usize;
        let mut t = any_table(&mut r, count, MAX_DELAY);
        lengthen(&mut r, &mut t);
        let (table, book) = (t.bytes(), written::book(&t));
        let (is_new, is_old) = (sound(&table).is_some(), sound_under(Old, &table).is_some());
        assert_eq!(numbers(&mut r, &table), [if is_new { OK } else { UNSOUND }; 9], "{t:?}");
        assert_eq!(read(&book, &mut [0; TABLE_BYTES]), model::read(&book).map_or_else(|refusal| refusal, |_| (OK, 0)), "{t:?}");
        assert_eq!(ended(&mut r, &forged(table, 0, 3), FIT).0, if is_old { OK } else { UNSOUND }, "{t:?}");
        let watched_fit = (0..t.rules.len()).all(|rule| t.rule_delay(rule) <= LONGEST);
        let kind = if is_old { &mut both } else if is_new { &mut new } else if watched_fit { &mut parts } else { &mut wholes };
        *kind += 1;
    }
    assert!([both, new, parts, wholes].iter().all(|n| *n > 100), "{both} {new} {parts} {wholes}");
}

#[test]
fn random_extreme_and_damaged_sessions() {
    let mut r = Random(104);
    let (mut seen, mut today, mut absent) = ([0u32; NUMBERS], 0, 0);
    for _ in 0..6_000 {
        let (count, longest) = (1 + r.below(20) as usize, r.pick(&[MAX_DELAY, MAX_DELAY, 300, 9]));
        let t = if r.chance(8) { new_table(&mut r) } else { any_table(&mut r, count, longest) };
        let table = if r.chance(6) { damaged_table(&mut r, &t) } else { t.bytes() };
        let rule = if r.chance(8) { absent_rule(&mut r, t.rules.len()) } else { r.below(t.rules.len() as u64) as u32 };
        let old = t.delays_under(Old)[t.rules[rule as usize % t.rules.len()].watched as usize];
        let mut session = forged(table, rule, count_beside(&mut r, old));
        if r.chance(6) {
            damage(&mut r, &mut session);
        }
        let lengths = if r.chance(3) { r.pick(&lengths(CLOSE_WORDS)) } else { FIT };
        seen[ended(&mut r, &session, lengths).0 as usize] += 1;
        // What is refused with 25 alone may be a session of today's.
        let is_old = model::session(Wide, Old, &session).is_some();
        let is_new = model::session(Wide, New, &session).is_some();
        assert!(is_new || !is_old, "{t:?}");
        today += (is_new && !is_old) as u32;
        absent += (rule as usize >= t.rules.len()) as u32;
    }
    assert!([OK, UNSOUND, BUFFER].iter().all(|n| seen[*n as usize] > 500) && today > 200 && absent > 200, "{seen:?} {today} {absent}");
}

/// Each session whose table or rule number differs in one bit from that of one on a large table.
#[test]
fn every_bit() {
    let mut r = Random(105);
    let mut seen = [0u32; NUMBERS];
    for _ in 0..3 {
        let mut t = old_table(&mut r, MAX_NODES, MAX_DELAY);
        t.rules.iter_mut().for_each(|q| q.watched = MAX_NODES as u8 - 1);
        let session = forged(t.bytes(), 0, 20 + r.below(60));
        for bit in 0..8 * SEEN_AT {
            let mut other = session;
            other[bit / 8] ^= 1 << (bit % 8);
            seen[ended(&mut r, &other, FIT).0 as usize] += 1;
        }
    }
    assert!([OK, UNSOUND].iter().all(|n| seen[*n as usize] > 1_000), "{seen:?}");
}

/// The dentist's rule, (F[0,3] s2) U[0,2] s1, with which five states are kept, and now four.
fn dentist() -> TableBytes {
    let (answer, table) = typed_alone("(F[0,3] s2) U[0,2] s1");
    assert_eq!(answer, (OK, 0));
    table
}

/// Buffers of every length, counts up to the largest, and a rule number that is too high.
#[test]
fn refusals_and_their_order() {
    let mut r = Random(106);
    // With F[0,4094] instead of F[0,3].
    let mut long = dentist();
    long[node_at(1) + 4..node_at(1) + 6].copy_from_slice(&4094u16.to_le_bytes());
    assert_eq!(sound(&long).map(|t| (t.rule_delay(0), t.rule_delay_under(Old, 0))), Some((4095, 4096)));
    for (table, rule, wanted) in [(dentist(), 0, OK), (dentist(), 1, UNSOUND), (dentist(), u32::MAX, UNSOUND), (long, 0, UNSOUND)] {
        for seen in [0, 1, 3, 4, 5, 6, 255, 1 << 16, MAX_NARROW_SEEN as u64, 1 << 32, (1 << 32) + 4, 1 << 63, u64::MAX - 1, u64::MAX] {
            for (i, lengths) in lengths(CLOSE_WORDS).into_iter().enumerate() {
                let fit = matches!(i, 0 | 5);
                let (number, _) = ended(&mut r, &forged(table, rule, seen), lengths);
                assert_eq!(number, if wanted == OK && !fit { BUFFER } else { wanted });
            }
        }
    }
}

/// Eight states under both delays: the verdicts, in the bits of a word, and the states kept.
#[test]
fn worked_session() {
    let mut r = Random(107);
    let states = [4, 0, 0, 2, 4, 0, 0, 2];
    let (mut old, mut new) = (session_bytes(&mut r), session_bytes(&mut r));
    assert_eq!(model::open(Old, &dentist(), 0, &mut old), OK);
    assert_eq!(open(&dentist(), 0, &mut new), OK);
    same("session", &old, &new);
    let (mut old_history, mut new_history) = (short_words(&mut r, HISTORY_WORDS), short_words(&mut r, HISTORY_WORDS));
    let (mut x, mut o) = (words(&mut r, SCRATCH_WORDS), words(&mut r, CLOSE_WORDS));
    assert_eq!(feed_under(Wide, Old, &mut old, &states, &mut old_history, &mut x, &mut o), (OK, 3));
    assert_eq!((o[0], &old_history[..5]), (0b110, &[2, 4, 0, 0, 2][..]));
    assert_eq!(feed_under(Wide, New, &mut new, &states, &mut new_history, &mut x, &mut o), (OK, 4));
    assert_eq!((o[0], &new_history[..4]), (0b1110, &[4, 0, 0, 2][..]));
    same("session", &old, &new);
    assert_eq!(close_under(Wide, Old, &mut old, &old_history, &mut x, &mut o), (OK, 5));
    assert_eq!(o[0], 0b10001);
    assert_eq!(close(&mut new, &new_history, &mut x, &mut o), (OK, 4));
    assert_eq!(o[0], 0b1000);
    same("session", &old, &forged(dentist(), 0, 0));
    same("session", &new, &old);
}

/// A trace on a session, and its verdicts. Under the old delay, and a narrow count, the model does what the library of that time did.
#[derive(Clone)]
struct Mission {
    width: Width,
    delay: Delay,
    session: SessionBytes,
    history: Vec<u32>,
    given: Vec<bool>,
}

impl Mission {
    fn open(r: &mut Random, width: Width, delay: Delay, table: &TableBytes, rule: usize) -> Mission {
        let mut session = session_bytes(r);
        let number = match delay {
            New => open(table, rule as u32, &mut session),
            Old => model::open(Old, table, rule as u32, &mut session),
        };
        assert_eq!(number, OK);
        Mission { width, delay, session, history: short_words(r, HISTORY_WORDS), given: vec![] }
    }

    fn feed(&mut self, r: &mut Random, block: &[u32]) {
        let (mut x, mut o) = (words(r, SCRATCH_WORDS), words(r, FEED_WORDS));
        let (number, count) = feed_under(self.width, self.delay, &mut self.session, block, &mut self.history, &mut x, &mut o);
        assert_eq!(number, OK);
        self.given.extend(bits(&o, count));
    }

    fn feed_in_blocks(&mut self, r: &mut Random, states: &[u32]) {
        let mut rest = states;
        while !rest.is_empty() {
            let (block, behind) = rest.split_at(block_length(r).min(rest.len()));
            self.feed(r, block);
            rest = behind;
        }
    }

    /// The library's end of the trace, for which a narrow session is widened. It is then as an opening leaves it. Answers all verdicts.
    fn end(&mut self, r: &mut Random) -> Vec<bool> {
        if self.width == Narrow {
            let narrow = self.session;
            assert_eq!(widen(r, &narrow, &mut self.session), OK);
        }
        let before = self.session;
        let (mut x, mut o) = (words(r, SCRATCH_WORDS + 1), words(r, CLOSE_WORDS + 1));
        let (number, count) = close_under(Wide, self.delay, &mut self.session, &self.history, &mut x, &mut o);
        assert_eq!(number, OK);
        let mut opened = session_bytes(r);
        let rule = u32::from_le_bytes(before[RULE_NUMBER_AT..SEEN_AT].try_into().unwrap());
        assert_eq!(open(before.first_chunk().unwrap(), rule, &mut opened), OK);
        same("session", &self.session, &opened);
        (self.width, self.delay) = (Wide, New);
        [std::mem::take(&mut self.given), bits(&o, count)].concat()
    }
}

/// A rule of a table that is sound under both delays, and its delays in the table that its sessions run, which is simplified or not.
struct Watched {
    table: Table,
    run: TableBytes,
    rule: usize,
    new: usize,
    old: usize,
}

impl Watched {
    /// Mostly a rule whose delays are not the same.
    fn random(r: &mut Random) -> Watched {
        loop {
            let w = Watched::any(r);
            if w.new < w.old || r.chance(60) {
                return w;
            }
        }
    }

    fn any(r: &mut Random) -> Watched {
        let (count, longest) = (1 + r.below(14) as usize, r.pick(&[MAX_DELAY, MAX_DELAY, 1100, 300, 70, 9]));
        let table = old_table(r, count, longest);
        let mut bytes = table.bytes();
        if r.chance(3) {
            assert_eq!(simplify(&mut bytes), OK);
        }
        let run = sound_under(Old, &bytes).unwrap_or(table.clone());
        let rule = r.below(table.rules.len() as u64) as usize;
        let (new, old) = (run.rule_delay(rule) as usize, run.rule_delay_under(Old, rule) as usize);
        Watched { table, run: run.bytes(), rule, new, old }
    }

    fn open(&self, r: &mut Random, width: Width, delay: Delay) -> Mission {
        Mission::open(r, width, delay, &self.run, self.rule)
    }

    /// States for a trace, often about as many as the delays.
    fn states(&self, r: &mut Random) -> Vec<u32> {
        let n = match r.below(4) {
            0 => r.below(40) as usize,
            1 => r.below(400) as usize,
            2 => self.new + r.below(4) as usize,
            _ => self.old + r.below(200) as usize,
        };
        trace(r, n)
    }

    /// The verdicts of the rule on a whole trace, before simplifying.
    fn verdicts(&self, states: &[u32]) -> Vec<bool> {
        let right = self.table.rule_verdicts(self.rule, states);
        if states.len() <= 150 {
            assert_eq!(right, self.table.verdicts(self.table.rules[self.rule].watched as usize, states));
        }
        right
    }
}

/// Whole traces, in blocks of different lengths. The old session, which may be narrow, goes on under the new delay once it has ended.
#[test]
fn missions_under_both_delays() {
    let mut r = Random(108);
    let (mut narrow, mut smaller, mut before, mut at_close) = (0, 0, 0, 0);
    for _ in 0..1_500 {
        let w = Watched::random(&mut r);
        let width = r.pick(&[Narrow, Wide]);
        let (mut old, mut new) = (w.open(&mut r, width, Old), w.open(&mut r, Wide, New));
        let states = w.states(&mut r);
        old.feed_in_blocks(&mut r, &states);
        new.feed_in_blocks(&mut r, &states);
        assert_eq!([old.given.len(), new.given.len()], [w.old, w.new].map(|delay| states.len().saturating_sub(delay)));
        before += old.given.len();
        at_close += states.len() - old.given.len();
        let (old_verdicts, new_verdicts) = (old.end(&mut r), new.end(&mut r));
        assert!(old_verdicts == new_verdicts && new_verdicts == w.verdicts(&states), "{:?} rule {}", w.table, w.rule);
        narrow += (width == Narrow) as u32;
        smaller += (w.new < w.old) as u32;
        let states = w.states(&mut r);
        old.feed_in_blocks(&mut r, &states);
        assert!(old.end(&mut r) == w.verdicts(&states), "{:?} rule {}", w.table, w.rule);
    }
    assert!(narrow > 500 && smaller > 800 && before > 10_000 && at_close > 10_000, "{narrow} {smaller} {before} {at_close}");
}

/// Block by block: what is given under the old delay is given under the new one, which never gives less; if the trace ends there, the verdicts are the same.
#[test]
fn verdicts_before_a_close() {
    let mut r = Random(109);
    let (mut earlier, mut closes) = (0, 0);
    for _ in 0..700 {
        let w = Watched::random(&mut r);
        let (mut old, mut new) = (w.open(&mut r, Wide, Old), w.open(&mut r, Wide, New));
        let (states, mut fed) = (w.states(&mut r), 0);
        while fed < states.len() {
            let k = block_length(&mut r).min(states.len() - fed);
            old.feed(&mut r, &states[fed..fed + k]);
            new.feed(&mut r, &states[fed..fed + k]);
            fed += k;
            let common = old.given.len();
            assert!(new.given.len() >= common && new.given[..common] == old.given, "{:?} rule {}", w.table, w.rule);
            earlier += new.given.len() - common;
            if r.chance(4) {
                let (old, new) = (old.clone().end(&mut r), new.clone().end(&mut r));
                assert!(old == new && new == w.verdicts(&states[..fed]), "{:?} rule {}", w.table, w.rule);
                closes += 1;
            }
        }
        // Whatever states still come.
        let longer = [&states[..], &trace(&mut r, 60)].concat();
        assert!(w.verdicts(&longer).starts_with(&new.given), "{:?} rule {}", w.table, w.rule);
    }
    assert!(earlier > 10_000 && closes > 500, "{earlier} {closes}");
}

/// Narrow sessions that have seen nearly as many states as they can count.
#[test]
fn narrow_sessions_beside_their_limit() {
    let mut r = Random(110);
    let mut smaller = 0;
    for _ in 0..300 {
        let w = Watched::random(&mut r);
        let room = r.pick(&[0, 1, 3, 64, 500]);
        let block = trace(&mut r, room);
        let left = MAX_NARROW_SEEN as u64 - room as u64 - r.below(3);
        let mut old = w.open(&mut r, Narrow, Old);
        old.session = forged(w.run, w.rule as u32, left);
        old.history = trace(&mut r, HISTORY_WORDS);
        let states = [&old.history[..w.old], &block].concat();
        old.feed(&mut r, &block);
        assert_eq!((old.given.len(), seen_in(&old.session)), (room, left + room as u64));
        assert!(old.end(&mut r) == w.verdicts(&states), "{:?} rule {}", w.table, w.rule);
        smaller += (w.new < w.old) as u32;
    }
    assert!(smaller > 150, "{smaller}");
}
