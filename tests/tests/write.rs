//! Books written of tables, against the writer of `written`, rows worked by hand, and the reader.
use juntreak_tests::header::limits::{
    CLOSE_WORDS, HISTORY_WORDS, MAX_DELAY, MAX_NAME, MAX_NODES, MAX_RULES, MAX_SIGNAL, NODE_COUNT_AT, RECORD_BYTES, RULE_COUNT_AT, SCRATCH_WORDS, SESSION_BYTES,
    TABLE_BYTES, WRITTEN_BYTES,
};
use juntreak_tests::header::places::{node_at, rule_at};
use juntreak_tests::header::refusals::{OK, OUTPUT, UNSOUND};
use juntreak_tests::header::NUMBERS;
use juntreak_tests::library::{check_book, close, feed, open, read, read_text, simplify, write, TableBytes};
use juntreak_tests::model::{self, sound, Node, Rule, Table};
use juntreak_tests::random::{
    any_table, asked, book, bytes, damage, damaged_table, law_free, lines, names, redundant, short_words, table, text, trace, words, Random, EDGE_NAMES,
};
use juntreak_tests::typed;
use juntreak_tests::written::{self, Record, LOWER, NEXT, UPPER, WORKED};
use juntreak_tests::{only_read, same};

/// Bytes before and behind the output that are not lent, more than any book has.
const AROUND: usize = WRITTEN_BYTES + 4;

/// One call over dirty output of a length, every byte in and around it compared with the model's; returns the number and the length.
fn call(r: &mut Random, table: &TableBytes, length: usize) -> (u32, usize) {
    let mut got = bytes(r, AROUND + length + AROUND);
    let (mut wanted, lent) = (got.clone(), AROUND..AROUND + length);
    let answer = only_read("table", table, |table| write(table.try_into().unwrap(), &mut got[lent.clone()]));
    assert_eq!(answer, written::write(table, &mut wanted[lent]), "an output of {length} bytes for {:?}", sound(table));
    if got != wanted {
        same(&format!("output of {length} bytes, from -{AROUND} on, for {:?}", sound(table)), &got, &wanted);
    }
    answer
}

/// The book of a sound table.
fn book_of(table: &TableBytes) -> Vec<u8> {
    let mut out = vec![0xaa; WRITTEN_BYTES];
    let (number, length) = write(table, &mut out);
    assert_eq!(number, OK, "{:?}", sound(table));
    out.truncate(length);
    out
}

/// The table of an accepted book.
fn table_of(book: &[u8]) -> TableBytes {
    let mut table = [0xaa; TABLE_BYTES];
    assert_eq!(read(book, &mut table), (OK, 0), "{book:?}");
    table
}

/// The length of the book, by the counts.
fn needed(table: &TableBytes) -> usize {
    RECORD_BYTES * (1 + table[NODE_COUNT_AT] as usize + table[RULE_COUNT_AT] as usize)
}

/// Everything that holds of a sound table's book: outputs that are too short, just long enough and longer, and the table that reading yields.
fn compare(r: &mut Random, table: &TableBytes) -> Vec<u8> {
    let needed = needed(table);
    for long in [needed, needed + 1, needed + 2 + r.below(2_000) as usize] {
        assert_eq!(call(r, table, long), (OK, needed));
    }
    for short in [needed - 1, r.below(needed as u64 - 1) as usize] {
        assert_eq!(call(r, table, short), (OUTPUT, 0));
    }
    let book = book_of(table);
    assert_eq!(book.len(), needed);
    assert_eq!(check_book(&book), OK, "{book:?}");
    same("table read back", &table_of(&book), table);
    book
}

/// So many rules that watch any nodes.
fn rules(r: &mut Random, count: usize, nodes: usize) -> Vec<Rule> {
    names(r, count).into_iter().map(|name| Rule { name, watched: r.below(nodes as u64) as u8 }).collect()
}

/// A sound table of so many nodes and rules.
fn sized(r: &mut Random, nodes: usize, rule_count: usize, longest: usize) -> Table {
    let mut t = any_table(r, nodes, longest);
    t.rules = rules(r, rule_count, nodes);
    t
}

/// A sound table of any size, the smallest and the largest ones too.
fn random_table(r: &mut Random) -> Table {
    let (nodes, rule_count) = (1 + r.below(MAX_NODES as u64) as usize, 1 + r.below(MAX_RULES as u64) as usize);
    let nodes = r.pick(&[nodes, nodes, 1 + nodes % 9, 1, MAX_NODES]);
    let longest = r.pick(&[MAX_DELAY, MAX_DELAY, 300, 9]);
    if r.chance(2) {
        sized(r, nodes, rule_count, longest)
    } else {
        any_table(r, nodes, longest)
    }
}

#[test]
fn random_tables() {
    let mut r = Random(61);
    let (mut sizes, mut halves, mut edges) = ([[0u32; MAX_RULES + 1]; MAX_NODES + 1], [[0u32; 256]; 2], [0u32; EDGE_NAMES.len()]);
    for _ in 0..12_000 {
        let t = if r.chance(8) { law_free(&mut r, 20, 300) } else { random_table(&mut r) };
        assert_eq!(compare(&mut r, &t.bytes()), written::book(&t));
        sizes[t.nodes.len()][t.rules.len()] += 1;
        for name in t.rules.iter().map(|q| q.name) {
            halves[0][name as usize % 256] += 1;
            halves[1][name as usize / 256] += 1;
            edges.iter_mut().zip(EDGE_NAMES).for_each(|(times, edge)| *times += (edge == name) as u32);
        }
    }
    for rules in 1..=MAX_RULES {
        assert!((1..=MAX_NODES).all(|nodes| sizes[nodes][rules] > 0), "not every table of {rules} rules: {sizes:?}");
        assert!(sizes[1][rules] > 50 && sizes[MAX_NODES][rules] > 50, "{sizes:?}");
    }
    assert!(halves.concat().iter().all(|times| *times > 30), "{halves:?}");
    assert!(edges.iter().all(|times| *times > 100), "{edges:?}");
}

/// Books with rules between the nodes, in any order, with spare records: the written one has none of it.
#[test]
fn tables_of_books() {
    let mut r = Random(62);
    let (mut shorter, mut other) = (0, 0);
    for _ in 0..6_000 {
        let t = random_table(&mut r);
        let (first, second) = (book(&mut r, &t), book(&mut r, &t));
        let table = table_of(&first);
        same("the table of another book", &table_of(&second), &table);
        let written = compare(&mut r, &table);
        same("the written book", &written, &written::book(&t));
        shorter += (written.len() < first.len()) as u32;
        other += (written.len() == first.len() && written != first) as u32;
    }
    assert!(shorter > 3_000 && other > 100, "{shorter} {other}");
}

#[test]
fn tables_of_typed_rules() {
    let mut r = Random(63);
    let mut full = 0;
    for _ in 0..3_000 {
        let (count, long) = (1 + r.below(MAX_RULES as u64) as usize, MAX_NODES / MAX_RULES);
        let mut counts: Vec<usize> = (0..count).map(|_| 1 + r.below(long as u64) as usize).collect();
        if r.chance(4) {
            counts = vec![long; MAX_RULES];
        }
        let longest = r.pick(&[MAX_DELAY, 300]);
        let typed = lines(&mut r, &counts, longest);
        let mut table = [0xaa; TABLE_BYTES];
        assert_eq!(read_text(&text(&mut r, &typed), &mut table), (OK, 0));
        let written = compare(&mut r, &table);
        same("the typed rules' book", &written, &written::book(&typed::table(&typed)));
        full += (written.len() == WRITTEN_BYTES) as u32;
    }
    assert!(full > 300, "{full}");
}

#[test]
fn simplified_tables() {
    let mut r = Random(64);
    let (mut shorter, mut large) = (0, 0);
    for _ in 0..3_000 {
        let nodes = 1 + r.below(MAX_NODES as u64) as usize;
        let longest = r.pick(&[MAX_DELAY, 300, 9]);
        let before = redundant(&mut r, nodes, longest).bytes();
        let mut table = before;
        assert_eq!(simplify(&mut table), OK);
        let (long, short) = (compare(&mut r, &before), compare(&mut r, &table));
        // The rules keep their names and their order.
        let named = |book: &[u8]| -> Vec<u16> { model::read(book).unwrap().rules.iter().map(|q| q.name).collect() };
        assert_eq!(named(&short), named(&long));
        shorter += (short.len() < long.len()) as u32;
        large += (short.len() < long.len() && named(&short).iter().any(|name| *name > 255)) as u32;
    }
    assert!(shorter > 2_000 && large > 1_000, "{shorter} {large}");
}

/// 64 nodes and 8 rules: the longest book.
#[test]
fn full_tables() {
    let mut r = Random(65);
    for _ in 0..1_500 {
        let longest = r.pick(&[MAX_DELAY, 300, 9]);
        let t = sized(&mut r, MAX_NODES, MAX_RULES, longest);
        assert_eq!(compare(&mut r, &t.bytes()).len(), WRITTEN_BYTES);
    }
}

const HEAD: Record = [0, 0, 0, 0, 0, 0, 0, 0, 1, 0, 0, 0];

/// Names of every lower half and of every upper half, those at the limits among them.
fn many_names() -> impl Iterator<Item = u16> {
    (1..=MAX_NAME as u16).step_by(251).chain(EDGE_NAMES)
}

/// One node and one rule: every node, with many names.
#[test]
fn smallest_tables() {
    let mut r = Random(66);
    let mut halves = [[0u32; 256]; 2];
    for name in many_names() {
        let [lower, upper] = name.to_le_bytes();
        halves[0][lower as usize] += 1;
        halves[1][upper as usize] += 1;
        for (kind, arg) in (0..=MAX_SIGNAL as u8).map(|s| (1, s)).chain([(2, 0), (3, 0)]) {
            let mut table = [0; TABLE_BYTES];
            (table[NODE_COUNT_AT], table[RULE_COUNT_AT]) = (1, 1);
            (table[node_at(0)], table[node_at(0) + 1], table[rule_at(0)], table[rule_at(0) + 1]) = (kind, arg, lower, upper);
            let wanted = [HEAD, [kind, arg, 0, 0, 0, 0, 0, 0, 2, 0, 0, 0], [11, lower, 0, 0, 0, 0, 1, 0, 0, upper, 0, 0]];
            assert_eq!(compare(&mut r, &table), wanted.concat());
        }
    }
    assert!(halves.concat().iter().all(|times| *times > 0), "{halves:?}");
}

/// The book that document 01 runs watch with is the written one.
#[test]
fn worked_book() {
    assert_eq!(book_of(&table_of(&WORKED)), WORKED);
    let mut table = [0; TABLE_BYTES];
    assert_eq!(read_text(b"7: F[1,3] s0\n", &mut table), (OK, 0));
    assert_eq!(book_of(&table), WORKED);
}

/// Typed rules and their books: all rules stand behind all nodes.
#[test]
fn worked_texts() {
    let rows: [(&str, &[Record]); 4] = [
        (
            "9: s31\n1: !s0\n255: true\n",
            &[
                HEAD,
                [1, 31, 0, 0, 0, 0, 0, 0, 2, 0, 0, 0],
                [1, 0, 0, 0, 0, 0, 0, 0, 3, 0, 0, 0],
                [4, 0, 0, 0, 0, 0, 2, 0, 4, 0, 0, 0],
                [2, 0, 0, 0, 0, 0, 0, 0, 5, 0, 0, 0],
                [11, 9, 0, 0, 0, 0, 1, 0, 6, 0, 0, 0],
                [11, 1, 0, 0, 0, 0, 3, 0, 7, 0, 0, 0],
                [11, 255, 0, 0, 0, 0, 4, 0, 0, 0, 0, 0],
            ],
        ),
        (
            "263: s1\n65535: true\n256: !s1\n258: false\n513: s2\n7: s1\n",
            &[
                HEAD,
                [1, 1, 0, 0, 0, 0, 0, 0, 2, 0, 0, 0],
                [2, 0, 0, 0, 0, 0, 0, 0, 3, 0, 0, 0],
                [1, 1, 0, 0, 0, 0, 0, 0, 4, 0, 0, 0],
                [4, 0, 0, 0, 0, 0, 3, 0, 5, 0, 0, 0],
                [3, 0, 0, 0, 0, 0, 0, 0, 6, 0, 0, 0],
                [1, 2, 0, 0, 0, 0, 0, 0, 7, 0, 0, 0],
                [1, 1, 0, 0, 0, 0, 0, 0, 8, 0, 0, 0],
                [11, 7, 0, 0, 0, 0, 1, 0, 9, 1, 0, 0],
                [11, 255, 0, 0, 0, 0, 2, 0, 10, 255, 0, 0],
                [11, 0, 0, 0, 0, 0, 4, 0, 11, 1, 0, 0],
                [11, 2, 0, 0, 0, 0, 5, 0, 12, 1, 0, 0],
                [11, 1, 0, 0, 0, 0, 6, 0, 13, 2, 0, 0],
                [11, 7, 0, 0, 0, 0, 7, 0, 0, 0, 0, 0],
            ],
        ),
        (
            "2: (s1 U[258,772] false) & (s2 R[0,255] s3)\n",
            &[
                HEAD,
                [1, 1, 0, 0, 0, 0, 0, 0, 2, 0, 0, 0],
                [3, 0, 0, 0, 0, 0, 0, 0, 3, 0, 0, 0],
                [9, 0, 2, 1, 4, 3, 1, 2, 4, 0, 0, 0],
                [1, 2, 0, 0, 0, 0, 0, 0, 5, 0, 0, 0],
                [1, 3, 0, 0, 0, 0, 0, 0, 6, 0, 0, 0],
                [10, 0, 0, 0, 255, 0, 4, 5, 7, 0, 0, 0],
                [5, 0, 0, 0, 0, 0, 3, 6, 8, 0, 0, 0],
                [11, 2, 0, 0, 0, 0, 7, 0, 0, 0, 0, 0],
            ],
        ),
        (
            "3: G[256,256] s4\n2: F[1,4095] s4 | false\n",
            &[
                HEAD,
                [1, 4, 0, 0, 0, 0, 0, 0, 2, 0, 0, 0],
                [8, 0, 0, 1, 0, 1, 1, 0, 3, 0, 0, 0],
                [1, 4, 0, 0, 0, 0, 0, 0, 4, 0, 0, 0],
                [7, 0, 1, 0, 255, 15, 3, 0, 5, 0, 0, 0],
                [3, 0, 0, 0, 0, 0, 0, 0, 6, 0, 0, 0],
                [6, 0, 0, 0, 0, 0, 4, 5, 7, 0, 0, 0],
                [11, 3, 0, 0, 0, 0, 2, 0, 8, 0, 0, 0],
                [11, 2, 0, 0, 0, 0, 6, 0, 0, 0, 0, 0],
            ],
        ),
    ];
    for (text, wanted) in rows {
        let mut table = [0; TABLE_BYTES];
        assert_eq!(read_text(text.as_bytes(), &mut table), (OK, 0), "{text}");
        assert_eq!(book_of(&table), wanted.concat(), "{text}");
    }
}

/// 64 signals, but for the node at a place, and a rule that watches the last.
fn among_signals(node: Node, place: usize) -> Table {
    let signal = |i| Node { kind: 1, arg: (i % (MAX_SIGNAL + 1)) as u8, lo: 0, hi: 0, left: 0, right: 0 };
    let mut t = Table { nodes: (0..MAX_NODES).map(signal).collect(), rules: vec![Rule { name: 7, watched: MAX_NODES as u8 - 1 }] };
    t.nodes[place] = node;
    t
}

fn record(book: &[u8], number: usize) -> &[u8] {
    &book[number * RECORD_BYTES..][..RECORD_BYTES]
}

/// Kind and argument, lo and hi, left and right; and the record up to its next.
type Row = ([u8; 2], [u16; 2], [u8; 2], [u8; NEXT]);

/// The extremes of every field of every kind, at the last place.
#[test]
fn worked_records() {
    let rows: [Row; 22] = [
        ([1, 0], [0, 0], [0, 0], [1, 0, 0, 0, 0, 0, 0, 0]),
        ([1, 31], [0, 0], [0, 0], [1, 31, 0, 0, 0, 0, 0, 0]),
        ([2, 0], [0, 0], [0, 0], [2, 0, 0, 0, 0, 0, 0, 0]),
        ([3, 0], [0, 0], [0, 0], [3, 0, 0, 0, 0, 0, 0, 0]),
        ([4, 0], [0, 0], [0, 0], [4, 0, 0, 0, 0, 0, 1, 0]),
        ([4, 0], [0, 0], [62, 0], [4, 0, 0, 0, 0, 0, 63, 0]),
        ([5, 0], [0, 0], [0, 62], [5, 0, 0, 0, 0, 0, 1, 63]),
        ([5, 0], [0, 0], [62, 0], [5, 0, 0, 0, 0, 0, 63, 1]),
        ([6, 0], [0, 0], [0, 0], [6, 0, 0, 0, 0, 0, 1, 1]),
        ([6, 0], [0, 0], [62, 62], [6, 0, 0, 0, 0, 0, 63, 63]),
        ([7, 0], [0, 0], [0, 0], [7, 0, 0, 0, 0, 0, 1, 0]),
        ([7, 0], [0, 4095], [62, 0], [7, 0, 0, 0, 255, 15, 63, 0]),
        ([7, 0], [258, 1027], [30, 0], [7, 0, 2, 1, 3, 4, 31, 0]),
        ([8, 0], [4095, 4095], [0, 0], [8, 0, 255, 15, 255, 15, 1, 0]),
        ([8, 0], [255, 256], [62, 0], [8, 0, 255, 0, 0, 1, 63, 0]),
        ([9, 0], [0, 0], [0, 62], [9, 0, 0, 0, 0, 0, 1, 63]),
        ([9, 0], [256, 4095], [62, 0], [9, 0, 0, 1, 255, 15, 63, 1]),
        ([9, 0], [0, 255], [10, 20], [9, 0, 0, 0, 255, 0, 11, 21]),
        ([10, 0], [1, 3841], [0, 0], [10, 0, 1, 0, 1, 15, 1, 1]),
        ([10, 0], [4094, 4095], [62, 62], [10, 0, 254, 15, 255, 15, 63, 63]),
        ([10, 0], [772, 1286], [61, 1], [10, 0, 4, 3, 6, 5, 62, 2]),
        ([10, 0], [0, 4095], [0, 62], [10, 0, 0, 0, 255, 15, 1, 63]),
    ];
    let mut r = Random(67);
    for ([kind, arg], [lo, hi], [left, right], wanted) in rows {
        let t = among_signals(Node { kind, arg, lo, hi, left, right }, 63);
        let book = compare(&mut r, &t.bytes());
        assert_eq!(record(&book, 64), [&wanted[..], &[65, 0, 0, 0]].concat());
        assert_eq!(record(&book, 63), [1, 30, 0, 0, 0, 0, 0, 0, 64, 0, 0, 0]);
        assert_eq!(record(&book, 65), [11, 7, 0, 0, 0, 0, 64, 0, 0, 0, 0, 0]);
    }
}

/// Every place with every operand, every pair of operands of the last place, and intervals whose numbers need one byte or both.
#[test]
fn every_operand() {
    let mut r = Random(68);
    let mut ask = |place: usize, kind: u8, (lo, hi): (u16, u16), left: usize, right: usize| {
        let t = among_signals(Node { kind, arg: 0, lo, hi, left: left as u8, right: right as u8 }, place);
        assert_eq!(call(&mut r, &t.bytes(), WRITTEN_BYTES), (OK, RECORD_BYTES * (1 + MAX_NODES + 1)));
        let right = if matches!(kind, 5 | 6 | 9 | 10) { right as u8 + 1 } else { 0 };
        let wanted = [kind, 0, lo as u8, (lo >> 8) as u8, hi as u8, (hi >> 8) as u8, left as u8 + 1, right];
        assert_eq!(record(&book_of(&t.bytes()), 1 + place)[..NEXT], wanted);
    };
    for place in 1..MAX_NODES {
        for left in 0..place {
            ask(place, 4, (0, 0), left, 0);
            ask(place, 7, (left as u16, 4095), left, 0);
            ask(place, 6, (0, 0), left, place - 1 - left);
        }
    }
    for left in 0..MAX_NODES - 1 {
        for right in 0..MAX_NODES - 1 {
            ask(63, 9, (3, 300), left, right);
        }
    }
    let limits = [0, 1, 15, 16, 254, 255, 256, 257, 511, 512, 1023, 1024, 3839, 3840, 4094, 4095];
    for lo in limits {
        for hi in limits.into_iter().filter(|hi| lo <= *hi) {
            for kind in 7..=10 {
                ask(63, kind, (lo, hi), 40, if kind >= 9 { 41 } else { 0 });
            }
        }
    }
}

/// Many names and every watched node, at every place of a rule, beside names that have one half in common with the name, or none.
#[test]
fn every_rule() {
    let mut r = Random(69);
    let mut t = among_signals(Node { kind: 2, arg: 0, lo: 0, hi: 0, left: 0, right: 0 }, 63);
    for place in 0..MAX_RULES {
        for name in many_names() {
            for watched in [0, (name % 64) as u8, 63] {
                let others = [1, 0x80, 0xff, 0x100, 0x8000, 0xff00, 0x8180, 0xffff, 0x0110].map(|other| name ^ other).into_iter().filter(|other| *other != 0);
                t.rules = others.zip(0..MAX_RULES as u8).map(|(name, i)| Rule { name, watched: 63 - i }).collect();
                t.rules[place] = Rule { name, watched };
                assert_eq!(call(&mut r, &t.bytes(), WRITTEN_BYTES), (OK, WRITTEN_BYTES));
                let ([lower, upper], next) = (name.to_le_bytes(), if place < MAX_RULES - 1 { 66 + place as u8 } else { 0 });
                assert_eq!(record(&book_of(&t.bytes()), 65 + place), [11, lower, 0, 0, 0, 0, watched + 1, 0, next, upper, 0, 0]);
            }
        }
    }
}

/// All names, eight in each table, through the writer and back: only bytes 1 and 9 of the rules' records differ.
#[test]
fn every_name() {
    let mut r = Random(76);
    let mut t = among_signals(Node { kind: 3, arg: 0, lo: 0, hi: 0, left: 0, right: 0 }, 63);
    t.rules = (0..MAX_RULES as u8).map(|i| Rule { name: 1 + i as u16, watched: 7 * i }).collect();
    let small = book_of(&t.bytes());
    // The last names come with those from 1 on.
    for first in (1..=MAX_NAME).step_by(MAX_RULES) {
        let mut wanted = small.clone();
        for i in 0..MAX_RULES {
            t.rules[i].name = ((first + i - 1) % MAX_NAME + 1) as u16;
            let record = (1 + MAX_NODES + i) * RECORD_BYTES;
            [wanted[record + LOWER], wanted[record + UPPER]] = t.rules[i].name.to_le_bytes();
        }
        let table = t.bytes();
        assert_eq!(call(&mut r, &table, WRITTEN_BYTES), (OK, WRITTEN_BYTES));
        let book = book_of(&table);
        same("book", &book, &wanted);
        same("table read back", &table_of(&book), &table);
    }
}

/// Outputs of every length up to more than the longest book, for tables that are sound and for tables that are not.
#[test]
fn every_length() {
    let mut r = Random(70);
    for (nodes, rule_count) in [(1, 1), (1, 8), (2, 1), (10, 3), (32, 4), (64, 1), (63, 8), (64, 8)] {
        let sound_bytes = sized(&mut r, nodes, rule_count, MAX_DELAY).bytes();
        let mut unsound = sound_bytes;
        while sound(&unsound).is_some() {
            damage(&mut r, &mut unsound);
        }
        for length in 0..=WRITTEN_BYTES + 4 {
            let wanted = if length < needed(&sound_bytes) { (OUTPUT, 0) } else { (OK, needed(&sound_bytes)) };
            assert_eq!(call(&mut r, &sound_bytes, length), wanted);
            assert_eq!(call(&mut r, &unsound, length), (UNSOUND, 0));
        }
        // Lengths of more than 16 bits.
        for length in [65_535, 65_536, 65_537, 65_536 + needed(&sound_bytes), 200_000] {
            assert_eq!(call(&mut r, &sound_bytes, length), (OK, needed(&sound_bytes)));
            assert_eq!(call(&mut r, &unsound, length), (UNSOUND, 0));
        }
    }
}

/// 25 goes before 34.
#[test]
fn refusals_and_their_order() {
    let mut r = Random(71);
    for round in 0..4_000u32 {
        let (unsound, short) = (round & 1 == 1, round & 2 == 2);
        let (table, _) = asked(&mut r, unsound, false);
        let needed = if unsound { RECORD_BYTES * 3 } else { needed(&table) };
        let length = if short { r.pick(&[0, 1, RECORD_BYTES, needed - RECORD_BYTES, needed - 1]) } else { r.pick(&[needed, needed + 1, WRITTEN_BYTES]) };
        let wanted = match (unsound, short) {
            (true, _) => (UNSOUND, 0),
            (false, true) => (OUTPUT, 0),
            (false, false) => (OK, needed),
        };
        assert_eq!(call(&mut r, &table, length), wanted);
    }
    for table in [[0; TABLE_BYTES], [255; TABLE_BYTES]] {
        for length in [0, RECORD_BYTES, WRITTEN_BYTES] {
            assert_eq!(call(&mut r, &table, length), (UNSOUND, 0));
        }
    }
}

/// A table of every kind of node with delays up to the longest, which the new delay alone accepts, and free places behind it.
fn of_every_kind() -> Table {
    let node = |kind, arg, lo, hi, left, right| Node { kind, arg, lo, hi, left, right };
    let nodes = vec![
        node(1, 3, 0, 0, 0, 0),
        node(2, 0, 0, 0, 0, 0),
        node(3, 0, 0, 0, 0, 0),
        node(4, 0, 0, 0, 2, 0),
        node(5, 0, 0, 0, 0, 3),
        node(6, 0, 0, 0, 4, 1),
        node(7, 0, 1, 300, 5, 0),
        node(8, 0, 2, 1000, 6, 0),
        node(9, 0, 300, 2001, 7, 4),
        node(10, 0, 600, 795, 3, 8),
    ];
    Table { nodes, rules: vec![Rule { name: 4, watched: 9 }, Rule { name: 3, watched: 0 }] }
}

type Change = fn(&mut Table);

/// Each thing that soundness asks for, just kept and just broken, in tables that are sound otherwise.
#[test]
fn soundness_at_its_limits() {
    let rows: &[(Change, u32)] = &[
        (|_| (), OK),
        (|t| t.rules.truncate(1), OK),
        (|t| t.rules.clear(), UNSOUND),
        (|t| *t = Table { nodes: vec![], rules: vec![] }, UNSOUND),
        (|t| t.rules[0].watched = 8, OK),
        (|t| t.rules[0].watched = 10, UNSOUND),
        (|t| t.nodes.truncate(9), UNSOUND),
        (|t| t.rules[1].name = 255, OK),
        (|t| t.rules[1].name = 256, OK),
        (|t| t.rules[1].name = 65_280, OK),
        (|t| t.rules[1].name = MAX_NAME as u16, OK),
        (|t| t.rules[1].name = 0, UNSOUND),
        (|t| t.rules[1].name = 4, UNSOUND),
        // Names are equal only where both halves are.
        (|t| t.rules[1].name = 256 + 4, OK),
        (|t| (t.rules[0].name, t.rules[1].name) = (0x0403, 0x0404), OK),
        (|t| (t.rules[0].name, t.rules[1].name) = (0x0403, 0x0304), OK),
        (|t| (t.rules[0].name, t.rules[1].name) = (0x0403, 0x0403), UNSOUND),
        (|t| t.rules.extend((5..11).map(|name| Rule { name, watched: 0 })), OK),
        (|t| t.rules.extend((5..11).map(|name| Rule { name: 4 + name % 10, watched: 0 })), UNSOUND),
        (|t| t.nodes.resize(MAX_NODES, t.nodes[9]), OK),
        (|t| t.nodes[0].kind = 3, UNSOUND),
        (|t| t.nodes[1].kind = 3, OK),
        (|t| t.nodes[1].kind = 0, UNSOUND),
        (|t| t.nodes[1].kind = 11, UNSOUND),
        (|t| t.nodes[0].arg = 31, OK),
        (|t| t.nodes[0].arg = 32, UNSOUND),
        (|t| t.nodes[9].arg = 1, UNSOUND),
        (|t| t.nodes[3].left = 0, OK),
        (|t| t.nodes[3].left = 3, UNSOUND),
        (|t| t.nodes[3].left = 4, UNSOUND),
        (|t| t.nodes[3].right = 1, UNSOUND),
        (|t| t.nodes[2].left = 1, UNSOUND),
        (|t| t.nodes[5].right = 4, OK),
        (|t| t.nodes[5].right = 5, UNSOUND),
        (|t| t.nodes[5].lo = 1, UNSOUND),
        (|t| t.nodes[5].hi = 1, UNSOUND),
        (|t| t.nodes[6].lo = 300, OK),
        (|t| t.nodes[6].lo = 301, UNSOUND),
        // The delay of the last node is 4095.
        (|t| t.nodes[6].hi = 299, OK),
        (|t| t.nodes[6].hi = 301, UNSOUND),
        (|t| t.nodes[9].hi = 794, OK),
        (|t| t.nodes[9].hi = 796, UNSOUND),
        (|t| t.nodes[8].hi = 2000, OK),
        (|t| t.nodes[8].hi = 2002, UNSOUND),
        (|t| (t.nodes[9].left, t.nodes[9].right, t.nodes[9].hi) = (8, 3, 796), OK),
        (|t| (t.nodes[9].left, t.nodes[9].right, t.nodes[9].hi) = (8, 3, 797), UNSOUND),
        (|t| (t.nodes[9].left, t.nodes[9].lo, t.nodes[9].hi) = (8, 795, 795), OK),
        (|t| (t.nodes[9].left, t.nodes[9].lo, t.nodes[9].hi) = (8, 796, 796), UNSOUND),
        (|t| (t.nodes[9].left, t.nodes[9].right, t.nodes[9].lo, t.nodes[9].hi) = (8, 3, 4095, 4095), OK),
        (|t| (t.nodes[9].left, t.nodes[9].right, t.nodes[9].lo, t.nodes[9].hi) = (8, 3, 4094, 4095), UNSOUND),
        (|t| (t.nodes[9].right, t.nodes[9].hi) = (3, 4095), OK),
        (|t| (t.nodes[9].right, t.nodes[9].hi) = (3, 4096), UNSOUND),
    ];
    let mut r = Random(75);
    for (i, (change, wanted)) in rows.iter().enumerate() {
        let mut t = of_every_kind();
        change(&mut t);
        assert_eq!(call(&mut r, &t.bytes(), WRITTEN_BYTES).0, *wanted, "row {i}: {t:?}");
    }
    // Free places and a rule's last byte that are not zero.
    for at in [node_at(10), node_at(11) - 1, rule_at(0) - 1, rule_at(0) + 3, rule_at(2), TABLE_BYTES - 1] {
        let mut table = of_every_kind().bytes();
        table[at] = 1;
        assert_eq!(call(&mut r, &table, WRITTEN_BYTES).0, UNSOUND, "byte {at}");
    }
    // Counts that are too large or too small, and room for so many records.
    for (at, count) in [(NODE_COUNT_AT, 65), (NODE_COUNT_AT, 63), (NODE_COUNT_AT, 255), (RULE_COUNT_AT, 9), (RULE_COUNT_AT, 7), (RULE_COUNT_AT, 255)] {
        let mut full = sized(&mut r, MAX_NODES, MAX_RULES, 300).bytes();
        assert_eq!(call(&mut r, &full, WRITTEN_BYTES), (OK, WRITTEN_BYTES));
        full[at] = count;
        assert_eq!(call(&mut r, &full, needed(&full)).0, UNSOUND, "byte {at} is {count}");
    }
}

/// Values around the limits of the fields.
const LIMITS: [u8; 15] = [0, 1, 2, 8, 9, 11, 12, 15, 16, 31, 32, 63, 64, 65, 255];

/// One byte changed, at every place, to values near it and near a limit, or to every value: refused exactly where that is not sound.
#[test]
fn every_byte_changed() {
    let mut r = Random(72);
    let mut tables = vec![of_every_kind(), among_signals(Node { kind: 10, arg: 0, lo: 255, hi: 4095, left: 1, right: 62 }, 63)];
    for (nodes, rule_count) in [(1, 1), (2, 2), (9, 8), (40, 4), (64, 8), (64, 8)] {
        tables.push(sized(&mut r, nodes, rule_count, MAX_DELAY));
    }
    // Eight names that differ in one half alone, the other being zero.
    for (table, by) in [(4, 1), (6, 256)] {
        tables[table].rules.iter_mut().zip(1..).for_each(|(q, i)| q.name = by * i);
    }
    let (mut refused, mut accepted) = ([0u32; TABLE_BYTES], 0);
    for (i, t) in tables.iter().enumerate() {
        let bytes = t.bytes();
        for at in 0..TABLE_BYTES {
            let was = bytes[at];
            let near = [was ^ 1, was.wrapping_add(1), was.wrapping_sub(1), r.next() as u8];
            let every = i == 0 || at < node_at(2) || at >= rule_at(0);
            let values = if every { (0..=255).collect() } else { [&LIMITS[..], &near].concat() };
            for value in values.into_iter().filter(|value| *value != was) {
                let mut changed = bytes;
                changed[at] = value;
                let length = r.pick(&[WRITTEN_BYTES, WRITTEN_BYTES, needed(&bytes), needed(&bytes) - 1, 0]);
                match call(&mut r, &changed, length).0 {
                    UNSOUND => refused[at] += 1,
                    OK => accepted += 1,
                    _ => {}
                }
            }
        }
    }
    // A name is refused only where it becomes zero or another rule's. The bytes of later rules are those of free places too.
    let name = rule_at(0)..rule_at(0) + 2;
    let enough = |at: usize| if name.contains(&at) { 7 } else { 20 };
    assert!((0..TABLE_BYTES).all(|at| refused[at] > enough(at)) && accepted > 5_000, "{refused:?} {accepted}");
}

#[test]
fn damaged_tables() {
    let mut r = Random(73);
    let mut seen = [0u32; NUMBERS];
    for _ in 0..12_000 {
        let t = random_table(&mut r);
        let table = damaged_table(&mut r, &t);
        let length = r.pick(&[WRITTEN_BYTES, WRITTEN_BYTES, 500, 100]);
        seen[call(&mut r, &table, length).0 as usize] += 1;
    }
    assert!(seen[UNSOUND as usize] > 5_000 && seen[OK as usize] > 200 && seen[OUTPUT as usize] > 100, "{seen:?}");
}

/// A session's bytes begin with its table: its book can be written at any time, from just there.
#[test]
fn the_book_that_a_session_runs() {
    let mut r = Random(74);
    for _ in 0..300 {
        let nodes = 1 + r.below(20) as usize;
        let t = table(&mut r, nodes, 300);
        let mut table = table_of(&book(&mut r, &t));
        if r.chance(2) {
            assert_eq!(simplify(&mut table), OK);
        }
        let wanted = compare(&mut r, &table);
        let (rule, block) = (r.below(t.rules.len() as u64) as u32, 1 + r.below(400) as usize);
        let (mut session, mut history) = ([0xaa; SESSION_BYTES], short_words(&mut r, HISTORY_WORDS));
        for step in ["opened", "fed", "fed again", "closed"] {
            let (states, mut scratch, mut out) = (trace(&mut r, block), words(&mut r, SCRATCH_WORDS), words(&mut r, CLOSE_WORDS));
            let number = match step {
                "opened" => open(&table, rule, &mut session),
                "closed" => close(&mut session, &history, &mut scratch, &mut out).0,
                _ => feed(&mut session, &states, &mut history, &mut scratch, &mut out).0,
            };
            assert_eq!(number, OK, "{step}");
            let begin: &TableBytes = session.first_chunk().unwrap();
            same(&format!("book of a session, {step}"), &book_of(begin), &wanted);
        }
    }
}
