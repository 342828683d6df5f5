//! Books, delays and splittings, against the models.
use juntreak_tests::header::limits::{
    BOOK_BYTES, MAX_DELAY, MAX_INTERVAL, MAX_NAME, MAX_NODES, MAX_PARTS, MAX_RULES, RECORD_BYTES, TABLE_BYTES, WRITTEN_BYTES,
};
use juntreak_tests::header::places::rule_at;
use juntreak_tests::header::refusals::{ABSENT, ARGUMENT, FORM, FULL, HEAD, INTERVAL, LENGTH, LINK, LONG, NAME, OK, OPERAND, RULELESS, UNSOUND};
use juntreak_tests::library::{check_book, delay, read, split, write, TableBytes};
use juntreak_tests::model::{self, Names, Rule};
use juntreak_tests::random::{book, damage_book, damage_name, table, Random, EDGE_NAMES};
use juntreak_tests::written::{self, chained, rule_record, Record, NEXT, UPPER};
use juntreak_tests::{same, typed};

/// Every answer about one book; returns the number of the refusal.
fn compare(b: &[u8], dirt: u8) -> u32 {
    let mut bytes = [dirt; TABLE_BYTES];
    let (number, record) = read(b, &mut bytes);
    assert_eq!(check_book(b), number + 256 * record as u32);
    match model::read(b) {
        Ok(t) => {
            assert_eq!((number, record), (OK, 0), "{b:?}");
            assert_eq!(bytes, t.bytes(), "{b:?}");
            assert_eq!(model::sound(&bytes), Some(t));
        }
        Err(refusal) => {
            assert_eq!((number, record), refusal, "{b:?}");
            assert_eq!(bytes, [dirt; TABLE_BYTES], "a refused call writes nothing");
        }
    }
    number
}

const SIGNAL: Record = [1, 0, 0, 0, 0, 0, 0, 0, 0, 0, 0, 0];

fn rule(name: u16, watched: u8) -> Record {
    rule_record(&Rule { name, watched }, |record| record)
}

fn finally(hi: usize, left: u8) -> Record {
    let h = (hi as u16).to_le_bytes();
    [7, 0, 0, 0, h[0], h[1], left, 0, 0, 0, 0, 0]
}

/// U or R over F[0,left] s0 and F[0,right] s0, with a rule that watches it. The records are 1 to 5.
fn until(kind: u8, left: usize, [lo, hi]: [usize; 2], right: usize) -> Vec<u8> {
    let (l, h) = ((lo as u16).to_le_bytes(), (hi as u16).to_le_bytes());
    chained(&[SIGNAL, finally(left, 1), finally(right, 1), [kind, 0, l[0], l[1], h[0], h[1], 2, 3, 0, 0, 0, 0], rule(9, 4)])
}

#[test]
fn random_valid_and_damaged_books() {
    let mut r = Random(1);
    let mut seen = [0u32; RULELESS as usize + 1];
    for round in 0..30_000u32 {
        let count = if r.chance(20) { MAX_NODES } else { 1 + r.below(12) as usize };
        let longest = r.pick(&[MAX_DELAY, MAX_DELAY, 300]);
        let t = table(&mut r, count, longest);
        let mut b = book(&mut r, &t);
        assert_eq!(model::read(&b), Ok(t.clone()));
        for _ in 0..r.below(3) {
            damage_book(&mut r, &mut b);
        }
        seen[compare(&b, round as u8) as usize] += 1;
    }
    // Refusals that damage seldom reaches: too many nodes or rules, long delays, names used twice, no rule.
    for round in 0..200usize {
        let mut many = vec![SIGNAL; MAX_NODES + 1 - round % 2];
        many.extend((0..MAX_RULES - 1 + round % 4).map(|i| rule(1 + i as u16, 1)));
        seen[compare(&chained(&many), 7) as usize] += 1;
        let hi = MAX_DELAY - 5 + round % 8;
        seen[compare(&chained(&[SIGNAL, finally(3, 1), finally(hi, 2), rule(9, 3)]), 7) as usize] += 1;
        let (left, right) = (r.below(6) as usize, r.below(4) as usize);
        let lo = if r.chance(2) { hi.min(MAX_INTERVAL) } else { r.below(20) as usize };
        seen[compare(&until(9 + round as u8 % 2, left, [lo, hi.min(MAX_INTERVAL)], right), 7) as usize] += 1;
        let [first, second, third] = [1, 2, 1 + (round % 3) as u16].map(|name| name << (round % 2 * 8));
        seen[compare(&chained(&[SIGNAL, rule(first, 1), rule(second, 1), rule(third, 1)]), 7) as usize] += 1;
        seen[compare(&chained(&vec![SIGNAL; 1 + round % 9]), 7) as usize] += 1;
    }
    for (number, times) in seen.iter().enumerate() {
        assert!(*times >= 50, "refusal {number} was seen {times} times");
    }
}

#[test]
fn every_length() {
    let mut r = Random(2);
    for n in 0..=BOOK_BYTES + 40 {
        let mut b = vec![0u8; n];
        compare(&b, 1);
        for x in &mut b {
            *x = if r.chance(3) { r.below(14) as u8 } else { 0 };
        }
        for x in b.iter_mut().take(RECORD_BYTES) {
            *x = 0;
        }
        if n > NEXT {
            b[NEXT] = r.below(6) as u8;
        }
        compare(&b, 2);
    }
}

#[test]
fn worked_examples() {
    let own = {
        let mut b = chained(&[SIGNAL, rule(1, 1)]);
        b[RECORD_BYTES + NEXT] = 1;
        b
    };
    assert_eq!(check_book(&own), LINK + 256);
    assert_eq!(check_book(&chained(&[SIGNAL, finally(MAX_DELAY, 1), rule(1, 2)])), OK);
    assert_eq!(check_book(&chained(&[SIGNAL, finally(MAX_DELAY, 1), finally(1, 2), rule(1, 3)])), LONG + 256 * 3);
    for kind in [9, 10] {
        assert_eq!(check_book(&until(kind, 96, [0, 4000], 95)), OK);
        assert_eq!(check_book(&until(kind, 97, [0, 4000], 95)), LONG + 256 * 4);
        assert_eq!(check_book(&until(kind, 96, [0, 4000], 96)), LONG + 256 * 4);
        assert_eq!(check_book(&until(kind, MAX_DELAY, [4000, 4000], 95)), OK);
        assert_eq!(check_book(&until(kind, MAX_DELAY, [4000, 4000], 96)), LONG + 256 * 4);
    }
    assert_eq!(check_book(&[]), LENGTH);
    assert_eq!(check_book(&[0; RECORD_BYTES]), RULELESS);
    assert_eq!(check_book(&[0; BOOK_BYTES]), RULELESS);
    assert_eq!(check_book(&[0; BOOK_BYTES + RECORD_BYTES]), LENGTH);
}

/// Every answer about one book, which is refused with this number at this record, or accepted.
fn answers(b: &[u8], (number, record): (u32, u8)) {
    assert_eq!(check_book(b), number + 256 * record as u32, "{b:?}");
    compare(b, 7);
}

/// The table of an accepted book.
fn table_of(b: &[u8]) -> TableBytes {
    assert_eq!(compare(b, 0xaa), OK, "{b:?}");
    let mut table = [0; TABLE_BYTES];
    read(b, &mut table);
    table
}

/// The two bytes of a rule record that hold its name, and the two of the table.
#[test]
fn worked_names() {
    for (lower, upper, name) in [
        (1, 0, 1),
        (255, 0, 255),
        (0, 1, 256),
        (1, 1, 257),
        (2, 1, 258),
        (1, 2, 513),
        (7, 0, 7),
        (7, 1, 263),
        (7, 2, 519),
        (0, 7, 1_792),
        (255, 1, 511),
        (0, 2, 512),
        (16, 39, 10_000),
        (0, 255, 65_280),
        (255, 255, 65_535),
    ] {
        let table = table_of(&chained(&[SIGNAL, [11, lower, 0, 0, 0, 0, 1, 0, 0, upper, 0, 0]]));
        assert_eq!(table[rule_at(0)..rule_at(1)], [lower, upper, 0, 0]);
        assert_eq!(model::sound(&table).unwrap().rules, [Rule { name, watched: 0 }]);
    }
    answers(&chained(&[SIGNAL, [11, 0, 0, 0, 0, 0, 1, 0, 0, 0, 0, 0]]), (ARGUMENT, 2));
}

/// Each name is read, and written as the same book.
#[test]
fn every_name() {
    let mut out = [0xaa; WRITTEN_BYTES];
    for name in 1..=MAX_NAME as u16 {
        let [lower, upper] = name.to_le_bytes();
        let b = chained(&[SIGNAL, [11, lower, 0, 0, 0, 0, 1, 0, 0, upper, 0, 0]]);
        let table = table_of(&b);
        assert_eq!(table[rule_at(0)..rule_at(1)], [lower, upper, 0, 0]);
        assert_eq!(write(&table, &mut out), (OK, b.len()));
        assert_eq!(out[..b.len()], b);
    }
    assert!(out[3 * RECORD_BYTES..].iter().all(|byte| *byte == 0xaa));
}

/// Names are different where one half is.
#[test]
fn names_used_twice() {
    let mut r = Random(4);
    let any: Vec<u16> = (0..40).map(|_| 1 + r.below(MAX_NAME as u64) as u16).collect();
    let names: Vec<u16> = EDGE_NAMES.into_iter().chain(any.iter().flat_map(|name| [*name, name.swap_bytes()])).collect();
    for first in &names {
        for second in &names {
            let b = chained(&[SIGNAL, rule(*first, 1), rule(*second, 1)]);
            answers(&b, if first == second { (NAME, 3) } else { (OK, 0) });
        }
    }
    // The last of eight is one of the others, or has a half of each.
    let mut eight = [0x0102, 0x0103, 0x0202, 0x0301, 0x0201, 0x0302, 0x0203, 0];
    for last in (1..=3).flat_map(|upper| (1..=3).map(move |lower| 256 * upper + lower)) {
        eight[7] = last;
        let records: Vec<Record> = [SIGNAL].into_iter().chain(eight.map(|name| rule(name, 1))).collect();
        answers(&chained(&records), if eight[..7].contains(&last) { (NAME, 9) } else { (OK, 0) });
    }
}

/// The book of a rule over every kind of node, and a spare record behind it.
fn of_every_kind() -> Vec<u8> {
    let t = typed::read(b"200: (s31 U[2,9] G[0,3] F[1,2] (!false | s31 & true)) R[0,4] s0\n").unwrap();
    assert!((1..=10).all(|kind| t.nodes.iter().any(|n| n.kind == kind)));
    [written::book(&t), rule(0, 1).to_vec()].concat()
}

/// Each of the bytes 9 to 11 of each record set: only a rule uses byte 9, and a spare record is not looked at.
#[test]
fn bytes_9_to_11() {
    let good = of_every_kind();
    let (table, spare) = (table_of(&good), good.len() / RECORD_BYTES - 1);
    let rule = spare - 1;
    for record in 0..=spare {
        for at in UPPER..RECORD_BYTES {
            for value in 1..=255 {
                let mut b = good.clone();
                b[record * RECORD_BYTES + at] = value;
                let named = record == rule && at == UPPER;
                if named || record == spare {
                    let mut wanted = table;
                    wanted[rule_at(0) + 1] = if named { value } else { 0 };
                    same("table", &table_of(&b), &wanted);
                } else {
                    answers(&b, if record == 0 { (HEAD, 0) } else { (FORM, record as u8) });
                }
            }
        }
    }
}

/// The answer of the reader before A11.
fn old_answer(b: &[u8]) -> (u32, u8) {
    model::read_under(Names::OneByte, b).err().unwrap_or((OK, 0))
}

/// Records from 1 on, and the answers of this reader and of the one before A11.
type Row<'a> = (&'a [Record], (u32, u8), (u32, u8));

/// The order of the checks where a name is large, zero or used twice.
#[test]
fn order_of_the_checks_on_names() {
    let (large, nameless) = (rule(256, 1), rule(0, 1));
    let with = |mut record: Record, at: usize, byte: u8| {
        record[at] = byte;
        record
    };
    let nine = |last: Record| -> Vec<Record> { [SIGNAL].into_iter().chain((1..=8).map(|name| rule(name, 1))).chain([last]).collect() };
    let far = with(SIGNAL, 1, 32);
    let rows: &[Row] = &[
        (&[SIGNAL, large], (OK, 0), (FORM, 2)),
        (&[SIGNAL, nameless], (ARGUMENT, 2), (ARGUMENT, 2)),
        // 4 before 5, in nodes and in rules.
        (&[with(far, 9, 1), rule(1, 1)], (FORM, 1), (FORM, 1)),
        (&[SIGNAL, with(nameless, 10, 1)], (FORM, 2), (FORM, 2)),
        (&[SIGNAL, with(nameless, 11, 1)], (FORM, 2), (FORM, 2)),
        (&[SIGNAL, with(nameless, 7, 1)], (FORM, 2), (FORM, 2)),
        (&[SIGNAL, with(large, 10, 1)], (FORM, 2), (FORM, 2)),
        (&[SIGNAL, with(large, 2, 1)], (FORM, 2), (FORM, 2)),
        // 5 before 7, and the earlier reader's 4 before both.
        (&[SIGNAL, rule(0, 2)], (ARGUMENT, 2), (ARGUMENT, 2)),
        (&[SIGNAL, rule(256, 2)], (OPERAND, 2), (FORM, 2)),
        (&[SIGNAL, rule(65_535, 0)], (OPERAND, 2), (FORM, 2)),
        // 5 and 8 before 10.
        (&nine(nameless), (ARGUMENT, 10), (ARGUMENT, 10)),
        (&nine(rule(8, 1)), (FULL, 10), (FULL, 10)),
        (&nine(large), (FULL, 10), (FORM, 10)),
        (&[SIGNAL, rule(7, 1), rule(263, 1)], (OK, 0), (FORM, 3)),
        (&[SIGNAL, rule(263, 1), rule(7, 1), rule(263, 1)], (NAME, 4), (FORM, 2)),
        (&[SIGNAL, rule(7, 1), rule(7, 1), large], (NAME, 3), (NAME, 3)),
        // Record by record: a fault before the large name, and one behind it.
        (&[far, large], (ARGUMENT, 1), (ARGUMENT, 1)),
        (&[SIGNAL, large, far], (ARGUMENT, 3), (FORM, 2)),
        (&[SIGNAL, large, with(SIGNAL, 9, 1)], (FORM, 3), (FORM, 2)),
        (&[SIGNAL, large, rule(512, 1), nameless], (ARGUMENT, 4), (FORM, 2)),
        (&[SIGNAL, nameless, large], (ARGUMENT, 2), (ARGUMENT, 2)),
        // Kinds that there are not.
        (&[SIGNAL, with(large, 0, 12)], (FORM, 2), (FORM, 2)),
        (&[SIGNAL, with(large, 0, 0)], (FORM, 2), (FORM, 2)),
    ];
    for (records, new, old) in rows {
        let mut b = chained(records);
        answers(&b, *new);
        assert_eq!(old_answer(&b), *old, "{records:?}");
        // 3 before the rest: the last record links to itself.
        let last = records.len() as u8;
        b[last as usize * RECORD_BYTES + NEXT] = last;
        let linked = |answer: (u32, u8)| if answer.0 == OK || answer.1 == last { (LINK, last) } else { answer };
        answers(&b, linked(*new));
        assert_eq!(old_answer(&b), linked(*old), "{records:?}");
    }
    // The head and the length go before all, and what is off the chain is not read.
    let b = chained(&[SIGNAL, large]);
    let head = [&[0, 0, 0, 0, 0, 0, 0, 0, 1, 1, 0, 0], &b[RECORD_BYTES..]].concat();
    let spare = [&chained(&[SIGNAL, rule(255, 1)])[..], &large].concat();
    for (b, number) in [(&head[..], HEAD), (&b[..b.len() - 1], LENGTH), (&spare, OK)] {
        answers(b, (number, 0));
        assert_eq!(old_answer(b), (number, 0));
    }
}

/// The records on the chain, the head first, up to the end or to a link that is refused.
fn chain(b: &[u8]) -> Vec<usize> {
    let mut on = vec![0];
    loop {
        let next = b[on[on.len() - 1] * RECORD_BYTES + NEXT] as usize;
        if next == 0 || next >= b.len() / RECORD_BYTES || on.contains(&next) {
            return on;
        }
        on.push(next);
    }
}

/// The reader before A11, whose names have one byte, beside this one: both answer the same where no large name is on the chain. Where one is, the earlier
/// reader refuses the book, with 4 at the first record that has one if no check before finds a fault.
#[test]
fn the_reader_of_one_byte_names() {
    let mut r = Random(5);
    let (mut alike, mut accepted, mut faults) = ([0u32; 2], 0, [0u32; 3]);
    for round in 0..60_000u32 {
        let count = 1 + r.below(8) as usize;
        let t = table(&mut r, count, 300);
        let mut b = book(&mut r, &t);
        for _ in 0..r.below(3) {
            damage_name(&mut r, &mut b);
        }
        for _ in 0..r.below(3) {
            damage_book(&mut r, &mut b);
        }
        compare(&b, round as u8);
        let (new, old) = (model::read(&b), model::read_under(Names::OneByte, &b));
        let whole = !b.is_empty() && b.len() % RECORD_BYTES == 0 && b.len() <= BOOK_BYTES;
        let on = if whole { chain(&b) } else { vec![] };
        let large = |record: &usize| b[record * RECORD_BYTES] == 11 && b[record * RECORD_BYTES + UPPER] != 0;
        let Some(first) = on.iter().position(large) else {
            assert_eq!(old, new, "{b:?}");
            alike[new.is_ok() as usize] += 1;
            continue;
        };
        let there = Err((FORM, on[first] as u8));
        match new {
            Ok(_) => {
                assert_eq!(old, there, "{b:?}");
                accepted += 1;
            }
            Err((number, record)) => {
                let at = on.iter().position(|on| *on == record as usize).unwrap();
                // Found before the record with the name is tried for 4, at that record, or behind it.
                let sooner = number <= HEAD || (at, number) < (first, FORM);
                assert_eq!(old, if sooner { new } else { there }, "{b:?}");
                faults[if sooner { 0 } else { 1 + (at > first) as usize }] += 1;
            }
        }
    }
    assert!(alike.iter().all(|times| *times > 5_000) && accepted > 10_000 && faults.iter().all(|times| *times > 300), "{alike:?} {accepted} {faults:?}");
}

#[test]
fn delays_of_sound_and_damaged_tables() {
    let mut r = Random(3);
    let (mut sound, mut unsound) = (0, 0);
    for _ in 0..20_000 {
        let count = 1 + r.below(MAX_NODES as u64) as usize;
        let t = table(&mut r, count, MAX_DELAY);
        let mut b = t.bytes();
        for _ in 0..r.below(3) {
            let rules = rule_at(0);
            let places = [0, 1, 2, 4, 5, 6, 7, 8, 9, rules, rules + 1, rules + 2, rules + 3, rules + 4, TABLE_BYTES - 1];
            let at = if r.chance(2) { r.below(TABLE_BYTES as u64) as usize } else { r.pick(&places) };
            b[at] = r.pick(&[0, 1, 2, 16, 63, 64, 255, r.0 as u8]);
        }
        let want = model::sound(&b);
        for rule in [0, 1, 7, 8, u32::MAX] {
            let expected = match &want {
                None => (UNSOUND, 0),
                Some(t) if rule as usize >= t.rules.len() => (ABSENT, 0),
                Some(t) => (OK, t.delays()[t.rules[rule as usize].watched as usize]),
            };
            assert_eq!(delay(&b, rule), expected);
        }
        *(if want.is_some() { &mut sound } else { &mut unsound }) += 1;
    }
    assert!(sound > 3000 && unsound > 3000, "{sound} {unsound}");
}

#[test]
fn all_splittings() {
    const LONGEST: u16 = MAX_INTERVAL as u16;
    for v in 0..=LONGEST {
        let want = model::parts(v as u32);
        for lo in [0, 1, LONGEST - v] {
            if lo + v > LONGEST {
                continue;
            }
            let mut parts = [0xaa; MAX_PARTS];
            let (number, count) = split(lo, lo + v, &mut parts);
            assert_eq!((number, count), (OK, want.len()));
            assert_eq!(&parts[..count], &want[..]);
            assert!(parts[count..].iter().all(|k| *k == 0));
        }
    }
    for (lo, hi) in [(1, 0), (5, 4), (0, LONGEST + 1), (LONGEST + 1, LONGEST + 1), (65535, 65535), (65535, 0)] {
        let mut parts = [0xaa; MAX_PARTS];
        assert_eq!(split(lo, hi, &mut parts), (INTERVAL, 0));
        assert_eq!(parts, [0xaa; MAX_PARTS], "a refused call writes nothing");
    }
}
