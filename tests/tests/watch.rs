//! The program watch, run in a folder of its own with a rules.bin and states on standard input, against `program::expected`.
use juntreak_tests::header::limits::{BOOK_BYTES, MAX_BLOCK, MAX_DELAY, MAX_NAME, MAX_NODES, MAX_RULES, MAX_SIGNAL, MAX_STATE, RECORD_BYTES, TABLE_BYTES};
use juntreak_tests::header::refusals::{ARGUMENT, FORM, FULL, HEAD, INTERVAL, LENGTH, LINK, LONG, NAME, OK, OPERAND, RULELESS};
use juntreak_tests::library;
use juntreak_tests::model::{self, Node, Rule, Table};
use juntreak_tests::place::{watch_in, Folder};
use juntreak_tests::program::expected;
use juntreak_tests::random::{book, damage_book, redundant, table, trace, Random};
use juntreak_tests::spawn::{full, run, run_in_chunks, same_lines, Running};
use juntreak_tests::written::{LOWER, NEXT, UPPER, WORKED};
use std::fs::File;
use std::io::Write;
use std::os::unix::process::ExitStatusExt;
use std::process::Stdio;
use std::thread::sleep;
use std::time::Duration;

/// What the program prints for an input that comes through a pipe.
fn printed(folder: &Folder, input: &[u8]) -> Vec<u8> {
    run(watch_in(folder), input).quietly()
}

/// The delay of the first rule in the simplified table. It is the library's own, because the simplified table is free within its
/// promises, and with it how many verdicts precede a bad line. Everything else that is expected comes from the table of the book.
fn simple_delay(book: &[u8]) -> usize {
    let mut table = [0; TABLE_BYTES];
    if library::read(book, &mut table).0 != OK {
        return 0;
    }
    assert_eq!(library::simplify(&mut table), OK);
    let (number, delay) = library::delay(&table, 0);
    assert_eq!(number, OK);
    assert!(delay <= model::read(book).unwrap().rule_delay(0));
    delay as usize
}

fn wanted(rules: &[u8], input: &[u8]) -> Vec<u8> {
    expected(rules, input, simple_delay(rules))
}

/// One run against what is expected, which is returned.
fn compare(rules: &[u8], input: &[u8]) -> Vec<u8> {
    let want = wanted(rules, input);
    same_lines(&printed(&Folder::with_rules(rules), input), &want);
    want
}

const SIGNAL: Node = Node { kind: 1, arg: 0, lo: 0, hi: 0, left: 0, right: 0 };

fn finally(hi: u16, left: u8) -> Node {
    Node { kind: 7, arg: 0, lo: 0, hi, left, right: 0 }
}

/// The book of a table, records in random order.
fn book_of(nodes: Vec<Node>, rules: &[(u16, u8)]) -> Vec<u8> {
    let rules = rules.iter().map(|(name, watched)| Rule { name: *name, watched: *watched }).collect();
    book(&mut Random(nodes.len() as u64), &Table { nodes, rules })
}

/// F[0,hi] p, whose delay no simplifying changes, under a name.
fn finally_book(name: u16, hi: u16) -> Vec<u8> {
    if hi == 0 {
        return book_of(vec![SIGNAL], &[(name, 0)]);
    }
    book_of(vec![SIGNAL, finally(hi, 0)], &[(name, 1)])
}

/// A line for each state, with leading zeros at some.
fn text(r: &mut Random, states: &[u32]) -> Vec<u8> {
    let mut text = vec![];
    for state in states {
        let width = if r.chance(3) { r.below(11) as usize } else { 0 };
        writeln!(text, "{state:0width$}").unwrap();
    }
    text
}

fn random_text(r: &mut Random, lines: usize) -> Vec<u8> {
    let states = trace(r, lines);
    text(r, &states)
}

/// Lines that are no states.
const BAD: &[&[u8]] = &[
    b"",
    b"x",
    b"1x",
    b"x1",
    b"0x1",
    b"-",
    b"-1",
    b"-0",
    b"+1",
    b" ",
    b" 1",
    b"1 ",
    b"1 2",
    b"\t",
    b"1\t",
    b"1\r",
    b"\r",
    b"1.0",
    b"1e3",
    b"1,000",
    b"/",
    b":",
    b"1:",
    b"\0",
    b"1\0",
    b"\xff",
    b"1\xff",
    b"\xb1",
    b"\xd9\xa1",
    b"4294967296",
    b"4294967297",
    b"5000000000",
    b"8589934592",
    b"9999999999",
    b"00000000000",
    b"00000000001",
    b"12345678901",
    b"18446744073709551617",
    b"99999999999999999999999999999999",
];

/// The input with another line put before line `at`, counted from 0.
fn with_line(input: &[u8], at: usize, line: &[u8]) -> Vec<u8> {
    let lines: Vec<&[u8]> = input.split_inclusive(|b| *b == 10).collect();
    let (before, after) = lines.split_at(at);
    [&before.concat(), line, b"\n", &after.concat()].concat()
}

#[test]
fn worked_example() {
    let folder = Folder::with_rules(&WORKED);
    let lines = b"7 0 1\n7 1 1\n7 2 0\n7 3 0\n";
    same_lines(&printed(&folder, b"0\n0\n1\n0\n"), lines);
    same_lines(&printed(&folder, b"0\n0\n1\n0"), lines);
    same_lines(&printed(&folder, b""), b"");
    same_lines(&printed(&folder, b"\n"), b"bad line 1\n");
    same_lines(&printed(&folder, b"0\n0\n1\n0\n\n"), b"bad line 5\n");
    assert_eq!(expected(&WORKED, b"0\n0\n1\n0\n", 3), lines);
}

/// A count of lines, often near a block's edge.
fn random_length(r: &mut Random) -> usize {
    let top = r.pick(&[3, 200, 1000, 4000, 6000]);
    let any = r.below(top) as usize;
    let edge = r.pick(&[0, 1023, 1024, 1025, 2047, 2048, 2049, 3072, 4096, 5119, 5120]);
    if r.chance(3) {
        edge
    } else {
        any
    }
}

fn random_table(r: &mut Random) -> Table {
    let count = if r.chance(30) { MAX_NODES } else { 1 + r.below(12) as usize };
    let longest = r.pick(&[MAX_DELAY, MAX_DELAY, 1100, 300, 9, 0]);
    if r.chance(2) {
        redundant(r, count, longest)
    } else {
        table(r, count, longest)
    }
}

/// Lines of states; one in three inputs has one or two bad lines, and one in three lacks its last byte.
fn random_input(r: &mut Random) -> Vec<u8> {
    let length = random_length(r);
    let mut input = random_text(r, length);
    if r.chance(3) {
        for _ in 0..1 + r.below(2) {
            let at = if r.chance(4) { length } else { r.below(length as u64 + 1) as usize };
            let line = r.pick(BAD);
            input = with_line(&input, at, line);
        }
    }
    if r.chance(3) {
        input.pop();
    }
    input
}

#[test]
fn random_books_and_inputs() {
    let mut r = Random(41);
    let (mut refused, mut bad, mut bad_with_verdicts, mut closed, mut shorter) = (0, 0, 0, 0, 0);
    for _ in 0..1200 {
        let t = random_table(&mut r);
        let mut b = book(&mut r, &t);
        if r.chance(4) {
            for _ in 0..1 + r.below(2) {
                damage_book(&mut r, &mut b);
            }
        }
        let input = random_input(&mut r);
        let want = compare(&b, &input);
        shorter += model::read(&b).is_ok_and(|t| simple_delay(&b) < t.rule_delay(0) as usize) as u32;
        let last = String::from_utf8_lossy(want.split_inclusive(|b| *b == 10).next_back().unwrap_or(b"")).into_owned();
        refused += last.starts_with("book") as u32;
        bad += last.starts_with("bad") as u32;
        bad_with_verdicts += (last.starts_with("bad") && want.len() > last.len()) as u32;
        closed += (!last.starts_with('b')) as u32;
    }
    let counts = (refused, bad, bad_with_verdicts, closed, shorter);
    assert!(refused > 80 && bad > 200 && bad_with_verdicts > 80 && closed > 500 && shorter > 80, "{counts:?}");
}

/// Every delay that is near a block's edge, with every length that is.
#[test]
fn lengths_and_delays() {
    let mut r = Random(42);
    for delay in [0, 1, 63, 64, 1022, 1023, 1024, 1025, 2048, 4094, 4095] {
        let b = finally_book(1 + r.below(MAX_NAME as u64) as u16, delay);
        assert_eq!(simple_delay(&b), delay as usize);
        for lines in [0, 1, 2, 65, 1022, 1023, 1024, 1025, 2047, 2048, 2049, 3072, 4095, 4096, 5119, 5120, 5121, 9217] {
            let mut input = random_text(&mut r, lines);
            compare(&b, &input);
            input.pop();
            compare(&b, &input);
        }
    }
}

/// U and R: the last block's verdicts before a bad line wait for as many states as the delay says.
#[test]
fn delays_of_until() {
    let mut r = Random(53);
    let nodes = |kind, lo, hi| vec![Node { arg: 2, ..SIGNAL }, finally(3, 0), Node { arg: 1, ..SIGNAL }, Node { kind, arg: 0, lo, hi, left: 1, right: 2 }];
    for kind in [9, 10] {
        for (lo, hi, delay) in [(0, 2, 4), (1, 2, 4), (2, 2, 2), (0, 1000, 1002), (1000, 1000, 1000)] {
            let input = with_line(&random_text(&mut r, MAX_BLOCK), MAX_BLOCK, b"x");
            let want = compare(&book_of(nodes(kind, lo, hi), &[(7, 3)]), &input);
            assert_eq!(want.split_inclusive(|b| *b == 10).count(), MAX_BLOCK - delay + 1);
        }
    }
}

/// Each kind of bad line at each place, with lines behind it, as the last line, and as the last without its byte 10.
#[test]
fn bad_lines() {
    let mut r = Random(43);
    for (i, bad) in BAD.iter().enumerate() {
        let delay = [0, 3, 1000, 1024, 2000][i % 5];
        let b = finally_book(1 + i as u16, delay);
        for at in [0, 1, 1022, 1023, 1024, 1025, 2047, 2048, 2500] {
            let lines = at + r.pick(&[0, 1, 1023, 1500]);
            let longer = with_line(&random_text(&mut r, lines), at, bad);
            let last = with_line(&random_text(&mut r, at), at, bad);
            let open = &last[..last.len() - 1];
            let told = format!("bad line {}\n", at + 1);
            // An empty last line without byte 10 is none.
            for (input, is_line) in [(&longer[..], true), (&last, true), (open, !bad.is_empty())] {
                assert_eq!(compare(&b, input).ends_with(told.as_bytes()), is_line, "{bad:?} at {at}");
            }
        }
    }
}

/// Lines that are longer than any buffer, and only the first bad line is told.
#[test]
fn long_and_repeated_bad_lines() {
    let mut r = Random(44);
    let b = finally_book(200, 5);
    for length in [4095, 4096, 65536, 300_000] {
        for byte in [b'0', b'7', b' ', b'x', 0, 255] {
            for at in [0, 3, 1024, 1500] {
                let input = with_line(&random_text(&mut r, at + 5), at, &vec![byte; length]);
                let want = compare(&b, &input);
                assert!(want.ends_with(format!("bad line {}\n", at + 1).as_bytes()));
            }
        }
    }
    let input = with_line(&with_line(&random_text(&mut r, 5000), 4000, b"x"), 1500, b"");
    assert!(compare(&b, &input).ends_with(b"bad line 1501\n"));
    let input = with_line(&with_line(&random_text(&mut r, 1100), 1080, b"x"), 1050, b"x");
    let want = compare(&b, &input);
    assert!(want.ends_with(b"bad line 1051\n"));
    assert_eq!(want.split_inclusive(|b| *b == 10).count(), MAX_BLOCK - 5 + 1);
}

/// Each signal of states at the limits of their values, with every count of leading zeros that 10 digits allow.
#[test]
fn values_and_leading_zeros() {
    const LARGEST: u32 = MAX_STATE as u32;
    let mut input = vec![];
    for value in [0, 1, 9, 10, 99, 1 << 16, 999_999_999, 1_000_000_000, 1 << 31, 2_147_483_647, LARGEST - 1, LARGEST] {
        for width in 1..=10 {
            writeln!(input, "{value:0width$}").unwrap();
        }
    }
    for signal in 0..=MAX_SIGNAL as u8 {
        let b = book_of(vec![Node { arg: signal, ..SIGNAL }], &[(signal as u16 + 99, 0)]);
        let want = compare(&b, &input);
        assert_eq!(want.split_inclusive(|b| *b == 10).count(), 120);
    }
}

/// Only the first rule of the chain is watched, under its own name.
#[test]
fn first_rule_only() {
    let mut r = Random(45);
    let input = random_text(&mut r, 2000);
    let nodes = vec![SIGNAL, Node { arg: 1, ..SIGNAL }, finally(40, 0), finally(1500, 1)];
    let all = [(9, 2), (255, 1), (1, 0), (256, 3), (65_535, 2), (265, 3), (258, 0), (513, 1)];
    for first in 0..all.len() {
        let mut rules = all;
        rules.rotate_left(first);
        let alone = wanted(&book_of(nodes.clone(), &rules[..1]), &input);
        assert!(alone.starts_with(format!("{} 0 ", rules[0].0).as_bytes()));
        assert_eq!(compare(&book_of(nodes.clone(), &rules), &input), alone);
    }
}

/// Names of one to five digits, in blocks that are full and in ticks of up to six digits.
#[test]
fn names_of_every_length() {
    let mut r = Random(54);
    for name in [1, 9, 10, 99, 100, 255, 256, 257, 999, 1_000, 9_999, 10_000, 12_345, 65_280, 65_534, 65_535] {
        for (delay, lines) in [(0, 3), (3, 1_024), (1_000, 3_073), (5, 11_000)] {
            let input = random_text(&mut r, lines);
            let want = compare(&finally_book(name, delay), &input);
            let rows: Vec<&[u8]> = want.split_inclusive(|b| *b == 10).collect();
            assert_eq!(rows.len(), lines);
            assert!(rows.iter().enumerate().all(|(tick, row)| row.starts_with(format!("{name} {tick} ").as_bytes())), "{name}");
        }
    }
    let input = random_text(&mut r, 101_000);
    let want = compare(&finally_book(MAX_NAME as u16, 1), &input);
    assert!(want.split_inclusive(|b| *b == 10).next_back().is_some_and(|row| row.starts_with(b"65535 100999 ")));
}

/// Each number of a refused book, with records of one to three digits.
#[test]
fn refused_books() {
    let long = |hi| book_of(vec![SIGNAL, finally(hi, 0), finally(1, 1)], &[(1, 2)]);
    let head = |at: usize, byte: u8| {
        let mut b = WORKED.to_vec();
        b[at] = byte;
        b
    };
    let rules = |n: usize| (1..=n as u16).map(|name| (name, 0)).collect::<Vec<_>>();
    let books = [
        (LENGTH, WORKED[..47].to_vec()),
        (HEAD, head(0, 1)),
        (LINK, head(NEXT, 4)),
        (FORM, head(12, 12)),
        (FORM, head(RECORD_BYTES + UPPER, 1)),
        (ARGUMENT, head(13, MAX_SIGNAL as u8 + 1)),
        (ARGUMENT, head(3 * RECORD_BYTES + LOWER, 0)),
        (INTERVAL, head(29, 16)),
        (OPERAND, head(30, 3)),
        (FULL, book_of(vec![SIGNAL; MAX_NODES + 1], &[(1, 0)])),
        (FULL, book_of(vec![SIGNAL], &rules(MAX_RULES + 1))),
        (LONG, long(MAX_DELAY as u16)),
        (NAME, book_of(vec![SIGNAL], &[(3, 0), (4, 0), (3, 0)])),
        (NAME, book_of(vec![SIGNAL], &[(259, 0), (3, 0), (259, 0)])),
        (RULELESS, book_of(vec![SIGNAL], &[])),
    ];
    for (number, b) in books {
        for input in [&b"0\n1\n"[..], b"", b"x\n"] {
            let want = compare(&b, input);
            assert!(want.starts_with(format!("book {number} ").as_bytes()), "{number} {}", String::from_utf8_lossy(&want));
        }
    }
    assert_ne!(compare(&long(MAX_DELAY as u16 - 1), b"0\n"), format!("book {LONG} 3\n").into_bytes());
    for record in [1, 9, 10, 99, 100, 199, 200, 254] {
        let mut b = vec![0; BOOK_BYTES];
        b[NEXT] = record;
        b[RECORD_BYTES * record as usize] = 12;
        assert_eq!(compare(&b, b"1\n"), format!("book {FORM} {record}\n").into_bytes());
    }
}

/// A missing rules.bin, and files of many lengths that begin with an accepted book.
#[test]
fn lengths_of_the_book() {
    for input in [&b"0\n1\n"[..], b"", b"x\n"] {
        same_lines(&printed(&Folder::empty(), input), b"book 1 0\n");
    }
    let mut r = Random(46);
    for length in [0, 1, 11, 12, 24, 36, 47, 48, 49, 60, 3047, 3048, 3049, BOOK_BYTES - 1, BOOK_BYTES, BOOK_BYTES + 1, 3071, 3072, 4096, 6120, 65536, 1_000_000] {
        // The records behind the book are spare.
        let mut b = WORKED.to_vec();
        b.extend((0..length.saturating_sub(WORKED.len())).map(|_| r.next() as u8));
        b.truncate(length);
        let want = compare(&b, b"0\n0\n1\n0\n");
        let told = if length % RECORD_BYTES != 0 || length == 0 || length > BOOK_BYTES { &b"book 1 0\n"[..] } else { b"" };
        assert!(want.starts_with(told));
        assert_eq!(length >= WORKED.len() && told.is_empty(), want.starts_with(b"7 0 1\n7 1 1\n"), "{length}");
    }
}

/// A refused book is told while standard input is open and gives nothing, and where it cannot be read at all.
#[test]
fn refused_books_need_no_input() {
    for folder in [Folder::empty(), Folder::with_rules(&WORKED[..47])] {
        let (running, pipe) = Running::piped(watch_in(&folder), Stdio::piped());
        same_lines(&running.end().quietly(), b"book 1 0\n");
        drop(pipe);
        let unreadable = File::open(&folder.0).unwrap();
        same_lines(&Running::start(watch_in(&folder), unreadable, Stdio::piped()).end().quietly(), b"book 1 0\n");
    }
}

/// However the input is cut into chunks, the output is the same.
#[test]
fn chunks() {
    let mut r = Random(47);
    let b = finally_book(17, 700);
    let folder = Folder::with_rules(&b);
    for (lines, chunks) in [(3000, &[1, 2, 7, 11][..]), (40_000, &[512, 1023, 4095, 4096, 4097, 65535, 65536, 65537])] {
        let states: Vec<u32> = (0..lines).map(|_| r.next() as u32).collect();
        let good = text(&mut r, &states);
        let bad = with_line(&good, lines - 10, b"1\r");
        for input in [&good, &good[..good.len() - 1], &bad] {
            let want = wanted(&b, input);
            for chunk in chunks {
                same_lines(&run_in_chunks(watch_in(&folder), input, *chunk).quietly(), &want);
            }
        }
    }
}

/// Standard input may be a file.
#[test]
fn input_from_a_file() {
    let mut r = Random(48);
    let b = finally_book(255, 30);
    let folder = Folder::with_rules(&b);
    for lines in [0, 1, 1024, 5000, 50_000] {
        let input = random_text(&mut r, lines);
        folder.write("states", &input);
        let states = File::open(folder.0.join("states")).unwrap();
        let running = Running::start(watch_in(&folder), states, Stdio::piped());
        same_lines(&running.end().quietly(), &wanted(&b, &input));
    }
    same_lines(&Running::start(watch_in(&folder), Stdio::null(), Stdio::piped()).end().quietly(), b"");
}

#[test]
fn a_million_lines() {
    let mut r = Random(49);
    let until = Node { kind: 9, arg: 0, lo: 2, hi: 1000, left: 1, right: 0 };
    let b = book_of(vec![SIGNAL, Node { arg: 1, ..SIGNAL }, until], &[(65_535, 2)]);
    let input = random_text(&mut r, 1_000_000);
    let want = compare(&b, &input);
    assert!(want.windows(12).rev().take(20).any(|w| w == b"65535 999999"));
    let late = with_line(&input, 999_990, b"9999999999");
    assert!(compare(&b, &late).ends_with(b"bad line 999991\n"));
}

/// The verdicts of each full block come while the pipe is open and nothing follows.
#[test]
fn live_pipe() {
    let mut r = Random(50);
    for delay in [0, 3, 1000, 1023, 1024, 1500, 4095] {
        let b = finally_book(8, delay);
        let input = random_text(&mut r, 6 * MAX_BLOCK + 100);
        let all = wanted(&b, &input);
        let ends = |text: &[u8]| -> Vec<usize> { (1..=text.len()).filter(|i| text[i - 1] == 10).collect() };
        let (read, print) = (ends(&input), ends(&all));
        let folder = Folder::with_rules(&b);
        let (mut running, mut pipe) = Running::piped(watch_in(&folder), Stdio::piped());
        let mut sent = 0;
        for block in 1..=6 {
            let upto = read[MAX_BLOCK * block - 1];
            // The last byte of the block, which completes its last line, comes alone.
            pipe.write_all(&input[sent..upto - 1]).unwrap();
            sleep(Duration::from_millis(1));
            pipe.write_all(&input[upto - 1..upto]).unwrap();
            sent = upto;
            let given = (MAX_BLOCK * block).saturating_sub(delay as usize);
            let bytes = if given == 0 { 0 } else { print[given - 1] };
            same_lines(running.wait_for(bytes), &all[..bytes]);
        }
        pipe.write_all(&input[sent..]).unwrap();
        drop(pipe);
        same_lines(&running.end().quietly(), &all);
    }
}

/// A book, or standard input, that is there and cannot be read.
#[test]
fn failed_reads() {
    let folder = Folder::empty();
    std::fs::create_dir(folder.0.join("rules.bin")).unwrap();
    let (running, mut pipe) = Running::piped(watch_in(&folder), Stdio::piped());
    let _ = pipe.write_all(b"0\n");
    drop(pipe);
    running.end().with_a_message();

    let folder = Folder::with_rules(&WORKED);
    let unreadable = File::open(&folder.0).unwrap();
    Running::start(watch_in(&folder), unreadable, Stdio::piped()).end().with_a_message();
}

/// Standard output without room: for a block's verdicts while the pipe is open, for the last ones, for a bad line and for a refusal.
#[test]
fn failed_writes() {
    let input = random_text(&mut Random(51), MAX_BLOCK);
    for (rules, input, open) in [
        (&finally_book(8, 5)[..], &input[..], true),
        (&WORKED, b"0\n0\n", false),
        (&WORKED, b"0\nx\n", false),
        (&WORKED[..47], b"", false),
    ] {
        let folder = Folder::with_rules(rules);
        let (running, mut pipe) = Running::piped(watch_in(&folder), full());
        let _ = pipe.write_all(input);
        let kept = open.then_some(pipe);
        running.end().with_a_message();
        drop(kept);
    }
}

/// Standard output whose reader went away. The system may end such a program before it can tell.
#[test]
fn nobody_reads() {
    let folder = Folder::with_rules(&finally_book(8, 5));
    let (reader, writer) = std::io::pipe().unwrap();
    drop(reader);
    let (running, mut pipe) = Running::piped(watch_in(&folder), writer);
    let _ = pipe.write_all(&random_text(&mut Random(52), 3000));
    let ended = running.end();
    assert!(!ended.message.is_empty() || ended.status.signal() == Some(13), "{}", ended.status);
    drop(pipe);
}
