//! The limits and refusal numbers: the documents' values in the C header, and the same names and values in the Rattle crates and in their specifications.
use juntreak_tests::header::limits::{self, MAX_NODES, MAX_RULES, NARROW_BYTES, NODE_COUNT_AT, RULE_COUNT_AT, SESSION_BYTES, STATUS_BYTES, TABLE_BYTES};
use juntreak_tests::header::places::{node_at, rule_at, ENABLE_AT, FIRST_NO_AT, INTERRUPT_AT, REFUSAL_AT, RULE_NUMBER_AT, SEEN_AT, STATUS_AT};
use juntreak_tests::header::{refusals, values, NUMBERS};
use std::collections::{BTreeMap, BTreeSet};

type Constants = BTreeMap<String, u64>;

/// Every constant of the header.
const VALUES: [(&str, u64); 70] = [
    ("RECORD_BYTES", 12),
    ("BOOK_BYTES", 3060),
    ("WRITTEN_BYTES", 876),
    ("TABLE_BYTES", 546),
    ("SESSION_BYTES", 558),
    ("NARROW_BYTES", 558),
    ("STATUS_BYTES", 16),
    ("HISTORY_WORDS", 4095),
    ("SCRATCH_WORDS", 5280),
    ("EARLY_SCRATCH_WORDS", 10560),
    ("FEED_WORDS", 16),
    ("CLOSE_WORDS", 64),
    ("REGISTER_WORDS", 80),
    ("WAITING_WORDS", 1024),
    ("MAX_RECORDS", 255),
    ("MAX_NODES", 64),
    ("MAX_RULES", 8),
    ("MAX_SIGNAL", 31),
    ("MAX_NAME", 65_535),
    ("MAX_INTERVAL", 4095),
    ("MAX_PARTS", 12),
    ("MAX_DELAY", 4095),
    ("MAX_STATE", 4_294_967_295),
    ("MAX_TRACE", 5120),
    ("MAX_BLOCK", 1024),
    ("MAX_SEEN", 18_446_744_073_709_551_615),
    ("MAX_NARROW_SEEN", 4_294_967_295),
    ("MAX_DEPTH", 32),
    ("MAX_LIST", 8),
    ("NODE_COUNT_AT", 0),
    ("RULE_COUNT_AT", 1),
    ("RULE_NUMBER_AT", 546),
    ("SEEN_AT", 550),
    ("STATUS_AT", 0),
    ("ENABLE_AT", 1),
    ("INTERRUPT_AT", 2),
    ("REFUSAL_AT", 3),
    ("FIRST_NO_AT", 4),
    ("STATUS_RUNNING", 1),
    ("STATUS_READY", 2),
    ("STATUS_NO", 4),
    ("STATUS_REFUSED", 8),
    ("OK", 0),
    ("LENGTH", 1),
    ("HEAD", 2),
    ("LINK", 3),
    ("FORM", 4),
    ("ARGUMENT", 5),
    ("INTERVAL", 6),
    ("OPERAND", 7),
    ("FULL", 8),
    ("LONG", 9),
    ("NAME", 10),
    ("RULELESS", 11),
    ("UNSOUND", 25),
    ("ABSENT", 21),
    ("STATES", 22),
    ("BUFFER", 23),
    ("LIST", 36),
    ("WAITING", 37),
    ("SEEN", 24),
    ("TICK", 31),
    ("BEYOND", 35),
    ("SYNTAX", 32),
    ("DEEP", 33),
    ("OUTPUT", 34),
    ("PLACE", 38),
    ("NO", 0),
    ("YES", 1),
    ("OPEN", 2),
];

/// What the header's limits and refusals have beside those of the Rattle crates; its values are in C only.
const IN_C_ONLY: [&str; 14] = [
    "NODE_COUNT_AT",
    "RULE_COUNT_AT",
    "RULE_NUMBER_AT",
    "SEEN_AT",
    "STATUS_AT",
    "ENABLE_AT",
    "INTERRUPT_AT",
    "REFUSAL_AT",
    "FIRST_NO_AT",
    "STATUS_RUNNING",
    "STATUS_READY",
    "STATUS_NO",
    "STATUS_REFUSED",
    "OK",
];

fn constants(list: &[(&str, u64)]) -> Constants {
    list.iter().map(|(name, value)| (name.to_string(), *value)).collect()
}

/// The constants of a Rattle file: `pub const NAME: type = value;`.
fn rattle(text: &str) -> Constants {
    let mut known = Constants::new();
    let other = |line: &str| line.is_empty() || ["//", "#!["].iter().any(|start| line.starts_with(start));
    for line in text.lines().filter(|line| !other(line)) {
        let constant = line.strip_prefix("pub const ").and_then(|rest| rest.strip_suffix(';')?.split_once(" = "));
        let (name, value) = constant.unwrap_or_else(|| panic!("no constant: {line}"));
        define(&mut known, name.split(':').next().unwrap(), value);
    }
    known
}

/// The variants of the one enum of a Rattle file, `Name = value,`, by the constants' names.
fn variants(text: &str) -> Constants {
    let mut known = Constants::new();
    let (_, rest) = text.split_once("pub enum ").expect("an enum");
    let (body, _) = rest.split_once("\n}").expect("its end");
    for line in body.lines().skip(1).map(str::trim).filter(|line| !line.starts_with("//")) {
        let variant = line.strip_suffix(',').and_then(|rest| rest.split_once(" = "));
        let (name, value) = variant.unwrap_or_else(|| panic!("no variant: {line}"));
        define(&mut known, name, value);
    }
    known
}

/// The definitions of a specification: `name = value`.
fn specification(text: &str) -> Constants {
    let mut known = Constants::new();
    let other = |line: &str| line.is_empty() || ["--", "use ", "abbrev pub "].iter().any(|start| line.starts_with(start));
    for line in text.lines().filter(|line| !other(line)) {
        let (name, value) = line.split_once(" = ").unwrap_or_else(|| panic!("no definition: {line}"));
        define(&mut known, name, value);
    }
    known
}

fn define(known: &mut Constants, name: &str, text: &str) {
    let value = value(text, known);
    assert_eq!(known.insert(capitals(name), value), None, "{name} is defined twice");
}

/// max_nodes is MAX_NODES; a name in capitals stays.
fn capitals(name: &str) -> String {
    name.to_uppercase()
}

/// The value of an expression of numbers, names that are known, sums, products and parentheses.
fn value(text: &str, known: &Constants) -> u64 {
    let text = text.trim();
    if let Some((a, b)) = split(text, '+') {
        return value(a, known) + value(b, known);
    }
    if let Some((a, b)) = split(text, '*') {
        return value(a, known) * value(b, known);
    }
    if let Some(inner) = text.strip_prefix('(').and_then(|rest| rest.strip_suffix(')')) {
        return value(inner, known);
    }
    text.parse().ok().or_else(|| known.get(&capitals(text)).copied()).unwrap_or_else(|| panic!("no value of {text}"))
}

/// The two sides of the first such sign outside parentheses.
fn split(text: &str, sign: char) -> Option<(&str, &str)> {
    let mut depth = 0;
    for (i, c) in text.char_indices() {
        match c {
            '(' => depth += 1,
            ')' => depth -= 1,
            c if c == sign && depth == 0 => return Some((&text[..i], &text[i + 1..])),
            _ => {}
        }
    }
    None
}

/// Fails with every name that only one has or that has two values.
fn same(what: &str, got: Constants, want: Constants) {
    let names = got.keys().chain(want.keys()).collect::<BTreeSet<_>>().into_iter();
    let different: Vec<_> = names.map(|name| (name, got.get(name), want.get(name))).filter(|(_, g, w)| g != w).collect();
    assert!(different.is_empty(), "{what}: {different:?}");
}

/// The constants of the header that the Rattle crates have too.
fn shared(list: &[(&str, u64)]) -> Constants {
    let mut all = constants(list);
    all.retain(|name, _| !IN_C_ONLY.contains(&name.as_str()));
    all
}

#[test]
fn the_header_has_the_documents_values() {
    same("header", constants(&[limits::ALL, refusals::ALL, values::ALL].concat()), constants(&VALUES));
}

#[test]
fn the_rattle_crates_have_the_same() {
    same("limits", rattle(include_str!("../../crates/limits/src/lib.rt")), shared(limits::ALL));
    same("refusals", variants(include_str!("../../crates/refusals/src/lib.rt")), shared(refusals::ALL));
}

#[test]
fn the_specifications_have_the_same() {
    same("Limits", specification(include_str!("../../crates/limits/specs/Limits.antt")), shared(limits::ALL));
    same("Numbers", specification(include_str!("../../crates/refusals/specs/Numbers.antt")), shared(refusals::ALL));
}

/// The places follow each other and fill the table and the session, a narrow one too, and the status registers but for their last four bytes; no refusal
/// number is beyond the counts by number.
#[test]
fn places() {
    assert_eq!([NODE_COUNT_AT, RULE_COUNT_AT, node_at(0), rule_at(0), RULE_NUMBER_AT, SEEN_AT], [0, 1, 2, 514, 546, 550]);
    assert_eq!([node_at(MAX_NODES), rule_at(MAX_RULES), SEEN_AT + 8, SEEN_AT + 8], [rule_at(0), TABLE_BYTES, SESSION_BYTES, NARROW_BYTES]);
    assert_eq!([STATUS_AT, ENABLE_AT, INTERRUPT_AT, REFUSAL_AT, FIRST_NO_AT, FIRST_NO_AT + 8 + 4], [0, 1, 2, 3, 4, STATUS_BYTES]);
    assert!(refusals::ALL.iter().all(|(_, number)| *number < NUMBERS as u64));
}
