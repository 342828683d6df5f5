//! Books as records, and the book that is written of a table, after document 02, request A3.
use crate::header::limits::{RECORD_BYTES, TABLE_BYTES};
use crate::header::refusals::{OK, OUTPUT, UNSOUND};
use crate::model::{sound, Node, Rule, Table};

/// Kind, argument, lo (2), hi (2), left, right, next, upper half of a rule's name, zeros (2).
pub type Record = [u8; RECORD_BYTES];

/// Where next stands in a record, and the two halves of a rule's name.
pub const NEXT: usize = 8;
pub const LOWER: usize = 1;
pub const UPPER: usize = 9;

/// The book of document 01's worked example.
pub const WORKED: [u8; 4 * RECORD_BYTES] = [
    0, 0, 0, 0, 0, 0, 0, 0, 1, 0, 0, 0, //
    1, 0, 0, 0, 0, 0, 0, 0, 2, 0, 0, 0, //
    7, 0, 1, 0, 3, 0, 1, 0, 3, 0, 0, 0, //
    11, 7, 0, 0, 0, 0, 2, 0, 0, 0, 0, 0,
];

/// The record of a node, its next still 0; `record` gives the number of an operand's record.
pub fn node_record(n: &Node, record: impl Fn(u8) -> u8) -> Record {
    let (lo, hi) = (n.lo.to_le_bytes(), n.hi.to_le_bytes());
    let left = if n.kind >= 4 { record(n.left) } else { 0 };
    let right = if matches!(n.kind, 5 | 6 | 9 | 10) { record(n.right) } else { 0 };
    [n.kind, n.arg, lo[0], lo[1], hi[0], hi[1], left, right, 0, 0, 0, 0]
}

/// The record of a rule, its next still 0.
pub fn rule_record(r: &Rule, record: impl Fn(u8) -> u8) -> Record {
    let [lower, upper] = r.name.to_le_bytes();
    [11, lower, 0, 0, 0, 0, record(r.watched), 0, 0, upper, 0, 0]
}

/// The book of a head and these records, chained 1, 2, 3 up.
pub fn chained(records: &[Record]) -> Vec<u8> {
    let mut all = [&[[0; RECORD_BYTES]], records].concat();
    let last = all.len() - 1;
    for (i, e) in all.iter_mut().enumerate() {
        e[NEXT] = if i < last { u8::try_from(i + 1).unwrap() } else { 0 };
    }
    all.concat()
}

/// The book of a table: the head, all nodes in table order, the rules.
pub fn book(t: &Table) -> Vec<u8> {
    let record = |place| place + 1;
    let nodes = t.nodes.iter().map(|n| node_record(n, record));
    let rules = t.rules.iter().map(|r| rule_record(r, record));
    chained(&nodes.chain(rules).collect::<Vec<_>>())
}

/// The number and the length of the call, and the output after it.
pub fn write(table: &[u8; TABLE_BYTES], out: &mut [u8]) -> (u32, usize) {
    let Some(t) = sound(table) else { return (UNSOUND, 0) };
    let book = book(&t);
    if out.len() < book.len() {
        return (OUTPUT, 0);
    }
    out[..book.len()].copy_from_slice(&book);
    (OK, book.len())
}
