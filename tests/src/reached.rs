//! How far one bad reading reaches, written from document 02's sentences (A8): the near distance, the range, and the call over it.
use crate::header::limits::TABLE_BYTES;
use crate::header::refusals::{ABSENT, BEYOND, OK, UNSOUND};
use crate::model::{sound, Node, Table};

/// In an answer, beside the number: there is a range.
pub const RANGE: u32 = 256;

/// The near distance of a node over nodes with these near distances.
fn near_of(n: &Node, before: &[u32]) -> u32 {
    let (lo, left, right) = (n.lo as u32, || before[n.left as usize], || before[n.right as usize]);
    match n.kind {
        1..=3 => 0,
        4 => left(),
        5 | 6 => left().min(right()),
        7 | 8 => lo + left(),
        9 | 10 => lo + left().min(right()),
        _ => unreachable!(),
    }
}

/// The near distance of what a rule watches.
pub fn near(t: &Table, rule: usize) -> u32 {
    let mut nears = vec![];
    for n in &t.nodes {
        nears.push(near_of(n, &nears));
    }
    nears[t.rules[rule].watched as usize]
}

/// The ticks from s - D to s - near, cut to those of a mission of n states; none if nothing is left.
pub fn range(t: &Table, rule: usize, n: u64, s: u64) -> Option<(u64, u64)> {
    let (delay, near) = (t.rule_delay(rule) as i128, near(t, rule) as i128);
    let first = (s as i128 - delay).max(0);
    let last = (s as i128 - near).min(n as i128 - 1);
    (first <= last).then_some((first as u64, last as u64))
}

/// The answer of a call, and the two words after it.
pub fn reach(table: &[u8; TABLE_BYTES], rule: u32, n: u64, s: u64, words: &mut [u64; 2]) -> u32 {
    let Some(t) = sound(table) else { return UNSOUND };
    if rule as usize >= t.rules.len() {
        return ABSENT;
    }
    if s >= n {
        return BEYOND;
    }
    let Some((first, last)) = range(&t, rule as usize, n, s) else { return OK };
    *words = [first, last];
    RANGE
}
