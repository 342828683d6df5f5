//! What states seen so far decide: the three-valued meaning, written from document 02's sentences, and the call over it.
use crate::header::limits::{EARLY_SCRATCH_WORDS, MAX_TRACE, TABLE_BYTES};
use crate::header::refusals::{ABSENT, BUFFER, OK, STATES, TICK, UNSOUND};
use crate::header::values::{NO, OPEN, YES};
use crate::model::{sound, Table};

/// The values in their order: `and` is the smaller, `or` the larger.
#[derive(Clone, Copy, Debug, PartialEq, Eq, PartialOrd, Ord)]
pub enum Known {
    No,
    Open,
    Yes,
}

use Known::{No, Open, Yes};

impl std::ops::Not for Known {
    type Output = Known;

    fn not(self) -> Known {
        match self {
            No => Yes,
            Open => Open,
            Yes => No,
        }
    }
}

impl Known {
    /// The value of the C interface.
    pub fn value(self) -> u32 {
        match self {
            No => NO,
            Open => OPEN,
            Yes => YES,
        }
    }

    /// The verdict, if it is decided.
    pub fn verdict(self) -> Option<bool> {
        match self {
            No => Some(false),
            Open => None,
            Yes => Some(true),
        }
    }
}

fn decided(holds: bool) -> Known {
    if holds {
        Yes
    } else {
        No
    }
}

fn and(xs: impl Iterator<Item = Known>) -> Known {
    xs.min().unwrap_or(Yes)
}

fn or(xs: impl Iterator<Item = Known>) -> Known {
    xs.max().unwrap_or(No)
}

/// What the states decide about the node at a place at a tick, seen or not, sentence by sentence.
pub fn known(t: &Table, place: usize, tick: usize, states: &[u32]) -> Known {
    if tick >= states.len() {
        return Open;
    }
    let n = &t.nodes[place];
    let (from, to) = (tick + n.lo as usize, tick + n.hi as usize);
    let a = |i: usize| known(t, n.left as usize, i, states);
    let b = |i: usize| known(t, n.right as usize, i, states);
    match n.kind {
        1 => decided(states[tick] >> n.arg & 1 == 1),
        2 => Yes,
        3 => No,
        4 => !a(tick),
        5 => a(tick).min(b(tick)),
        6 => a(tick).max(b(tick)),
        7 => or((from..=to).map(a)),
        8 => and((from..=to).map(a)),
        9 => or((from..=to).map(|i| b(i).min(and((from..i).map(a))))),
        10 => !or((from..=to).map(|i| (!b(i)).min(and((from..i).map(|j| !a(j)))))),
        _ => unreachable!(),
    }
}

/// The same at every tick seen, in one pass over the trace for each node.
pub fn column(t: &Table, place: usize, states: &[u32]) -> Vec<Known> {
    let n = states.len();
    let mut columns: Vec<Vec<Known>> = vec![];
    for node in &t.nodes[..=place] {
        let a = || &columns[node.left as usize];
        let b = || &columns[node.right as usize];
        let limits = |tick: usize| ((tick + node.lo as usize).min(n), tick + node.hi as usize);
        // One operand: yes if the first yes is in the window, no if nothing but no is.
        let eventually = |a: &[Known]| -> Vec<Known> {
            let (yes, not_no) = (first(a, |x| x == Yes), first(a, |x| x != No));
            let at = |(from, to): (usize, usize)| {
                if yes[from] < n && yes[from] <= to {
                    Yes
                } else if not_no[from] > to {
                    No
                } else {
                    Open
                }
            };
            (0..n).map(|tick| at(limits(tick))).collect()
        };
        // Two operands: the left has to be yes before the first yes of the right; after a no of the left the right is in vain.
        let until = |a: &[Known], b: &[Known]| -> Vec<Known> {
            let (a_not_yes, a_no) = (first(a, |x| x != Yes), first(a, |x| x == No));
            let (b_yes, b_not_no) = (first(b, |x| x == Yes), first(b, |x| x != No));
            let at = |(from, to): (usize, usize)| {
                // Without a no the left ends at no tick seen.
                let end = if a_no[from] < n { a_no[from].min(to) } else { to };
                if b_yes[from] < n && b_yes[from] <= to && b_yes[from] <= a_not_yes[from] {
                    Yes
                } else if b_not_no[from] > end {
                    No
                } else {
                    Open
                }
            };
            (0..n).map(|tick| at(limits(tick))).collect()
        };
        let inverse = |c: &[Known]| -> Vec<Known> { c.iter().map(|x| !*x).collect() };
        let column = match node.kind {
            1 => states.iter().map(|x| decided(x >> node.arg & 1 == 1)).collect(),
            2 => vec![Yes; n],
            3 => vec![No; n],
            4 => inverse(a()),
            5 => (0..n).map(|i| a()[i].min(b()[i])).collect(),
            6 => (0..n).map(|i| a()[i].max(b()[i])).collect(),
            7 => eventually(a()),
            8 => inverse(&eventually(&inverse(a()))),
            9 => until(a(), b()),
            10 => inverse(&until(&inverse(a()), &inverse(b()))),
            _ => unreachable!(),
        };
        columns.push(column);
    }
    columns.pop().unwrap()
}

/// For each tick, the first unseen one included, the first one at or after it with such a value; the first unseen one if there is none.
fn first(column: &[Known], such: impl Fn(Known) -> bool) -> Vec<usize> {
    let mut at = column.len();
    let mut out = vec![at; column.len() + 1];
    for i in (0..column.len()).rev() {
        if such(column[i]) {
            at = i;
        }
        out[i] = at;
    }
    out
}

/// The number and the value of the call, and the scratch after it.
pub fn early(table: &[u8; TABLE_BYTES], rule: u32, states: &[u32], tick: usize, scratch: &mut [u64]) -> (u32, u32) {
    let Some(t) = sound(table) else { return (UNSOUND, NO) };
    if rule as usize >= t.rules.len() {
        return (ABSENT, NO);
    }
    if states.len() > MAX_TRACE {
        return (STATES, NO);
    }
    if scratch.len() < EARLY_SCRATCH_WORDS {
        return (BUFFER, NO);
    }
    if tick >= states.len() {
        return (TICK, NO);
    }
    scratch[..EARLY_SCRATCH_WORDS].fill(0);
    (OK, column(&t, t.rules[rule as usize].watched as usize, states)[tick].value())
}
