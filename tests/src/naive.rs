//! The naive evaluator as a stream: each tick is judged by looking through its window, quantifier by quantifier.
use crate::model::Table;

/// Whether the node at a place holds at a tick.
pub fn holds(t: &Table, place: usize, tick: usize, states: &[u32]) -> bool {
    let n = &t.nodes[place];
    let (from, to) = (tick + n.lo as usize, (tick + n.hi as usize + 1).min(states.len()));
    let a = |i: usize| holds(t, n.left as usize, i, states);
    let b = |i: usize| holds(t, n.right as usize, i, states);
    match n.kind {
        1 => states[tick] >> n.arg & 1 == 1,
        2 => true,
        3 => false,
        4 => !a(tick),
        5 => a(tick) && b(tick),
        6 => a(tick) || b(tick),
        7 => (from..to).any(a),
        8 => (from..to).all(a),
        9 => (from..to).any(|i| b(i) && (from..i).all(a)),
        10 => !(from..to).any(|i| !b(i) && (from..i).all(|j| !a(j))),
        _ => unreachable!(),
    }
}

/// A stream of states, of which the last ones are kept that ticks still wait for.
pub struct Stream<'a> {
    table: &'a Table,
    watched: usize,
    delay: usize,
    kept: Vec<u32>,
}

impl Stream<'_> {
    pub fn new(table: &Table, rule: usize) -> Stream<'_> {
        Stream { table, watched: table.rules[rule].watched as usize, delay: table.rule_delay(rule) as usize, kept: vec![] }
    }

    /// Tells `give` the verdicts of the ticks that the block settles.
    pub fn feed(&mut self, block: &[u32], mut give: impl FnMut(bool)) {
        self.kept.extend_from_slice(block);
        let settled = self.kept.len().saturating_sub(self.delay);
        for tick in 0..settled {
            give(holds(self.table, self.watched, tick, &self.kept));
        }
        self.kept.drain(..settled);
    }
}
