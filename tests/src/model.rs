//! What the documents say, written plainly and without regard to speed: the reader of books, soundness, delays, splitting, verdicts, the laws of simplifying, and sessions.
use crate::header::limits::{
    CLOSE_WORDS, FEED_WORDS, HISTORY_WORDS, MAX_BLOCK, MAX_DELAY, MAX_INTERVAL, MAX_NAME, MAX_NARROW_SEEN, MAX_NODES, MAX_RECORDS, MAX_RULES, MAX_SEEN,
    MAX_SIGNAL, MAX_TRACE, NARROW_BYTES, NODE_COUNT_AT, RECORD_BYTES, RULE_COUNT_AT, SCRATCH_WORDS, SESSION_BYTES, TABLE_BYTES,
};
use crate::header::places::{node_at, rule_at, RULE_NUMBER_AT, SEEN_AT};
use crate::header::refusals::{
    ABSENT, ARGUMENT, BUFFER, FORM, FULL, HEAD, INTERVAL, LENGTH, LINK, LONG, NAME, OK, OPERAND, RULELESS, SEEN, STATES, UNSOUND,
};

#[derive(Clone, Copy, Debug, PartialEq, Eq)]
pub struct Node {
    pub kind: u8,
    pub arg: u8,
    pub lo: u16,
    pub hi: u16,
    pub left: u8,
    pub right: u8,
}

#[derive(Clone, Copy, Debug, PartialEq, Eq)]
pub struct Rule {
    pub name: u16,
    pub watched: u8,
}

#[derive(Clone, Debug, PartialEq, Eq)]
pub struct Table {
    pub nodes: Vec<Node>,
    pub rules: Vec<Rule>,
}

/// The delay that U and R have: that of document 02, request A5, or that of document 01, which was read before it.
#[derive(Clone, Copy, Debug, PartialEq, Eq)]
pub enum Delay {
    New,
    Old,
}

impl Delay {
    /// The delay of a node over nodes with these delays.
    pub fn of(self, n: &Node, before: &[u32]) -> u32 {
        let (hi, left, right) = (n.hi as u32, || before[n.left as usize], || before[n.right as usize]);
        match n.kind {
            1..=3 => 0,
            4 => left(),
            5 | 6 => left().max(right()),
            7 | 8 => hi + left(),
            9 | 10 if self == Delay::Old => hi + left().max(right()),
            9 | 10 if n.lo == n.hi => hi + right(),
            9 | 10 => hi + left().saturating_sub(1).max(right()),
            _ => unreachable!(),
        }
    }
}

/// The bytes that the name of a rule has in a book: those of document 02, request A11, or that of document 01, which was read before it.
#[derive(Clone, Copy, Debug, PartialEq, Eq)]
pub enum Names {
    TwoBytes,
    OneByte,
}

impl Table {
    /// The bytes of the C interface.
    pub fn bytes(&self) -> [u8; TABLE_BYTES] {
        let mut b = [0u8; TABLE_BYTES];
        b[NODE_COUNT_AT] = self.nodes.len() as u8;
        b[RULE_COUNT_AT] = self.rules.len() as u8;
        for (i, n) in self.nodes.iter().enumerate() {
            let e = &mut b[node_at(i)..];
            e[0] = n.kind;
            e[1] = n.arg;
            e[2..4].copy_from_slice(&n.lo.to_le_bytes());
            e[4..6].copy_from_slice(&n.hi.to_le_bytes());
            e[6] = n.left;
            e[7] = n.right;
        }
        for (i, r) in self.rules.iter().enumerate() {
            let e = &mut b[rule_at(i)..];
            e[0..2].copy_from_slice(&r.name.to_le_bytes());
            e[2] = r.watched;
        }
        b
    }

    /// The delay of each node.
    pub fn delays(&self) -> Vec<u32> {
        self.delays_under(Delay::New)
    }

    /// The same under either delay.
    pub fn delays_under(&self, delay: Delay) -> Vec<u32> {
        let mut delays = vec![];
        for n in &self.nodes {
            delays.push(delay.of(n, &delays));
        }
        delays
    }

    /// The verdicts of the node at a place, at every tick.
    pub fn verdicts(&self, place: usize, states: &[u32]) -> Vec<bool> {
        let mut columns: Vec<Vec<bool>> = vec![];
        for n in &self.nodes[..=place] {
            let column = (0..states.len()).map(|t| verdict(n, t, states, &columns)).collect();
            columns.push(column);
        }
        columns.pop().unwrap()
    }

    /// The same as `verdicts`, in one pass over the trace for each node: only the first tick at or after t+lo at which the operand holds, or fails, matters.
    pub fn quick(&self, place: usize, states: &[u32]) -> Vec<bool> {
        self.columns(place + 1, states).pop().unwrap()
    }

    /// The verdicts of the first `count` nodes.
    pub fn columns(&self, count: usize, states: &[u32]) -> Vec<Vec<bool>> {
        let n = states.len();
        let mut columns: Vec<Vec<bool>> = vec![];
        for node in &self.nodes[..count] {
            let a = || &columns[node.left as usize];
            let b = || &columns[node.right as usize];
            // Whether the first such tick is in the window of t and comes no later than `other`.
            let within = |first: &[usize], other: Option<&[usize]>| -> Vec<bool> {
                (0..n)
                    .map(|t| {
                        let from = t + node.lo as usize;
                        from < n && first[from] < n && first[from] <= t + node.hi as usize && other.is_none_or(|o| first[from] <= o[from])
                    })
                    .collect()
            };
            let inverse = |c: Vec<bool>| -> Vec<bool> { c.iter().map(|x| !x).collect() };
            let column = match node.kind {
                1 => states.iter().map(|x| x >> node.arg & 1 == 1).collect(),
                2 => vec![true; n],
                3 => vec![false; n],
                4 => inverse(a().clone()),
                5 => (0..n).map(|t| a()[t] && b()[t]).collect(),
                6 => (0..n).map(|t| a()[t] || b()[t]).collect(),
                7 => within(&first(a(), true), None),
                8 => inverse(within(&first(a(), false), None)),
                9 => within(&first(b(), true), Some(&first(a(), false))),
                10 => inverse(within(&first(b(), false), Some(&first(a(), true)))),
                _ => unreachable!(),
            };
            columns.push(column);
        }
        columns
    }

    /// The delay of a rule.
    pub fn rule_delay(&self, rule: usize) -> u32 {
        self.rule_delay_under(Delay::New, rule)
    }

    /// The same under either delay.
    pub fn rule_delay_under(&self, delay: Delay, rule: usize) -> u32 {
        self.delays_under(delay)[self.rules[rule].watched as usize]
    }

    /// The verdicts of a rule.
    pub fn rule_verdicts(&self, rule: usize, states: &[u32]) -> Vec<bool> {
        self.quick(self.rules[rule].watched as usize, states)
    }
}

/// For each tick the first one at or after it with the value; the length if there is none.
fn first(column: &[bool], value: bool) -> Vec<usize> {
    let mut at = column.len();
    let mut out = vec![at; column.len()];
    for t in (0..column.len()).rev() {
        if column[t] == value {
            at = t;
        }
        out[t] = at;
    }
    out
}

/// The verdict of a node at a tick by those of its operands, quantifier by quantifier.
fn verdict(n: &Node, t: usize, states: &[u32], columns: &[Vec<bool>]) -> bool {
    let len = states.len();
    let (from, to) = (t + n.lo as usize, t + n.hi as usize);
    let a = |i: usize| columns[n.left as usize][i];
    let b = |i: usize| columns[n.right as usize][i];
    let window = || from..(to + 1).min(len).max(from);
    match n.kind {
        1 => states[t] >> n.arg & 1 == 1,
        2 => true,
        3 => false,
        4 => !a(t),
        5 => a(t) && b(t),
        6 => a(t) || b(t),
        7 => window().any(a),
        8 => !window().any(|i| !a(i)),
        9 => window().any(|i| b(i) && (from..i).all(a)),
        10 => !window().any(|i| !b(i) && (from..i).all(|j| !a(j))),
        _ => unreachable!(),
    }
}

/// What the interface's bytes say, if they are a sound table's.
pub fn sound(b: &[u8; TABLE_BYTES]) -> Option<Table> {
    sound_under(Delay::New, b)
}

/// The same under either delay.
pub fn sound_under(delay: Delay, b: &[u8; TABLE_BYTES]) -> Option<Table> {
    let (nodes, rules) = (b[NODE_COUNT_AT] as usize, b[RULE_COUNT_AT] as usize);
    if nodes > MAX_NODES || rules == 0 || rules > MAX_RULES {
        return None;
    }
    let mut t = Table { nodes: vec![], rules: vec![] };
    for i in 0..MAX_NODES {
        let e = &b[node_at(i)..node_at(i + 1)];
        if i >= nodes {
            if e.iter().any(|x| *x != 0) {
                return None;
            }
            continue;
        }
        let n = Node {
            kind: e[0],
            arg: e[1],
            lo: u16::from_le_bytes([e[2], e[3]]),
            hi: u16::from_le_bytes([e[4], e[5]]),
            left: e[6],
            right: e[7],
        };
        let earlier = |p: u8| (p as usize) < i;
        let fine = match n.kind {
            1 => n.arg as usize <= MAX_SIGNAL,
            2..=10 => n.arg == 0,
            _ => false,
        } && (if n.kind >= 7 { n.lo <= n.hi && n.hi as usize <= MAX_INTERVAL } else { n.lo == 0 && n.hi == 0 })
            && (if n.kind >= 4 { earlier(n.left) } else { n.left == 0 })
            && (if matches!(n.kind, 5 | 6 | 9 | 10) { earlier(n.right) } else { n.right == 0 });
        if !fine {
            return None;
        }
        t.nodes.push(n);
    }
    if t.delays_under(delay).iter().any(|d| *d as usize > MAX_DELAY) {
        return None;
    }
    for i in 0..MAX_RULES {
        let e = &b[rule_at(i)..rule_at(i + 1)];
        if i >= rules {
            if e.iter().any(|x| *x != 0) {
                return None;
            }
            continue;
        }
        let r = Rule { name: u16::from_le_bytes([e[0], e[1]]), watched: e[2] };
        if e[3] != 0 || r.name == 0 || r.name as usize > MAX_NAME || r.watched as usize >= nodes || t.rules.iter().any(|q| q.name == r.name) {
            return None;
        }
        t.rules.push(r);
    }
    Some(t)
}

/// The reading of a book: its table, or the number and the record of the refusal.
pub fn read(book: &[u8]) -> Result<Table, (u32, u8)> {
    read_under(Names::TwoBytes, book)
}

/// The same with names of either width.
pub fn read_under(names: Names, book: &[u8]) -> Result<Table, (u32, u8)> {
    if book.is_empty() || book.len() % RECORD_BYTES != 0 || book.len() / RECORD_BYTES > MAX_RECORDS {
        return Err((LENGTH, 0));
    }
    let records: Vec<&[u8]> = book.chunks(RECORD_BYTES).collect();
    let head = records[0];
    if (0..RECORD_BYTES).any(|i| i != 8 && head[i] != 0) {
        return Err((HEAD, 0));
    }
    let mut passed = vec![0usize];
    let follow = |at: usize, passed: &[usize]| -> Result<usize, (u32, u8)> {
        let next = records[at][8] as usize;
        if next != 0 && (next >= records.len() || passed.contains(&next)) {
            return Err((LINK, at as u8));
        }
        Ok(next)
    };
    let mut at = follow(0, &passed)?;
    let mut t = Table { nodes: vec![], rules: vec![] };
    let mut place = std::collections::HashMap::new();
    while at != 0 {
        passed.push(at);
        let next = follow(at, &passed)?;
        let e = records[at];
        let refuse = |n: u32| Err((n, at as u8));
        let kind = e[0];
        let (arg, left, right) = (e[1], e[6], e[7]);
        let (lo, hi) = (u16::from_le_bytes([e[2], e[3]]), u16::from_le_bytes([e[4], e[5]]));
        // The fields that each kind uses: argument, left, right, interval.
        let (has_arg, has_left, has_right, has_interval) = match kind {
            1 => (true, false, false, false),
            2 | 3 => (false, false, false, false),
            4 => (false, true, false, false),
            5 | 6 => (false, true, true, false),
            7 | 8 => (false, true, false, true),
            9 | 10 => (false, true, true, true),
            11 => (true, true, false, false),
            _ => return refuse(FORM),
        };
        if (!has_arg && arg != 0) || (!has_left && left != 0) || (!has_right && right != 0) || (!has_interval && (lo != 0 || hi != 0)) {
            return refuse(FORM);
        }
        // Byte 9 is the upper half of a rule's name, if that has two bytes.
        let (has_upper, name) = (kind == 11 && names == Names::TwoBytes, u16::from_le_bytes([arg, e[9]]));
        if (!has_upper && e[9] != 0) || e[10..] != [0, 0] {
            return refuse(FORM);
        }
        if (kind == 1 && arg as usize > MAX_SIGNAL) || (kind == 11 && name == 0) {
            return refuse(ARGUMENT);
        }
        if has_interval && (lo > hi || hi as usize > MAX_INTERVAL) {
            return refuse(INTERVAL);
        }
        if (has_left && !place.contains_key(&left)) || (has_right && !place.contains_key(&right)) {
            return refuse(OPERAND);
        }
        let node_at = |r: u8| *place.get(&r).unwrap_or(&0u8);
        if kind == 11 {
            if t.rules.len() == MAX_RULES {
                return refuse(FULL);
            }
            if t.rules.iter().any(|q| q.name == name) {
                return refuse(NAME);
            }
            t.rules.push(Rule { name, watched: node_at(left) });
        } else {
            if t.nodes.len() == MAX_NODES {
                return refuse(FULL);
            }
            t.nodes.push(Node { kind, arg, lo, hi, left: node_at(left), right: node_at(right) });
            if *t.delays().last().unwrap() as usize > MAX_DELAY {
                return refuse(LONG);
            }
            place.insert(at as u8, t.nodes.len() as u8 - 1);
        }
        at = next;
    }
    if t.rules.is_empty() {
        return Err((RULELESS, 0));
    }
    Ok(t)
}

/// The parts of v: each time the largest k ≥ 1 with 2^k - 1 at most what is left.
pub fn parts(mut v: u32) -> Vec<u8> {
    let mut out = vec![];
    while v > 0 {
        let k = (1..=12).rev().find(|k| (1u32 << k) - 1 <= v).unwrap();
        out.push(k as u8);
        v -= (1 << k) - 1;
    }
    out
}

/// The shorter splitting of the length v + 1 (A7).
#[derive(Debug, PartialEq)]
pub struct Doubling {
    /// Of the largest power of two that is at most the length.
    pub exponent: u32,
    pub leftover: u32,
    /// Of the moves.
    pub count: u32,
}

pub fn doubling(v: u32) -> Doubling {
    let (mut power, mut exponent) = (1, 0);
    while 2 * power <= v + 1 {
        power *= 2;
        exponent += 1;
    }
    let leftover = v + 1 - power;
    Doubling { exponent, leftover, count: exponent + u32::from(leftover > 0) }
}

/// A law of simplifying that fits the node at a place by itself and its operands.
pub fn law_at(t: &Table, place: usize) -> Option<&'static str> {
    let n = &t.nodes[place];
    let constant = |p: u8| matches!(t.nodes[p as usize].kind, 2 | 3);
    let left = || &t.nodes[n.left as usize];
    let right = || &t.nodes[n.right as usize];
    let inside = |x: &Node, y: &Node| y.lo <= x.lo && x.hi <= y.hi;
    match n.kind {
        4 if left().kind == 4 => return Some("not not"),
        4 if constant(n.left) => return Some("not of a constant"),
        5 | 6 => {
            if constant(n.left) || constant(n.right) {
                return Some("and, or with a constant");
            }
            if n.left == n.right {
                return Some("and, or of one node");
            }
            let (x, y) = (left(), right());
            if matches!(x.kind, 7 | 8) && x.kind == y.kind && x.left == y.left && (inside(x, y) || inside(y, x)) {
                return Some("two intervals, one inside the other");
            }
        }
        7..=10 => {
            if n.lo == 0 && n.hi == 0 {
                return Some("[0,0]");
            }
            if matches!(n.kind, 7 | 8) && left().kind == n.kind {
                return Some("F F or G G");
            }
            // The node whose value at some tick decides.
            let decides = if n.kind <= 8 { left() } else { right() };
            if (matches!(n.kind, 7 | 9) && decides.kind == 3) || (matches!(n.kind, 8 | 10) && decides.kind == 2) {
                return Some("F false, U false, G true, R true");
            }
        }
        _ => {}
    }
    if t.nodes[..place].contains(n) {
        return Some("two equal nodes");
    }
    None
}

/// The places that no operand and no rule names.
pub fn unused(t: &Table) -> Vec<usize> {
    let mut used = vec![false; t.nodes.len()];
    for n in &t.nodes {
        if n.kind >= 4 {
            used[n.left as usize] = true;
        }
        if matches!(n.kind, 5 | 6 | 9 | 10) {
            used[n.right as usize] = true;
        }
    }
    for r in &t.rules {
        used[r.watched as usize] = true;
    }
    (0..t.nodes.len()).filter(|i| !used[*i]).collect()
}

/// A law of simplifying that fits somewhere in the table.
pub fn law(t: &Table) -> Option<String> {
    if let Some((i, l)) = (0..t.nodes.len()).find_map(|i| law_at(t, i).map(|l| (i, l))) {
        return Some(format!("{l}, at place {i}"));
    }
    unused(t).first().map(|i| format!("unused node, at place {i}"))
}

/// Words of out with the verdicts and zeros behind them.
fn write_verdicts(out: &mut [u64], verdicts: &[bool]) {
    for w in out.iter_mut() {
        *w = 0;
    }
    for (i, v) in verdicts.iter().enumerate() {
        out[i / 64] |= (*v as u64) << (i % 64);
    }
}

/// The number of the whole-trace verdicts, and the buffers after it.
pub fn whole(table: &[u8; TABLE_BYTES], rule: u32, states: &[u32], scratch: &mut [u64], out: &mut [u64]) -> u32 {
    let Some(t) = sound(table) else { return UNSOUND };
    if rule as usize >= t.rules.len() {
        return ABSENT;
    }
    if states.len() > MAX_TRACE {
        return STATES;
    }
    let words = states.len().div_ceil(64);
    if scratch.len() < SCRATCH_WORDS || out.len() < words {
        return BUFFER;
    }
    write_verdicts(&mut out[..words], &t.rule_verdicts(rule as usize, states));
    scratch[..SCRATCH_WORDS].fill(0);
    OK
}

/// The count of states that a session has: that of the library, or the narrow one of the library before it.
#[derive(Clone, Copy, Debug, PartialEq, Eq)]
pub enum Width {
    Narrow,
    Wide,
}

impl Width {
    /// The largest count.
    pub fn last(self) -> u64 {
        match self {
            Width::Narrow => MAX_NARROW_SEEN as u64,
            Width::Wide => MAX_SEEN as u64,
        }
    }
}

#[derive(Clone, Debug, PartialEq, Eq)]
pub struct Session {
    pub table: Table,
    pub rule: u32,
    pub seen: u64,
}

impl Session {
    /// The bytes of the C interface.
    pub fn bytes(&self) -> [u8; SESSION_BYTES] {
        let mut b = [0u8; SESSION_BYTES];
        b[..TABLE_BYTES].copy_from_slice(&self.table.bytes());
        b[RULE_NUMBER_AT..SEEN_AT].copy_from_slice(&self.rule.to_le_bytes());
        b[SEEN_AT..].copy_from_slice(&self.seen.to_le_bytes());
        b
    }

    fn delay(&self, delay: Delay) -> u64 {
        self.table.rule_delay_under(delay, self.rule as usize) as u64
    }

    /// How many states history holds.
    fn held(&self, delay: Delay) -> usize {
        self.seen.min(self.delay(delay)) as usize
    }
}

/// What the interface's bytes say, if they are a session's of this width under this delay.
pub fn session(width: Width, delay: Delay, b: &[u8; SESSION_BYTES]) -> Option<Session> {
    let table = sound_under(delay, b[..TABLE_BYTES].try_into().unwrap())?;
    let rule = u32::from_le_bytes(b[RULE_NUMBER_AT..SEEN_AT].try_into().unwrap());
    let seen = u64::from_le_bytes(b[SEEN_AT..].try_into().unwrap());
    if rule as usize >= table.rules.len() || seen > width.last() {
        return None;
    }
    Some(Session { table, rule, seen })
}

/// The number of an opening, and the session after it.
pub fn open(delay: Delay, table: &[u8; TABLE_BYTES], rule: u32, session: &mut [u8; SESSION_BYTES]) -> u32 {
    match sound_under(delay, table) {
        None => UNSOUND,
        Some(t) if rule as usize >= t.rules.len() => ABSENT,
        Some(table) => {
            *session = Session { table, rule, seen: 0 }.bytes();
            OK
        }
    }
}

/// The number of a widening, and the session after it.
pub fn widen(narrow: &[u8; NARROW_BYTES], session_bytes: &mut [u8; SESSION_BYTES]) -> u32 {
    let Some(s) = session(Width::Narrow, Delay::New, narrow) else { return UNSOUND };
    *session_bytes = s.bytes();
    OK
}

/// The number and the count of a feed, and the session and buffers after it.
pub fn feed(
    width: Width,
    delay: Delay,
    session_bytes: &mut [u8; SESSION_BYTES],
    block: &[u32],
    history: &mut [u32],
    scratch: &mut [u64],
    out: &mut [u64],
) -> (u32, u32) {
    let Some(mut s) = session(width, delay, session_bytes) else { return (UNSOUND, 0) };
    if block.len() > MAX_BLOCK {
        return (STATES, 0);
    }
    if history.len() < HISTORY_WORDS || scratch.len() < SCRATCH_WORDS || out.len() < FEED_WORDS {
        return (BUFFER, 0);
    }
    let Some(after) = s.seen.checked_add(block.len() as u64).filter(|after| *after <= width.last()) else { return (SEEN, 0) };
    let d = s.delay(delay);
    let trace: Vec<u32> = [&history[..s.held(delay)], block].concat();
    let count = (after.saturating_sub(d) - s.seen.saturating_sub(d)) as usize;
    write_verdicts(&mut out[..FEED_WORDS], &s.table.rule_verdicts(s.rule as usize, &trace)[..count]);
    s.seen = after;
    let kept = s.held(delay);
    history[..kept].copy_from_slice(&trace[trace.len() - kept..]);
    scratch[..SCRATCH_WORDS].fill(0);
    *session_bytes = s.bytes();
    (OK, count as u32)
}

/// The number and the count of a close, and the session and buffers after it. A wide one under the old delay is the second close.
pub fn close(width: Width, delay: Delay, session_bytes: &mut [u8; SESSION_BYTES], history: &[u32], scratch: &mut [u64], out: &mut [u64]) -> (u32, u32) {
    let Some(mut s) = session(width, delay, session_bytes) else { return (UNSOUND, 0) };
    if history.len() < HISTORY_WORDS || scratch.len() < SCRATCH_WORDS || out.len() < CLOSE_WORDS {
        return (BUFFER, 0);
    }
    let held = s.held(delay);
    write_verdicts(&mut out[..CLOSE_WORDS], &s.table.rule_verdicts(s.rule as usize, &history[..held]));
    scratch[..SCRATCH_WORDS].fill(0);
    s.seen = 0;
    *session_bytes = s.bytes();
    (OK, held as u32)
}
