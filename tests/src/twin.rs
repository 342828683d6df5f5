//! A plain Rust evaluator by the same word algorithm and with the same duties as the proved one, to compare speeds with: it parses
//! and checks the table, computes the nodes that are needed on 64-bit words in registers of 80, and clears the scratch. Its sessions
//! parse and check the session's bytes at each call, refuse by the same numbers, and keep the history.
use crate::header::limits::{
    CLOSE_WORDS, FEED_WORDS, HISTORY_WORDS, MAX_BLOCK, MAX_DELAY, MAX_INTERVAL, MAX_NODES, MAX_RULES, MAX_SIGNAL, MAX_TRACE, NODE_COUNT_AT, REGISTER_WORDS,
    RULE_COUNT_AT, SCRATCH_WORDS, SESSION_BYTES, TABLE_BYTES,
};
use crate::header::places::{node_at, rule_at, RULE_NUMBER_AT, SEEN_AT};
use crate::header::refusals::{ABSENT, BUFFER, OK, SEEN, STATES, UNSOUND};
use crate::model::{Node, Rule};

pub struct Parsed {
    nodes: [Node; MAX_NODES],
    count: usize,
    rules: [Rule; MAX_RULES],
    rule_count: usize,
}

const NO_NODE: Node = Node { kind: 0, arg: 0, lo: 0, hi: 0, left: 0, right: 0 };
const NO_RULE: Rule = Rule { name: 0, watched: 0 };

fn parse(b: &[u8; TABLE_BYTES]) -> Option<Parsed> {
    let (count, rule_count) = (b[NODE_COUNT_AT] as usize, b[RULE_COUNT_AT] as usize);
    let mut t = Parsed { nodes: [NO_NODE; MAX_NODES], count, rules: [NO_RULE; MAX_RULES], rule_count };
    for (n, e) in t.nodes.iter_mut().zip(b[node_at(0)..rule_at(0)].chunks_exact(8)) {
        *n = Node { kind: e[0], arg: e[1], lo: u16::from_le_bytes([e[2], e[3]]), hi: u16::from_le_bytes([e[4], e[5]]), left: e[6], right: e[7] };
    }
    for (r, e) in t.rules.iter_mut().zip(b[rule_at(0)..].chunks_exact(4)) {
        if e[3] != 0 {
            return None;
        }
        *r = Rule { name: u16::from_le_bytes([e[0], e[1]]), watched: e[2] };
    }
    Some(t)
}

fn fits(n: &Node, place: usize) -> bool {
    let below = |used: bool, limit: usize| if used { limit } else { 1 };
    let k = n.kind;
    (1..=10).contains(&k)
        && (n.arg as usize) < below(k == 1, MAX_SIGNAL + 1)
        && n.lo <= n.hi
        && (n.hi as usize) < below(k >= 7, MAX_INTERVAL + 1)
        && (n.left as usize) < below(k >= 4, place)
        && (n.right as usize) < below(matches!(k, 5 | 6 | 9 | 10), place)
}

/// The delays of the nodes, if the table is sound.
fn sound(t: &Parsed) -> Option<[u32; MAX_NODES]> {
    if t.count > MAX_NODES || t.rule_count == 0 || t.rule_count > MAX_RULES {
        return None;
    }
    let mut delays = [0u32; MAX_NODES];
    for (i, n) in t.nodes.iter().enumerate() {
        if i >= t.count {
            if *n != NO_NODE {
                return None;
            }
            continue;
        }
        if !fits(n, i) {
            return None;
        }
        let (a, b) = (delays[n.left as usize], delays[n.right as usize]);
        delays[i] = match n.kind {
            1..=3 => 0,
            4 => a,
            5 | 6 => a.max(b),
            7 | 8 => n.hi as u32 + a,
            _ if n.lo == n.hi => n.hi as u32 + b,
            _ => n.hi as u32 + a.saturating_sub(1).max(b),
        };
        if delays[i] > MAX_DELAY as u32 {
            return None;
        }
    }
    for (i, r) in t.rules.iter().enumerate() {
        if i >= t.rule_count {
            if *r != NO_RULE {
                return None;
            }
        } else if r.name == 0 || r.watched as usize >= t.count || t.rules[..i].iter().any(|q| q.name == r.name) {
            return None;
        }
    }
    Some(delays)
}

/// Word w of a register moved down by `by` bits.
#[inline(always)]
fn moved(s: &[u64], q: usize, r: u32, w: usize) -> u64 {
    let low = s.get(w + q).copied().unwrap_or(0);
    let high = s.get(w + q + 1).copied().unwrap_or(0);
    low >> r | high << 1 << (63 - r)
}

fn pass(s: &mut [u64], by: usize, f: impl Fn(u64, u64) -> u64) {
    let (q, r) = (by / 64, (by % 64) as u32);
    let m = s.len();
    // By whole words without a shift.
    if r == 0 {
        for w in 0..m.saturating_sub(q) {
            s[w] = f(s[w], s[w + q]);
        }
        s[m.saturating_sub(q)..].iter_mut().for_each(|x| *x = f(*x, 0));
        return;
    }
    for w in 0..m.saturating_sub(q + 1) {
        s[w] = f(s[w], s[w + q] >> r | s[w + q + 1] << 1 << (63 - r));
    }
    for w in m.saturating_sub(q + 1)..m {
        s[w] = f(s[w], moved(s, q, r, w));
    }
}

/// A register's column moved down.
fn move_down(s: &mut [u64], by: usize) {
    if by > 0 {
        pass(s, by, |_, b| b);
    }
}

fn parts(lo: u16, hi: u16) -> impl Iterator<Item = u32> {
    let mut rest = (hi - lo) as u32;
    std::iter::from_fn(move || {
        (rest > 0).then(|| {
            let k = 31 - (rest + 1).leading_zeros();
            rest -= (1 << k) - 1;
            k
        })
    })
}

fn eventually(s: &mut [u64], lo: u16, hi: u16) {
    move_down(s, lo as usize);
    let m = (hi - lo) as usize + 1;
    let k = m.ilog2();
    for j in 0..k {
        pass(s, 1 << j, |a, b| a | b);
    }
    let leftover = m - (1 << k);
    if leftover > 0 {
        pass(s, leftover, |a, b| a | b);
    }
}

fn until(right: &mut [u64], left: &mut [u64], work: &mut [u64], lo: u16, hi: u16) {
    move_down(right, lo as usize);
    move_down(left, lo as usize);
    for k in parts(lo, hi) {
        work.copy_from_slice(left);
        for j in 0..k {
            let by = 1usize << j;
            let (q, r) = (by / 64, (by % 64) as u32);
            for w in 0..right.len() {
                right[w] |= work[w] & moved(right, q, r, w);
            }
            pass(work, by, |a, b| a & b);
        }
    }
}

fn below(n: usize, w: usize) -> u64 {
    match n.saturating_sub(64 * w) {
        0 => 0,
        k if k >= 64 => !0,
        k => (1 << k) - 1,
    }
}

fn flip(s: &mut [u64], n: usize) {
    for (w, x) in s.iter_mut().enumerate() {
        *x = below(n, w) & !*x;
    }
}

/// How a signal's column is made of a trace.
trait Columns {
    /// Its bits of 64 states.
    fn word(states: &[u32; 64], signal: u8) -> u64;
}

/// As the library makes them: four states that follow each other go to four lanes.
struct Lanes;
/// As it made them before A6: one state after the other into one number.
struct Digits;

/// Every fourth bit of a signal from a state on, eight of them, each at its place.
#[inline(always)]
fn every_fourth(states: &[u32; 64], signal: u8, from: usize) -> u32 {
    (0..8).fold(0, |x, k| x | (states[from + 4 * k] >> signal & 1) << (4 * k))
}

/// A signal's bits of up to 64 states.
#[inline(always)]
fn digits<'a>(states: impl Iterator<Item = &'a u32>, signal: u8) -> u64 {
    states.enumerate().fold(0, |x, (j, state)| x | ((state >> signal & 1) as u64) << j)
}

impl Columns for Lanes {
    #[inline(always)]
    fn word(states: &[u32; 64], signal: u8) -> u64 {
        let mut lanes = [0u32; 8];
        for k in 0..4 {
            lanes[k] = every_fourth(states, signal, k);
            lanes[k + 4] = every_fourth(states, signal, k + 32);
        }
        (0..4).fold(0, |x, k| x | (lanes[k] as u64 | (lanes[k + 4] as u64) << 32) << k)
    }
}

impl Columns for Digits {
    #[inline(always)]
    fn word(states: &[u32; 64], signal: u8) -> u64 {
        digits(states.iter(), signal)
    }
}

/// The words that whole chunks of 64 states fill, and how many they are.
#[inline(always)]
fn whole_words<C: Columns>(s: &mut [u64], states: &[u32], signal: u8) -> usize {
    let words = s.iter_mut().zip(states.chunks_exact(64));
    words.map(|(x, states)| *x = C::word(states.try_into().unwrap(), signal)).count()
}

/// The words that the older part fills, the one in which it ends, those that the newer part fills, its last states, and none.
fn column<C: Columns>(s: &mut [u64], (older, newer): Trace, signal: u8) {
    let a = whole_words::<C>(s, older, signal);
    let [joint, s @ ..] = &mut s[a..] else { return };
    let rest = &older[64 * a..];
    let (now, newer) = newer.split_at(newer.len().min(64 - rest.len()));
    if whole_words::<C>(std::slice::from_mut(joint), now, signal) == 0 {
        *joint = digits(rest.iter().chain(now), signal);
    }
    let b = whole_words::<C>(s, newer, signal);
    let [last, s @ ..] = &mut s[b..] else { return };
    *last = digits(newer[64 * b..].iter(), signal);
    s.fill(0);
}

/// A trace in two parts, read where they lie.
type Trace<'a> = (&'a [u32], &'a [u32]);

fn needed(nodes: &[Node; MAX_NODES], k: usize) -> [bool; MAX_NODES] {
    let mut needed = [false; MAX_NODES];
    needed[k] = true;
    for i in (0..=k).rev() {
        if needed[i] && nodes[i].kind >= 4 {
            needed[nodes[i].left as usize] = true;
            if matches!(nodes[i].kind, 5 | 6 | 9 | 10) {
                needed[nodes[i].right as usize] = true;
            }
        }
    }
    needed
}

/// The verdicts of node k at the first `count` ticks, with the scratch cleared.
fn judge<C: Columns>(t: &Parsed, k: usize, trace: Trace, count: usize, scratch: &mut [u64], out: &mut [u64]) {
    let n = trace.0.len() + trace.1.len();
    let needed = needed(&t.nodes, k);
    for i in (0..=k).filter(|i| needed[*i]) {
        node::<C>(&t.nodes[i], i, n, trace, &mut scratch[..SCRATCH_WORDS]);
    }
    let m = count.div_ceil(64);
    out[..m].copy_from_slice(&scratch[REGISTER_WORDS * k..REGISTER_WORDS * k + m]);
    if m > 0 {
        out[m - 1] &= below(count, m - 1);
    }
    scratch[..SCRATCH_WORDS].fill(0);
}

pub fn verdicts(table: &[u8; TABLE_BYTES], rule: u32, states: &[u32], scratch: &mut [u64], out: &mut [u64]) -> u32 {
    let Some(t) = parse(table) else { return UNSOUND };
    if sound(&t).is_none() {
        return UNSOUND;
    }
    if rule as usize >= t.rule_count {
        return ABSENT;
    }
    if states.len() > MAX_TRACE {
        return STATES;
    }
    if scratch.len() < SCRATCH_WORDS || out.len() < states.len().div_ceil(64) {
        return BUFFER;
    }
    judge::<Lanes>(&t, t.rules[rule as usize].watched as usize, (&[], states), states.len(), scratch, out);
    OK
}

/// What the bytes of a session say, if they are a session's.
struct Session {
    table: Parsed,
    watched: usize,
    delay: usize,
    seen: usize,
}

impl Session {
    fn parse(b: &[u8; SESSION_BYTES]) -> Option<Session> {
        let rule = u32::from_le_bytes(b[RULE_NUMBER_AT..SEEN_AT].try_into().unwrap()) as usize;
        let seen = u64::from_le_bytes(b[SEEN_AT..].try_into().unwrap()) as usize;
        let table = parse(b[..TABLE_BYTES].try_into().unwrap())?;
        let delays = sound(&table)?;
        if rule >= table.rule_count {
            return None;
        }
        let watched = table.rules[rule].watched as usize;
        Some(Session { table, watched, delay: delays[watched] as usize, seen })
    }
}

fn put_seen(session: &mut [u8; SESSION_BYTES], seen: usize) {
    session[SEEN_AT..].copy_from_slice(&(seen as u64).to_le_bytes());
}

/// The number.
pub fn open(table: &[u8; TABLE_BYTES], rule: u32, session: &mut [u8; SESSION_BYTES]) -> u32 {
    let Some(t) = parse(table) else { return UNSOUND };
    if sound(&t).is_none() {
        return UNSOUND;
    }
    if rule as usize >= t.rule_count {
        return ABSENT;
    }
    session[..TABLE_BYTES].copy_from_slice(table);
    session[RULE_NUMBER_AT..SEEN_AT].copy_from_slice(&rule.to_le_bytes());
    session[SEEN_AT..].fill(0);
    OK
}

/// Of the first h states of history and then the block, the last `left` go to history's first places.
pub fn keep(history: &mut [u32], h: usize, block: &[u32], left: usize) {
    let skip = h + block.len() - left;
    let m = h.saturating_sub(skip);
    history.copy_within(skip.min(h)..h, 0);
    history[m..left].copy_from_slice(&block[skip.saturating_sub(h)..]);
}

/// The number and the count.
pub fn feed(session: &mut [u8; SESSION_BYTES], block: &[u32], history: &mut [u32], scratch: &mut [u64], out: &mut [u64]) -> (u32, u32) {
    feed_by::<Lanes>(session, block, history, scratch, out)
}

/// The same with columns made as before A6.
pub fn feed_before(session: &mut [u8; SESSION_BYTES], block: &[u32], history: &mut [u32], scratch: &mut [u64], out: &mut [u64]) -> (u32, u32) {
    feed_by::<Digits>(session, block, history, scratch, out)
}

fn feed_by<C: Columns>(session: &mut [u8; SESSION_BYTES], block: &[u32], history: &mut [u32], scratch: &mut [u64], out: &mut [u64]) -> (u32, u32) {
    let Some(s) = Session::parse(session) else { return (UNSOUND, 0) };
    if block.len() > MAX_BLOCK {
        return (STATES, 0);
    }
    if history.len() < HISTORY_WORDS || scratch.len() < SCRATCH_WORDS || out.len() < FEED_WORDS {
        return (BUFFER, 0);
    }
    let Some(after) = s.seen.checked_add(block.len()) else { return (SEEN, 0) };
    let h = s.seen.min(s.delay);
    let count = after.saturating_sub(s.delay) - s.seen.saturating_sub(s.delay);
    judge::<C>(&s.table, s.watched, (&history[..h], block), count, scratch, out);
    out[count.div_ceil(64)..FEED_WORDS].fill(0);
    keep(history, h, block, after.min(s.delay));
    put_seen(session, after);
    (OK, count as u32)
}

/// The number and the count.
pub fn close(session: &mut [u8; SESSION_BYTES], history: &[u32], scratch: &mut [u64], out: &mut [u64]) -> (u32, u32) {
    let Some(s) = Session::parse(session) else { return (UNSOUND, 0) };
    if history.len() < HISTORY_WORDS || scratch.len() < SCRATCH_WORDS || out.len() < CLOSE_WORDS {
        return (BUFFER, 0);
    }
    let count = s.seen.min(s.delay);
    judge::<Lanes>(&s.table, s.watched, (&history[..count], &[]), count, scratch, out);
    out[count.div_ceil(64)..CLOSE_WORDS].fill(0);
    put_seen(session, 0);
    (OK, count as u32)
}

/// The column of node x at place i, for a trace of n states.
fn node<C: Columns>(x: &Node, i: usize, n: usize, trace: Trace, scratch: &mut [u64]) {
    let m = n.div_ceil(64);
    let (operands, rest) = scratch.split_at_mut(REGISTER_WORDS * i);
    let (own, work) = rest.split_at_mut(REGISTER_WORDS * MAX_NODES - REGISTER_WORDS * i);
    let own = &mut own[..m];
    let (spare, third) = work.split_at_mut(REGISTER_WORDS);
    let (spare, third) = (&mut spare[..m], &mut third[..m]);
    let register = |p: u8| &operands[REGISTER_WORDS * p as usize..REGISTER_WORDS * p as usize + m];
    match x.kind {
        1 => column::<C>(own, trace, x.arg),
        2 => own.iter_mut().enumerate().for_each(|(w, y)| *y = below(n, w)),
        3 => own.fill(0),
        4 => {
            own.copy_from_slice(register(x.left));
            flip(own, n);
        }
        5 => own.iter_mut().zip(register(x.left).iter().zip(register(x.right))).for_each(|(y, (a, b))| *y = a & b),
        6 => own.iter_mut().zip(register(x.left).iter().zip(register(x.right))).for_each(|(y, (a, b))| *y = a | b),
        7 => {
            own.copy_from_slice(register(x.left));
            eventually(own, x.lo, x.hi);
        }
        8 => {
            own.copy_from_slice(register(x.left));
            flip(own, n);
            eventually(own, x.lo, x.hi);
            flip(own, n);
        }
        _ => {
            own.copy_from_slice(register(x.right));
            spare.copy_from_slice(register(x.left));
            if x.kind == 10 {
                flip(own, n);
                flip(spare, n);
            }
            until(own, spare, third, x.lo, x.hi);
            if x.kind == 10 {
                flip(own, n);
            }
        }
    }
}
