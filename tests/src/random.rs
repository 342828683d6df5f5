//! Random numbers, tables, books, typed rules and traces.
use crate::header::limits::{
    MAX_BLOCK, MAX_DELAY, MAX_DEPTH, MAX_NAME, MAX_NARROW_SEEN, MAX_NODES, MAX_RECORDS, MAX_RULES, MAX_SEEN, MAX_SIGNAL, NODE_COUNT_AT, RECORD_BYTES,
    RULE_COUNT_AT, SESSION_BYTES, TABLE_BYTES,
};
use crate::header::places::rule_at;
use crate::model::{law_at, sound, sound_under, unused, Delay, Node, Rule, Table};
use crate::typed::{depth, tokens, Line, Part};
use crate::written::{node_record, rule_record, LOWER, NEXT, UPPER};

/// SplitMix64.
pub struct Random(pub u64);

impl Random {
    pub fn next(&mut self) -> u64 {
        self.0 = self.0.wrapping_add(0x9e37_79b9_7f4a_7c15);
        let mut z = self.0;
        z = (z ^ (z >> 30)).wrapping_mul(0xbf58_476d_1ce4_e5b9);
        z = (z ^ (z >> 27)).wrapping_mul(0x94d0_49bb_1331_11eb);
        z ^ (z >> 31)
    }

    pub fn below(&mut self, n: u64) -> u64 {
        self.next() % n
    }

    pub fn chance(&mut self, one_in: u64) -> bool {
        self.below(one_in) == 0
    }

    pub fn pick<T: Copy>(&mut self, xs: &[T]) -> T {
        xs[self.below(xs.len() as u64) as usize]
    }
}

/// Names at the limits of one byte and of both; of some the lower halves are equal, of some the upper ones, and of some both are exchanged.
pub const EDGE_NAMES: [u16; 18] = [1, 2, 7, 254, 255, 256, 257, 258, 263, 511, 512, 513, 519, 1792, 65_280, 65_281, 65_534, MAX_NAME as u16];

/// A name, and now and then 0: any one, one of a byte, one at a limit, or one made of the halves of an earlier one.
fn name_after(r: &mut Random, before: &[u16]) -> u16 {
    let any = r.next() as u16;
    match r.below(if before.is_empty() { 4 } else { 8 }) {
        0 => any % 256,
        1 => r.pick(&EDGE_NAMES),
        2 | 3 => any,
        4 => r.pick(before).swap_bytes(),
        5 => r.pick(before) ^ r.pick(&[1, 0x80, 0x100, 0x8000]),
        // Another upper half, another lower half.
        6 => r.pick(before) & 0xff | any & 0xff00,
        _ => r.pick(before) & 0xff00 | any & 0xff,
    }
}

/// So many different names, in any order; one list of three has only names of one byte.
pub fn names(r: &mut Random, count: usize) -> Vec<u16> {
    let small = r.chance(3);
    let mut names: Vec<u16> = vec![];
    while names.len() < count {
        let drawn = name_after(r, &names);
        let name = if small { drawn % 256 } else { drawn };
        if name != 0 && !names.contains(&name) {
            names.push(name);
        }
    }
    names
}

/// An interval whose upper limit is at most `room`, and now and then just that; small ones, single points and the whole room are frequent.
fn interval(r: &mut Random, room: u16) -> (u16, u16) {
    let top = match r.below(6) {
        0 => 0,
        1 => room,
        2 => room.min(70),
        _ => room.min(9),
    };
    let hi = if r.chance(20) { room } else { r.below(top as u64 + 1) as u16 };
    let lo = if r.chance(4) { hi } else { r.below(hi as u64 + 1) as u16 };
    (lo, hi)
}

/// An interval for a node over nodes with these delays: its own stays at most `longest`. At a single point, U and R do not wait for the left operand.
fn interval_over(r: &mut Random, n: &Node, delays: &[u32], longest: usize) -> (u16, u16) {
    let room = |lo, hi| (longest as u32 + hi as u32 - Delay::New.of(&Node { lo, hi, ..*n }, delays)) as u16;
    if r.chance(8) {
        let (_, point) = interval(r, room(0, 0));
        return (point, point);
    }
    interval(r, room(0, 1))
}

/// A sound table with `count` nodes, whose delays stay at most `longest`.
pub fn table(r: &mut Random, count: usize, longest: usize) -> Table {
    let mut t = Table { nodes: vec![], rules: vec![] };
    let mut delays: Vec<u32> = vec![];
    for i in 0..count {
        let kind = if i == 0 { r.pick(&[1, 1, 2, 3]) } else { r.pick(&[1, 1, 2, 3, 4, 4, 5, 5, 6, 6, 7, 7, 8, 8, 9, 9, 10, 10]) };
        let mut n = Node { kind, arg: 0, lo: 0, hi: 0, left: 0, right: 0 };
        if kind == 1 {
            n.arg = if r.chance(3) { r.below(MAX_SIGNAL as u64 + 1) as u8 } else { r.below(3) as u8 };
        }
        if kind >= 4 {
            // Mostly a near operand, so that formulas are deep.
            n.left = (if r.chance(2) { i - 1 } else { r.below(i as u64) as usize }) as u8;
        }
        if matches!(kind, 5 | 6 | 9 | 10) {
            n.right = r.below(i as u64) as u8;
        }
        if kind >= 7 {
            (n.lo, n.hi) = interval_over(r, &n, &delays, longest);
        }
        delays.push(Delay::New.of(&n, &delays));
        t.nodes.push(n);
    }
    let rules = 1 + r.below(MAX_RULES as u64) as usize;
    for (i, name) in names(r, rules).into_iter().enumerate() {
        let watched = if i == 0 && !r.chance(4) { count - 1 } else { r.below(count as u64) as usize };
        t.rules.push(Rule { name, watched: watched as u8 });
    }
    t
}

/// Signals 0 to 2 random at one of several densities, the others now and then.
pub fn trace(r: &mut Random, n: usize) -> Vec<u32> {
    let density = r.pick(&[2u64, 2, 4, 10, 100]);
    let often = r.chance(3);
    (0..n)
        .map(|_| {
            let mut x = 0;
            for s in 0..3 {
                if r.chance(density) != often {
                    x |= 1 << s;
                }
            }
            if r.chance(4) {
                x |= (r.next() as u32) & 0xffff_fff8;
            }
            x
        })
        .collect()
}

/// The bits of signals 0 and 1 while nothing decides a window of `formulas::temporal`: F waits for a set signal 0 and G for a clear one; U waits for a
/// set signal 1 or a clear signal 0, and R for the opposites.
pub fn quiet(kind: u8) -> u32 {
    [0, 1, 1, 2][kind as usize - 7]
}

/// The bit of the signal whose change turns a verdict over; U and R also end their search at a change of signal 0.
pub fn turning(kind: u8) -> u32 {
    if kind >= 9 {
        2
    } else {
        1
    }
}

/// States in which signals 0 and 1 are rarely anything but quiet: one of them changes, or both at once. The other signals are random.
pub fn quiet_trace(r: &mut Random, kind: u8, n: usize) -> Vec<u32> {
    let rare = r.pick(&[300, 1_000, 3_000, 10_000]);
    (0..n)
        .map(|_| {
            let changed = if r.chance(rare) { 1 + r.below(3) as u32 } else { 0 };
            (r.next() as u32 & !3) | (quiet(kind) ^ changed)
        })
        .collect()
}

/// The book of a table, with rules between the nodes, records in random order, and spare records of dirt.
pub fn book(r: &mut Random, t: &Table) -> Vec<u8> {
    let needed = t.nodes.len() + t.rules.len();
    let total = (1 + needed + r.below(1 + (MAX_RECORDS - 1 - needed).min(20) as u64) as usize).min(MAX_RECORDS);
    let mut places: Vec<u8> = (1..total as u8 as usize).map(|x| x as u8).collect();
    for i in (1..places.len()).rev() {
        places.swap(i, r.below(i as u64 + 1) as usize);
    }
    places.truncate(needed);
    let mut b: Vec<u8> = (0..total * RECORD_BYTES).map(|_| r.next() as u8).collect();
    for x in &mut b[..RECORD_BYTES] {
        *x = 0;
    }
    // The order of the chain: nodes in order, each rule at some place after what it watches, rules in order.
    let mut order: Vec<(bool, usize)> = (0..t.nodes.len()).map(|i| (true, i)).collect();
    let mut from = 0;
    for (j, rule) in t.rules.iter().enumerate() {
        let after = order.iter().position(|x| *x == (true, rule.watched as usize)).unwrap() + 1;
        let low = after.max(from);
        let at = low + r.below((order.len() - low) as u64 + 1) as usize;
        order.insert(at, (false, j));
        from = at + 1;
    }
    let mut record_of = vec![0u8; t.nodes.len()];
    let mut before = 0usize;
    for (k, (is_node, i)) in order.iter().enumerate() {
        let (at, record) = (places[k], |place: u8| record_of[place as usize]);
        let e = if *is_node { node_record(&t.nodes[*i], record) } else { rule_record(&t.rules[*i], record) };
        b[before * RECORD_BYTES + NEXT] = at;
        b[at as usize * RECORD_BYTES..][..RECORD_BYTES].copy_from_slice(&e);
        if *is_node {
            record_of[*i] = at;
        }
        before = at as usize;
    }
    b
}

/// One damage to a book: a byte, a field, a link, the name of a rule, the length.
pub fn damage_book(r: &mut Random, b: &mut Vec<u8>) {
    if b.is_empty() {
        return;
    }
    let records = (b.len() / RECORD_BYTES).max(1);
    let record = r.below(records as u64) as usize;
    let at = |k: usize| (record * RECORD_BYTES + k).min(b.len() - 1);
    match r.below(14) {
        0 => {
            let i = r.below(b.len() as u64) as usize;
            b[i] = r.next() as u8;
        }
        1 => {
            let i = at(0);
            b[i] = r.below(14) as u8;
        }
        2 => {
            let i = at(1);
            b[i] = r.pick(&[0, 1, 31, 32, 33, 255]);
        }
        3 => {
            let i = at(5);
            b[i] = r.pick(&[0, 15, 16, 255]);
        }
        4 => {
            let i = at(3);
            b[i] = r.pick(&[0, 15, 16]);
        }
        5 => {
            let i = at(6);
            b[i] = r.below(records as u64 + 1) as u8;
        }
        6 => {
            let i = at(7);
            b[i] = r.below(records as u64 + 1) as u8;
        }
        7 | 8 => {
            let i = at(NEXT);
            b[i] = r.pick(&[0, record as u8, (records - 1) as u8, records as u8, 255, 1]);
        }
        9 => {
            let i = at(UPPER + r.below(3) as usize);
            b[i] = r.pick(&[1, 1, 2, 255]);
        }
        10 | 11 => damage_name(r, b),
        12 => {
            let n = r.below(b.len() as u64 + 1) as usize;
            b.truncate(n);
        }
        _ => {
            let n = r.below(30) as usize;
            b.extend(std::iter::repeat(0).take(n));
        }
    }
}

/// One half of a rule's name, or both, changed to those of another rule or to others; on the chain or not.
pub fn damage_name(r: &mut Random, b: &mut [u8]) {
    let rules: Vec<usize> = (0..b.len() / RECORD_BYTES).map(|i| i * RECORD_BYTES).filter(|at| b[*at] == 11).collect();
    if rules.is_empty() {
        return;
    }
    let (at, from) = (r.pick(&rules), r.pick(&rules));
    let [lower, upper] = if r.chance(2) { [b[from + LOWER], b[from + UPPER]] } else { name_after(r, &[]).to_le_bytes() };
    let half = r.below(3);
    if half != 0 {
        b[at + LOWER] = if r.chance(8) { 0 } else { lower };
    }
    if half != 1 {
        b[at + UPPER] = if r.chance(8) { 0 } else { upper };
    }
}

/// Bytes of dirt.
pub fn bytes(r: &mut Random, n: usize) -> Vec<u8> {
    words(r, n.div_ceil(8)).into_iter().flat_map(u64::to_le_bytes).take(n).collect()
}

/// A session's bytes of dirt.
pub fn session_bytes(r: &mut Random) -> [u8; SESSION_BYTES] {
    bytes(r, SESSION_BYTES).try_into().unwrap()
}

/// Words of dirt.
pub fn words(r: &mut Random, n: usize) -> Vec<u64> {
    (0..n).map(|_| r.next()).collect()
}

/// Short words of dirt.
pub fn short_words(r: &mut Random, n: usize) -> Vec<u32> {
    (0..n).map(|_| r.next() as u32).collect()
}

/// The length of a block.
pub fn block_length(r: &mut Random) -> usize {
    let top = r.pick(&[1, 2, 10, 70, 130, 130, MAX_BLOCK as u64 + 1]);
    r.below(top) as usize
}

/// A count of states: a small one, one beside the limits of both widths or beside a carry from byte to byte, or any.
pub fn any_count(r: &mut Random) -> u64 {
    let near = r.pick(&[0, 1, 3, 100, 1100]);
    match r.below(6) {
        0 => r.pick(&[0, 1, 3, 100, 4095, 5000]),
        1 => MAX_NARROW_SEEN as u64 - near,
        2 => MAX_NARROW_SEEN as u64 + near,
        3 => MAX_SEEN as u64 - near,
        4 => (1 << r.pick(&[8, 16, 24, 40, 48, 56, 63])) - r.pick(&[0, 1, 3, 100]),
        _ => r.next() >> r.below(64),
    }
}

/// The same of a session of a rule with this delay, often beside it, in its low half or whole.
pub fn count_beside(r: &mut Random, delay: u32) -> u64 {
    let beside = (delay as u64).saturating_sub(r.below(3)) + r.below(3);
    match r.below(4) {
        0 => beside,
        1 => (1 << r.pick(&[32, 33, 40, 48, 56, 63])) + beside,
        _ => any_count(r),
    }
}

/// The number of a rule that a table with so many has not.
pub fn absent_rule(r: &mut Random, rules: usize) -> u32 {
    let rules = rules as u32;
    r.pick(&[rules, rules + 1, 8, 255, 256, 1 << 16, 1 << 24, u32::MAX])
}

/// One to three bytes of a table or session changed, often at its counts, its first nodes, its rules or its end.
pub fn damage(r: &mut Random, b: &mut [u8]) {
    for _ in 0..1 + r.below(3) {
        let at = match r.below(4) {
            0 => r.below(b.len() as u64) as usize,
            1 => r.below(20) as usize,
            2 => rule_at(0) + r.below((TABLE_BYTES - rule_at(0)) as u64) as usize,
            _ => b.len() - 1 - r.below(14) as usize,
        };
        b[at] = r.pick(&[0, 1, 2, 8, 16, 63, 64, 255, r.0 as u8]);
    }
}

/// Bytes that may be no sound table's: those of a table with some changed, and now and then random ones.
pub fn damaged_table(r: &mut Random, t: &Table) -> [u8; TABLE_BYTES] {
    let mut bytes = t.bytes();
    if r.chance(10) {
        bytes.iter_mut().for_each(|b| *b = r.next() as u8);
        if r.chance(2) {
            // Counts that fit, so that the nodes are looked at.
            (bytes[NODE_COUNT_AT], bytes[RULE_COUNT_AT]) = (1 + r.below(MAX_NODES as u64) as u8, 1 + r.below(MAX_RULES as u64) as u8);
        }
    } else {
        damage(r, &mut bytes);
    }
    bytes
}

/// What a call for a rule is asked of: the bytes of a table, sound or not, and the number of a rule, there or not.
pub fn asked(r: &mut Random, unsound: bool, absent: bool) -> ([u8; TABLE_BYTES], u32) {
    let count = 1 + r.below(12) as usize;
    let t = table(r, count, 300);
    let mut bytes = t.bytes();
    while unsound && sound(&bytes).is_some() {
        damage(r, &mut bytes);
    }
    let rule = if absent { absent_rule(r, t.rules.len()) } else { r.below(t.rules.len() as u64) as u32 };
    (bytes, rule)
}

/// A place of one of the kinds, if there is one.
fn place_of(r: &mut Random, t: &Table, kinds: &[u8]) -> Option<u8> {
    let places: Vec<u8> = (0..t.nodes.len()).filter(|i| kinds.contains(&t.nodes[*i].kind)).map(|i| i as u8).collect();
    if places.is_empty() {
        None
    } else {
        Some(r.pick(&places))
    }
}

/// A node that invites a law, operands only; its interval is still [0,0].
fn inviting(r: &mut Random, t: &Table) -> Option<(Node, bool)> {
    let i = t.nodes.len() as u64;
    let node = |kind, left, right| Node { kind, arg: 0, lo: 0, hi: 0, left, right };
    let any = r.below(i) as u8;
    // The second answer: whether the interval is to be drawn.
    Some(match r.below(9) {
        0 => (node(4, place_of(r, t, &[2, 3, 4])?, 0), false),
        1 => {
            let p = place_of(r, t, &[7, 8])?;
            (node(t.nodes[p as usize].kind, p, 0), true)
        }
        2 | 3 => {
            // Two of F or two of G over one operand.
            let p = place_of(r, t, &[7, 8])?;
            let x = t.nodes[p as usize];
            let others: Vec<u8> = (0..i as u8).filter(|q| *q != p && t.nodes[*q as usize].kind == x.kind && t.nodes[*q as usize].left == x.left).collect();
            if others.is_empty() {
                (node(x.kind, x.left, 0), true)
            } else {
                (node(r.pick(&[5, 6]), p, r.pick(&others)), false)
            }
        }
        4 => (node(r.pick(&[7, 8]), any, 0), false),
        5 => (node(r.pick(&[9, 10]), any, r.below(i) as u8), false),
        6 => (node(r.pick(&[5, 6]), any, any), false),
        7 => {
            let p = place_of(r, t, &[2, 3])?;
            let (a, b) = if r.chance(2) { (p, any) } else { (any, p) };
            (node(r.pick(&[5, 6]), a, b), false)
        }
        _ => {
            let p = place_of(r, t, &[2, 3])?;
            let kind = r.pick(&[7, 8, 9, 10]);
            if kind <= 8 {
                (node(kind, p, 0), true)
            } else if r.chance(3) {
                (node(kind, p, any), true)
            } else {
                (node(kind, any, p), true)
            }
        }
    })
}

/// A node of any kind over the nodes before it, mostly the last of them.
fn plain(r: &mut Random, t: &Table) -> Node {
    let i = t.nodes.len() as u64;
    let kind = if i == 0 { r.pick(&[1, 1, 1, 2, 3]) } else { r.pick(&[1, 1, 2, 3, 4, 5, 6, 7, 7, 8, 8, 9, 10]) };
    let mut n = Node { kind, arg: 0, lo: 0, hi: 0, left: 0, right: 0 };
    if kind == 1 {
        n.arg = if r.chance(5) { r.below(MAX_SIGNAL as u64 + 1) as u8 } else { r.below(3) as u8 };
    }
    if kind >= 4 {
        n.left = (if r.chance(2) { i - 1 } else { r.below(i) }) as u8;
    }
    if matches!(kind, 5 | 6 | 9 | 10) {
        n.right = r.below(i) as u8;
    }
    n
}

/// A sound table rich in what the laws of simplifying remove.
pub fn redundant(r: &mut Random, count: usize, longest: usize) -> Table {
    let mut t = Table { nodes: vec![], rules: vec![] };
    let mut delays: Vec<u32> = vec![];
    for i in 0..count {
        let draw = r.below(10);
        let mut n = None;
        let mut drawn = false;
        if i > 0 && draw == 0 {
            n = Some(t.nodes[r.below(i as u64) as usize]);
        } else if i > 0 && draw < 6 {
            if let Some((x, open)) = inviting(r, &t) {
                n = Some(x);
                drawn = open;
            }
        }
        let mut n = n.unwrap_or_else(|| {
            drawn = true;
            plain(r, &t)
        });
        if n.kind >= 7 && drawn {
            (n.lo, n.hi) = interval_over(r, &n, &delays, longest);
        }
        delays.push(Delay::New.of(&n, &delays));
        t.nodes.push(n);
    }
    let rules = 1 + r.below(MAX_RULES as u64) as usize;
    for name in names(r, rules) {
        let watched = if r.chance(2) { count - 1 - r.below(count.min(3) as u64) as usize } else { r.below(count as u64) as usize };
        t.rules.push(Rule { name, watched: watched as u8 });
    }
    t
}

/// A sound table of either kind.
pub fn any_table(r: &mut Random, count: usize, longest: usize) -> Table {
    if r.chance(4) {
        redundant(r, count, longest)
    } else {
        table(r, count, longest)
    }
}

/// A table that is sound under both delays.
pub fn old_table(r: &mut Random, count: usize, longest: usize) -> Table {
    loop {
        let t = any_table(r, count, longest);
        if sound_under(Delay::Old, &t.bytes()).is_some() {
            return t;
        }
    }
}

/// A table that is sound under the new delay alone.
pub fn new_table(r: &mut Random) -> Table {
    loop {
        let count = 4 + r.below(MAX_NODES as u64 - 3) as usize;
        let t = any_table(r, count, MAX_DELAY);
        if sound_under(Delay::Old, &t.bytes()).is_none() {
            return t;
        }
    }
}

/// A sound table that no law of simplifying fits.
pub fn law_free(r: &mut Random, count: usize, longest: usize) -> Table {
    loop {
        let mut t = Table { nodes: vec![], rules: vec![] };
        let mut delays: Vec<u32> = vec![];
        while t.nodes.len() < count {
            let i = t.nodes.len();
            let mut n = plain(r, &t);
            if i >= 4 && n.kind < 4 && !r.chance(8) {
                continue;
            }
            if i >= 4 && n.kind >= 4 {
                n.left = i as u8 - 1;
            }
            if n.kind >= 7 {
                (n.lo, n.hi) = interval_over(r, &n, &delays, longest);
            }
            t.nodes.push(n);
            if law_at(&t, i).is_some() {
                t.nodes.pop();
            } else {
                delays.push(Delay::New.of(&n, &delays));
            }
        }
        let mut watched = unused(&t);
        if watched.len() > MAX_RULES {
            continue;
        }
        while watched.len() < MAX_RULES && r.chance(2) {
            watched.push(r.below(count as u64) as usize);
        }
        let names = names(r, watched.len()).into_iter();
        t.rules = names.zip(watched).map(|(name, watched)| Rule { name, watched: watched as u8 }).collect();
        return t;
    }
}

/// The parts of a formula with `count` nodes, operands before users, whose delay is at most `room`, and that of each part at most `longest`.
fn formula(r: &mut Random, count: usize, room: u16, longest: u16) -> Vec<Part> {
    let kind = match count {
        1 => r.pick(&[1, 1, 1, 2, 3]),
        2 => r.pick(&[4, 7, 8]),
        _ => r.pick(&[4, 5, 5, 6, 6, 7, 8, 9, 10]),
    };
    let (lo, hi) = if kind >= 7 { interval(r, room) } else { (0, 0) };
    let arg = if kind == 1 { r.below(MAX_SIGNAL as u64 + 1) as u32 } else { 0 };
    let part = Part { kind, arg, lo: lo as u32, hi: hi as u32 };
    let mut parts = vec![];
    if part.operands() == 2 {
        let first = 1 + r.below(count as u64 - 2) as usize;
        let left = match kind {
            9 | 10 if lo == hi => longest,
            9 | 10 => longest.min(room - hi + 1),
            _ => room,
        };
        parts = formula(r, first, left, longest);
    }
    if part.operands() > 0 {
        parts.extend(formula(r, count - 1 - parts.len(), room - hi, longest));
    }
    parts.push(part);
    parts
}

/// Rules whose formulas have these counts of nodes, can be printed, and have delays of at most `longest`.
pub fn lines(r: &mut Random, counts: &[usize], longest: usize) -> Vec<Line> {
    let (names, mut lines) = (names(r, counts.len()), vec![]);
    while lines.len() < counts.len() {
        let name = names[lines.len()] as u32;
        let line = Line { name, formula: formula(r, counts[lines.len()], longest as u16, longest as u16) };
        if depth(&tokens(&line, || false)) <= MAX_DEPTH {
            lines.push(line);
        }
    }
    lines
}

/// One to `most` counts of nodes, together at most 64 and now and then just that.
fn counts(r: &mut Random, most: usize) -> Vec<usize> {
    let (rules, full) = (1 + r.below(most as u64) as usize, r.chance(6));
    let mut counts: Vec<usize> = (0..rules).map(|_| 1 + r.below(MAX_NODES as u64 / MAX_RULES as u64) as usize).collect();
    if full {
        let others: usize = counts[1..].iter().sum();
        counts[0] = MAX_NODES - others;
    }
    counts
}

/// Rules of any kind, at most so many.
pub fn any_lines(r: &mut Random, most: usize) -> Vec<Line> {
    let longest = r.pick(&[MAX_DELAY, MAX_DELAY, 300, 9]);
    let counts = counts(r, most);
    lines(r, &counts, longest)
}

/// Every byte that a line can hold, and some that none can.
pub const LINE_BYTES: &[u8] = b" 0123456789:strufale!FGUR[,]()&|\n\0\t\rSgx-.{\x80\xff";

/// The text of rules, with spaces and with brackets that nothing needs, or without.
pub fn text(r: &mut Random, lines: &[Line]) -> Vec<u8> {
    let (brackets, spaces) = (r.pick(&[2, 5, 20, u64::MAX]), r.pick(&[1, 2, 4, u64::MAX]));
    let mut text = vec![];
    for line in lines {
        let mut drawn = tokens(line, || r.chance(brackets));
        if depth(&drawn) > MAX_DEPTH {
            drawn = tokens(line, || false);
        }
        for token in drawn {
            let before = if r.chance(spaces) { 1 + r.below(3) as usize } else { 0 };
            text.extend(std::iter::repeat(b' ').take(before));
            text.extend(token.bytes());
        }
    }
    text
}
