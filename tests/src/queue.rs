//! A queue-based monitor in the manner of document 004, section 2.3, to compare speeds with. Each node writes its verdicts with timestamps into one
//! queue, which all its readers share. Equal verdicts in a row are one entry, and a verdict is given as soon as it is decided.
use crate::model::{Node, Table};

/// A verdict of all ticks from the end of the entry before up to `end`, which is not among them. Both are in one number: what is written
/// is read at once, and a processor hands that on quickly only where it was written as a whole.
#[derive(Clone, Copy)]
struct Entry(u64);

impl Entry {
    #[inline(always)]
    fn new(verdict: bool, end: u32) -> Entry {
        Entry((end as u64) << 1 | verdict as u64)
    }
    #[inline(always)]
    fn verdict(self) -> bool {
        self.0 & 1 == 1
    }
    #[inline(always)]
    fn end(self) -> u32 {
        (self.0 >> 1) as u32
    }
}

/// A ring of entries, its length a power of two. At the start there is one entry, of no ticks.
struct Queue {
    ring: Box<[Entry]>,
    /// The place of the newest entry, and the entry.
    place: usize,
    newest: Entry,
}

impl Queue {
    fn new(entries: usize) -> Queue {
        let newest = Entry::new(false, 0);
        Queue { ring: vec![newest; entries.next_power_of_two()].into(), place: 0, newest }
    }

    #[inline(always)]
    fn at(&self, place: usize) -> Entry {
        // Below the length, which is a power of two.
        unsafe { *self.ring.get_unchecked(place & (self.ring.len() - 1)) }
    }

    /// An entry that ends no earlier than the newest, and takes its place if the verdict is the same.
    #[inline(always)]
    fn put(&mut self, entry: Entry) {
        self.place += (self.newest.verdict() != entry.verdict()) as usize;
        self.newest = entry;
        let place = self.place & (self.ring.len() - 1);
        unsafe { *self.ring.get_unchecked_mut(place) = entry };
    }

    /// The ticks up to `end` that have no verdict yet get this one; there is at least one.
    #[inline(always)]
    fn write(&mut self, verdict: bool, end: u32) {
        self.put(Entry::new(verdict, end));
    }

    /// The same where there is such a tick.
    #[inline(always)]
    fn write_new(&mut self, verdict: bool, end: u32) {
        if end > self.newest.end() {
            self.write(verdict, end);
        }
    }
}

/// A reader's place in a queue.
#[derive(Clone, Copy, Default)]
struct Reader {
    queue: usize,
    place: usize,
}

impl Reader {
    /// The entry that tick `from` is in; the queue's newest ends after it.
    #[inline(always)]
    fn read(&mut self, q: &Queue, from: u32) -> Entry {
        let mut entry = q.at(self.place);
        while entry.end() <= from {
            self.place += 1;
            entry = q.at(self.place);
        }
        entry
    }

    /// The same, but the newest entry if all end before.
    #[inline(always)]
    fn read_if_there(&mut self, q: &Queue, from: u32) -> Entry {
        if q.newest.end() > from {
            return self.read(q, from);
        }
        self.place = q.place;
        q.newest
    }
}

#[derive(Clone, Copy)]
enum Operator {
    Signal { bit: u8 },
    Constant { verdict: bool },
    Not,
    /// And, or: a verdict of one operand decides alone.
    Both { deciding: bool },
    /// F, G: a verdict of the operand decides as soon as it is in the window.
    Window { deciding: bool, lo: u32, hi: u32 },
    /// U; with `dual` R, which is U with all verdicts reversed.
    Until { dual: bool, lo: u32, hi: u32 },
}

struct Worker {
    operator: Operator,
    left: Reader,
    right: Reader,
    /// The ticks below it have been read (windows and until).
    from: u32,
}

impl Worker {
    /// Reads what the operands have told and writes what it decides; `seen` states have been fed, and `load` writes a signal's verdicts.
    #[inline(always)]
    fn run(&mut self, before: &[Queue], own: &mut Queue, seen: u32, load: impl Fn(&mut Queue, u8)) {
        match self.operator {
            Operator::Signal { bit } => load(own, bit),
            Operator::Constant { verdict } => own.write(verdict, seen),
            Operator::Not => self.not(before, own),
            Operator::Both { deciding } => self.both(before, own, deciding),
            Operator::Window { deciding, lo, hi } => self.window(before, own, deciding, lo, hi),
            Operator::Until { dual, lo, hi } => self.until(before, own, dual, lo, hi),
        }
    }

    #[inline(always)]
    fn not(&mut self, before: &[Queue], own: &mut Queue) {
        let operand = &before[self.left.queue];
        while operand.newest.end() > own.newest.end() {
            let e = self.left.read(operand, own.newest.end());
            own.write(!e.verdict(), e.end());
        }
    }

    #[inline(always)]
    fn both(&mut self, before: &[Queue], own: &mut Queue, deciding: bool) {
        let (left, right) = (&before[self.left.queue], &before[self.right.queue]);
        loop {
            let from = own.newest.end();
            let (a, b) = (self.left.read_if_there(left, from), self.right.read_if_there(right, from));
            let decided = |e: Entry| if e.verdict() == deciding { e.end() } else { 0 };
            let alone = decided(a).max(decided(b));
            let together = a.end().min(b.end());
            if alone > from {
                own.write(deciding, alone);
            } else if together > from {
                own.write(!deciding, together);
            } else {
                return;
            }
        }
    }

    #[inline(always)]
    fn window(&mut self, before: &[Queue], own: &mut Queue, deciding: bool, lo: u32, hi: u32) {
        let operand = &before[self.left.queue];
        while operand.newest.end() > self.from {
            let e = self.left.read(operand, self.from);
            self.from = e.end();
            // The deciding verdict settles the ticks whose windows have begun, the other one those whose windows have ended.
            let back = if e.verdict() == deciding { lo } else { hi };
            own.write_new(e.verdict(), e.end().saturating_sub(back));
        }
    }

    #[inline(always)]
    fn until(&mut self, before: &[Queue], own: &mut Queue, dual: bool, lo: u32, hi: u32) {
        let (left, right) = (&before[self.left.queue], &before[self.right.queue]);
        let both_told = left.newest.end().min(right.newest.end());
        while both_told > self.from {
            let (a, b) = (self.left.read(left, self.from), self.right.read(right, self.from));
            self.from = a.end().min(b.end());
            // Only left without right leaves the ticks open whose windows have begun.
            let open = (a.verdict() != dual) & (b.verdict() == dual);
            own.write_new(b.verdict(), self.from.saturating_sub(if open { hi } else { lo }));
        }
    }
}

/// A monitor of one rule, for feeds of at most `block` states.
pub struct Monitor {
    workers: Vec<Worker>,
    queues: Vec<Queue>,
    /// What reads the verdicts of the rule, and how many it has read.
    output: Reader,
    given: u32,
    seen: u32,
}

impl Monitor {
    #[inline(never)]
    pub fn new(t: &Table, rule: usize, block: usize) -> Monitor {
        let (nodes, watched) = needed(t, t.rules[rule].watched as usize);
        let reader = |queue: u8| Reader { queue: queue as usize, place: 0 };
        Monitor {
            workers: nodes.iter().map(|n| Worker { operator: operator(n), left: reader(n.left), right: reader(n.right), from: 0 }).collect(),
            queues: sizes(&nodes, block).into_iter().map(Queue::new).collect(),
            output: reader(watched as u8),
            given: 0,
            seen: 0,
        }
    }

    /// Feeds one state. Tells `give` each run of verdicts that it decides: the verdict, and of how many ticks.
    #[inline(always)]
    pub fn step(&mut self, state: u32, give: impl FnMut(bool, u32)) {
        self.seen += 1;
        let seen = self.seen;
        self.run(|own, bit| own.write(state >> bit & 1 == 1, seen));
        self.output(give);
    }

    /// Feeds a block of states, node by node.
    #[inline(always)]
    pub fn feed(&mut self, block: &[u32], give: impl FnMut(bool, u32)) {
        let seen = self.seen;
        self.seen += block.len() as u32;
        self.run(|own, bit| {
            for (end, state) in (seen + 1..).zip(block) {
                own.write(state >> bit & 1 == 1, end);
            }
        });
        self.output(give);
    }

    #[inline(always)]
    fn run(&mut self, load: impl Fn(&mut Queue, u8)) {
        for (i, worker) in self.workers.iter_mut().enumerate() {
            let (before, own) = self.queues.split_at_mut(i);
            worker.run(before, &mut own[0], self.seen, &load);
        }
    }

    #[inline(always)]
    fn output(&mut self, mut give: impl FnMut(bool, u32)) {
        let verdicts = &self.queues[self.output.queue];
        while verdicts.newest.end() > self.given {
            let e = self.output.read(verdicts, self.given);
            give(e.verdict(), e.end() - self.given);
            self.given = e.end();
        }
    }

    /// How many bytes its queues have.
    pub fn queue_bytes(&self) -> usize {
        self.queues.iter().map(|q| std::mem::size_of_val(&*q.ring)).sum()
    }
}

fn operator(n: &Node) -> Operator {
    let (lo, hi) = (n.lo as u32, n.hi as u32);
    match n.kind {
        1 => Operator::Signal { bit: n.arg },
        2 | 3 => Operator::Constant { verdict: n.kind == 2 },
        4 => Operator::Not,
        5 | 6 => Operator::Both { deciding: n.kind == 6 },
        7 | 8 => Operator::Window { deciding: n.kind == 7, lo, hi },
        9 | 10 => Operator::Until { dual: n.kind == 10, lo, hi },
        _ => unreachable!(),
    }
}

fn operands(n: &Node) -> Vec<usize> {
    match n.kind {
        1..=3 => vec![],
        4 | 7 | 8 => vec![n.left as usize],
        _ => vec![n.left as usize, n.right as usize],
    }
}

/// The nodes that the one at a place needs, under new places, and its own.
fn needed(t: &Table, place: usize) -> (Vec<Node>, usize) {
    let mut marks = vec![false; place + 1];
    marks[place] = true;
    for i in (0..=place).rev().filter(|i| t.nodes[*i].kind >= 4) {
        if marks[i] {
            operands(&t.nodes[i]).into_iter().for_each(|p| marks[p] = true);
        }
    }
    let new = |p: u8| marks[..p as usize].iter().filter(|m| **m).count() as u8;
    let nodes: Vec<Node> = (0..=place).filter(|i| marks[*i]).map(|i| Node { left: new(t.nodes[i].left), right: new(t.nodes[i].right), ..t.nodes[i] }).collect();
    let last = nodes.len() - 1;
    (nodes, last)
}

/// The least and the largest delay of each node.
fn delays(nodes: &[Node]) -> Vec<(usize, usize)> {
    let mut delays: Vec<(usize, usize)> = vec![];
    for n in nodes {
        let below: Vec<(usize, usize)> = operands(n).into_iter().map(|p| delays[p]).collect();
        let least = below.iter().map(|d| d.0).min().unwrap_or(0);
        let largest = below.iter().map(|d| d.1).max().unwrap_or(0);
        delays.push((n.lo as usize + least, n.hi as usize + largest));
    }
    delays
}

/// How many entries each queue has room for: what waits there until a sibling has been told too, what one feed can add, and two at the ends.
fn sizes(nodes: &[Node], block: usize) -> Vec<usize> {
    let delays = delays(nodes);
    let (mut waiting, mut added) = (vec![0; nodes.len()], vec![0; nodes.len()]);
    for (i, n) in nodes.iter().enumerate() {
        let operands = operands(n);
        let largest = operands.iter().map(|p| delays[*p].1).max().unwrap_or(0);
        // An entry that is read is at most one that is written; and each has a tick of its own.
        let mut read = 0;
        for p in &operands {
            let wait = if operands.len() == 2 { largest.saturating_sub(delays[*p].0) } else { 0 };
            waiting[*p] = waiting[*p].max(wait);
            read += wait + added[*p];
        }
        let ticks = block + delays[i].1 - delays[i].0;
        added[i] = if operands.is_empty() { block } else { ticks.min(read) };
    }
    waiting.iter().zip(added).map(|(w, a)| w + a + 2).collect()
}
