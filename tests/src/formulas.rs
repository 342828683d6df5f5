//! The formulas that the benchmarks and tests share.
use crate::model::{Node, Rule, Table};

/// A formula as nodes, operands first.
#[derive(Default)]
pub struct Formula(Vec<Node>);

impl Formula {
    fn push(&mut self, kind: u8, arg: u8, (lo, hi): (u16, u16), left: u8, right: u8) -> u8 {
        self.0.push(Node { kind, arg, lo, hi, left, right });
        self.0.len() as u8 - 1
    }
    pub fn signal(&mut self, s: u8) -> u8 {
        self.push(1, s, (0, 0), 0, 0)
    }
    pub fn constant(&mut self, value: bool) -> u8 {
        self.push(if value { 2 } else { 3 }, 0, (0, 0), 0, 0)
    }
    pub fn not(&mut self, a: u8) -> u8 {
        self.push(4, 0, (0, 0), a, 0)
    }
    pub fn and(&mut self, a: u8, b: u8) -> u8 {
        self.push(5, 0, (0, 0), a, b)
    }
    pub fn or(&mut self, a: u8, b: u8) -> u8 {
        self.push(6, 0, (0, 0), a, b)
    }
    pub fn implies(&mut self, a: u8, b: u8) -> u8 {
        let a = self.not(a);
        self.or(a, b)
    }
    pub fn finally(&mut self, lo: u16, hi: u16, a: u8) -> u8 {
        self.push(7, 0, (lo, hi), a, 0)
    }
    pub fn globally(&mut self, lo: u16, hi: u16, a: u8) -> u8 {
        self.push(8, 0, (lo, hi), a, 0)
    }
    pub fn until(&mut self, lo: u16, hi: u16, a: u8, b: u8) -> u8 {
        self.push(9, 0, (lo, hi), a, b)
    }
    /// The table that watches the last node.
    pub fn table(self) -> Table {
        let watched = self.0.len() as u8 - 1;
        Table { nodes: self.0, rules: vec![Rule { name: 1, watched }] }
    }
}

pub type Named = (&'static str, Table);

/// F[lo,hi] p.
pub fn finally(lo: u16, hi: u16) -> Table {
    let mut f = Formula::default();
    let p = f.signal(0);
    f.finally(lo, hi, p);
    f.table()
}

/// p U[lo,hi] q.
pub fn until(lo: u16, hi: u16) -> Table {
    let mut f = Formula::default();
    let (p, q) = (f.signal(0), f.signal(1));
    f.until(lo, hi, p, q);
    f.table()
}

/// A temporal node of a kind at place 2, over signal 0 and, where it has two operands, signal 1.
pub fn temporal(kind: u8, lo: u16, hi: u16) -> Table {
    let signal = |arg| Node { kind: 1, arg, lo: 0, hi: 0, left: 0, right: 0 };
    let right = if kind >= 9 { 1 } else { 0 };
    let node = Node { kind, arg: 0, lo, hi, left: 0, right };
    Table { nodes: vec![signal(0), signal(1), node], rules: vec![Rule { name: 1, watched: 2 }] }
}

fn minimum_duration() -> Table {
    let mut f = Formula::default();
    let p = f.signal(0);
    let n = f.not(p);
    let u = f.until(0, 10, n, p);
    let g = f.globally(0, 10, n);
    let o = f.or(u, g);
    f.or(p, o);
    f.table()
}

fn between() -> Table {
    let mut f = Formula::default();
    let (p, q, r) = (f.signal(0), f.signal(1), f.signal(2));
    let nr = f.not(r);
    let g = f.globally(0, 10, nr);
    let a = f.and(q, g);
    let e = f.finally(10, 30, r);
    let a = f.and(a, e);
    let b = f.and(p, nr);
    let u = f.until(10, 20, nr, b);
    let np = f.not(p);
    let g = f.globally(10, 20, np);
    let c = f.or(u, g);
    f.implies(a, c);
    f.table()
}

fn precedence_chain() -> Table {
    let mut f = Formula::default();
    let (p, q0, q1, q2, q3) = (f.signal(4), f.signal(0), f.signal(1), f.signal(2), f.signal(3));
    let (e2, e3) = (f.finally(0, 5, q2), f.finally(0, 5, q3));
    let a = f.and(q1, e2);
    let a = f.and(a, e3);
    let e = f.finally(0, 5, a);
    let a = f.and(q0, e);
    let e = f.finally(10, 10, a);
    let c = f.finally(0, 10, p);
    f.implies(e, c);
    f.table()
}

/// The five formulas of document 000's Table II.
pub fn patterns() -> Vec<Named> {
    vec![
        ("Future, F[0,10] p", finally(0, 10)),
        ("Until, p U[0,10] q", until(0, 10)),
        ("Minimum Duration", minimum_duration()),
        ("Between", between()),
        ("Precedence Chain", precedence_chain()),
    ]
}

/// Long windows.
pub fn windows() -> Vec<Named> {
    vec![("F[0,1000] p", finally(0, 1000)), ("F[0,1023] p", finally(0, 1023)), ("F[0,4095] p", finally(0, 4095))]
}

/// The window whose first splitting has the most parts.
pub fn most_parts() -> Named {
    ("F[0,4084] p", finally(0, 4084))
}

/// A rule of the mail box: what is accepted is relayed within 600 ticks.
pub fn mail() -> Named {
    let mut f = Formula::default();
    let (accepted, relayed) = (f.signal(0), f.signal(1));
    let e = f.finally(0, 600, relayed);
    f.implies(accepted, e);
    ("!accepted \\| F[0,600] relayed", f.table())
}

/// All of them.
pub fn all() -> Vec<Named> {
    patterns().into_iter().chain(windows()).chain([mail()]).collect()
}

/// Eight of them as the rules of one table, each with nodes of its own, 50 in all: all but F[0,1023] p, which takes about as long as F[0,1000] p.
pub fn eight() -> (Vec<&'static str>, Table) {
    let (mut names, mut t) = (vec![], Table { nodes: vec![], rules: vec![] });
    for (name, one) in all().into_iter().filter(|(name, _)| !name.contains("1023")) {
        let base = t.nodes.len() as u8;
        let place = |n: &Node, operand: u8, kinds: &[u8]| if kinds.contains(&n.kind) { base + operand } else { 0 };
        t.nodes.extend(one.nodes.iter().map(|n| Node { left: place(n, n.left, &[4, 5, 6, 7, 8, 9, 10]), right: place(n, n.right, &[5, 6, 9, 10]), ..*n }));
        names.push(name);
        t.rules.push(Rule { name: names.len() as u16, watched: base + one.rules[0].watched });
    }
    (names, t)
}

/// A formula of `count` nodes that needs all of them: each is over the one before, by turns F[0,3], not, or, and.
pub fn of_nodes(count: u8) -> Table {
    let mut f = Formula::default();
    f.signal(0);
    for i in 1..count {
        match i % 4 {
            1 => f.finally(0, 3, i - 1),
            2 => f.not(i - 1),
            3 => f.or(i - 1, i - 3),
            _ => f.and(i - 1, i - 3),
        };
    }
    f.table()
}
