//! The reader of typed rules as plain Rust: recursive descent over a slice and an index.
use crate::header::limits::{MAX_DELAY, MAX_DEPTH, MAX_INTERVAL, MAX_NAME, MAX_NODES, MAX_RULES, MAX_SIGNAL, NODE_COUNT_AT, RULE_COUNT_AT, TABLE_BYTES};
use crate::header::places::{node_at, rule_at};
use crate::header::refusals::{ARGUMENT, DEEP, FULL, INTERVAL, LONG, NAME, OK, RULELESS, SYNTAX};
use crate::library::TableBytes;

/// The number, and the place or the line.
pub fn read_text(text: &[u8], table: &mut TableBytes) -> (u32, usize) {
    match read(text) {
        Ok(read) => {
            *table = read;
            (OK, 0)
        }
        Err(refusal) => refusal,
    }
}

type Refusal = (u32, usize);

fn read(text: &[u8]) -> Result<TableBytes, Refusal> {
    if text.is_empty() {
        return Err((RULELESS, 0));
    }
    let mut reader = Reader { text, at: 0, depth: 0, count: 0, nodes: Vec::with_capacity(KEPT), prefixes: vec![] };
    let mut table = Table { bytes: [0; TABLE_BYTES], delays: [0; MAX_NODES] };
    let mut line = 0;
    while reader.at < text.len() {
        let name = reader.line()?;
        line += 1;
        table.add(name, &reader.nodes).map_err(|number| (number, line))?;
    }
    Ok(table.bytes)
}

/// An atom or operator of a line. Its right operand is the node before it.
#[derive(Clone, Copy, Default)]
struct Node {
    kind: u8,
    arg: u32,
    lo: u32,
    hi: u32,
    left: u32,
}

/// So many nodes of a line are enough to refuse it.
const KEPT: usize = MAX_NODES + 1;

struct Reader<'a> {
    text: &'a [u8],
    at: usize,
    depth: usize,
    /// How many nodes the line has so far, and the first of them.
    count: usize,
    nodes: Vec<Node>,
    /// Those whose operand is not read yet; of a chain the last are enough.
    prefixes: Vec<Node>,
}

impl Reader<'_> {
    fn here(&self) -> Option<u8> {
        self.text.get(self.at).copied()
    }

    /// The next byte that is no space.
    fn peek(&mut self) -> Option<u8> {
        let mut at = self.at;
        while self.text.get(at) == Some(&b' ') {
            at += 1;
        }
        self.at = at;
        self.here()
    }

    fn fault<T>(&self) -> Result<T, Refusal> {
        Err((SYNTAX, self.at))
    }

    fn sign(&mut self, sign: u8) -> Result<(), Refusal> {
        if self.peek() != Some(sign) {
            return self.fault();
        }
        self.at += 1;
        Ok(())
    }

    fn word(&mut self, word: &[u8]) -> Result<(), Refusal> {
        for byte in word {
            if self.here() != Some(*byte) {
                return self.fault();
            }
            self.at += 1;
        }
        Ok(())
    }

    fn digits(&mut self) -> Result<u32, Refusal> {
        match self.here() {
            Some(b'0') => {
                self.at += 1;
                Ok(0)
            }
            Some(b'1'..=b'9') => {
                let (mut at, mut value) = (self.at, 0u32);
                while let Some(digit @ b'0'..=b'9') = self.text.get(at) {
                    value = value.saturating_mul(10).saturating_add((digit - b'0') as u32);
                    at += 1;
                }
                self.at = at;
                Ok(value)
            }
            _ => self.fault(),
        }
    }

    fn number(&mut self) -> Result<u32, Refusal> {
        self.peek();
        self.digits()
    }

    /// The interval behind the sign of an operator.
    fn windowed(&mut self, kind: u8) -> Result<Node, Refusal> {
        self.at += 1;
        self.sign(b'[')?;
        let lo = self.number()?;
        self.sign(b',')?;
        let hi = self.number()?;
        self.sign(b']')?;
        Ok(Node { kind, lo, hi, ..Node::default() })
    }

    fn push(&mut self, node: Node) {
        if self.count < KEPT {
            self.nodes.push(node);
        }
        self.count += 1;
    }

    /// The name of a line; its nodes are left in `nodes`.
    fn line(&mut self) -> Result<u32, Refusal> {
        self.count = 0;
        self.nodes.clear();
        let name = self.number()?;
        self.sign(b':')?;
        self.formula()?;
        self.sign(b'\n')?;
        Ok(name)
    }

    fn formula(&mut self) -> Result<(), Refusal> {
        self.unary()?;
        let kind = match self.peek() {
            Some(b'U') => 9,
            Some(b'R') => 10,
            _ => return self.disjunction(),
        };
        let left = self.count as u32 - 1;
        let node = self.windowed(kind)?;
        self.unary()?;
        self.push(Node { left, ..node });
        Ok(())
    }

    /// The rest of a disjunction whose first unary is read.
    fn disjunction(&mut self) -> Result<(), Refusal> {
        self.conjunction()?;
        while self.peek() == Some(b'|') {
            let left = self.count as u32 - 1;
            self.at += 1;
            self.unary()?;
            self.conjunction()?;
            self.push(Node { kind: 6, left, ..Node::default() });
        }
        Ok(())
    }

    /// The rest of a conjunction whose first unary is read.
    fn conjunction(&mut self) -> Result<(), Refusal> {
        while self.peek() == Some(b'&') {
            let left = self.count as u32 - 1;
            self.at += 1;
            self.unary()?;
            self.push(Node { kind: 5, left, ..Node::default() });
        }
        Ok(())
    }

    fn unary(&mut self) -> Result<(), Refusal> {
        let outer = self.prefixes.len();
        loop {
            let prefix = match self.peek() {
                Some(b'!') => {
                    self.at += 1;
                    Node { kind: 4, ..Node::default() }
                }
                Some(b'F') => self.windowed(7)?,
                Some(b'G') => self.windowed(8)?,
                _ => break,
            };
            if self.prefixes.len() == outer + 2 * KEPT {
                self.prefixes.drain(outer..outer + KEPT);
            }
            self.prefixes.push(prefix);
        }
        self.atom()?;
        while self.prefixes.len() > outer {
            let prefix = self.prefixes.pop().unwrap();
            self.push(Node { left: self.count as u32 - 1, ..prefix });
        }
        Ok(())
    }

    fn atom(&mut self) -> Result<(), Refusal> {
        let mut node = Node::default();
        match self.peek() {
            Some(b's') => {
                self.at += 1;
                node = Node { kind: 1, arg: self.digits()?, ..node };
            }
            Some(b't') => {
                self.word(b"true")?;
                node.kind = 2;
            }
            Some(b'f') => {
                self.word(b"false")?;
                node.kind = 3;
            }
            Some(b'(') => return self.bracket(),
            _ => return self.fault(),
        }
        self.push(node);
        Ok(())
    }

    fn bracket(&mut self) -> Result<(), Refusal> {
        if self.depth == MAX_DEPTH {
            return Err((DEEP, self.at));
        }
        self.at += 1;
        self.depth += 1;
        self.formula()?;
        self.depth -= 1;
        self.sign(b')')
    }
}

/// The table so far, and the delays of its nodes.
struct Table {
    bytes: TableBytes,
    delays: [u32; MAX_NODES],
}

impl Table {
    fn add(&mut self, name: u32, nodes: &[Node]) -> Result<(), u32> {
        let base = self.bytes[NODE_COUNT_AT] as usize;
        nodes.iter().try_for_each(|node| self.add_node(node, base))?;
        self.add_rule(name)
    }

    fn add_node(&mut self, node: &Node, base: usize) -> Result<(), u32> {
        let at = self.bytes[NODE_COUNT_AT] as usize;
        if node.kind == 1 && node.arg as usize > MAX_SIGNAL {
            return Err(ARGUMENT);
        }
        if node.lo > node.hi || node.hi as usize > MAX_INTERVAL {
            return Err(INTERVAL);
        }
        if at == MAX_NODES {
            return Err(FULL);
        }
        let left = if node.kind >= 4 { base + node.left as usize } else { 0 };
        let right = if matches!(node.kind, 5 | 6 | 9 | 10) { at - 1 } else { 0 };
        let (of_left, of_right) = if node.kind >= 4 { (self.delays[left], self.delays[at - 1]) } else { (0, 0) };
        let inner = match node.kind {
            9 | 10 if node.lo == node.hi => of_right,
            9 | 10 => of_left.saturating_sub(1).max(of_right),
            _ => of_left.max(of_right),
        };
        let delay = node.hi + inner;
        if delay as usize > MAX_DELAY {
            return Err(LONG);
        }
        self.delays[at] = delay;
        let (lo, hi) = ((node.lo as u16).to_le_bytes(), (node.hi as u16).to_le_bytes());
        self.bytes[node_at(at)..node_at(at + 1)].copy_from_slice(&[node.kind, node.arg as u8, lo[0], lo[1], hi[0], hi[1], left as u8, right as u8]);
        self.bytes[NODE_COUNT_AT] += 1;
        Ok(())
    }

    fn add_rule(&mut self, name: u32) -> Result<(), u32> {
        if name == 0 || name as usize > MAX_NAME {
            return Err(ARGUMENT);
        }
        let at = self.bytes[RULE_COUNT_AT] as usize;
        if at == MAX_RULES {
            return Err(FULL);
        }
        let name = (name as u16).to_le_bytes();
        if (0..at).any(|i| self.bytes[rule_at(i)..][..2] == name) {
            return Err(NAME);
        }
        let watched = self.bytes[NODE_COUNT_AT] - 1;
        self.bytes[rule_at(at)..rule_at(at + 1)].copy_from_slice(&[name[0], name[1], watched, 0]);
        self.bytes[RULE_COUNT_AT] += 1;
        Ok(())
    }
}
