//! Rules typed as text, after document 02, request A2: the reading of a text, without regard to speed, and the tokens that a line is printed as.
use crate::header::limits::{MAX_DELAY, MAX_DEPTH, MAX_INTERVAL, MAX_NAME, MAX_NODES, MAX_RULES, MAX_SIGNAL};
use crate::header::refusals::{ARGUMENT, DEEP, FULL, INTERVAL, LONG, NAME, RULELESS, SYNTAX};
use crate::model::{Node, Rule, Table};

/// An atom without brackets or an operator, of the kind of its node. Numbers beyond u32 are held at its largest: all limits are far below.
#[derive(Clone, Copy, Debug, Default, PartialEq, Eq)]
pub struct Part {
    pub kind: u8,
    pub arg: u32,
    pub lo: u32,
    pub hi: u32,
}

impl Part {
    pub fn operands(&self) -> usize {
        match self.kind {
            1..=3 => 0,
            4 | 7 | 8 => 1,
            _ => 2,
        }
    }
}

/// A rule: its name, and its formula as the list of its parts, operands before users, left first.
#[derive(Clone, Debug, PartialEq, Eq)]
pub struct Line {
    pub name: u32,
    pub formula: Vec<Part>,
}

/// The number, and the place or the line.
pub type Refusal = (u32, usize);

/// The table of a text, or why it is refused.
pub fn read(text: &[u8]) -> Result<Table, Refusal> {
    if text.is_empty() {
        return Err((RULELESS, 0));
    }
    let mut table = Table { nodes: vec![], rules: vec![] };
    let (mut cursor, mut number) = (Cursor { text, at: 0 }, 0);
    while cursor.at < text.len() {
        let line = line(&mut cursor)?;
        number += 1;
        add(&mut table, &line).map_err(|refusal| (refusal, number))?;
    }
    Ok(table)
}

/// The table of lines that keep every limit.
pub fn table(lines: &[Line]) -> Table {
    let mut table = Table { nodes: vec![], rules: vec![] };
    lines.iter().for_each(|line| add(&mut table, line).unwrap());
    table
}

fn refuse_if(test: bool, number: u32) -> Result<(), u32> {
    if test {
        Err(number)
    } else {
        Ok(())
    }
}

/// The nodes of a line, then its rule.
fn add(t: &mut Table, line: &Line) -> Result<(), u32> {
    let mut operands: Vec<u8> = vec![];
    for part in &line.formula {
        refuse_if(part.kind == 1 && part.arg as usize > MAX_SIGNAL, ARGUMENT)?;
        refuse_if(part.lo > part.hi || part.hi as usize > MAX_INTERVAL, INTERVAL)?;
        refuse_if(t.nodes.len() == MAX_NODES, FULL)?;
        let right = if part.operands() == 2 { operands.pop().unwrap() } else { 0 };
        let left = if part.operands() >= 1 { operands.pop().unwrap() } else { 0 };
        operands.push(t.nodes.len() as u8);
        t.nodes.push(Node { kind: part.kind, arg: part.arg as u8, lo: part.lo as u16, hi: part.hi as u16, left, right });
        refuse_if(t.delays()[t.nodes.len() - 1] as usize > MAX_DELAY, LONG)?;
    }
    refuse_if(line.name == 0 || line.name as usize > MAX_NAME, ARGUMENT)?;
    refuse_if(t.rules.len() == MAX_RULES, FULL)?;
    refuse_if(t.rules.iter().any(|rule| rule.name as u32 == line.name), NAME)?;
    t.rules.push(Rule { name: line.name as u16, watched: operands.pop().unwrap() });
    assert!(operands.is_empty(), "a formula of several trees");
    Ok(())
}

/// A place in a text. What is wanted and does not stand there is a fault at the first byte that differs.
struct Cursor<'a> {
    text: &'a [u8],
    at: usize,
}

impl Cursor<'_> {
    fn fault<T>(&self) -> Result<T, Refusal> {
        Err((SYNTAX, self.at))
    }

    /// The byte here, of any kind.
    fn here(&self) -> Option<u8> {
        self.text.get(self.at).copied()
    }

    /// The first byte from here on that is no space.
    fn peek(&mut self) -> Option<u8> {
        while self.here() == Some(b' ') {
            self.at += 1;
        }
        self.here()
    }

    /// Spaces, and a word without spaces inside.
    fn word(&mut self, word: &[u8]) -> Result<(), Refusal> {
        self.peek();
        for byte in word {
            if self.here() != Some(*byte) {
                return self.fault();
            }
            self.at += 1;
        }
        Ok(())
    }

    /// A number right here: 0, or digits of which the first is not 0.
    fn digits(&mut self) -> Result<u32, Refusal> {
        let from = self.at;
        let digit = |c: &Cursor| c.here().filter(u8::is_ascii_digit).map(|b| (b - b'0') as u32);
        let Some(mut value) = digit(self) else { return self.fault() };
        self.at += 1;
        while self.text[from] != b'0' {
            let Some(next) = digit(self) else { break };
            value = value.saturating_mul(10).saturating_add(next);
            self.at += 1;
        }
        Ok(value)
    }

    fn number(&mut self) -> Result<u32, Refusal> {
        self.peek();
        self.digits()
    }

    fn interval(&mut self) -> Result<(u32, u32), Refusal> {
        self.word(b"[")?;
        let lo = self.number()?;
        self.word(b",")?;
        let hi = self.number()?;
        self.word(b"]")?;
        Ok((lo, hi))
    }
}

/// What is still to come of a line.
enum Wanted {
    Formula,
    /// Behind the first unary of a formula.
    Rest,
    Disjuncts,
    Conjuncts,
    Unary,
    Bracket,
    /// Not of the text: the operands of this part are complete.
    Done(Part),
}

fn line(cursor: &mut Cursor) -> Result<Line, Refusal> {
    let name = cursor.number()?;
    cursor.word(b":")?;
    let formula = formula(cursor)?;
    cursor.word(b"\n")?;
    Ok(Line { name, formula })
}

/// The parts of a formula; what is wanted next stands last.
fn formula(cursor: &mut Cursor) -> Result<Vec<Part>, Refusal> {
    let plain = |kind| Part { kind, ..Part::default() };
    let (mut parts, mut open, mut wanted) = (vec![], 0, vec![Wanted::Formula]);
    while let Some(next) = wanted.pop() {
        match next {
            Wanted::Formula => wanted.extend([Wanted::Rest, Wanted::Unary]),
            Wanted::Rest => match cursor.peek() {
                Some(b'U') => wanted.extend([Wanted::Done(windowed(cursor, b"U", 9)?), Wanted::Unary]),
                Some(b'R') => wanted.extend([Wanted::Done(windowed(cursor, b"R", 10)?), Wanted::Unary]),
                _ => wanted.extend([Wanted::Disjuncts, Wanted::Conjuncts]),
            },
            Wanted::Conjuncts if cursor.peek() == Some(b'&') => {
                cursor.word(b"&")?;
                wanted.extend([Wanted::Conjuncts, Wanted::Done(plain(5)), Wanted::Unary]);
            }
            Wanted::Disjuncts if cursor.peek() == Some(b'|') => {
                cursor.word(b"|")?;
                wanted.extend([Wanted::Disjuncts, Wanted::Done(plain(6)), Wanted::Conjuncts, Wanted::Unary]);
            }
            Wanted::Conjuncts | Wanted::Disjuncts => {}
            Wanted::Unary => match cursor.peek() {
                Some(b'!') => {
                    cursor.word(b"!")?;
                    wanted.extend([Wanted::Done(plain(4)), Wanted::Unary]);
                }
                Some(b'F') => wanted.extend([Wanted::Done(windowed(cursor, b"F", 7)?), Wanted::Unary]),
                Some(b'G') => wanted.extend([Wanted::Done(windowed(cursor, b"G", 8)?), Wanted::Unary]),
                Some(b'(') if open == MAX_DEPTH => return Err((DEEP, cursor.at)),
                Some(b'(') => {
                    cursor.word(b"(")?;
                    open += 1;
                    wanted.extend([Wanted::Bracket, Wanted::Formula]);
                }
                _ => parts.push(atom(cursor)?),
            },
            Wanted::Bracket => {
                cursor.word(b")")?;
                open -= 1;
            }
            Wanted::Done(part) => parts.push(part),
        }
    }
    Ok(parts)
}

/// A temporal operator and its interval.
fn windowed(cursor: &mut Cursor, sign: &[u8], kind: u8) -> Result<Part, Refusal> {
    cursor.word(sign)?;
    let (lo, hi) = cursor.interval()?;
    Ok(Part { kind, arg: 0, lo, hi })
}

/// An atom without brackets.
fn atom(cursor: &mut Cursor) -> Result<Part, Refusal> {
    let part = |kind, arg| Part { kind, arg, ..Part::default() };
    match cursor.peek() {
        Some(b't') => cursor.word(b"true").map(|()| part(2, 0)),
        Some(b'f') => cursor.word(b"false").map(|()| part(3, 0)),
        _ => {
            cursor.word(b"s")?;
            Ok(part(1, cursor.digits()?))
        }
    }
}

/// How tightly printed tokens hold together: U and R, disjunctions, conjunctions, unaries.
type Strength = u8;

type Printed = (Vec<String>, Strength);

fn bracketed((tokens, _): Printed) -> Printed {
    (["(".into()].into_iter().chain(tokens).chain([")".into()]).collect(), 3)
}

/// Brackets where an operand needs them.
fn at_least(strength: Strength, operand: Printed) -> Vec<String> {
    if operand.1 < strength {
        bracketed(operand).0
    } else {
        operand.0
    }
}

fn printed(part: &Part, mut operands: Vec<Printed>) -> Printed {
    let window = |sign: &str| [sign, "[", &part.lo.to_string(), ",", &part.hi.to_string(), "]"].map(String::from).to_vec();
    let one = |sign: &str| vec![sign.to_string()];
    let (sign, left, right, strength) = match part.kind {
        1 => return (one(&format!("s{}", part.arg)), 3),
        2 => return (one("true"), 3),
        3 => return (one("false"), 3),
        4 => (one("!"), 0, 3, 3),
        5 => (one("&"), 2, 3, 2),
        6 => (one("|"), 1, 2, 1),
        7 => (window("F"), 0, 3, 3),
        8 => (window("G"), 0, 3, 3),
        9 => (window("U"), 3, 3, 0),
        _ => (window("R"), 3, 3, 0),
    };
    let last = at_least(right, operands.pop().unwrap());
    let first = operands.pop().map_or(vec![], |operand| at_least(left, operand));
    ([first, sign, last].concat(), strength)
}

/// The tokens of a line, byte 10 too: spaces may stand before each. `more` says where brackets stand that nothing needs.
pub fn tokens(line: &Line, mut more: impl FnMut() -> bool) -> Vec<String> {
    let mut done: Vec<Printed> = vec![];
    for part in &line.formula {
        let operands = done.split_off(done.len() - part.operands());
        let mut whole = printed(part, operands);
        while more() {
            whole = bracketed(whole);
        }
        done.push(whole);
    }
    let formula = done.pop().unwrap().0;
    [vec![line.name.to_string(), ":".into()], formula, vec!["\n".into()]].concat()
}

/// The most brackets that are open at once.
pub fn depth(tokens: &[String]) -> usize {
    let (mut open, mut most) = (0, 0);
    for token in tokens {
        open += (token == "(") as usize;
        most = most.max(open);
        open -= (token == ")") as usize;
    }
    most
}

/// The text of pieces, each repeated.
pub fn repeated(pieces: &[(&str, usize)]) -> String {
    pieces.iter().map(|(piece, times)| piece.repeat(*times)).collect()
}
