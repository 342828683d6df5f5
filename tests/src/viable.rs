//! What can follow the beginning of a typed line: Earley's recognizer over the grammar as document 02, request A2, writes it, ambiguous or not.
//! Every rule derives something, so a beginning can be completed exactly if an item is left.
use std::collections::HashMap;

/// Rules, alternatives between slashes. After an apostrophe stand bytes as they are; before what follows a tilde, spaces may stand.
const GRAMMAR: [(&str, &str); 12] = [
    ("line", "~number ~': formula ~'\n"),
    ("formula", "disjunction / unary ~'U interval unary / unary ~'R interval unary"),
    ("disjunction", "conjunction / disjunction ~'| conjunction"),
    ("conjunction", "unary / conjunction ~'& unary"),
    ("unary", "atom / ~'! unary / ~'F interval unary / ~'G interval unary"),
    ("atom", "~signal / ~'true / ~'false / ~'( formula ~')"),
    ("interval", "~'[ ~number ~', ~number ~']"),
    ("signal", "'s number"),
    ("number", "'0 / unpadded"),
    ("unpadded", "nonzero / unpadded digit"),
    ("digit", "'0 / nonzero"),
    ("nonzero", "'1 / '2 / '3 / '4 / '5 / '6 / '7 / '8 / '9"),
];

#[derive(Clone, Copy, PartialEq, Eq)]
enum Symbol {
    Byte(u8),
    Rule(usize),
}

/// For each rule its alternatives; the line comes first.
#[derive(Default)]
struct Grammar {
    rules: Vec<Vec<Vec<Symbol>>>,
    numbers: HashMap<String, usize>,
}

impl Grammar {
    fn new() -> Grammar {
        let mut grammar = Grammar::default();
        for (name, alternatives) in GRAMMAR {
            let rule = grammar.rule(name);
            for alternative in alternatives.split(" / ") {
                let symbols = alternative.split(' ').flat_map(|word| grammar.symbols(word)).collect();
                grammar.rules[rule].push(symbols);
            }
        }
        assert!(grammar.rules.iter().all(|alternatives| !alternatives.is_empty()), "a rule is named and not given");
        grammar
    }

    /// The number of a rule, given or not yet.
    fn rule(&mut self, name: &str) -> usize {
        let next = self.rules.len();
        let number = *self.numbers.entry(name.into()).or_insert(next);
        if number == next {
            self.rules.push(vec![]);
        }
        number
    }

    fn symbols(&mut self, word: &str) -> Vec<Symbol> {
        if let Some(bytes) = word.strip_prefix('\'') {
            return bytes.bytes().map(Symbol::Byte).collect();
        }
        let rule = self.rule(word);
        if let (Some(inner), true) = (word.strip_prefix('~'), self.rules[rule].is_empty()) {
            let inner = self.symbols(inner);
            self.rules[rule] = vec![inner, vec![Symbol::Byte(b' '), Symbol::Rule(rule)]];
        }
        vec![Symbol::Rule(rule)]
    }
}

/// An alternative of a rule, begun at a place and recognized up to its dot.
#[derive(Clone, Copy, PartialEq, Eq)]
struct Item {
    rule: usize,
    alternative: usize,
    dot: usize,
    from: usize,
}

impl Item {
    fn moved(mut self) -> Item {
        self.dot += 1;
        self
    }
}

/// The beginning of a line: the items behind each of its bytes.
pub struct Recognizer {
    grammar: Grammar,
    sets: Vec<Vec<Item>>,
}

impl Recognizer {
    pub fn new() -> Recognizer {
        let mut empty = Recognizer { grammar: Grammar::new(), sets: vec![] };
        let start = empty.begun(0, 0).collect();
        empty.sets = vec![empty.closed(start)];
        empty
    }

    fn begun(&self, rule: usize, from: usize) -> impl Iterator<Item = Item> {
        (0..self.grammar.rules[rule].len()).map(move |alternative| Item { rule, alternative, dot: 0, from })
    }

    /// The symbol behind the dot.
    fn next(&self, item: &Item) -> Option<Symbol> {
        self.grammar.rules[item.rule][item.alternative].get(item.dot).copied()
    }

    /// With what predicting and completing adds. No rule derives nothing, so a rule that ends here began in an earlier set.
    fn closed(&self, mut set: Vec<Item>) -> Vec<Item> {
        let here = self.sets.len();
        let mut done = 0;
        while done < set.len() {
            let item = set[done];
            let more: Vec<Item> = match self.next(&item) {
                Some(Symbol::Byte(_)) => vec![],
                Some(Symbol::Rule(rule)) => self.begun(rule, here).collect(),
                None => self.after(&self.sets[item.from], Symbol::Rule(item.rule)).collect(),
            };
            for item in more {
                if !set.contains(&item) {
                    set.push(item);
                }
            }
            done += 1;
        }
        set
    }

    /// The items of a set that wait for a symbol, moved over it.
    fn after<'a>(&'a self, set: &'a [Item], symbol: Symbol) -> impl Iterator<Item = Item> + 'a {
        set.iter().filter(move |item| self.next(item) == Some(symbol)).map(|item| item.moved())
    }

    fn last(&self) -> &[Item] {
        &self.sets[self.sets.len() - 1]
    }

    /// Whether a line can go on with the byte; if so, it does.
    pub fn push(&mut self, byte: u8) -> bool {
        let set: Vec<Item> = self.after(self.last(), Symbol::Byte(byte)).collect();
        let viable = !set.is_empty();
        if viable {
            self.sets.push(self.closed(set));
        }
        viable
    }

    /// Takes the last byte back.
    pub fn pop(&mut self) {
        self.sets.pop();
    }

    /// How many bytes there are.
    pub fn length(&self) -> usize {
        self.sets.len() - 1
    }

    /// Whether a line can go on with the byte.
    pub fn allows(&self, byte: u8) -> bool {
        self.last().iter().any(|item| self.next(item) == Some(Symbol::Byte(byte)))
    }

    /// Whether the bytes are a line.
    pub fn complete(&self) -> bool {
        self.last().iter().any(|item| item.rule == 0 && self.next(item).is_none())
    }
}
