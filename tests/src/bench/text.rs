//! The reader of typed rules beside the plain one.
use super::clock::{in_turns, Contestant};
use super::markdown::{figure, number, table};
use crate::header::limits::{MAX_DEPTH, TABLE_BYTES};
use crate::library::{self, TableBytes};
use crate::plain_text;
use crate::typed::repeated;
use std::hint::black_box;

type Reader = fn(&[u8], &mut TableBytes) -> (u32, usize);

/// The bytes of a long line, about.
const LINE_BYTES: usize = 1_000_000;

/// How often a part is repeated in the texts whose stack is measured.
const MANY: usize = 3_000_000;

const ORDINARY: &str = "1: F[0,10] s0
2: s0 U[0,10] s1
3: !s2 | F[0,600] s3
4: G[0,100] (s4 & !s5)
5: (s0 | s1) R[2,8] s6
6: F[1,3] G[0,5] s7 & s8
7: !(s9 & s10) | true
8: s11 & s12 | s13 & !s14
";

/// A line of parts, as long as `LINE_BYTES`.
fn line(before: &str, part: &str, after: &str) -> String {
    repeated(&[(before, 1), (part, LINE_BYTES / part.len()), (after, 1)])
}

/// Texts to be read in turns, each with how many calls make a round.
fn texts() -> Vec<(&'static str, String, usize)> {
    vec![
        ("eight ordinary lines", ORDINARY.into(), 200),
        ("`!`", line("1:", "!", "s0\n"), 1),
        ("`F[0,1]`", line("1:", "F[0,1]", "s0\n"), 1),
        ("`s1&`", line("1:", "s1&", "s0\n"), 1),
        ("`s1\\|`", line("1:", "s1|", "s0\n"), 1),
        ("`(s1)&`", line("1:", "(s1)&", "s0\n"), 1),
        ("`((s1)\\|true)&`", line("1:", "((s1)|true)&", "s0\n"), 1),
        ("spaces", line("1:", " ", "s0\n"), 1),
        ("digits", line("1:s", "1", "\n"), 1),
    ]
}

/// Long lines and deep ones, with their names.
pub fn deep() -> Vec<(&'static str, String)> {
    let chain = |part| repeated(&[("1:", 1), (part, MANY), ("s0\n", 1)]);
    let nested = |part: &str| repeated(&[("1:", 1), (&(part.to_string() + "("), MAX_DEPTH), ("s0", 1), (")", MAX_DEPTH), ("\n", 1)]);
    vec![
        ("eight ordinary lines", ORDINARY.into()),
        ("three million `!`", chain("!")),
        ("three million `F[0,1]`", chain("F[0,1]")),
        ("three million `s1&`", chain("s1&")),
        ("three million `s1\\|`", chain("s1|")),
        ("three million `(`", chain("(")),
        ("32 open brackets", nested("")),
        ("32 open brackets, 70 prefixes before each", nested(&"!".repeat(70))),
        ("32 open brackets, `s1\\|s1&!` before each", nested("s1|s1&!")),
        ("32 open brackets, `s1U[0,1]!` before each", nested("s1U[0,1]!")),
        (
            "32 open brackets, a prefix before each and before the atom",
            repeated(&[("1:", 1), ("!(", MAX_DEPTH), ("!s0", 1), (")", MAX_DEPTH), ("\n", 1)]),
        ),
    ]
}

fn calls<'a>(reader: Reader, text: &'a str, calls: usize) -> Contestant<'a> {
    let mut bytes = [0; TABLE_BYTES];
    Box::new(move |_| {
        for _ in 0..calls {
            black_box(reader(black_box(text.as_bytes()), &mut bytes));
        }
    })
}

/// The answer and the table of one call.
fn answer(reader: Reader, text: &str) -> ((u32, usize), TableBytes) {
    let mut bytes = [0xaa; TABLE_BYTES];
    (reader(text.as_bytes(), &mut bytes), bytes)
}

fn beside_plain(name: &str, text: &str, count: usize) -> Vec<String> {
    let readers: [Reader; 2] = [library::read_text, plain_text::read_text];
    assert_eq!(answer(readers[0], text), answer(readers[1], text), "{name}");
    let times = in_turns(if count == 1 { 40 } else { 300 }, readers.map(|reader| calls(reader, text, count)));
    let [ours, plain] = times.map(|time| time / count as f64 * 1e6);
    vec![name.into(), number(text.len() as f64, 0), figure(ours) + " µs", figure(plain) + " µs", number(ours / plain, 2), "≤ 3".into()]
}

pub fn run() {
    let rows: Vec<_> = texts().iter().map(|(name, text, count)| beside_plain(name, text, *count)).collect();
    table("Typed rules, one call:", &["Text", "bytes", "proved", "plain reader", "ratio", "asked"], &rows);
}
