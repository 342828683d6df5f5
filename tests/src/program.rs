//! What the program watch prints, from the sentences of document 01.
use crate::header::limits::MAX_BLOCK;
use crate::model;
use std::fmt::Write;

/// Every line ends in byte 10, which the last may lack.
fn lines(input: &[u8]) -> Vec<&[u8]> {
    let mut lines: Vec<&[u8]> = input.split(|b| *b == 10).collect();
    // Behind the last byte 10, and in an empty input, there is no line.
    lines.pop_if(|last| last.is_empty());
    lines
}

/// 1 to 10 digits, leading zeros allowed, of a value in 0..4294967295; no other line is a state.
fn state(line: &[u8]) -> Option<u32> {
    if line.is_empty() || line.len() > 10 || !line.iter().all(u8::is_ascii_digit) {
        return None;
    }
    std::str::from_utf8(line).ok()?.parse().ok()
}

/// Everything that watch prints for the bytes of rules.bin and of standard input, of fewer than 2^64 lines (with more, a feed is
/// refused). The delay is that of the first rule in the
/// simplified table: through it the simplifier decides how many verdicts precede a `bad line`, and nothing else here depends on it.
pub fn expected(book: &[u8], input: &[u8], delay: usize) -> Vec<u8> {
    let table = match model::read(book) {
        Ok(table) => table,
        Err((number, record)) => return format!("book {number} {record}\n").into_bytes(),
    };
    let states: Vec<Option<u32>> = lines(input).into_iter().map(state).collect();
    let bad = states.iter().position(Option::is_none);
    // A bad line's block isn't fed and nothing is closed, so that the last D states fed have no verdict.
    let fed = bad.map_or(states.len(), |line| line / MAX_BLOCK * MAX_BLOCK);
    let given = if bad.is_some() { fed.saturating_sub(delay) } else { fed };
    let trace: Vec<u32> = states[..fed].iter().flatten().copied().collect();
    let mut out = String::new();
    for (tick, verdict) in verdicts(&table, &trace).iter().take(given).enumerate() {
        writeln!(out, "{} {tick} {}", table.rules[0].name, *verdict as u8).unwrap();
    }
    if let Some(line) = bad {
        writeln!(out, "bad line {}", line + 1).unwrap();
    }
    out.into_bytes()
}

/// The verdicts of the first rule, short traces quantifier by quantifier.
fn verdicts(table: &model::Table, trace: &[u32]) -> Vec<bool> {
    if trace.len() <= 200 {
        table.verdicts(table.rules[0].watched as usize, trace)
    } else {
        table.rule_verdicts(0, trace)
    }
}
