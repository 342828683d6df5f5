//! What the program rules tells of a text that it refuses.
use crate::header::limits::{MAX_DELAY, MAX_DEPTH, MAX_INTERVAL, MAX_NAME, MAX_NODES, MAX_RULES, MAX_SIGNAL};
use crate::header::refusals::{ARGUMENT, DEEP, FULL, INTERVAL, LONG, NAME, RULELESS, SYNTAX};
use crate::typed::Refusal;

/// The longest text that the program reads.
pub const MAX_TEXT: usize = 1_048_576;

/// What it tells of a longer one.
pub const TOO_LONG: &str = "The text is longer than 1048576 bytes.\n";

/// The longest line that is shown whole, and how much of a longer one is shown.
const SHOWN: usize = 72;

/// How much of that stands before the mark.
const BEFORE: usize = 36;

fn sentence(number: u32) -> String {
    match number {
        ARGUMENT => format!("A signal is above s{MAX_SIGNAL}, or the rule's name is 0 or above {MAX_NAME}."),
        INTERVAL => format!("An interval [a,b] has a above b, or b above {MAX_INTERVAL}."),
        FULL => format!("Up to this line there are more than {MAX_NODES} atoms and operators, or more than {MAX_RULES} rules."),
        LONG => format!("The rule or a part of it waits for more than {MAX_DELAY} later states."),
        NAME => "An earlier line has the same name.".into(),
        RULELESS => "The text is empty: it has no rule.".into(),
        SYNTAX => "At the mark the line goes on, or ends, as no rule does; the last line needs a line end too.".into(),
        DEEP => format!("The bracket at the mark is the {}rd that is open; at most {MAX_DEPTH} may be.", MAX_DEPTH + 1),
        _ => panic!("no text is refused with {number}"),
    }
}

/// The message to a text that is refused with a number, and a place or a line.
pub fn message(text: &[u8], (number, at): Refusal) -> String {
    let sentence = sentence(number);
    if number != SYNTAX && number != DEEP {
        return format!("text {number} line {at}\n{sentence}\n");
    }
    let begun: Vec<&[u8]> = text[..at].split(|b| *b == 10).collect();
    let (line, before) = (begun.len(), begun[begun.len() - 1].len());
    let (shown, indent) = shown(text.split(|b| *b == 10).nth(line - 1).unwrap(), before);
    format!("text {number} {at}\n{sentence}\nline {line}, column {}:\n{shown}\n{:indent$}^\n", before + 1, "")
}

/// A line as it is shown, and how far to the right the mark stands that has so many of the line's bytes before it.
fn shown(line: &[u8], before: usize) -> (String, usize) {
    let visible: String = line.iter().map(|b| if matches!(b, 32..=126) { *b as char } else { '?' }).collect();
    if visible.len() <= SHOWN {
        return (visible, before);
    }
    let (left, kept) = visible.split_at(before.saturating_sub(BEFORE));
    let (kept, right) = kept.split_at(kept.len().min(SHOWN));
    let dots = |gone: &str| if gone.is_empty() { "" } else { "..." };
    (format!("{}{kept}{}", dots(left), dots(right)), dots(left).len() + before - left.len())
}
