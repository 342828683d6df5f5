//! Calls of the library on sessions beside the model's, every byte and word compared, and what these calls are made with.
use crate::header::limits::{HISTORY_WORDS, SCRATCH_WORDS};
use crate::header::places::SEEN_AT;
use crate::header::whole_words;
use crate::library::{self, NarrowBytes, SessionBytes, TableBytes};
use crate::model::{self, Delay, Width};
use crate::random::{bytes, Random};
use crate::{only_read, same};

/// The number and the count of a feed.
pub fn feed(session: &mut SessionBytes, block: &[u32], history: &mut [u32], scratch: &mut [u64], out: &mut [u64]) -> (u32, u32) {
    let (mut s, mut h, mut x, mut o) = (*session, history.to_vec(), scratch.to_vec(), out.to_vec());
    let wanted = model::feed(Width::Wide, Delay::New, &mut s, block, &mut h, &mut x, &mut o);
    let got = only_read("block", block, |block| library::feed(session, block, history, scratch, out));
    assert_eq!(got, wanted);
    same("session", &session[..], &s[..]);
    same("history", history, &h);
    same("scratch", scratch, &x);
    same("out", out, &o);
    got
}

/// The same of a library with this width and this delay; if it is an earlier one, the model does it alone.
pub fn feed_under(
    width: Width,
    delay: Delay,
    session: &mut SessionBytes,
    block: &[u32],
    history: &mut [u32],
    scratch: &mut [u64],
    out: &mut [u64],
) -> (u32, u32) {
    if (width, delay) == (Width::Wide, Delay::New) {
        return feed(session, block, history, scratch, out);
    }
    model::feed(width, delay, session, block, history, scratch, out)
}

/// The number and the count of a close.
pub fn close(session: &mut SessionBytes, history: &[u32], scratch: &mut [u64], out: &mut [u64]) -> (u32, u32) {
    close_under(Width::Wide, Delay::New, session, history, scratch, out)
}

/// The same under a width and a delay: the library has a close for each delay, and of a narrow session the model does it alone.
pub fn close_under(width: Width, delay: Delay, session: &mut SessionBytes, history: &[u32], scratch: &mut [u64], out: &mut [u64]) -> (u32, u32) {
    let call = match (width, delay) {
        (Width::Wide, Delay::New) => library::close,
        (Width::Wide, Delay::Old) => library::close_old,
        (Width::Narrow, _) => return model::close(width, delay, session, history, scratch, out),
    };
    let (mut s, mut x, mut o) = (*session, scratch.to_vec(), out.to_vec());
    let wanted = model::close(width, delay, &mut s, history, &mut x, &mut o);
    let got = only_read("history", history, |history| call(session, history, scratch, out));
    assert_eq!(got, wanted);
    same("session", &session[..], &s[..]);
    same("scratch", scratch, &x);
    same("out", out, &o);
    got
}

/// The number of a widening. The session lies between bytes that are not lent.
pub fn widen(r: &mut Random, narrow: &NarrowBytes, session: &mut SessionBytes) -> u32 {
    const AROUND: usize = 24;
    let (before, behind) = (bytes(r, AROUND), bytes(r, AROUND));
    let mut lent = [&before, &session[..], &behind].concat();
    let number = model::widen(narrow, session);
    let place = AROUND..AROUND + session.len();
    let got = only_read("narrow", narrow, |narrow| library::widen(narrow.try_into().unwrap(), (&mut lent[place]).try_into().unwrap()));
    assert_eq!(got, number);
    same("session, from -24 on", &lent, &[&before, &session[..], &behind].concat());
    number
}

/// The first verdicts of out.
pub fn bits(out: &[u64], count: u32) -> Vec<bool> {
    (0..count as usize).map(|i| out[i / 64] >> (i % 64) & 1 == 1).collect()
}

/// The first n bits as words, and then the words of `rest` that they do not reach.
pub fn packed(bits: &[bool], rest: &[u64]) -> Vec<u64> {
    let mut out = rest.to_vec();
    out[..whole_words(bits.len())].fill(0);
    bits.iter().enumerate().for_each(|(t, bit)| out[t / 64] += u64::from(*bit) * 2u64.pow(t as u32 % 64));
    out
}

/// The bytes of a session on a table, sound or not, with any rule number and any count.
pub fn forged(table: TableBytes, rule: u32, seen: u64) -> SessionBytes {
    [&table[..], &rule.to_le_bytes(), &seen.to_le_bytes()].concat().try_into().unwrap()
}

/// The count in a session's bytes.
pub fn seen_in(session: &SessionBytes) -> u64 {
    u64::from_le_bytes(session[SEEN_AT..].try_into().unwrap())
}

/// Lengths of history, scratch and out, of which a call needs `out` words: just enough, each one short, none, and longer ones.
pub fn lengths(out: usize) -> [(usize, usize, usize); 6] {
    [
        (HISTORY_WORDS, SCRATCH_WORDS, out),
        (HISTORY_WORDS - 1, SCRATCH_WORDS, out),
        (HISTORY_WORDS, SCRATCH_WORDS - 1, out),
        (HISTORY_WORDS, SCRATCH_WORDS, out - 1),
        (0, 0, 0),
        (5000, 6000, 70),
    ]
}
