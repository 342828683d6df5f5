//! The library beside itself as it was: `tools/before` links its archive of an earlier commit under names that begin with before_.
use super::clock::in_turns;
use super::columns;
use super::markdown::{number, table};
use super::runs::{accepted, dense, feeds, Buffers, Proved, Sessions};
use super::whole::{self, calls, CALLS};
use crate::formulas;
use crate::header::limits::{MAX_BLOCK, MAX_TRACE, SESSION_BYTES};
use crate::library::{self, SessionBytes, TableBytes};
use crate::model::Table;

const FEEDS: usize = 200;
const ROUNDS: usize = 15;

mod raw {
    use super::{SessionBytes, TableBytes};

    extern "C" {
        pub fn before_juntreak_open(table: *const TableBytes, rule: u32, session: *mut SessionBytes) -> u32;
        pub fn before_juntreak_feed(session: *mut SessionBytes, block: *const u32, k: usize, history: *mut u32, h: usize, scratch: *mut u64, x: usize, out: *mut u64, o: usize) -> u64;
        pub fn before_juntreak_close(session: *mut SessionBytes, history: *const u32, h: usize, scratch: *mut u64, x: usize, out: *mut u64, o: usize) -> u64;
        pub fn before_juntreak_verdicts(table: *const TableBytes, rule: u32, states: *const u32, n: usize, scratch: *mut u64, x: usize, out: *mut u64, o: usize) -> u32;
    }
}

/// The library as it was.
pub struct Earlier;

impl Sessions for Earlier {
    fn open(table: &TableBytes) -> SessionBytes {
        let mut s = [0; SESSION_BYTES];
        accepted((unsafe { raw::before_juntreak_open(table, 0, &mut s) }, s))
    }
    fn feed(s: &mut SessionBytes, block: &[u32], b: &mut Buffers) -> u32 {
        let (h, x, o) = (b.history.len(), b.scratch.len(), b.out.len());
        let r = unsafe { raw::before_juntreak_feed(s, block.as_ptr(), block.len(), b.history.as_mut_ptr(), h, b.scratch.as_mut_ptr(), x, b.out.as_mut_ptr(), o) };
        accepted(library::counted(r))
    }
    fn close(s: &mut SessionBytes, b: &mut Buffers) -> u32 {
        let (h, x, o) = (b.history.len(), b.scratch.len(), b.out.len());
        accepted(library::counted(unsafe { raw::before_juntreak_close(s, b.history.as_ptr(), h, b.scratch.as_mut_ptr(), x, b.out.as_mut_ptr(), o) }))
    }
}

fn verdicts(table: &TableBytes, rule: u32, states: &[u32], scratch: &mut [u64], out: &mut [u64]) -> u32 {
    unsafe { raw::before_juntreak_verdicts(table, rule, states.as_ptr(), states.len(), scratch.as_mut_ptr(), scratch.len(), out.as_mut_ptr(), out.len()) }
}

/// Nanoseconds of a feed and of a call on a whole trace, each with that of the library as it was, and the ratio.
fn row(name: String, t: &Table, states: &[u32]) -> Vec<String> {
    let bytes = t.bytes();
    let cells = |[now, before]: [f64; 2]| [number(now, 0), number(before, 0), number(now / before, 2)];
    let feeds = in_turns(ROUNDS, [feeds::<Proved>(&bytes, states), feeds::<Earlier>(&bytes, states)]).map(|time| time / FEEDS as f64 * 1e9);
    let whole = in_turns(300, [library::verdicts, verdicts].map(|f: whole::Verdicts| calls(f, bytes, &states[..MAX_TRACE]))).map(|time| time / CALLS as f64 * 1e9);
    [vec![name], cells(feeds).to_vec(), cells(whole).to_vec()].concat()
}

pub fn run() {
    let states = dense(FEEDS * MAX_BLOCK);
    let mut rows: Vec<_> = [2, 4, 8, 16, 32, 64].map(|n| row(format!("{n} nodes"), &formulas::of_nodes(n), &states)).to_vec();
    rows.extend(formulas::all().into_iter().chain([formulas::most_parts()]).map(|(name, t)| row(name.into(), &t, &states)));
    let head = ["Formula", "feed", "as it was", "ratio", "whole trace", "as it was", "ratio"];
    table("A feed of 1,024 states and a call on a whole trace of 5,120, in ns, beside the library as it was:", &head, &rows);
    columns::run::<Proved, Earlier>();
}
