//! The memory of a session: the lent buffers, and the stack of each call, found by running it on a painted one.
use super::markdown::{number, table};
use super::runs::{dense, Buffers};
use super::text;
use crate::formulas;
use crate::header::limits::{CLOSE_WORDS, EARLY_SCRATCH_WORDS, FEED_WORDS, HISTORY_WORDS, MAX_BLOCK, MAX_NODES, MAX_TRACE, SCRATCH_WORDS, SESSION_BYTES, TABLE_BYTES, WAITING_WORDS};
use crate::header::refusals::OK;
use crate::header::whole_words;
use crate::library::{self, Record, SessionBytes, TableBytes};
use crate::model::Table;
use crate::queue::Monitor;
use crate::random::{self, Random};

const STACK: usize = 1 << 20;
const PAINT: u8 = 0xa5;

/// Calls `f` on a stack of its own, which ends at `top`.
#[cfg(target_arch = "x86_64")]
fn on_stack(top: *mut u8, f: &mut dyn FnMut()) {
    extern "C" fn enter(f: *mut &mut dyn FnMut()) {
        unsafe { (*f)() }
    }
    let mut f = f;
    let f: *mut &mut dyn FnMut() = &mut f;
    unsafe {
        std::arch::asm!(
            "mov r12, rsp",
            "mov rsp, {top}",
            "call {enter}",
            "mov rsp, r12",
            top = in(reg) top,
            enter = sym enter,
            in("rdi") f,
            out("r12") _,
            clobber_abi("C"),
        );
    }
}

/// How many bytes of stack `f` uses, on a stack of 1 MiB: those from the lowest that has changed.
#[cfg(target_arch = "x86_64")]
fn stack_of(mut f: impl FnMut()) -> Option<usize> {
    let mut stack = vec![[PAINT; 16]; STACK / 16];
    on_stack(stack.as_mut_ptr_range().end.cast(), &mut f);
    let untouched = stack.as_flattened().iter().take_while(|b| **b == PAINT).count();
    assert!(untouched > 0, "the stack is too small");
    Some(STACK - untouched)
}

#[cfg(not(target_arch = "x86_64"))]
fn stack_of(_: impl FnMut()) -> Option<usize> {
    None
}

/// A session that has seen `seen` states, and its buffers.
fn under_way(table: &TableBytes, seen: usize) -> (SessionBytes, Buffers) {
    let (mut s, mut b) = ([0; SESSION_BYTES], Buffers::default());
    assert_eq!(library::open(table, 0, &mut s), OK);
    for block in dense(seen).chunks(MAX_BLOCK) {
        library::feed(&mut s, block, &mut b.history, &mut b.scratch, &mut b.out);
    }
    (s, b)
}

/// The stacks of the accepted calls over one table.
fn stacks_of(t: &Table) -> [Option<usize>; 10] {
    let (states, bytes) = (dense(MAX_TRACE), t.bytes());
    let book = random::book(&mut Random(1), t);
    let (mut session, mut b) = under_way(&bytes, 5000);
    let (mut ended, mut table, mut opened, mut out) = (session, bytes, session, [0; whole_words(MAX_TRACE)]);
    let mut wide = vec![0; EARLY_SCRATCH_WORDS];
    let (mut list, mut waiting) = ([Record { rule: 0, seen: 5000, waiting: 0 }], [0; WAITING_WORDS]);
    [
        stack_of(|| assert_eq!(library::read(&book, &mut table), (OK, 0))),
        stack_of(|| assert_eq!(library::simplify(&mut table), OK)),
        stack_of(|| assert_eq!(library::open(&bytes, 0, &mut opened), OK)),
        stack_of(|| assert_eq!(library::feed(&mut session, &states[..MAX_BLOCK], &mut b.history, &mut b.scratch, &mut b.out).0, OK)),
        stack_of(|| assert_eq!(library::close(&mut ended, &b.history, &mut b.scratch, &mut b.out).0, OK)),
        stack_of(|| assert_eq!(library::verdicts(&bytes, 0, &states, &mut b.scratch, &mut out), OK)),
        stack_of(|| assert_eq!(library::early(&bytes, 0, &states, 0, &mut wide).0, OK)),
        stack_of(|| assert_eq!(library::leave(&mut list, &bytes, 0, &states[..MAX_BLOCK], &mut waiting), OK)),
        stack_of(|| assert_eq!(library::turn(&mut list, &bytes, 0, &mut b.history, &waiting, &mut b.scratch, &mut b.out) as u32, 256)),
        stack_of(|| assert_eq!(library::close_record(&mut list, &bytes, 0, &b.history, &mut b.scratch, &mut b.out).0, OK)),
    ]
}

/// The largest stack of each function, over the benchmarks' formulas, one of 64 nodes, and windows of the length that splits into most parts.
fn stacks() -> Vec<Vec<String>> {
    let tables = formulas::all().into_iter().map(|f| f.1).chain([formulas::of_nodes(MAX_NODES as u8), formulas::most_parts().1, formulas::until(0, 4084)]);
    let all: Vec<_> = tables.map(|t| stacks_of(&t)).collect();
    let names = [
        "juntreak_read",
        "juntreak_simplify",
        "juntreak_open",
        "juntreak_feed",
        "juntreak_close",
        "juntreak_verdicts",
        "juntreak_early",
        "juntreak_leave",
        "juntreak_turn",
        "juntreak_close_record",
    ];
    let largest = |i: usize| all.iter().map(|x| x[i]).max().unwrap();
    names.iter().enumerate().map(|(i, name)| vec![name.to_string(), measured(largest(i))]).collect()
}

fn measured(stack: Option<usize>) -> String {
    stack.map_or("not measured".into(), bytes)
}

/// The stack of reading each text, whatever is answered.
fn reading_stacks() -> Vec<Vec<String>> {
    let mut table = [0; TABLE_BYTES];
    let mut stack = |text: &str| {
        stack_of(|| {
            library::read_text(text.as_bytes(), &mut table);
        })
    };
    text::deep().iter().map(|(name, text)| vec![name.to_string(), measured(stack(text))]).collect()
}

fn bytes(n: usize) -> String {
    number(n as f64, 0)
}

pub fn run() {
    let lent = [
        ("session", format!("{} bytes", bytes(SESSION_BYTES)), SESSION_BYTES),
        ("history", format!("{} u32", bytes(HISTORY_WORDS)), 4 * HISTORY_WORDS),
        ("scratch", format!("{} u64", bytes(SCRATCH_WORDS)), 8 * SCRATCH_WORDS),
        ("out", format!("{CLOSE_WORDS} u64 (a feed needs {FEED_WORDS})"), 8 * CLOSE_WORDS),
        ("block", format!("{} u32", bytes(MAX_BLOCK)), 4 * MAX_BLOCK),
    ];
    let mut rows: Vec<_> = lent.iter().map(|(name, what, n)| vec![name.to_string(), what.to_string(), bytes(*n)]).collect();
    rows.push(vec!["together".into(), "".into(), bytes(lent.iter().map(|x| x.2).sum())]);
    table("Memory that the caller lends to a session, in bytes:", &["Buffer", "Holds", "Bytes"], &rows);

    table("Stack of one call, in bytes:", &["Function", "Stack"], &stacks());

    table("Stack of juntreak_read_text, in bytes:", &["Text", "Stack"], &reading_stacks());

    let queues = |t, block| bytes(Monitor::new(t, 0, block).queue_bytes());
    let rows: Vec<_> = formulas::all().iter().map(|(name, t)| vec![name.to_string(), queues(t, 1), queues(t, MAX_BLOCK)]).collect();
    table("Queues of the queue-based monitor, in bytes:", &["Formula", "tick by tick", "in blocks"], &rows);
}
