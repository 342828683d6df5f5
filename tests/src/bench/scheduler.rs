//! Turns over a list of eight records (A9), beside eight sessions that are fed apart with the same blocks.
use super::clock::{in_turns, Contestant};
use super::markdown::{figure, number, table};
use super::runs::{accepted, dense};
use crate::compared::bits;
use crate::formulas;
use crate::header::limits::{CLOSE_WORDS, HISTORY_WORDS, MAX_BLOCK, MAX_LIST, SCRATCH_WORDS, SESSION_BYTES, WAITING_WORDS};
use crate::header::refusals::OK;
use crate::library::{self, Record, SessionBytes, TableBytes};
use crate::model::Table;
use crate::scheduled::{history_of, Turn};
use std::hint::black_box;

const BLOCKS: usize = 500;
const ROUNDS: usize = 20;
/// The blocks whose verdicts are compared before anything is timed.
const CHECKED: usize = 40;

/// A list with a record for each rule of a table.
struct List {
    table: TableBytes,
    records: Vec<Record>,
    history: Vec<u32>,
    waiting: Vec<u32>,
    scratch: Vec<u64>,
    out: Vec<u64>,
    place: usize,
}

impl List {
    fn new(table: &TableBytes) -> List {
        List {
            table: *table,
            records: (0..MAX_LIST as u64).map(|rule| Record { rule, seen: 0, waiting: 0 }).collect(),
            history: vec![0; MAX_LIST * HISTORY_WORDS],
            waiting: vec![0; MAX_LIST * WAITING_WORDS],
            scratch: vec![0; SCRATCH_WORDS],
            out: vec![0; CLOSE_WORDS],
            place: MAX_LIST,
        }
    }

    fn leave(&mut self, who: &[usize], block: &[u32]) {
        who.iter().for_each(|i| assert_eq!(library::leave(&mut self.records, &self.table, *i, block, &mut self.waiting), OK));
    }

    /// The record that was served, and the count of its verdicts.
    fn turn(&mut self) -> (usize, u32) {
        let turn = library::turn(&mut self.records, &self.table, self.place, &mut self.history, &self.waiting, &mut self.scratch, &mut self.out);
        let turn = Turn::of(turn).expect("no answer of a turn");
        self.place = turn.served.expect("nobody was served");
        (self.place, turn.count)
    }

    fn close(&mut self, i: usize) -> u32 {
        accepted(library::close_record(&mut self.records, &self.table, i, &self.history, &mut self.scratch, &mut self.out))
    }
}

/// A session for each rule, with scratch and out for all, as the list has.
struct Apart {
    sessions: Vec<SessionBytes>,
    history: Vec<u32>,
    scratch: Vec<u64>,
    out: Vec<u64>,
}

impl Apart {
    fn new(table: &TableBytes) -> Apart {
        let opened = |rule| {
            let mut s = [0; SESSION_BYTES];
            accepted((library::open(table, rule, &mut s), s))
        };
        let sessions = (0..MAX_LIST as u32).map(opened).collect();
        Apart { sessions, history: vec![0; MAX_LIST * HISTORY_WORDS], scratch: vec![0; SCRATCH_WORDS], out: vec![0; CLOSE_WORDS] }
    }

    fn feed(&mut self, i: usize, block: &[u32]) -> u32 {
        accepted(library::feed(&mut self.sessions[i], block, &mut self.history[history_of(i)], &mut self.scratch, &mut self.out))
    }

    fn close(&mut self, i: usize) -> u32 {
        accepted(library::close(&mut self.sessions[i], &self.history[history_of(i)], &mut self.scratch, &mut self.out))
    }
}

/// Every record in turn gives the verdicts of its session, and these are those of the whole trace.
fn check(t: &Table, states: &[u32]) {
    let (bytes, all) = (t.bytes(), Vec::from_iter(0..MAX_LIST));
    let (mut list, mut apart) = (List::new(&bytes), Apart::new(&bytes));
    let (mut by_turns, mut by_feeds) = (vec![vec![]; MAX_LIST], vec![vec![]; MAX_LIST]);
    for block in states.chunks(MAX_BLOCK) {
        list.leave(&all, block);
        for i in 0..MAX_LIST {
            let (served, count) = list.turn();
            assert_eq!(served, i);
            by_turns[i].extend(bits(&list.out, count));
            let count = apart.feed(i, block);
            by_feeds[i].extend(bits(&apart.out, count));
        }
    }
    for i in 0..MAX_LIST {
        let (count, by_session) = (list.close(i), apart.close(i));
        by_turns[i].extend(bits(&list.out, count));
        by_feeds[i].extend(bits(&apart.out, by_session));
        assert!(by_turns[i] == by_feeds[i] && by_turns[i] == t.rule_verdicts(i, states), "rule {i}");
    }
}

/// Blocks for these rules, to a list whose records have as many states as they keep. Leaving the blocks counts, or not.
fn turns<'a>(bytes: &TableBytes, who: &'a [usize], states: &'a [u32], leaving: bool) -> Contestant<'a> {
    let mut list = List::new(bytes);
    for block in dense(HISTORY_WORDS).chunks(MAX_BLOCK) {
        list.leave(who, block);
        for _ in who {
            list.turn();
        }
    }
    Box::new(move |laps| {
        for block in black_box(states).chunks(MAX_BLOCK) {
            list.leave(who, block);
            if !leaving {
                laps.anew();
            }
            for _ in who {
                black_box(list.turn());
            }
            laps.lap();
        }
    })
}

/// The same blocks to the sessions of these rules.
fn feeds<'a>(bytes: &TableBytes, who: &'a [usize], states: &'a [u32]) -> Contestant<'a> {
    let mut apart = Apart::new(bytes);
    for block in dense(HISTORY_WORDS).chunks(MAX_BLOCK) {
        for i in who {
            apart.feed(*i, block);
        }
    }
    Box::new(move |laps| {
        for block in black_box(states).chunks(MAX_BLOCK) {
            for i in who {
                black_box(apart.feed(*i, block));
            }
            laps.lap();
        }
    })
}

fn row(name: &str, t: &Table, who: &[usize], states: &[u32]) -> Vec<String> {
    let bytes = t.bytes();
    let contestants = [feeds(&bytes, who, states), turns(&bytes, who, states, false), turns(&bytes, who, states, true)];
    let [feed, turn, both] = in_turns(ROUNDS, contestants).map(|time| time / (BLOCKS * who.len()) as f64 * 1e9);
    vec![name.into(), figure(feed), figure(turn), number(turn / feed, 2), figure(both), number(both / feed, 2)]
}

pub fn run() {
    let (names, t) = formulas::eight();
    let states = dense(BLOCKS * MAX_BLOCK);
    check(&t, &states[..CHECKED * MAX_BLOCK]);
    let mut rows: Vec<_> = names.iter().enumerate().map(|(i, name)| row(name, &t, &[i], &states)).collect();
    rows.push(row("all eight, in turn", &t, &Vec::from_iter(0..MAX_LIST), &states));
    let head = ["Rule", "feed", "turn", "turn / feed", "leave and turn", "leave and turn / feed"];
    table("Blocks of 1,024 states in a list of eight records over one table, beside sessions of the same rules, ns for each block:", &head, &rows);
}
