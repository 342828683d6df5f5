//! Calls of the library on lists of records beside the model's, the whole list and every buffer compared, and what these calls are made with.
use crate::header::limits::{HISTORY_WORDS, MAX_BLOCK, SCRATCH_WORDS, WAITING_WORDS};
use crate::header::refusals::{BUFFER, LIST, OK, SEEN, STATES, UNSOUND, WAITING};
use crate::header::NUMBERS;
use crate::library::{self, Record, TableBytes};
use crate::random::{any_count, short_words, Random};
use crate::scheduled::{self, Turn};
use crate::{only_read, same};
use std::fmt::Debug;
use std::ops::{Deref, DerefMut};

// ---- what is lent

/// What a buffer holds before a call.
pub trait Dirt: Copy + PartialEq + Debug {
    fn dirt(r: &mut Random) -> Self;
}

impl Dirt for u8 {
    fn dirt(r: &mut Random) -> u8 {
        r.next() as u8
    }
}

impl Dirt for u32 {
    fn dirt(r: &mut Random) -> u32 {
        r.next() as u32
    }
}

impl Dirt for u64 {
    fn dirt(r: &mut Random) -> u64 {
        r.next()
    }
}

impl Dirt for Record {
    fn dirt(r: &mut Random) -> Record {
        Record { rule: r.next(), seen: r.next(), waiting: r.next() }
    }
}

/// A buffer between words that are not lent.
#[derive(Clone)]
pub struct Lent<T>(pub Vec<T>);

pub const AROUND: usize = 3;

impl<T: Dirt> Lent<T> {
    pub fn of(r: &mut Random, n: usize) -> Lent<T> {
        Lent((0..AROUND + n + AROUND).map(|_| T::dirt(r)).collect())
    }

    pub fn holding(r: &mut Random, xs: &[T]) -> Lent<T> {
        let mut lent = Lent::of(r, xs.len());
        lent.copy_from_slice(xs);
        lent
    }
}

impl<T> Deref for Lent<T> {
    type Target = [T];
    fn deref(&self) -> &[T] {
        &self.0[AROUND..self.0.len() - AROUND]
    }
}

impl<T> DerefMut for Lent<T> {
    fn deref_mut(&mut self) -> &mut [T] {
        let end = self.0.len() - AROUND;
        &mut self.0[AROUND..end]
    }
}

/// What lasts from call to call.
#[derive(Clone)]
pub struct Memory {
    pub records: Lent<Record>,
    pub history: Lent<u32>,
    pub waiting: Lent<u32>,
}

impl Memory {
    /// The list, and buffers of dirt of these lengths.
    pub fn of(r: &mut Random, records: &[Record], history: usize, waiting: usize) -> Memory {
        Memory { records: Lent::holding(r, records), history: Lent::of(r, history), waiting: Lent::of(r, waiting) }
    }

    /// The same with buffers that are long enough.
    pub fn around(r: &mut Random, records: &[Record]) -> Memory {
        let (n, more) = (records.len(), r.below(3) as usize);
        Memory::of(r, records, HISTORY_WORDS * n + more, WAITING_WORDS * n + more)
    }

    pub fn same(&self, want: &Memory) {
        same("list, from -3 on", &self.records.0, &want.records.0);
        same("history, from -3 on", &self.history.0, &want.history.0);
        same("waiting, from -3 on", &self.waiting.0, &want.waiting.0);
    }
}

/// What a call gets to write beside it.
#[derive(Clone)]
pub struct Work {
    pub scratch: Lent<u64>,
    pub out: Lent<u64>,
}

impl Work {
    pub fn of(r: &mut Random, scratch: usize, out: usize) -> Work {
        Work { scratch: Lent::of(r, scratch), out: Lent::of(r, out) }
    }

    /// Long enough for a call that needs so many words of out.
    pub fn around(r: &mut Random, out: usize) -> Work {
        let more = r.below(3) as usize;
        Work::of(r, SCRATCH_WORDS + more, out + more)
    }

    pub fn same(&self, want: &Work) {
        same("scratch, from -3 on", &self.scratch.0, &want.scratch.0);
        same("out, from -3 on", &self.out.0, &want.out.0);
    }
}

// ---- calls beside the model's, the whole list and every buffer compared

pub fn leave(m: &mut Memory, table: &TableBytes, place: usize, block: &[u32]) -> u32 {
    let (before, mut want) = (m.clone(), m.clone());
    let number = scheduled::leave(&mut want.records, table, place, block, &mut want.waiting);
    let call = |table: &[u8]| only_read("block", block, |block| library::leave(&mut m.records, table.try_into().unwrap(), place, block, &mut m.waiting));
    assert_eq!(only_read("table", table, call), number);
    m.same(if number == OK { &want } else { &before });
    number
}

pub fn turn(m: &mut Memory, table: &TableBytes, place: usize, w: &mut Work) -> Turn {
    let (before, mut want, work_before, mut work) = (m.clone(), m.clone(), w.clone(), w.clone());
    let turn = scheduled::turn(&mut want.records, table, place, &mut want.history, &want.waiting, &mut work.scratch, &mut work.out);
    let call = |table: &[u8]| {
        only_read("waiting", &m.waiting, |waiting| {
            library::turn(&mut m.records, table.try_into().unwrap(), place, &mut m.history, waiting, &mut w.scratch, &mut w.out)
        })
    };
    let answer = only_read("table", table, call);
    assert_eq!(answer, turn.answer(), "{:?} instead of {turn:?}", Turn::of(answer));
    let (want, work) = if turn.number == OK { (want, work) } else { (before, work_before) };
    m.same(&want);
    w.same(&work);
    turn
}

pub fn close_record(m: &mut Memory, table: &TableBytes, place: usize, w: &mut Work) -> (u32, u32) {
    let (before, mut want, work_before, mut work) = (m.clone(), m.clone(), w.clone(), w.clone());
    let wanted = scheduled::close_record(&mut want.records, table, place, &want.history, &mut work.scratch, &mut work.out);
    let call = |table: &[u8]| {
        only_read("history", &m.history, |history| library::close_record(&mut m.records, table.try_into().unwrap(), place, history, &mut w.scratch, &mut w.out))
    };
    assert_eq!(only_read("table", table, call), wanted);
    let (want, work) = if wanted.0 == OK { (want, work) } else { (before, work_before) };
    m.same(&want);
    w.same(&work);
    wanted
}

#[derive(Clone, Copy, PartialEq)]
pub enum Call {
    Leave,
    Turn,
    Close,
}

pub const CALLS: [Call; 3] = [Call::Leave, Call::Turn, Call::Close];

/// The number that a call answers.
pub fn number(r: &mut Random, call: Call, m: &mut Memory, table: &TableBytes, place: usize, k: usize, mut w: Work) -> u32 {
    match call {
        Call::Leave => {
            let block = short_words(r, k);
            leave(m, table, place, &block)
        }
        Call::Turn => turn(m, table, place, &mut w).number,
        Call::Close => close_record(m, table, place, &mut w).0,
    }
}

/// How often each call gave each number.
pub struct Counts([[u32; NUMBERS]; 3]);

impl Counts {
    pub fn none() -> Counts {
        Counts([[0; NUMBERS]; 3])
    }

    pub fn add(&mut self, call: Call, number: u32) {
        self.0[call as usize][number as usize] += 1;
    }

    /// Fails where one of a call's numbers was given fewer times.
    pub fn enough(&self, times: u32) {
        for (call, numbers) in [
            (Call::Leave, &[OK, UNSOUND, STATES, BUFFER, LIST, WAITING, SEEN][..]),
            (Call::Turn, &[OK, UNSOUND, BUFFER, LIST, SEEN]),
            (Call::Close, &[OK, UNSOUND, BUFFER, LIST, WAITING]),
        ] {
            let given = &self.0[call as usize];
            assert!(numbers.iter().all(|number| given[*number as usize] >= times), "call {}: {given:?}", call as usize);
            assert!((0..NUMBERS as u32).all(|number| numbers.contains(&number) || given[number as usize] == 0), "call {}: {given:?}", call as usize);
        }
    }
}

// ---- lists

/// A record with a rule number, a count and a number of waiting states that may be too large.
pub fn wild(r: &mut Random, rules: usize) -> Record {
    let (rules, most) = (rules as u64, MAX_BLOCK as u64);
    let fit = r.below(rules);
    Record {
        rule: if r.chance(6) { r.pick(&[rules, rules + 1, 8, 256 + fit, (1 << 32) + fit, (1 << 63) + fit, u64::MAX]) } else { fit },
        seen: any_count(r),
        waiting: match r.below(12) {
            0 => r.pick(&[most + 1, most + 2, 2 * most, 65536, 1 << 32, (1 << 32) + 1, u64::MAX]),
            1..=5 => 0,
            _ => r.pick(&[1, most, 1 + r.0 % most]),
        },
    }
}

/// A list of records that fit a table, any of which may wait or have seen nearly all that it can.
pub fn any_list(r: &mut Random, n: usize, rules: usize) -> Vec<Record> {
    let fit = |x: &Record| x.rule < rules as u64 && x.waiting <= MAX_BLOCK as u64;
    (0..n)
        .map(|_| loop {
            let record = wild(r, rules);
            if fit(&record) {
                return record;
            }
        })
        .collect()
}
