//! Several rules over one table, written from document 02's sentences (A9): a list of records over one table, blocks that are left, turns and closes. Each
//! record is run as a session of its own, on the model's sessions.
use crate::compared::seen_in;
use crate::header::limits::{CLOSE_WORDS, FEED_WORDS, HISTORY_WORDS, MAX_BLOCK, MAX_LIST, SCRATCH_WORDS, WAITING_WORDS};
use crate::header::refusals::{BUFFER, LIST, OK, SEEN, STATES, UNSOUND, WAITING};
use crate::library::{Record, SessionBytes, TableBytes};
use crate::model::{self, sound, Delay::New, Session, Table, Width::Wide};
use std::ops::Range;

/// What a turn answers.
#[derive(Clone, Copy, Debug, PartialEq, Eq)]
pub struct Turn {
    pub number: u32,
    /// The place of the record that was served.
    pub served: Option<usize>,
    pub count: u32,
}

impl Turn {
    /// A turn that served nobody: it was refused, or nobody waits.
    fn without(number: u32) -> Turn {
        Turn { number, served: None, count: 0 }
    }

    /// The answer of the C interface.
    pub fn answer(&self) -> u64 {
        let place = self.served.map_or(0, |place| 256 + 65536 * place as u64);
        self.number as u64 + place + ((self.count as u64) << 32)
    }

    /// What a whole answer says, if a turn can give it.
    pub fn of(answer: u64) -> Option<Turn> {
        let place = (answer >> 16 & 65535) as usize;
        let turn = Turn { number: (answer & 255) as u32, served: (answer >> 8 & 255 == 1).then_some(place), count: (answer >> 32) as u32 };
        (turn.answer() == answer).then_some(turn)
    }

    /// The place that comes back from a turn which was given a place.
    pub fn place(&self, given: usize) -> usize {
        self.served.unwrap_or(given)
    }
}

/// The words of history of the record at a place, and its words of the waiting buffer.
pub fn history_of(place: usize) -> Range<usize> {
    HISTORY_WORDS * place..HISTORY_WORDS * (place + 1)
}

pub fn waiting_of(place: usize) -> Range<usize> {
    WAITING_WORDS * place..WAITING_WORDS * (place + 1)
}

/// The block that waits with a record.
pub fn block_of<'a>(records: &[Record], place: usize, waiting: &'a [u32]) -> &'a [u32] {
    &waiting[waiting_of(place)][..records[place].waiting as usize]
}

/// The first waiting record after the one served last, wrapping round; after a place outside the list the search begins at 0.
pub fn next(records: &[Record], last: usize) -> Option<usize> {
    let after = if last < records.len() { last + 1 } else { 0 };
    (after..records.len()).chain(0..after).find(|place| records[*place].waiting > 0)
}

/// The table, if it is sound and no record has a rule number that is too high or over 1,024 states waiting.
fn fit(records: &[Record], table: &TableBytes) -> Option<Table> {
    let t = sound(table)?;
    records.iter().all(|r| r.rule < t.rules.len() as u64 && r.waiting <= MAX_BLOCK as u64).then_some(t)
}

/// Whether a buffer has fewer than so many words for each record.
fn short(buffer: &[u32], words: usize, records: &[Record]) -> bool {
    buffer.len() < words * records.len()
}

/// The session that a record stands for.
fn session_of(table: Table, record: &Record) -> SessionBytes {
    Session { table, rule: record.rule as u32, seen: record.seen }.bytes()
}

/// The number of leaving a block, and the list and the waiting states after it.
pub fn leave(records: &mut [Record], table: &TableBytes, place: usize, block: &[u32], waiting: &mut [u32]) -> u32 {
    if fit(records, table).is_none() {
        return UNSOUND;
    }
    if block.len() > MAX_BLOCK {
        return STATES;
    }
    if short(waiting, WAITING_WORDS, records) {
        return BUFFER;
    }
    if block.is_empty() || place >= records.len() || records.len() > MAX_LIST {
        return LIST;
    }
    let record = &mut records[place];
    if record.waiting > 0 {
        return WAITING;
    }
    if record.seen.checked_add(block.len() as u64).is_none() {
        return SEEN;
    }
    waiting[waiting_of(place)][..block.len()].copy_from_slice(block);
    record.waiting = block.len() as u64;
    OK
}

/// What a turn answers, and the list and the buffers after it.
pub fn turn(records: &mut [Record], table: &TableBytes, place: usize, history: &mut [u32], waiting: &[u32], scratch: &mut [u64], out: &mut [u64]) -> Turn {
    let Some(t) = fit(records, table) else { return Turn::without(UNSOUND) };
    if short(history, HISTORY_WORDS, records) || short(waiting, WAITING_WORDS, records) || scratch.len() < SCRATCH_WORDS || out.len() < FEED_WORDS {
        return Turn::without(BUFFER);
    }
    if records.len() > MAX_LIST {
        return Turn::without(LIST);
    }
    let Some(served) = next(records, place) else {
        scratch[..SCRATCH_WORDS].fill(0);
        return Turn::without(OK);
    };
    let mut session = session_of(t, &records[served]);
    let (number, count) = model::feed(Wide, New, &mut session, block_of(records, served, waiting), &mut history[history_of(served)], scratch, out);
    if number != OK {
        // Of a feed's refusals only one is left.
        assert_eq!(number, SEEN);
        return Turn::without(SEEN);
    }
    records[served] = Record { seen: seen_in(&session), waiting: 0, ..records[served] };
    Turn { number: OK, served: Some(served), count }
}

/// The number and the count of a close, and the list and the buffers after it.
pub fn close_record(records: &mut [Record], table: &TableBytes, place: usize, history: &[u32], scratch: &mut [u64], out: &mut [u64]) -> (u32, u32) {
    let Some(t) = fit(records, table) else { return (UNSOUND, 0) };
    if short(history, HISTORY_WORDS, records) || scratch.len() < SCRATCH_WORDS || out.len() < CLOSE_WORDS {
        return (BUFFER, 0);
    }
    if place >= records.len() || records.len() > MAX_LIST {
        return (LIST, 0);
    }
    if records[place].waiting > 0 {
        return (WAITING, 0);
    }
    let mut session = session_of(t, &records[place]);
    let (number, count) = model::close(Wide, New, &mut session, &history[history_of(place)], scratch, out);
    assert_eq!(number, OK);
    records[place].seen = seen_in(&session);
    (OK, count)
}
