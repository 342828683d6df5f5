//! The status registers, written from document 02's sentences (A10): every session call and every write since the start is kept, and each byte is found by
//! looking through the whole list of them. What a call answers and gives is taken from the model's sessions.
use crate::compared::bits;
use crate::header::limits::{STATUS_BYTES, STATUS_NO, STATUS_READY, STATUS_REFUSED, STATUS_RUNNING};
use crate::header::places::{ENABLE_AT, FIRST_NO_AT, INTERRUPT_AT, REFUSAL_AT, STATUS_AT};
use crate::header::refusals::{OK, PLACE};
use crate::library::{SessionBytes, StatusBytes};
use crate::model::{self, Delay, Width::Wide};

/// The bits of status and of enable.
pub const RUNNING: u8 = STATUS_RUNNING as u8;
pub const READY: u8 = STATUS_READY as u8;
pub const NO: u8 = STATUS_NO as u8;
pub const REFUSED: u8 = STATUS_REFUSED as u8;
pub const BITS: u8 = RUNNING + READY + NO + REFUSED;

#[derive(Clone, Copy, Debug, PartialEq, Eq)]
pub enum Kind {
    Open,
    Widen,
    Feed,
    Close,
    CloseOld,
}

pub const KINDS: [Kind; 5] = [Kind::Open, Kind::Widen, Kind::Feed, Kind::Close, Kind::CloseOld];

impl Kind {
    /// Only the second close still reads the old delay.
    pub fn delay(self) -> Delay {
        if self == Kind::CloseOld {
            Delay::Old
        } else {
            Delay::New
        }
    }
}

/// A session call, and what it came to.
#[derive(Clone, Debug)]
pub struct Outcome {
    pub kind: Kind,
    pub number: u32,
    pub verdicts: Vec<bool>,
    /// The tick of the first of them.
    pub tick: u64,
}

impl Outcome {
    /// Of a call that was made on this session, answered the number and the count, and left this out. The ticks go on from the verdicts given before.
    pub fn of(kind: Kind, before: &SessionBytes, (number, count): (u32, u32), out: &[u64]) -> Outcome {
        Outcome { kind, number, verdicts: bits(out, count), tick: given(kind.delay(), before) }
    }
}

/// How many verdicts a session has given since its open: those of the ticks that lie at least the delay behind the states seen.
pub fn given(delay: Delay, session: &SessionBytes) -> u64 {
    model::session(Wide, delay, session).map_or(0, |s| s.seen.saturating_sub(s.table.rule_delay_under(delay, s.rule as usize) as u64))
}

#[derive(Clone, Debug)]
pub enum Event {
    Call(Outcome),
    Write { place: usize, value: u8 },
}

impl Event {
    fn accepted(&self) -> Option<&Outcome> {
        match self {
            Event::Call(outcome) if outcome.number == OK => Some(outcome),
            _ => None,
        }
    }

    /// The number of a refused call.
    fn refused(&self) -> Option<u8> {
        match self {
            Event::Call(outcome) if outcome.number != OK => Some(outcome.number as u8),
            _ => None,
        }
    }

    /// The tick of the first no that an accepted call gave.
    fn no(&self) -> Option<u64> {
        let outcome = self.accepted()?;
        outcome.verdicts.iter().position(|verdict| !verdict).map(|place| outcome.tick + place as u64)
    }

    /// What an accepted open or close says of bit 0.
    fn running(&self) -> Option<bool> {
        match self.accepted()?.kind {
            Kind::Open => Some(true),
            Kind::Widen | Kind::Feed => None,
            Kind::Close | Kind::CloseOld => Some(false),
        }
    }

    /// What was written to a place.
    fn written(&self, to: usize) -> Option<u8> {
        match self {
            Event::Write { place, value } if *place == to => Some(*value),
            _ => None,
        }
    }

    /// Whether it sets, or clears, one of bits 1 to 3.
    fn sets(&self, bit: u8) -> bool {
        match bit {
            READY => self.accepted().is_some_and(|outcome| !outcome.verdicts.is_empty()),
            NO => self.no().is_some(),
            REFUSED => self.refused().is_some(),
            _ => unreachable!(),
        }
    }

    fn clears(&self, bit: u8) -> bool {
        self.written(STATUS_AT).is_some_and(|value| value & bit != 0)
    }

    /// Whether it makes all bytes anew.
    fn renews(&self) -> bool {
        matches!(self, Event::Call(_) | Event::Write { place: STATUS_AT | ENABLE_AT, .. })
    }

    /// Whether it makes the tick of the first no anew while bit 2 is clear.
    fn renews_tick(&self) -> bool {
        self.accepted().is_some() || self.written(STATUS_AT).is_some()
    }
}

/// The number that a write to a place, or a read, answers.
pub fn number(place: usize) -> u32 {
    if place > 15 {
        PLACE
    } else {
        OK
    }
}

/// All that was done with status registers. They may start with any bytes, which count for what was done before.
#[derive(Clone, Debug)]
pub struct Log {
    start: StatusBytes,
    events: Vec<Event>,
}

impl Log {
    pub fn new(start: StatusBytes) -> Log {
        Log { start, events: vec![] }
    }

    pub fn add(&mut self, event: Event) {
        self.events.push(event);
    }

    /// What the last event that says something says.
    fn last<T>(&self, says: impl Fn(&Event) -> Option<T>) -> Option<T> {
        self.events.iter().rev().find_map(says)
    }

    /// Whether one of bits 1 to 3 is set after the first n events: one of them set it since it was last cleared.
    fn is_set(&self, bit: u8, n: usize) -> bool {
        let events = &self.events[..n];
        let cleared = events.iter().rposition(|event| event.clears(bit));
        let before = cleared.is_none() && self.start[STATUS_AT] & bit != 0;
        before || events[cleared.unwrap_or(0)..].iter().any(|event| event.sets(bit))
    }

    fn status(&self) -> u8 {
        let running = self.last(Event::running).unwrap_or(self.start[STATUS_AT] & RUNNING != 0);
        let set: u8 = [READY, NO, REFUSED].into_iter().filter(|bit| self.is_set(*bit, self.events.len())).sum();
        set + u8::from(running) * RUNNING
    }

    /// The tick of the first no since bit 2 was last clear; 0 while it is clear.
    fn first_no(&self) -> [u8; 8] {
        let start = self.start[FIRST_NO_AT..FIRST_NO_AT + 8].try_into().unwrap();
        let Some(clear) = (0..=self.events.len()).rev().find(|n| !self.is_set(NO, *n)) else { return start };
        match self.events[clear..].iter().find_map(Event::no) {
            Some(tick) => tick.to_le_bytes(),
            None if self.events.iter().any(Event::renews_tick) => [0; 8],
            None => start,
        }
    }

    /// The registers after all events.
    pub fn bytes(&self) -> StatusBytes {
        if !self.events.iter().any(Event::renews) {
            return self.start;
        }
        let mut bytes = [0; STATUS_BYTES];
        bytes[STATUS_AT] = self.status();
        bytes[ENABLE_AT] = self.last(|event| event.written(ENABLE_AT)).unwrap_or(self.start[ENABLE_AT]) & BITS;
        bytes[INTERRUPT_AT] = u8::from((0..4).any(|i| bytes[STATUS_AT] >> i & 1 == 1 && bytes[ENABLE_AT] >> i & 1 == 1));
        bytes[REFUSAL_AT] = self.last(Event::refused).unwrap_or(self.start[REFUSAL_AT]);
        bytes[FIRST_NO_AT..FIRST_NO_AT + 8].copy_from_slice(&self.first_no());
        bytes
    }
}
