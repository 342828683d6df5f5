//! Safe wrappers of the exported functions; include/juntreak.h declares the same.
use crate::header::limits::{MAX_PARTS, NARROW_BYTES, SESSION_BYTES, STATUS_BYTES, TABLE_BYTES};

pub type TableBytes = [u8; TABLE_BYTES];
pub type SessionBytes = [u8; SESSION_BYTES];
pub type NarrowBytes = [u8; NARROW_BYTES];
pub type StatusBytes = [u8; STATUS_BYTES];
pub type Parts = [u8; MAX_PARTS];

/// A record of a list.
#[repr(C)]
#[derive(Clone, Copy, Debug, Default, PartialEq, Eq)]
pub struct Record {
    pub rule: u64,
    pub seen: u64,
    pub waiting: u64,
}

mod raw {
    use super::{NarrowBytes, Parts, Record, SessionBytes, StatusBytes, TableBytes};

    extern "C" {
        pub fn juntreak_check_book(book: *const u8, n: usize) -> u32;
        pub fn juntreak_read(book: *const u8, n: usize, table: *mut TableBytes) -> u32;
        pub fn juntreak_read_text(text: *const u8, n: usize, table: *mut TableBytes) -> u64;
        pub fn juntreak_write(table: *const TableBytes, out: *mut u8, n: usize) -> u32;
        pub fn juntreak_delay(table: *const TableBytes, rule: u32) -> u32;
        pub fn juntreak_split(lo: u16, hi: u16, parts: *mut Parts) -> u32;
        pub fn juntreak_moves(lo: u16, hi: u16) -> u64;
        pub fn juntreak_verdicts(table: *const TableBytes, rule: u32, states: *const u32, n: usize, scratch: *mut u64, x: usize, out: *mut u64, o: usize) -> u32;
        pub fn juntreak_early(table: *const TableBytes, rule: u32, states: *const u32, n: usize, tick: usize, scratch: *mut u64, x: usize) -> u32;
        pub fn juntreak_reach(table: *const TableBytes, rule: u32, length: u64, tick: u64, range: *mut [u64; 2]) -> u32;
        pub fn juntreak_simplify(table: *mut TableBytes) -> u32;
        pub fn juntreak_open(table: *const TableBytes, rule: u32, session: *mut SessionBytes) -> u32;
        pub fn juntreak_widen(narrow: *const NarrowBytes, session: *mut SessionBytes) -> u32;
        pub fn juntreak_feed(session: *mut SessionBytes, block: *const u32, k: usize, history: *mut u32, h: usize, scratch: *mut u64, x: usize, out: *mut u64, o: usize) -> u64;
        pub fn juntreak_close(session: *mut SessionBytes, history: *const u32, h: usize, scratch: *mut u64, x: usize, out: *mut u64, o: usize) -> u64;
        pub fn juntreak_close_old(session: *mut SessionBytes, history: *const u32, h: usize, scratch: *mut u64, x: usize, out: *mut u64, o: usize) -> u64;
        pub fn juntreak_open_noted(registers: *mut StatusBytes, table: *const TableBytes, rule: u32, session: *mut SessionBytes) -> u32;
        pub fn juntreak_widen_noted(registers: *mut StatusBytes, narrow: *const NarrowBytes, session: *mut SessionBytes) -> u32;
        pub fn juntreak_feed_noted(registers: *mut StatusBytes, session: *mut SessionBytes, block: *const u32, k: usize, history: *mut u32, h: usize, scratch: *mut u64, x: usize, out: *mut u64, o: usize) -> u64;
        pub fn juntreak_close_noted(registers: *mut StatusBytes, session: *mut SessionBytes, history: *const u32, h: usize, scratch: *mut u64, x: usize, out: *mut u64, o: usize) -> u64;
        pub fn juntreak_close_old_noted(registers: *mut StatusBytes, session: *mut SessionBytes, history: *const u32, h: usize, scratch: *mut u64, x: usize, out: *mut u64, o: usize) -> u64;
        pub fn juntreak_register_write(registers: *mut StatusBytes, place: usize, value: u8) -> u32;
        pub fn juntreak_register_read(registers: *const StatusBytes, place: usize) -> u32;
        pub fn juntreak_leave(records: *mut Record, n: usize, table: *const TableBytes, place: usize, block: *const u32, k: usize, waiting: *mut u32, w: usize) -> u32;
        pub fn juntreak_turn(records: *mut Record, n: usize, table: *const TableBytes, place: usize, history: *mut u32, h: usize, waiting: *const u32, w: usize, scratch: *mut u64, x: usize, out: *mut u64, o: usize) -> u64;
        pub fn juntreak_close_record(records: *mut Record, n: usize, table: *const TableBytes, place: usize, history: *const u32, h: usize, scratch: *mut u64, x: usize, out: *mut u64, o: usize) -> u64;
    }
}

pub fn check_book(book: &[u8]) -> u32 {
    unsafe { raw::juntreak_check_book(book.as_ptr(), book.len()) }
}

/// The number and the record.
pub fn read(book: &[u8], table: &mut TableBytes) -> (u32, u8) {
    let r = unsafe { raw::juntreak_read(book.as_ptr(), book.len(), table) };
    assert!(r < 65536);
    (r % 256, (r / 256) as u8)
}

/// The number, and the place or the line.
pub fn read_text(text: &[u8], table: &mut TableBytes) -> (u32, usize) {
    let r = unsafe { raw::juntreak_read_text(text.as_ptr(), text.len(), table) };
    ((r % 256) as u32, (r / 256) as usize)
}

/// The number and the length.
pub fn write(table: &TableBytes, out: &mut [u8]) -> (u32, usize) {
    let r = unsafe { raw::juntreak_write(table, out.as_mut_ptr(), out.len()) };
    (r % 65536, (r / 65536) as usize)
}

/// The number and the delay.
pub fn delay(table: &TableBytes, rule: u32) -> (u32, u32) {
    let r = unsafe { raw::juntreak_delay(table, rule) };
    (r % 65536, r / 65536)
}

/// The number and the count.
pub fn split(lo: u16, hi: u16, parts: &mut Parts) -> (u32, usize) {
    let r = unsafe { raw::juntreak_split(lo, hi, parts) };
    (r % 256, (r / 256) as usize)
}

/// The whole answer: number + 256 × exponent + 65536 × count + 2^32 × leftover.
pub fn moves(lo: u16, hi: u16) -> u64 {
    unsafe { raw::juntreak_moves(lo, hi) }
}

/// The number.
pub fn verdicts(table: &TableBytes, rule: u32, states: &[u32], scratch: &mut [u64], out: &mut [u64]) -> u32 {
    unsafe { raw::juntreak_verdicts(table, rule, states.as_ptr(), states.len(), scratch.as_mut_ptr(), scratch.len(), out.as_mut_ptr(), out.len()) }
}

/// The number and the value.
pub fn early(table: &TableBytes, rule: u32, states: &[u32], tick: usize, scratch: &mut [u64]) -> (u32, u32) {
    let r = unsafe { raw::juntreak_early(table, rule, states.as_ptr(), states.len(), tick, scratch.as_mut_ptr(), scratch.len()) };
    (r % 256, r / 256)
}

/// The whole answer: number + 256 if there is a range.
pub fn reach(table: &TableBytes, rule: u32, length: u64, tick: u64, range: &mut [u64; 2]) -> u32 {
    unsafe { raw::juntreak_reach(table, rule, length, tick, range) }
}

/// The number.
pub fn simplify(table: &mut TableBytes) -> u32 {
    unsafe { raw::juntreak_simplify(table) }
}

/// The number.
pub fn open(table: &TableBytes, rule: u32, session: &mut SessionBytes) -> u32 {
    unsafe { raw::juntreak_open(table, rule, session) }
}

/// The number.
pub fn widen(narrow: &NarrowBytes, session: &mut SessionBytes) -> u32 {
    unsafe { raw::juntreak_widen(narrow, session) }
}

/// The number and the count in the answer of a feed or a close.
pub fn counted(r: u64) -> (u32, u32) {
    (r as u32, (r >> 32) as u32)
}

/// The number and the count.
pub fn feed(session: &mut SessionBytes, block: &[u32], history: &mut [u32], scratch: &mut [u64], out: &mut [u64]) -> (u32, u32) {
    let r = unsafe {
        raw::juntreak_feed(session, block.as_ptr(), block.len(), history.as_mut_ptr(), history.len(), scratch.as_mut_ptr(), scratch.len(), out.as_mut_ptr(), out.len())
    };
    counted(r)
}

/// The number and the count.
pub fn close(session: &mut SessionBytes, history: &[u32], scratch: &mut [u64], out: &mut [u64]) -> (u32, u32) {
    let r = unsafe { raw::juntreak_close(session, history.as_ptr(), history.len(), scratch.as_mut_ptr(), scratch.len(), out.as_mut_ptr(), out.len()) };
    counted(r)
}

/// The number and the count.
pub fn close_old(session: &mut SessionBytes, history: &[u32], scratch: &mut [u64], out: &mut [u64]) -> (u32, u32) {
    let r = unsafe { raw::juntreak_close_old(session, history.as_ptr(), history.len(), scratch.as_mut_ptr(), scratch.len(), out.as_mut_ptr(), out.len()) };
    counted(r)
}

/// The number.
pub fn open_noted(registers: &mut StatusBytes, table: &TableBytes, rule: u32, session: &mut SessionBytes) -> u32 {
    unsafe { raw::juntreak_open_noted(registers, table, rule, session) }
}

/// The number.
pub fn widen_noted(registers: &mut StatusBytes, narrow: &NarrowBytes, session: &mut SessionBytes) -> u32 {
    unsafe { raw::juntreak_widen_noted(registers, narrow, session) }
}

/// The number and the count.
pub fn feed_noted(registers: &mut StatusBytes, session: &mut SessionBytes, block: &[u32], history: &mut [u32], scratch: &mut [u64], out: &mut [u64]) -> (u32, u32) {
    let (k, h, x, o) = (block.len(), history.len(), scratch.len(), out.len());
    let r = unsafe { raw::juntreak_feed_noted(registers, session, block.as_ptr(), k, history.as_mut_ptr(), h, scratch.as_mut_ptr(), x, out.as_mut_ptr(), o) };
    counted(r)
}

/// The number and the count.
pub fn close_noted(registers: &mut StatusBytes, session: &mut SessionBytes, history: &[u32], scratch: &mut [u64], out: &mut [u64]) -> (u32, u32) {
    let (h, x, o) = (history.len(), scratch.len(), out.len());
    let r = unsafe { raw::juntreak_close_noted(registers, session, history.as_ptr(), h, scratch.as_mut_ptr(), x, out.as_mut_ptr(), o) };
    counted(r)
}

/// The number and the count.
pub fn close_old_noted(registers: &mut StatusBytes, session: &mut SessionBytes, history: &[u32], scratch: &mut [u64], out: &mut [u64]) -> (u32, u32) {
    let (h, x, o) = (history.len(), scratch.len(), out.len());
    let r = unsafe { raw::juntreak_close_old_noted(registers, session, history.as_ptr(), h, scratch.as_mut_ptr(), x, out.as_mut_ptr(), o) };
    counted(r)
}

/// The number.
pub fn register_write(registers: &mut StatusBytes, place: usize, value: u8) -> u32 {
    unsafe { raw::juntreak_register_write(registers, place, value) }
}

/// The whole answer: number + 256 × byte.
pub fn register_read(registers: &StatusBytes, place: usize) -> u32 {
    unsafe { raw::juntreak_register_read(registers, place) }
}

/// The number.
pub fn leave(records: &mut [Record], table: &TableBytes, place: usize, block: &[u32], waiting: &mut [u32]) -> u32 {
    unsafe { raw::juntreak_leave(records.as_mut_ptr(), records.len(), table, place, block.as_ptr(), block.len(), waiting.as_mut_ptr(), waiting.len()) }
}

/// The whole answer: number + 256 if a record was served + 65536 × its place + 2^32 × count.
pub fn turn(records: &mut [Record], table: &TableBytes, place: usize, history: &mut [u32], waiting: &[u32], scratch: &mut [u64], out: &mut [u64]) -> u64 {
    let (n, h, w, x, o) = (records.len(), history.len(), waiting.len(), scratch.len(), out.len());
    unsafe { raw::juntreak_turn(records.as_mut_ptr(), n, table, place, history.as_mut_ptr(), h, waiting.as_ptr(), w, scratch.as_mut_ptr(), x, out.as_mut_ptr(), o) }
}

/// The number and the count.
pub fn close_record(records: &mut [Record], table: &TableBytes, place: usize, history: &[u32], scratch: &mut [u64], out: &mut [u64]) -> (u32, u32) {
    let (n, h, x, o) = (records.len(), history.len(), scratch.len(), out.len());
    let r = unsafe { raw::juntreak_close_record(records.as_mut_ptr(), n, table, place, history.as_ptr(), h, scratch.as_mut_ptr(), x, out.as_mut_ptr(), o) };
    counted(r)
}
