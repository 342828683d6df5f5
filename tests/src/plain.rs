//! The program watch as plain Rust: its session over the evaluator of `twin`, its reader of lines and its writer of verdicts.
use crate::header::limits::{BOOK_BYTES, MAX_BLOCK, MAX_TRACE, SCRATCH_WORDS};
use crate::header::refusals::OK;
use crate::header::whole_words;
use crate::library::{self, TableBytes};
use crate::model;
use crate::twin;
use std::io::{Error, ErrorKind, Read, Write};

const OUT_WORDS: usize = whole_words(MAX_TRACE);

/// The states that still wait for their verdicts, and the buffers of the evaluator.
struct Session {
    table: TableBytes,
    delay: usize,
    waiting: Vec<u32>,
    scratch: Vec<u64>,
    out: [u64; OUT_WORDS],
}

impl Session {
    fn new(table: TableBytes, delay: usize) -> Session {
        Session { table, delay, waiting: Vec::with_capacity(MAX_TRACE), scratch: vec![0; SCRATCH_WORDS], out: [0; OUT_WORDS] }
    }

    /// Takes a block and gives the verdicts that no later state can change.
    fn feed(&mut self, block: &[u32]) -> Verdicts<'_> {
        self.waiting.extend_from_slice(block);
        self.give(self.waiting.len().saturating_sub(self.delay))
    }

    /// Gives the verdicts of the states that still wait.
    fn close(&mut self) -> Verdicts<'_> {
        self.give(self.waiting.len())
    }

    fn give(&mut self, count: usize) -> Verdicts<'_> {
        if count > 0 {
            let number = twin::verdicts(&self.table, 0, &self.waiting, &mut self.scratch, &mut self.out);
            assert_eq!(number, OK);
            self.waiting.drain(..count);
        }
        Verdicts { words: &self.out, count }
    }
}

struct Verdicts<'a> {
    words: &'a [u64],
    count: usize,
}

impl Verdicts<'_> {
    fn iter(&self) -> impl Iterator<Item = bool> + '_ {
        (0..self.count).map(|i| self.words[i / 64] >> (i % 64) & 1 == 1)
    }
}

/// Writes the lines of the verdicts, one call of the writer for each block.
struct Lines<W> {
    to: W,
    name: u64,
    tick: u64,
    text: Vec<u8>,
}

impl<W: Write> Lines<W> {
    fn write(&mut self, verdicts: Verdicts) -> std::io::Result<()> {
        self.text.clear();
        let mut line = [0; 32];
        for verdict in verdicts.iter() {
            // A line is put together from its end.
            line[29..].copy_from_slice(if verdict { b" 1\n" } else { b" 0\n" });
            let from = decimal(self.tick, &mut line, 29) - 1;
            line[from] = b' ';
            let from = decimal(self.name, &mut line, from);
            self.text.extend_from_slice(&line[from..]);
            self.tick += 1;
        }
        self.to.write_all(&self.text)?;
        self.to.flush()
    }
}

/// Puts the digits of a value before a place and answers where they begin.
fn decimal(mut value: u64, line: &mut [u8; 32], before: usize) -> usize {
    let mut from = before;
    loop {
        from -= 1;
        line[from] = b'0' + (value % 10) as u8;
        value /= 10;
        if value == 0 {
            return from;
        }
    }
}

/// What is read of the line that is not complete yet, and the states of the block that is not full yet.
struct Reader {
    value: u64,
    digits: u32,
    line: u64,
    block: Vec<u32>,
}

enum Stop {
    BadLine(u64),
    Failed(Error),
}

impl From<Error> for Stop {
    fn from(e: Error) -> Stop {
        Stop::Failed(e)
    }
}

impl Reader {
    fn new() -> Reader {
        Reader { value: 0, digits: 0, line: 1, block: Vec::with_capacity(MAX_BLOCK) }
    }

    /// Takes a chunk of the input and hands on each block that becomes full.
    fn chunk(&mut self, chunk: &[u8], mut full: impl FnMut(&[u32]) -> std::io::Result<()>) -> Result<(), Stop> {
        let (mut value, mut digits) = (self.value, self.digits);
        for &byte in chunk {
            let digit = byte.wrapping_sub(b'0');
            if digit < 10 && digits < 10 {
                value = 10 * value + digit as u64;
                digits += 1;
                continue;
            }
            if byte != b'\n' {
                return Err(Stop::BadLine(self.line));
            }
            self.state(value, digits)?;
            (value, digits) = (0, 0);
            if self.block.len() == MAX_BLOCK {
                full(&self.block)?;
                self.block.clear();
            }
        }
        (self.value, self.digits) = (value, digits);
        Ok(())
    }

    /// The end of a line.
    fn state(&mut self, value: u64, digits: u32) -> Result<(), Stop> {
        match u32::try_from(value) {
            Ok(state) if digits > 0 => self.block.push(state),
            _ => return Err(Stop::BadLine(self.line)),
        }
        self.line += 1;
        Ok(())
    }

    /// The end of the input: the last line may lack its byte 10, and the last block may be shorter.
    fn rest(&mut self) -> Result<&[u32], Stop> {
        if self.digits > 0 {
            self.state(self.value, self.digits)?;
        }
        Ok(&self.block)
    }
}

/// The bytes of rules.bin, which counts as empty where it is missing; of a longer file one byte more than the longest book's.
pub fn rules() -> std::io::Result<Vec<u8>> {
    let mut book = vec![];
    match std::fs::File::open("rules.bin") {
        Ok(file) => file.take(BOOK_BYTES as u64 + 1).read_to_end(&mut book)?,
        Err(e) if e.kind() == ErrorKind::NotFound => 0,
        Err(e) => return Err(e),
    };
    Ok(book)
}

fn stream(session: &mut Session, mut input: impl Read, lines: &mut Lines<impl Write>) -> Result<(), Stop> {
    let mut buffer = vec![0; 1 << 16];
    let mut reader = Reader::new();
    loop {
        let n = match input.read(&mut buffer) {
            Ok(0) => break,
            Ok(n) => n,
            Err(e) if e.kind() == ErrorKind::Interrupted => continue,
            Err(e) => return Err(e.into()),
        };
        reader.chunk(&buffer[..n], |block| lines.write(session.feed(block)))?;
    }
    lines.write(session.feed(reader.rest()?))?;
    Ok(lines.write(session.close())?)
}

/// The whole program. The table is simplified by the library, once and before the first state, so that both programs watch the
/// same table and have the same delay.
pub fn watch(book: &[u8], input: impl Read, mut output: impl Write) -> std::io::Result<()> {
    let table = match model::read(book) {
        Ok(table) => table,
        Err((number, record)) => return writeln!(output, "book {number} {record}").and_then(|()| output.flush()),
    };
    let mut simple = table.bytes();
    assert_eq!(library::simplify(&mut simple), OK);
    let delay = library::delay(&simple, 0).1 as usize;
    let mut lines = Lines { to: output, name: table.rules[0].name as u64, tick: 0, text: vec![] };
    match stream(&mut Session::new(simple, delay), input, &mut lines) {
        Ok(()) => Ok(()),
        Err(Stop::BadLine(n)) => writeln!(lines.to, "bad line {n}").and_then(|()| lines.to.flush()),
        Err(Stop::Failed(e)) => Err(e),
    }
}
