//! Programs that are started, fed and waited for, and what they print.
use std::fs::File;
use std::io::{Read, Write};
use std::process::{Child, ChildStdin, Command, ExitStatus, Stdio};
use std::sync::mpsc::{channel, Receiver, RecvTimeoutError};
use std::thread::{self, sleep};
use std::time::{Duration, Instant};

/// A program that takes longer fails its test.
const LIMIT: Duration = Duration::from_secs(30);

/// What comes through a pipe, as it comes.
fn pump(pipe: Option<impl Read + Send + 'static>) -> Receiver<Vec<u8>> {
    let (sender, receiver) = channel();
    if let Some(mut pipe) = pipe {
        thread::spawn(move || {
            let mut buffer = vec![0; 1 << 16];
            while let Ok(n @ 1..) = pipe.read(&mut buffer) {
                if sender.send(buffer[..n].to_vec()).is_err() {
                    break;
                }
            }
        });
    }
    receiver
}

/// Collects until there is enough or the pipe ends.
fn gather(from: &Receiver<Vec<u8>>, all: &mut Vec<u8>, enough: usize) {
    let deadline = Instant::now() + LIMIT;
    while all.len() < enough {
        match from.recv_timeout(deadline.saturating_duration_since(Instant::now())) {
            Ok(bytes) => all.extend(bytes),
            Err(RecvTimeoutError::Disconnected) => break,
            Err(RecvTimeoutError::Timeout) => panic!("nothing more came after {} bytes, and no end", all.len()),
        }
    }
}

/// The running program and what it has printed.
pub struct Running {
    child: Child,
    out: Receiver<Vec<u8>>,
    err: Receiver<Vec<u8>>,
    printed: Vec<u8>,
}

/// How the program ended.
pub struct Ended {
    pub printed: Vec<u8>,
    pub message: Vec<u8>,
    pub status: ExitStatus,
}

impl Running {
    pub fn start(mut command: Command, input: impl Into<Stdio>, output: impl Into<Stdio>) -> Running {
        let mut child = command.stdin(input).stdout(output).stderr(Stdio::piped()).spawn().unwrap_or_else(|e| panic!("{command:?}: {e}"));
        let (out, err) = (pump(child.stdout.take()), pump(child.stderr.take()));
        Running { child, out, err, printed: vec![] }
    }

    /// Started with a pipe to read from.
    pub fn piped(command: Command, output: impl Into<Stdio>) -> (Running, ChildStdin) {
        let mut running = Running::start(command, Stdio::piped(), output);
        let input = running.child.stdin.take().unwrap();
        (running, input)
    }

    /// Waits until so many bytes are printed.
    pub fn wait_for(&mut self, bytes: usize) -> &[u8] {
        gather(&self.out, &mut self.printed, bytes);
        &self.printed
    }

    pub fn end(mut self) -> Ended {
        let mut message = vec![];
        gather(&self.out, &mut self.printed, usize::MAX);
        gather(&self.err, &mut message, usize::MAX);
        let deadline = Instant::now() + LIMIT;
        loop {
            if let Some(status) = self.child.try_wait().unwrap() {
                return Ended { printed: std::mem::take(&mut self.printed), message, status };
            }
            assert!(Instant::now() < deadline, "the program does not end");
            sleep(Duration::from_micros(100));
        }
    }
}

impl Drop for Running {
    fn drop(&mut self) {
        let _ = self.child.kill();
        let _ = self.child.wait();
    }
}

impl Ended {
    /// What was printed by a program that ended of itself and had no error to tell.
    pub fn quietly(self) -> Vec<u8> {
        assert!(self.status.code().is_some(), "{}", self.status);
        assert!(self.message.is_empty(), "{}", String::from_utf8_lossy(&self.message));
        self.printed
    }

    /// What was told by a program that ended of itself and printed nothing.
    pub fn with_a_message(self) -> Vec<u8> {
        assert!(self.status.code().is_some(), "{}", self.status);
        assert!(!self.message.is_empty(), "no message on standard error");
        assert!(self.printed.is_empty(), "{}", String::from_utf8_lossy(&self.printed));
        self.message
    }
}

/// Writes the input in chunks, with a pause at some of them, and closes the pipe. A program that ended early reads no more.
fn write_chunks(mut to: ChildStdin, input: &[u8], chunk: usize) {
    let pause = input.len().div_ceil(chunk).div_ceil(20);
    for (i, part) in input.chunks(chunk).enumerate() {
        if to.write_all(part).and_then(|()| to.flush()).is_err() {
            return;
        }
        if i % pause == pause - 1 && i > 0 {
            sleep(Duration::from_micros(500));
        }
    }
}

/// A run whose input comes through a pipe in chunks.
pub fn run_in_chunks(command: Command, input: &[u8], chunk: usize) -> Ended {
    let (running, pipe) = Running::piped(command, Stdio::piped());
    thread::scope(|s| {
        s.spawn(|| write_chunks(pipe, input, chunk));
        running.end()
    })
}

/// A run whose input comes through a pipe.
pub fn run(command: Command, input: &[u8]) -> Ended {
    run_in_chunks(command, input, input.len().max(1))
}

/// An output without room.
pub fn full() -> Stdio {
    File::options().write(true).open("/dev/full").unwrap().into()
}

/// Fails at the first line that differs.
pub fn same_lines(got: &[u8], want: &[u8]) {
    if got == want {
        return;
    }
    let (mut g, mut w) = (got.split_inclusive(|b| *b == 10), want.split_inclusive(|b| *b == 10));
    for line in 1.. {
        let (g, w) = (g.next(), w.next());
        let text = |x: Option<&[u8]>| x.map(|x| String::from_utf8_lossy(x).into_owned());
        assert_eq!(text(g), text(w), "line {line} of the output");
    }
}
