//! The program watch beside the plain Rust program of `plain`, end to end: the same rules.bin, states from a file, output to a file.
use super::markdown::{number, table};
use crate::formulas::all;
use crate::place::{watch, Folder};
use crate::random::{book, Random};
use std::fs::File;
use std::io::Write;
use std::path::Path;
use std::process::Command;
use std::time::Instant;

const LINES: usize = 5_000_000;
const ROUNDS: usize = 7;

fn states() -> Vec<u8> {
    let mut r = Random(11);
    let mut text = Vec::with_capacity(11 * LINES);
    for _ in 0..LINES {
        writeln!(text, "{}", r.next() as u32).unwrap();
    }
    text
}

/// The seconds of one run, from the start of the process to its end.
fn seconds(program: &Path, folder: &Folder, output: &str) -> f64 {
    let input = File::open(folder.0.join("states")).unwrap();
    let output = File::create(folder.0.join(output)).unwrap();
    let start = Instant::now();
    Command::new(program).current_dir(&folder.0).stdin(input).stdout(output).status().unwrap();
    start.elapsed().as_secs_f64()
}

/// The least times of both, in turns; what they print is compared.
fn least(plain: &Path, folder: &Folder, name: &str) -> (f64, f64) {
    let ours = watch();
    let (mut a, mut b) = (f64::MAX, f64::MAX);
    for _ in 0..ROUNDS {
        a = a.min(seconds(&ours, folder, "ours"));
        b = b.min(seconds(plain, folder, "plain"));
    }
    let printed = |output: &str| std::fs::read(folder.0.join(output)).unwrap();
    assert!(printed("ours") == printed("plain"), "{name}: the two print different verdicts");
    (a, b)
}

pub fn run() {
    let plain = std::env::current_exe().unwrap().with_file_name("plain_watch");
    let folder = Folder::empty();
    folder.write("states", &states());
    let mut rows = Vec::new();
    for (name, t) in all() {
        folder.write("rules.bin", &book(&mut Random(1), &t));
        let (a, b) = least(&plain, &folder, name);
        rows.push(vec![name.to_string(), format!("{} ms", number(a * 1e3, 0)), format!("{} ms", number(b * 1e3, 0)), format!("{:.2}", a / b), "≤ 1.5".to_string()]);
    }
    table("5,000,000 lines of random states from a file, rows of verdicts to a file:", &["Formula", "watch", "plain program", "ratio", "asked"], &rows);
}
