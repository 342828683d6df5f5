//! The programs of examples/, compiled against include/juntreak.h and the static library, run, and compared with what they should print.
use std::path::Path;
use std::process::{Command, Output};

fn run(command: &mut Command) -> Output {
    let output = command.output().unwrap_or_else(|e| panic!("{command:?}: {e}"));
    assert!(output.status.success(), "{command:?}: {}\n{}", output.status, String::from_utf8_lossy(&output.stderr));
    output
}

/// What a program of examples/ prints.
fn printed(name: &str) -> String {
    let root = Path::new(env!("CARGO_MANIFEST_DIR")).join("..");
    let directory = std::env::temp_dir().join(format!("juntreak-{name}-{}", std::process::id()));
    std::fs::create_dir_all(&directory).unwrap();
    let program = directory.join(name);
    // No library is named beside the archive, so it may need symbols of libc only.
    run(Command::new("gcc")
        .args(["-std=c99", "-Wall", "-Wextra", "-Werror", "-I"])
        .arg(root.join("include"))
        .arg("-o")
        .arg(&program)
        .arg(root.join(format!("examples/{name}.c")))
        .arg(root.join("target/staticlib/libjuntreak.a")));
    let output = run(&mut Command::new(&program));
    std::fs::remove_dir_all(&directory).unwrap();
    assert!(output.stderr.is_empty());
    String::from_utf8(output.stdout).unwrap()
}

#[test]
fn the_example_prints_the_worked_lines() {
    assert_eq!(printed("stream"), "7 0 1\n7 1 1\n7 2 0\n7 3 0\n");
}

#[test]
fn the_rule_is_decided_in_its_third_tick() {
    assert_eq!(printed("early"), "rule 7, delay 600\nseen 1: open\nseen 2: open\nseen 3: no\n");
}

#[test]
fn typed_rules_are_read_or_refused_with_a_place() {
    assert_eq!(printed("text"), "2 rules: 7 8\nrefused with 32: line 2, column 14\nrefused with 6: line 2\n");
}

#[test]
fn the_book_of_a_session_is_written_and_read_back() {
    assert_eq!(printed("write"), include_str!("../../examples/write.txt"));
}

#[test]
fn a_narrow_session_goes_on_beyond_its_count() {
    let fed = "7 4294967292 0\n7 4294967293 1\n7 4294967294 1\n7 4294967295 1\n";
    let closed = "7 4294967296 0\n7 4294967297 0\n7 4294967298 0\n";
    assert_eq!(printed("widen"), format!("{fed}widened again: refused with 25\n{closed}"));
}

#[test]
fn a_session_under_the_old_delay_is_ended() {
    let old = "old session, close_old, 5 verdicts:\n7 3 1\n7 4 0\n7 5 0\n7 6 0\n7 7 1\n";
    let fed = "new session, feed, 4 verdicts:\n7 0 0\n7 1 1\n7 2 1\n7 3 1\n";
    let closed = "new session, close, 4 verdicts:\n7 4 0\n7 5 0\n7 6 0\n7 7 1\n";
    assert_eq!(printed("close_old"), format!("{old}{fed}{closed}"));
}

#[test]
fn a_bad_reading_reaches_three_verdicts() {
    let ranges = "tick 0 misread: no verdict changes\ntick 2 misread: strike 0 to 1\ntick 5 misread: strike 2 to 4\ntick 8 misread: refused with 35\n";
    assert_eq!(printed("reach"), format!("{ranges}verdicts as read:   11111000\nwith tick 5 cleared: 11000000\n"));
}

#[test]
fn three_rules_are_served_in_turn() {
    let rules = ["rule 7: 12 verdicts, first no at tick 11\n", "rule 8: 12 verdicts, first no at tick 5\n", "rule 9: 12 verdicts, all yes\n"];
    assert_eq!(printed("scheduler"), rules.concat());
}

#[test]
fn the_interrupt_tells_of_a_no_and_of_a_refusal() {
    let fed = "feed 1: no interrupt\nfeed 2: interrupt, first no at tick 2\nfeed 3: interrupt, refused with 22\nfeed 4: no interrupt\n";
    assert_eq!(printed("status"), format!("{fed}close: interrupt, first no at tick 10\n"));
}

#[test]
fn the_rows_are_those_worked_by_hand() {
    assert_eq!(printed("rows"), include_str!("../../examples/rows.txt"));
}

#[test]
fn the_header_stands_alone() {
    let header = Path::new(env!("CARGO_MANIFEST_DIR")).join("../include/juntreak.h");
    for standard in ["-std=c99", "-std=c11"] {
        run(Command::new("gcc").args([standard, "-pedantic", "-Wall", "-Wextra", "-Werror", "-fsyntax-only", "-x", "c"]).arg(&header));
    }
}
