//! The program rules: typed rules on standard input, and their book on standard output or a message on standard error, against `typed`,
//! `written` and `message`, and against messages that are written out in full.
use juntreak_tests::header::limits::{MAX_DELAY, MAX_DEPTH, MAX_INTERVAL, MAX_NAME, MAX_NODES, MAX_RULES, MAX_SIGNAL, RECORD_BYTES, WRITTEN_BYTES};
use juntreak_tests::header::refusals::{ARGUMENT, DEEP, FULL, INTERVAL, LONG, NAME, OK, SYNTAX};
use juntreak_tests::header::NUMBERS;
use juntreak_tests::message::{message, MAX_TEXT, TOO_LONG};
use juntreak_tests::place::{rules, watch_in, Folder};
use juntreak_tests::program::expected;
use juntreak_tests::random::{any_lines, text, trace, Random, LINE_BYTES};
use juntreak_tests::spawn::{full, run, run_in_chunks, same_lines, Ended, Running};
use juntreak_tests::typed::{self, repeated, Line, Part};
use juntreak_tests::written::{self, LOWER, UPPER, WORKED};
use std::fs::File;
use std::io::Write;
use std::os::fd::OwnedFd;
use std::os::unix::net::{UnixDatagram, UnixStream};
use std::os::unix::process::ExitStatusExt;
use std::process::{Command, Stdio};

fn program() -> Command {
    Command::new(rules())
}

/// The program with a redirection of the shell.
fn redirected(redirection: &str) -> Command {
    let mut command = Command::new("sh");
    command.arg("-c").arg(format!("exec \"$0\" {redirection}")).arg(rules());
    command
}

/// The program gave just these bytes and this message.
fn gave(ended: Ended, book: &[u8], message: &str, input: &[u8]) {
    let shown = format!("{}, for {} bytes: {}", ended.status, input.len(), input[..input.len().min(300)].escape_ascii());
    assert_eq!(ended.message.escape_ascii().to_string(), message.as_bytes().escape_ascii().to_string(), "{shown}");
    assert_eq!(ended.printed, book, "{shown}");
    assert_eq!(ended.status.code(), Some(0), "{shown}");
}

/// The book and the message of an input of at most 1 MiB, and its number.
fn wanted(text: &[u8]) -> (Vec<u8>, String, u32) {
    match typed::read(text) {
        Ok(table) => (written::book(&table), String::new(), OK),
        Err(refusal) => (vec![], message(text, refusal), refusal.0),
    }
}

/// A run on a text is compared with the models; returns the number.
fn compared(ended: Ended, text: &[u8]) -> u32 {
    let (book, message, number) = wanted(text);
    gave(ended, &book, &message, text);
    number
}

fn compare(text: impl AsRef<[u8]>) -> u32 {
    compared(run(program(), text.as_ref()), text.as_ref())
}

fn compare_in_chunks(text: &[u8], chunk: usize) -> u32 {
    compared(run_in_chunks(program(), text, chunk), text)
}

/// A run whose input is a file.
fn run_on_file(folder: &Folder, input: &[u8]) -> Ended {
    folder.write("rules.txt", input);
    Running::start(program(), File::open(folder.0.join("rules.txt")).unwrap(), Stdio::piped()).end()
}

/// A run whose output goes elsewhere.
fn run_to(command: Command, output: impl Into<Stdio>, input: &[u8]) -> Ended {
    let (running, mut pipe) = Running::piped(command, output);
    pipe.write_all(input).unwrap();
    drop(pipe);
    running.end()
}

/// A text is refused with just these lines, by the model too.
fn refused(text: impl AsRef<[u8]>, lines: &[&str]) {
    let (text, message): (_, String) = (text.as_ref(), lines.iter().flat_map(|line| [line, "\n"]).collect());
    assert_eq!(wanted(text).1, message);
    gave(run(program(), text), b"", &message, text);
}

/// A text is refused with 32 at a place, and these are the lines behind the sentence.
fn marked(text: impl AsRef<[u8]>, place: usize, lines: [&str; 3]) {
    let begin = [&format!("text 32 {place}"), "At the mark the line goes on, or ends, as no rule does; the last line needs a line end too."];
    refused(text, &[&begin[..], &lines].concat());
}

#[test]
fn worked_example() {
    let line = b"7: F[1,3] s0\n";
    gave(run(program(), line), &WORKED, "", line);
    assert_eq!(include_bytes!("../../examples/rules.txt"), line);
    let file = File::open(concat!(env!("CARGO_MANIFEST_DIR"), "/../examples/rules.txt")).unwrap();
    gave(Running::start(program(), file, Stdio::piped()).end(), &WORKED, "", line);
}

#[test]
fn refused_with_5() {
    let sentence = "A signal is above s31, or the rule's name is 0 or above 65535.";
    refused("7: s32\n", &["text 5 line 1", sentence]);
    refused("7: s31\n65536: s31\n", &["text 5 line 2", sentence]);
    refused("1:s0\n2:s0\n0:s0\n", &["text 5 line 3", sentence]);
    refused("65535:s0\n256:s0\n18446744073709551623:s0\n", &["text 5 line 3", sentence]);
}

/// The book of the worked example under other names: bytes 1 and 9 of its last record.
#[test]
fn names_of_two_bytes() {
    for (name, lower, upper) in [(255, 255, 0), (256, 0, 1), (263, 7, 1), (10_000, 16, 39), (65_280, 0, 255), (65_535, 255, 255)] {
        let mut book = WORKED;
        (book[3 * RECORD_BYTES + LOWER], book[3 * RECORD_BYTES + UPPER]) = (lower, upper);
        let line = format!("{name}: F[1,3] s0\n");
        gave(run(program(), line.as_bytes()), &book, "", line.as_bytes());
        assert_eq!(compare(&line), OK);
    }
    assert_eq!(compare("65535: s0\n256: s1\n257: s2\n7: s3\n263: s4\n519: s5\n258: s6\n513: s7\n"), OK);
}

#[test]
fn refused_with_6() {
    let sentence = "An interval [a,b] has a above b, or b above 4095.";
    refused("7: F[3,1] s0\n", &["text 6 line 1", sentence]);
    refused("7: F[1,3] s0\n8: s1 U[0,4096] s2\n", &["text 6 line 2", sentence]);
}

#[test]
fn refused_with_8() {
    let sentence = "Up to this line there are more than 64 atoms and operators, or more than 8 rules.";
    refused(repeated(&[("7:", 1), ("!", 64), ("s0\n", 1)]), &["text 8 line 1", sentence]);
    refused(repeated(&[("7:", 1), ("!", 63), ("s0\n8:s1\n", 1)]), &["text 8 line 2", sentence]);
    refused("1:s0\n2:s0\n3:s0\n4:s0\n5:s0\n6:s0\n7:s0\n8:s0\n9:s0\n", &["text 8 line 9", sentence]);
}

#[test]
fn refused_with_9() {
    let sentence = "The rule or a part of it waits for more than 4095 later states.";
    refused("7: F[0,4095] F[0,1] s0\n", &["text 9 line 1", sentence]);
    refused("7: F[0,4095] s0\n8: s0 U[0,1] G[4095,4095] s1\n", &["text 9 line 2", sentence]);
    for (interval, number) in [("[0,1]", OK), ("[0,2]", LONG), ("[9,9]", OK), ("[8,9]", LONG)] {
        for sign in ["U", "R"] {
            assert_eq!(compare(format!("7: (F[0,4095] s0) {sign}{interval} s1\n")), number);
        }
    }
    assert_eq!(compare("7: (F[0,4095] F[0,1] s0) U[0,0] s1\n"), LONG);
}

#[test]
fn refused_with_10() {
    let sentence = "An earlier line has the same name.";
    refused("7: s0\n7: s0\n", &["text 10 line 2", sentence]);
    refused("7: s0\n8: s0\n9: s1\n8: s2\n", &["text 10 line 4", sentence]);
    refused("65535: s0\n263: s0\n7: s1\n263: s2\n", &["text 10 line 4", sentence]);
}

#[test]
fn refused_with_11() {
    let lines = ["text 11 line 0", "The text is empty: it has no rule."];
    refused("", &lines);
    let message = lines.join("\n") + "\n";
    gave(run_on_file(&Folder::empty(), b""), b"", &message, b"");
    gave(Running::start(program(), Stdio::null(), Stdio::piped()).end(), b"", &message, b"");
}

#[test]
fn refused_with_32() {
    let sentence = "At the mark the line goes on, or ends, as no rule does; the last line needs a line end too.";
    refused("7: F[1,3] x0\n", &["text 32 10", sentence, "line 1, column 11:", "7: F[1,3] x0", "          ^"]);
    refused("7: F[1,3] s0\n8: s1 & & s2\n9: s0\n", &["text 32 21", sentence, "line 2, column 9:", "8: s1 & & s2", "        ^"]);
}

#[test]
fn refused_with_33() {
    let sentence = "The bracket at the mark is the 33rd that is open; at most 32 may be.";
    let brackets = ["(", ")"].map(|bracket| bracket.repeat(33));
    refused(
        format!("7: {}s0{}\n", brackets[0], brackets[1]),
        &[
            "text 33 35",
            sentence,
            "line 1, column 36:",
            "7: (((((((((((((((((((((((((((((((((s0)))))))))))))))))))))))))))))))))",
            "                                   ^",
        ],
    );
    refused(
        format!("7: s0\n12: {} s0 {} & true\n", brackets[0], brackets[1]),
        &[
            "text 33 42",
            sentence,
            "line 2, column 37:",
            "12: ((((((((((((((((((((((((((((((((( s0 )))))))))))))))))))))))))))))))...",
            "                                    ^",
        ],
    );
}

/// At the line's first byte, in its middle, at its byte 10 and at the text's end, in the first line and in later ones.
#[test]
fn places_of_the_mark() {
    marked("x\n", 0, ["line 1, column 1:", "x", "^"]);
    marked("x", 0, ["line 1, column 1:", "x", "^"]);
    marked("\n", 0, ["line 1, column 1:", "", "^"]);
    marked("\n7: s0\n", 0, ["line 1, column 1:", "", "^"]);
    marked("7: s0\n\n", 6, ["line 2, column 1:", "", "^"]);
    marked("7: s0\n\n8: s0\n", 6, ["line 2, column 1:", "", "^"]);
    marked("7: s0\nx: s1\n", 6, ["line 2, column 1:", "x: s1", "^"]);
    marked("7: s0 s1\n8: s0\n", 6, ["line 1, column 7:", "7: s0 s1", "      ^"]);
    marked("7: s0 &\n", 7, ["line 1, column 8:", "7: s0 &", "       ^"]);
    marked("7: s0 &\n8: s0\n", 7, ["line 1, column 8:", "7: s0 &", "       ^"]);
    marked("7: s0", 5, ["line 1, column 6:", "7: s0", "     ^"]);
    marked("7: s0  ", 7, ["line 1, column 8:", "7: s0  ", "       ^"]);
    marked("7: s0\n8: s1 &\n9: s2\n", 13, ["line 2, column 8:", "8: s1 &", "       ^"]);
    marked("7: s0\n8: s1\n9: s2", 17, ["line 3, column 6:", "9: s2", "     ^"]);
    marked("7: s0\n ", 7, ["line 2, column 2:", " ", " ^"]);
    marked("1:s0\n2:s0\n3:s0\n4:s0\n5:s0\n6:s0\n7:s0\n8:s0\n9:s0", 44, ["line 9, column 5:", "9:s0", "    ^"]);
}

/// A line of 72 bytes is shown whole, one of 73 is cut.
#[test]
fn lines_of_72_and_73_bytes() {
    let whole = "123456789012345678901234567890123456789012345678901234567890123456789012";
    let under = "                                                                        ^";
    assert_eq!((whole.len(), under.len()), (72, 73));
    marked(format!("{whole}\n"), 72, ["line 1, column 73:", whole, under]);
    marked(whole, 72, ["line 1, column 73:", whole, under]);
    marked(format!("7: s0\n{whole}\n8: s0\n"), 78, ["line 2, column 73:", whole, under]);
    marked(format!("{}x\n", &whole[..71]), 71, ["line 1, column 72:", &format!("{}x", &whole[..71]), &under[1..]]);
    marked(format!("x{}\n", &whole[1..]), 0, ["line 1, column 1:", &format!("x{}", &whole[1..]), "^"]);

    let (right, left) = ("x12345678901234567890123456789012345678901234567890123456789012345678901...", "...890123456789012345678901234567890123");
    let under = "                                       ^";
    marked(format!("x{whole}\n"), 0, ["line 1, column 1:", right, "^"]);
    marked(format!("x{whole}"), 0, ["line 1, column 1:", right, "^"]);
    marked(format!("7: s0\nx{whole}\n"), 6, ["line 2, column 1:", right, "^"]);
    marked(format!("{whole}3\n"), 73, ["line 1, column 74:", left, under]);
    marked(format!("{whole}3"), 73, ["line 1, column 74:", left, under]);
    marked(format!("7: s0\n{whole}3\n8: s0\n"), 79, ["line 2, column 74:", left, under]);
    marked(format!("{whole}x\n"), 72, ["line 1, column 73:", "...789012345678901234567890123456789012x", under]);
    // 36 bytes stand before the mark, and then none is left out in front.
    let middle = "123456789012345678901234567890123456x78901234567890123456789012345678901...";
    marked(format!("{}x{}\n", &whole[..36], &whole[36..]), 36, ["line 1, column 37:", middle, &under[3..]]);
}

/// Long lines, cut in front, behind and on both sides.
#[test]
fn long_lines() {
    let digits = "1234567890".repeat(1_000);
    let both = "...567890123456789012345678901234567890x12345678901234567890123456789012345...";
    let under = "                                       ^";
    marked(format!("{}x{digits}\n", &digits[..100]), 100, ["line 1, column 101:", both, under]);
    marked(format!("{digits}x{digits}\n"), 10_000, ["line 1, column 10001:", both, under]);
    marked(format!("7: s0\n8: s0\n{digits}x{digits}\n9: s0"), 10_012, ["line 3, column 10001:", both, under]);
    let front = "...567890123456789012345678901234567890";
    marked(&digits, 10_000, ["line 1, column 10001:", front, under]);
    marked(format!("{digits}\n7: s0\n"), 10_000, ["line 1, column 10001:", front, under]);
    marked(format!("{digits}x1\n7: s0\n"), 10_000, ["line 1, column 10001:", &format!("{front}x1"), under]);
    let behind = "12x123456789012345678901234567890123456789012345678901234567890123456789...";
    marked(format!("12x{digits}"), 2, ["line 1, column 3:", behind, "  ^"]);
    marked(format!("7: s0\n12x{digits}\n8: s0\n"), 8, ["line 2, column 3:", behind, "  ^"]);
}

/// A line with a fault that has so many bytes before it; behind it stands any byte but 10.
fn faulty_line(r: &mut Random, before: usize, length: usize) -> Vec<u8> {
    let mut line: Vec<u8> = (0..before).map(|_| b'1' + r.below(9) as u8).collect();
    while line.len() < length {
        let any = r.next() as u8;
        let byte = if line.len() == before { r.pick(b"xyz~\0\t\r\x7f\x80\xff") } else { r.pick(&[any, any, b'0', b' ']) };
        line.push(if byte == 10 { b'~' } else { byte });
    }
    line
}

/// Lines of many lengths with a fault near each place where something changes.
#[test]
fn every_cut() {
    let mut r = Random(81);
    for length in [1usize, 35, 36, 37, 71, 72, 73, 74, 107, 108, 109, 110, 144, 145, 300] {
        let near = [0, 36, 72, length / 2, length.saturating_sub(72), length.saturating_sub(36), length];
        let mut places: Vec<usize> = near.iter().flat_map(|place| [place.saturating_sub(1), *place, place + 1]).filter(|place| *place <= length).collect();
        places.sort();
        places.dedup();
        for before in places {
            let line = faulty_line(&mut r, before, length);
            let lines = r.pick(&["", "7: s0\n", "25: F[1,30] true & false\n7: s0\n"]);
            for end in ["", "\n", "\n8: s1\n"] {
                let text = [lines.as_bytes(), &line, end.as_bytes()].concat();
                assert_eq!(typed::read(&text), Err((SYNTAX, lines.len() + before)));
                compare(text);
            }
        }
    }
}

/// A byte that is not 32..126 is shown as a question mark, at the mark and behind it. Before it none can stand.
#[test]
fn unprintable_bytes() {
    marked("7:\ts0\n", 2, ["line 1, column 3:", "7:?s0", "  ^"]);
    marked("7: s0\r\n8: s1\r\n", 5, ["line 1, column 6:", "7: s0?", "     ^"]);
    marked("7: s0\0\n", 5, ["line 1, column 6:", "7: s0?", "     ^"]);
    marked("7: s0 \x7f\x7e\n", 6, ["line 1, column 7:", "7: s0 ?~", "      ^"]);
    marked(b"7: s0 \xff\n", 6, ["line 1, column 7:", "7: s0 ?", "      ^"]);
    marked("7: ß0\n", 3, ["line 1, column 4:", "7: ??0", "   ^"]);
    marked("7: s0\n8: s1 ∧ s2\n", 12, ["line 2, column 7:", "8: s1 ??? s2", "      ^"]);
    marked("\u{feff}7: s0\n", 0, ["line 1, column 1:", "???7: s0", "^"]);
    marked(b"7: x\t\r\0\x1b\x1f\x20\x7e\x7f\x80\xff\xc3\xa4 0\r\n", 3, ["line 1, column 4:", "7: x????? ~????? 0?", "   ^"]);
    for byte in (0..=255).filter(|byte| *byte != 10) {
        let shown = if (b' '..=b'~').contains(&byte) { byte as char } else { '?' };
        marked([b'7', b':', b'x', byte, b'\n'], 2, ["line 1, column 3:", &format!("7:x{shown}"), "  ^"]);
        compare([b'7', b':', byte, byte, b'!']);
    }
}

/// One limit broken in rules that keep all, if the draw fits them.
fn break_limit(r: &mut Random, lines: &mut Vec<Line>) {
    let (at, window) = (r.below(lines.len() as u64) as usize, |lo: usize, hi: usize| Part { kind: 7, arg: 0, lo: lo as u32, hi: hi as u32 });
    let (name, formula) = (lines[r.below(lines.len() as u64) as usize].name, &mut lines[at].formula);
    match r.below(9) {
        0 => lines[at].name = r.pick(&[0, MAX_NAME as u32 + 1, 65_543, 1_000_000, u32::MAX]),
        1 | 8 => lines[at].name = name,
        2 => formula.iter_mut().filter(|part| part.kind == 1).for_each(|part| part.arg += MAX_SIGNAL as u32 + 1),
        3 => formula.push(window(5, 4)),
        4 => formula.push(window(0, MAX_INTERVAL + 1)),
        5 => formula.extend([window(0, MAX_DELAY), window(1, 1)]),
        6 => formula.extend([Part { kind: 4, ..Part::default() }; MAX_NODES]),
        _ => lines.extend((0..MAX_RULES as u32).map(|i| Line { name: MAX_NAME as u32 - i, formula: vec![Part { kind: 2, ..Part::default() }] })),
    }
}

/// Brackets around the formula of a random line, up to four more than may be open.
fn add_brackets(r: &mut Random, text: &mut Vec<u8>) {
    let colons: Vec<usize> = (0..text.len()).filter(|i| text[*i] == b':').collect();
    let (from, depth) = (r.pick(&colons) + 1, MAX_DEPTH - 4 + r.below(9) as usize);
    let end = from + text[from..].iter().position(|b| *b == 10).unwrap();
    text.splice(end..end, vec![b')'; depth]);
    text.splice(from..from, vec![b'('; depth]);
}

/// A byte put in or changed, many spaces put in, or the end cut off.
fn damage(r: &mut Random, text: &mut Vec<u8>) {
    let at = r.below(text.len() as u64) as usize;
    let until = at + r.below(2) as usize;
    match r.below(5) {
        0 => drop(text.splice(at..until, [r.next() as u8])),
        1 | 2 => drop(text.splice(at..until, [r.pick(LINE_BYTES)])),
        3 => drop(text.splice(at..at, vec![b' '; r.below(300) as usize])),
        _ => text.truncate(at),
    }
}

/// A text of random rules, of which many break a limit or are damaged.
fn random_text(r: &mut Random) -> Vec<u8> {
    let mut lines = any_lines(r, MAX_RULES);
    if r.chance(2) {
        break_limit(r, &mut lines);
    }
    let mut text = text(r, &lines);
    if r.chance(8) {
        add_brackets(r, &mut text);
    }
    if r.chance(3) {
        damage(r, &mut text);
    }
    text
}

#[test]
fn random_texts() {
    let mut r = Random(82);
    let (folder, mut seen) = (Folder::empty(), [0u32; NUMBERS]);
    for _ in 0..2_000 {
        let text = random_text(&mut r);
        let number = if r.chance(2) { compare(&text) } else { compared(run_on_file(&folder, &text), &text) };
        seen[number as usize] += 1;
    }
    for number in [OK, ARGUMENT, INTERVAL, FULL, LONG, NAME, SYNTAX, DEEP] {
        assert!(seen[number as usize] > 50, "{number}: {seen:?}");
    }
}

/// Random bytes of several alphabets, alone and behind rules.
#[test]
fn noise() {
    let mut r = Random(83);
    let every: Vec<u8> = (0..=255).collect();
    for round in 0..400 {
        let alphabet = [&every, LINE_BYTES, b"12: s!()\n", b"\0\n", b" "][round % 5];
        let mut text = if r.chance(2) { vec![] } else { b"7: F[1,3] s0\n8: s1 U[0,2] s2\n".to_vec() };
        let length = r.pick(&[1, 3, 20, 200, 5_000]);
        text.extend((0..1 + r.below(length)).map(|_| r.pick(alphabet)));
        compare(text);
    }
}

/// However the input is cut into chunks, the answer is the same.
#[test]
fn chunks() {
    let mut r = Random(84);
    for _ in 0..150 {
        let text = random_text(&mut r);
        let chunk = 1 + r.below(text.len() as u64 + 2) as usize;
        compare_in_chunks(&text, r.pick(&[1, 2, 7, chunk, chunk]));
    }
    let full: String = (1..=8).map(|name| format!("{name}: {}s{name}\n", "!".repeat(7))).collect();
    assert_eq!(written::book(&typed::read(full.as_bytes()).unwrap()).len(), WRITTEN_BYTES);
    for chunk in [1, 2, 3, 5, 16, 64] {
        assert_eq!(compare_in_chunks(full.as_bytes(), chunk), OK);
    }
    let (long, longer) = (padded(300_000), [padded(MAX_TEXT - 2), b"1:".to_vec()].concat());
    for chunk in [1_000, 4_095, 4_096, 4_097, 65_535, 65_536, 65_537] {
        assert_eq!(compare_in_chunks(&long, chunk), OK);
        assert_eq!(compare_in_chunks(&longer, chunk), SYNTAX);
    }
}

/// An accepted text of so many bytes: three rules with spaces among them.
fn padded(length: usize) -> Vec<u8> {
    let (begin, end) = ("7: F[1,3] s0\n12: s1 &", "s2\n200: s31 R[7,4095] true\n");
    [begin, &" ".repeat(length - begin.len() - end.len()), end].concat().into_bytes()
}

/// 1 MiB is read, and a fault in its last byte, or at its end, is told.
#[test]
fn longest_text() {
    let folder = Folder::empty();
    let mut text = padded(MAX_TEXT);
    assert_eq!(text.len(), 1_048_576);
    assert_eq!(compare(&text), OK);
    assert_eq!(compared(run_on_file(&folder, &text), &text), OK);
    assert_eq!(compare(padded(MAX_TEXT - 1)), OK);
    for last in [b' ', b'x', b'0'] {
        text[MAX_TEXT - 1] = last;
        assert_eq!(compare(&text), SYNTAX);
        assert_eq!(compared(run_on_file(&folder, &text), &text), SYNTAX);
    }
    let spaces = " ".repeat(MAX_TEXT - 1);
    let (shown, under) = ("...                                    x", "                                       ^");
    marked(format!("{spaces}x"), 1_048_575, ["line 1, column 1048576:", shown, under]);
    marked(format!("{spaces}\n"), 1_048_575, ["line 1, column 1048576:", &shown[..39], under]);
    marked(format!("{spaces} "), 1_048_576, ["line 1, column 1048577:", &shown[..39], under]);
    marked(format!("x{spaces}"), 0, ["line 1, column 1:", &format!("x{}...", " ".repeat(71)), "^"]);
}

/// A longer text is told as such, whatever its first 1 MiB are.
#[test]
fn longer_texts() {
    let folder = Folder::empty();
    let told = |input: &[u8]| {
        gave(run(program(), input), b"", TOO_LONG, input);
        gave(run_on_file(&folder, input), b"", TOO_LONG, input);
    };
    assert_eq!(TOO_LONG, "The text is longer than 1048576 bytes.\n");
    let text = padded(MAX_TEXT);
    for byte in b" \nx8" {
        told(&[&text[..], &[*byte]].concat());
    }
    for length in [MAX_TEXT + 1, MAX_TEXT + 4_096, MAX_TEXT + 65_536, 2 * MAX_TEXT - 1, 2 * MAX_TEXT, 5_000_000] {
        told(&padded(length));
    }
    told(&[&text[..], &text].concat());
    told(&vec![b'x'; MAX_TEXT + 1]);
    for chunk in [4_097, 65_536, MAX_TEXT] {
        gave(run_in_chunks(program(), &padded(MAX_TEXT + 1), chunk), b"", TOO_LONG, b"");
    }
    let endless = File::open("/dev/zero").unwrap();
    gave(Running::start(program(), endless, Stdio::piped()).end(), b"", TOO_LONG, b"");
}

/// The rules that were typed are those that watch runs.
#[test]
fn typed_rules_are_watched() {
    let mut r = Random(85);
    let mut rows = [0u32; 2];
    for _ in 0..300 {
        let lines = any_lines(&mut r, MAX_RULES);
        let (typed, folder) = (text(&mut r, &lines), Folder::empty());
        let output = File::create(folder.0.join("rules.bin")).unwrap();
        gave(run_to(program(), output, &typed), b"", "", &typed);
        let length = r.pick(&[1, 40, 200, 1_500]);
        let states: String = trace(&mut r, length).iter().map(|state| format!("{state}\n")).collect();
        // No line is bad, so that the simplified table's delay does not matter.
        let want = expected(&written::book(&typed::table(&lines)), states.as_bytes(), 0);
        same_lines(&run(watch_in(&folder), states.as_bytes()).quietly(), &want);
        want.split(|b| *b == 10).filter_map(|row| row.last()).for_each(|verdict| rows[(verdict - b'0') as usize] += 1);
    }
    assert!(rows[0].min(rows[1]) > 20_000, "{rows:?}");
}

/// The program told in one line that it cannot read or write this, and printed nothing.
fn failed(ended: Ended, what: &str) {
    assert_eq!(ended.status.code(), Some(0), "{}", ended.status);
    let message = String::from_utf8(ended.with_a_message()).unwrap();
    let error = message.strip_prefix(what).and_then(|rest| rest.strip_prefix(": ")).and_then(|rest| rest.strip_suffix('\n'));
    assert!(error.is_some_and(|error| !error.is_empty() && !error.contains('\n')), "{message}");
}

/// Standard input that cannot be read: a folder, one that is open to be written, one that is closed, and one that fails behind a rule.
#[test]
fn failed_reads() {
    failed(Running::start(program(), File::open(&Folder::empty().0).unwrap(), Stdio::piped()).end(), "standard input");
    failed(Running::start(program(), File::options().write(true).open("/dev/null").unwrap(), Stdio::piped()).end(), "standard input");
    failed(Running::start(redirected("<&-"), Stdio::null(), Stdio::piped()).end(), "standard input");
    // Bytes that the other end has not read when it is closed make the reading fail once its own have been read.
    for text in [&b"7: F[1,3] s0\n"[..], b"7: F[1,3] s0", b""] {
        let (mut here, mut other) = UnixStream::pair().unwrap();
        here.write_all(b"unread").unwrap();
        other.write_all(text).unwrap();
        drop(other);
        failed(Running::start(program(), OwnedFd::from(here), Stdio::piped()).end(), "standard input");
    }
}

/// Standard output that cannot be written: without room, open to be read, or closed. A refused text needs none.
#[test]
fn failed_writes() {
    let read_only = || Stdio::from(File::open("/dev/null").unwrap());
    let outputs = || [(program(), full()), (program(), read_only()), (redirected(">&-"), Stdio::null())];
    for (command, output) in outputs() {
        failed(run_to(command, output, b"7: F[1,3] s0\n"), "standard output");
    }
    for (command, output) in outputs() {
        assert_eq!(compared(run_to(command, output, b"7: F[1,3] s0"), b"7: F[1,3] s0"), SYNTAX);
    }
}

/// Standard output whose reader went away. The system may end such a program before it can tell. A refused text needs no reader.
#[test]
fn nobody_reads() {
    let ended = |text: &[u8]| {
        let (reader, writer) = std::io::pipe().unwrap();
        drop(reader);
        run_to(program(), writer, text)
    };
    let accepted = ended(b"7: F[1,3] s0\n");
    assert!(!accepted.message.is_empty() || accepted.status.signal() == Some(13), "{}", accepted.status);
    assert_eq!(compared(ended(b"7: F[1,3] s0"), b"7: F[1,3] s0"), SYNTAX);
}

/// Where no message can be written, a book still comes, and of a refused text nothing does.
#[test]
fn no_standard_error() {
    for redirection in ["2>&-", "2>/dev/full", "2</dev/null"] {
        gave(run(redirected(redirection), b"7: F[1,3] s0\n"), &WORKED, "", b"");
        gave(run(redirected(redirection), b"7: F[1,3] s0"), b"", "", b"");
        gave(run(redirected(redirection), &padded(MAX_TEXT + 1)), b"", "", b"");
    }
}

/// The book is written at once: to a socket of datagrams each write is one.
#[test]
fn one_write() {
    let full = repeated(&[("1:s0\n2:s0\n3:s0\n4:s0\n5:s0\n6:s0\n7:s0\n8:", 1), ("!", 56), ("s0\n", 1)]);
    for (text, length) in [("7: F[1,3] s0\n", 48), (&full, WRITTEN_BYTES)] {
        let (here, other) = UnixDatagram::pair().unwrap();
        gave(run_to(program(), OwnedFd::from(other), text.as_bytes()), b"", "", text.as_bytes());
        here.set_nonblocking(true).unwrap();
        let mut buffer = [0; WRITTEN_BYTES + 1];
        let received = here.recv(&mut buffer).unwrap();
        assert_eq!(received, length);
        assert_eq!(buffer[..received], wanted(text.as_bytes()).0);
        assert!(here.recv(&mut buffer).is_err(), "a second write");
    }
}
