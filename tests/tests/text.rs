//! Rules typed as text, against the reader of `typed`, the recognizer of `viable`, and answers worked by hand.
use juntreak_tests::header::limits::{MAX_DELAY, MAX_DEPTH, MAX_NAME, MAX_NODES, MAX_RULES, MAX_TRACE, SCRATCH_WORDS, TABLE_BYTES, WRITTEN_BYTES};
use juntreak_tests::header::places::rule_at;
use juntreak_tests::header::refusals::{ARGUMENT, DEEP, FULL, INTERVAL, LONG, NAME, OK, RULELESS, SYNTAX};
use juntreak_tests::header::{whole_words, NUMBERS};
use juntreak_tests::library::{read, read_text, verdicts, write, TableBytes};
use juntreak_tests::plain_text;
use juntreak_tests::random::{any_lines, book, lines, text, trace, Random, EDGE_NAMES, LINE_BYTES};
use juntreak_tests::same;
use juntreak_tests::typed::{self, repeated, Refusal};
use juntreak_tests::viable::Recognizer;

/// The beginning of a text, to be shown.
fn shown(text: &[u8]) -> String {
    format!("{:?}, {} bytes", String::from_utf8_lossy(&text[..text.len().min(300)]), text.len())
}

fn dirt(seed: usize) -> TableBytes {
    std::array::from_fn(|i| (31 * i + seed) as u8)
}

/// The answer to a text; it and every byte of the table are compared with the model's.
fn compare(text: &[u8]) -> Refusal {
    compare_reader(read_text, text)
}

fn compare_reader(reader: fn(&[u8], &mut TableBytes) -> Refusal, text: &[u8]) -> Refusal {
    let dirty = dirt(text.len());
    let mut bytes = dirty;
    let got = reader(text, &mut bytes);
    let (want, left) = match typed::read(text) {
        Ok(table) => ((OK, 0), table.bytes()),
        Err(refusal) => (refusal, dirty),
    };
    assert_eq!(got, want, "{}", shown(text));
    if bytes != left {
        same(&format!("table of {}", shown(text)), &bytes, &left);
    }
    got
}

/// The same, and the answer is this one.
fn answers(text: impl AsRef<[u8]>, want: Refusal) {
    assert_eq!(compare(text.as_ref()), want, "{}", shown(text.as_ref()));
}

fn each_seen(seen: &[u32; NUMBERS], numbers: &[u32]) {
    for number in numbers {
        let times = seen[*number as usize];
        assert!(times >= 100, "{number} was seen {times} times");
    }
}

#[test]
fn printed_rules_are_read_back() {
    let mut r = Random(51);
    let (mut full, mut bracketed, mut digits) = (0, 0, [0u32; 6]);
    for round in 0..20_000 {
        let typed = any_lines(&mut r, MAX_RULES);
        let (table, text) = (typed::table(&typed), text(&mut r, &typed));
        assert_eq!(typed::read(&text), Ok(table.clone()), "{}", shown(&text));
        let mut bytes = dirt(round);
        assert_eq!(read_text(&text, &mut bytes), (OK, 0), "{}", shown(&text));
        same(&format!("table of {}", shown(&text)), &bytes, &table.bytes());
        full += (table.nodes.len() == MAX_NODES) as u32;
        bracketed += text.contains(&b'(') as u32;
        typed.iter().for_each(|line| digits[line.name.to_string().len()] += 1);
    }
    assert!(full > 1_000 && bracketed > 10_000, "{full} {bracketed}");
    assert!(digits[1..].iter().all(|times| *times > 500), "{digits:?}");
}

fn damaged(text: &[u8], seen: &mut [u32; NUMBERS]) {
    let mut tried = |text: &[u8]| seen[compare(text).0 as usize] += 1;
    for at in 0..text.len() {
        tried(&text[..at]);
        let (before, after) = (&text[..at], &text[at + 1..]);
        tried(&[before, after].concat());
        for byte in LINE_BYTES {
            tried(&[before, &[*byte], after].concat());
            tried(&[before, &[*byte], &text[at..]].concat());
        }
    }
}

#[test]
fn every_byte_damaged() {
    let mut r = Random(52);
    let mut seen = [0; NUMBERS];
    for _ in 0..100 {
        let typed = any_lines(&mut r, 4);
        damaged(&text(&mut r, &typed), &mut seen);
    }
    // Texts at a limit: rules, depth, names, delays.
    let rules: String = (1..=MAX_RULES).map(|name| format!("{name}:s{name}\n")).collect();
    damaged(rules.as_bytes(), &mut seen);
    for formula in ["s0", "s0&!s1", "F[0,1](s0)|true"] {
        damaged(nested(MAX_DEPTH - formula.contains('(') as usize, formula).as_bytes(), &mut seen);
    }
    damaged(b"25:s3\n26:s31&s30\n255:true\n2:false\n", &mut seen);
    damaged(b"6553:s3\n65535:s31&s30\n655:true\n65534:false\n6:s0\n", &mut seen);
    damaged(b"1:F[0,1]G[0,4094]s0\n2:s0 U[0,95](s1 R[0,4000]s2)\n", &mut seen);
    damaged(b"1:(F[0,96]s0)U[0,4000]G[0,95]s1\n2:(F[0,4095]s0)R[40,40]s2\n", &mut seen);
    each_seen(&seen, &[OK, ARGUMENT, INTERVAL, FULL, LONG, NAME, SYNTAX, DEEP]);
}

/// U or R with a delay about as long as it may be.
fn until_at_the_limit(r: &mut Random) -> Vec<u8> {
    let (left, right, hi) = (r.below(8), r.below(8), MAX_DELAY as u64 - r.below(8));
    let lo = if r.chance(2) { hi } else { r.below(hi) };
    format!("1:(F[0,{left}]s0){}[{lo},{hi}]G[0,{right}]s1\n", r.pick(&["U", "R"])).into_bytes()
}

/// The reader that the benchmarks compare with.
#[test]
fn the_plain_reader_agrees() {
    let mut r = Random(56);
    let mut seen = [0; NUMBERS];
    for _ in 0..60_000 {
        let mut typed = any_lines(&mut r, MAX_RULES);
        if r.chance(20) {
            typed.last_mut().unwrap().name = typed[0].name;
        }
        if r.chance(20) {
            typed[0].name += r.pick(&[MAX_NAME as u32, MAX_NAME as u32 + 1, 1 << 20, u32::MAX - MAX_NAME as u32]);
        }
        let mut text = match r.below(10) {
            0 => format!("1:{}\n", chained(&mut r, MAX_DEPTH + 1)).into_bytes(),
            1 => until_at_the_limit(&mut r),
            _ => text(&mut r, &typed),
        };
        for _ in 0..r.below(3) {
            let (at, byte) = (r.below(text.len() as u64) as usize, r.pick(LINE_BYTES));
            text.splice(at..at + r.below(2) as usize, [byte]);
        }
        seen[compare_reader(plain_text::read_text, &text).0 as usize] += 1;
    }
    each_seen(&seen, &[OK, ARGUMENT, INTERVAL, FULL, LONG, NAME, SYNTAX, DEEP]);
}

/// A line with so many brackets round a formula.
fn nested(depth: usize, formula: &str) -> String {
    format!("1:{}{formula}{}\n", "(".repeat(depth), ")".repeat(depth))
}

/// Bytes that make a line of its beginning.
fn completion(judge: &mut Recognizer) -> Vec<u8> {
    let mut bytes = vec![];
    while !judge.complete() {
        let next = b"\n)],:[rueals0".iter().find(|byte| judge.allows(**byte)).expect("a beginning that nothing completes");
        judge.push(*next);
        bytes.push(*next);
    }
    bytes.iter().for_each(|_| judge.pop());
    bytes
}

fn syntax_is_right(text: &[u8]) {
    let (number, at) = compare(text);
    assert!(number != SYNTAX && number != DEEP, "{number} at {at} in {}", shown(text));
}

/// The answers to the beginning of a line with every byte behind it, by the recognizer.
fn every_next_byte(judge: &mut Recognizer, begun: &[u8], open: usize) {
    assert_eq!(judge.length(), begun.len());
    syntax_is_right(&[begun, &completion(judge)].concat());
    let mut text = begun.to_vec();
    for byte in 0..=255 {
        text.truncate(begun.len());
        text.push(byte);
        if !judge.allows(byte) {
            answers(&text, (SYNTAX, begun.len()));
            text.extend(b"0)&s1\n2:s0\n");
            answers(&text, (SYNTAX, begun.len()));
        } else if byte == b'(' && open == MAX_DEPTH {
            answers(&text, (DEEP, begun.len()));
        } else if byte == b'\n' {
            syntax_is_right(&text);
        } else {
            answers(&text, (SYNTAX, text.len()));
        }
    }
}

/// The beginning of a line with the recognizer's view of it.
struct Begun {
    judge: Recognizer,
    bytes: Vec<u8>,
    open: usize,
}

impl Begun {
    fn with(bytes: &[u8]) -> Begun {
        let mut begun = Begun { judge: Recognizer::new(), bytes: vec![], open: 0 };
        bytes.iter().for_each(|byte| begun.push(*byte));
        begun
    }

    fn push(&mut self, byte: u8) {
        assert!(self.judge.push(byte), "{} and {byte}", shown(&self.bytes));
        self.bytes.push(byte);
        self.open += (byte == b'(') as usize;
        self.open -= (byte == b')') as usize;
    }

    fn pop(&mut self) {
        let byte = self.bytes.pop();
        self.judge.pop();
        self.open -= (byte == Some(b'(')) as usize;
        self.open += (byte == Some(b')')) as usize;
    }

    fn every_next_byte(&mut self) {
        every_next_byte(&mut self.judge, &self.bytes, self.open);
    }

    /// Every next byte of this beginning and of all that are up to so many bytes longer; how many there are.
    fn explore(&mut self, longer: usize) -> usize {
        self.every_next_byte();
        let mut count = 1;
        for byte in b" 01:strufale!FGUR[,]()&|" {
            if longer > 0 && self.judge.allows(*byte) {
                self.push(*byte);
                count += self.explore(longer - 1);
                self.pop();
            }
        }
        count
    }
}

#[test]
fn every_short_beginning() {
    let mut count = 0;
    for bytes in ["", "1:", "1:s0", "1:F[", "1:F[0,1]", "1:s0&s1", "1:s0|s1", "1:s0U[0,1]s1", "1:(s0R[0,1]s1", "1:!(s0)"] {
        count += Begun::with(bytes.as_bytes()).explore(if bytes.len() <= 2 { 5 } else { 4 });
    }
    assert!(count > 6_000, "{count}");
}

/// Every next byte of every beginning of a line.
fn walk(line: &[u8]) {
    let mut begun = Begun::with(b"");
    for byte in line {
        begun.every_next_byte();
        begun.push(*byte);
    }
    assert!(begun.judge.complete());
}

#[test]
fn every_beginning_of_random_lines() {
    let mut r = Random(53);
    for _ in 0..120 {
        let count = 1 + r.below(9) as usize;
        let typed = lines(&mut r, &[count], MAX_DELAY);
        walk(&text(&mut r, &typed));
    }
    walk(nested(MAX_DEPTH, "s0").as_bytes());
    walk(nested(MAX_DEPTH, "!F [ 1 , 2 ] s0 & true ").as_bytes());
    walk(nested(MAX_DEPTH - 1, "(s0)U[0,1](s1)").as_bytes());
}

#[test]
fn places_of_faults() {
    let at = |text: &str, place| answers(text, (SYNTAX, place));
    at("\n", 0);
    at(" ", 1);
    at("   \n", 3);
    at("1", 1);
    at("1:", 2);
    at("1\n", 1);
    at("1:\n", 2);
    at("1:s0", 4);
    at("1:s0 ", 5);
    at("1:s0\n\n", 5);
    at("1:s0\n2", 6);
    at("1:s0\n  ", 7);
    at("1:s0\n2:s1", 9);
    at("01:s0\n", 1);
    at("00:s0\n", 1);
    at("1 2:s0\n", 2);
    at("1:s01\n", 4);
    at("1:s 0\n", 3);
    at("1:s0 1\n", 5);
    at("1:F[00,1]s0\n", 5);
    at("1:F[0,01]s0\n", 7);
    at("1:F[0 1]s0\n", 6);
    at("1:F[,1]s0\n", 4);
    at("1:F[0,]s0\n", 6);
    at("1:F[-1,1]s0\n", 4);
    at("1:F(s0)\n", 3);
    at("1:t rue\n", 3);
    at("1:truth\n", 5);
    at("1:true1\n", 6);
    at("1:falsee\n", 7);
    at("1:s0&\n", 5);
    at("1:s0&&s1\n", 5);
    at("1:s0 s1\n", 5);
    at("1:s0!\n", 4);
    at("1:()\n", 3);
    at("1:(s0\n", 5);
    at("1:s0)\n", 4);
    at("1:(s0))\n", 6);
    at("1:s0&s1U[0,1]s2\n", 7);
    at("1:s0|s1R[0,1]s2\n", 7);
    at("1:s0U[0,1]s1U[0,1]s2\n", 12);
    at("1:s0U[0,1]s1&s2\n", 12);
    at("1:s0R[0,1]s1|s2\n", 12);
    at("1:s0U s1\n", 6);
    at("1:s0\r\n", 4);
    at("1:s0\t\n", 4);
    at("1:S0\n", 2);
}

#[test]
fn lines_that_are_fit() {
    let fit = |text: &str| answers(text, (OK, 0));
    fit("1:s0\n");
    fit("255:s31\n");
    fit("256:s31\n");
    fit("65535:s31\n");
    fit("  65535  :  s0  \n  65534:s0\n");
    // Names with one half in common, and with both exchanged.
    fit("7:s0\n263:s0\n519:s0\n256:s0\n257:s0\n258:s0\n513:s0\n");
    fit("  1  :  s0  \n");
    fit("1:!s0U[0,1]F[0,1]s1\n");
    fit("1:(s0&s1)U[0,1](s0|s1)\n");
    fit("1:(s0U[0,1]s1)U[0,1]s2\n");
    fit("1: ! ! F [ 0 , 4095 ] ( true ) | false\n");
    fit("1:G[4095,4095]s0\n");
    fit("1:s0\n2:s0\n3:s0\n4:s0\n5:s0\n6:s0\n7:s0\n8:s0\n");
}

/// The nodes of a text's table, as many as its first byte counts.
fn nodes(text: &str) -> Vec<[u8; 8]> {
    let mut bytes = [0; TABLE_BYTES];
    assert_eq!(read_text(text.as_bytes(), &mut bytes), (OK, 0), "{text}");
    bytes[2..].chunks(8).take(bytes[0] as usize).map(|node| node.try_into().unwrap()).collect()
}

#[test]
fn one_reading() {
    let signal = |s| [1, s, 0, 0, 0, 0, 0, 0];
    // Both group to the left, and & binds more.
    assert_eq!(nodes("1:s0&s1&s2\n"), [signal(0), signal(1), [5, 0, 0, 0, 0, 0, 0, 1], signal(2), [5, 0, 0, 0, 0, 0, 2, 3]]);
    assert_eq!(nodes("1:s0|s1|s2\n"), [signal(0), signal(1), [6, 0, 0, 0, 0, 0, 0, 1], signal(2), [6, 0, 0, 0, 0, 0, 2, 3]]);
    assert_eq!(nodes("1:s0|s1&s2\n"), [signal(0), signal(1), signal(2), [5, 0, 0, 0, 0, 0, 1, 2], [6, 0, 0, 0, 0, 0, 0, 3]]);
    assert_eq!(nodes("1:s0&(s1|s2)\n"), [signal(0), signal(1), signal(2), [6, 0, 0, 0, 0, 0, 1, 2], [5, 0, 0, 0, 0, 0, 0, 3]]);
    // A prefix binds most; equal nodes are not joined; places go on over lines.
    assert_eq!(nodes("1:!s7&s7\n2:true\n"), [signal(7), [4, 0, 0, 0, 0, 0, 0, 0], signal(7), [5, 0, 0, 0, 0, 0, 1, 2], [2, 0, 0, 0, 0, 0, 0, 0]]);
    assert_eq!(nodes("1:false\n2:F[1,258]G[2,3]s1\n")[1..], [signal(1), [8, 0, 2, 0, 3, 0, 1, 0], [7, 0, 1, 0, 2, 1, 2, 0]]);
    assert_eq!(nodes("1:s1 U[0,1] s2\n2:s3 R[0,1] s4\n")[2..], [[9, 0, 0, 0, 1, 0, 0, 1], signal(3), signal(4), [10, 0, 0, 0, 1, 0, 3, 4]]);
}

/// A line of so many nodes, the last of which is this one, over a delay of 1.
fn of_nodes(name: usize, count: usize, last: &str) -> String {
    format!("{name}:{last}{}F[0,1]s0\n", "!".repeat(count - 3))
}

#[test]
fn every_number() {
    answers("", (RULELESS, 0));
    let digits = "9".repeat(5_000);
    for signal in ["32", "33", "255", "256", "287", "4294967296", "18446744073709551616", &digits] {
        answers(format!("1:s0\n2:s{signal}\n"), (ARGUMENT, 2));
    }
    // Above 65535, and by 2^16, 2^20, 2^32 and 2^64 above names that are fit; 1000000 and its neighbours.
    let names = ["65536", "65537", "65543", "65791", "65792", "99999", "100000", "131071", "131072", "655350", "999999", "1000000", "1000001", "1048583"];
    let longer = ["4294967295", "4294967296", "4294967303", "18446744073709551615", "18446744073709551616", "18446744073709551623", &digits];
    for name in ["0"].into_iter().chain(names).chain(longer) {
        answers(format!("{name}:s0\n"), (ARGUMENT, 1));
        answers(format!("7:s0\n256:s1\n{name}:s0\n263:s0\n"), (ARGUMENT, 3));
    }
    for interval in ["1,0", "4095,4094", "0,4096", "4096,4096", "0,65536", "65536,0", "65536,65537", "4294967296,1", "0,4294967296"] {
        for formula in ["F[]s0", "G[]s0", "s0U[]s1", "s0R[]s1"] {
            answers(format!("1:{}\n", formula.replace("[]", &format!("[{interval}]"))), (INTERVAL, 1));
        }
    }
    for interval in [format!("{digits},1"), format!("0,{digits}"), format!("{digits},{digits}")] {
        answers(format!("1:s0\n2:s0\n3:!F[{interval}]s0\n"), (INTERVAL, 3));
    }
    answers("1:F[0,4095]F[0,1]s0\n", (LONG, 1));
    answers("1:s0\n2:(s0U[0,4095]s1)&(s0R[0,1](s0U[0,4095]s1))\n", (LONG, 2));
    answers("1:(F[0,95]s0)U[0,4002]s1\n", (LONG, 1));
    answers("1:(F[0,4095]F[0,1]s0)U[0,0]s1\n", (LONG, 1));
    answers("1:s1R[0,4001]F[0,95]s0\n", (LONG, 1));
    answers("7:s0\n8:s0\n7:s0\n", (NAME, 3));
    answers("256:s0\n257:s0\n512:s0\n256:s0\n", (NAME, 4));
    answers("65535:s0\n65535:s0\n", (NAME, 2));
    answers("513:s0\n258:s0\n7:s0\n263:s0\n258:s0\n", (NAME, 5));
    answers("1:s0\n2:s1\n3:s2\n4:s3\n5:s4\n6:s5\n7:s6\n8:s7\n9:s8\n", (FULL, 9));
}

#[test]
fn sixty_four_nodes() {
    answers(of_nodes(1, MAX_NODES, "!"), (OK, 0));
    answers(of_nodes(1, MAX_NODES + 1, "!"), (FULL, 1));
    answers(of_nodes(1, 40, "!") + &of_nodes(2, MAX_NODES - 40, "!"), (OK, 0));
    answers(of_nodes(1, 40, "!") + &of_nodes(2, MAX_NODES - 39, "!"), (FULL, 2));
    answers(of_nodes(1, MAX_NODES, "!") + "2:s0\n", (FULL, 2));
    answers(of_nodes(1, MAX_NODES, "!") + &of_nodes(2, MAX_NODES, "!"), (FULL, 2));
    // The 65th node is tried for 5 and 6 before 8, and for 9 after; no later node is tried.
    answers(of_nodes(1, MAX_NODES, "!") + "2:s32\n", (ARGUMENT, 2));
    answers(of_nodes(1, MAX_NODES, "!") + "2:F[1,0]s0\n", (FULL, 2));
    answers(of_nodes(1, MAX_NODES, "F[0,4095]"), (LONG, 1));
    for (last, number) in [("F[1,0]", INTERVAL), ("F[0,4096]", INTERVAL), ("F[0,4095]", FULL), ("G[0,0]", FULL)] {
        answers(of_nodes(1, MAX_NODES + 1, last), (number, 1));
        answers(of_nodes(1, MAX_NODES + 2, last), (FULL, 1));
    }
    let chain = |first: &str, count: usize, last: &str| format!("1:{first}{}{last}\n", "&s0".repeat(count));
    answers(chain("s0", 31, ""), (OK, 0));
    answers(chain("!s0", 31, ""), (OK, 0));
    answers(chain("s0", 32, ""), (FULL, 1));
    answers(chain("!s0", 31, "&s32"), (ARGUMENT, 1));
    answers(chain("s0", 31, "&s32"), (ARGUMENT, 1));
    answers(chain("s0", 32, "&s32"), (FULL, 1));
}

/// Of a chain of any length, the nodes up to the 65th decide.
#[test]
fn a_fault_in_a_chain() {
    let number = |node: usize, fault: u32| (if node <= MAX_NODES + 1 { fault } else { FULL }, 1);
    for prefixes in [1, 2, 63, 64, 65, 66, 67, 128, 129, 130, 131, 132, 194, 195, 196, 260, 700] {
        for inside in 0..prefixes {
            let (outer, inner) = ("!".repeat(prefixes - 1 - inside), "!".repeat(inside));
            answers(format!("1:{outer}F[1,0]{inner}s0\n"), number(inside + 2, INTERVAL));
            answers(format!("1:{outer}F[0,4095]{inner}F[0,1]s0\n"), if inside + 3 <= MAX_NODES { (LONG, 1) } else { (FULL, 1) });
            answers(format!("1:{outer}G[1,0]({inner}s0&s1)\n"), number(inside + 4, INTERVAL));
            answers(format!("1:s1|{outer}({inner}!(G[1,0]s0))\n"), (INTERVAL, 1));
        }
    }
    for before in 0..150 {
        for sign in ["&", "|"] {
            let (begin, end) = (format!("s0{sign}").repeat(before), format!("{sign}s1").repeat(70));
            answers(format!("1:{begin}s32{end}\n"), number((2 * before).max(1), ARGUMENT));
            answers(format!("1:{begin}(s0U[1,0]s2){end}\n"), number((2 * before + 2).max(3), INTERVAL));
        }
    }
}

/// A unary with chains of prefixes, seldom of one that breaks a limit, before brackets.
fn chained(r: &mut Random, depth: usize) -> String {
    let mut text = String::new();
    for _ in 0..r.pick(&[0, 1, 3, 20, 64, 66, 131]) {
        text += if r.chance(40) { r.pick(&["F[1,0]", "F[0,4096]", "G[0,4095]", "F[0,1]"]) } else { r.pick(&["!", "!", "F[0,0]", " G [ 0, 1 ]"]) };
    }
    if depth == 0 || r.chance(60) {
        return text + if r.chance(40) { "s32" } else { r.pick(&["s0", "true", " s31", "false "]) };
    }
    let mut inner = chained(r, depth - 1);
    for _ in 0..r.below(3) {
        inner += r.pick(&["&", "|", " & ", "&"]);
        inner += &chained(r, 0);
    }
    format!("{text}({inner})")
}

#[test]
fn random_chains() {
    let mut r = Random(55);
    let mut seen = [0; NUMBERS];
    for _ in 0..20_000 {
        let depth = r.pick(&[0, 1, 2, 5, MAX_DEPTH, MAX_DEPTH + 3]);
        let (first, second) = (chained(&mut r, depth), chained(&mut r, 2));
        let text = if r.chance(2) { format!("1:{first}\n2:{second}\n") } else { format!("1:{first}{}{second}\n", r.pick(&["&", "|", "U[0,1]", "R[0,2]"])) };
        seen[compare(text.as_bytes()).0 as usize] += 1;
    }
    each_seen(&seen, &[OK, ARGUMENT, INTERVAL, FULL, LONG, DEEP]);
}

#[test]
fn order_of_the_checks() {
    // Line by line: a node of line 1 before the syntax of line 2, and that before the nodes of line 2.
    answers("1:s32\n2:s\n", (ARGUMENT, 1));
    answers("1:s0\n2:s32&\n", (SYNTAX, 11));
    answers("1:s0\n0:s32 x\n", (SYNTAX, 11));
    answers("1:F[1,0]s0\n", (INTERVAL, 1));
    // Node by node in table order.
    answers("1:F[1,0]s32\n", (ARGUMENT, 1));
    answers("1:F[1,0]s0&s32\n", (INTERVAL, 1));
    answers("1:s32&F[1,0]s0\n", (ARGUMENT, 1));
    answers("1:F[0,4095]F[0,1]s0&s32\n", (LONG, 1));
    answers("1:s32&F[0,4095]F[0,1]s0\n", (ARGUMENT, 1));
    answers("1:s0U[1,0]s32\n", (ARGUMENT, 1));
    answers("1:s0U[1,0]F[0,4095]F[0,1]s0\n", (LONG, 1));
    answers("1:F[5000,4999]F[0,4095]s0\n", (INTERVAL, 1));
    // The rule last: 5, 8, 10.
    answers("0:s32\n", (ARGUMENT, 1));
    answers("0:F[1,0]s0\n", (INTERVAL, 1));
    answers("65536:s32\n", (ARGUMENT, 1));
    answers("65536:F[1,0]s0\n", (INTERVAL, 1));
    answers("65536:F[0,4095]F[0,1]s0\n", (LONG, 1));
    answers(of_nodes(65_536, MAX_NODES + 1, "!"), (FULL, 1));
    answers("18446744073709551623:s0&F[1,0]s0\n", (INTERVAL, 1));
    answers("7:s0\n65543:F[1,0]s0\n", (INTERVAL, 2));
    answers("1:s0\n1:F[1,0]s0\n", (INTERVAL, 2));
    let rules: String = (1..=MAX_RULES).map(|name| format!("{name}:s0\n")).collect();
    answers(rules.clone() + "0:s0\n", (ARGUMENT, 9));
    answers(rules.clone() + "65536:s0\n", (ARGUMENT, 9));
    answers(rules.clone() + "1:s0\n", (FULL, 9));
    answers(rules.clone() + "257:s0\n", (FULL, 9));
    answers(rules.clone() + "9:s32\n", (ARGUMENT, 9));
    answers(rules.clone() + "9:s0", (SYNTAX, rules.len() + 4));
    answers(of_nodes(1, MAX_NODES, "!") + "0:s0\n", (FULL, 2));
}

#[test]
fn depth() {
    let deep = |place| (DEEP, place);
    answers(nested(MAX_DEPTH, "s0"), (OK, 0));
    answers(nested(MAX_DEPTH + 1, "s0"), deep(2 + MAX_DEPTH));
    answers(nested(500, "s0"), deep(2 + MAX_DEPTH));
    // Open at once is what counts.
    let twice = nested(MAX_DEPTH, "s0").replace('\n', "");
    answers(format!("{twice}&{}\n", &twice[2..]), (OK, 0));
    answers(format!("{twice}&({})\n", &twice[2..]), deep(twice.len() + 2 + MAX_DEPTH - 1));
    answers(format!("{twice}\n2{}\n", &twice[1..]), (OK, 0));
    // Before it a fault; at it one that is no fit place for a bracket.
    answers(nested(MAX_DEPTH + 1, "s0").replacen('(', "x", 1), (SYNTAX, 2));
    answers(nested(MAX_DEPTH, "s0("), (SYNTAX, 2 + MAX_DEPTH + 2));
    answers(nested(MAX_DEPTH, ")("), (SYNTAX, 2 + MAX_DEPTH));
    answers(nested(MAX_DEPTH, "F("), (SYNTAX, 2 + MAX_DEPTH + 1));
    answers(nested(MAX_DEPTH, "!  (x"), deep(2 + MAX_DEPTH + 3));
    answers(nested(MAX_DEPTH, "s0&(s32)"), deep(2 + MAX_DEPTH + 3));
    answers(nested(MAX_DEPTH, "s0|(s32)"), deep(2 + MAX_DEPTH + 3));
    answers(nested(MAX_DEPTH, "s0U[0,1]("), deep(2 + MAX_DEPTH + 8));
    answers(format!("1:s32\n{}", nested(MAX_DEPTH + 1, "s0")), (ARGUMENT, 1));
    answers(format!("9:s0\n{}", nested(MAX_DEPTH + 1, "s32")), deep(5 + 2 + MAX_DEPTH));
}

/// Lines of millions of bytes.
const MANY: usize = 3_000_000;
const FEWER: usize = 300_000;

#[test]
fn long_chains() {
    let case = |parts: &[(&str, usize)], want| answers(repeated(&[&[("1:", 1)], parts].concat()), want);
    // Prefixes, and the number that a line of them gets.
    let prefixes = [("!", FULL, MANY), ("F[0,1]", FULL, MANY), ("G[ 0, 0]", FULL, FEWER), ("!F[0,4095]", LONG, FEWER), ("G[1,0]!", INTERVAL, FEWER)];
    for (prefix, number, times) in prefixes {
        let end = 2 + times * prefix.len();
        case(&[(prefix, times), ("s0\n", 1)], (number, 1));
        case(&[(prefix, times), ("s32\n", 1)], (ARGUMENT, 1));
        case(&[(prefix, times), ("F[1,0]s0\n", 1)], (INTERVAL, 1));
        case(&[(prefix, times), ("F[0,4095]F[0,1]s0\n", 1)], (LONG, 1));
        case(&[(prefix, times)], (SYNTAX, end));
        case(&[(prefix, times), ("\n", 1)], (SYNTAX, end));
        case(&[(prefix, times), ("(", 40)], (DEEP, end + MAX_DEPTH));
    }
    for (operand, times) in [("s1&", MANY), ("s1|", MANY), ("(s1)&", FEWER), ("!s1|", FEWER), ("s1&s2|", FEWER), ("(s0U[0,1]s1)&", FEWER)] {
        let end = 2 + times * operand.len();
        case(&[(operand, times), ("s0\n", 1)], (FULL, 1));
        case(&[("s32|", 1), (operand, times), ("s0\n", 1)], (ARGUMENT, 1));
        case(&[(operand, times), ("s0U[0,1]s1\n", 1)], (SYNTAX, end + 2));
        case(&[(operand, times), ("\n", 1)], (SYNTAX, end));
        case(&[(operand, times), ("(", 40)], (DEEP, end + MAX_DEPTH));
    }
    case(&[("(", MANY)], (DEEP, 2 + MAX_DEPTH));
    case(&[("!", MANY), ("(", 1), ("s1&", MANY), ("s1)&s", 1)], (SYNTAX, 2 + 4 * MANY + 6));
    case(&[("(", MAX_DEPTH), ("s1&", MANY), ("(", 1)], (DEEP, 2 + MAX_DEPTH + 3 * MANY));
}

#[test]
fn long_gaps() {
    let spaces = " ".repeat(MANY / 10);
    let spaced = |tokens: &str| tokens.split(' ').map(|token| spaces.clone() + token).collect::<String>();
    answers(spaced("1 : ( s0 & true ) U [ 0 , 1 ] ! s1 \n"), (OK, 0));
    answers(spaced("1 : s32 \n"), (ARGUMENT, 1));
    answers(spaced("0 : s0 \n"), (ARGUMENT, 1));
    answers(spaced("1 : F [ 1 , 0 ] s0 \n"), (INTERVAL, 1));
    answers(spaced("1 : F [ 0 , 4095 ] F [ 0 , 1 ] s0 \n"), (LONG, 1));
    answers(spaced("1 : s0 \n 1 : s0 \n"), (NAME, 2));
    answers((1..=9).map(|name| spaced(&format!("{name}:s0 \n"))).collect::<String>(), (FULL, 9));
    answers(spaced("1 : s0 x"), (SYNTAX, 4 * (spaces.len() + 1)));
    answers(spaced("1 : s0 "), (SYNTAX, 4 * spaces.len() + 4));
    answers(format!("1:{}", (spaces.clone() + "(").repeat(33)), (DEEP, 2 + 33 * spaces.len() + 32));
    answers(" ".repeat(MANY), (SYNTAX, MANY));
    answers("1:s0\n".to_string() + &" ".repeat(MANY), (SYNTAX, MANY + 5));
}

#[test]
fn long_numbers() {
    let (nines, zeros) = ("9".repeat(MANY), "0".repeat(MANY));
    answers(format!("1:s{nines}\n"), (ARGUMENT, 1));
    answers(format!("1:s1{zeros}\n"), (ARGUMENT, 1));
    answers(format!("{nines}:s0\n"), (ARGUMENT, 1));
    answers(format!("1{zeros}:s0\n"), (ARGUMENT, 1));
    answers(format!("65535{zeros}:s0\n"), (ARGUMENT, 1));
    answers(format!("{nines}:F[1,0]s0\n"), (INTERVAL, 1));
    answers(format!("1:F[{nines},{nines}]s0\n"), (INTERVAL, 1));
    answers(format!("1:G[0,1{zeros}]s0\n"), (INTERVAL, 1));
    answers(format!("1:s0U[{nines},1]s1\n"), (INTERVAL, 1));
    answers(format!("1:s0R[{nines},1{zeros}]s1\n"), (INTERVAL, 1));
    answers(format!("1:s{zeros}\n"), (SYNTAX, 4));
    answers(nines.as_bytes(), (SYNTAX, MANY));
    answers(format!("1:s{nines}"), (SYNTAX, 3 + MANY));
    answers(format!("1:s{nines} 1"), (SYNTAX, 3 + MANY + 1));
}

/// The table of a text through its book: what is written of it, and read again.
fn through_the_book(text: &[u8]) -> TableBytes {
    let (mut table, mut again, mut out) = ([0; TABLE_BYTES], [0xaa; TABLE_BYTES], [0; WRITTEN_BYTES]);
    assert_eq!(read_text(text, &mut table), (OK, 0), "{}", shown(text));
    let (number, length) = write(&table, &mut out);
    assert_eq!((number, read(&out[..length], &mut again)), (OK, (OK, 0)), "{}", shown(text));
    same(&format!("table of {}", shown(text)), &again, &table);
    again
}

/// Each name, and each number above them up to twice as large.
#[test]
fn every_name() {
    for name in 1..=MAX_NAME {
        let text = format!("{name}:s0\n");
        assert_eq!(compare(text.as_bytes()), (OK, 0), "{name}");
        assert_eq!(through_the_book(text.as_bytes())[rule_at(0)..rule_at(1)], [name as u8, (name >> 8) as u8, 0, 0]);
    }
    for name in MAX_NAME + 1..=2 * (MAX_NAME + 1) {
        assert_eq!(compare(format!("{name}:s0\n").as_bytes()), (ARGUMENT, 1), "{name}");
    }
}

/// Two lines with the same name are refused, and with any other two names they are not.
#[test]
fn names_used_twice() {
    for first in EDGE_NAMES {
        for second in EDGE_NAMES {
            answers(format!("{first}:s0\n{second}:s0\n"), if first == second { (NAME, 2) } else { (OK, 0) });
        }
    }
}

#[test]
fn a_typed_table_gives_the_books_verdicts() {
    let mut r = Random(54);
    let mut yes = [0u64; 2];
    for _ in 0..600 {
        let typed = any_lines(&mut r, MAX_RULES);
        let table = typed::table(&typed);
        let (mut of_text, mut of_book) = ([0; TABLE_BYTES], [0; TABLE_BYTES]);
        let text = text(&mut r, &typed);
        assert_eq!(read_text(&text, &mut of_text), (OK, 0));
        assert_eq!(read(&book(&mut r, &table), &mut of_book), (OK, 0));
        same("table of the book", &of_book, &of_text);
        same("table through the book", &through_the_book(&text), &of_text);
        let n = r.pick(&[1, 64, 200, MAX_TRACE]);
        let states = trace(&mut r, n);
        for rule in 0..typed.len() {
            let words = [of_text, of_book].map(|bytes| {
                let (mut scratch, mut out) = ([0; SCRATCH_WORDS], vec![0; whole_words(n)]);
                assert_eq!(verdicts(&bytes, rule as u32, &states, &mut scratch, &mut out), OK);
                out
            });
            same("verdicts", &words[0], &words[1]);
            let given: Vec<bool> = (0..n).map(|t| words[0][t / 64] >> (t % 64) & 1 == 1).collect();
            same("verdicts by the model", &given, &table.rule_verdicts(rule, &states));
            given.iter().for_each(|verdict| yes[*verdict as usize] += 1);
        }
    }
    assert!(yes[0].min(yes[1]) > 100_000, "{yes:?}");
}
