//! Sessions: every call against the model, and the joined verdicts against the naive evaluator.
use juntreak_tests::compared::{bits, close, feed, lengths};
use juntreak_tests::header::limits::{
    CLOSE_WORDS, FEED_WORDS, HISTORY_WORDS, MAX_BLOCK, MAX_DELAY, MAX_NAME, MAX_NARROW_SEEN, MAX_NODES, MAX_RULES, MAX_SEEN, SCRATCH_WORDS, SESSION_BYTES,
    TABLE_BYTES,
};
use juntreak_tests::header::places::{rule_at, RULE_NUMBER_AT, SEEN_AT};
use juntreak_tests::header::refusals::{ABSENT, BUFFER, OK, SEEN, STATES, UNSOUND};
use juntreak_tests::header::NUMBERS;
use juntreak_tests::library::{self, open, read, simplify, SessionBytes};
use juntreak_tests::model::{self, Delay::New, Node, Rule, Session, Table, Width::Wide};
use juntreak_tests::random::{any_count, block_length, book, count_beside, damage, redundant, short_words, table, trace, words, Random};
use juntreak_tests::same;

/// The length of a block, a long one where that is asked for.
fn any_length(r: &mut Random, long: bool) -> usize {
    if long && r.chance(2) {
        MAX_BLOCK - r.pick(&[0, 0, 1, 60])
    } else {
        block_length(r)
    }
}

/// Calls whose session or buffers are not the list's own, or that are refused; the list's own stay as they were.
fn aside(r: &mut Random, session: &SessionBytes, history: &[u32], seen: &mut [u32; NUMBERS]) {
    let (mut s, mut h) = (*session, history.to_vec());
    let (mut x, mut o) = (words(r, SCRATCH_WORDS), words(r, CLOSE_WORDS));
    let mut k = r.below(40) as usize;
    for _ in 0..1 + r.below(2) {
        match r.below(7) {
            0 => damage(r, &mut s),
            1 => k = r.pick(&[MAX_BLOCK + 1, MAX_BLOCK + 2, 2000]),
            2 => h.truncate(r.pick(&[0, 1, HISTORY_WORDS - 1])),
            3 => x.truncate(r.pick(&[0, 1, SCRATCH_WORDS - 1])),
            4 => o.truncate(r.pick(&[0, FEED_WORDS - 1, FEED_WORDS, CLOSE_WORDS - 1])),
            5 => {
                // Another session, with any count of states seen.
                let count = 1 + r.below(10) as usize;
                let t = table(r, count, 300);
                let rule = r.below(t.rules.len() as u64 + 1) as u32;
                s = Session { table: t, rule, seen: any_count(r) }.bytes();
            }
            _ => s[SEEN_AT..].copy_from_slice(&any_count(r).to_le_bytes()),
        }
    }
    let number = if r.chance(3) {
        close(&mut s, &h, &mut x, &mut o).0
    } else {
        let block = short_words(r, k);
        feed(&mut s, &block, &mut h, &mut x, &mut o).0
    };
    seen[number as usize] += 1;
}

#[test]
fn random_lists_of_calls() {
    let mut r = Random(31);
    let mut seen = [0u32; NUMBERS];
    let (mut accepted, mut before_close, mut at_close) = (0u32, 0usize, 0usize);
    for round in 0..3_500u32 {
        // A book, its table, the simplified table, a session.
        let count = if r.chance(40) { MAX_NODES } else { 1 + r.below(12) as usize };
        let longest = r.pick(&[MAX_DELAY, 1100, 300, 70, 9, 9, 0]);
        let t = if r.chance(2) { redundant(&mut r, count, longest) } else { table(&mut r, count, longest) };
        let b = book(&mut r, &t);
        let mut bytes = [round as u8; TABLE_BYTES];
        assert_eq!(read(&b, &mut bytes), (OK, 0));
        assert!(bytes == t.bytes());
        let mut simple = bytes;
        assert_eq!(simplify(&mut simple), OK);
        let rule = r.below(t.rules.len() as u64) as usize;
        let (mut session, mut wanted) = ([round as u8; SESSION_BYTES], [round as u8; SESSION_BYTES]);
        assert_eq!(open(&simple, rule as u32, &mut session), OK);
        assert_eq!(model::open(New, &simple, rule as u32, &mut wanted), OK);
        assert_eq!(session, wanted);
        let d = model::sound(&simple).unwrap().rule_delay(rule) as usize;

        // One or two traces on the session; history may hold anything at the start of each.
        let extra = r.below(3) as usize;
        let mut history = short_words(&mut r, HISTORY_WORDS + extra);
        for _ in 0..1 + r.below(2) {
            let start = history.clone();
            let long = longest >= 1000 && r.chance(2);
            let (mut fed, mut given): (Vec<u32>, Vec<bool>) = (vec![], vec![]);
            for _ in 0..r.below(9) {
                if r.chance(4) {
                    aside(&mut r, &session, &history, &mut seen);
                    continue;
                }
                if r.chance(8) {
                    // A close on copies gives the verdicts of the trace so far.
                    let (mut s, mut x, mut o) = (session, words(&mut r, SCRATCH_WORDS), words(&mut r, CLOSE_WORDS + 2));
                    let (number, count) = close(&mut s, &history, &mut x, &mut o);
                    assert_eq!(number, OK);
                    let joined = [given.clone(), bits(&o, count)].concat();
                    assert!(joined == t.rule_verdicts(rule, &fed), "{t:?} rule {rule}");
                    continue;
                }
                if r.chance(6) {
                    // The list's own session and history, refused: both are unchanged.
                    let (s, h) = (session, history.clone());
                    let (k, x, o) = r.pick(&[
                        (MAX_BLOCK + 1, SCRATCH_WORDS, FEED_WORDS),
                        (MAX_BLOCK, SCRATCH_WORDS - 1, FEED_WORDS),
                        (3, SCRATCH_WORDS, FEED_WORDS - 1),
                        (0, 0, 0),
                    ]);
                    let block = trace(&mut r, k);
                    let (mut x, mut o) = (words(&mut r, x), words(&mut r, o));
                    let (number, count) = feed(&mut session, &block, &mut history, &mut x, &mut o);
                    assert_eq!((number, count), (if k > MAX_BLOCK { STATES } else { BUFFER }, 0));
                    assert_eq!(close(&mut session, &history, &mut x[..0], &mut o), (BUFFER, 0));
                    assert!(session == s && history == h);
                    seen[number as usize] += 1;
                    continue;
                }
                let k = any_length(&mut r, long);
                let block = trace(&mut r, k);
                let (x, o) = (SCRATCH_WORDS + r.below(3) as usize, FEED_WORDS + r.below(3) as usize);
                let (mut x, mut o) = (words(&mut r, x), words(&mut r, o));
                let (number, count) = feed(&mut session, &block, &mut history, &mut x, &mut o);
                assert_eq!(number, OK);
                accepted += 1;
                fed.extend(block);
                given.extend(bits(&o, count));
                assert_eq!(given.len(), fed.len().saturating_sub(d));
                let kept = fed.len().min(d);
                same("kept states", &history[..kept], &fed[fed.len() - kept..]);
                same("other places", &history[kept..], &start[kept..]);
            }
            before_close += given.len();
            // The verdicts so far hold on any trace that begins so.
            let n = r.below(60) as usize;
            let longer = [fed.clone(), trace(&mut r, n)].concat();
            assert!(given == t.rule_verdicts(rule, &longer)[..given.len()], "{t:?} rule {rule}");
            let (mut x, mut o) = (words(&mut r, SCRATCH_WORDS + 1), words(&mut r, CLOSE_WORDS + 1));
            let (number, count) = close(&mut session, &history, &mut x, &mut o);
            assert_eq!(number, OK);
            at_close += count as usize;
            given.extend(bits(&o, count));
            assert_eq!(given.len(), fed.len());
            assert!(given == t.rule_verdicts(rule, &fed), "{t:?} rule {rule}");
            if fed.len() <= 150 {
                assert!(given == t.verdicts(t.rules[rule].watched as usize, &fed), "{t:?} rule {rule}");
            }
        }
    }
    for number in [OK, STATES, BUFFER, SEEN, UNSOUND] {
        let times = seen[number as usize];
        assert!(times > 20, "{number} was seen {times} times");
    }
    assert!(accepted > 5_000 && before_close > 10_000 && at_close > 10_000, "{accepted} {before_close} {at_close}");
}

#[test]
fn openings() {
    let mut r = Random(32);
    let mut seen = [0u32; NUMBERS];
    for round in 0..10_000u32 {
        let count = 1 + r.below(MAX_NODES as u64) as usize;
        let mut bytes = table(&mut r, count, MAX_DELAY).bytes();
        if r.chance(2) {
            damage(&mut r, &mut bytes);
        }
        for rule in [0, 1, 7, 8, 256, u32::MAX] {
            let (mut session, mut wanted) = ([round as u8; SESSION_BYTES], [round as u8; SESSION_BYTES]);
            let number = open(&bytes, rule, &mut session);
            assert_eq!(number, model::open(New, &bytes, rule, &mut wanted));
            assert_eq!(session, wanted);
            seen[number as usize] += 1;
        }
    }
    assert!([OK, ABSENT, UNSOUND].iter().all(|n| seen[*n as usize] > 1000));
}

/// A running session that is handed to a refused open goes on as if nothing had been.
#[test]
fn refused_open_leaves_a_running_session() {
    let mut r = Random(35);
    let mut refused = 0;
    for _ in 0..500 {
        let count = 1 + r.below(12) as usize;
        let t = table(&mut r, count, 70);
        let mut session = [0; SESSION_BYTES];
        assert_eq!(open(&t.bytes(), 0, &mut session), OK);
        let (mut history, mut x, mut o) = (vec![0; HISTORY_WORDS], vec![0; SCRATCH_WORDS], vec![0; CLOSE_WORDS]);
        let states = trace(&mut r, 300);
        let mut given = vec![];
        for block in states.chunks(100) {
            let (_, n) = feed(&mut session, block, &mut history, &mut x, &mut o);
            given.extend(bits(&o, n));
            let mut bytes = t.bytes();
            let rule = if r.chance(2) { t.rules.len() as u32 } else { 0 };
            damage(&mut r, &mut bytes);
            if model::open(New, &bytes, rule, &mut session.clone()) != OK {
                let before = session;
                assert_ne!(open(&bytes, rule, &mut session), OK);
                assert_eq!(session, before);
                refused += 1;
            }
        }
        let (_, n) = close(&mut session, &history, &mut x, &mut o);
        given.extend(bits(&o, n));
        assert_eq!(given, t.rule_verdicts(0, &states));
    }
    assert!(refused > 500, "{refused}");
}

/// Bytes that are no session's: each is refused as unsound before anything else is looked at.
#[test]
fn bytes_that_are_no_session() {
    let mut r = Random(33);
    let (mut sessions, mut others) = (0, 0);
    for _ in 0..6_000 {
        let count = 1 + r.below(20) as usize;
        let t = table(&mut r, count, 70);
        let rule = r.below(t.rules.len() as u64) as u32;
        let mut s = Session { table: t, rule, seen: any_count(&mut r) }.bytes();
        match r.below(4) {
            0 => s[RULE_NUMBER_AT + r.below(4) as usize] = r.next() as u8,
            // Every count is a session's.
            1 => s[SEEN_AT + r.below(8) as usize] = r.next() as u8,
            2 => s[rule_at(r.below(MAX_RULES as u64) as usize) + 3] = r.next() as u8,
            _ => damage(&mut r, &mut s),
        }
        let is_session = model::session(Wide, New, &s).is_some();
        *(if is_session { &mut sessions } else { &mut others }) += 1;
        let short = r.chance(3);
        let (h, x, o) = if short { (HISTORY_WORDS - 1, SCRATCH_WORDS - 1, FEED_WORDS - 1) } else { (HISTORY_WORDS, SCRATCH_WORDS, CLOSE_WORDS) };
        let (mut h, mut x, mut o) = (short_words(&mut r, h), words(&mut r, x), words(&mut r, o));
        let k = if r.chance(3) { MAX_BLOCK + 1 } else { 5 };
        let block = trace(&mut r, k);
        let mut closed = s;
        let (f, _) = feed(&mut s, &block, &mut h, &mut x, &mut o);
        let (c, _) = close(&mut closed, &h, &mut x, &mut o);
        if !is_session {
            assert_eq!((f, c), (UNSOUND, UNSOUND));
        } else if k > MAX_BLOCK {
            assert_eq!(f, STATES);
        }
    }
    assert!(sessions > 1000 && others > 1000, "{sessions} {others}");
}

/// F[1,3] p, with a rule that watches it.
fn worked() -> Table {
    let p = Node { kind: 1, arg: 0, lo: 0, hi: 0, left: 0, right: 0 };
    let f = Node { kind: 7, arg: 0, lo: 1, hi: 3, left: 0, right: 0 };
    Table { nodes: vec![p, f], rules: vec![Rule { name: 7, watched: 1 }] }
}

/// The order of a feed's and a close's refusals, and the last states that a session can see.
#[test]
fn limits() {
    let mut r = Random(34);
    let (last, block) = (MAX_SEEN as u64, MAX_BLOCK as u64);
    let named = |name| Table { rules: vec![Rule { name, watched: 1 }], ..worked() };
    let (fit, large, absent, unsound) = ((worked(), 0), (named(MAX_NAME as u16), 0), (worked(), 1), (named(0), 0));
    for ((table, rule), seen, k, wanted) in [
        (&fit, last, 0, OK),
        (&fit, last, 1, SEEN),
        (&fit, last, MAX_BLOCK, SEEN),
        (&fit, last - 1, 1, OK),
        (&fit, last - 1, 2, SEEN),
        (&fit, last - block, MAX_BLOCK, OK),
        (&fit, last - block + 1, MAX_BLOCK, SEEN),
        (&fit, MAX_NARROW_SEEN as u64, 1, OK),
        (&fit, MAX_NARROW_SEEN as u64, MAX_BLOCK, OK),
        (&fit, MAX_NARROW_SEEN as u64 + 1, MAX_BLOCK, OK),
        (&fit, 0, MAX_BLOCK, OK),
        (&large, 0, MAX_BLOCK, OK),
        (&large, last, 1, SEEN),
        (&fit, 0, MAX_BLOCK + 1, STATES),
        (&fit, last, MAX_BLOCK + 1, STATES),
        (&absent, 0, 0, UNSOUND),
        (&absent, last, 1, UNSOUND),
        (&absent, last, MAX_BLOCK + 1, UNSOUND),
        (&unsound, 0, 0, UNSOUND),
        (&unsound, last, 1, UNSOUND),
        (&unsound, last, MAX_BLOCK + 1, UNSOUND),
    ] {
        let s = Session { table: table.clone(), rule: *rule, seen }.bytes();
        let block = trace(&mut r, k);
        for (h, x, o) in lengths(FEED_WORDS) {
            let short = h < HISTORY_WORDS || x < SCRATCH_WORDS || o < FEED_WORDS;
            let (mut h, mut x, mut o) = (short_words(&mut r, h), words(&mut r, x), words(&mut r, o));
            let mut session = s;
            let (number, count) = feed(&mut session, &block, &mut h, &mut x, &mut o);
            let first = if short && !matches!(wanted, STATES | UNSOUND) { BUFFER } else { wanted };
            assert_eq!(number, first);
            // Once three states are seen, each further one gives a verdict.
            let verdicts = if number != OK { 0 } else if seen == 0 { k as u32 - 3 } else { k as u32 };
            assert_eq!(count, verdicts);
        }
        for (h, x, o) in lengths(CLOSE_WORDS) {
            let short = h < HISTORY_WORDS || x < SCRATCH_WORDS || o < CLOSE_WORDS;
            let (h, mut x, mut o) = (short_words(&mut r, h), words(&mut r, x), words(&mut r, o));
            let mut session = s;
            let (number, count) = close(&mut session, &h, &mut x, &mut o);
            let first = if wanted == UNSOUND { UNSOUND } else if short { BUFFER } else { OK };
            assert_eq!(number, first);
            assert_eq!(count, if first == OK { seen.min(3) as u32 } else { 0 });
        }
    }
}

/// A feed of k states and a close on a session that has seen so many.
fn at_count(r: &mut Random, table: &Table, rule: u32, seen: u64, k: usize) {
    let session = Session { table: table.clone(), rule, seen }.bytes();
    let (mut x, mut o) = (words(r, SCRATCH_WORDS), words(r, CLOSE_WORDS));
    let (block, mut history) = (trace(r, k), trace(r, HISTORY_WORDS));
    let (mut fed, mut closed) = (session, session);
    let delay = table.rule_delay(rule as usize) as u64;
    assert_eq!(close(&mut closed, &history, &mut x, &mut o), (OK, seen.min(delay) as u32));
    assert_eq!(closed[SEEN_AT..], [0; 8]);
    let (number, _) = feed(&mut fed, &block, &mut history, &mut x, &mut o);
    let after = seen as u128 + k as u128;
    assert_eq!(number, if k > MAX_BLOCK { STATES } else if after > u64::MAX as u128 { SEEN } else { OK });
    assert_eq!(fed[SEEN_AT..], (if number == OK { after } else { seen as u128 }).to_le_bytes()[..8]);
}

/// Every count beside the limits of both widths.
#[test]
fn counts_beside_the_limits() {
    let mut r = Random(36);
    let (narrow, wide, beside) = (MAX_NARROW_SEEN as u64, MAX_SEEN as u64, MAX_BLOCK as u64 + 1);
    for seen in (narrow - beside..=narrow + beside).chain(wide - beside..=wide) {
        for k in [0, 1, MAX_BLOCK - 1, MAX_BLOCK, MAX_BLOCK + 1] {
            at_count(&mut r, &worked(), 0, seen, k);
        }
    }
}

/// Any count, of rules with any delay.
#[test]
fn counts_and_delays() {
    let mut r = Random(37);
    for _ in 0..2_500 {
        let count = 1 + r.below(8) as usize;
        let longest = r.pick(&[MAX_DELAY, 1100, 300, 9, 0]);
        let t = table(&mut r, count, longest);
        let rule = r.below(t.rules.len() as u64) as u32;
        let seen = count_beside(&mut r, t.rule_delay(rule as usize));
        let k = block_length(&mut r);
        at_count(&mut r, &t, rule, seen, k);
    }
}

/// The count's bytes, lowest first, where a feed carries from one to the next.
#[test]
fn the_bytes_of_a_count() {
    let mut r = Random(38);
    for (before, k, after) in [
        ([0xff, 0, 0, 0, 0, 0, 0, 0], 1, [0, 1, 0, 0, 0, 0, 0, 0]),
        ([0xff, 0xff, 0xff, 0xff, 0, 0, 0, 0], 0, [0xff, 0xff, 0xff, 0xff, 0, 0, 0, 0]),
        ([0xff, 0xff, 0xff, 0xff, 0, 0, 0, 0], 1, [0, 0, 0, 0, 1, 0, 0, 0]),
        ([0xff, 0xff, 0xff, 0xff, 0, 0, 0, 0], 1024, [0xff, 3, 0, 0, 1, 0, 0, 0]),
        ([0, 0, 0, 0, 1, 0, 0, 0], 0, [0, 0, 0, 0, 1, 0, 0, 0]),
        ([0, 0, 0, 0, 1, 0, 0, 0], 1, [1, 0, 0, 0, 1, 0, 0, 0]),
        ([0xff, 0xff, 0xff, 0xff, 0xff, 0, 0, 0], 1, [0, 0, 0, 0, 0, 1, 0, 0]),
        ([0xff, 0xff, 0xff, 0xff, 0xff, 0xff, 0, 0], 2, [1, 0, 0, 0, 0, 0, 1, 0]),
        ([0xff, 0xff, 0xff, 0xff, 0xff, 0xff, 0xff, 0], 3, [2, 0, 0, 0, 0, 0, 0, 1]),
        ([0xff, 0xff, 0xff, 0xff, 0xff, 0xff, 0xff, 0x7f], 1, [0, 0, 0, 0, 0, 0, 0, 0x80]),
        ([8, 7, 6, 5, 4, 3, 2, 1], 1023, [7, 11, 6, 5, 4, 3, 2, 1]),
        ([0xff, 0xfb, 0xff, 0xff, 0xff, 0xff, 0xff, 0xff], 1024, [0xff; 8]),
        ([0xff; 8], 0, [0xff; 8]),
    ] {
        let mut session = Session { table: worked(), rule: 0, seen: u64::from_le_bytes(before) }.bytes();
        let opened = session;
        assert_eq!(session[SEEN_AT..], before);
        let (mut history, mut x, mut o) = (trace(&mut r, HISTORY_WORDS), words(&mut r, SCRATCH_WORDS), words(&mut r, CLOSE_WORDS));
        let block = trace(&mut r, k);
        assert_eq!(feed(&mut session, &block, &mut history, &mut x, &mut o), (OK, k as u32));
        assert_eq!(session[SEEN_AT..], after);
        assert_eq!(close(&mut session, &history, &mut x, &mut o), (OK, 3));
        assert_eq!(session[SEEN_AT..], [0; 8]);
        assert_eq!(session[..SEEN_AT], opened[..SEEN_AT]);
    }
}

#[test]
fn worked_session() {
    let mut r = Random(35);
    let mut session = [0xaa; SESSION_BYTES];
    let number = open(&worked().bytes(), 0, &mut session);
    assert_eq!(number, OK);
    assert_eq!(library::delay(&worked().bytes(), 0), (OK, 3));
    let mut history = short_words(&mut r, HISTORY_WORDS);
    let (mut x, mut o) = (words(&mut r, SCRATCH_WORDS), words(&mut r, CLOSE_WORDS));
    assert_eq!(feed(&mut session, &[2, 2, 1, 0, 2], &mut history, &mut x, &mut o), (OK, 2));
    assert_eq!((o[0], &history[..3]), (3, &[1, 0, 2][..]));
    assert_eq!(feed(&mut session, &[3, 0, 0], &mut history, &mut x, &mut o), (OK, 3));
    assert_eq!((o[0], &history[..3]), (7, &[3, 0, 0][..]));
    assert_eq!(close(&mut session, &history, &mut x, &mut o), (OK, 3));
    assert_eq!((o[0], &history[..3]), (0, &[3, 0, 0][..]));
    assert_eq!(session, Session { table: worked(), rule: 0, seen: 0 }.bytes());
}
