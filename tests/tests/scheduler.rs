//! Several rules over one table (A9): every call on a list of records against the model, every record beside a session of its own, and who is served when.
use juntreak_tests::compared::{self, bits, seen_in};
use juntreak_tests::header::limits::{
    CLOSE_WORDS, FEED_WORDS, HISTORY_WORDS, MAX_BLOCK, MAX_DELAY, MAX_LIST, MAX_NODES, MAX_RULES, MAX_SEEN, SCRATCH_WORDS, SESSION_BYTES, TABLE_BYTES, WAITING_WORDS,
};
use juntreak_tests::header::refusals::{BUFFER, LIST, OK, SEEN, STATES, UNSOUND, WAITING};
use juntreak_tests::library::{self, open, read, read_text, simplify, Record, SessionBytes, TableBytes};
use juntreak_tests::listed::{any_list, close_record, leave, number, turn, wild, Call, Counts, Lent, Memory, Work, AROUND, CALLS};
use juntreak_tests::model::{sound, Node, Rule, Table};
use juntreak_tests::random::{any_count, any_lines, any_table, block_length, book, damage, damaged_table, short_words, table, text, trace, words, Random};
use juntreak_tests::scheduled::{block_of, history_of, waiting_of, Turn};
use juntreak_tests::same;

// ---- schedules

/// A table as a book or a text yields it, and its bytes, simplified or not.
fn any_source(r: &mut Random, typed: bool, simplified: bool) -> (Table, TableBytes) {
    let mut bytes = [r.next() as u8; TABLE_BYTES];
    if typed {
        let lines = any_lines(r, MAX_RULES);
        assert_eq!(read_text(&text(r, &lines), &mut bytes), (OK, 0));
    } else {
        let count = if r.chance(40) { MAX_NODES } else { 1 + r.below(12) as usize };
        let longest = r.pick(&[MAX_DELAY, 1100, 300, 70, 9, 9, 0]);
        let t = any_table(r, count, longest);
        assert_eq!(read(&book(r, &t), &mut bytes), (OK, 0));
    }
    let t = sound(&bytes).unwrap();
    if simplified {
        assert_eq!(simplify(&mut bytes), OK);
    }
    (t, bytes)
}

/// A session of its own beside a record, opened on its rule and given the blocks served and the closes; its calls are compared with the model's.
struct Apart {
    rule: usize,
    session: SessionBytes,
    history: Vec<u32>,
    /// What the record's words of the waiting buffer hold.
    waiting: Vec<u32>,
    /// The blocks left with the record, and those that its turns took from the buffer.
    left: Vec<Vec<u32>>,
    served: Vec<Vec<u32>>,
    /// Since the last close.
    fed: Vec<u32>,
    given: Vec<bool>,
}

impl Apart {
    /// The block that was left and not yet served.
    fn waits(&self) -> Option<&Vec<u32>> {
        self.left.get(self.served.len())
    }

    fn record(&self) -> Record {
        Record { rule: self.rule as u64, seen: seen_in(&self.session), waiting: self.waits().map_or(0, |block| block.len() as u64) }
    }
}

struct Schedule {
    /// As it was read.
    t: Table,
    table: TableBytes,
    memory: Memory,
    apart: Vec<Apart>,
    /// As the last turn gave it back.
    place: usize,
}

impl Schedule {
    fn new(r: &mut Random, n: usize, (t, table): (Table, TableBytes)) -> Schedule {
        let rules: Vec<usize> = (0..n).map(|_| r.below(t.rules.len() as u64) as usize).collect();
        let records: Vec<Record> = rules.iter().map(|rule| Record { rule: *rule as u64, seen: 0, waiting: 0 }).collect();
        let memory = Memory::around(r, &records);
        let apart = |(i, rule): (usize, usize)| {
            let mut session = [0; SESSION_BYTES];
            assert_eq!(open(&table, rule as u32, &mut session), OK);
            let (history, waiting) = (memory.history[history_of(i)].to_vec(), memory.waiting[waiting_of(i)].to_vec());
            Apart { rule, session, history, waiting, left: vec![], served: vec![], fed: vec![], given: vec![] }
        };
        let apart = rules.into_iter().enumerate().map(apart).collect();
        let place = r.pick(&[0, n, usize::MAX, n / 2]);
        Schedule { t, table, memory, apart, place }
    }

    fn any_place(&self, r: &mut Random) -> usize {
        r.below(self.apart.len() as u64) as usize
    }

    /// The list and both buffers hold what the sessions apart say.
    fn check(&self) {
        for (i, a) in self.apart.iter().enumerate() {
            assert_eq!(self.memory.records[i], a.record(), "record {i}");
            same("history of a record", &self.memory.history[history_of(i)], &a.history);
            same("waiting states of a record", &self.memory.waiting[waiting_of(i)], &a.waiting);
            // Blocks left are the blocks served and what waits, in order.
            let blocks = a.served.iter().chain(a.waits());
            assert!(a.left.iter().eq(blocks), "record {i}: other blocks served than left");
        }
    }

    fn leave(&mut self, place: usize, block: Vec<u32>) -> u32 {
        let number = leave(&mut self.memory, &self.table, place, &block);
        let a = &mut self.apart[place];
        assert_eq!(number, if a.waits().is_some() { WAITING } else { OK });
        if number == OK {
            a.waiting[..block.len()].copy_from_slice(&block);
            a.left.push(block);
        }
        self.check();
        number
    }

    /// An accepted turn; whether it served a record, and how many verdicts it gave.
    fn turn(&mut self, r: &mut Random, place: usize) -> Option<u32> {
        let (records, mut w) = (self.memory.records.to_vec(), Work::around(r, FEED_WORDS));
        let turn = turn(&mut self.memory, &self.table, place, &mut w);
        assert_eq!(turn.number, OK);
        self.place = turn.place(place);
        if let Some(served) = turn.served {
            let a = &mut self.apart[served];
            let block = a.waits().expect("a record was served that does not wait").clone();
            let (mut x, mut o) = (words(r, SCRATCH_WORDS), words(r, FEED_WORDS));
            assert_eq!(compared::feed(&mut a.session, &block, &mut a.history, &mut x, &mut o), (OK, turn.count));
            same("out of a turn", &w.out[..FEED_WORDS], &o);
            a.served.push(block_of(&records, served, &self.memory.waiting).to_vec());
            a.fed.extend(block);
            a.given.extend(bits(&w.out, turn.count));
        } else {
            assert!(self.apart.iter().all(|a| a.waits().is_none()) && self.place == place);
        }
        self.check();
        turn.served.map(|_| turn.count)
    }

    /// The number and the count.
    fn close(&mut self, r: &mut Random, place: usize) -> (u32, u32) {
        let mut w = Work::around(r, CLOSE_WORDS);
        let (number, count) = close_record(&mut self.memory, &self.table, place, &mut w);
        let a = &mut self.apart[place];
        assert_eq!(number, if a.waits().is_some() { WAITING } else { OK });
        if number == OK {
            let (mut x, mut o) = (words(r, SCRATCH_WORDS), words(r, CLOSE_WORDS));
            assert_eq!(compared::close(&mut a.session, &a.history, &mut x, &mut o), (OK, count));
            same("out of a close", &w.out[..CLOSE_WORDS], &o);
            // The verdicts of the rule as it was read, on all that the record was fed.
            a.given.extend(bits(&w.out, count));
            assert!(a.given == self.t.rule_verdicts(a.rule, &a.fed), "{:?} rule {}", self.t, a.rule);
            a.given.clear();
            a.fed.clear();
        }
        self.check();
        (number, count)
    }

    /// The list's own memory, and a call that is refused whoever waits.
    fn refused(&mut self, r: &mut Random, counts: &mut Counts) {
        let n = self.apart.len();
        let (mut place, mut k, mut x, mut o) = (r.below(n as u64 + 1) as usize, 1, SCRATCH_WORDS, FEED_WORDS);
        let call = r.pick(&CALLS);
        let wanted = match call {
            Call::Leave => {
                (place, k) = r.pick(&[(place, 0), (n, 1), (usize::MAX, MAX_BLOCK), (place, MAX_BLOCK + 1), (usize::MAX, MAX_BLOCK + 1)]);
                if k > MAX_BLOCK { STATES } else { LIST }
            }
            Call::Turn => {
                (x, o) = r.pick(&[(x - 1, o), (x, o - 1), (0, 0)]);
                BUFFER
            }
            Call::Close => {
                let enough = CLOSE_WORDS;
                (place, x, o) = r.pick(&[(place, x - 1, enough), (place, x, enough - 1), (place, x, FEED_WORDS), (n, x, enough), (usize::MAX, x, enough)]);
                if x < SCRATCH_WORDS || o < CLOSE_WORDS { BUFFER } else { LIST }
            }
        };
        let w = Work::of(r, x, o);
        assert_eq!(number(r, call, &mut self.memory, &self.table, place, k, w), wanted);
        counts.add(call, wanted);
        self.check();
    }

    /// A call on a copy, with another list, other buffers or another table; the list's own stay as they were.
    fn aside(&self, r: &mut Random, counts: &mut Counts) {
        let (mut records, mut table, n) = (self.memory.records.to_vec(), self.table, self.apart.len());
        let (mut history, mut waiting, mut x, mut o) = (self.memory.history.to_vec(), self.memory.waiting.to_vec(), SCRATCH_WORDS, CLOSE_WORDS);
        let (mut place, mut k) = (r.below(n as u64 + 1) as usize, 1 + r.below(40) as usize);
        for _ in 0..1 + r.below(2) {
            match r.below(10) {
                0 => damage(r, &mut table),
                1 | 2 if !records.is_empty() => {
                    let i = r.below(records.len() as u64) as usize;
                    records[i] = wild(r, self.t.rules.len());
                }
                3 => {
                    records.resize(r.pick(&[n / 2, n + 1, MAX_LIST, MAX_LIST + 1]), Record::default());
                    history.resize(HISTORY_WORDS * records.len(), 0);
                    waiting.resize(WAITING_WORDS * records.len(), 0);
                }
                4 => history.truncate(r.pick(&[0, (HISTORY_WORDS * n).saturating_sub(1), HISTORY_WORDS])),
                5 => waiting.truncate(r.pick(&[0, (WAITING_WORDS * n).saturating_sub(1), WAITING_WORDS])),
                6 => (x, o) = r.pick(&[(x - 1, o), (x, o - 1), (x, FEED_WORDS), (x, FEED_WORDS - 1)]),
                7 => k = r.pick(&[0, MAX_BLOCK, MAX_BLOCK + 1]),
                // All have seen nearly all that they can.
                8 => records.iter_mut().for_each(|record| record.seen = MAX_SEEN as u64 - r.below(40)),
                _ => place = r.pick(&[n, n + 1, usize::MAX]),
            }
        }
        let mut memory = Memory { records: Lent::holding(r, &records), history: Lent::holding(r, &history), waiting: Lent::holding(r, &waiting) };
        let (call, w) = (r.pick(&CALLS), Work::of(r, x, o));
        counts.add(call, number(r, call, &mut memory, &table, place, k, w));
    }
}

#[test]
fn random_schedules() {
    let mut r = Random(91);
    let mut counts = Counts::none();
    let (mut shared, mut other_places) = (0, 0);
    let (mut turns, mut idle, mut closed, mut by_turns, mut by_closes) = (0, 0, 0, 0, 0);
    for round in 0..540 {
        let (n, source) = (round % (MAX_LIST + 1), round / (MAX_LIST + 1));
        let source = any_source(&mut r, source % 3 == 0, source % 4 > 0);
        let mut s = Schedule::new(&mut r, n, source);
        shared += u32::from((1..n).any(|i| s.apart[..i].iter().any(|a| a.rule == s.apart[i].rule)));
        let long = r.chance(4);
        for _ in 0..20 + r.below(50) {
            match r.below(20) {
                0..=7 if n > 0 => {
                    let (place, k) = (s.any_place(&mut r), if long { MAX_BLOCK - r.pick(&[0, 1, 60]) } else { block_length(&mut r).max(1) });
                    counts.add(Call::Leave, s.leave(place, trace(&mut r, k)));
                }
                8..=13 => {
                    // Now and then another place than the one given back: who is served is then another, the verdicts are not.
                    let other = r.chance(8);
                    let place = if other { r.pick(&[0, n / 2, n, n + 1, usize::MAX]) } else { s.place };
                    other_places += u32::from(other && place != s.place);
                    let served = s.turn(&mut r, place);
                    counts.add(Call::Turn, OK);
                    turns += u32::from(served.is_some());
                    idle += u32::from(served.is_none());
                    by_turns += served.unwrap_or(0);
                }
                14 | 15 if n > 0 => {
                    let place = s.any_place(&mut r);
                    let (number, count) = s.close(&mut r, place);
                    counts.add(Call::Close, number);
                    closed += u32::from(number == OK);
                    by_closes += count;
                }
                16 => s.refused(&mut r, &mut counts),
                _ => s.aside(&mut r, &mut counts),
            }
        }
        // All that waits is served, and every record closed.
        let waiting = s.apart.iter().filter(|a| a.waits().is_some()).count();
        for _ in 0..waiting {
            by_turns += s.turn(&mut r, s.place).expect("nobody was served");
        }
        assert_eq!(s.turn(&mut r, s.place), None);
        for place in 0..n {
            let (number, count) = s.close(&mut r, place);
            assert_eq!(number, OK);
            by_closes += count;
        }
        assert!(s.apart.iter().all(|a| a.left == a.served));
    }
    counts.enough(20);
    assert!(shared > 200 && other_places > 300, "{shared} {other_places}");
    assert!(turns > 3_000 && idle > 1_000 && closed > 500, "{turns} {idle} {closed}");
    assert!(by_turns > 500_000 && by_closes > 20_000, "{by_turns} {by_closes}");
}

// ---- refusals

/// The least lengths of history, waiting states, scratch and out for a call on n records.
fn least(call: Call, n: usize) -> [usize; 4] {
    [HISTORY_WORDS * n, WAITING_WORDS * n, SCRATCH_WORDS, if call == Call::Turn { FEED_WORDS } else { CLOSE_WORDS }]
}

/// Which of them the call is lent.
fn buffers(call: Call) -> &'static [usize] {
    match call {
        Call::Leave => &[1],
        Call::Turn => &[0, 1, 2, 3],
        Call::Close => &[0, 2, 3],
    }
}

/// What a call is made with.
struct Given {
    table: TableBytes,
    memory: Memory,
    place: usize,
    k: usize,
    work: Work,
}

/// The ways in which row 36 fits.
#[derive(Clone, Copy, PartialEq)]
enum Way {
    Empty,
    Outside,
    Many,
}

/// Just these rows fit: the table or a record is unfit, too many states, a buffer is short, 36, the record waits, its count would go too far. What
/// the record at the place, or the one to serve, has is given by the last two; other records are as they may be.
struct Rows {
    unfit: bool,
    states: bool,
    buffer: bool,
    list: bool,
    waits: bool,
    seen: bool,
}

fn with_rows(r: &mut Random, call: Call, rows: &Rows) -> Given {
    let count = 1 + r.below(12) as usize;
    let t = table(r, count, 300);
    let mut ways = vec![Way::Many];
    if call == Call::Leave && !rows.states && !rows.seen {
        ways.push(Way::Empty);
    }
    if call != Call::Turn && !rows.waits && !rows.seen {
        ways.push(Way::Outside);
    }
    let way = rows.list.then(|| r.pick(&ways));
    let n = if way == Some(Way::Many) { MAX_LIST + 1 + r.below(3) as usize } else { 1 + r.below(MAX_LIST as u64) as usize };
    let mut records = any_list(r, n, t.rules.len());
    let place = if way == Some(Way::Outside) { r.pick(&[n, n + 1, 1 << 32, usize::MAX]) } else { r.below(n as u64) as usize };
    let k = match call {
        Call::Leave if rows.states => r.pick(&[MAX_BLOCK + 1, MAX_BLOCK + 2, 2000]),
        Call::Leave if way == Some(Way::Empty) => 0,
        _ => r.pick(&[1, 2, MAX_BLOCK, 1 + r.0 as usize % MAX_BLOCK]),
    };
    // The record in question: a turn is about the first that waits after the place.
    let about = if call == Call::Turn { (place + 1) % n } else { place };
    if about < n {
        let last = MAX_SEEN as u64 - k as u64;
        let waits = call == Call::Turn || rows.waits;
        let waiting = if call == Call::Turn { k as u64 } else { r.pick(&[1, MAX_BLOCK as u64]) };
        let fit = any_count(r).min(last);
        let seen = if rows.seen { last + 1 + r.below(k as u64) } else { r.pick(&[0, last, fit]) };
        records[about] = Record { seen, waiting: if waits { waiting } else { 0 }, ..records[about] };
    }
    let mut bytes = t.bytes();
    if rows.unfit {
        match r.below(3) {
            0 => {
                while sound(&bytes).is_some() {
                    damage(r, &mut bytes);
                }
            }
            kind => {
                // Any record of the list, the last one often.
                let (rules, i) = (t.rules.len() as u64, r.pick(&[0, n - 1, n - 1, r.0 as usize % n]));
                if kind == 1 {
                    records[i].rule = r.pick(&[rules, 8, 1 << 32, u64::MAX]);
                } else {
                    records[i].waiting = r.pick(&[MAX_BLOCK as u64 + 1, 1 << 32, u64::MAX]);
                }
            }
        }
    }
    let mut lengths = least(call, n).map(|least| least + r.below(3) as usize);
    if rows.buffer {
        let which = r.pick(buffers(call));
        lengths[which] = least(call, n)[which] - r.pick(&[1, 1, 2, 10]);
    }
    let [history, waiting, scratch, out] = lengths;
    Given { table: bytes, memory: Memory::of(r, &records, history, waiting), place, k, work: Work::of(r, scratch, out) }
}

/// Every set of rows that fit a call at once: the first of them is told.
fn every_set(seed: u64, call: Call, numbers: &[u32]) {
    let mut r = Random(seed);
    for case in 0..1u32 << numbers.len() {
        let fits = |number: u32| numbers.iter().position(|n| *n == number).is_some_and(|bit| case >> bit & 1 == 1);
        let rows = Rows { unfit: fits(UNSOUND), states: fits(STATES), buffer: fits(BUFFER), list: fits(LIST), waits: fits(WAITING), seen: fits(SEEN) };
        let wanted = numbers.iter().copied().find(|n| fits(*n)).unwrap_or(OK);
        for _ in 0..24 {
            let mut g = with_rows(&mut r, call, &rows);
            let told = number(&mut r, call, &mut g.memory, &g.table, g.place, g.k, g.work);
            assert_eq!(told, wanted, "case {case}");
        }
    }
}

#[test]
fn refusals_of_leaving_and_their_order() {
    every_set(92, Call::Leave, &[UNSOUND, STATES, BUFFER, LIST, WAITING, SEEN]);
}

#[test]
fn refusals_of_a_turn_and_their_order() {
    every_set(93, Call::Turn, &[UNSOUND, BUFFER, LIST, SEEN]);
}

#[test]
fn refusals_of_a_close_and_their_order() {
    every_set(94, Call::Close, &[UNSOUND, BUFFER, LIST, WAITING]);
}

/// Lists, tables, places and buffers of any kind.
#[test]
fn any_call() {
    let mut r = Random(95);
    let mut counts = Counts::none();
    for round in 0..9_000 {
        let count = 1 + r.below(12) as usize;
        let t = table(&mut r, count, 70);
        let bytes = if r.chance(3) { damaged_table(&mut r, &t) } else { t.bytes() };
        let most = r.pick(&[3, 3, 3, 3, 11]);
        let n = r.below(most + 1) as usize;
        let records: Vec<Record> = if r.chance(2) { any_list(&mut r, n, t.rules.len()) } else { (0..n).map(|_| wild(&mut r, t.rules.len())).collect() };
        let mut least = |words: usize| if r.chance(16) { words.saturating_sub(1 + r.below(2) as usize) } else { words + r.below(3) as usize };
        let lengths = [HISTORY_WORDS * n, WAITING_WORDS * n, SCRATCH_WORDS, CLOSE_WORDS].map(&mut least);
        let mut memory = Memory::of(&mut r, &records, lengths[0], lengths[1]);
        let work = Work::of(&mut r, lengths[2], lengths[3]);
        let place = if r.chance(8) { r.pick(&[n, usize::MAX, 1 << 32]) } else { r.below(n as u64 + 1) as usize };
        let k = if r.chance(8) { r.pick(&[0, MAX_BLOCK + 1]) } else { 1 + r.below(MAX_BLOCK as u64) as usize };
        let call = CALLS[round % 3];
        counts.add(call, number(&mut r, call, &mut memory, &bytes, place, k, work));
    }
    counts.enough(20);
}

/// F[1,3] p, which two rules watch; a third watches p.
fn worked() -> Table {
    let p = Node { kind: 1, arg: 0, lo: 0, hi: 0, left: 0, right: 0 };
    let f = Node { kind: 7, arg: 0, lo: 1, hi: 3, left: 0, right: 0 };
    let rule = |name, watched| Rule { name, watched };
    Table { nodes: vec![p, f], rules: vec![rule(7, 1), rule(8, 1), rule(9, 0)] }
}

/// A list over `worked`.
fn list(r: &mut Random, records: &[(u64, u64, u64)]) -> Memory {
    let records: Vec<Record> = records.iter().map(|(rule, seen, waiting)| Record { rule: *rule, seen: *seen, waiting: *waiting }).collect();
    Memory::around(r, &records)
}

/// Lists of 0, 1, 8 and 9 records, and the places at their ends.
#[test]
fn lengths_of_lists() {
    let mut r = Random(96);
    let bytes = worked().bytes();
    let mut all = |records: &[(u64, u64, u64)], place: usize| {
        CALLS.map(|call| {
            let (mut memory, work) = (list(&mut r, records), Work::around(&mut r, CLOSE_WORDS));
            number(&mut r, call, &mut memory, &bytes, place, 5, work)
        })
    };
    for place in [0, 1, 8, usize::MAX] {
        assert_eq!(all(&[], place), [LIST, OK, LIST]);
    }
    assert_eq!(all(&[(2, 9, 0)], 0), [OK, OK, OK]);
    assert_eq!(all(&[(2, 9, 0)], 1), [LIST, OK, LIST]);
    let fit = (2, 9, 0);
    for place in [0, 6, 7] {
        assert_eq!(all(&[fit; 8], place), [OK, OK, OK]);
        assert_eq!(all(&[(2, 9, 3); 8], place), [WAITING, OK, WAITING]);
    }
    for place in [8, 9, usize::MAX] {
        assert_eq!(all(&[fit; 8], place), [LIST, OK, LIST]);
    }
    // A ninth record, and one that does not fit: that is told first.
    for place in [0, 7, 8, 9, usize::MAX] {
        assert_eq!(all(&[fit; 9], place), [LIST; 3]);
        for ninth in [(3, 9, 0), (u64::MAX, 9, 0), (2, 9, 1025), (2, 9, u64::MAX)] {
            assert_eq!(all(&[[fit; 8].as_slice(), &[ninth]].concat(), place), [UNSOUND; 3]);
        }
    }
    // Each record of a full list that does not fit, whatever the place.
    for bad in 0..MAX_LIST {
        for unfit in [(3, 9, 0), (1 << 32, 9, 0), (2, 9, 1025), (2, 9, 1 << 32)] {
            let mut records = [fit; MAX_LIST];
            records[bad] = unfit;
            assert_eq!(all(&records, bad), [UNSOUND; 3]);
            assert_eq!(all(&records, (bad + 1) % MAX_LIST), [UNSOUND; 3]);
        }
    }
}

/// Each buffer just long enough for the list, and one word short, whichever record the call is about.
#[test]
fn lengths_of_buffers() {
    let mut r = Random(97);
    let bytes = worked().bytes();
    for (n, waiting, short) in (1..=MAX_LIST).flat_map(|n| [0, 4].into_iter().flat_map(move |waiting| (0..=4).map(move |short| (n, waiting, short)))) {
        let records = vec![Record { rule: 1, seen: 9, waiting }; n];
        for (call, place) in CALLS.into_iter().flat_map(|call| [0, n - 1].map(|place| (call, place))) {
            let mut lengths = least(call, n);
            lengths.iter_mut().skip(short).take(1).for_each(|length| *length -= 1);
            let (mut memory, work) = (Memory::of(&mut r, &records, lengths[0], lengths[1]), Work::of(&mut r, lengths[2], lengths[3]));
            let wanted = if buffers(call).contains(&short) { BUFFER } else if waiting > 0 && call != Call::Turn { WAITING } else { OK };
            assert_eq!(number(&mut r, call, &mut memory, &bytes, place, 5, work), wanted);
        }
    }
}

/// Blocks of every length at the limits, with records at the limit of their count; what a record holds after each call.
#[test]
fn lengths_of_blocks_and_counts() {
    let mut r = Random(98);
    let (bytes, last) = (worked().bytes(), MAX_SEEN as u64);
    for (seen, k, wanted) in [
        (0, 0, LIST),
        (0, 1, OK),
        (0, MAX_BLOCK, OK),
        (0, MAX_BLOCK + 1, STATES),
        (last, 0, LIST),
        (last, 1, SEEN),
        (last, MAX_BLOCK, SEEN),
        (last, MAX_BLOCK + 1, STATES),
        (last - 1, 1, OK),
        (last - 1, 2, SEEN),
        (last - MAX_BLOCK as u64, MAX_BLOCK, OK),
        (last - MAX_BLOCK as u64 + 1, MAX_BLOCK, SEEN),
        (u32::MAX as u64, 1, OK),
        (u32::MAX as u64, MAX_BLOCK, OK),
    ] {
        for (n, place) in [(1, 0), (3, 1), (8, 0), (8, 7)] {
            // The others have seen all that they can, and do not wait.
            let mut records = vec![(2, last, 0); n];
            records[place] = (0, seen, 0);
            let mut m = list(&mut r, &records);
            let before = m.waiting.to_vec();
            let block = trace(&mut r, k);
            assert_eq!(leave(&mut m, &bytes, place, &block), wanted);
            if wanted == OK {
                let own = waiting_of(place);
                same("block left", &m.waiting[own.start..own.start + k], &block);
                same("words before it", &m.waiting[..own.start], &before[..own.start]);
                same("words behind it", &m.waiting[own.start + k..], &before[own.start + k..]);
                assert_eq!(m.records[place], Record { rule: 0, seen, waiting: k as u64 });
                assert_eq!(leave(&mut m, &bytes, place, &block), WAITING);
                let mut w = Work::around(&mut r, CLOSE_WORDS);
                assert_eq!(close_record(&mut m, &bytes, place, &mut w), (WAITING, 0));
                // Once three states are seen, each further one gives a verdict.
                let count = if seen == 0 { (k as u32).saturating_sub(3) } else { k as u32 };
                assert_eq!(turn(&mut m, &bytes, place, &mut w), Turn { number: OK, served: Some(place), count });
                assert_eq!(m.records[place], Record { rule: 0, seen: seen + k as u64, waiting: 0 });
                let kept = (seen + k as u64).min(3) as u32;
                assert_eq!(close_record(&mut m, &bytes, place, &mut w), (OK, kept));
                assert_eq!(m.records[place], Record { rule: 0, seen: 0, waiting: 0 });
            }
        }
    }
}

/// A turn is refused by the count of the record to serve, not by another's.
#[test]
fn the_count_of_the_record_to_serve() {
    let mut r = Random(99);
    let (bytes, last) = (worked().bytes(), MAX_SEEN as u64);
    let records = [(0, last, 1), (1, 5, 4), (2, last, 0), (2, last - 3, 4)];
    for (place, wanted) in [(4, Err(SEEN)), (usize::MAX, Err(SEEN)), (3, Err(SEEN)), (0, Ok(1)), (1, Err(SEEN)), (2, Err(SEEN))] {
        let (mut m, mut w) = (list(&mut r, &records), Work::around(&mut r, FEED_WORDS));
        let turn = turn(&mut m, &bytes, place, &mut w);
        assert_eq!(turn.served.ok_or(turn.number), wanted);
    }
    // Just as many as the count can hold.
    for waiting in [1, MAX_BLOCK as u64] {
        let (mut m, mut w) = (list(&mut r, &[(0, last - waiting, waiting)]), Work::around(&mut r, FEED_WORDS));
        assert_eq!(turn(&mut m, &bytes, 0, &mut w), Turn { number: OK, served: Some(0), count: waiting as u32 });
        assert_eq!(m.records[0], Record { rule: 0, seen: last, waiting: 0 });
    }
}

// ---- who is served

/// Every list of up to 8 records, with every set of them waiting, from every place: the next one round is served, and the answer tells it.
#[test]
fn whom_a_turn_serves() {
    let mut r = Random(100);
    let bytes = worked().bytes();
    let (mut history, waiting) = (short_words(&mut r, MAX_LIST * HISTORY_WORDS), short_words(&mut r, MAX_LIST * WAITING_WORDS));
    let (mut scratch, mut out) = (words(&mut r, SCRATCH_WORDS), words(&mut r, FEED_WORDS));
    for n in 0..=MAX_LIST {
        for set in 0..1u32 << n {
            for place in (0..=n + 1).chain([usize::MAX]) {
                let before: Vec<Record> = (0..n).map(|i| Record { rule: 2, seen: i as u64, waiting: u64::from(set >> i & 1) }).collect();
                let mut records = before.clone();
                let answer = library::turn(&mut records, &bytes, place, &mut history, &waiting, &mut scratch, &mut out);
                // Step by step from the place on.
                let mut at = if place < n { place } else { n.wrapping_sub(1) };
                let mut wanted = before;
                let mut told = 0;
                for _ in 0..n {
                    at = (at + 1) % n;
                    if wanted[at].waiting > 0 {
                        wanted[at] = Record { rule: 2, seen: at as u64 + 1, waiting: 0 };
                        told = 256 + 65536 * at as u64 + (1 << 32);
                        break;
                    }
                }
                assert_eq!((answer, records), (told, wanted), "{n} records, {set:#b} waiting, place {place}");
            }
        }
    }
}

/// Nobody waits: the turn says so, and changes only the scratch.
#[test]
fn idle_turns() {
    let mut r = Random(101);
    for n in 0..=MAX_LIST {
        for place in [0, 1, n.saturating_sub(1), n, n + 1, usize::MAX] {
            for round in 0..4 {
                let (_, table) = any_source(&mut r, round % 2 == 0, true);
                let rules = sound(&table).unwrap().rules.len() as u64;
                let records: Vec<Record> = (0..n).map(|_| Record { rule: r.below(rules), seen: any_count(&mut r), waiting: 0 }).collect();
                let (mut m, mut w) = (Memory::around(&mut r, &records), Work::around(&mut r, FEED_WORDS));
                let (memory, work) = (m.clone(), w.clone());
                let idle = turn(&mut m, &table, place, &mut w);
                assert_eq!((idle.answer(), idle.place(place)), (0, place));
                m.same(&memory);
                same("out", &w.out.0, &work.out.0);
                same("scratch", &w.scratch[..SCRATCH_WORDS], &[0; SCRATCH_WORDS]);
                same("words behind the scratch", &w.scratch.0[AROUND + SCRATCH_WORDS..], &work.scratch.0[AROUND + SCRATCH_WORDS..]);
                // Refused, it leaves the scratch too.
                if round == 0 {
                    let mut w = Work::of(&mut r, SCRATCH_WORDS, FEED_WORDS - 1);
                    assert_eq!(turn(&mut m, &table, place, &mut w).number, BUFFER);
                }
            }
        }
    }
}

/// Whoever waits is served within as many accepted turns as there are records, while the others leave blocks as often as they like.
#[test]
fn nobody_waits_too_long() {
    let mut r = Random(102);
    let bytes = worked().bytes();
    let (mut history, mut waiting) = (vec![0; MAX_LIST * HISTORY_WORDS], vec![0; MAX_LIST * WAITING_WORDS]);
    let (mut scratch, mut out) = (vec![0; SCRATCH_WORDS], vec![0; CLOSE_WORDS]);
    for n in 1..=MAX_LIST {
        let (mut longest, mut served, mut refused, mut closed) = (0, 0, 0, 0);
        for round in 0..30 {
            let mut records = vec![Record { rule: 0, seen: 0, waiting: 0 }; n];
            // How often each leaves a block: always, or one time in so many.
            let rate: Vec<u64> = (0..n).map(|_| if round % 3 == 0 { 1 } else { 1 + r.below(2 * n as u64) }).collect();
            // The first turn may be given any place.
            let mut place = r.pick(&[0, n - 1, n, usize::MAX, r.0 as usize % n]);
            // For each record, the accepted turns since it began to wait.
            let mut turns = vec![0; n];
            for _ in 0..150 {
                for i in 0..n {
                    if r.chance(rate[i]) {
                        let busy = records[i].waiting > 0;
                        let number = library::leave(&mut records, &bytes, i, &[1, 0, 1], &mut waiting);
                        assert_eq!(number, if busy { WAITING } else { OK });
                    } else if records[i].waiting == 0 && r.chance(4) {
                        assert_eq!(library::close_record(&mut records, &bytes, i, &history, &mut scratch, &mut out).0, OK);
                        closed += 1;
                    }
                }
                if r.chance(5) {
                    // Refused turns do not count.
                    assert_eq!(library::turn(&mut records, &bytes, place, &mut history, &waiting, &mut scratch, &mut out[..FEED_WORDS - 1]), BUFFER as u64);
                    refused += 1;
                    continue;
                }
                let waited: Vec<usize> = (0..n).filter(|i| records[*i].waiting > 0).collect();
                let turn = Turn::of(library::turn(&mut records, &bytes, place, &mut history, &waiting, &mut scratch, &mut out)).unwrap();
                place = turn.place(place);
                waited.iter().for_each(|i| turns[*i] += 1);
                assert_eq!(turn.served.is_some(), !waited.is_empty());
                if let Some(at) = turn.served {
                    assert!(waited.contains(&at));
                    longest = longest.max(turns[at]);
                    turns[at] = 0;
                    served += 1;
                }
                assert!(turns.iter().all(|waited| *waited < n), "{n} records, waiting for {turns:?} turns");
            }
        }
        // Nor is less promised than holds: somebody waits for just so many.
        assert!(longest == n && served > 1_000 && refused > 300 && closed > 100, "{n} records: {longest} {served} {refused} {closed}");
    }
}

// ---- by hand

/// Document 01's worked session, with two records on two rules over one formula, a block behind each other; and a third on p.
#[test]
fn worked_list() {
    assert_eq!(std::mem::size_of::<Record>(), 24);
    let mut r = Random(103);
    let bytes = worked().bytes();
    let mut m = list(&mut r, &[(0, 0, 0), (2, 0, 0), (1, 0, 0)]);
    let mut w = Work::around(&mut r, CLOSE_WORDS);
    let answer = |place: u64, count: u64| 256 + (place << 16) + (count << 32);
    assert_eq!(leave(&mut m, &bytes, 0, &[2, 2, 1, 0, 2]), OK);
    assert_eq!(leave(&mut m, &bytes, 1, &[0, 1, 1]), OK);
    // From outside the list on: record 0, then 1, then nobody.
    assert_eq!(turn(&mut m, &bytes, usize::MAX, &mut w).answer(), answer(0, 2));
    assert_eq!((w.out[0], &m.history[..3]), (3, &[1, 0, 2][..]));
    assert_eq!(turn(&mut m, &bytes, 0, &mut w).answer(), answer(1, 3));
    assert_eq!(w.out[0], 6);
    assert_eq!(turn(&mut m, &bytes, 1, &mut w).answer(), 0);
    assert_eq!(leave(&mut m, &bytes, 0, &[3, 0, 0]), OK);
    assert_eq!(leave(&mut m, &bytes, 2, &[2, 2, 1, 0, 2]), OK);
    // After record 1 comes 2, and 0 once round.
    assert_eq!(turn(&mut m, &bytes, 1, &mut w).answer(), answer(2, 2));
    assert_eq!((w.out[0], &m.history[2 * HISTORY_WORDS..][..3]), (3, &[1, 0, 2][..]));
    assert_eq!(turn(&mut m, &bytes, 2, &mut w).answer(), answer(0, 3));
    assert_eq!((w.out[0], &m.history[..3]), (7, &[3, 0, 0][..]));
    assert_eq!(close_record(&mut m, &bytes, 0, &mut w), (OK, 3));
    assert_eq!(w.out[0], 0);
    assert_eq!(close_record(&mut m, &bytes, 1, &mut w), (OK, 0));
    assert_eq!(close_record(&mut m, &bytes, 2, &mut w), (OK, 3));
    // Of 1, 0, 2 no state has p ahead.
    assert_eq!(w.out[0], 0);
    let records = [0, 2, 1].map(|rule| Record { rule, seen: 0, waiting: 0 });
    same("list", &m.records, &records);
}
