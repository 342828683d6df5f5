//! Status registers (A10): every noted session call beside the plain one and the model's, and the registers after every call and write beside what the whole
//! list of them says; then bit by bit, byte by byte and tick by tick with the bytes written out.
use juntreak_tests::compared::forged;
use juntreak_tests::header::limits::{
    CLOSE_WORDS, FEED_WORDS, HISTORY_WORDS, MAX_BLOCK, MAX_DELAY, MAX_NARROW_SEEN, MAX_SEEN, SCRATCH_WORDS, STATUS_BYTES, TABLE_BYTES,
};
use juntreak_tests::header::places::{ENABLE_AT, FIRST_NO_AT, INTERRUPT_AT, REFUSAL_AT, SEEN_AT, STATUS_AT};
use juntreak_tests::header::refusals::{ABSENT, BUFFER, OK, PLACE, SEEN, STATES, UNSOUND};
use juntreak_tests::header::NUMBERS;
use juntreak_tests::library::{self, read_text, SessionBytes, StatusBytes, TableBytes};
use juntreak_tests::listed::{Lent, Work};
use juntreak_tests::model::{self, Delay, Delay::New, Delay::Old, Width, Width::Narrow, Width::Wide};
use juntreak_tests::noted::{given, number, Event, Kind, Log, Outcome, BITS, KINDS, NO, READY, REFUSED, RUNNING};
use juntreak_tests::random::{
    absent_rule, any_count, any_table, block_length, bytes, count_beside, damage, old_table, session_bytes, short_words, trace, Random,
};
use juntreak_tests::{only_read, same};

// ---- calls

/// What a session call is lent beside the registers.
#[derive(Clone)]
struct Memory {
    session: Lent<u8>,
    history: Lent<u32>,
    work: Work,
}

impl Memory {
    /// With dirt in buffers of these lengths.
    fn of(r: &mut Random, session: &SessionBytes, [history, scratch, out]: [usize; 3]) -> Memory {
        Memory { session: Lent::holding(r, session), history: Lent::of(r, history), work: Work::of(r, scratch, out) }
    }

    /// The same with buffers that are long enough for every call.
    fn around(r: &mut Random, session: &SessionBytes) -> Memory {
        let lengths = FIT.map(|least| least + r.below(3) as usize);
        Memory::of(r, session, lengths)
    }

    fn session(&self) -> SessionBytes {
        self.session[..].try_into().unwrap()
    }

    fn parts(&mut self) -> (&mut SessionBytes, &mut [u32], &mut [u64], &mut [u64]) {
        ((&mut self.session[..]).try_into().unwrap(), &mut self.history, &mut self.work.scratch, &mut self.work.out)
    }

    fn same(&self, want: &Memory) {
        same("session, from -3 on", &self.session.0, &want.session.0);
        same("history, from -3 on", &self.history.0, &want.history.0);
        self.work.same(&want.work);
    }
}

/// The least lengths of history, scratch and out with which every call is accepted.
const FIT: [usize; 3] = [HISTORY_WORDS, SCRATCH_WORDS, CLOSE_WORDS];

#[derive(Clone)]
enum Call {
    Open(TableBytes, u32),
    Widen(SessionBytes),
    Feed(Vec<u32>),
    Close,
    CloseOld,
}

impl Call {
    fn kind(&self) -> Kind {
        match self {
            Call::Open(..) => Kind::Open,
            Call::Widen(_) => Kind::Widen,
            Call::Feed(_) => Kind::Feed,
            Call::Close => Kind::Close,
            Call::CloseOld => Kind::CloseOld,
        }
    }

    /// The number and the count, by the model.
    fn by_model(&self, m: &mut Memory) -> (u32, u32) {
        let (session, history, scratch, out) = m.parts();
        match self {
            Call::Open(table, rule) => (model::open(New, table, *rule, session), 0),
            Call::Widen(narrow) => (model::widen(narrow, session), 0),
            Call::Feed(block) => model::feed(Wide, New, session, block, history, scratch, out),
            Call::Close => model::close(Wide, New, session, history, scratch, out),
            Call::CloseOld => model::close(Wide, Old, session, history, scratch, out),
        }
    }

    /// The same by the library, without registers.
    fn plain(&self, m: &mut Memory) -> (u32, u32) {
        let (session, history, scratch, out) = m.parts();
        match self {
            Call::Open(table, rule) => (library::open(table, *rule, session), 0),
            Call::Widen(narrow) => (library::widen(narrow, session), 0),
            Call::Feed(block) => library::feed(session, block, history, scratch, out),
            Call::Close => library::close(session, history, scratch, out),
            Call::CloseOld => library::close_old(session, history, scratch, out),
        }
    }

    /// The same with registers; what is only read stays as it is.
    fn noted(&self, registers: &mut StatusBytes, m: &mut Memory) -> (u32, u32) {
        let (session, history, scratch, out) = m.parts();
        match self {
            Call::Open(table, rule) => (only_read("table", table, |table| library::open_noted(registers, table.try_into().unwrap(), *rule, session)), 0),
            Call::Widen(narrow) => (only_read("narrow", narrow, |narrow| library::widen_noted(registers, narrow.try_into().unwrap(), session)), 0),
            Call::Feed(block) => only_read("block", block, |block| library::feed_noted(registers, session, block, history, scratch, out)),
            Call::Close => only_read("history", history, |history| library::close_noted(registers, session, history, scratch, out)),
            Call::CloseOld => only_read("history", history, |history| library::close_old_noted(registers, session, history, scratch, out)),
        }
    }
}

/// Status registers between bytes that are not lent, and all that was done with them.
#[derive(Clone)]
struct Status {
    lent: Lent<u8>,
    log: Log,
}

impl Status {
    fn holding(r: &mut Random, start: StatusBytes) -> Status {
        Status { lent: Lent::holding(r, &start), log: Log::new(start) }
    }

    /// As they start.
    fn zeros(r: &mut Random) -> Status {
        Status::holding(r, [0; STATUS_BYTES])
    }

    fn bytes(&self) -> StatusBytes {
        self.lent[..].try_into().unwrap()
    }

    fn registers(&mut self) -> &mut StatusBytes {
        (&mut self.lent[..]).try_into().unwrap()
    }

    /// An event has happened: the registers hold what the whole list says, and the bytes around them what they held.
    fn add(&mut self, mut before: Lent<u8>, event: Event) {
        self.log.add(event);
        before.copy_from_slice(&self.log.bytes());
        same("registers, from -3 on", &self.lent.0, &before.0);
    }

    /// A noted call: its answer and every buffer are those of the plain call and of the model's. Refused, it leaves all but the registers.
    fn call(&mut self, call: &Call, m: &mut Memory) -> (u32, u32) {
        let (registers, before, mut plain, mut want) = (self.lent.clone(), m.clone(), m.clone(), m.clone());
        let wanted = call.by_model(&mut want);
        assert_eq!(call.plain(&mut plain), wanted);
        assert_eq!(call.noted(self.registers(), m), wanted);
        m.same(&plain);
        m.same(if wanted.0 == OK { &want } else { &before });
        self.add(registers, Event::Call(Outcome::of(call.kind(), &before.session(), wanted, &want.work.out)));
        wanted
    }

    /// The number.
    fn write(&mut self, place: usize, value: u8) -> u32 {
        let before = self.lent.clone();
        let got = library::register_write(self.registers(), place, value);
        assert_eq!(got, number(place));
        self.add(before, Event::Write { place, value });
        got
    }

    /// The whole answer.
    fn read(&self, place: usize) -> u32 {
        let answer = only_read("registers", &self.lent, |registers| library::register_read(registers.try_into().unwrap(), place));
        let value = self.log.bytes().get(place).copied().unwrap_or(0);
        assert_eq!(answer, number(place) + 256 * value as u32);
        answer
    }
}

/// How often each kind of call gave each number.
struct Counts([[u32; NUMBERS]; KINDS.len()]);

/// The numbers that each kind of call can answer.
const ANSWERS: [(Kind, &[u32]); KINDS.len()] = [
    (Kind::Open, &[OK, UNSOUND, ABSENT]),
    (Kind::Widen, &[OK, UNSOUND]),
    (Kind::Feed, &[OK, UNSOUND, STATES, BUFFER, SEEN]),
    (Kind::Close, &[OK, UNSOUND, BUFFER]),
    (Kind::CloseOld, &[OK, UNSOUND, BUFFER]),
];

impl Counts {
    fn none() -> Counts {
        Counts([[0; NUMBERS]; KINDS.len()])
    }

    fn add(&mut self, kind: Kind, number: u32) {
        self.0[kind as usize][number as usize] += 1;
    }

    /// Fails where one of a call's numbers was given fewer times, or another one at all.
    fn enough(&self, times: u32) {
        for (kind, numbers) in ANSWERS {
            let given = &self.0[kind as usize];
            let fit = |number: usize| if numbers.contains(&(number as u32)) { given[number] >= times } else { given[number] == 0 };
            assert!((0..NUMBERS).all(fit), "{kind:?}: {given:?}");
        }
    }
}

/// A place to write to or to read: mostly one of the first two, or beside the last one, or far away.
fn any_place(r: &mut Random) -> usize {
    match r.below(8) {
        0..=2 => STATUS_AT,
        3 | 4 => ENABLE_AT,
        5 => r.below(18) as usize,
        6 => r.pick(&[2, 3, 4, 15, 16, 17, 255, 256, 257]),
        _ => r.pick(&[1 << 16, (1 << 32) + 1, 1 << 63, usize::MAX, r.0 as usize]),
    }
}

/// A value to write: one bit, several, none, all, or any.
fn any_value(r: &mut Random) -> u8 {
    r.pick(&[0, RUNNING, READY, NO, REFUSED, NO | REFUSED, BITS - RUNNING, 0xf0, 0xff, r.0 as u8])
}

// ---- lists of calls and writes

/// A session, and the count of its verdicts since its open. Under the old delay, or a narrow count, it was opened and fed by an earlier library, which the
/// model plays: its calls note nothing.
struct Mission {
    m: Memory,
    width: Width,
    delay: Delay,
    given: u64,
}

impl Mission {
    fn open(r: &mut Random, status: &mut Status) -> Mission {
        let (count, longest) = (1 + r.below(10) as usize, r.pick(&[MAX_DELAY, 1100, 300, 70, 9, 9, 0]));
        let t = any_table(r, count, longest);
        let rule = r.below(t.rules.len() as u64) as u32;
        let dirt = session_bytes(r);
        let mut m = Memory::around(r, &dirt);
        assert_eq!(status.call(&Call::Open(t.bytes(), rule), &mut m), (OK, 0));
        Mission { m, width: Wide, delay: New, given: 0 }
    }

    /// One that an earlier library has left.
    fn left_behind(r: &mut Random) -> Mission {
        let (count, longest) = (2 + r.below(10) as usize, r.pick(&[MAX_DELAY, 300, 70, 9, 9]));
        let (t, width) = (old_table(r, count, longest), r.pick(&[Narrow, Wide]));
        let rule = r.below(t.rules.len() as u64) as u32;
        let mut m = Memory::around(r, &forged(t.bytes(), rule, 0));
        let mut given = 0;
        for _ in 0..1 + r.below(4) {
            let k = block_length(r);
            let (block, (session, history, scratch, out)) = (trace(r, k), m.parts());
            let (number, count) = model::feed(width, Old, session, &block, history, scratch, out);
            assert_eq!(number, OK);
            given += count as u64;
        }
        Mission { m, width, delay: Old, given }
    }

    /// The next accepted call on it; answers how many verdicts it gave.
    fn go_on(&mut self, r: &mut Random, status: &mut Status, counts: &mut Counts) -> u32 {
        let call = match (self.width, self.delay) {
            (Narrow, _) => Call::Widen(self.m.session()),
            (Wide, _) if r.chance(12) => Call::Widen(self.m.session()),
            (Wide, Old) => Call::CloseOld,
            (Wide, New) if r.chance(4) => Call::Close,
            (Wide, New) => {
                let k = block_length(r);
                Call::Feed(trace(r, k))
            }
        };
        assert_eq!(given(self.delay, &self.m.session()), self.given);
        if call.kind() == Kind::Widen {
            // Into another buffer.
            self.m.session = Lent::of(r, self.m.session.len());
        } else {
            // Scratch and out are others at each call.
            self.m.work = Work::around(r, CLOSE_WORDS);
        }
        let (number, count) = status.call(&call, &mut self.m);
        assert_eq!(number, OK);
        counts.add(call.kind(), OK);
        match call.kind() {
            Kind::Open | Kind::Widen => self.width = Wide,
            Kind::Feed => self.given += count as u64,
            Kind::Close | Kind::CloseOld => (self.delay, self.given) = (New, 0),
        }
        count
    }

    /// A call on a copy, whose session, count, buffers or block are others; the mission's own stay.
    fn aside(&self, r: &mut Random, status: &mut Status, counts: &mut Counts) {
        let (mut session, mut lengths, mut k) = (self.m.session(), FIT, r.below(40) as usize);
        for _ in 0..1 + r.below(2) {
            match r.below(6) {
                0 => damage(r, &mut session),
                1 => session[SEEN_AT..].copy_from_slice(&any_count(r).to_le_bytes()),
                2 => session[SEEN_AT..].copy_from_slice(&(MAX_SEEN as u64 - r.below(40)).to_le_bytes()),
                3 => k = r.pick(&[0, MAX_BLOCK, MAX_BLOCK + 1, 2000]),
                4 => lengths = r.pick(&[[0; 3], [FIT[0] - 1, FIT[1], FIT[2]], [FIT[0], FIT[1] - 1, FIT[2]], [FIT[0], FIT[1], FEED_WORDS - 1]]),
                _ => lengths[2] = r.pick(&[CLOSE_WORDS - 1, FEED_WORDS]),
            }
        }
        let mut m = Memory::of(r, &session, lengths);
        let call = match r.pick(&KINDS) {
            Kind::Open => {
                let rule = if r.chance(2) { absent_rule(r, session[1] as usize) } else { 0 };
                Call::Open(session[..TABLE_BYTES].try_into().unwrap(), rule)
            }
            Kind::Widen => Call::Widen(session),
            Kind::Feed => Call::Feed(trace(r, k)),
            Kind::Close => Call::Close,
            Kind::CloseOld => Call::CloseOld,
        };
        counts.add(call.kind(), status.call(&call, &mut m).0);
    }
}

/// What was seen of the registers.
#[derive(Default, Debug)]
struct Seen {
    statuses: [u32; 16],
    interrupts: [u32; 2],
    /// The first no at tick 0, and at a later one.
    first: [u32; 2],
    verdicts: u32,
}

impl Seen {
    fn look(&mut self, b: &StatusBytes) {
        self.statuses[b[STATUS_AT] as usize] += 1;
        self.interrupts[b[INTERRUPT_AT] as usize] += 1;
        if b[STATUS_AT] & NO != 0 {
            self.first[usize::from(first_no(b) > 0)] += 1;
        }
    }
}

fn first_no(b: &StatusBytes) -> u64 {
    u64::from_le_bytes(b[FIRST_NO_AT..FIRST_NO_AT + 8].try_into().unwrap())
}

#[test]
fn random_lists_of_calls_and_writes() {
    let mut r = Random(121);
    let (mut counts, mut seen) = (Counts::none(), Seen::default());
    for _ in 0..1_600 {
        let mut status = Status::zeros(&mut r);
        let mut missions = vec![Mission::left_behind(&mut r)];
        let rare = r.pick(&[1, 2, 8]);
        for _ in 0..10 + r.below(50) {
            let i = r.below(missions.len() as u64) as usize;
            match r.below(14) {
                0 if missions.len() < 4 => {
                    missions.push(Mission::open(&mut r, &mut status));
                    counts.add(Kind::Open, OK);
                }
                1 => missions[i] = Mission::left_behind(&mut r),
                2..=6 => seen.verdicts += missions[i].go_on(&mut r, &mut status, &mut counts),
                7 | 8 => missions[i].aside(&mut r, &mut status, &mut counts),
                9 => {
                    status.read(any_place(&mut r));
                }
                _ if r.chance(rare) => {
                    status.write(any_place(&mut r), any_value(&mut r));
                }
                _ => {}
            }
            seen.look(&status.bytes());
        }
    }
    counts.enough(60);
    assert!(seen.statuses.iter().chain(&seen.interrupts).chain(&seen.first).all(|n| *n > 60) && seen.verdicts > 100_000, "{seen:?}");
}

/// The same calls with different writes between them: the registers tell nothing to the calls.
#[test]
fn no_write_reaches_a_verdict() {
    let mut r = Random(122);
    for _ in 0..150 {
        let t = any_table(&mut r, 6, 70);
        let calls: Vec<Call> = (0..12)
            .map(|i| match r.below(6) {
                _ if i == 0 => Call::Open(t.bytes(), 0),
                0 => Call::Close,
                1 => Call::Feed(trace(&mut r, MAX_BLOCK + 1)),
                _ => {
                    let k = block_length(&mut r);
                    Call::Feed(trace(&mut r, k))
                }
            })
            .collect();
        let dirt = session_bytes(&mut r);
        let start = Memory::around(&mut r, &dirt);
        let (mut quiet, mut written) = (start.clone(), start);
        let (mut untouched, mut touched) = (Status::zeros(&mut r), Status::zeros(&mut r));
        for call in calls {
            assert_eq!(untouched.call(&call, &mut quiet), touched.call(&call, &mut written));
            quiet.same(&written);
            for _ in 0..r.below(4) {
                touched.write(any_place(&mut r), any_value(&mut r));
            }
        }
    }
}

// ---- by hand

/// A rule with this delay, and this old one, whose verdict is signal 0 while signal 31 is clear.
fn delayed(new: usize, old: usize) -> TableBytes {
    let mut table = [0xaa; TABLE_BYTES];
    let text = format!("7: s0 | ((F[0,{}] s31) U[{new},{new}] s31)\n", old - new);
    assert_eq!(read_text(text.as_bytes(), &mut table), (OK, 0));
    table
}

/// The registers with these bytes, of which the others follow.
fn holding(status: u8, enable: u8, number: u32, first: u64) -> StatusBytes {
    let mut b = [0; STATUS_BYTES];
    [b[STATUS_AT], b[ENABLE_AT], b[INTERRUPT_AT], b[REFUSAL_AT]] = [status, enable, u8::from(status & enable != 0), number as u8];
    b[FIRST_NO_AT..FIRST_NO_AT + 8].copy_from_slice(&first.to_le_bytes());
    b
}

/// A call that is accepted and gives these verdicts, as signal 0 has them, on a session with this delay, or old one, that has given so many before.
fn giving(r: &mut Random, kind: Kind, delay: usize, before: u64, verdicts: &[bool]) -> (Call, Memory) {
    let states: Vec<u32> = verdicts.iter().map(|v| u32::from(*v) | (r.next() as u32 & 0x7fff_fffe)).collect();
    let table = if kind == Kind::CloseOld { delayed(delay - delay / 3, delay) } else { delayed(delay, delay + 1) };
    let count = verdicts.len() as u64;
    if kind == Kind::Feed {
        let mut m = Memory::around(r, &forged(table, 0, before + delay as u64));
        // What waits for its verdict comes first: the states of the verdicts, and then others.
        let all: Vec<u32> = states.into_iter().chain((0..delay).map(|_| r.next() as u32 >> 1)).collect();
        m.history[..delay].copy_from_slice(&all[..delay]);
        return (Call::Feed(all[delay..].to_vec()), m);
    }
    assert!(count <= delay as u64 && (before == 0 || count == delay as u64));
    let mut m = Memory::around(r, &forged(table, 0, before + count));
    m.history[..verdicts.len()].copy_from_slice(&states);
    (if kind == Kind::Close { Call::Close } else { Call::CloseOld }, m)
}

/// A call that is refused with a number.
fn refused(r: &mut Random, kind: Kind, number: u32) -> (Call, Memory) {
    let (mut session, mut lengths, mut k) = (forged(delayed(2, 3), 0, 9), FIT, 5);
    match number {
        // Sound under the new delay alone, or not at all.
        UNSOUND if kind == Kind::CloseOld && r.chance(2) => session = forged(delayed(1, MAX_DELAY + 1), 0, 9),
        UNSOUND => session[0] = 65,
        STATES => k = MAX_BLOCK + 1,
        BUFFER => lengths = r.pick(&[[FIT[0] - 1, FIT[1], FIT[2]], [FIT[0], FIT[1] - 1, FIT[2]], [FIT[0], FIT[1], FEED_WORDS - 1]]),
        SEEN => session[SEEN_AT..].copy_from_slice(&(MAX_SEEN as u64 - 4).to_le_bytes()),
        _ => {}
    }
    let call = match kind {
        Kind::Open => Call::Open(session[..TABLE_BYTES].try_into().unwrap(), u32::from(number == ABSENT)),
        Kind::Widen => Call::Widen(session),
        Kind::Feed => Call::Feed(short_words(r, k)),
        Kind::Close => Call::Close,
        Kind::CloseOld => Call::CloseOld,
    };
    (call, Memory::of(r, &session, lengths))
}

/// Every kind of call with every number that it is refused with.
fn refusals() -> Vec<(Kind, u32)> {
    ANSWERS.iter().flat_map(|(kind, numbers)| numbers[1..].iter().map(|number| (*kind, *number))).collect()
}

/// The kinds that give verdicts.
const GIVING: [Kind; 3] = [Kind::Feed, Kind::Close, Kind::CloseOld];

/// An accepted open, and an accepted widening.
fn opening(r: &mut Random) -> (Call, Memory) {
    let dirt = session_bytes(r);
    (Call::Open(delayed(2, 3), 0), Memory::around(r, &dirt))
}

fn widening(r: &mut Random) -> (Call, Memory) {
    let dirt = session_bytes(r);
    (Call::Widen(forged(delayed(2, 3), 0, MAX_NARROW_SEEN as u64)), Memory::around(r, &dirt))
}

impl Status {
    /// The call is made on a copy of its memory, and answers this number.
    fn made(&mut self, (call, m): &(Call, Memory), number: u32) {
        assert_eq!(self.call(call, &mut m.clone()).0, number);
    }
}

/// The ways in which bits 1 to 3 are set: what is called, its number, the status that it leaves of 0, and the tick of its no.
fn setting(r: &mut Random) -> Vec<((Call, Memory), u32, u8, u64)> {
    let mut ways = vec![];
    for kind in GIVING {
        ways.push((giving(r, kind, 3, 9, &[true; 3]), OK, READY, 0));
        ways.push((giving(r, kind, 3, 9, &[true, false, true]), OK, READY | NO, 10));
    }
    for (kind, number) in refusals() {
        ways.push((refused(r, kind, number), number, REFUSED, 0));
    }
    ways
}

/// Each of bits 1 to 3 is set, cleared and set again by every call that can set it, and cleared by nothing but its own bit.
#[test]
fn bits_set_cleared_and_set_again() {
    let mut r = Random(123);
    let ways = setting(&mut r);
    assert_eq!(ways.len(), 6 + 11);
    for (call, number, set, tick) in &ways {
        let told = if *set == REFUSED { *number } else { 0 };
        let mut s = Status::zeros(&mut r);
        for round in 0..3 {
            s.made(call, *number);
            assert_eq!(s.bytes(), holding(*set, 0, told, *tick), "round {round}");
            // Written as 0 it stays, whatever else is written.
            for value in [0, !set, 0xf0, RUNNING] {
                s.write(STATUS_AT, value);
                assert_eq!(s.bytes(), holding(*set, 0, told, *tick));
            }
            let mut left = *set;
            for bit in [NO, REFUSED, READY] {
                s.write(STATUS_AT, bit);
                left &= !bit;
                assert_eq!(s.bytes(), holding(left, 0, told, if left & NO != 0 { *tick } else { 0 }));
            }
        }
        // All at once, and with all the others set.
        for (other, number, ..) in &ways {
            s.made(other, *number);
        }
        s.made(call, *number);
        assert_eq!(s.bytes()[STATUS_AT], READY | NO | REFUSED);
        s.write(STATUS_AT, *set);
        assert_eq!(s.bytes()[STATUS_AT], (READY | NO | REFUSED) & !set);
        s.made(call, *number);
        s.write(STATUS_AT, 0xff);
        assert_eq!(s.bytes()[..REFUSAL_AT], [0; 3]);
        assert_eq!(first_no(&s.bytes()), 0);
    }
}

/// Bit 0 is set by an accepted open and cleared by an accepted close of either kind, and by nothing else.
#[test]
fn running() {
    let mut r = Random(124);
    let others: Vec<_> = setting(&mut r).into_iter().filter(|(call, number, ..)| *number != OK || call.0.kind() == Kind::Feed).collect();
    for close in [Kind::Close, Kind::CloseOld] {
        let close = giving(&mut r, close, 3, 0, &[]);
        let mut s = Status::zeros(&mut r);
        for running in [0, RUNNING, 0, RUNNING, RUNNING, 0, 0] {
            let call = if running > 0 { opening(&mut r) } else { close.clone() };
            s.made(&call, OK);
            assert_eq!(s.bytes()[STATUS_AT] & RUNNING, running);
            s.made(&widening(&mut r), OK);
            for (call, number, ..) in &others {
                s.made(call, *number);
                assert_eq!(s.bytes()[STATUS_AT] & RUNNING, running);
            }
            for value in [RUNNING, 0xff, 0, !RUNNING] {
                s.write(STATUS_AT, value);
                assert_eq!(s.bytes()[STATUS_AT] & RUNNING, running);
            }
        }
    }
    // Nothing is given: only bit 0 is set, and cleared.
    let mut s = Status::zeros(&mut r);
    s.made(&opening(&mut r), OK);
    assert_eq!(s.bytes(), holding(RUNNING, 0, 0, 0));
    s.made(&giving(&mut r, Kind::Feed, 3, 0, &[]), OK);
    s.made(&widening(&mut r), OK);
    assert_eq!(s.bytes(), holding(RUNNING, 0, 0, 0));
    s.made(&giving(&mut r, Kind::Close, 3, 0, &[]), OK);
    assert_eq!(s.bytes(), holding(0, 0, 0, 0));
}

/// The first no stays under later ones, earlier ticks among them, until bit 2 is cleared; then the next no is taken.
#[test]
fn the_first_no() {
    let mut r = Random(125);
    for (kind, next) in GIVING.into_iter().flat_map(|kind| GIVING.map(|next| (kind, next))) {
        let mut s = Status::zeros(&mut r);
        s.made(&giving(&mut r, kind, 4, 6, &[true; 4]), OK);
        s.made(&giving(&mut r, kind, 4, 100, &[true, false, true, false]), OK);
        assert_eq!(s.bytes(), holding(READY | NO, 0, 0, 101));
        for before in [200, 7, 0] {
            s.made(&giving(&mut r, next, 4, before, &[false; 4]), OK);
            s.made(&giving(&mut r, next, 4, before, &[true; 4]), OK);
            s.made(&refused(&mut r, next, BUFFER), BUFFER);
            // The other bits are cleared, and this one is not.
            s.write(STATUS_AT, READY | REFUSED);
            assert_eq!(s.bytes(), holding(NO, 0, BUFFER, 101));
        }
        // An open, a widening and a close without a verdict leave it too.
        for call in [opening(&mut r), widening(&mut r), giving(&mut r, Kind::Close, 4, 0, &[])] {
            s.made(&call, OK);
        }
        assert_eq!(s.bytes(), holding(NO, 0, BUFFER, 101));
        s.made(&giving(&mut r, next, 4, 300, &[true; 4]), OK);
        s.write(STATUS_AT, NO);
        assert_eq!(s.bytes(), holding(READY, 0, BUFFER, 0));
        s.made(&giving(&mut r, next, 4, 300, &[true; 4]), OK);
        s.made(&refused(&mut r, kind, UNSOUND), UNSOUND);
        assert_eq!(s.bytes(), holding(READY | REFUSED, 0, UNSOUND, 0));
        s.made(&giving(&mut r, next, 4, 50, &[true, true, true, false]), OK);
        assert_eq!(s.bytes(), holding(READY | NO | REFUSED, 0, UNSOUND, 53));
        // The no of tick 0 is one too.
        s.write(STATUS_AT, 0xff);
        s.made(&giving(&mut r, next, 4, 0, &[false; 4]), OK);
        s.made(&giving(&mut r, next, 4, 5, &[false; 4]), OK);
        assert_eq!(s.bytes(), holding(READY | NO, 0, UNSOUND, 0));
    }
}

/// Counts of verdicts at the borders of words, and one no at each border, at both ends, or nowhere: what stands behind the verdicts is none.
#[test]
fn a_no_at_the_borders_of_words() {
    let mut r = Random(126);
    for kind in GIVING {
        let most = if kind == Kind::Feed { MAX_BLOCK } else { MAX_DELAY };
        let borders = |words: &[usize]| -> Vec<usize> { words.iter().flat_map(|w| (64 * w).saturating_sub(2)..64 * w + 3).collect() };
        let counts = borders(&[0, 1, 2, 3, 8, 15, 16, 17, 32, 62, 63, 64]);
        for count in counts.into_iter().filter(|count| *count <= most) {
            let places: Vec<usize> = borders(&[0, 1, 2, 7, 15, 16, 17, 63, 64]).into_iter().chain([count / 2, count.wrapping_sub(1)]).collect();
            let places = places.into_iter().filter(|place| *place < count).map(Some).chain([None]);
            for place in places {
                // Behind the first no there may be others.
                let alone = r.chance(2);
                let verdicts: Vec<bool> = (0..count).map(|i| place.is_none_or(|p| i < p || (i > p && (alone || r.chance(2))))).collect();
                let (delay, before) = if kind == Kind::Feed { (0, 1000) } else { (MAX_DELAY, 0) };
                let (mut s, call) = (Status::zeros(&mut r), giving(&mut r, kind, delay, before, &verdicts));
                s.made(&call, OK);
                let status = if count == 0 { 0 } else if place.is_none() { READY } else { READY | NO };
                assert_eq!(s.bytes(), holding(status, 0, 0, place.map_or(0, |p| before + p as u64)), "{kind:?} of {count} verdicts, no at {place:?}");
            }
        }
    }
}

/// Ticks whose bytes all differ, ticks beside carries and beside the largest count, of rules with several delays.
#[test]
fn ticks_of_64_bits() {
    let mut r = Random(127);
    let last = MAX_SEEN as u64;
    for kind in GIVING {
        for delay in [0, 1, 2, 63, 64, 65, 300, MAX_DELAY] {
            let count = if kind == Kind::Feed { r.pick(&[1, 64, 65, MAX_BLOCK]) } else { delay };
            if count == 0 {
                continue;
            }
            // The last verdict that there can be: seen is the largest count after a feed, and before a close.
            let most = last - if kind == Kind::Feed { (delay + count) as u64 } else { count as u64 };
            for before in [0, 1, 255, 256, 0x0102_0304_0506_0708, u32::MAX as u64, (1 << 32) + 5, (1 << 40) - 1, 1 << 56, 1 << 63, most - 1, most] {
                for place in [0, count / 2, count - 1] {
                    let verdicts: Vec<bool> = (0..count).map(|i| i < place).collect();
                    let (mut s, call) = (Status::zeros(&mut r), giving(&mut r, kind, delay, before, &verdicts));
                    s.made(&call, OK);
                    assert_eq!(s.bytes(), holding(READY | NO, 0, 0, before + place as u64), "{kind:?} with delay {delay}");
                }
            }
        }
    }
    // Counts below the delay: the first verdict is that of tick 0.
    for seen in 0..5 {
        let mut m = Memory::around(&mut r, &forged(delayed(5, 8), 0, seen));
        m.history[..5].fill(1);
        let mut s = Status::zeros(&mut r);
        s.made(&(Call::Feed([vec![1; 5 - seen as usize], vec![0, 1, 1, 0, 1, 1, 1]].concat()), m), OK);
        assert_eq!(s.bytes(), holding(READY | NO, 0, 0, 5));
    }
}

/// Any rule, any count of states, and a no anywhere.
#[test]
fn ticks_of_random_sessions() {
    let mut r = Random(128);
    let (mut noes, mut late) = (0, 0);
    for _ in 0..2_500 {
        let kind = r.pick(&GIVING);
        let (count, longest) = (1 + r.below(9) as usize, r.pick(&[MAX_DELAY, 300, 70, 9]));
        let t = old_table(&mut r, count, longest);
        let rule = r.below(t.rules.len() as u64) as usize;
        let seen = count_beside(&mut r, t.rule_delay_under(kind.delay(), rule));
        let k = block_length(&mut r).min((u64::MAX - seen).min(MAX_BLOCK as u64) as usize);
        let mut m = Memory::around(&mut r, &forged(t.bytes(), rule as u32, seen));
        let states = trace(&mut r, HISTORY_WORDS);
        m.history[..HISTORY_WORDS].copy_from_slice(&states);
        let call = match kind {
            Kind::Feed => Call::Feed(trace(&mut r, k)),
            Kind::Close => Call::Close,
            _ => Call::CloseOld,
        };
        let mut s = Status::zeros(&mut r);
        s.made(&(call, m), OK);
        noes += u32::from(s.bytes()[STATUS_AT] & NO != 0);
        late += u32::from(first_no(&s.bytes()) > u32::MAX as u64);
    }
    assert!(noes > 800 && late > 200, "{noes} {late}");
}

/// Registers with a status that calls and a write have left.
fn with_status(r: &mut Random, mut s: Status, status: u8) -> Status {
    if status & RUNNING != 0 {
        s.made(&opening(r), OK);
    }
    if status & (READY | NO) != 0 {
        let verdicts = [true, status & NO == 0];
        s.made(&giving(r, Kind::Feed, 0, 5, &verdicts), OK);
    }
    if status & (READY | NO) == NO {
        s.write(STATUS_AT, READY);
    }
    if status & REFUSED != 0 {
        s.made(&refused(r, Kind::Widen, UNSOUND), UNSOUND);
    }
    s
}

/// Every status with every enable, whichever comes first: the interrupt is 1 exactly where they share a bit.
#[test]
fn enable_and_interrupt() {
    let mut r = Random(129);
    for (status, enable) in (0..=BITS).flat_map(|status| (0..=BITS).map(move |enable| (status, enable))) {
        let number = if status & REFUSED != 0 { UNSOUND } else { 0 };
        let first = if status & NO != 0 { 6 } else { 0 };
        let wanted = holding(status, enable, number, first);
        assert_eq!(wanted[INTERRUPT_AT], u8::from((0..4).any(|i| status & enable & 1 << i != 0)));

        let start = Status::zeros(&mut r);
        let mut s = with_status(&mut r, start, status);
        for other in [BITS, !enable, enable, 0, 0xf0 | enable] {
            s.write(ENABLE_AT, other);
            assert_eq!(s.bytes(), holding(status, other & BITS, number, first));
        }
        assert_eq!(s.bytes(), wanted);

        let mut enabled = Status::zeros(&mut r);
        enabled.write(ENABLE_AT, enable);
        assert_eq!(enabled.bytes(), holding(0, enable, 0, 0));
        let mut s = with_status(&mut r, enabled, status);
        assert_eq!(s.bytes(), wanted);
        // What is cleared interrupts no more.
        for bit in [READY, NO, REFUSED] {
            let mut s = s.clone();
            s.write(STATUS_AT, bit);
            assert_eq!(s.bytes(), holding(status & !bit, enable, number, if bit == NO { 0 } else { first }));
        }
        s.write(STATUS_AT, status);
        assert_eq!(s.bytes(), holding(status & RUNNING, enable, number, 0));
    }
}

/// Byte 3 is that of the last refused call, whatever is cleared or accepted after it.
#[test]
fn the_number_of_the_last_refusal() {
    let mut r = Random(130);
    let mut s = Status::zeros(&mut r);
    for (kind, number) in refusals().into_iter().chain(refusals().into_iter().rev()) {
        s.made(&refused(&mut r, kind, number), number);
        assert_eq!(s.bytes()[REFUSAL_AT] as u32, number);
        s.made(&opening(&mut r), OK);
        s.made(&giving(&mut r, Kind::Feed, 0, 3, &[true, false]), OK);
        // Refused calls for a place are no session calls.
        assert_eq!((s.write(16, number as u8 + 1), s.read(16)), (PLACE, PLACE));
        assert_eq!(s.bytes(), holding(BITS, 0, number, 4));
        s.write(STATUS_AT, REFUSED);
        assert_eq!(s.bytes(), holding(BITS - REFUSED, 0, number, 4));
        s.write(STATUS_AT, 0xff);
        assert_eq!(s.bytes(), holding(RUNNING, 0, number, 0));
        s.made(&giving(&mut r, Kind::CloseOld, 3, 0, &[true]), OK);
        assert_eq!(s.bytes(), holding(READY, 0, number, 0));
    }
}

/// A refused call changes bit 3, byte 3 and what follows from them, and nothing else at all.
#[test]
fn refused_calls_change_the_registers_alone() {
    let mut r = Random(131);
    for (kind, number) in refusals() {
        for (status, enable) in (0..=BITS).flat_map(|status| [0, REFUSED, BITS - REFUSED, BITS].map(|enable| (status, enable))) {
            let mut start = Status::zeros(&mut r);
            start.write(ENABLE_AT, enable);
            let mut s = with_status(&mut r, start, status);
            let (call, mut m) = refused(&mut r, kind, number);
            let before = m.clone();
            assert_eq!(s.call(&call, &mut m), (number, 0));
            m.same(&before);
            assert_eq!(s.bytes(), holding(status | REFUSED, enable, number, if status & NO != 0 { 6 } else { 0 }));
        }
    }
}

/// Writes to bytes 2 to 15 leave every byte, and a place above 15 is refused, also by a read; a read gives each byte.
#[test]
fn places() {
    let mut r = Random(132);
    let far = [16, 17, 18, 31, 255, 256, 257, 1 << 16, 1 << 32, (1 << 32) + 1, 1 << 63, usize::MAX - 15, usize::MAX];
    for round in 0..8 {
        let start: StatusBytes = match round {
            0 => [0; STATUS_BYTES],
            1 => [0xff; STATUS_BYTES],
            2 => holding(BITS, BITS, SEEN, 0x0102_0304_0506_0708),
            _ => bytes(&mut r, STATUS_BYTES).try_into().unwrap(),
        };
        let mut s = Status::holding(&mut r, start);
        for place in 0..STATUS_BYTES {
            assert_eq!(s.read(place), 256 * start[place] as u32);
        }
        for place in INTERRUPT_AT..STATUS_BYTES {
            for value in 0..=255 {
                assert_eq!(s.write(place, value), OK);
                assert_eq!(s.bytes(), start);
            }
        }
        for place in far {
            assert_eq!(s.read(place), PLACE);
            for value in [0, 1, 2, 4, 8, 15, 255] {
                assert_eq!(s.write(place, value), PLACE);
                assert_eq!(s.bytes(), start);
            }
        }
    }
}

/// Every value to byte 0 and byte 1, over every status and enable.
#[test]
fn values() {
    let mut r = Random(133);
    for (status, value) in (0..=BITS).flat_map(|status| (0..=255).map(move |value| (status, value))) {
        let enable = r.below(16) as u8;
        let before = holding(status, enable, BUFFER, if status & NO != 0 { u64::MAX - 1 } else { 0 });
        let mut s = Status::holding(&mut r, before);
        s.write(STATUS_AT, value);
        let left = status & !(value & (READY | NO | REFUSED));
        assert_eq!(s.bytes(), holding(left, enable, BUFFER, if left & NO != 0 { u64::MAX - 1 } else { 0 }));
        let mut s = Status::holding(&mut r, before);
        s.write(ENABLE_AT, value);
        assert_eq!(s.bytes(), holding(status, value % 16, BUFFER, first_no(&before)));
    }
}

/// Bytes that no call leaves: halves of bytes 0 and 1 that are not used, an interrupt that does not follow, a tick without a no, and dirt at the end.
#[test]
fn any_bytes() {
    let mut r = Random(134);
    let ways = setting(&mut r);
    let (mut kept, mut gone) = (0, 0);
    for _ in 0..4_000 {
        let start: StatusBytes = bytes(&mut r, STATUS_BYTES).try_into().unwrap();
        let mut s = Status::holding(&mut r, start);
        for _ in 0..1 + r.below(4) {
            match r.below(8) {
                0 => s.made(&opening(&mut r), OK),
                1 => s.made(&widening(&mut r), OK),
                2..=4 => {
                    let (call, number, ..) = &ways[r.below(ways.len() as u64) as usize];
                    s.made(call, *number);
                }
                _ => {
                    s.write(any_place(&mut r), any_value(&mut r));
                }
            }
            s.read(any_place(&mut r));
        }
        let same_tick = first_no(&s.bytes()) == first_no(&start);
        kept += u32::from(same_tick && s.bytes() != start);
        gone += u32::from(!same_tick);
    }
    assert!(kept > 1_000 && gone > 1_000, "{kept} {gone}");
}

/// A tick without a no, which no call leaves, stays under a refused call and a write to byte 1, and goes under an accepted call and a write to byte 0.
#[test]
fn a_tick_without_a_no() {
    let mut r = Random(135);
    let (start, tick) = ([0xf1, 0xe8, 0x77, STATES as u8, 8, 7, 6, 5, 4, 3, 2, 1, 9, 9, 9, 9], 0x0102_0304_0506_0708);
    let after_write = |r: &mut Random, place, value| {
        let mut s = Status::holding(r, start);
        assert_eq!(s.write(place, value), OK);
        s.bytes()
    };
    assert_eq!(after_write(&mut r, ENABLE_AT, 0x31), holding(RUNNING, RUNNING, STATES, tick));
    assert_eq!(after_write(&mut r, STATUS_AT, 0), holding(RUNNING, REFUSED, STATES, 0));
    assert_eq!(after_write(&mut r, STATUS_AT, NO), holding(RUNNING, REFUSED, STATES, 0));
    assert_eq!(after_write(&mut r, INTERRUPT_AT, 0), start);
    for (call, number, set, no) in setting(&mut r) {
        let mut s = Status::holding(&mut r, start);
        s.made(&call, number);
        let running = if matches!(call.0.kind(), Kind::Close | Kind::CloseOld) && number == OK { 0 } else { RUNNING };
        let (told, first) = if number == OK { (STATES, no) } else { (number, tick) };
        assert_eq!(s.bytes(), holding(running | set, REFUSED, told, first));
    }
}
