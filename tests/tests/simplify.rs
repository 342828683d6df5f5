//! The simplifier: nothing fits a law afterwards, and every verdict stays.
use juntreak_tests::header::limits::{MAX_DELAY, MAX_NODES, TABLE_BYTES};
use juntreak_tests::header::refusals::{OK, UNSOUND};
use juntreak_tests::library::simplify;
use juntreak_tests::model::{self, Delay, Node, Rule, Table};
use juntreak_tests::random::{damage, law_free, redundant, table, trace, Random};

/// Everything that holds of the simplified table; returns it.
fn compare(r: &mut Random, t: &Table) -> Table {
    let before = t.bytes();
    let mut after = before;
    assert_eq!(simplify(&mut after), OK, "{t:?}");
    let s = model::sound(&after).unwrap_or_else(|| panic!("not sound: {t:?}"));
    assert_eq!(model::law(&s), None, "{t:?} gives {s:?}");
    if model::law(t).is_none() {
        assert!(after == before, "{t:?} gives {s:?}");
    }
    let names = |t: &Table| -> Vec<u16> { t.rules.iter().map(|q| q.name).collect() };
    assert_eq!(names(&s), names(t));
    assert!(s.nodes.len() <= t.nodes.len(), "{t:?} gives {s:?}");
    for i in 0..t.rules.len() {
        assert!(s.rule_delay(i) <= t.rule_delay(i), "{t:?} gives {s:?}");
    }
    let mut again = after;
    assert_eq!(simplify(&mut again), OK);
    assert!(again == after, "{t:?} gives {s:?}, then {:?}", model::sound(&again));
    let some = r.below(40) as usize;
    for n in [some, r.pick(&[0, 1, 2, 5, 12, 100])] {
        let states = trace(r, n);
        let (old, new) = (t.columns(t.nodes.len(), &states), s.columns(s.nodes.len(), &states));
        for i in 0..t.rules.len() {
            let (x, y) = (&old[t.rules[i].watched as usize], &new[s.rules[i].watched as usize]);
            assert!(x == y, "rule {i} of {t:?} gives {s:?} on {states:?}: {x:?}, {y:?}");
        }
    }
    s
}

#[test]
fn random_redundant_tables() {
    let mut r = Random(21);
    let rounds = 24_000;
    let (mut before, mut after, mut full, mut new, mut large) = (0usize, 0usize, 0usize, 0usize, 0usize);
    for _ in 0..rounds {
        let count = 1 + r.below(MAX_NODES as u64) as usize;
        let count = r.pick(&[count, count, count.min(10), count.min(10), MAX_NODES]);
        let longest = r.pick(&[MAX_DELAY, 300, 30, 9, 2]);
        let t = if r.chance(6) { table(&mut r, count, longest) } else { redundant(&mut r, count, longest) };
        assert_eq!(model::sound(&t.bytes()), Some(t.clone()));
        let s = compare(&mut r, &t);
        before += t.nodes.len();
        after += s.nodes.len();
        full += (count == MAX_NODES) as usize;
        new += model::sound_under(Delay::Old, &t.bytes()).is_none() as usize;
        large += t.rules.iter().any(|q| q.name > 255) as usize;
    }
    assert!(full > 2_000 && new > 200 && large > 10_000, "{full} {new} {large}");
    let mean = |x: usize| x as f64 / rounds as f64;
    println!("nodes on average: {:.2} before, {:.2} after, {:.2} fewer ({:.1} %)", mean(before), mean(after), mean(before - after), 100.0 * (before - after) as f64 / before as f64);
}

#[test]
fn law_free_tables_stay() {
    let mut r = Random(22);
    for _ in 0..4_000 {
        let count = 1 + r.below(MAX_NODES as u64) as usize;
        let count = r.pick(&[count, count.min(8), MAX_NODES]);
        let longest = r.pick(&[MAX_DELAY, 300, 30]);
        let t = law_free(&mut r, count, longest);
        assert_eq!(model::sound(&t.bytes()), Some(t.clone()));
        assert_eq!(model::law(&t), None, "{t:?}");
        assert_eq!(compare(&mut r, &t), t);
    }
}

#[test]
fn unsound_tables_are_refused() {
    let mut r = Random(23);
    let (mut sound, mut unsound) = (0, 0);
    for _ in 0..20_000 {
        let count = 1 + r.below(MAX_NODES as u64) as usize;
        let longest = r.pick(&[MAX_DELAY, 30]);
        let mut bytes = redundant(&mut r, count, longest).bytes();
        damage(&mut r, &mut bytes);
        match model::sound(&bytes) {
            Some(t) => {
                compare(&mut r, &t);
                sound += 1;
            }
            None => {
                let mut after = bytes;
                assert_eq!(simplify(&mut after), UNSOUND);
                assert!(after == bytes);
                unsound += 1;
            }
        }
    }
    assert!(sound > 100 && unsound > 1000, "{sound} {unsound}");
    for bytes in [[0u8; TABLE_BYTES], [255; TABLE_BYTES]] {
        let mut after = bytes;
        assert_eq!(simplify(&mut after), UNSOUND);
        assert!(after == bytes);
    }
}

fn node(kind: u8, lo: u16, hi: u16, left: u8, right: u8) -> Node {
    Node { kind, arg: 0, lo, hi, left, right }
}

/// A table whose only rule watches the last node.
fn watching(nodes: &[Node]) -> Table {
    Table { nodes: nodes.to_vec(), rules: vec![Rule { name: 7, watched: nodes.len() as u8 - 1 }] }
}

#[test]
fn each_law() {
    let mut r = Random(24);
    let p = node(1, 0, 0, 0, 0);
    let q = Node { arg: 1, ..p };
    let (yes, no) = (node(2, 0, 0, 0, 0), node(3, 0, 0, 0, 0));
    let not = |a| node(4, 0, 0, a, 0);
    let (and, or) = (|a, b| node(5, 0, 0, a, b), |a, b| node(6, 0, 0, a, b));
    let (f, g) = (|lo, hi, a| node(7, lo, hi, a, 0), |lo, hi, a| node(8, lo, hi, a, 0));
    let (u, rel) = (|lo, hi, a, b| node(9, lo, hi, a, b), |lo, hi, a, b| node(10, lo, hi, a, b));
    let rows: Vec<(Vec<Node>, Vec<Node>)> = vec![
        (vec![p, not(0), not(1)], vec![p]),
        (vec![p, not(0), not(1), not(2)], vec![p, not(0)]),
        (vec![p, f(0, 0, 0)], vec![p]),
        (vec![p, g(0, 0, 0)], vec![p]),
        (vec![p, q, u(0, 0, 0, 1)], vec![q]),
        (vec![p, q, rel(0, 0, 0, 1)], vec![q]),
        (vec![p, f(3, 4, 0), f(1, 2, 1)], vec![p, f(4, 6, 0)]),
        (vec![p, g(3, 4, 0), g(1, 2, 1)], vec![p, g(4, 6, 0)]),
        (vec![p, f(0, 3, 0), f(1, 2, 0), and(1, 2)], vec![p, f(1, 2, 0)]),
        (vec![p, f(1, 2, 0), f(0, 3, 0), or(1, 2)], vec![p, f(0, 3, 0)]),
        (vec![p, g(1, 2, 0), g(0, 3, 0), and(1, 2)], vec![p, g(0, 3, 0)]),
        (vec![p, g(0, 3, 0), g(1, 2, 0), or(1, 2)], vec![p, g(1, 2, 0)]),
        (vec![yes, not(0)], vec![no]),
        (vec![no, not(0)], vec![yes]),
        (vec![p, yes, and(0, 1)], vec![p]),
        (vec![p, no, and(1, 0)], vec![no]),
        (vec![p, yes, or(1, 0)], vec![yes]),
        (vec![p, no, or(0, 1)], vec![p]),
        (vec![p, and(0, 0)], vec![p]),
        (vec![p, or(0, 0)], vec![p]),
        (vec![no, f(1, 2, 0)], vec![no]),
        (vec![p, no, u(1, 2, 0, 1)], vec![no]),
        (vec![yes, g(1, 2, 0)], vec![yes]),
        (vec![p, yes, rel(1, 2, 0, 1)], vec![yes]),
        (vec![p, p, and(0, 1)], vec![p]),
        (vec![q, p, not(1)], vec![p, not(0)]),
        // What must stay.
        (vec![yes, f(2, 3, 0)], vec![yes, f(2, 3, 0)]),
        (vec![no, g(2, 3, 0)], vec![no, g(2, 3, 0)]),
        (vec![yes, f(0, 3, 0)], vec![yes, f(0, 3, 0)]),
        (vec![p, yes, u(2, 3, 0, 1)], vec![p, yes, u(2, 3, 0, 1)]),
        (vec![p, g(1, 2, 0), f(1, 2, 1)], vec![p, g(1, 2, 0), f(1, 2, 1)]),
        (vec![p, f(0, 2, 0), f(1, 3, 0), and(1, 2)], vec![p, f(0, 2, 0), f(1, 3, 0), and(1, 2)]),
        (vec![p, q, and(0, 1)], vec![p, q, and(0, 1)]),
    ];
    for (before, after) in rows {
        let (t, wanted) = (watching(&before), watching(&after));
        assert_eq!(model::law(&t).is_none(), before == after, "{t:?}");
        assert_eq!(compare(&mut r, &t), wanted, "{t:?}");
    }
}
