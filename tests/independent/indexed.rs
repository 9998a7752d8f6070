//! The claims of requests i and j on small random networks, held to an index told by what it must be and to a search that
//! goes by it and counts.

use crate::calls::search_by;
use crate::index::build_index;
use crate::judging::{judge_tested, Tests};
use crate::lent::Lent;
use crate::limits::limit_index;
use crate::network::{Arc, Found};
use crate::panels::{rank, ALL_TESTS};
use crate::plans::{add_surplus, ask, change_boxes, change_index, change_masks, plan, spoil_upto, Asked};
use crate::random::Random;
use crate::refusals::{refused, Refusal};
use crate::scratch::Scratch;
use crate::selftest::Tally;
use crate::writing::write_gr;
use crate::LAST;

fn with_index(tests: Tests) -> Tests {
    Tests { index: true, ..tests }
}

/// The claims on one network.
pub fn claims(tally: &mut Tally, random: &mut Random) {
    only_one(tally, random);
    let (n, m) = (random.between(1, 4), random.between(0, 7));
    let mut lent = plan(random, n, m);
    change_boxes(random, &mut lent);
    change_masks(random, &mut lent);
    agree(tally, &lent);
    // Closures and weight changes leave it valid.
    let mut changed = lent.clone();
    changed.closed.iter_mut().for_each(|byte| *byte = random.between(0, 1));
    changed.weights.iter_mut().for_each(|weight| *weight = random.between(0, 3));
    agree(tally, &changed);
    let right = (lent.offsets.clone(), lent.order.clone());
    change_index(random, &mut lent);
    let same = (&lent.offsets, &lent.order) == (&right.0, &right.1);
    let reply = search_by(&mut lent.clone(), Tests::INDEX, 1, 1);
    tally.expect(if same { reply.is_ok() } else { reply == refused(19, &[]) }, "any other index is 19");
    let asked = ask(random, &lent);
    refusals(tally, random, lent, asked);
}

/// As many arcs examined as there can be, and with all that can be closed; then but five, the others being shut out by masks.
pub fn limits(tally: &mut Tally) {
    let replies = String::from_utf8(Scratch::new().demanded_upto(&limit_index().input(), LAST))
        .expect("replies are plain text");
    let no_walk = |values: &str, settled: usize| {
        format!("refused 12 {values} (no walk leads from the source to the target, settled {settled})")
    };
    for (reply, times) in
        [(no_walk("511 2048", 511), 2), (no_walk("1 5", 1), 2), ("ok 0 0 1 0".to_string(), 2)]
    {
        let seen = replies.lines().filter(|line| **line == reply).count();
        tally.expect(seen == times, format!("{reply}, {seen} times"));
    }
}

/// All rows of so many numbers from `least` to `greatest`.
fn rows(count: usize, least: i64, greatest: i64) -> Vec<Vec<i64>> {
    let mut all: Vec<Vec<i64>> = vec![vec![]];
    for _ in 0..count {
        all =
            all.iter().flat_map(|row| (least..=greatest).map(|last| [&row[..], &[last]].concat())).collect();
    }
    all
}

/// Arcs grouped by tail, tails ascending, arc numbers ascending within a tail, each arc once.
fn is_order(tails: &[i64], order: &[i64]) -> bool {
    let key = |arc: &i64| (tails[*arc as usize - 1], *arc);
    let once = (1..=tails.len() as i64).all(|arc| order.iter().filter(|other| **other == arc).count() == 1);
    once && order.windows(2).all(|pair| key(&pair[0]) < key(&pair[1]))
}

/// Offset u counts the arcs with tails below u.
fn are_offsets(tails: &[i64], offsets: &[i64]) -> bool {
    let below = |u: i64| tails.iter().filter(|tail| **tail < u).count() as i64;
    (1..).zip(offsets).all(|(u, offset)| *offset == below(u))
}

/// Of all rows one alone is the order, and one alone are the offsets; the box builds them.
fn only_one(tally: &mut Tally, random: &mut Random) {
    let (n, m) = (random.between(1, 3), random.between(0, 4));
    let lent = plan(random, n, m);
    let mut orders = rows(m as usize, 1, m);
    orders.retain(|order| is_order(&lent.tails, order));
    tally.expect(orders == [lent.order.clone()], "only one order exists, and it is built");
    let mut all_offsets = rows(n as usize + 1, 0, m);
    all_offsets.retain(|offsets| are_offsets(&lent.tails, offsets));
    tally.expect(all_offsets == [lent.offsets.clone()], "only one row of offsets exists, and it is built");
}

/// A search that finds the arcs out of each node by the index, and counts them: nodes are settled in the order of their triples.
fn by_index(lent: &Lent, tests: Tests, s: usize, t: usize) -> Result<Found, Refusal> {
    let n = lent.n as usize;
    let tested = judge_tested(lent, tests, &[])?;
    let open = |arc: &&Arc| !arc.closed && tested.by_box(arc, t) && tested.by_mask(arc, t);
    // Of each node the best triple so far, and the arc that it came by.
    let mut best: Vec<Option<(i64, usize, usize)>> = vec![None; n + 1];
    let (mut settled, mut examined): (Vec<(i64, usize, usize)>, usize) = (Vec::new(), 0);
    best[s] = Some((0, 0, 0));
    loop {
        let waits = |u: &usize| settled.iter().all(|(_, _, node)| node != u);
        let next = (1..=n).filter(waits).filter_map(|u| best[u].map(|(d, k, _)| (d, k, u))).min();
        let Some((d, k, u)) = next else {
            return refused(12, &[settled.len() as i64, examined as i64]);
        };
        settled.push((d, k, u));
        if u == t {
            break;
        }
        let leaving = lent.offsets[u - 1] as usize..lent.offsets[u] as usize;
        examined += leaving.len();
        for arc in lent.order[leaving].iter().map(|arc| &tested.plan.arcs[*arc as usize - 1]).filter(open) {
            let through = Some((d + arc.weight, k + 1, arc.number));
            if best[arc.head].is_none() || through < best[arc.head] {
                best[arc.head] = through;
            }
        }
    }
    let mut route = Vec::new();
    let mut at = t;
    while at != s {
        let (_, _, arc) = best[at].expect("a node on the route has been reached");
        route.insert(0, arc);
        at = tested.plan.arcs[arc - 1].tail;
    }
    let (length, settled) = (settled[settled.len() - 1].0, settled.len());
    Ok(Found { length, settled, examined: Some(examined), route })
}

/// What a search by the index replies besides the arcs examined; and these.
fn parted(reply: Result<Found, Refusal>) -> (Result<Found, Refusal>, Option<i64>) {
    match reply {
        Ok(found) => {
            let examined = found.examined.map(|examined| examined as i64);
            (Ok(Found { examined: None, ..found }), examined)
        }
        Err(refusal) if refusal.number == 12 => {
            (refused(12, &refusal.values[..1]), refusal.values.get(1).copied())
        }
        refused => (refused, None),
    }
}

/// Every kind of search agrees in every field with the one by the index, and so does the search that goes by it. The arcs
/// examined are those that this one counts: at most m, and none from a node to itself.
fn agree(tally: &mut Tally, lent: &Lent) {
    for (s, t) in (1..=lent.n).flat_map(|s| (1..=lent.n).map(move |t| (s, t))) {
        for tests in ALL_TESTS {
            let (mut plain, mut indexed) = (lent.clone(), lent.clone());
            let reply = search_by(&mut plain, tests, s, t);
            let by_the_index = search_by(&mut indexed, with_index(tests), s, t);
            tally.expect(indexed == plain, "all rows agree");
            let run = by_index(lent, tests, s as usize, t as usize);
            tally.expect(
                run == by_the_index,
                format!("{tests:?} by the index: {run:?}, not {by_the_index:?}"),
            );
            let (others, examined) = parted(by_the_index);
            tally.expect(others == reply, "the searches agree in every field");
            tally.expect(examined.is_some_and(|count| count <= lent.m), "at most m arcs are examined");
            tally.expect(s != t || examined == Some(0), "none from a node to itself");
        }
    }
}

/// A search by the index is refused for what comes first of what the plain one is refused for, 2 for the index's rows, and 19.
/// Building the index is refused as writing .gr is, whatever the closures. A refused call changes nothing.
fn refusals(tally: &mut Tally, random: &mut Random, mut lent: Lent, mut asked: Asked) {
    add_surplus(random, &mut lent);
    for _ in 0..random.between(0, 3) {
        spoil_upto(random, &mut lent, &mut asked, LAST);
    }
    let Asked { s, t, .. } = asked;
    let (alone, _) = parted(search_by(&mut Lent { route: vec![0; 600], ..lent.clone() }, Tests::INDEX, 1, 1));
    for tests in ALL_TESTS {
        let plain = search_by(&mut lent.clone(), tests, s, t);
        let mut after = lent.clone();
        let (reply, _) = parted(search_by(&mut after, with_index(tests), s, t));
        tally.expect(reply.is_ok() || after == lent, "a refused search changes nothing");
        let first = [plain.clone().err(), alone.clone().err()].into_iter().flatten().min_by_key(rank);
        tally.expect(first.map_or(plain, Err) == reply, "19 directly after 14, and else as the plain search");
    }
    let mut after = lent.clone();
    let built = build_index(&mut after);
    tally.expect(built.is_ok() || after == lent, "a refused build changes nothing");
    let rows = lent.offsets.len() as i64 > lent.n && lent.order.len() as i64 >= lent.m;
    let mut roomy = Lent { text: vec![0; 9_000], ..lent.clone() };
    let written = write_gr(&mut roomy).map(drop);
    let demanded = match written {
        Err(refusal) if refusal.number == 5 => Err(refusal),
        _ if !rows => refused(2, &[]),
        written => written,
    };
    tally.expect(built == demanded, "5, 2 or 8, as for writing .gr");
}
