//! The claims of request b on small random networks, held to every walk that there is.

use crate::boxes::{all_s, Place, Rectangle};
use crate::calls::{boxed, build, check, search, update};
use crate::lent::Lent;
use crate::network::Arc;
use crate::plans::{add_surplus, ask, change_boxes, plan, spoil, Asked};
use crate::random::Random;
use crate::refusals::refused;
use crate::selftest::Tally;
use crate::walks;

/// The claims on one network, with all bytes 0 and then with closures.
pub fn claims(tally: &mut Tally, random: &mut Random) {
    let (n, m) = (random.between(1, 4), random.between(0, 7));
    let mut lent = plan(random, n, m);
    change_boxes(random, &mut lent);
    let asked = ask(random, &lent);
    // With all bytes 0 the rules of 01 hold of all arcs.
    let mut all_open = Lent { closed: vec![0; m as usize], ..lent.clone() };
    let arcs = rows(&all_open);
    by_01(tally, &all_open, &arcs);
    let opened = Asked { byte: 0, ..asked };
    updated(tally, &mut all_open, &opened, |new| new);
    // With closures they hold of the open arcs.
    let arcs = rows(&lent);
    by_01(tally, &lent, &only_open(arcs.clone()));
    let closed_lead_nowhere =
        arcs.iter().zip(all_s(n as usize, &arcs)).all(|(arc, s)| !arc.closed || s.is_empty());
    tally.expect(closed_lead_nowhere, "S(e) of a closed arc is empty");
    updated(tally, &mut lent, &asked, only_open);
    spoilt(tally, random, lent, asked);
}

/// All pairs of nodes.
fn pairs(n: usize) -> impl Iterator<Item = (usize, usize)> {
    (1..=n).flat_map(move |s| (1..=n).map(move |t| (s, t)))
}

/// The arcs as the rows have them.
fn rows(lent: &Lent) -> Vec<Arc> {
    let arc = |e: usize| Arc {
        number: e + 1,
        tail: lent.tails[e] as usize,
        head: lent.heads[e] as usize,
        weight: lent.weights[e],
        closed: lent.closed[e] != 0,
    };
    (0..lent.m as usize).map(arc).collect()
}

fn only_open(mut arcs: Vec<Arc>) -> Vec<Arc> {
    arcs.retain(|arc| !arc.closed);
    arcs
}

/// The places of the nodes, indexed by node.
fn places(lent: &Lent) -> Vec<Place> {
    [(0, 0)].into_iter().chain(lent.x.iter().copied().zip(lent.y.iter().copied())).collect()
}

fn rectangles(lent: &Lent) -> Vec<Rectangle> {
    lent.boxes.chunks(4).map(Rectangle::from_sides).collect()
}

/// The tight box of every arc, by 01 for the network of the arcs that are used.
fn tight(lent: &Lent, used: &[Arc]) -> Vec<Rectangle> {
    let places = places(lent);
    rows(lent).iter().map(|arc| walks::tight(lent.n as usize, used, &places, arc)).collect()
}

/// Searches, build and check are as 01 has them for the network of the arcs that are used, whatever the boxes.
fn by_01(tally: &mut Tally, lent: &Lent, used: &[Arc]) {
    let (n, places, boxes) = (lent.n as usize, places(lent), rectangles(lent));
    for (s, t) in pairs(n) {
        let plain = search(&mut lent.clone(), s as i64, t as i64);
        tally.expect(plain == walks::search(n, used, s, t), "a search is the best of all walks");
        let mut holding = used.to_vec();
        holding.retain(|arc| boxes[arc.number - 1].holds(places[t]));
        let with_boxes = boxed(&mut lent.clone(), s as i64, t as i64);
        tally.expect(with_boxes == walks::search(n, &holding, s, t), "so is a search with boxes");
    }
    let mut built = lent.clone();
    tally.expect(build(&mut built).is_ok(), "boxes are built");
    tally.expect(rectangles(&built) == tight(lent, used), "they are the tight boxes by all walks");
    let misses = |arc: &Arc| {
        let set = walks::set(n, used, arc).into_iter();
        set.map(|t| (arc.number as i64, t as i64))
            .find(|(arc, t)| !boxes[*arc as usize - 1].holds(places[*t as usize]))
    };
    let reply = used.iter().find_map(misses).map_or(Ok(()), |(arc, t)| refused(13, &[arc, t]));
    tally.expect(check(lent) == reply, "check tells the lowest missed node of the lowest arc by all walks");
}

/// An update writes the weight and the byte, and makes of each box the smallest around it and its tight box in the new
/// network, which `used` gives; check says yes. No search uses an arc that was closed.
fn updated(tally: &mut Tally, lent: &mut Lent, asked: &Asked, used: fn(Vec<Arc>) -> Vec<Arc>) {
    let before = lent.clone();
    let reply = update(lent, asked.arc, asked.weight, asked.byte);
    if lent.m == 0 {
        return tally.expect(reply == refused(11, &[]), "no arc can be updated where there is none");
    }
    tally.expect(reply.is_ok(), "an update is taken");
    let mut rows_demanded = before.clone();
    let e = asked.arc as usize - 1;
    (rows_demanded.weights[e], rows_demanded.closed[e]) = (asked.weight, asked.byte);
    let tight = tight(&rows_demanded, &used(rows(&rows_demanded)));
    let grown =
        rectangles(&before).iter().zip(&tight).flat_map(|(old, tight)| old.hull(tight).sides()).collect();
    tally.expect(*lent == Lent { boxes: grown, ..rows_demanded }, "an update writes both rows and the boxes");
    tally.expect(check(lent).is_ok(), "updated boxes pass check");
    for (s, t) in pairs(lent.n as usize) {
        let (s, t) = (s as i64, t as i64);
        let routes =
            [search(lent, s, t), boxed(lent, s, t)].map(|found| found.map_or(vec![], |found| found.route));
        let unused = routes.iter().all(|route| !route.contains(&(asked.arc as usize)));
        tally.expect(unused || asked.byte == 0, "no search uses an arc that was closed");
    }
}

/// A refused call changes nothing that is lent.
fn spoilt(tally: &mut Tally, random: &mut Random, mut lent: Lent, mut asked: Asked) {
    add_surplus(random, &mut lent);
    for _ in 0..random.between(1, 3) {
        spoil(random, &mut lent, &mut asked);
    }
    let Asked { s, t, arc, weight, byte, .. } = asked;
    let calls: [&dyn Fn(&mut Lent) -> bool; 4] = [
        &|lent| search(lent, s, t).is_ok(),
        &|lent| boxed(lent, s, t).is_ok(),
        &|lent| build(lent).is_ok(),
        &|lent| update(lent, arc, weight, byte).is_ok(),
    ];
    for call in calls {
        let mut after = lent.clone();
        tally.expect(call(&mut after) || after == lent, "a refused call changes nothing");
    }
}
