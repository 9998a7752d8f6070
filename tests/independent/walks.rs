//! 01's rules once more, by listing every walk of a small network. Nothing here knows of closures: walks use all the
//! arcs that are handed in.

use crate::boxes::{Place, Rectangle};
use crate::network::{Arc, Found};
use crate::refusals::{refused, Refusal};

/// A walk: where it ends, its length, and the numbers of its arcs, the first one first.
#[derive(Clone)]
pub struct Walk {
    pub end: usize,
    length: i64,
    arcs: Vec<usize>,
}

/// All walks from s of at most so many arcs. More than n arcs are never needed, even behind a given first one.
pub fn from(count: usize, arcs: &[Arc], s: usize) -> Vec<Walk> {
    let mut all = vec![Walk { end: s, length: 0, arcs: vec![] }];
    let mut at = 0;
    while at < all.len() {
        let walk = all[at].clone();
        for arc in arcs.iter().filter(|arc| arc.tail == walk.end && walk.arcs.len() < count) {
            let longer = [&walk.arcs[..], &[arc.number]].concat();
            all.push(Walk { end: arc.head, length: walk.length + arc.weight, arcs: longer });
        }
        at += 1;
    }
    all
}

/// The search from s to t: length, settled count and route.
pub fn search(n: usize, arcs: &[Arc], s: usize, t: usize) -> Result<Found, Refusal> {
    let walks = from(n, arcs, s);
    let key = |walk: &Walk| (walk.length, walk.arcs.len(), walk.end);
    let triple = |u: usize| walks.iter().filter(|walk| walk.end == u).map(key).min();
    let triples: Vec<_> = (1..=n).filter_map(triple).collect();
    let Some(own) = triple(t) else {
        return refused(12, &[triples.len() as i64]);
    };
    // The lowest arc is taken each time, from t on: of the best walks the first when they are read from their ends.
    let backward = |walk: &Walk| walk.arcs.iter().rev().copied().collect::<Vec<usize>>();
    let mut route =
        walks.iter().filter(|walk| key(walk) == own).map(backward).min().expect("t has a best walk");
    route.reverse();
    let settled = 1 + triples.iter().filter(|before| **before < own).count();
    Ok(Found { length: own.0, settled, examined: None, route })
}

/// The least length of those of the walks to t that use the arc with this number.
pub fn best_through(walks: &[Walk], t: usize, e: usize) -> Option<i64> {
    walks.iter().filter(|walk| walk.end == t && walk.arcs.contains(&e)).map(|walk| walk.length).min()
}

/// S(e): every t to which a shortest walk from the tail of e begins with e.
pub fn set(n: usize, arcs: &[Arc], e: &Arc) -> Vec<usize> {
    let walks = from(n, arcs, e.tail);
    let begun = |walk: &Walk| walk.arcs.first() == Some(&e.number);
    let in_set = |t: &usize| {
        let to_t = walks.iter().filter(|walk| walk.end == *t);
        let shortest = to_t.clone().map(|walk| walk.length).min();
        to_t.clone().any(|walk| begun(walk) && Some(walk.length) == shortest)
    };
    (1..=n).filter(in_set).collect()
}

/// The smallest box that holds these places, if there are any.
pub fn around(held: &[Place]) -> Option<Rectangle> {
    let (x, y) = (held.iter().map(|place| place.0), held.iter().map(|place| place.1));
    Some(Rectangle { left: x.clone().min()?, right: x.max()?, low: y.clone().min()?, high: y.max()? })
}

/// The smallest box that holds all of S(e), or the mark.
pub fn tight(n: usize, arcs: &[Arc], places: &[Place], e: &Arc) -> Rectangle {
    let held: Vec<Place> = set(n, arcs, e).into_iter().map(|node| places[node]).collect();
    around(&held).unwrap_or(Rectangle { left: 1, right: 0, low: 1, high: 0 })
}
