//! Lengths, ties, the route and the settled count, of networks in which walks use every arc.
//! Tables are indexed by node; place 0 is unused.

use crate::refusals::{refused, Refusal};

/// An arc with its number in the whole network, which it keeps in a network of fewer arcs.
#[derive(Clone, Copy)]
pub struct Arc {
    pub number: usize,
    pub tail: usize,
    pub head: usize,
    pub weight: i64,
    pub closed: bool,
}

/// The open network: walks use open arcs only.
pub fn open(arcs: &[Arc]) -> Vec<Arc> {
    arcs.iter().filter(|arc| !arc.closed).copied().collect()
}

/// What a search finds; the count of arcs is that of the route. The arcs examined are told by a search that goes by the index.
#[derive(Clone, Debug, PartialEq, Eq)]
pub struct Found {
    pub length: i64,
    pub settled: usize,
    pub examined: Option<usize>,
    pub route: Vec<usize>,
}

fn shorter(known: Option<i64>, length: i64) -> Option<i64> {
    Some(known.map_or(length, |known| known.min(length)))
}

/// For each node u its d(s,u) and k(u), if a walk leads there from s.
pub fn labels(n: usize, arcs: &[Arc], s: usize) -> Vec<Option<(i64, usize)>> {
    let mut labels: Vec<Option<(i64, usize)>> = vec![None; n + 1];
    // The least length of a walk from s to each node by exactly `count` arcs.
    let mut least = vec![None; n + 1];
    least[s] = Some(0);
    // A walk of n arcs or more repeats a node; what lies between can be left out, so it is never needed.
    for count in 0..n {
        for u in 1..=n {
            if let Some(length) = least[u] {
                if labels[u].map_or(true, |(d, _)| length < d) {
                    labels[u] = Some((length, count));
                }
            }
        }
        let mut next = vec![None; n + 1];
        for arc in arcs {
            if let Some(length) = least[arc.tail] {
                next[arc.head] = shorter(next[arc.head], length + arc.weight);
            }
        }
        least = next;
    }
    labels
}

/// d(u,t) for all pairs, found by allowing one more node on the way at a time (Floyd and Warshall).
pub fn lengths(n: usize, arcs: &[Arc]) -> Vec<Vec<Option<i64>>> {
    let mut d = vec![vec![None; n + 1]; n + 1];
    for u in 1..=n {
        d[u][u] = Some(0);
    }
    for arc in arcs {
        d[arc.tail][arc.head] = shorter(d[arc.tail][arc.head], arc.weight);
    }
    for middle in 1..=n {
        let onward = d[middle].clone();
        for from_u in d.iter_mut() {
            let Some(first) = from_u[middle] else {
                continue;
            };
            for t in 1..=n {
                if let Some(second) = onward[t] {
                    from_u[t] = shorter(from_u[t], first + second);
                }
            }
        }
    }
    d
}

/// The route traced from t: each time the lowest-numbered arc (u,v) with
/// d(s,u)+w = d(s,v) and k(u)+1 = k(v), until s is reached. `arcs` stand in the order of their numbers.
fn route(arcs: &[Arc], labels: &[Option<(i64, usize)>], s: usize, t: usize) -> Vec<usize> {
    let mut route = Vec::new();
    let mut v = t;
    while v != s {
        let fits = |arc: &&Arc| {
            arc.head == v && labels[arc.tail].is_some_and(|(d, k)| Some((d + arc.weight, k + 1)) == labels[v])
        };
        let arc = arcs.iter().find(fits).expect("a node that is reached has an arc into it");
        route.insert(0, arc.number);
        v = arc.tail;
    }
    route
}

/// The settled nodes: if t can be reached, t and the nodes whose triple (d, k, node) comes before t's;
/// otherwise the nodes that can be reached.
fn settled(labels: &[Option<(i64, usize)>], t: usize) -> Vec<usize> {
    let triple = |node: usize| labels[node].map(|(d, k)| (d, k, node));
    let last = triple(t);
    let mut triples: Vec<_> = (1..labels.len()).filter_map(triple).collect();
    triples.retain(|before| last.map_or(true, |last| *before <= last));
    triples.into_iter().map(|(_, _, node)| node).collect()
}

/// The search from s to t in the network of these arcs.
pub fn search(n: usize, arcs: &[Arc], s: usize, t: usize) -> Result<Found, Refusal> {
    let labels = labels(n, arcs, s);
    let settled = settled(&labels, t).len();
    match labels[t] {
        None => refused(12, &[settled as i64]),
        Some((length, _)) => Ok(Found { length, settled, examined: None, route: route(arcs, &labels, s, t) }),
    }
}

/// The arcs examined by the search from s to t in the network of the arcs `used`: the sum, over the settled nodes other than
/// the target, of all arcs leaving them, whether they are used or not.
pub fn examined(n: usize, all: &[Arc], used: &[Arc], s: usize, t: usize) -> usize {
    let settled = settled(&labels(n, used, s), t);
    let leaving = |u: &usize| all.iter().filter(|arc| arc.tail == *u).count();
    settled.iter().filter(|u| **u != t).map(leaving).sum()
}
