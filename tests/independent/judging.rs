//! What is lent to a call, judged in the one order of refusals:
//! 5 for n or m, 2, 8, 14, 19, 9, 18, 10, 11, 5 for a new weight, 14 for a new byte, 12, 13.

use crate::boxes::{Place, Rectangle};
use crate::index::index_of;
use crate::lent::Lent;
use crate::masks::has;
use crate::network::Arc;
use crate::refusals::{refused, Refusal};
use crate::sizes::*;

/// A row that a call needs, and how many places of it.
type Needed<'a> = (&'a Vec<i64>, i64);

/// The tests of arcs that a call is about: of their boxes, of their masks, of both or of none; and whether it finds the arcs
/// by the index.
#[derive(Clone, Copy, Debug, PartialEq, Eq)]
pub struct Tests {
    pub boxes: bool,
    pub masks: bool,
    pub index: bool,
}

impl Tests {
    pub const NONE: Tests = Tests { boxes: false, masks: false, index: false };
    pub const BOXES: Tests = Tests { boxes: true, ..Tests::NONE };
    pub const MASKS: Tests = Tests { masks: true, ..Tests::NONE };
    pub const BOTH: Tests = Tests { boxes: true, masks: true, index: false };
    pub const INDEX: Tests = Tests { index: true, ..Tests::NONE };

    /// The rows that they need besides those of the network.
    fn rows(self, lent: &Lent) -> Vec<Needed<'_>> {
        let mut rows = Vec::new();
        if self.boxes {
            rows.extend([(&lent.x, lent.n), (&lent.y, lent.n), (&lent.boxes, 4 * lent.m)]);
        }
        if self.masks {
            rows.extend([(&lent.modules, lent.n), (&lent.masks, lent.m)]);
        }
        if self.index {
            rows.extend(needed_by_index(lent));
        }
        rows
    }
}

/// The rows of the index.
pub fn needed_by_index(lent: &Lent) -> [Needed<'_>; 2] {
    [(&lent.offsets, lent.n + 1), (&lent.order, lent.m)]
}

/// The arcs, as if all were open, after refusals 5, 2 and 8. `others` are the rows needed besides the arc rows.
pub fn judge_arcs(lent: &Lent, others: &[Needed]) -> Result<Vec<Arc>, Refusal> {
    let (n, m) = (lent.n, lent.m);
    if !is_node_count(n) || !is_arc_count(m) {
        return refused(5, &[0]);
    }
    let arc_rows = [(&lent.tails, m), (&lent.heads, m), (&lent.weights, m)];
    if arc_rows.iter().chain(others).any(|(row, places)| (row.len() as i64) < *places) {
        return refused(2, &[]);
    }
    let mut arcs = Vec::new();
    for e in 0..m as usize {
        let (tail, head, weight) = (lent.tails[e], lent.heads[e], lent.weights[e]);
        if !is_node(tail, n) || !is_node(head, n) || !is_weight(weight) {
            return refused(8, &[e as i64 + 1]);
        }
        arcs.push(Arc { number: e + 1, tail: tail as usize, head: head as usize, weight, closed: false });
    }
    Ok(arcs)
}

/// The arcs with their closures, after refusals 5, 2, 8 and 14.
pub fn judge_network(lent: &Lent, others: &[Needed]) -> Result<Vec<Arc>, Refusal> {
    let mut arcs = judge_arcs(lent, &[&[(&lent.closed, lent.m)], others].concat())?;
    for (arc, byte) in arcs.iter_mut().zip(&lent.closed) {
        if !is_closure(*byte) {
            return refused(14, &[arc.number as i64]);
        }
        arc.closed = *byte == 1;
    }
    Ok(arcs)
}

/// Refusal 19: the lent index is not that of the arcs.
fn judge_index(lent: &Lent, arcs: &[Arc]) -> Result<(), Refusal> {
    let (offsets, order) = index_of(lent.n as usize, arcs);
    if !lent.offsets.starts_with(&offsets) || !lent.order.starts_with(&order) {
        return refused(19, &[]);
    }
    Ok(())
}

/// The places of the nodes, indexed by node, after refusal 9.
pub fn judge_places(lent: &Lent) -> Result<Vec<Place>, Refusal> {
    let mut places = vec![(0, 0)];
    for node in 1..=lent.n as usize {
        let place = (lent.x[node - 1], lent.y[node - 1]);
        if !is_coordinate(place.0) || !is_coordinate(place.1) {
            return refused(9, &[node as i64]);
        }
        places.push(place);
    }
    Ok(places)
}

/// The modules of the nodes, indexed by node, after refusal 18.
fn judge_modules(lent: &Lent) -> Result<Vec<i64>, Refusal> {
    let modules = [&[0], &lent.modules[..lent.n as usize]].concat();
    match (1..modules.len()).find(|node| !is_module(modules[*node])) {
        Some(node) => refused(18, &[node as i64]),
        None => Ok(modules),
    }
}

/// The boxes of the arcs, after refusal 10.
fn judge_boxes(lent: &Lent) -> Result<Vec<Rectangle>, Refusal> {
    let sides = &lent.boxes[..4 * lent.m as usize];
    let boxes: Vec<Rectangle> = sides.chunks(4).map(Rectangle::from_sides).collect();
    match boxes.iter().position(|rectangle| !rectangle.well_shaped()) {
        Some(e) => refused(10, &[e as i64 + 1]),
        None => Ok(boxes),
    }
}

/// A network, and where its nodes are, for the tests that a call is about. What no test needs is empty.
pub struct Plan {
    pub arcs: Vec<Arc>,
    pub places: Vec<Place>,
    pub modules: Vec<i64>,
}

/// The plan, after refusals 5, 2, 8, 14, 19, 9 and 18.
pub fn judge_plan(lent: &Lent, tests: Tests, others: &[Needed]) -> Result<Plan, Refusal> {
    let arcs = judge_network(lent, &[&tests.rows(lent), others].concat())?;
    if tests.index {
        judge_index(lent, &arcs)?;
    }
    let places = if tests.boxes { judge_places(lent)? } else { vec![] };
    let modules = if tests.masks { judge_modules(lent)? } else { vec![] };
    Ok(Plan { arcs, places, modules })
}

/// A plan with the boxes and the masks of its arcs.
pub struct Tested<'a> {
    tests: Tests,
    pub plan: Plan,
    pub boxes: Vec<Rectangle>,
    masks: &'a [i64],
}

/// What the tests are asked with, after refusals 5, 2, 8, 14, 19, 9, 18 and 10. A mask is any number.
pub fn judge_tested<'a>(lent: &'a Lent, tests: Tests, others: &[Needed]) -> Result<Tested<'a>, Refusal> {
    let plan = judge_plan(lent, tests, others)?;
    let boxes = if tests.boxes { judge_boxes(lent)? } else { vec![] };
    Ok(Tested { tests, plan, boxes, masks: &lent.masks })
}

impl Tested<'_> {
    /// The test of boxes, if it is asked: the arc's box holds t.
    pub fn by_box(&self, arc: &Arc, t: usize) -> bool {
        !self.tests.boxes || self.boxes[arc.number - 1].holds(self.plan.places[t])
    }

    /// The test of masks, if it is asked: the arc's mask has the module of t.
    pub fn by_mask(&self, arc: &Arc, t: usize) -> bool {
        !self.tests.masks || has(self.masks[arc.number - 1], self.plan.modules[t])
    }

    /// The arcs that pass the tests toward t.
    pub fn toward(&self, t: usize) -> Vec<Arc> {
        let passes = |arc: &&Arc| self.by_box(arc, t) && self.by_mask(arc, t);
        self.plan.arcs.iter().filter(passes).copied().collect()
    }
}

/// The source and the target, after refusal 11.
pub fn judge_ends(lent: &Lent, s: i64, t: i64) -> Result<(usize, usize), Refusal> {
    if !is_node(s, lent.n) || !is_node(t, lent.n) {
        return refused(11, &[]);
    }
    Ok((s as usize, t as usize))
}

/// The place of an arc in its rows, after refusal 11.
pub fn judge_arc(lent: &Lent, arc: i64) -> Result<usize, Refusal> {
    if !(1..=lent.m).contains(&arc) {
        return refused(11, &[]);
    }
    Ok(arc as usize - 1)
}
