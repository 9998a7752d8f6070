//! The calls on lent rows.

use crate::boxes::{missed, tight, Rectangle};
use crate::judging::{judge_arc, judge_ends, judge_network, judge_plan, judge_tested, Tests};
use crate::lent::{fill, Lent};
use crate::masks::masks_of;
use crate::network::{self, open, Found};
use crate::reasons::{reason, Reason};
use crate::refusals::{refused, Refusal};
use crate::sizes::*;

/// A search by tests: the network of only those arcs that pass them toward t. The route is written if there is one.
/// By the index it agrees in every field with the one without, and tells the arcs examined, with 12 too.
pub fn search_by(lent: &mut Lent, tests: Tests, s: i64, t: i64) -> Result<Found, Refusal> {
    let tested = judge_tested(lent, tests, &[(&lent.route, lent.n)])?;
    let (s, t) = judge_ends(lent, s, t)?;
    let (n, used) = (lent.n as usize, open(&tested.toward(t)));
    let examined = tests.index.then(|| network::examined(n, &tested.plan.arcs, &used, s, t));
    let mut found = network::search(n, &used, s, t).map_err(|mut refusal| {
        refusal.values.extend(examined.map(|examined| examined as i64));
        refusal
    })?;
    found.examined = examined;
    fill(&mut lent.route, found.route.iter().map(|arc| *arc as i64));
    Ok(found)
}

/// Search without boxes.
pub fn search(lent: &mut Lent, s: i64, t: i64) -> Result<Found, Refusal> {
    search_by(lent, Tests::NONE, s, t)
}

/// Search with boxes.
pub fn boxed(lent: &mut Lent, s: i64, t: i64) -> Result<Found, Refusal> {
    search_by(lent, Tests::BOXES, s, t)
}

/// Why the arc is not on the route of a search without boxes. No route row is lent.
pub fn why(lent: &Lent, s: i64, t: i64, arc: i64) -> Result<Reason, Refusal> {
    let arcs = judge_network(lent, &[])?;
    let (s, t) = judge_ends(lent, s, t)?;
    let e = judge_arc(lent, arc)?;
    reason(lent.n as usize, &arcs, s, t, &arcs[e])
}

fn write_boxes(lent: &mut Lent, boxes: &[Rectangle]) {
    fill(&mut lent.boxes, boxes.iter().flat_map(Rectangle::sides));
}

/// Build writes the tight boxes.
pub fn build(lent: &mut Lent) -> Result<(), Refusal> {
    let plan = judge_plan(lent, Tests::BOXES, &[])?;
    write_boxes(lent, &tight(lent.n as usize, &plan.arcs, &plan.places));
    Ok(())
}

/// Build of masks: the modules of each S(e).
pub fn build_masks(lent: &mut Lent) -> Result<(), Refusal> {
    let plan = judge_plan(lent, Tests::MASKS, &[])?;
    fill(&mut lent.masks, masks_of(lent.n as usize, &plan.arcs, &plan.modules));
    Ok(())
}

/// Check accepts exactly where every arc passes the tests toward all of its S(e). Boxes are checked before masks.
pub fn check_by(lent: &Lent, tests: Tests) -> Result<(), Refusal> {
    let tested = judge_tested(lent, tests, &[])?;
    let (n, arcs) = (lent.n as usize, &tested.plan.arcs);
    let by_box = missed(n, arcs, |arc, t| tested.by_box(arc, t));
    match by_box.or_else(|| missed(n, arcs, |arc, t| tested.by_mask(arc, t))) {
        Some((arc, node)) => refused(13, &[arc as i64, node as i64]),
        None => Ok(()),
    }
}

/// Check of boxes.
pub fn check(lent: &Lent) -> Result<(), Refusal> {
    check_by(lent, Tests::BOXES)
}

/// Update writes one arc's new weight and byte and makes each box the smallest
/// that holds its old box and its tight box in the new network.
pub fn update(lent: &mut Lent, arc: i64, weight: i64, byte: i64) -> Result<(), Refusal> {
    let tested = judge_tested(lent, Tests::BOXES, &[])?;
    let e = judge_arc(lent, arc)?;
    if !is_weight(weight) {
        return refused(5, &[0]);
    }
    if !is_closure(byte) {
        return refused(14, &[arc]);
    }
    let (mut arcs, old) = (tested.plan.arcs, tested.boxes);
    (arcs[e].weight, arcs[e].closed) = (weight, byte == 1);
    let tight = tight(lent.n as usize, &arcs, &tested.plan.places);
    (lent.weights[e], lent.closed[e]) = (weight, byte);
    let grown: Vec<Rectangle> = old.iter().zip(&tight).map(|(old, tight)| old.hull(tight)).collect();
    write_boxes(lent, &grown);
    Ok(())
}
