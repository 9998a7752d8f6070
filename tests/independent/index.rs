//! The index by starting point: request i of 02.

use crate::judging::{judge_arcs, needed_by_index};
use crate::lent::{fill, Lent};
use crate::network::Arc;
use crate::refusals::Refusal;

/// The rows of an index: the offsets, that of u counting the arcs with tails below u, for u from 1 to n + 1; and the
/// order, the arcs grouped by tail, tails ascending, arc numbers ascending within a tail.
pub fn index_of(n: usize, arcs: &[Arc]) -> (Vec<i64>, Vec<i64>) {
    let below = |u: usize| arcs.iter().filter(|arc| arc.tail < u).count() as i64;
    let from = |u: usize| arcs.iter().filter(move |arc| arc.tail == u).map(|arc| arc.number as i64);
    ((1..=n + 1).map(below).collect(), (1..=n).flat_map(from).collect())
}

/// Build of the index. It reads the three arc rows, and is lent no closures.
pub fn build_index(lent: &mut Lent) -> Result<(), Refusal> {
    let arcs = judge_arcs(lent, &needed_by_index(lent))?;
    let (offsets, order) = index_of(lent.n as usize, &arcs);
    fill(&mut lent.offsets, offsets);
    fill(&mut lent.order, order);
    Ok(())
}
