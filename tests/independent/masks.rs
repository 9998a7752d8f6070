//! Masks of modules, and the panel's lamps: request h of 02.

use crate::boxes::all_s;
use crate::lent::{fill, Lent};
use crate::network::Arc;
use crate::refusals::{refused, Refusal};
use crate::sizes::MODULES;

/// Whether the bit of a module is set: bit module minus 1.
pub fn has(mask: i64, module: i64) -> bool {
    mask >> (module - 1) & 1 == 1
}

/// The mask of these modules.
fn mask_of(modules: impl Iterator<Item = i64>) -> i64 {
    modules.fold(0, |mask, module| mask | 1 << (module - 1))
}

/// For every arc the mask of the modules in which its S(e) has a node. `modules` are indexed by node.
pub fn masks_of(n: usize, arcs: &[Arc], modules: &[i64]) -> Vec<i64> {
    all_s(n, arcs).into_iter().map(|s| mask_of(s.into_iter().map(|t| modules[t]))).collect()
}

/// How many modules a mask has; their numbers are written into the row of lamps, lowest first. The rest is kept.
pub fn lamps(lent: &mut Lent, mask: i64) -> Result<usize, Refusal> {
    if (lent.lamps.len() as i64) < MODULES {
        return refused(2, &[]);
    }
    let modules: Vec<i64> = (1..=MODULES).filter(|module| has(mask, *module)).collect();
    fill(&mut lent.lamps, modules.iter().copied());
    Ok(modules.len())
}
