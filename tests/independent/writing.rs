//! The plans written back: request a of 02.

use crate::judging::{judge_arcs, judge_places};
use crate::lent::{fill, Lent};
use crate::refusals::{refused, Refusal};
use crate::sizes::is_node_count;

/// Puts a text into the lent row, which may be longer: its surplus keeps its contents. Returns the text's length.
fn put(lent: &mut Lent, text: &str) -> Result<i64, Refusal> {
    if lent.text.len() < text.len() {
        return refused(2, &[]);
    }
    fill(&mut lent.text, text.bytes().map(i64::from));
    Ok(text.len() as i64)
}

/// Writes the .gr text: the `p` line, then the arcs in ascending number. Refusals 5, 2 for the arc rows, 8, and last 2.
pub fn write_gr(lent: &mut Lent) -> Result<i64, Refusal> {
    let arcs = judge_arcs(lent, &[])?;
    let mut text = format!("p sp {} {}\n", lent.n, lent.m);
    for arc in arcs {
        text += &format!("a {} {} {}\n", arc.tail, arc.head, arc.weight);
    }
    put(lent, &text)
}

/// Writes the .co text: the `p` line, then the nodes in ascending number. Refusals 5 for n, 2 for x and y, 9, and last 2.
pub fn write_co(lent: &mut Lent) -> Result<i64, Refusal> {
    let n = lent.n;
    if !is_node_count(n) {
        return refused(5, &[0]);
    }
    if (lent.x.len() as i64) < n || (lent.y.len() as i64) < n {
        return refused(2, &[]);
    }
    let mut text = format!("p aux sp co {n}\n");
    for (node, (x, y)) in judge_places(lent)?.iter().enumerate().skip(1) {
        text += &format!("v {node} {x} {y}\n");
    }
    put(lent, &text)
}
