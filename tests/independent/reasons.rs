//! "Why not by the bridge?": request e of 02.

use crate::network::{labels, open, search, Arc};
use crate::refusals::Refusal;
use std::fmt;

/// Why an arc is not on the route, or that it is.
#[derive(Clone, Copy, Debug, PartialEq, Eq)]
pub enum Reason {
    Closed,
    CutOff,
    /// The best walk through the arc is longer, by this much.
    Longer(i64),
    /// An equally short walk uses the arc, and the tie rule picked another.
    Tied,
    OnRoute,
}

/// The first reason that is true of the arc e, for a search from s to t; refusal 12 comes before any.
pub fn reason(n: usize, arcs: &[Arc], s: usize, t: usize, e: &Arc) -> Result<Reason, Refusal> {
    let open = open(arcs);
    let found = search(n, &open, s, t)?;
    if e.closed {
        return Ok(Reason::Closed);
    }
    let length = |from: usize, to: usize| labels(n, &open, from)[to].map(|(d, _)| d);
    let (Some(before), Some(behind)) = (length(s, e.tail), length(e.head, t)) else {
        return Ok(Reason::CutOff);
    };
    // The best walk to the arc's start, the arc, and the best walk on from its end; nodes may come twice.
    Ok(match before + e.weight + behind - found.length {
        0 if found.route.contains(&e.number) => Reason::OnRoute,
        0 => Reason::Tied,
        excess => Reason::Longer(excess),
    })
}

/// The reason's number, for 3 the excess, and the words in brackets.
impl fmt::Display for Reason {
    fn fmt(&self, out: &mut fmt::Formatter) -> fmt::Result {
        match self {
            Reason::Closed => write!(out, "1 (the track is closed)"),
            Reason::CutOff => write!(out, "2 (its start cannot be reached, or the target not from its end)"),
            Reason::Longer(by) => write!(out, "3 {by} (the best way through it is longer by {by})"),
            Reason::Tied => write!(out, "4 (an equally short way uses it, and the tie rule picked another)"),
            Reason::OnRoute => write!(out, "5 (it is on the route)"),
        }
    }
}
