//! The readers of .gr, .co and, for request g, .p2p: bytes split into lines, lines into fields.

use crate::lent::{fill, Lent};
use crate::refusals::{refused, Refusal};
use crate::sizes::*;
use crate::slips::{slip, Format, CO, GR, P2P};

/// Lines end in byte 10; the last may lack it, and a text ending in it has no further line.
pub fn lines(text: &[u8]) -> Vec<&[u8]> {
    let mut lines: Vec<&[u8]> = text.split(|byte| *byte == b'\n').collect();
    if lines.last() == Some(&&b""[..]) {
        lines.pop();
    }
    lines
}

/// Fields are divided by exactly one space; two spaces leave an empty field, which no form has.
pub fn fields(line: &[u8]) -> Vec<&[u8]> {
    line.split(|byte| *byte == b' ').collect()
}

fn is_comment(line: &[u8]) -> bool {
    fields(line)[0] == b"c"
}

/// The value of a number without sign, if it is well formed.
/// A value that `i64` cannot hold stays at the greatest `i64`, far above every limit.
pub fn number(field: &[u8]) -> Option<i64> {
    let leading_zero = field.len() > 1 && field[0] == b'0';
    if field.is_empty() || leading_zero || !field.iter().all(u8::is_ascii_digit) {
        return None;
    }
    Some(
        field
            .iter()
            .fold(0i64, |value, digit| value.saturating_mul(10).saturating_add((digit - b'0') as i64)),
    )
}

/// The value of a number that may have one leading minus; `-0` is malformed.
pub fn signed_number(field: &[u8]) -> Option<i64> {
    match field.strip_prefix(b"-") {
        Some(digits) => number(digits).filter(|value| *value != 0).map(|value| -value),
        None => number(field),
    }
}

/// A line of .gr that is not a comment.
enum GrLine {
    Problem(i64, i64),
    Arc(i64, i64, i64),
}

fn gr_line(line: &[u8]) -> Option<GrLine> {
    match fields(line)[..] {
        [b"p", b"sp", n, m] => Some(GrLine::Problem(number(n)?, number(m)?)),
        [b"a", u, v, w] => Some(GrLine::Arc(number(u)?, number(v)?, number(w)?)),
        _ => None,
    }
}

/// A line of .co that is not a comment.
enum CoLine {
    Problem(i64),
    Node(i64, i64, i64),
}

fn co_line(line: &[u8]) -> Option<CoLine> {
    match fields(line)[..] {
        [b"p", b"aux", b"sp", b"co", n] => Some(CoLine::Problem(number(n)?)),
        [b"v", id, x, y] => Some(CoLine::Node(number(id)?, signed_number(x)?, signed_number(y)?)),
        _ => None,
    }
}

/// A line of .p2p that is not a comment.
enum P2pLine {
    Problem(i64),
    Query(i64, i64),
}

fn p2p_line(line: &[u8]) -> Option<P2pLine> {
    match fields(line)[..] {
        [b"p", b"aux", b"sp", b"p2p", k] => Some(P2pLine::Problem(number(k)?)),
        [b"q", s, t] => Some(P2pLine::Query(number(s)?, number(t)?)),
        _ => None,
    }
}

/// Whether a line has a form of .gr, a comment's included.
pub fn has_gr_form(line: &[u8]) -> bool {
    is_comment(line) || gr_line(line).is_some()
}

/// Whether a line has a form of .co, a comment's included.
pub fn has_co_form(line: &[u8]) -> bool {
    is_comment(line) || co_line(line).is_some()
}

/// Whether a line has a form of .p2p, a comment's included.
pub fn has_p2p_form(line: &[u8]) -> bool {
    is_comment(line) || p2p_line(line).is_some()
}

/// Refusal 3, 15, 16 or 17 of a line without a form, with its line and column.
fn slipped<T>(format: &Format, line: &[u8], at: i64) -> Result<T, Refusal> {
    let slip = slip(format, line).expect("a line without a form has a fault");
    refused(slip.number, &[at, slip.column])
}

/// Refusals 1 and 2: the text's bytes, then the places of the rows lent to a reader.
fn judge_sizes(text: &[u8], rows: &[&Vec<i64>], places: i64) -> Result<(), Refusal> {
    if text.len() > TEXT_BYTES {
        return refused(1, &[]);
    }
    if rows.iter().any(|row| (row.len() as i64) < places) {
        return refused(2, &[]);
    }
    Ok(())
}

/// Reads a .gr text into tails, heads and weights, all arcs open; returns n and m.
pub fn read_gr(text: &[u8], lent: &mut Lent) -> Result<(i64, i64), Refusal> {
    judge_sizes(text, &[&lent.tails, &lent.heads, &lent.weights, &lent.closed], ARCS)?;
    let mut counts = None;
    let mut arcs: Vec<(i64, i64, i64)> = Vec::new();
    let mut at = 1;
    for line in lines(text) {
        if !is_comment(line) {
            match gr_line(line) {
                None => return slipped(GR, line, at),
                Some(GrLine::Problem(n, m)) => {
                    if counts.is_some() {
                        return refused(4, &[at]);
                    }
                    if !is_node_count(n) || !is_arc_count(m) {
                        return refused(5, &[at]);
                    }
                    counts = Some((n, m));
                }
                Some(GrLine::Arc(u, v, w)) => {
                    let Some((n, m)) = counts else {
                        return refused(4, &[at]);
                    };
                    if !is_node(u, n) || !is_node(v, n) || !is_weight(w) {
                        return refused(5, &[at]);
                    }
                    if arcs.len() as i64 == m {
                        return refused(6, &[at]);
                    }
                    arcs.push((u, v, w));
                }
            }
        }
        at += 1;
    }
    match counts {
        Some((n, m)) if arcs.len() as i64 == m => {
            fill(&mut lent.tails, arcs.iter().map(|arc| arc.0));
            fill(&mut lent.heads, arcs.iter().map(|arc| arc.1));
            fill(&mut lent.weights, arcs.iter().map(|arc| arc.2));
            fill(&mut lent.closed, arcs.iter().map(|_| 0));
            Ok((n, m))
        }
        _ => refused(6, &[at]),
    }
}

/// Reads a .co text into x and y, for the n that the graph had.
pub fn read_co(text: &[u8], lent: &mut Lent) -> Result<(), Refusal> {
    judge_sizes(text, &[&lent.x, &lent.y], NODES)?;
    let n = lent.n;
    if !is_node_count(n) {
        return refused(5, &[0]);
    }
    let mut problem_seen = false;
    let mut places: Vec<Option<(i64, i64)>> = vec![None; n as usize];
    let mut at = 1;
    for line in lines(text) {
        if !is_comment(line) {
            match co_line(line) {
                None => return slipped(CO, line, at),
                Some(CoLine::Problem(nodes)) => {
                    if problem_seen {
                        return refused(4, &[at]);
                    }
                    if !is_node_count(nodes) {
                        return refused(5, &[at]);
                    }
                    if nodes != n {
                        return refused(6, &[at]);
                    }
                    problem_seen = true;
                }
                Some(CoLine::Node(id, x, y)) => {
                    if !problem_seen {
                        return refused(4, &[at]);
                    }
                    if !is_node(id, n) || !is_coordinate(x) || !is_coordinate(y) {
                        return refused(5, &[at]);
                    }
                    let place = &mut places[id as usize - 1];
                    if place.is_some() {
                        return refused(7, &[at]);
                    }
                    *place = Some((x, y));
                }
            }
        }
        at += 1;
    }
    let places: Vec<(i64, i64)> = places.into_iter().flatten().collect();
    if !problem_seen || (places.len() as i64) < n {
        return refused(6, &[at]);
    }
    fill(&mut lent.x, places.iter().map(|place| place.0));
    fill(&mut lent.y, places.iter().map(|place| place.1));
    Ok(())
}

/// Reads a .p2p text, for a network of n nodes: the sources and targets of its queries. Of the rows it looks at the one
/// for the answers alone.
pub fn read_p2p(text: &[u8], lent: &Lent) -> Result<Vec<(usize, usize)>, Refusal> {
    judge_sizes(text, &[&lent.answers], QUERIES)?;
    let n = lent.n;
    if !is_node_count(n) {
        return refused(5, &[0]);
    }
    let mut count = None;
    let mut queries = Vec::new();
    let mut at = 1;
    for line in lines(text) {
        if !is_comment(line) {
            match p2p_line(line) {
                None => return slipped(P2P, line, at),
                Some(P2pLine::Problem(k)) => {
                    if count.is_some() {
                        return refused(4, &[at]);
                    }
                    if !is_query_count(k) {
                        return refused(5, &[at]);
                    }
                    count = Some(k);
                }
                Some(P2pLine::Query(s, t)) => {
                    let Some(k) = count else {
                        return refused(4, &[at]);
                    };
                    if !is_node(s, n) || !is_node(t, n) {
                        return refused(5, &[at]);
                    }
                    if queries.len() as i64 == k {
                        return refused(6, &[at]);
                    }
                    queries.push((s as usize, t as usize));
                }
            }
        }
        at += 1;
    }
    if count != Some(queries.len() as i64) {
        return refused(6, &[at]);
    }
    Ok(queries)
}
