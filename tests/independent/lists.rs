//! A day's running list: request g of 02.

use crate::judging::{judge_tested, Tests};
use crate::lent::{fill, Lent};
use crate::network::{open, search};
use crate::refusals::Refusal;
use crate::text::read_p2p;

/// What marks in the answers that no route was found.
pub const NO_ROUTE: i64 = 4_294_967_295;

/// How many queries had a route, how many had none, and the sum of the lengths found.
#[derive(Clone, Copy, Debug, PartialEq, Eq)]
pub struct Day {
    pub found: usize,
    pub none: usize,
    pub sum: i64,
}

/// The queries of a running list, each with its length, if it has a route.
pub type Answered = Vec<((usize, usize), Option<i64>)>;

/// Answers each query in order: after the text's refusals those of a search with boxes, for which no route row is lent.
pub fn answered(lent: &Lent, text: &[u8]) -> Result<Answered, Refusal> {
    let queries = read_p2p(text, lent)?;
    let tested = judge_tested(lent, Tests::BOXES, &[])?;
    let answer = |(s, t): (usize, usize)| {
        let found = search(lent.n as usize, &open(&tested.toward(t)), s, t);
        ((s, t), found.ok().map(|found| found.length))
    };
    Ok(queries.into_iter().map(answer).collect())
}

/// The totals of the answers.
pub fn totals(answered: &Answered) -> Day {
    let found: Vec<i64> = answered.iter().filter_map(|(_, length)| *length).collect();
    Day { found: found.len(), none: answered.len() - found.len(), sum: found.iter().sum() }
}

/// Answers a running list into the lent row, the rest of which is kept.
pub fn run_day(lent: &mut Lent, text: &[u8]) -> Result<Day, Refusal> {
    let answered = answered(lent, text)?;
    fill(&mut lent.answers, answered.iter().map(|(_, length)| length.unwrap_or(NO_ROUTE)));
    Ok(totals(&answered))
}
