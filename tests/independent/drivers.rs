//! The claims of request e on small random networks, held to every walk that there is.

use crate::calls::{search, why};
use crate::judging::judge_network;
use crate::lent::Lent;
use crate::limits::limit_why;
use crate::network::{lengths, open};
use crate::plans::{add_surplus, ask, plan, spoil, Asked};
use crate::random::Random;
use crate::reasons::Reason;
use crate::refusals::refused;
use crate::scratch::Scratch;
use crate::selftest::Tally;
use crate::sizes::NODES;
use crate::walks;

/// The claims on one network, for all of its arcs and all pairs of nodes; then with things wrong.
pub fn claims(tally: &mut Tally, random: &mut Random) {
    let (n, m) = (random.between(1, 4), random.between(0, 7));
    let mut lent = plan(random, n, m);
    let asked = ask(random, &lent);
    for s in 1..=n {
        for t in 1..=n {
            explained(tally, &lent, s, t);
        }
    }
    let reply = why(&lent, asked.s, asked.t, asked.arc);
    add_surplus(random, &mut lent);
    lent.route.truncate(random.below(lent.route.len()));
    tally.expect(why(&lent, asked.s, asked.t, asked.arc) == reply, "no surplus is read, and no route row");
    refusals(tally, random, lent, asked);
}

/// The greatest excess there can be: twice the longest length, and the arc's weight.
pub fn greatest_excess(tally: &mut Tally) {
    let replies =
        String::from_utf8(Scratch::new().demanded(&limit_why().input())).expect("replies are plain text");
    let greatest = "ok 3 1023000000 (the best way through it is longer by 1023000000)";
    tally.expect(replies.lines().any(|reply| reply == greatest), greatest);
}

/// The reply for each arc is the first reason that is true by all walks.
fn explained(tally: &mut Tally, lent: &Lent, s: i64, t: i64) {
    let (n, arcs) = (lent.n as usize, judge_network(lent, &[]).expect("the network is within the limits"));
    let (used, (from, to)) = (open(&arcs), (s as usize, t as usize));
    let d = lengths(n, &used);
    let all = walks::from(2 * n - 1, &used, from);
    let mut searched = Lent { route: vec![0; n], ..lent.clone() };
    let found = search(&mut searched, s, t);
    for e in &arcs {
        let reply = why(lent, s, t, e.number as i64);
        let Ok(found) = &found else {
            tally.expect(reply.err() == found.clone().err(), "12 comes before any reason");
            continue;
        };
        // Before and behind the arc a best walk needs fewer arcs than there are nodes.
        let best = walks::best_through(&all, to, e.number);
        let sum = d[from][e.tail].zip(d[e.head][to]).map(|(before, behind)| before + e.weight + behind);
        tally.expect(best == sum.filter(|_| !e.closed), "the best walk through an open arc has that length");
        let excess = best.map(|best| best - found.length);
        let written = searched.route[..found.route.len()].contains(&(e.number as i64));
        let leads = |from: usize, to: usize| walks::from(n, &used, from).iter().any(|walk| walk.end == to);
        // Each reason by itself.
        let mut reasons = Vec::new();
        reasons.extend(e.closed.then_some(Reason::Closed));
        reasons.extend((!leads(from, e.tail) || !leads(e.head, to)).then_some(Reason::CutOff));
        reasons.extend(excess.filter(|excess| *excess > 0).map(Reason::Longer));
        reasons.extend((excess == Some(0) && !written).then_some(Reason::Tied));
        reasons.extend(written.then_some(Reason::OnRoute));
        tally.expect(reply.as_ref().ok() == reasons.first(), format!("{reasons:?}, not {reply:?}"));
        let alone = reasons.len() == 1 || reasons == [Reason::Closed, Reason::CutOff];
        tally.expect(alone, "one reason is true, but a closed arc may be cut off too");
        tally.expect((reply == Ok(Reason::OnRoute)) == written, "5 exactly if it is written into the route");
    }
}

/// Refused as a search without boxes is, whatever the route row; 11 for the arc stands beside that for source and target.
fn refusals(tally: &mut Tally, random: &mut Random, mut lent: Lent, mut asked: Asked) {
    for _ in 0..random.between(1, 3) {
        spoil(random, &mut lent, &mut asked);
    }
    let Asked { s, t, arc, .. } = asked;
    let reply = why(&lent, s, t, arc);
    let mut roomy = Lent { route: vec![0; NODES as usize], ..lent.clone() };
    match search(&mut roomy, s, t) {
        Err(refusal) if refusal.number != 12 => {
            tally.expect(reply == Err(refusal), "what a search is refused for, why is")
        }
        _ if !(1..=lent.m).contains(&arc) => tally.expect(reply == refused(11, &[]), "an unknown arc is 11"),
        Err(refusal) => tally.expect(reply == Err(refusal), "12 comes before any reason"),
        Ok(_) => tally.expect(reply.is_ok(), "where a search is taken, why is"),
    }
}
