//! The claims of request g on small random networks, and the limits told by hand.

use crate::calls::boxed;
use crate::cases::typed;
use crate::lent::Lent;
use crate::limits::limit_day;
use crate::lists::{run_day, Day, NO_ROUTE};
use crate::plans::{add_surplus, ask, change_boxes, plan, spoil};
use crate::random::Random;
use crate::refusals::{refused, Refusal};
use crate::scratch::Scratch;
use crate::selftest::Tally;
use crate::sizes::{is_node_count, NODES, QUERIES, TEXT_BYTES};
use crate::text::read_p2p;
use crate::texts::{p2p_text, some_queries};

/// The claims on one network and one running list, typed well and then with things wrong.
pub fn claims(tally: &mut Tally, random: &mut Random) {
    let (n, m) = (random.between(1, 6), random.between(0, 10));
    let mut lent = plan(random, n, m);
    change_boxes(random, &mut lent);
    lent.answers = (0..QUERIES).map(|_| random.between(0, 99)).collect();
    add_surplus(random, &mut lent);
    let queries = some_queries(random, n);
    let text = p2p_text(random, queries.len() as i64, &queries);
    separate(tally, &lent, &queries, &text);
    let mut asked = ask(random, &lent);
    for _ in 0..random.below(3) {
        spoil(random, &mut lent, &mut asked);
    }
    refusals(tally, &lent, &typed(random, text));
}

/// Lengths and totals are those of separate searches with boxes; the rest of the answers and all other rows are kept.
fn separate(tally: &mut Tally, lent: &Lent, queries: &[(i64, i64)], text: &[u8]) {
    let mut after = lent.clone();
    let reply = run_day(&mut after, text);
    if queries.len() as i64 > QUERIES {
        let too_many = matches!(reply, Err(Refusal { number: 5, .. })) && after == *lent;
        return tally.expect(too_many, "a list of more than 256 queries is 5");
    }
    let (mut demanded, mut day) = (lent.clone(), Day { found: 0, none: 0, sum: 0 });
    for (at, (s, t)) in queries.iter().enumerate() {
        match boxed(&mut lent.clone(), *s, *t) {
            Ok(found) => {
                (day.found, day.sum) = (day.found + 1, day.sum + found.length);
                demanded.answers[at] = found.length;
            }
            Err(refusal) => {
                tally.expect(refusal.number == 12, "of a separate search only 12 is left");
                day.none += 1;
                demanded.answers[at] = NO_ROUTE;
            }
        }
    }
    tally.expect(reply == Ok(day), "the totals are those of separate searches");
    tally.expect(after == demanded, "so are the lengths, and all else is kept");
}

/// The order of the refusals: 1, 2 for the answers, 5 for n, the text's, then those of a search with boxes but for 11, 12
/// and the route row. A refused list changes nothing.
fn refusals(tally: &mut Tally, lent: &Lent, text: &[u8]) {
    let mut after = lent.clone();
    let reply = run_day(&mut after, text);
    tally.expect(reply.is_ok() || after == *lent, "a refused list changes nothing");
    let roomy = Lent { n: lent.n, answers: vec![0; QUERIES as usize], ..Lent::default() };
    let by_text = if text.len() > TEXT_BYTES {
        refused(1, &[])
    } else if (lent.answers.len() as i64) < QUERIES {
        refused(2, &[])
    } else if !is_node_count(lent.n) {
        refused(5, &[0])
    } else {
        read_p2p(text, &roomy).map(drop)
    };
    let mut searched = Lent { route: vec![0; NODES as usize], ..lent.clone() };
    let demanded = by_text.and_then(|()| boxed(&mut searched, 1, 1).map(drop));
    tally.expect(reply.map(drop) == demanded, "the text's refusals, then those of a search with boxes");
}

/// The longest list of the longest ways, whose sum no 32 bits hold; and one query more.
pub fn limits(tally: &mut Tally) {
    let (scratch, case) = (Scratch::new(), limit_day());
    scratch.write(&case.files);
    let replies = String::from_utf8(scratch.demanded(&case.input())).expect("replies are plain text");
    for reply in [
        "ok 0 0 0",
        "ok 1 0 511000000",
        "ok 255 0 130305000000",
        "ok 256 0 130816000000",
        "ok 128 128 65408000000",
        "refused 5 1 (a number in line 1 is beyond its limits)",
        "refused 6 257 (the counts disagree at line 257)",
        "refused 6 258 (the counts disagree at line 258)",
        "refused 1 (the text is over 65536 bytes)",
        "refused 2 (a lent row is too short)",
        "refused 5 0 (n, m or the new weight is beyond its limits)",
    ] {
        tally.expect(replies.lines().any(|line| line == reply), reply);
    }
}
