//! The claims of request h on small random networks, held to every walk that there is.

use crate::calls::{build, build_masks, check_by, search_by};
use crate::judging::{judge_network, Tests};
use crate::lent::Lent;
use crate::masks::lamps;
use crate::network::{open, Arc, Found};
use crate::plans::{add_surplus, ask, change_boxes, change_masks, plan, some_mask, spoil_upto, Asked};
use crate::random::Random;
use crate::refusals::{refused, Refusal};
use crate::selftest::Tally;
use crate::walks;
use crate::LAST;

/// Every kind of search.
pub const ALL_TESTS: [Tests; 4] = [Tests::NONE, Tests::BOXES, Tests::MASKS, Tests::BOTH];

/// The claims on one network; true if a search with both tests loses a route that one of them, with its yes, keeps.
pub fn claims(tally: &mut Tally, random: &mut Random) -> bool {
    let (n, m) = (random.between(1, 4), random.between(0, 7));
    let mut lent = plan(random, n, m);
    built(tally, &lent);
    change_boxes(random, &mut lent);
    change_masks(random, &mut lent);
    checked(tally, &lent);
    let lost = searched(tally, &lent);
    let asked = ask(random, &lent);
    listed(tally, random, asked.mask);
    refusals(tally, random, lent, asked);
    lost
}

/// Whether bit j minus 1 of a mask is set, by division.
fn lit(mask: i64, module: i64) -> bool {
    mask / 2_i64.pow(module as u32 - 1) % 2 == 1
}

fn arcs(lent: &Lent) -> Vec<Arc> {
    judge_network(lent, &[]).expect("the network is within the limits")
}

/// S(e) by all walks; that of a closed arc is empty.
fn set(lent: &Lent, arcs: &[Arc], e: &Arc) -> Vec<usize> {
    if e.closed {
        return vec![];
    }
    walks::set(lent.n as usize, &open(arcs), e)
}

/// Built masks have a module's bit exactly where S(e) has a node in it, and pass check, alone and beside built boxes.
fn built(tally: &mut Tally, lent: &Lent) {
    let mut built = Lent { masks: vec![7; lent.m as usize], ..lent.clone() };
    tally.expect(build_masks(&mut built).is_ok(), "masks are built");
    let arcs = arcs(lent);
    for (e, mask) in arcs.iter().zip(&built.masks) {
        let set = set(lent, &arcs, e);
        let leads = |module: i64| set.iter().any(|t| lent.modules[t - 1] == module);
        tally.expect((1..=32).all(|module| lit(*mask, module) == leads(module)), "a mask is of S(e)");
        tally.expect(!e.closed || *mask == 0, "a closed arc's mask is 0");
        tally.expect((0..=4_294_967_295).contains(mask), "a mask has 32 bits");
    }
    tally.expect(check_by(&built, Tests::MASKS).is_ok(), "built masks pass check");
    tally.expect(build(&mut built).is_ok() && check_by(&built, Tests::BOTH).is_ok(), "so do boxes and masks");
    let bare = Lent { x: vec![], y: vec![], boxes: vec![], ..built.clone() };
    let mut again = Lent { masks: vec![0; lent.m as usize], ..bare };
    tally.expect(build_masks(&mut again).is_ok() && again.masks == built.masks, "no coordinates are lent");
}

/// Whether the arc passes one of the tests toward t.
fn passes(lent: &Lent, e: &Arc, t: usize) -> [bool; 2] {
    let sides = &lent.boxes[4 * e.number - 4..4 * e.number];
    let within = |least: i64, at: i64, most: i64| least <= at && at <= most;
    let held = within(sides[0], lent.x[t - 1], sides[1]) && within(sides[2], lent.y[t - 1], sides[3]);
    [held, lit(lent.masks[e.number - 1], lent.modules[t - 1])]
}

/// Check tells the lowest arc that fails, with its lowest node, by all walks; of both kinds the boxes first.
fn checked(tally: &mut Tally, lent: &Lent) {
    let arcs = arcs(lent);
    let fails = |kind: usize| {
        let of = |e: &Arc| set(lent, &arcs, e).into_iter().find(|t| !passes(lent, e, *t)[kind]);
        arcs.iter().find_map(|e| of(e).map(|t| [e.number as i64, t as i64]))
    };
    let told = |failed: Option<[i64; 2]>| failed.map_or(Ok(()), |values| refused(13, &values));
    let of_both = fails(0).or(fails(1));
    for (tests, demanded) in [(Tests::BOXES, fails(0)), (Tests::MASKS, fails(1)), (Tests::BOTH, of_both)] {
        tally.expect(check_by(lent, tests) == told(demanded), format!("check of {tests:?} by all walks"));
    }
}

/// A search is the best of all walks of arcs that pass its tests. Where each of its tests has its yes, length and route are
/// those of a search without, no walk is lost, and no more nodes are settled. True if with one yes a route is lost.
fn searched(tally: &mut Tally, lent: &Lent) -> bool {
    let (n, arcs) = (lent.n as usize, open(&arcs(lent)));
    let mut lost = false;
    for (s, t) in (1..=n).flat_map(|s| (1..=n).map(move |t| (s, t))) {
        let by = |tests: Tests| search_by(&mut lent.clone(), tests, s as i64, t as i64);
        let plain = by(Tests::NONE);
        for tests in ALL_TESTS {
            let asked = |e: &&Arc| {
                let [held, lit] = passes(lent, e, t);
                (held || !tests.boxes) && (lit || !tests.masks)
            };
            let used: Vec<Arc> = arcs.iter().filter(asked).copied().collect();
            let reply = by(tests);
            tally.expect(reply == walks::search(n, &used, s, t), format!("a search by {tests:?}"));
            let yes = tests == Tests::NONE || check_by(lent, tests).is_ok();
            tally.expect(!yes || agree(&plain, &reply), format!("after yes, {tests:?}"));
            let one_yes = [Tests::BOXES, Tests::MASKS].iter().any(|one| check_by(lent, *one).is_ok());
            lost |= tests == Tests::BOTH && one_yes && plain.is_ok() && reply.is_err();
        }
    }
    lost
}

/// The same length and route and no more nodes settled, or no walk in both.
fn agree(plain: &Result<Found, Refusal>, other: &Result<Found, Refusal>) -> bool {
    match (plain, other) {
        (Ok(plain), Ok(other)) => {
            plain.length == other.length && plain.route == other.route && other.settled <= plain.settled
        }
        (plain, other) => plain.is_err() && other.is_err(),
    }
}

/// The lamps of a mask: its modules, lowest first, and how many; 31 places are too few, and the rest is kept.
fn listed(tally: &mut Tally, random: &mut Random, mask: i64) {
    for mask in [mask, some_mask(random)] {
        let mut lent = Lent { lamps: (100..140).collect(), ..Lent::default() };
        let before = lent.lamps.clone();
        let count = lamps(&mut lent, mask).unwrap_or(99);
        let (listed, rest) = lent.lamps.split_at(count);
        tally.expect(listed.windows(2).all(|pair| pair[0] < pair[1]), "modules are listed lowest first");
        let sum: i64 = listed.iter().map(|module| 2_i64.pow(*module as u32 - 1)).sum();
        tally.expect(sum == mask, "their bits are the mask's");
        tally.expect(*rest == before[count..], "the rest of the lamps is kept");
        let exact = lamps(&mut Lent { lamps: vec![0; 32], ..Lent::default() }, mask);
        tally.expect(exact == Ok(count), "32 places are enough");
        let mut short = Lent { lamps: vec![9; 31], ..Lent::default() };
        tally.expect(lamps(&mut short, mask) == refused(2, &[]), "31 are not");
        tally.expect(short.lamps == vec![9; 31], "and nothing is written");
    }
}

/// The one order of refusals, as far as a search goes.
pub fn rank(refusal: &Refusal) -> usize {
    let order = [5, 2, 8, 14, 19, 9, 18, 10, 11, 12];
    order.iter().position(|number| *number == refusal.number).expect("a search gives no other refusal")
}

/// A search by both tests is refused for what comes first of what the two searches are refused for. With masks alone
/// neither coordinates nor boxes are looked at. A refused call changes nothing.
fn refusals(tally: &mut Tally, random: &mut Random, mut lent: Lent, mut asked: Asked) {
    add_surplus(random, &mut lent);
    for _ in 0..random.between(1, 3) {
        spoil_upto(random, &mut lent, &mut asked, LAST);
    }
    let Asked { s, t, mask, .. } = asked;
    let by = |tests: Tests| search_by(&mut lent.clone(), tests, s, t);
    let first = [by(Tests::BOXES), by(Tests::MASKS)].into_iter().filter_map(Result::err);
    let demanded = first.min_by_key(rank).filter(|refusal| refusal.number != 12);
    match by(Tests::BOTH) {
        Err(refusal) if refusal.number != 12 => {
            tally.expect(Some(refusal) == demanded, "both tests are refused by the first of two refusals")
        }
        _ => tally.expect(demanded.is_none(), "both tests are refused where one of them is"),
    }
    let elsewhere = Lent { x: vec![], y: vec![9_999_999], boxes: vec![1, 0, 0, 0], ..lent.clone() };
    let same = search_by(&mut elsewhere.clone(), Tests::MASKS, s, t) == by(Tests::MASKS)
        && check_by(&elsewhere, Tests::MASKS) == check_by(&lent, Tests::MASKS);
    tally.expect(same, "masks alone look at no coordinates and no boxes");
    let calls: [&dyn Fn(&mut Lent) -> bool; 4] = [
        &|lent| search_by(lent, Tests::MASKS, s, t).is_ok(),
        &|lent| search_by(lent, Tests::BOTH, s, t).is_ok(),
        &|lent| build_masks(lent).is_ok(),
        &|lent| lamps(lent, mask).is_ok(),
    ];
    for call in calls {
        let mut after = lent.clone();
        tally.expect(call(&mut after) || after == lent, "a refused call changes nothing");
    }
}
