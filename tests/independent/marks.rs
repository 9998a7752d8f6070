//! The claims of request f: all small boxes, alone and joined, and the boxes of small random networks.

use crate::boxes::{all_s, Place, Rectangle};
use crate::calls::{build, check, update};
use crate::judging::{judge_network, judge_places};
use crate::lent::Lent;
use crate::plans::{ask, plan, Asked, NEAR_MARKS};
use crate::random::Random;
use crate::selftest::Tally;
use crate::walks;

/// All boxes with sides from `-far` to `far`.
fn boxes_within(far: i64) -> Vec<Rectangle> {
    let mut all: Vec<Vec<i64>> = vec![vec![]];
    for _ in 0..4 {
        all = all.iter().flat_map(|sides| (-far..=far).map(|side| [&sides[..], &[side]].concat())).collect();
    }
    all.iter().map(|sides| Rectangle::from_sides(sides)).collect()
}

/// All places from `-far` to `far`.
fn places_within(far: i64) -> Vec<Place> {
    (-far..=far).flat_map(|x| (-far..=far).map(move |y| (x, y))).collect()
}

/// Which boxes are well shaped, and that the mark alone of them holds nothing. The smallest well-shaped box around
/// what two of them hold is the two joined, so joined with the mark a box stays itself, both ways round.
pub fn all_small_boxes(tally: &mut Tally) {
    let mark = Rectangle { left: 1, right: 0, low: 1, high: 0 };
    for one in boxes_within(3) {
        let upright = one.left <= one.right && one.low <= one.high;
        tally.expect(one.well_shaped() == (upright || one == mark), format!("the shape of {one:?}"));
        let empty = !places_within(4).into_iter().any(|place| one.holds(place));
        tally.expect(!one.well_shaped() || empty == (one == mark), format!("what {one:?} holds"));
    }
    let far = [-1_000_000, -1, 0, 1, 2, 1_000_000];
    let none_held = far.iter().all(|x| far.iter().all(|y| !mark.holds((*x, *y))));
    tally.expect(none_held, "the mark holds nothing, near or far");
    for near in NEAR_MARKS {
        tally.expect(!Rectangle::from_sides(&near).well_shaped(), format!("{near:?} is not the mark"));
    }
    let mut shaped = boxes_within(1);
    shaped.retain(Rectangle::well_shaped);
    for one in &shaped {
        tally.expect(
            one.hull(&mark) == *one && mark.hull(one) == *one,
            "joined with the mark a box stays itself",
        );
        for other in &shaped {
            let mut held = places_within(2);
            held.retain(|place| one.holds(*place) || other.holds(*place));
            let joined = one.hull(other);
            tally.expect(joined == walks::around(&held).unwrap_or(mark), "the smallest box around two");
            let within = |around: &Rectangle| {
                !held.iter().all(|place| around.holds(*place)) || around.hull(&joined) == *around
            };
            tally.expect(shaped.iter().all(within), "no well-shaped box around two is smaller");
        }
    }
}

/// The claims on one network: its tight boxes, and an update of boxes some or all of which are marks.
pub fn claims(tally: &mut Tally, random: &mut Random) {
    let (n, m) = (random.between(1, 5), random.between(0, 9));
    let mut lent = plan(random, n, m);
    tight(tally, &lent);
    let Asked { arc, weight, byte, .. } = ask(random, &lent);
    let one_in = random.pick(&[1, 2, 3]);
    for sides in lent.boxes.chunks_mut(4).filter(|_| random.once_in(one_in)) {
        sides.copy_from_slice(&[1, 0, 1, 0]);
    }
    let old = lent.boxes.clone();
    if m > 0 {
        tally.expect(update(&mut lent, arc, weight, byte).is_ok(), "boxes that are marks are updated");
        let mut built = lent.clone();
        tally.expect(build(&mut built).is_ok(), "and built anew");
        for ((old, new), tight) in old.chunks(4).zip(lent.boxes.chunks(4)).zip(built.boxes.chunks(4)) {
            let taken = old == [1, 0, 1, 0] && new == tight;
            let kept = tight == [1, 0, 1, 0] && new == old;
            let both = old != [1, 0, 1, 0] && tight != [1, 0, 1, 0];
            tally.expect(taken || kept || both, "an update of an empty box takes the other box");
        }
        tally.expect(check(&lent).is_ok(), "updated boxes pass check");
        tight(tally, &built);
    }
}

/// Built boxes: the mark exactly where S(e) is empty, as it is for closed arcs; else the head is in S(e), and the tight
/// box is the one of 01, which held the head in any case.
fn tight(tally: &mut Tally, lent: &Lent) {
    let arcs = judge_network(lent, &[]).expect("the network is within the limits");
    let places = judge_places(lent).expect("the places are within the limits");
    for ((arc, s), sides) in arcs.iter().zip(all_s(lent.n as usize, &arcs)).zip(lent.boxes.chunks(4)) {
        tally.expect(s.is_empty() == (sides == [1, 0, 1, 0]), "the mark exactly where S(e) is empty");
        tally.expect(!arc.closed || sides == [1, 0, 1, 0], "closed arcs get the mark");
        if !s.is_empty() {
            tally.expect(s.contains(&arc.head), "where S(e) is not empty the head is in it");
            let held: Vec<Place> = s.iter().chain([&arc.head]).map(|node| places[*node]).collect();
            let of_01 = walks::around(&held).map(|tight| tight.sides().to_vec());
            tally.expect(of_01.as_deref() == Some(sides), "and the tight box is the one of 01");
        }
    }
}
