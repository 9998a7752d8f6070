//! Random plans: networks, closures, places, boxes, modules, masks, indexes, lent rows with surplus, and what can be wrong with them.

use crate::boxes::Rectangle;
use crate::calls::{build, build_masks};
use crate::console::{rows, Kind, Row};
use crate::index::build_index;
use crate::lent::{fill, Lent};
use crate::random::Random;
use crate::sizes::*;
use crate::{LANDED, LAST};

/// The greatest number of an unsigned row, and the ends of a signed one.
const FAR: i64 = u32::MAX as i64;
const FAR_EAST: i64 = i32::MAX as i64;
const FAR_WEST: i64 = i32::MIN as i64;

/// A plan of n nodes and m arcs in rows of just the places needed, with tight boxes, built masks and the index.
pub fn plan(random: &mut Random, n: i64, m: i64) -> Lent {
    let mut lent = Lent { n, m, ..Lent::default() };
    lent.route = (0..n).map(|_| random.between(0, 99)).collect();
    lent.text = some_bytes(random, 5);
    lent.answers = some_bytes(random, 3);
    draw_arcs(random, &mut lent);
    draw_weights(random, &mut lent);
    draw_closures(random, &mut lent);
    draw_places(random, &mut lent);
    let mut later = random.apart();
    lent.lamps = some_bytes(&mut later, MODULES as usize);
    draw_modules(&mut later, &mut lent);
    lent.boxes = vec![0; 4 * m as usize];
    build(&mut lent).expect("a plan within the limits has boxes");
    lent.masks = vec![0; m as usize];
    build_masks(&mut lent).expect("a plan within the limits has masks");
    (lent.offsets, lent.order) = (vec![0; n as usize + 1], vec![0; m as usize]);
    build_index(&mut lent).expect("a plan within the limits has an index");
    lent
}

/// Any bytes.
pub fn some_bytes(random: &mut Random, count: usize) -> Vec<i64> {
    (0..count).map(|_| random.between(0, 255)).collect()
}

/// Arcs anywhere; in two parts without a way between; in few pairs, so that many are parallel;
/// there and back; mostly loops; or along the numbers.
fn draw_arcs(random: &mut Random, lent: &mut Lent) {
    let (n, m) = (lent.n, lent.m);
    let kind = random.below(7);
    let half = (n + 1) / 2;
    for e in 0..m {
        let any = (random.between(1, n), random.between(1, n));
        let (tail, head) = match kind {
            0 | 1 => any,
            2 if any.0 <= half => (any.0, random.between(1, half)),
            2 => (any.0, random.between(half + 1, n)),
            3 => (random.between(1, n.min(2)), random.between(1, n.min(3))),
            4 if e % 2 == 1 => (lent.heads[e as usize - 1], lent.tails[e as usize - 1]),
            4 => any,
            5 if random.once_in(2) => (any.0, any.0),
            5 => any,
            _ => (e % n + 1, (e + 1) % n + 1),
        };
        lent.tails.push(tail);
        lent.heads.push(head);
    }
}

/// Weights of few values tie often; weights of 0 make zero walks; others go to the limit.
fn draw_weights(random: &mut Random, lent: &mut Lent) {
    let (least, greatest) = random.pick(&[
        (0, 1),
        (0, 2),
        (0, 0),
        (1, 1),
        (1, 4),
        (0, 20),
        (WEIGHT, WEIGHT),
        (WEIGHT - 1, WEIGHT),
        (0, WEIGHT),
    ]);
    let often_zero = random.once_in(3);
    for _ in 0..lent.m {
        let weight = if often_zero && random.once_in(2) { 0 } else { random.between(least, greatest) };
        lent.weights.push(weight);
    }
}

/// All arcs open; or few, many, half or all of them closed.
fn draw_closures(random: &mut Random, lent: &mut Lent) {
    let one_in = random.pick(&[0, 0, 6, 3, 3, 2, 2, 1]);
    lent.closed = (0..lent.m).map(|_| i64::from(one_in > 0 && random.once_in(one_in))).collect();
}

/// All at one place; wholly negative; on a small grid with shared places; at the limits; or anywhere.
fn draw_places(random: &mut Random, lent: &mut Lent) {
    let kind = random.below(6);
    let one_place = (random.between(-9, 9), random.between(-9, 9));
    for _ in 0..lent.n {
        let mut within = |least, greatest| (random.between(least, greatest), random.between(least, greatest));
        let (x, y) = match kind {
            0 => one_place,
            1 => within(-50, -10),
            2 => within(0, 2),
            3 => within(-6, 6),
            4 => (random.pick(&[-COORDINATE, COORDINATE]), random.pick(&[-COORDINATE, 0, COORDINATE])),
            _ => within(-COORDINATE, COORDINATE),
        };
        lent.x.push(x);
        lent.y.push(y);
    }
}

/// All in one module; in few; in the first and the last; or in any.
fn draw_modules(random: &mut Random, lent: &mut Lent) {
    let one_module = random.between(1, MODULES);
    let some = match random.below(4) {
        0 => vec![one_module],
        1 => vec![1, 2, 3],
        2 => vec![1, MODULES - 1, MODULES],
        _ => (1..=MODULES).collect(),
    };
    lent.modules = (0..lent.n).map(|_| random.pick(&some)).collect();
}

/// A mask of any modules, of all, of none, or of one.
pub fn some_mask(random: &mut Random) -> i64 {
    match random.below(6) {
        0 => random.pick(&[0, FAR]),
        1 => 1 << random.below(MODULES as usize),
        2 => FAR ^ 1 << random.below(MODULES as usize),
        _ => random.between(0, FAR),
    }
}

/// Leaves the masks as built, or makes them larger, full, wholly random, empty here and there, or one of them without one
/// of its modules.
pub fn change_masks(random: &mut Random, lent: &mut Lent) {
    let kind = random.below(7);
    for mask in &mut lent.masks {
        match kind {
            0 => *mask |= some_mask(random),
            1 => *mask = FAR,
            2 => *mask = some_mask(random),
            3 if random.once_in(2) => *mask = 0,
            _ => (),
        }
    }
    let lit: Vec<usize> =
        (0..32 * lent.masks.len()).filter(|bit| lent.masks[bit / 32] >> (bit % 32) & 1 == 1).collect();
    if kind == 4 && !lit.is_empty() {
        let bit = random.pick(&lit);
        lent.masks[bit / 32] ^= 1 << (bit % 32);
    }
}

/// Makes the index another: with two arcs the other way round, with one of another number, with an offset moved, or the one of
/// a network with another tail. With few arcs it may stay the same.
pub fn change_index(random: &mut Random, lent: &mut Lent) {
    let (n, m) = (lent.n as usize, lent.m as usize);
    let (arc, node) = (random.below(m.max(1)), random.below(n + 1));
    match random.below(5) {
        0 if m > 1 => {
            let other = if random.once_in(2) { (arc + 1) % m } else { random.below(m) };
            lent.order.swap(arc, other);
        }
        1 if m > 0 => lent.order[arc] = random.pick(&[0, 1, lent.m, lent.m + 1, FAR]),
        2 | 3 => {
            let moved = lent.offsets[node] + random.pick(&[-1, 1]);
            lent.offsets[node] = random.pick(&[moved.max(0), 0, lent.m, FAR]);
        }
        _ if m > 0 => {
            let mut other = lent.clone();
            other.tails[arc] = random.between(1, lent.n);
            build_index(&mut other).expect("the other network is within the limits");
            (lent.offsets, lent.order) = (other.offsets, other.order);
        }
        _ => (),
    }
}

/// Leaves the boxes tight, or makes them enlarged, full, wholly random but well shaped, marks here and there
/// or everywhere, or one of them smaller on one side.
pub fn change_boxes(random: &mut Random, lent: &mut Lent) {
    let kind = random.below(8);
    for sides in lent.boxes.chunks_mut(4) {
        match kind {
            // A mark has no sides to move: it stays, or is any box.
            0 if is_mark(sides) && random.once_in(2) => (),
            0 if !is_mark(sides) => {
                for (side, away) in sides.iter_mut().zip([-1, 1, -1, 1]) {
                    *side = (*side + away * random.between(0, 5)).clamp(-COORDINATE, COORDINATE);
                }
            }
            1 => fill(sides, [-COORDINATE, COORDINATE, -COORDINATE, COORDINATE]),
            0 | 2 => {
                for axis in sides.chunks_mut(2) {
                    fill(axis, [random.between(-9, 9), random.between(-9, 9)]);
                    axis.sort();
                }
            }
            4 if random.once_in(2) => fill(sides, Rectangle::MARK.sides()),
            5 => fill(sides, Rectangle::MARK.sides()),
            _ => (),
        }
    }
    if kind == 3 && lent.m > 0 {
        let side = random.below(lent.boxes.len());
        if is_mark(&lent.boxes[side / 4 * 4..][..4]) {
            return;
        }
        let inward = if side % 2 == 0 { 1 } else { -1 };
        let other = lent.boxes[side ^ 1];
        let moved = lent.boxes[side] + inward * random.between(1, 12);
        lent.boxes[side] = if inward == 1 { moved.min(other) } else { moved.max(other) };
    }
}

fn is_mark(sides: &[i64]) -> bool {
    Rectangle::from_sides(sides) == Rectangle::MARK
}

/// Boxes that are nearly the mark, or reversed like it. None of them is well shaped.
#[rustfmt::skip]
pub const NEAR_MARKS: [[i64; 4]; 18] = [
    [1, 0, 1, 1], [1, 0, 0, 0], [1, 1, 1, 0], [0, 0, 1, 0], [1, 0, 0, 1], [0, 1, 1, 0], [1, 0, 2, 1], [2, 1, 1, 0],
    [2, 1, 2, 1], [0, -1, 0, -1], [-1, -2, -1, -2], [1, 0, 1, -1], [1, -1, 1, 0], [2, 0, 1, 0], [1, 0, 2, 0],
    [1, 0, -1, 0], [COORDINATE, -COORDINATE, COORDINATE, -COORDINATE], [1, 0, FAR_EAST, FAR_WEST],
];

/// Adds places after those needed, filled with numbers that would be refused if they were read.
pub fn add_surplus(random: &mut Random, lent: &mut Lent) {
    let landed = rows(LANDED);
    add_surplus_to(random, lent, landed);
    add_surplus_to(&mut random.apart(), lent, &rows(LAST)[landed.len()..]);
}

fn add_surplus_to(random: &mut Random, lent: &mut Lent, rows: &[Row]) {
    for row in rows {
        for _ in 0..random.below(4) {
            let number = match row.kind {
                Kind::Count => FAR,
                Kind::Signed => random.pick(&[FAR_EAST, FAR_WEST]),
                Kind::Byte => random.between(0, 255),
            };
            (row.of)(lent).push(number);
        }
    }
}

/// The numbers handed in with a call.
pub struct Asked {
    pub s: i64,
    pub t: i64,
    pub arc: i64,
    pub weight: i64,
    pub byte: i64,
    pub mask: i64,
}

/// Numbers that a call on this plan takes, if it has an arc.
pub fn ask(random: &mut Random, lent: &Lent) -> Asked {
    Asked {
        s: random.between(1, lent.n),
        t: random.between(1, lent.n),
        arc: random.between(1, lent.m.max(1)),
        weight: random.pick(&[0, 1, 2, 7, WEIGHT]),
        byte: random.between(0, 1),
        mask: some_mask(&mut random.apart()),
    }
}

/// Makes one thing wrong: a number handed in, a row's length, or a number in a row.
pub fn spoil(random: &mut Random, lent: &mut Lent, asked: &mut Asked) {
    spoil_upto(random, lent, asked, LANDED);
}

/// The same, of what a console of the requests up to a letter has.
pub fn spoil_upto(random: &mut Random, lent: &mut Lent, asked: &mut Asked, upto: char) {
    let no_node = random.pick(&[0, (lent.n + 1).min(FAR), NODES + 1, FAR]);
    let no_arc = random.pick(&[0, (lent.m + 1).min(FAR), ARCS + 1, FAR]);
    let no_weight = random.pick(&[WEIGHT + 1, FAR]);
    let no_closure = random.pick(&[2, 3, 255]);
    let no_coordinate = random.pick(&[-COORDINATE - 1, COORDINATE + 1, FAR_EAST, FAR_WEST]);
    let kinds = match upto {
        ..='g' => 18,
        'h' => 20,
        _ => 22,
    };
    match random.below(kinds) {
        0 => lent.n = no_node,
        1 => lent.m = no_arc,
        2 | 3 => {
            let row = &rows(upto)[random.below(rows(upto).len())];
            let needed = match row.name {
                "tails" | "heads" | "weights" | "closed" | "masks" | "order" => lent.m,
                "offsets" => lent.n + 1,
                "boxes" => 4 * lent.m,
                "answers" => QUERIES,
                "lamps" => MODULES,
                _ => lent.n,
            };
            let kept = (needed - random.between(1, 2)).max(0);
            (row.of)(lent).truncate(kept as usize);
        }
        4 => put(random, &mut lent.tails, no_node),
        5 => put(random, &mut lent.heads, no_node),
        6 => put(random, &mut lent.weights, no_weight),
        7 => put(random, &mut lent.x, no_coordinate),
        8 => put(random, &mut lent.y, no_coordinate),
        9 => put(random, &mut lent.boxes, no_coordinate),
        10 => {
            // A box whose two ends on one axis stand the wrong way round.
            let axes = lent.boxes.len() / 2;
            if axes > 0 {
                let end = 2 * random.below(axes);
                lent.boxes[end + 1] = (lent.boxes[end] - 1).max(FAR_WEST);
            }
        }
        11 => {
            let boxes = lent.boxes.len() / 4;
            if boxes > 0 {
                let at = 4 * random.below(boxes);
                fill(&mut lent.boxes[at..], random.pick(&NEAR_MARKS));
            }
        }
        12 => {
            for _ in 0..random.between(1, 2) {
                put(random, &mut lent.closed, no_closure);
            }
        }
        13 => asked.s = no_node,
        14 => asked.t = no_node,
        15 => asked.arc = no_arc,
        16 => asked.weight = no_weight,
        17 => asked.byte = no_closure,
        18 | 19 => {
            let no_module = random.pick(&[0, MODULES + 1, FAR]);
            for _ in 0..random.between(1, 2) {
                put(random, &mut lent.modules, no_module);
            }
        }
        20 => put(random, &mut lent.offsets, no_arc),
        _ => put(random, &mut lent.order, no_arc),
    }
}

/// Puts a number into some place of a row, if it has any.
fn put(random: &mut Random, row: &mut [i64], number: i64) {
    if !row.is_empty() {
        row[random.below(row.len())] = number;
    }
}
