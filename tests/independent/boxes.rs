//! Boxes: what they hold, the mark of request f, the set S(e), the tight box, and what a test of an arc misses.

use crate::network::{lengths, open, Arc};
use crate::sizes::is_coordinate;

pub type Place = (i64, i64);

/// A box, under another name because Rust has given `Box` a meaning.
#[derive(Clone, Copy, Debug, PartialEq, Eq)]
pub struct Rectangle {
    pub left: i64,
    pub right: i64,
    pub low: i64,
    pub high: i64,
}

impl Rectangle {
    /// The mark: it holds nothing.
    pub const MARK: Rectangle = Rectangle { left: 1, right: 0, low: 1, high: 0 };

    fn around(place: Place) -> Rectangle {
        Rectangle { left: place.0, right: place.0, low: place.1, high: place.1 }
    }

    pub fn holds(&self, place: Place) -> bool {
        self.left <= place.0 && place.0 <= self.right && self.low <= place.1 && place.1 <= self.high
    }

    /// The mark is the only box with reversed sides that is well shaped.
    pub fn well_shaped(&self) -> bool {
        let upright = self.left <= self.right && self.low <= self.high;
        *self == Rectangle::MARK || upright && self.sides().into_iter().all(is_coordinate)
    }

    /// The smallest box that holds both; joined with the mark a box stays itself.
    pub fn hull(&self, other: &Rectangle) -> Rectangle {
        match (*self, *other) {
            (Rectangle::MARK, one) | (one, Rectangle::MARK) => one,
            (one, other) => Rectangle {
                left: one.left.min(other.left),
                right: one.right.max(other.right),
                low: one.low.min(other.low),
                high: one.high.max(other.high),
            },
        }
    }

    /// The four numbers in the order of the row.
    pub fn sides(&self) -> [i64; 4] {
        [self.left, self.right, self.low, self.high]
    }

    pub fn from_sides(sides: &[i64]) -> Rectangle {
        Rectangle { left: sides[0], right: sides[1], low: sides[2], high: sides[3] }
    }
}

/// S(e) for every arc e=(u,v): every t with d(v,t) defined and w+d(v,t) = d(u,t) in the open network, in rising
/// order. That of a closed arc is empty.
pub fn all_s(n: usize, arcs: &[Arc]) -> Vec<Vec<usize>> {
    let d = lengths(n, &open(arcs));
    let in_s = |arc: &Arc, t: usize| {
        !arc.closed && d[arc.head][t].is_some_and(|rest| Some(arc.weight + rest) == d[arc.tail][t])
    };
    arcs.iter().map(|arc| (1..=n).filter(|t| in_s(arc, *t)).collect()).collect()
}

/// For every arc the smallest box that holds all of its S(e), the mark where that is empty. `places` are indexed by node.
pub fn tight(n: usize, arcs: &[Arc], places: &[Place]) -> Vec<Rectangle> {
    let grow = |grown: Rectangle, t: usize| grown.hull(&Rectangle::around(places[t]));
    all_s(n, arcs).into_iter().map(|s| s.into_iter().fold(Rectangle::MARK, grow)).collect()
}

/// The lowest arc that does not pass a test toward all of its S(e), with the lowest node at which it fails.
pub fn missed(n: usize, arcs: &[Arc], passes: impl Fn(&Arc, usize) -> bool) -> Option<(usize, usize)> {
    let fails = |(arc, s): (&Arc, Vec<usize>)| {
        s.into_iter().find(|t| !passes(arc, *t)).map(|node| (arc.number, node))
    };
    arcs.iter().zip(all_s(n, arcs)).find_map(fails)
}
