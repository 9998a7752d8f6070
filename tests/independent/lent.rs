//! What is lent to a call.

/// The numbers n and m and the rows, each as long as it is lent. `i64` holds both kinds of 32-bit numbers.
#[derive(Clone, Debug, Default, PartialEq, Eq)]
pub struct Lent {
    pub n: i64,
    pub m: i64,
    pub tails: Vec<i64>,
    pub heads: Vec<i64>,
    pub weights: Vec<i64>,
    pub x: Vec<i64>,
    pub y: Vec<i64>,
    pub boxes: Vec<i64>,
    pub route: Vec<i64>,
    /// Bytes.
    pub text: Vec<i64>,
    /// Bytes: of each arc 0 where it is open, 1 where it is closed.
    pub closed: Vec<i64>,
    /// Of each query of a running list its length.
    pub answers: Vec<i64>,
    /// Of each node its module.
    pub modules: Vec<i64>,
    /// Of each arc the mask of the modules that it leads to.
    pub masks: Vec<i64>,
    /// The modules of one mask.
    pub lamps: Vec<i64>,
    /// The index: for each node how many arcs have lower tails, and for the one after the last.
    pub offsets: Vec<i64>,
    /// The index: the arcs, grouped by their tails.
    pub order: Vec<i64>,
}

/// Writes the first places of a row; the others keep their contents.
pub fn fill(row: &mut [i64], values: impl IntoIterator<Item = i64>) {
    for (place, value) in row.iter_mut().zip(values) {
        *place = value;
    }
}
