//! Which field of a line is at fault: request c of 02.

use crate::text::{fields, number, signed_number};
use Spelling::{Number, Signed, Word};

/// How a field after the first is spelt.
pub enum Spelling {
    Word(&'static [u8]),
    Number,
    Signed,
}

impl Spelling {
    fn is_of(&self, field: &[u8]) -> bool {
        match self {
            Word(word) => field == *word,
            Number => number(field).is_some(),
            Signed => signed_number(field).is_some(),
        }
    }
}

/// The lines of a kind of file other than comments: the letter, and how each later field is spelt.
pub type Format = [(&'static [u8], &'static [Spelling])];

pub const GR: &Format = &[(b"p", &[Word(b"sp"), Number, Number]), (b"a", &[Number, Number, Number])];

pub const CO: &Format =
    &[(b"p", &[Word(b"aux"), Word(b"sp"), Word(b"co"), Number]), (b"v", &[Number, Signed, Signed])];

pub const P2P: &Format =
    &[(b"p", &[Word(b"aux"), Word(b"sp"), Word(b"p2p"), Number]), (b"q", &[Number, Number])];

/// Refusal 3, 15, 16 or 17 of a line, and the column.
#[derive(Clone, Copy, Debug, PartialEq, Eq)]
pub struct Slip {
    pub number: usize,
    pub column: i64,
}

/// The first fault of a line, its fields read from left to right.
pub fn slip(format: &Format, line: &[u8]) -> Option<Slip> {
    let at = |number, column: usize| Some(Slip { number, column: column as i64 });
    if line.is_empty() {
        return at(3, 1);
    }
    let mut column = 1;
    let mut placed = Vec::new();
    for field in fields(line) {
        placed.push((column, field));
        column += field.len() + 1;
    }
    let (first, later) = (placed[0].1, &placed[1..]);
    if first == b"c" {
        return None;
    }
    let Some((_, spellings)) = format.iter().find(|(letter, _)| *letter == first) else {
        return at(15, 1);
    };
    for (place, spelling) in spellings.iter().enumerate() {
        match later.get(place) {
            None => return at(17, line.len() + 1),
            Some((column, field)) if !spelling.is_of(field) => return at(16, *column),
            Some(_) => (),
        }
    }
    later.get(spellings.len()).and_then(|(column, _)| at(17, *column))
}
