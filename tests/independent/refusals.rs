//! The numbered refusals, what they also return, and the learner's words for them.

use std::fmt;

/// A refusal of 01 or 02: its number and its values. Number 0 is a file that cannot be read.
#[derive(Clone, Debug, PartialEq, Eq)]
pub struct Refusal {
    pub number: usize,
    pub values: Vec<i64>,
}

pub fn refused<T>(number: usize, values: &[i64]) -> Result<T, Refusal> {
    Err(Refusal { number, values: values.to_vec() })
}

/// The words for each number; `{0}` and `{1}` stand for the first and the second value.
const WORDS: [&str; 20] = [
    "the file cannot be read",
    "the text is over 65536 bytes",
    "a lent row is too short",
    "line {0} is empty",
    "line {0} is data before the p line or a second p line",
    "a number in line {0} is beyond its limits",
    "the counts disagree at line {0}",
    "line {0} places a node a second time",
    "arc {0} has a bad node or weight",
    "node {0} has a bad coordinate",
    "the box of arc {0} is not well shaped",
    "the source, target or arc is not in the network",
    "no walk leads from the source to the target, settled {0}",
    "the box of arc {0} misses node {1}",
    "the closure of arc {0} is neither 0 nor 1",
    "line {0}, column {1}: no line of this kind of file begins so",
    "line {0}, column {1}: the field is misspelt",
    "line {0}, column {1}: a field is missing or one too many",
    "the module of node {0} is outside 1 to 32",
    "the index is not the one of this network",
];

/// The words for refusal 5 outside a text, where no line can be named.
const WORDS_OF_5_0: &str = "n, m or the new weight is beyond its limits";

impl Refusal {
    fn words(&self) -> String {
        let outside_a_text = self.number == 5 && self.values == [0];
        let mut words = if outside_a_text { WORDS_OF_5_0 } else { WORDS[self.number] }.to_string();
        for (index, value) in self.values.iter().enumerate() {
            words = words.replace(&format!("{{{index}}}"), &value.to_string());
        }
        words
    }

    /// What the program `boxes` prints: the number and the place or 0; for 3, 15, 16 and 17 the column after the line.
    pub fn with_place(&self) -> String {
        match (self.number, &self.values[..]) {
            (3 | 15..=17, [line, column]) => format!("refused {} {line} {column}", self.number),
            (_, values) => format!("refused {} {}", self.number, values.first().unwrap_or(&0)),
        }
    }
}

/// The console's line: number, all values, words in brackets.
impl fmt::Display for Refusal {
    fn fmt(&self, out: &mut fmt::Formatter) -> fmt::Result {
        write!(out, "refused {}", self.number)?;
        for value in &self.values {
            write!(out, " {value}")?;
        }
        write!(out, " ({})", self.words())
    }
}
