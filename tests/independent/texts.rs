//! Texts of a plan and of a running list, and what can be wrong with a text.

use crate::lent::Lent;
use crate::random::Random;
use crate::sizes::TEXT_BYTES;
use crate::text::{fields, lines};

/// A .gr text of the plan, with comments here and there.
pub fn gr_text(random: &mut Random, lent: &Lent) -> Vec<u8> {
    let mut text = vec![format!("p sp {} {}", lent.n, lent.m).into_bytes()];
    for e in 0..lent.m as usize {
        text.push(format!("a {} {} {}", lent.tails[e], lent.heads[e], lent.weights[e]).into_bytes());
    }
    with_comments(random, text)
}

/// A .co text of the plan, its nodes in any order.
pub fn co_text(random: &mut Random, lent: &Lent) -> Vec<u8> {
    let mut text = vec![format!("p aux sp co {}", lent.n).into_bytes()];
    for v in 0..lent.n as usize {
        let at = random.between(1, text.len() as i64) as usize;
        text.insert(at, format!("v {} {} {}", v + 1, lent.x[v], lent.y[v]).into_bytes());
    }
    with_comments(random, text)
}

/// A .p2p text of these queries, said to be `count`.
pub fn p2p_text(random: &mut Random, count: i64, queries: &[(i64, i64)]) -> Vec<u8> {
    let mut text = vec![format!("p aux sp p2p {count}").into_bytes()];
    text.extend(queries.iter().map(|(s, t)| format!("q {s} {t}").into_bytes()));
    with_comments(random, text)
}

/// Queries between the nodes of a plan: none, a few, some of them twice, or about as many as there may be.
pub fn some_queries(random: &mut Random, n: i64) -> Vec<(i64, i64)> {
    let count =
        if random.once_in(30) { random.pick(&[255, 256, 257]) } else { random.pick(&[0, 1, 2, 3, 5, 8]) };
    (0..count).map(|_| (random.between(1, n), random.between(1, n))).collect()
}

fn with_comments(random: &mut Random, mut text: Vec<Vec<u8>>) -> Vec<u8> {
    for _ in 0..random.below(3) {
        let at = random.below(text.len() + 1);
        let comment: &[u8] =
            random.pick(&[&b"c"[..], b"c ", b"c  two spaces", b"c a 1 2 3", b"c \r\t\0\xff -"]);
        text.insert(at, comment.to_vec());
    }
    ended(&text)
}

/// The lines, each ended by byte 10.
fn ended(lines: &[Vec<u8>]) -> Vec<u8> {
    lines.iter().flat_map(|line| [line, &b"\n"[..]].concat()).collect()
}

/// Bytes and fields that a reader may judge wrongly.
const BYTES: &[u8] = b" \n\r\t-+0179acpvx\0\x7f\xff";
#[rustfmt::skip]
const FIELDS: [&[u8]; 25] = [
    b"", b"-", b"-0", b"+1", b"07", b"00", b"-07", b"--1", b"1.0", b"0", b"1", b"-1",
    b"512", b"513", b"2048", b"2049", b"1000000", b"1000001", b"-1000000", b"-1000001",
    b"4294967297", b"18446744073709551617", b"256", b"257", b"p2p",
];

/// Lines that are refused in some places for more than one reason.
#[rustfmt::skip]
const LINES: [&[u8]; 26] = [
    b"", b" ", b"c", b"cx", b"c\t", b"c\r", b"d 1 1 1",
    b"p sp 3 3", b"p sp 0 0", b"p sp 513 -1", b"p aux sp co 3", b"p aux sp co 513",
    b"a 1 1 1", b"a 0 9 1", b"a 1 1 1000001", b"a 1 1 -1",
    b"v 1 1 1", b"v 1 1 1000001", b"v 0 1 -1", b"v 1 1 -0",
    b"p aux sp p2p 3", b"p aux sp p2p 257", b"q 1 1", b"q 0 1", b"q 1 513", b"q 1 -1",
];

/// Letters for a line to begin with, and what hands add to a field.
const LETTERS: [&[u8]; 15] =
    [b"", b"a", b"v", b"q", b"Q", b"p", b"c", b"A", b"V", b"aa", b"e", b"1", b"#", b"a\t", b"c\r"];
const ADDED: [&[u8]; 10] = [b"", b"0", b"-", b"+", b",", b".", b"\t", b"\r", b"x", b"\xc3\xa9"];

/// The text with one to three slips of the hand, in a line or in several.
pub fn with_slips(random: &mut Random, text: &[u8]) -> Vec<u8> {
    let mut split: Vec<Vec<u8>> = lines(text).into_iter().map(<[u8]>::to_vec).collect();
    let mut at = random.below(split.len());
    for _ in 0..random.pick(&[1, 1, 1, 2, 2, 3]) {
        split[at] = with_slip(random, &split[at]);
        if random.once_in(2) {
            at = random.below(split.len());
        }
    }
    let mut text = ended(&split);
    if random.once_in(4) {
        text.pop();
    }
    text
}

/// The line emptied, or with another first field, or with a later field misspelt, left out or added.
fn with_slip(random: &mut Random, line: &[u8]) -> Vec<u8> {
    let mut words: Vec<Vec<u8>> = fields(line).into_iter().map(<[u8]>::to_vec).collect();
    let later = random.between(1, words.len() as i64) as usize;
    let (field, added) = (random.pick(&FIELDS).to_vec(), random.pick(&ADDED));
    match random.below(12) {
        0 => return vec![],
        1 => words[0] = random.pick(&LETTERS).to_vec(),
        2 => words.insert(0, random.pick(&LETTERS).to_vec()),
        3 => words.truncate(later),
        4 => words.push(field),
        5 => words.push(vec![]),
        6 => words.insert(later, vec![]),
        7 => words.insert(later, field),
        // These speak of a later field that is there.
        _ if later == words.len() => words.push(added.to_vec()),
        8 => drop(words.remove(later)),
        9 => words[later] = field,
        10 => words[later].extend(added),
        _ => {
            let place = random.below(words[later].len() + 1);
            words[later].splice(place..place, added.iter().copied());
        }
    }
    words.join(&b' ')
}

/// Makes one thing wrong with a text, or at least other.
pub fn damage(random: &mut Random, text: &[u8]) -> Vec<u8> {
    let mut text = text.to_vec();
    let mut split: Vec<Vec<u8>> = lines(&text).into_iter().map(<[u8]>::to_vec).collect();
    let byte = random.pick(BYTES);
    let line_like = random.pick(&LINES).to_vec();
    if split.is_empty() {
        return line_like;
    }
    let (at, other) = (random.below(split.len()), random.below(split.len()));
    let place = random.below(text.len());
    match random.below(20) {
        0 => text[place] = byte,
        1 => text.insert(place, byte),
        2 => drop(text.remove(place)),
        3 => text.truncate(place),
        4 => drop(text.pop()),
        5 => text.clear(),
        6 => text.extend(line_like),
        7 => text = padded(random, &text),
        kind => {
            match kind {
                8 => drop(split.remove(at)),
                9 => split.insert(other, split[at].clone()),
                10 => split.swap(at, other),
                11 => split[at].push(random.pick(b"\r\t ")),
                12 => split[at].insert(0, b' '),
                13 => split.insert(at, line_like),
                // The p line is dropped, doubled or moved.
                14 | 15 => {
                    if let Some(problem) = split.iter().position(|line| line.starts_with(b"p ")) {
                        let line = split[problem].clone();
                        if !random.once_in(3) {
                            split.remove(problem);
                        }
                        if !random.once_in(3) {
                            split.insert(random.below(split.len() + 1), line);
                        }
                    }
                }
                _ => split[at] = with_other_field(random, &split[at]),
            }
            text = ended(&split);
        }
    }
    text
}

/// The line with one field changed, or with another byte or a second space between two fields.
fn with_other_field(random: &mut Random, line: &[u8]) -> Vec<u8> {
    let mut words: Vec<Vec<u8>> = fields(line).into_iter().map(<[u8]>::to_vec).collect();
    let at = random.below(words.len());
    match random.below(8) {
        0 => words[at].insert(0, b'0'),
        1 => words[at].insert(0, b'-'),
        2 => words[at] = vec![random.pick(b"19"); random.pick(&[10, 20, 60, 6_000, 60_000])],
        3 => words[at].extend(b"0000000000"),
        4 => words[at].insert(0, random.pick(b"\t \r")),
        _ => words[at] = random.pick(&FIELDS).to_vec(),
    }
    words.join(&b' ')
}

/// The text after a comment that brings it to the limit of bytes, or one byte to either side.
fn padded(random: &mut Random, text: &[u8]) -> Vec<u8> {
    let bytes = TEXT_BYTES - 1 + random.below(3);
    let letters = bytes.saturating_sub(text.len() + 3);
    [b"c ", &vec![b'x'; letters][..], b"\n", text].concat()
}
