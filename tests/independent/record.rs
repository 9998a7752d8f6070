//! The recorded cases, for comparing a console with a stored output.

use crate::cases::{call_case, day_case, long_row, odd_lines, text_case, update_case, write_case, Case};
use crate::columns::told_case;
use crate::console::LINE_BYTES;
use crate::hall;
use crate::random::Random;
use crate::sizes::TEXT_BYTES;
use crate::talks::{exchanges, talk_files, talks};
use crate::LANDED;

/// The recorded cases: the hall plan, every refusal, every fault, lines with slips, cases from the seed, and the talks.
pub fn recorded(seed: u64) -> Case {
    let mut case = hall::case();
    for (name, text) in BAD_TEXTS {
        case.file(name.to_string(), text.as_bytes().to_vec());
        let (_, kind) = name.split_once('.').expect("a name tells the kind of file");
        case.say(format!("{kind} {name}"));
    }
    let told = told_case();
    case.files.extend(told.files);
    case.lines.extend(told.lines);
    case.file("long.gr".to_string(), vec![b'c'; TEXT_BYTES + 1]);
    for line in
        ["gr long.gr", "p2p long.gr", "fresh", "gr hall.gr", "co hall.co", "build"].iter().chain(&BAD_ROWS)
    {
        case.say(line);
    }
    for line in odd_lines() {
        case.say(line);
    }
    case.say(long_row(3));
    let mut random = Random::new(seed);
    for number in 1..=30 {
        let texts = text_case(&mut random, &format!("case{number}"));
        case.files.extend(texts.files);
        case.lines.extend(texts.lines);
    }
    for number in 1..=30 {
        let written = write_case(&mut random, &format!("write{number}"));
        case.files.extend(written.files);
        case.lines.extend(written.lines);
    }
    for number in 1..=30 {
        let day = day_case(&mut random, &format!("day{number}"));
        case.files.extend(day.files);
        case.lines.extend(day.lines);
    }
    for _ in 0..120 {
        case.lines.extend(call_case(&mut random).lines);
    }
    for _ in 0..50 {
        case.lines.extend(update_case(&mut random).lines);
    }
    case.files.extend(talk_files());
    for (line, _) in talks(LANDED).flat_map(exchanges) {
        case.say(line);
    }
    case.say(vec![b'x'; LINE_BYTES + 1]);
    case
}

/// Texts for a graph of four nodes, refused by 4, 5, 6 or 7.
const BAD_TEXTS: [(&str, &str); 13] = [
    ("early.gr", "a 1 2 3\np sp 2 1\n"),
    ("second.gr", "p sp 2 1\na 1 2 3\np sp 2 1\n"),
    ("few.gr", "p sp 2 2\na 1 2 3\n"),
    ("many.gr", "p sp 2 1\na 1 2 3\na 2 1 3"),
    ("large.gr", "p sp 513 1\na 1 2 3\n"),
    ("none.gr", ""),
    ("other.co", "p aux sp co 3\nv 1 0 0\n"),
    ("twice.co", "p aux sp co 4\nv 1 0 0\nv 2 0 0\nv 1 0 0\n"),
    ("few.co", "p aux sp co 4\nv 4 0 0\nc\n"),
    ("early.p2p", "q 1 4\np aux sp p2p 1\n"),
    ("outside.p2p", "p aux sp p2p 1\nq 1 5\n"),
    ("few.p2p", "p aux sp p2p 2\nq 1 4\n"),
    ("many.p2p", "p aux sp p2p 1\nq 1 4\nq 1 4\n"),
];

/// Calls on the hall plan, refused one after the other by 0, 5, 2, 8, 14, 9, 10, 11, 5 and 14.
#[rustfmt::skip]
const BAD_ROWS: [&str; 26] = [
    "gr missing.gr",
    "n 0", "build", "n 4",
    "lend route 1 2 3", "search 1 4", "lend route 9 9 9 9",
    "lend weights 3 2 1000001 1 9 4", "search 1 4", "lend weights 3 2 5 1 9 4 4294967295",
    "lend closed 0 0 0 0 1", "build", "lend closed 0 0 2 0 1 255", "search 1 4", "lend closed 0 0 0 0 0 0 255",
    "lend x 0 10 1000001 -5", "check", "lend x 0 10 10 -5",
    "lend boxes -5 10 0 20 -5 10 1 0 -5 10 5 20 -5 10 0 20 -5 -5 20 20 0 10 0 5", "boxed 1 4",
    "lend boxes -5 10 0 20 -5 10 0 20 -5 10 5 20 -5 10 0 20 -5 -5 20 20 0 10 0 5", "boxed 1 5",
    "update 7 1 0", "update 6 1000001 0", "update 6 1000000 2", "update 6 1000000 1",
];
