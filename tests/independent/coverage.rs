//! What the recorded and the small cases must have among them, so that the comparison meets every call and every reply.

use crate::cases::{small, Case};
use crate::columns::faulty_lines;
use crate::compare::COUNT;
use crate::console::{Fault, FAULT_WORDS};
use crate::random::Random;
use crate::record::recorded;
use crate::scratch::Scratch;
use crate::selftest::Tally;
use crate::text::{fields, number};
use crate::LANDED;
use std::collections::BTreeMap;

/// The words of a line but for numbers, and for the name of a list; what has two names by the longer one.
fn call_of(line: &[u8]) -> String {
    if line.starts_with(b"p2p ") {
        return "p2p".to_string();
    }
    let words = fields(line).into_iter().filter(|word| number(word).is_none());
    let call = words.map(String::from_utf8_lossy).collect::<Vec<_>>().join(" ");
    match call.as_str() {
        "boxed" => "search boxes".to_string(),
        "build" | "check" => call + " boxes",
        _ => call,
    }
}

/// Whether a case makes the call.
fn makes(case: &Case, call: &str) -> bool {
    case.lines.iter().any(|line| call_of(line) == call)
}

/// Whether a case makes the call where a track is closed.
fn on_closures(case: &Case, call: &str) -> bool {
    let mut closed = false;
    for line in &case.lines {
        match fields(line)[..] {
            [b"fresh"] | [b"gr", ..] => closed = false,
            [b"lend", b"closed", ref bytes @ ..] => closed = bytes.contains(&&b"1"[..]),
            _ if closed && call_of(line) == call => return true,
            _ => (),
        }
    }
    false
}

/// Whether a case makes the call where the box of an arc is the mark.
fn on_marks(case: &Case, call: &str) -> bool {
    let mut marked = false;
    for line in &case.lines {
        match fields(line)[..] {
            [b"fresh"] => marked = false,
            [b"lend", b"boxes", ref sides @ ..] => {
                marked = sides.chunks(4).any(|sides| sides == [b"1", b"0", b"1", b"0"])
            }
            _ if marked && call_of(line) == call => return true,
            _ => (),
        }
    }
    false
}

/// The calls that are lent modules.
const MASK_CALLS: [&str; 5] =
    ["build masks", "check masks", "check boxes masks", "search masks", "search boxes masks"];

/// The calls that are lent an index.
#[rustfmt::skip]
const INDEX_CALLS: [&str; 5] =
    ["build index", "search index", "search boxes index", "search masks index", "search boxes masks index"];

/// Whether the console's requests have the call.
fn has_landed(call: &str) -> bool {
    let since = |word: &str| match word {
        "masks" | "lamps" => 'h',
        "index" => 'i',
        _ => 'a',
    };
    call.split(' ').all(|word| since(word) <= LANDED)
}

/// How the replies to calls begin.
#[rustfmt::skip]
const REPLIES: [(&str, &[&str]); 18] = [
    ("gr", &["refused 3 ", "refused 15 ", "refused 16 ", "refused 17 "]),
    ("co", &["refused 3 ", "refused 15 ", "refused 16 ", "refused 17 "]),
    ("p2p", &["ok ", "refused 0 0 ", "refused 1 (", "refused 2 (", "refused 3 ", "refused 15 ", "refused 16 ", "refused 17 ",
        "refused 4 ", "refused 5 0 ", "refused 5 1 ", "refused 5 2 ", "refused 6 ", "refused 8 ", "refused 14 ",
        "refused 9 ", "refused 10 "]),
    ("why", &["ok 1 (", "ok 2 (", "ok 3 ", "ok 4 (", "ok 5 (", "refused 5 0 ", "refused 2 (", "refused 8 ", "refused 14 ",
        "refused 11 (", "refused 12 "]),
    ("build masks", &["ok", "refused 5 0 ", "refused 2 (", "refused 8 ", "refused 14 ", "refused 18 "]),
    ("check masks", &["ok", "refused 5 0 ", "refused 2 (", "refused 8 ", "refused 14 ", "refused 18 ", "refused 13 "]),
    ("check boxes masks", &["ok", "refused 5 0 ", "refused 2 (", "refused 8 ", "refused 14 ", "refused 9 ", "refused 18 ",
        "refused 10 ", "refused 13 "]),
    ("search masks", &["ok ", "refused 5 0 ", "refused 2 (", "refused 8 ", "refused 14 ", "refused 18 ", "refused 11 (",
        "refused 12 "]),
    ("search boxes masks", &["ok ", "refused 5 0 ", "refused 2 (", "refused 8 ", "refused 14 ", "refused 9 ",
        "refused 18 ", "refused 10 ", "refused 11 (", "refused 12 "]),
    ("lamps", &["ok 0", "ok 1", "ok 31", "ok 32", "refused 2 ("]),
    ("build index", &["ok", "refused 5 0 ", "refused 2 (", "refused 8 "]),
    ("search index", &["ok ", "refused 5 0 ", "refused 2 (", "refused 8 ", "refused 14 ", "refused 19 (", "refused 11 (",
        "refused 12 "]),
    ("search boxes index", &["ok ", "refused 5 0 ", "refused 2 (", "refused 8 ", "refused 14 ", "refused 19 (", "refused 9 ",
        "refused 10 ", "refused 11 (", "refused 12 "]),
    ("search masks index", &["ok ", "refused 5 0 ", "refused 2 (", "refused 8 ", "refused 14 ", "refused 19 (",
        "refused 18 ", "refused 11 (", "refused 12 "]),
    ("search boxes masks index", &["ok ", "refused 5 0 ", "refused 2 (", "refused 8 ", "refused 14 ", "refused 19 (",
        "refused 9 ", "refused 18 ", "refused 10 ", "refused 11 (", "refused 12 "]),
    ("check boxes", &["ok", "refused 10 ", "refused 13 "]),
    ("update", &["ok", "refused 10 ", "refused 11 (", "refused 14 "]),
    ("search boxes", &["ok ", "refused 10 ", "refused 12 "]),
];

/// The recorded cases have every refusal and every fault; the small cases have all but the longest line.
pub fn coverage(tally: &mut Tally) {
    let mut random = Random::new(2);
    let small: Vec<Case> = (0..3_000).map(|number| small(&mut random, &format!("small{number}"))).collect();
    frequencies(tally, &small);
    replies(tally, "recorded", &recorded(1));
    replies(tally, "small", &Case::together(&small));
}

/// Of the small cases that are compared there are so many of each kind, if they are as these are.
fn frequencies(tally: &mut Tally, small: &[Case]) {
    let mut at_least = |count: usize, what: &str, has: &dyn Fn(&Case) -> bool| {
        let seen = small.iter().filter(|case| has(case)).count();
        tally.expect(seen * COUNT >= count * small.len(), format!("{what} in {seen} cases"));
    };
    for call in ["search", "search boxes", "build boxes", "check boxes", "update", "why"] {
        at_least(2_000, &format!("{call} where a track is closed"), &|case| on_closures(case, call));
    }
    for call in ["search boxes", "check boxes", "update"] {
        at_least(2_000, &format!("{call} where a box is the mark"), &|case| on_marks(case, call));
    }
    let calls = MASK_CALLS.into_iter().chain(INDEX_CALLS).chain(["lamps", "p2p"]);
    for call in calls.filter(|call| has_landed(call)) {
        at_least(2_000, call, &|case| makes(case, call));
    }
    at_least(2_000, "a faulty line", &|case| faulty_lines(case) >= 1);
    at_least(500, "two faulty lines", &|case| faulty_lines(case) >= 2);
}

/// The case has every refusal, every fault, and every reply to a call.
fn replies(tally: &mut Tally, name: &str, case: &Case) {
    let scratch = Scratch::new();
    scratch.write(&case.files);
    let output = String::from_utf8(scratch.demanded(&case.input())).expect("replies are plain text");
    tally.expect(output.lines().count() == case.lines.len(), format!("{name}: a reply to each line"));
    let spaced = output.lines().any(|line| line.ends_with(' '));
    tally.expect(!spaced, format!("{name}: no reply ends in a space"));
    let any = |begin: &str| output.lines().any(|reply| reply.starts_with(begin));
    let last = match LANDED {
        ..='g' => 17,
        'h' => 18,
        _ => 19,
    };
    for refusal in 0..=last {
        let begin = format!("refused {refusal} ");
        tally.expect(any(&begin), format!("{name}: {begin}"));
    }
    let unwritten = "refused 0 0 (the file cannot be written)";
    tally.expect(any(unwritten), format!("{name}: {unwritten}"));
    for words in FAULT_WORDS {
        let too_long = name == "small" && words == FAULT_WORDS[Fault::LongLine as usize];
        tally.expect(any(&format!("? {words}")) || too_long, format!("{name}: {words}"));
    }
    let mut told: BTreeMap<String, Vec<&str>> = BTreeMap::new();
    for (line, reply) in case.lines.iter().zip(output.lines()) {
        let file = [b"gr ", b"co "].iter().any(|kind| line.starts_with(*kind));
        let call = if file { call_of(&line[..2]) } else { call_of(line) };
        told.entry(call).or_default().push(reply);
    }
    for (call, begins) in REPLIES.into_iter().filter(|(call, _)| has_landed(call)) {
        for begin in begins {
            let seen = told.get(call).is_some_and(|told| told.iter().any(|reply| reply.starts_with(begin)));
            tally.expect(seen, format!("{name}: {call}, {begin}"));
        }
    }
}
