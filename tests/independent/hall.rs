//! The hall plan of 01, word for word, with line 5 of the listing as request f has it.

use crate::cases::Case;
use crate::console::help;
use crate::LANDED;

pub const GR: &str = "c four block ends\np sp 4 6\na 1 2 3\na 2 3 2\na 1 3 5\na 3 4 1\na 1 4 9\na 4 1 4\n";

pub const CO: &str = "p aux sp co 4\nv 1 0 0\nv 2 10 0\nv 3 10 5\nv 4 -5 20\n";

pub const LISTING: &str = "\
1 1 2 3 -5 10 0 20
2 2 3 2 -5 10 0 20
3 1 3 5 -5 10 5 20
4 3 4 1 -5 10 0 20
5 1 4 9 1 0 1 0
6 4 1 4 0 10 0 5
";

/// A running list for it, and what `journeys` prints for that.
pub const DAY: &str = "c four journeys\np aux sp p2p 4\nq 1 4\nq 1 2\nq 4 2\nq 1 1\n";

pub const JOURNEYS: &str = "1 4 6\n1 2 3\n4 2 7\n1 1 0\n4 0 16\n";

/// Its lines as console commands with the replies; the plan is read from `hall.gr` and `hall.co`, the list from `hall.p2p`.
const TALK: [(&str, &str); 48] = [
    ("gr hall.gr", "ok 4 6"),
    ("co hall.co", "ok"),
    ("build", "ok"),
    ("show boxes 24", "boxes -5 10 0 20 -5 10 0 20 -5 10 5 20 -5 10 0 20 1 0 1 0 0 10 0 5"),
    ("check", "ok"),
    ("boxed 1 4", "ok 6 2 4 3 4"),
    ("search 1 4", "ok 6 2 4 3 4"),
    ("boxed 1 2", "ok 3 1 2 1"),
    ("search 1 2", "ok 3 1 2 1"),
    ("boxed 4 2", "ok 7 2 3 6 1"),
    ("search 4 2", "ok 7 2 3 6 1"),
    ("boxed 1 1", "ok 0 0 1"),
    ("search 1 1", "ok 0 0 1"),
    ("p2p hall.p2p", "ok 4 0 16"),
    ("show answers 5", "answers 6 3 7 0 0"),
    // Each arc, from 1 to 4.
    ("why 1 4 1", "ok 4 (an equally short way uses it, and the tie rule picked another)"),
    ("why 1 4 2", "ok 4 (an equally short way uses it, and the tie rule picked another)"),
    ("why 1 4 3", "ok 5 (it is on the route)"),
    ("why 1 4 4", "ok 5 (it is on the route)"),
    ("why 1 4 5", "ok 3 3 (the best way through it is longer by 3)"),
    ("why 1 4 6", "ok 3 10 (the best way through it is longer by 10)"),
    // Arc 3's low raised to 6.
    ("lend boxes -5 10 0 20 -5 10 0 20 -5 10 6 20 -5 10 0 20 -5 -5 20 20 0 10 0 5", "ok"),
    ("check", "refused 13 3 3 (the box of arc 3 misses node 3)"),
    ("build", "ok"),
    ("update 5 6 0", "ok"),
    ("show weights 6", "weights 3 2 5 1 6 4"),
    ("show boxes 24", "boxes -5 10 0 20 -5 10 0 20 -5 10 5 20 -5 10 0 20 -5 -5 20 20 0 10 0 5"),
    ("check", "ok"),
    ("boxed 1 4", "ok 6 1 4 5"),
    ("search 1 4", "ok 6 1 4 5"),
    // Two nodes, only arc 2 to 1.
    ("n 2", "ok"),
    ("m 1", "ok"),
    ("lend tails 2", "ok"),
    ("lend heads 1", "ok"),
    ("lend weights 3", "ok"),
    ("search 1 2", "refused 12 1 (no walk leads from the source to the target, settled 1)"),
    // Arcs 1-2 and 2-1 of weight 0, 1-3 and 2-3 of weight 5.
    ("n 3", "ok"),
    ("m 4", "ok"),
    ("lend tails 1 2 1 2", "ok"),
    ("lend heads 2 1 3 3", "ok"),
    ("lend weights 0 0 5 5", "ok"),
    ("search 1 3", "ok 5 1 3 3"),
    // The refused lines of texts.
    ("fresh", "ok"),
    ("gr minus.gr", "refused 16 2 7 (line 2, column 7: the field is misspelt)"),
    ("gr heavy.gr", "refused 5 2 (a number in line 2 is beyond its limits)"),
    ("n 4", "ok"),
    ("co zero.co", "refused 5 2 (a number in line 2 is beyond its limits)"),
    ("co seven.co", "refused 16 2 5 (line 2, column 5: the field is misspelt)"),
];

/// What is said of it by request h.
const PANEL: [(&str, &str); 12] = [
    // The nodes in modules 1, 2, 3 and 32.
    ("lend modules 1 2 3 32", "ok"),
    ("build masks", "ok"),
    ("show masks 6", "masks 2147483654 2147483653 2147483652 2147483651 0 7"),
    ("check masks", "ok"),
    ("check boxes masks", "ok"),
    ("search 1 4 masks", "ok 6 2 4 3 4"),
    ("search 1 2 masks", "ok 3 1 2 1"),
    ("search 4 2 boxes masks", "ok 7 2 3 6 1"),
    ("search 1 1 boxes masks", "ok 0 0 1"),
    ("search 1 4 boxes", "ok 6 2 4 3 4"),
    ("lamps 2147483654", "ok 3"),
    ("show lamps 4", "lamps 2 3 32 0"),
];

/// What is said of it by requests i and j.
const INDEX: [(&str, &str); 7] = [
    // The index: arcs 1, 3 and 5 leave 1.
    ("build index", "ok"),
    ("show offsets 6", "offsets 0 3 4 5 6 0"),
    ("show order 7", "order 1 3 5 2 4 6 0"),
    ("search 1 4 index", "ok 6 2 4 5 3 4"),
    ("search 4 2 boxes index", "ok 7 2 3 4 6 1"),
    ("search 1 2 boxes masks index", "ok 3 1 2 3 1"),
    ("search 1 1 index", "ok 0 0 1 0"),
];

/// The talk with a console of the requests up to a letter: what later ones say comes once the list has been run.
pub fn talk(upto: char) -> Vec<(&'static str, &'static str)> {
    let (first, rest) = TALK.split_at(15);
    let panel = if upto >= 'h' { &PANEL[..] } else { &[] };
    let index = if upto >= 'i' { &INDEX[..] } else { &[] };
    [first, panel, index, rest, &[("help", help(upto))]].concat()
}

/// The talk as a case, with the files it names.
pub fn case() -> Case {
    let files = [
        ("hall.gr", GR),
        ("hall.co", CO),
        ("hall.p2p", DAY),
        ("minus.gr", "p sp 2 1\na 1 2 -3\n"),
        ("heavy.gr", "p sp 2 1\na 1 2 1000001\n"),
        ("zero.co", "p aux sp co 4\nv 0 1 1\n"),
        ("seven.co", "p aux sp co 4\nv 1 07 1\n"),
    ];
    Case {
        files: files.map(|(name, text)| (name.to_string(), text.into())).to_vec(),
        lines: talk(LANDED).iter().map(|(line, _)| line.as_bytes().to_vec()).collect(),
        unended: false,
    }
}
