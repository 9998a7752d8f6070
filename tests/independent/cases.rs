//! Cases for the console: files, and lines that need nothing from the lines of another case.

use crate::console::rows;
use crate::files::joined;
use crate::lent::Lent;
use crate::plans::{
    add_surplus, ask, change_boxes, change_index, change_masks, plan, some_bytes, spoil, Asked,
};
use crate::random::Random;
use crate::sizes::{NODES, QUERIES, WEIGHT};
use crate::texts::{co_text, damage, gr_text, p2p_text, some_queries, with_slips};
use crate::writing::{write_co, write_gr};
use crate::LANDED;

/// The files that are there, and the lines that are typed. A file whose name ends in `/` is a folder.
#[derive(Clone, Default)]
pub struct Case {
    pub files: Vec<(String, Vec<u8>)>,
    pub lines: Vec<Vec<u8>>,
    /// Whether the last line lacks its byte 10.
    pub unended: bool,
}

impl Case {
    /// Many cases, one after the other.
    pub fn together(cases: &[Case]) -> Case {
        let mut all = Case::default();
        for case in cases {
            all.files.extend(case.files.clone());
            all.lines.extend(case.lines.clone());
            all.unended = case.unended;
        }
        all
    }

    /// The bytes that are typed.
    pub fn input(&self) -> Vec<u8> {
        let mut input = self.lines.join(&b'\n');
        if !self.lines.is_empty() && !self.unended {
            input.push(b'\n');
        }
        input
    }

    /// Whether a file may be saved.
    pub fn saves(&self) -> bool {
        self.lines.iter().any(|line| line.starts_with(b"save "))
    }

    /// Types a line.
    pub fn say(&mut self, line: impl AsRef<[u8]>) {
        self.lines.push(line.as_ref().to_vec());
    }

    /// Puts a file there.
    pub fn file(&mut self, name: String, bytes: Vec<u8>) {
        self.files.push((name, bytes));
    }

    /// Everything as at the start, then n, m and the rows as lent.
    pub fn lend(&mut self, lent: &Lent) {
        self.lend_upto(lent, LANDED);
    }

    /// The same for a console of the requests up to a letter.
    pub fn lend_upto(&mut self, lent: &Lent, upto: char) {
        self.say("fresh");
        self.say(format!("n {}", lent.n));
        self.say(format!("m {}", lent.m));
        let mut lent = lent.clone();
        for row in rows(upto) {
            let numbers = joined((row.of)(&mut lent));
            self.say(format!("lend {} {numbers}", row.name).trim_end());
        }
    }

    /// Shows all lent places of all rows.
    pub fn show_rows(&mut self) {
        for row in rows(LANDED) {
            self.say(format!("show {}", row.name));
        }
    }
}

/// So many different calls with the numbers asked, in any order, and the row that each writes, if any. What has two
/// names is called by either.
fn some_calls(random: &mut Random, asked: &Asked, count: usize) -> Vec<(String, Option<&'static str>)> {
    let Asked { s, t, arc, weight, byte, mask } = asked;
    let mut either =
        |one: &str, other: &str| if LANDED < 'h' || random.once_in(2) { one } else { other }.to_string();
    let mut calls = vec![
        (either("build", "build boxes"), Some("boxes")),
        (either("check", "check boxes"), None),
        (format!("update {arc} {weight} {byte}"), Some("boxes")),
        (format!("search {s} {t}"), Some("route")),
        (either(&format!("boxed {s} {t}"), &format!("search {s} {t} boxes")), Some("route")),
        ("build masks".to_string(), Some("masks")),
        ("check masks".to_string(), None),
        ("check boxes masks".to_string(), None),
        (format!("search {s} {t} masks"), Some("route")),
        (format!("search {s} {t} boxes masks"), Some("route")),
        (format!("lamps {mask}"), Some("lamps")),
        ("build index".to_string(), Some("order")),
        (format!("search {s} {t} index"), Some("route")),
        (format!("search {s} {t} boxes index"), Some("route")),
        (format!("search {s} {t} masks index"), Some("route")),
        (format!("search {s} {t} boxes masks index"), Some("route")),
    ];
    calls.truncate(match LANDED {
        ..='g' => 5,
        'h' => 11,
        _ => 16,
    });
    (0..count).map(|_| calls.swap_remove(random.below(calls.len()))).collect()
}

/// A driver asks, from the start of one arc to the end of another, why not by either and by a third.
fn some_whys(random: &mut Random, lent: &Lent) -> Vec<String> {
    if lent.m == 0 {
        return vec![];
    }
    let arcs = [0; 3].map(|_| random.between(1, lent.m));
    let (s, t) = (lent.tails[arcs[0] as usize - 1], lent.heads[arcs[1] as usize - 1]);
    arcs.map(|arc| format!("why {s} {t} {arc}")).to_vec()
}

/// A small case of any kind. `name` is for its files.
pub fn small(random: &mut Random, name: &str) -> Case {
    match random.below(30) {
        0..=2 => text_case(random, name),
        3..=6 => slip_case(random, name),
        7 | 8 => talk_case(random),
        9..=11 => write_case(random, name),
        12..=15 => update_case(random),
        16..=19 => day_case(random, name),
        _ => call_case(random),
    }
}

/// Calls on a small plan, spoilt in some things or in none. A driver asks why first; after each other call the row is shown
/// that it writes, or all of them, and at the end all.
pub fn call_case(random: &mut Random) -> Case {
    let (nodes, arcs) = if random.once_in(50) { (60, 200) } else { (7, 14) };
    let (n, m) = (random.between(1, nodes), random.between(0, arcs));
    let mut lent = plan(random, n, m);
    let mut asked = ask(random, &lent);
    let whys = some_whys(random, &lent);
    change_boxes(random, &mut lent);
    if LANDED >= 'h' {
        change_masks(random, &mut lent);
    }
    if LANDED >= 'i' && random.once_in(5) {
        change_index(random, &mut lent);
    }
    add_surplus(random, &mut lent);
    for _ in 0..random.pick(&[0, 0, 0, 1, 1, 2, 3]) {
        spoil(random, &mut lent, &mut asked);
    }
    let mut case = Case::default();
    case.lend(&lent);
    case.say(format!("why {} {} {}", asked.s, asked.t, asked.arc));
    whys.iter().for_each(|line| case.say(line));
    let (count, all) = match LANDED {
        ..='g' => (random.pick(&[1, 2, 2, 3]), true),
        _ => (random.pick(&[4, 5, 6, 7, 8]), random.once_in(8)),
    };
    for (call, written) in some_calls(random, &asked, count) {
        case.say(call);
        match written {
            _ if all => case.show_rows(),
            Some(row) => case.say(format!("show {row}")),
            None => (),
        }
    }
    if LANDED >= 'h' {
        case.show_rows();
    }
    case
}

/// Tracks of a small plan closed, opened and given other times one after the other, with something wrong in the rows
/// once in three times and in the numbers often; then the boxes are checked, and searched with and without.
pub fn update_case(random: &mut Random) -> Case {
    let (n, m) = (random.between(1, 7), random.between(1, 14));
    let mut lent = plan(random, n, m);
    let pairs = [ask(random, &lent), ask(random, &lent)];
    change_boxes(random, &mut lent);
    add_surplus(random, &mut lent);
    if random.once_in(3) {
        let mut unused = ask(random, &lent);
        spoil(random, &mut lent, &mut unused);
    }
    let mut case = Case::default();
    case.lend(&lent);
    for _ in 0..random.pick(&[1, 2, 3]) {
        let arc = if random.once_in(6) { random.pick(&[0, m + 1]) } else { random.between(1, m) };
        let weight = random.pick(&[0, 1, 3, 7, WEIGHT, WEIGHT + 1]);
        let byte = random.pick(&[0, 0, 1, 1, 1, 2, 255]);
        case.say(format!("update {arc} {weight} {byte}"));
        for row in ["weights", "boxes", "closed"] {
            case.say(format!("show {row}"));
        }
    }
    case.say("check");
    if LANDED < 'h' {
        for Asked { s, t, .. } in pairs {
            case.say(format!("search {s} {t}"));
            case.say(format!("boxed {s} {t}"));
        }
        return case;
    }
    // The masks are not those of the new network; the index is.
    case.say("show masks");
    case.say("check masks");
    for Asked { s, t, .. } in pairs {
        for tests in ["", " boxes", " masks", " boxes masks"] {
            let index = if LANDED < 'i' { "" } else { random.pick(&["", " index"]) };
            case.say(format!("search {s} {t}{tests}{index}"));
        }
    }
    case
}

/// The texts of a small plan, damaged or not, read into rows that are long, just long enough or too short.
/// The row `closed` holds any bytes before.
pub fn text_case(random: &mut Random, name: &str) -> Case {
    let (n, m) = (random.between(1, 6), random.between(0, 8));
    let plan = plan(random, n, m);
    let asked = ask(random, &plan);
    let (mut gr, mut co) = (gr_text(random, &plan), co_text(random, &plan));
    let damaged = if random.once_in(2) { &mut gr } else { &mut co };
    for _ in 0..random.pick(&[0, 1, 1, 1, 1, 2, 3]) {
        *damaged = damage(random, damaged);
    }
    let mut case = Case::default();
    case.say("fresh");
    let own_rows = random.once_in(40);
    if own_rows {
        let mut lent = Lent { n: random.between(0, 9), m: 0, ..Lent::default() };
        for row in rows(LANDED) {
            // Half of what the console has is just what the readers need.
            let places = row.places as i64 / 2 + random.pick(&[-1, 0, 0, 0, 1, 2]);
            *(row.of)(&mut lent) = (0..places).map(|_| random.between(0, 9)).collect();
        }
        case.lend(&lent);
    } else if !random.once_in(3) {
        let places = random.pick(&[2_047, 2_048, 2_048, 2_048, 2_049, 2_049, 2_060, 2_060]);
        case.say(format!("lend closed{}", format!(" {}", random.between(1, 9)).repeat(places)));
    }
    case.say(format!("gr {name}.gr"));
    if random.once_in(3) {
        case.say(format!("n {}", random.pick(&[n, n, n + 1, 0, NODES, NODES + 1, 4_294_967_295])));
    }
    case.say(format!("co {name}.co"));
    case.say(&some_calls(random, &asked, 1)[0].0);
    // Writing what was read.
    for line in ["write gr", "show text 160", "write co"] {
        case.say(line);
    }
    if own_rows {
        case.show_rows();
    } else {
        for row in rows(LANDED) {
            let some = match row.name {
                "boxes" => 4 * m + 5,
                "text" => 160,
                _ => n + m + 3,
            };
            case.say(format!("show {} {some}", row.name));
        }
    }
    case.file(format!("{name}.gr"), gr);
    case.file(format!("{name}.co"), co);
    case
}

/// The texts of a small plan, typed well and then with slips of the hand and perhaps something else wrong.
/// What was read first is kept where the second text is refused.
fn slip_case(random: &mut Random, name: &str) -> Case {
    let (n, m) = (random.between(1, 6), random.between(0, 8));
    let plan = plan(random, n, m);
    let mut case = Case::default();
    case.say("fresh");
    for (kind, text) in [("gr", gr_text(random, &plan)), ("co", co_text(random, &plan))] {
        let mut slipped = with_slips(random, &text);
        if random.once_in(4) {
            slipped = damage(random, &slipped);
        }
        for (file, text) in [(format!("{name}.{kind}"), text), (format!("{name}-typed.{kind}"), slipped)] {
            case.say(format!("{kind} {file}"));
            case.file(file, text);
        }
    }
    for row in ["tails", "heads", "weights"] {
        case.say(format!("show {row} {}", m + 3));
    }
    for row in ["x", "y"] {
        case.say(format!("show {row} {}", n + 3));
    }
    case
}

/// A text as it is typed: well, with slips of the hand, or with other things wrong.
pub fn typed(random: &mut Random, text: Vec<u8>) -> Vec<u8> {
    match random.below(5) {
        0 => with_slips(random, &text),
        1 => damage(random, &text),
        2 => {
            let damaged = damage(random, &text);
            damage(random, &damaged)
        }
        _ => text,
    }
}

/// One or two running lists on a small plan, for a row of about as many answers as there may be. The texts and the rows
/// are spoilt in some things or in none; now and then a text tells another count of queries than it has, or its last query
/// names no node.
pub fn day_case(random: &mut Random, name: &str) -> Case {
    let (n, m) = (random.between(1, 7), random.between(0, 14));
    let mut lent = plan(random, n, m);
    let mut asked = ask(random, &lent);
    change_boxes(random, &mut lent);
    lent.answers = (0..QUERIES).map(|_| random.between(0, 99)).collect();
    add_surplus(random, &mut lent);
    for _ in 0..random.pick(&[0, 0, 0, 1, 1, 2]) {
        spoil(random, &mut lent, &mut asked);
    }
    let mut case = Case::default();
    case.lend(&lent);
    for number in 1..=random.pick(&[1, 1, 2]) {
        let mut queries = some_queries(random, n);
        if let Some((s, t)) = queries.last_mut().filter(|_| random.once_in(5)) {
            *if random.once_in(2) { s } else { t } = random.pick(&[0, n + 1, NODES + 1]);
        }
        let count = queries.len() as i64 + random.pick(&[0, 0, 0, 0, 0, 0, 0, 1, -1]);
        let text = p2p_text(random, count.max(0), &queries);
        let file = format!("{name}-{number}.p2p");
        case.say(format!("p2p {file}"));
        case.file(file, typed(random, text));
        case.show_rows();
    }
    if random.once_in(9) {
        case.say(format!("p2p {name}-missing.p2p"));
    }
    case
}

/// How long the texts of a plan are that is within the limits.
fn text_lengths(lent: &Lent) -> [i64; 2] {
    let mut roomy = Lent { text: vec![0; 40_960], ..lent.clone() };
    [write_gr(&mut roomy), write_co(&mut roomy)].map(|length| length.expect("the plan is within the limits"))
}

/// A small plan, spoilt in some things or in none, written into a row of about the text's length, and saved:
/// over a file or as a new one, in a folder that is there or not, over a folder, by a name that is none.
pub fn write_case(random: &mut Random, name: &str) -> Case {
    let (nodes, arcs) = if random.once_in(50) { (60, 200) } else { (7, 14) };
    let (n, m) = (random.between(1, nodes), random.between(0, arcs));
    let mut lent = plan(random, n, m);
    let mut asked = ask(random, &lent);
    let places = random.pick(&text_lengths(&lent)) + random.pick(&[-1, 0, 0, 1, 9]);
    add_surplus(random, &mut lent);
    let places = match random.below(8) {
        0 => 4_000,
        1 => random.below(9),
        _ => places as usize,
    };
    lent.text = some_bytes(random, places);
    for _ in 0..random.pick(&[0, 0, 0, 1, 1, 2]) {
        spoil(random, &mut lent, &mut asked);
    }
    let mut case = Case::default();
    case.file(format!("{name}-there"), b"c an old plan\n".to_vec());
    case.file(format!("{name}-folder/in"), b"another\n".to_vec());
    case.lend(&lent);
    for _ in 0..random.pick(&[1, 2, 2, 3]) {
        let kind = random.pick(&["gr", "co"]);
        let file = match random.below(9) {
            0..=2 => format!("{name}-there"),
            3 => format!("./{name}-new"),
            4 => format!("{name}-new"),
            5 => format!("{name}-folder/in"),
            6 => format!("{name}-folder"),
            7 => format!("{name}-missing/plan"),
            _ => random.pick(&["a\0b", "/", "..", "x/"]).to_string(),
        };
        if random.once_in(2) {
            case.say(format!("write {kind}"));
        } else {
            case.say(format!("save {kind} {file}"));
        }
        case.show_rows();
    }
    // What was saved is read back; a file that was not replaced is still the old one.
    case.say("fresh");
    for file in ["there", "new"] {
        case.say(format!("gr {name}-{file}"));
        case.say(format!("co {name}-{file}"));
    }
    case.say(format!("show weights {}", m + 1));
    case.say(format!("show x {}", n + 1));
    case
}

/// Lines that are no commands, or that name numbers at the ends of their types.
#[rustfmt::skip]
const ODD_LINES: [&[u8]; 106] = [
    b"", b" ", b"\t", b"\r", b"  ", b" n 1", b"n 1 ", b"n  1", b"n\t1", b"n 1\r", b"n\r", b" \r",
    b"N 1", b"nn 1", b"1", b"?", b"n", b"m", b"n 1 2", b"n 01", b"n -1", b"n -0", b"n +1", b"n x", b"n 0",
    b"m 4294967295", b"m 4294967296", b"n 18446744073709551617", b"m 1x",
    b"lend", b"lend rows", b"lend rows 1", b"lend weights", b"lend tails 1 -1", b"lend tails 4294967295",
    b"lend tails 4294967296 x", b"lend heads x 4294967296", b"lend x -0", b"lend x -2147483648 2147483647",
    b"lend y 2147483648", b"lend boxes -2147483649",
    b"show", b"show rows", b"show x 1 2", b"show x -1", b"show y 01", b"show y 1025",
    b"show route 4294967296", b"show boxes 0", b"gr", b"co a b", b"gr .", b"co missing",
    b"build 1", b"update 1", b"search 1", b"boxed 1 1 1", b"search 1 4294967296",
    b"write", b"write gr co", b"write x", b"write x y", b"save", b"save gr", b"save co a b", b"save x", b"save x a",
    b"save gr .", b"save co missing/a", b"lend text 256", b"lend text -1", b"lend text 255 0", b"show text 40961",
    b"update 1 1", b"update 1 1 0 boxes", b"update 1 1 256", b"update 1 1 4294967296", b"update 1 1 -1",
    b"update x 4294967296 256", b"update 1 4294967296 x", b"update 1 1 01", b"update 1 1 255",
    b"lend closed 256", b"lend closed 255 2 1 0", b"show closed 4097",
    b"why", b"why 1 1", b"why 1 1 1 1", b"why 1 1 x", b"why 01 1 1", b"why 1 -1 1", b"why 1 1 4294967296",
    b"p2p", b"p2p .", b"p2p missing", b"p2p a b", b"P2P a", b"p2p a\0b", b"lend answers 4294967295 0", b"lend answers -1",
    b"show answers 513",
    b"why 4294967296 x 1", b"why x 4294967296 1", b"why 4294967295 4294967295 4294967295", b"why 1 1 1 boxes", b"Why 1 1 1",
];

/// The same of request h, and of i.
#[rustfmt::skip]
const ODD_TESTS: [&[u8]; 40] = [
    b"build x", b"build boxes masks", b"build masks boxes", b"build boxes boxes", b"build masks 1", b"check x",
    b"check masks boxes", b"check boxes masks masks", b"check masks masks", b"check boxes", b"check 1", b"build index",
    b"search 1 1 x", b"search 1 1 masks boxes", b"search 1 1 boxes boxes", b"search 1 1 boxes masks 1", b"search 1 masks",
    b"search x 1 masks", b"search x 1 y", b"search 1 4294967296 masks", b"search masks", b"boxed 1 1 masks", b"boxed 1 1 boxes",
    b"search 1 1 Boxes", b"search 1 1 masks", b"search 1 1 boxes masks",
    b"lamps", b"lamps x", b"lamps 01", b"lamps -1", b"lamps 4294967295", b"lamps 4294967296", b"lamps 1 1", b"lamps masks",
    b"lend modules 4294967295", b"lend masks 4294967296", b"lend lamps -1", b"show modules 1025", b"show masks 4097",
    b"show lamps 65",
];

#[rustfmt::skip]
const ODD_INDEXES: [&[u8]; 20] = [
    b"build index 1", b"build boxes index", b"build masks index", b"check index", b"check boxes index", b"index", b"search 1 1 index",
    b"search 1 1 index boxes", b"search 1 1 index index", b"search 1 1 masks boxes index", b"search 1 1 boxes masks index",
    b"search 1 index", b"search x 1 index", b"search 1 4294967296 boxes index", b"boxed 1 1 index", b"why 1 1 1 index",
    b"lend offsets 4294967296", b"lend order -1", b"show offsets 1025", b"show order 4097",
];

/// The odd lines of the requests landed.
pub fn odd_lines() -> Vec<&'static [u8]> {
    let mut lines = ODD_LINES.to_vec();
    lines.extend(ODD_TESTS.iter().filter(|_| LANDED >= 'h'));
    lines.extend(ODD_INDEXES.iter().filter(|_| LANDED >= 'i'));
    lines
}

/// A row of more numbers than the console has places for; the last is misspelt, which comes second.
pub fn long_row(row: usize) -> Vec<u8> {
    let row = &rows(LANDED)[row];
    format!("lend {}{} x", row.name, " 0".repeat(row.places)).into_bytes()
}

/// A call case with lines damaged, and with odd lines in between.
fn talk_case(random: &mut Random) -> Case {
    let mut case = call_case(random);
    for _ in 0..random.between(1, 6) {
        let at = random.below(case.lines.len());
        let line = &mut case.lines[at];
        let place = random.below(line.len().max(1));
        let byte = random.pick(b" \r\t-0x9\0\xff");
        match random.below(7) {
            0 => line.insert(place, byte),
            1 => line.extend([b' ', byte]),
            2 => line.truncate(place),
            3 => line.iter_mut().for_each(|byte| *byte = random.between(11, 255) as u8),
            _ => case.lines.insert(at, random.pick(&odd_lines()).to_vec()),
        }
    }
    if random.once_in(20) {
        case.lines.insert(1, long_row(random.below(rows(LANDED).len())));
    }
    case
}

/// The files for the program `boxes`.
pub fn boxes_case(random: &mut Random) -> Case {
    let (n, m) = (random.between(1, 6), random.between(0, 9));
    let plan = plan(random, n, m);
    let texts = [("net.gr", gr_text(random, &plan)), ("net.co", co_text(random, &plan))];
    files_case(random, texts)
}

/// The files for the program `journeys`.
pub fn journeys_case(random: &mut Random) -> Case {
    let (n, m) = (random.between(1, 6), random.between(0, 9));
    let (plan, queries) = (plan(random, n, m), some_queries(random, n));
    let day = p2p_text(random, queries.len() as i64, &queries);
    let texts = [("net.gr", gr_text(random, &plan)), ("net.co", co_text(random, &plan)), ("day.p2p", day)];
    files_case(random, texts)
}

/// The files that a program reads, damaged, typed with slips or neither, or with one lacking or a folder.
fn files_case<const FILES: usize>(random: &mut Random, mut texts: [(&str, Vec<u8>); FILES]) -> Case {
    let slips = random.once_in(2);
    for _ in 0..random.pick(&[0, 0, 1, 1, 2]) {
        let text = &mut texts[random.below(FILES)].1;
        *text = if slips { with_slips(random, text) } else { damage(random, text) };
    }
    let mut case = Case::default();
    for (name, text) in texts {
        match random.below(24) {
            0 => (),
            1 => case.file(format!("{name}/"), Vec::new()),
            _ => case.file(name.to_string(), text),
        }
    }
    case
}
