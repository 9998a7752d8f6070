//! The claims of request c, for .p2p too: lines whose fault is told by hand, all lines of few fields, and texts with slips.

use crate::cases::Case;
use crate::files::{journeys, listing, rows_for_reading};
use crate::lent::Lent;
use crate::plans::plan;
use crate::random::Random;
use crate::refusals::Refusal;
use crate::scratch::Scratch;
use crate::selftest::Tally;
use crate::slips::{slip, Format, Slip, CO, GR, P2P};
use crate::text::{has_co_form, has_gr_form, has_p2p_form, lines, read_co, read_gr, read_p2p};
use crate::texts::{co_text, damage, gr_text, p2p_text, with_slips};

/// A kind of file: its lines as 02 reads them and as 01 does, a line of each form, and lines told by hand.
struct Kind {
    name: &'static str,
    format: &'static Format,
    has_form: fn(&[u8]) -> bool,
    samples: [&'static str; 2],
    told: &'static [(&'static [u8], usize, i64)],
}

#[rustfmt::skip]
const KINDS: [Kind; 3] = [
    Kind { name: "gr", format: GR, has_form: has_gr_form, samples: ["p sp 1 1", "a 1 1 1"], told: &GR_SLIPS },
    Kind { name: "co", format: CO, has_form: has_co_form, samples: ["p aux sp co 1", "v 1 1 1"], told: &CO_SLIPS },
    Kind { name: "p2p", format: P2P, has_form: has_p2p_form, samples: ["p aux sp p2p 1", "q 1 1"], told: &P2P_SLIPS },
];

/// Lines of .gr with the refusal and the column, by the words of 02.
#[rustfmt::skip]
const GR_SLIPS: [(&[u8], usize, i64); 52] = [
    (b"", 3, 1),
    // No permitted letter, or an empty field before the others.
    (b" ", 15, 1), (b"  ", 15, 1), (b" a 1 2 3", 15, 1), (b" c", 15, 1), (b"\r", 15, 1), (b"v", 15, 1),
    (b"v 1 2 3", 15, 1), (b"A 1 2 3", 15, 1), (b"aa 1 2 3", 15, 1), (b"a\t1 2 3", 15, 1), (b"1 2 3", 15, 1),
    (b"q 1 2", 15, 1), (b"q", 15, 1), (b"cx", 15, 1), (b"c\r", 15, 1), (b"a\r", 15, 1), (b"\xef\xbb\xbfp sp 4 6", 15, 1), (b"# x", 15, 1),
    // A later field misspelt.
    (b"p xx 4 6", 16, 3), (b"p aux sp co 4", 16, 3), (b"p SP 4 6", 16, 3), (b"p 4 6", 16, 3), (b"p  sp 4 6", 16, 3),
    (b"p sp 4 -6", 16, 8), (b"p sp 04 6", 16, 6), (b"p sp sp 4 6", 16, 6),
    (b"a 1 2 -3", 16, 7), (b"a 1  2 3", 16, 5), (b"a ", 16, 3), (b"a  1 2 3", 16, 3), (b"a 1 2 ", 16, 7),
    (b"a 1 2 3\r", 16, 7), (b"a 1\t2 3", 16, 3), (b"a 10 20 3.5", 16, 9), (b"a 1 2 3,", 16, 7), (b"a 1 \xc3\xa9 3", 16, 5),
    // Of several faults the first.
    (b"a 1 x", 16, 5), (b"a 1 x y z", 16, 5), (b"a +1 2", 16, 3), (b"a 1 2 03 4", 16, 7), (b"a 1  ", 16, 5),
    // A field missing.
    (b"a", 17, 2), (b"a 1", 17, 4), (b"a 100 2", 17, 8), (b"p", 17, 2), (b"p sp 4", 17, 7),
    // A field too many.
    (b"a 1 2 3 ", 17, 9), (b"a 1 2 3  ", 17, 9), (b"a 1 2 3 4", 17, 9), (b"a 12 34 567 x y", 17, 13),
    (b"p sp 4 6 ", 17, 10),
];

/// The same of .co.
#[rustfmt::skip]
const CO_SLIPS: [(&[u8], usize, i64); 33] = [
    (b"", 3, 1),
    (b" ", 15, 1), (b"a 1 2 3", 15, 1), (b" v 1 0 0", 15, 1), (b"V 1 0 0", 15, 1), (b"vv", 15, 1), (b"d 1 0 0", 15, 1),
    (b"q 1 1", 15, 1), (b"p aux sp p2p 4", 16, 10),
    (b"v 1 07 1", 16, 5), (b"v 1 -0 1", 16, 5), (b"v 1 1 -", 16, 7), (b"v -1 0 0", 16, 3), (b"v 1 --1 0", 16, 5),
    (b"v 1 0  ", 16, 7), (b"v  1 0 0", 16, 3), (b"v 10 -5 +20", 16, 9), (b"v 1 2.5 0", 16, 5),
    (b"p sp 4 6", 16, 3), (b"p aux 4", 16, 7), (b"p aux sp 4", 16, 10), (b"p aux sp co -4", 16, 13),
    (b"p aux  sp co 4", 16, 7), (b"p aux sp co ", 16, 13), (b"v 01 -0 x y", 16, 3), (b"v 1 0 x y", 16, 7),
    (b"v", 17, 2), (b"v 1 -10", 17, 8), (b"p aux sp co", 17, 12), (b"p aux", 17, 6),
    (b"v 1 0 0 ", 17, 9), (b"v 1 -1 -1 0", 17, 11), (b"p aux sp co 4 4", 17, 15),
];

/// The same of .p2p.
#[rustfmt::skip]
const P2P_SLIPS: [(&[u8], usize, i64); 39] = [
    (b"", 3, 1),
    (b" ", 15, 1), (b"a 1 2 3", 15, 1), (b"v 1 0 0", 15, 1), (b" q 1 1", 15, 1), (b"Q 1 1", 15, 1), (b"qq 1 1", 15, 1),
    (b"q\t1 1", 15, 1), (b"cx", 15, 1), (b"c\r", 15, 1), (b"1 1", 15, 1),
    (b"p sp 4 6", 16, 3), (b"p p2p 4", 16, 3), (b"p aux p2p 4", 16, 7), (b"p aux sp co 4", 16, 10),
    (b"p aux sp P2P 4", 16, 10), (b"p aux sp p2 4", 16, 10), (b"p aux sp p2p -1", 16, 14), (b"p aux sp p2p 04", 16, 14),
    (b"p aux sp p2p ", 16, 14), (b"q ", 16, 3), (b"q -1 1", 16, 3), (b"q  1 1", 16, 3), (b"q 01 1", 16, 3),
    (b"q x", 16, 3), (b"q 1  1", 16, 5), (b"q 1 -0", 16, 5), (b"q 1 1\r", 16, 5), (b"q 10 2.5", 16, 6),
    (b"q 1 x 1", 16, 5),
    (b"q", 17, 2), (b"q 100", 17, 6), (b"p", 17, 2), (b"p aux sp p2p", 17, 13),
    (b"q 1 1 ", 17, 7), (b"q 1 1 1", 17, 7), (b"q 12 34 56", 17, 9), (b"p aux sp p2p 1 ", 17, 16),
    (b"p aux sp p2p 1 1", 17, 16),
];

/// The lines told by hand, each behind a `p` line in a file of its own: the kind of file, its name, text and slip.
fn told_files() -> Vec<(&'static str, String, Vec<u8>, Slip)> {
    let mut files = Vec::new();
    for Kind { name: kind, samples, told, .. } in KINDS {
        for (at, (line, number, column)) in told.iter().enumerate() {
            let text = [samples[0].as_bytes(), b"\n", line, b"\n"].concat();
            let slip = Slip { number: *number, column: *column };
            files.push((kind, format!("slip{}.{kind}", at + 1), text, slip));
        }
    }
    files
}

/// The lines told by hand, read at the console.
pub fn told_case() -> Case {
    let mut case = Case::default();
    case.say("fresh");
    case.say("n 1");
    for (kind, name, text, _) in told_files() {
        case.say(format!("{kind} {name}"));
        case.file(name, text);
    }
    case
}

/// The reply to a slip in the second line, and what the programs print of it.
fn replies(slip: Slip) -> (String, String) {
    let Slip { number, column } = slip;
    let words = match number {
        3 => "line 2 is empty".to_string(),
        15 => format!("line 2, column {column}: no line of this kind of file begins so"),
        16 => format!("line 2, column {column}: the field is misspelt"),
        _ => format!("line 2, column {column}: a field is missing or one too many"),
    };
    (format!("refused {number} 2 {column} ({words})"), format!("refused {number} 2 {column}"))
}

/// The lines told by hand: by themselves, at the console, in `boxes` and in `journeys`.
pub fn told_by_hand(tally: &mut Tally) {
    for Kind { name, format, told, .. } in KINDS {
        for (line, number, column) in told {
            let demanded = Some(Slip { number: *number, column: *column });
            let found = slip(format, line);
            tally.expect(found == demanded, format!("{name} {line:?}: {demanded:?}, not {found:?}"));
        }
    }
    let (scratch, case) = (Scratch::new(), told_case());
    scratch.write(&case.files);
    let output = String::from_utf8(scratch.demanded(&case.input())).expect("replies are plain text");
    for ((_, name, _, slip), reply) in told_files().into_iter().zip(output.lines().skip(2)) {
        let demanded = replies(slip).0;
        tally.expect(reply == demanded, format!("{name}: {demanded}, not {reply}"));
    }
    for (kind, name, text, slip) in told_files() {
        let good = [
            ("gr", "net.gr", "p sp 1 0\n"),
            ("co", "net.co", "p aux sp co 1\nv 1 0 0\n"),
            ("p2p", "day.p2p", ""),
        ];
        let of = |own: &str, good: &str| if own == kind { text.clone() } else { good.into() };
        scratch.write(&good.map(|(own, file, good)| (file.to_string(), of(own, good))));
        let demanded = replies(slip).1;
        let (boxes, journeys) = (listing(&scratch.folder), journeys(&scratch.folder));
        tally.expect(
            kind == "p2p" || boxes == format!("{demanded}\n"),
            format!("boxes, {name}: {demanded}, not {boxes}"),
        );
        let file = if kind == "p2p" { "day.p2p".to_string() } else { format!("net.{kind}") };
        tally.expect(
            journeys == format!("{demanded} {file}\n"),
            format!("journeys, {name}: {demanded}, not {journeys}"),
        );
    }
}

/// The fault of a line by the forms of 01 alone: up to the field at fault the line can be ended so that it has a form,
/// with that field no more; where all of it can be ended so, a field is missing.
fn by_endings(kind: &Kind, line: &[u8]) -> Option<Slip> {
    let has_form = kind.has_form;
    if has_form(line) {
        return None;
    }
    let at = |number, column: usize| Some(Slip { number, column: column as i64 });
    if line.is_empty() {
        return at(3, 1);
    }
    let endings =
        || kind.samples.iter().flat_map(|sample| sample.match_indices(' ').map(|(at, _)| &sample[at..]));
    let goes_on = |begun: &[u8]| {
        has_form(begun) || endings().any(|ending| has_form(&[begun, ending.as_bytes()].concat()))
    };
    let mut begin = 0;
    for end in (0..=line.len()).filter(|at| *at == line.len() || line[*at] == b' ') {
        if !goes_on(&line[..end]) {
            return match begin {
                0 => at(15, 1),
                _ if has_form(&line[..begin - 1]) => at(17, begin + 1),
                _ => at(16, begin + 1),
            };
        }
        begin = end + 1;
    }
    at(17, line.len() + 1)
}

/// What holds of the fault of every line.
fn of_a_line(tally: &mut Tally, kind: &Kind, line: &[u8]) {
    let found = slip(kind.format, line);
    tally.expect(found.is_none() == (kind.has_form)(line), "a line has a fault exactly when it has no form");
    let within = found.map_or(true, |slip| (1..=line.len() as i64 + 1).contains(&slip.column));
    tally.expect(within, "the column is from 1 to the line's length plus one");
    let demanded = by_endings(kind, line);
    tally.expect(found == demanded, format!("{line:?}: by the forms {demanded:?}, not {found:?}"));
}

/// Fields for lines of every kind.
#[rustfmt::skip]
const FIELDS: [&str; 16] =
    ["", "a", "v", "q", "p", "c", "sp", "aux", "co", "p2p", "0", "12", "07", "-3", "-0", "x"];

/// All lines of up to four of these fields, and some of more.
pub fn all_short_lines(tally: &mut Tally) {
    let mut all: Vec<Vec<&str>> = vec![vec![]];
    let mut last = all.clone();
    for _ in 0..4 {
        last = last.iter().flat_map(|line| FIELDS.map(|field| [&line[..], &[field]].concat())).collect();
        all.extend(last.clone());
    }
    let mut random = Random::new(3);
    for _ in 0..20_000 {
        let sample = random.pick(&KINDS.map(|kind| kind.samples).concat());
        let mut line: Vec<&str> = sample.split(' ').collect();
        for _ in 0..random.between(1, 3) {
            let (at, field) = (random.below(line.len()), random.pick(&FIELDS));
            match random.below(4) {
                0 => line.insert(at, field),
                1 => line.push(field),
                2 if line.len() > 1 => drop(line.remove(at)),
                _ => line[at] = field,
            }
        }
        all.push(line);
    }
    for line in all {
        for kind in &KINDS {
            of_a_line(tally, kind, line.join(" ").as_bytes());
        }
    }
}

/// What holds of a text: it is refused by 3, 15, 16 or 17 exactly where the first line with a fault comes before every
/// other refusal, and then for that line's fault; a refused text changes nothing that is lent.
fn of_a_text(tally: &mut Tally, kind: &Kind, text: &[u8], reply: Result<(), Refusal>, kept: bool) {
    let slips = lines(text).into_iter().map(|line| slip(kind.format, line));
    let first = slips.enumerate().find_map(|(at, slip)| slip.map(|slip| (at as i64 + 1, slip)));
    let Err(Refusal { number, values }) = reply else {
        return tally.expect(first.is_none(), "a text with a faulty line is refused");
    };
    tally.expect(kept, "a refused text changes nothing");
    let by_a_slip = matches!(number, 3 | 15..=17);
    match first {
        Some((line, slip)) if by_a_slip => {
            tally.expect(
                number == slip.number && values == [line, slip.column],
                "the first faulty line is told",
            );
        }
        Some((line, _)) => {
            tally.expect(values.first().map_or(true, |at| *at < line), "or what was wrong before")
        }
        None => tally.expect(!by_a_slip, "no fault is told where there is none"),
    }
}

/// The claims on the texts of one plan, with slips and with other damage.
pub fn claims(tally: &mut Tally, random: &mut Random) {
    let (n, m) = (random.between(1, 5), random.between(0, 6));
    let plan = plan(random, n, m);
    let before = Lent { n, ..rows_for_reading() };
    for kind in &KINDS {
        let text = match kind.name {
            "gr" => gr_text(random, &plan),
            "co" => co_text(random, &plan),
            _ => p2p_text(random, 2, &[(1, n), (n, 1)]),
        };
        let slipped = with_slips(random, &text);
        let other = if random.once_in(2) { &slipped } else { &text };
        let damaged = damage(random, other);
        for text in [slipped, damaged] {
            let mut lent = before.clone();
            let reply = match kind.name {
                "gr" => read_gr(&text, &mut lent).map(drop),
                "co" => read_co(&text, &mut lent),
                _ => read_p2p(&text, &lent).map(drop),
            };
            of_a_text(tally, kind, &text, reply, lent == before);
            for line in lines(&text).into_iter().filter(|line| line.len() < 100) {
                of_a_line(tally, kind, line);
            }
        }
    }
}

/// How many faulty lines the case's texts have, at most, in one of them.
pub fn faulty_lines(case: &Case) -> usize {
    let in_text = |(name, text): &(String, Vec<u8>)| {
        let kind = KINDS.into_iter().find(|kind| name.ends_with(&format!(".{}", kind.name)))?;
        Some(lines(text).into_iter().filter(|line| slip(kind.format, line).is_some()).count())
    };
    case.files.iter().filter_map(in_text).max().unwrap_or(0)
}
