//! Cases at the limits: whole inputs, the largest networks, the largest texts.

use crate::cases::Case;
use crate::console::{rows, LINE_BYTES};
use crate::files::joined;
use crate::lent::Lent;
use crate::plans::{add_surplus, ask, plan};
use crate::random::Random;
use crate::sizes::{ARCS, COORDINATE, MODULES, NODES, QUERIES, TEXT_BYTES, WEIGHT};
use crate::texts::{co_text, gr_text};
use crate::{LANDED, LAST};

/// Inputs in which the end or the length of a line matters.
pub fn streams() -> Vec<Case> {
    let line =
        |begin: &str, bytes: usize| begin.bytes().chain(vec![b'x'; bytes - begin.len()]).collect::<Vec<u8>>();
    let boxes = |places: usize| format!("lend boxes{}", " -2147483648".repeat(places)).into_bytes();
    let bytes = |row: &str, places: usize| format!("lend {row}{}", " 255".repeat(places)).into_bytes();
    let counts =
        |row: &str, places: usize| format!("lend {row}{}", " 4294967295".repeat(places)).into_bytes();
    let (help, show) = (|| b"help".to_vec(), || b"show boxes 3".to_vec());
    let mut inputs = vec![
        vec![],
        vec![vec![]],
        vec![help()],
        vec![help(), vec![], show()],
        vec![line("help ", LINE_BYTES)],
        vec![line("help ", LINE_BYTES), help()],
        vec![line("help ", LINE_BYTES + 1)],
        vec![line("help ", LINE_BYTES + 1), help()],
        vec![line("n 1\rx ", 10_000_000), help()],
        vec![line("gr ", 200_000), help()],
        vec![vec![0; 1_000_000], show()],
        vec![boxes(16_384), b"show boxes".to_vec()],
        vec![boxes(16_385), show()],
        vec![bytes("text", 40_960), b"show text".to_vec()],
        vec![bytes("text", 40_961), b"show text 3".to_vec()],
        vec![bytes("closed", 4_096), b"show closed".to_vec()],
        vec![bytes("closed", 4_097), b"show closed 3".to_vec()],
        vec![counts("answers", 512), b"show answers".to_vec()],
        vec![counts("answers", 513), b"show answers 3".to_vec()],
    ];
    // The rows that came after these.
    for row in &rows(LANDED)[10..] {
        inputs.push(vec![counts(row.name, row.places), format!("show {}", row.name).into_bytes()]);
        inputs.push(vec![counts(row.name, row.places + 1), format!("show {} 3", row.name).into_bytes()]);
    }
    let both_ends = |lines: &Vec<Vec<u8>>| {
        [false, true].map(|unended| Case { lines: lines.clone(), unended, ..Case::default() })
    };
    inputs.iter().flat_map(both_ends).collect()
}

/// The largest network with all calls: with the longest way, with any weights, with many ties, or with all arcs closed.
pub fn limit_case(random: &mut Random, kind: usize) -> Case {
    let mut lent = plan(random, NODES, ARCS);
    for e in 0..ARCS {
        let (tail, head, weight) = match kind {
            // The longest way there can be: 511 arcs of the greatest weight. All other arcs lead back.
            0 if e < NODES - 1 => (e + 1, e + 2, WEIGHT),
            0 => (NODES, random.between(1, NODES), WEIGHT),
            1 | 3 => (random.between(1, NODES), random.between(1, NODES), random.between(0, WEIGHT)),
            _ => (random.between(1, NODES), random.between(1, NODES), random.between(0, 3)),
        };
        let closed = kind == 3 || (kind > 0 || e >= NODES) && random.once_in(4);
        let e = e as usize;
        (lent.tails[e], lent.heads[e], lent.weights[e]) = (tail, head, weight);
        lent.closed[e] = i64::from(closed);
    }
    add_surplus(random, &mut lent);
    let mut case = Case::default();
    case.lend(&lent);
    case.say(format!("search 1 {NODES}"));
    for arc in [1, NODES - 1, NODES, ARCS, ARCS + 1] {
        case.say(format!("why 1 {NODES} {arc}"));
    }
    if LANDED >= 'i' {
        for call in ["search 1 512 index", "build index", "show offsets", "show order", "search 1 512 index"]
        {
            case.say(call);
        }
    }
    for call in ["build", "show boxes", "check"] {
        case.say(call);
    }
    if LANDED >= 'h' {
        for call in ["check masks", "build masks", "show masks", "check masks", "check boxes masks"] {
            case.say(call);
        }
    }
    for _ in 0..3 {
        let asked = ask(random, &lent);
        case.say(format!("search {} {}", asked.s, asked.t));
        case.say(format!("boxed {} {}", asked.s, asked.t));
        case.say("show route");
        let tests = ["masks", "boxes masks", "index", "boxes index", "masks index", "boxes masks index"];
        let landed = match LANDED {
            ..='g' => 0,
            'h' => 2,
            _ => 6,
        };
        for tests in &tests[..landed] {
            case.say(format!("search {} {} {tests}", asked.s, asked.t));
            case.say("show route");
        }
        for arc in [asked.arc, random.between(1, ARCS), random.between(1, ARCS)] {
            case.say(format!("why {} {} {arc}", asked.s, asked.t));
        }
    }
    for byte in [1, 0] {
        let (arc, weight) = (random.between(1, ARCS), random.pick(&[0, WEIGHT]));
        case.say(format!("update {arc} {weight} {byte}"));
    }
    case.say("check");
    if LANDED >= 'h' {
        case.say("check masks");
    }
    case.show_rows();
    case
}

/// The lamps of masks with one module, with all but one, with none and with all, in rows of about as many places as there
/// must be; then the last node's module judged and the one behind it not, and a place too few in either row.
pub fn limit_panel() -> Case {
    let mut case = Case::default();
    case.say("fresh");
    let all = u32::MAX as i64;
    for bit in 0..MODULES {
        case.say(format!("lamps {}", 1_i64 << bit));
        case.say(format!("lamps {}", all ^ 1_i64 << bit));
        case.say("show lamps");
    }
    for places in [MODULES - 1, MODULES, MODULES + 1, 2 * MODULES] {
        for mask in [0, 1, all] {
            case.say(format!("lend lamps{}", " 77".repeat(places as usize)));
            case.say(format!("lamps {mask}"));
            case.say("show lamps");
        }
    }
    let (n, m) = (NODES as usize, ARCS as usize);
    case.say(format!("n {NODES}"));
    case.say(format!("m {ARCS}"));
    for row in ["tails", "heads"] {
        case.say(format!("lend {row}{}", format!(" {NODES}").repeat(m)));
    }
    let calls = [
        "build masks",
        "check masks",
        "check boxes masks",
        "search 1 1 masks",
        "search 512 1 boxes masks",
        "search 1 513 masks",
    ];
    for (nodes, last, masks) in [
        (n, MODULES, m),
        (n, MODULES + 1, m),
        (n + 1, MODULES + 1, m + 1),
        (n - 1, MODULES, m),
        (n, MODULES, m - 1),
        (n, 0, m),
    ] {
        case.say(format!("lend modules{} {last}", " 32".repeat(nodes - 1)));
        case.say(format!("lend masks{}", " 4294967295".repeat(masks)));
        for call in calls {
            case.say(call);
        }
    }
    case.show_rows();
    case
}

/// An index of the most nodes and arcs, in rows of about as many places as there must be, with its last numbers right and
/// wrong; and one node or arc more, for which the rows are long enough.
pub fn limit_index() -> Case {
    let (n, m) = (NODES as usize, ARCS as usize);
    let mut lent = Lent { n: NODES, m: ARCS, weights: vec![1; m], closed: vec![0; m], ..Lent::default() };
    (lent.tails, lent.heads) = (0..ARCS).map(|e| (NODES - e % NODES, e % NODES + 1)).unzip();
    lent.route = vec![0; n];
    let mut case = Case::default();
    for (offsets, order) in [(n, m), (n + 1, m - 1), (n + 1, m), (n + 2, m + 1)] {
        (lent.offsets, lent.order) = (vec![7; offsets], vec![7; order]);
        case.lend_upto(&lent, LAST);
        for call in ["search 1 512 index", "build index", "show offsets", "show order", "search 1 512 index"]
        {
            case.say(call);
        }
    }
    let last_offset = |last: i64| {
        format!("lend offsets 0{} {last}", (1..NODES).map(|u| format!(" {}", 4 * u)).collect::<String>())
    };
    for last in [ARCS, ARCS - 1, ARCS + 1, 0] {
        case.say(last_offset(last));
        case.say("search 512 1 index");
    }
    case.say(last_offset(ARCS));
    // The arcs that leave u are 513 - u and, 512 further on each time, three more.
    let order: Vec<i64> =
        (1..=NODES).flat_map(|u| (0..4).map(move |round| NODES + 1 - u + round * NODES)).collect();
    for (at, other) in [(0, NODES), (0, 1), (m - 1, 1), (m - 1, order[m - 1])] {
        let mut order = order.clone();
        order[at] = other;
        case.say(format!("lend order {}", joined(&order)));
        case.say("search 512 1 index");
    }
    for line in [
        "n 513",
        "build index",
        "search 1 1 index",
        "n 512",
        "m 2049",
        "build index",
        "search 1 1 index",
        "m 0",
        "build index",
    ] {
        case.say(line);
    }
    case.show_rows();
    // Every arc leaves a node that is settled: with all open, with all closed that can be, and shut out by masks.
    let round = |e: i64| (e % (NODES - 1) + 1, (e + 1) % (NODES - 1) + 1);
    (lent.tails, lent.heads) = (0..ARCS).map(round).unzip();
    (lent.modules, lent.masks) = (vec![1; n], vec![0; m]);
    for closed in [0, 1] {
        lent.closed[n..].fill(closed);
        case.lend_upto(&lent, LAST);
        for call in [
            "build index",
            "search 1 512 index",
            "search 1 511 index",
            "search 1 512 masks index",
            "search 512 512 index",
        ] {
            case.say(call);
        }
    }
    case
}

/// A ring of all nodes, by arcs of the greatest weight, and arcs from the last node to the second: from a node to itself
/// the way over one of these goes nearly round twice, and no excess can be greater. Then one place or arc less or more.
pub fn limit_why() -> Case {
    let ring = |e: i64| if e < NODES { (e + 1, (e + 1) % NODES + 1) } else { (NODES, 2) };
    let mut lent = Lent { n: NODES, m: ARCS, ..Lent::default() };
    (lent.tails, lent.heads) = (0..ARCS).map(ring).unzip();
    (lent.weights, lent.closed) = (vec![WEIGHT; ARCS as usize], vec![0; ARCS as usize]);
    lent.closed[ARCS as usize - 1] = 1;
    let mut case = Case::default();
    case.lend(&lent);
    let last_arcs = [NODES - 1, NODES, NODES + 1, ARCS - 1, ARCS, ARCS + 1];
    for (s, t) in
        [(1, 1), (1, NODES), (NODES, 1), (NODES, NODES - 1), (NODES, NODES), (1, NODES + 1), (NODES + 1, 1)]
    {
        for arc in last_arcs {
            case.say(format!("why {s} {t} {arc}"));
        }
    }
    // The last arc's byte is judged, the one behind it is not, and a place too few is refused.
    for (places, byte) in [(ARCS, 7), (ARCS + 1, 7), (ARCS - 1, 0)] {
        case.say(format!("lend closed{} {byte}", " 0".repeat(places as usize - 1)));
        case.say(format!("why 1 1 {ARCS}"));
    }
    case.say("fresh");
    for line in ["n 512", "m 2049", "why 1 1 1", "n 513", "m 2048", "why 1 1 1", "n 512", "why 1 1 1"] {
        case.say(line);
    }
    case
}

/// A running list of so many equal queries, said to be `count`.
fn list_text(count: i64, queries: i64, query: &str) -> Vec<u8> {
    format!("p aux sp p2p {count}\n{}", format!("q {query}\n").repeat(queries as usize)).into_bytes()
}

/// Lists of about as many queries as there may be, each for the longest way there can be or for none; rows of about as
/// many places as there must be; texts as long as they may be; and what is judged after the text.
pub fn limit_day() -> Case {
    let (n, m) = (NODES as usize, ARCS as usize);
    let chain = |e: i64| if e < NODES - 1 { (e + 1, e + 2) } else { (NODES, NODES) };
    let mut lent = Lent { n: NODES, m: ARCS, answers: vec![7; 512], ..Lent::default() };
    (lent.tails, lent.heads) = (0..ARCS).map(chain).unzip();
    (lent.weights, lent.closed) = (vec![WEIGHT; m], vec![0; m]);
    (lent.x, lent.y) = (vec![0; n], vec![0; n]);
    lent.boxes = [-COORDINATE, COORDINATE].repeat(2 * m);
    let mut case = Case::default();
    case.lend(&lent);
    let longest = format!("1 {NODES}");
    let mut texts: Vec<(String, Vec<u8>)> = Vec::new();
    for count in [0, 1, QUERIES - 1, QUERIES, QUERIES + 1] {
        texts.push((format!("day{count}.p2p"), list_text(count, count, &longest)));
    }
    for (count, queries) in [(QUERIES, QUERIES - 1), (QUERIES, QUERIES + 1), (0, 1), (4_294_967_296, 0)] {
        texts.push((format!("day{count}-{queries}.p2p"), list_text(count, queries, &longest)));
    }
    let both =
        [list_text(QUERIES, QUERIES / 2, &longest), format!("q {NODES} 1\n").repeat(n / 4).into_bytes()];
    texts.push(("both.p2p".to_string(), both.concat()));
    texts.push(("outside.p2p".to_string(), list_text(1, 1, &format!("1 {}", NODES + 1))));
    for bytes in [TEXT_BYTES, TEXT_BYTES + 1] {
        let day = list_text(1, 1, &longest);
        let comment = format!("c {}\n", "x".repeat(bytes - day.len() - 3)).into_bytes();
        texts.push((format!("bytes{bytes}.p2p"), [comment, day].concat()));
    }
    for (file, text) in texts {
        case.say(format!("p2p {file}"));
        case.say("show answers");
        case.file(file, text);
    }
    for places in [QUERIES - 1, QUERIES, QUERIES + 1] {
        case.say(format!("lend answers{}", " 7".repeat(places as usize)));
        case.say("p2p day1.p2p");
        case.say("p2p bytes65537.p2p");
        case.say("show answers");
    }
    // n is judged before the text, m and the rows after it.
    for line in
        ["m 2049", "p2p day256.p2p", "p2p outside.p2p", "n 513", "p2p outside.p2p", "p2p bytes65537.p2p"]
    {
        case.say(line);
    }
    for line in ["n 512", "m 2048", "lend boxes", "p2p day256.p2p", "p2p day256-257.p2p"] {
        case.say(line);
    }
    case.show_rows();
    case
}

/// The longest texts there can be, written into rows of their length, of a place less, and of all places.
pub fn limit_writing() -> Case {
    let (n, m) = (NODES as usize, ARCS as usize);
    let lent = Lent {
        n: NODES,
        m: ARCS,
        tails: vec![NODES; m],
        heads: vec![NODES; m],
        weights: vec![WEIGHT; m],
        x: vec![-COORDINATE; n],
        y: vec![-COORDINATE; n],
        ..Lent::default()
    };
    let mut case = Case::default();
    case.lend(&lent);
    for (kind, length) in [("gr", 36_878), ("co", 12_196)] {
        for places in [length - 1, length, length + 1, 40_960] {
            case.say(format!("lend text{}", " 7".repeat(places)));
            case.say(format!("write {kind}"));
            case.say("show text");
            case.say(format!("save {kind} longest.{kind}"));
        }
    }
    for line in ["fresh", "gr longest.gr", "co longest.co", "show weights 2049", "show y 513"] {
        case.say(line);
    }
    // One node or one arc too many, for which the rows are long enough.
    for line in [
        "n 513",
        "write co",
        "write gr",
        "n 512",
        "m 2049",
        "write gr",
        "write co",
        "n 0",
        "save co longest.co",
    ] {
        case.say(line);
    }
    case
}

/// The largest texts, and then one node or one arc too many, for which the rows are long enough.
pub fn limit_texts(random: &mut Random, name: &str) -> Case {
    let lent = plan(random, NODES, ARCS);
    let mut case = Case::default();
    case.file(format!("{name}.gr"), gr_text(random, &lent));
    case.file(format!("{name}.co"), co_text(random, &lent));
    case.say("fresh");
    // A place too few for the closures, then all that the console has: the first 2,048 become 0.
    for places in [ARCS as usize - 1, 2 * ARCS as usize] {
        case.say(format!("lend closed{}", " 7".repeat(places)));
        case.say(format!("gr {name}.gr"));
    }
    case.say(format!("co {name}.co"));
    case.show_rows();
    // No file has a name with a byte 0 in it.
    case.say(format!("gr {name}.gr\0"));
    for line in
        ["search 1 512", "n 513", "search 1 1", "build", "n 512", "m 2049", "search 1 1", "update 1 1 0"]
    {
        case.say(line);
    }
    // The last arc's byte is judged, the one behind it is not, and a place too few is refused.
    for (places, byte) in [(ARCS, 7), (ARCS + 1, 7), (ARCS - 1, 0)] {
        case.say(format!("m {ARCS}"));
        case.say(format!("lend closed{} {byte}", " 0".repeat(places as usize - 1)));
        case.say("search 1 512");
    }
    case
}

/// What begins and ends a text whose middle, a number, makes it as long as a text may be.
#[rustfmt::skip]
const FAR_RIGHT: [(&str, &str, &str); 22] = [
    ("gr", "a ", ""), ("gr", "a ", " "), ("gr", "a 1 ", " x"), ("gr", "a 1 1 ", " "), ("gr", "a 1 1 ", " 1"),
    ("gr", "a 1 1 ", "x"), ("gr", "p sp ", " x"), ("gr", "p sp 1 ", " "), ("gr", "p sp 1 1\na ", " 1 "),
    ("gr", "p sp 1 1\na ", " 1\n"), ("gr", "p sp 1 1\na 1 ", " 1 \n"),
    ("co", "v ", ""), ("co", "v 1 -", " -0"), ("co", "v 1 1 -", " "), ("co", "p aux sp co ", " 1"), ("co", "p ", ""),
    ("p2p", "q ", ""), ("p2p", "q 1 ", " "), ("p2p", "q ", " x"), ("p2p", "p aux sp p2p ", " "), ("p2p", "p aux sp p2p 1\nq ", " 1 "),
    ("p2p", "p aux sp p2p 1\nq 1 ", ""),
];

/// Last lines below as many comments as a text may have.
const FAR_DOWN: [&str; 7] = ["x", "\n", " ", "a", "p sp", "a 1 1\n", "a 1 1 1 \n"];

/// Slips as far to the right and as far down as the longest text allows, and the same a byte longer.
pub fn limit_slips() -> Case {
    let mut texts = Vec::new();
    for bytes in [TEXT_BYTES, TEXT_BYTES + 1] {
        for (kind, begin, end) in FAR_RIGHT {
            texts.push((kind, format!("{begin}{}{end}", "1".repeat(bytes - begin.len() - end.len()))));
        }
        for end in FAR_DOWN {
            let left = bytes - end.len() - 2;
            let comments = if left % 2 == 0 { "c\n" } else { "c \n" }.to_string() + &"c\n".repeat(left / 2);
            texts.push(("gr", comments + end));
        }
    }
    let mut case = Case::default();
    case.say("fresh");
    case.say("n 1");
    for (at, (kind, text)) in texts.into_iter().enumerate() {
        case.say(format!("{kind} long{at}.{kind}"));
        case.file(format!("long{at}.{kind}"), text.into_bytes());
    }
    case
}
