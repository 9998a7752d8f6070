//! The program's own check: 01's worked lines, learners' errors, and the claims of 01 and 02 on random networks.

use crate::boxes::{all_s, Rectangle};
use crate::calls::{boxed, build, check, search, update};
use crate::closures;
use crate::columns;
use crate::coverage::coverage;
use crate::days;
use crate::drivers;
use crate::files::{journeys, listing, rows_for_reading};
use crate::hall;
use crate::indexed;
use crate::judging::judge_network;
use crate::lent::Lent;
use crate::marks;
use crate::network::{labels, lengths, open, Arc};
use crate::panels;
use crate::plans::{add_surplus, ask, change_boxes, plan, some_bytes};
use crate::random::Random;
use crate::refusals::{refused, Refusal};
use crate::scratch::Scratch;
use crate::sizes::{ARCS, COORDINATE, NODES, TEXT_BYTES, WEIGHT};
use crate::talks::{exchanges, talk_files, talks};
use crate::text::{fields, lines, number, read_co, read_gr, signed_number};
use crate::texts::{co_text, gr_text};
use crate::writing::{write_co, write_gr};
use crate::{LANDED, LAST};

#[derive(Default)]
pub struct Tally {
    passed: usize,
    failed: usize,
}

impl Tally {
    pub fn expect(&mut self, holds: bool, what: impl AsRef<str>) {
        if holds {
            self.passed += 1;
        } else {
            self.failed += 1;
            println!("fails: {}", what.as_ref());
        }
    }
}

/// Runs everything; true if all of it holds.
pub fn run() -> bool {
    let mut tally = Tally::default();
    numbers(&mut tally);
    hall_plan(&mut tally);
    one_tree_per_node(&mut tally);
    wholly_west(&mut tally);
    longest_texts(&mut tally);
    columns::told_by_hand(&mut tally);
    columns::all_short_lines(&mut tally);
    drivers::greatest_excess(&mut tally);
    marks::all_small_boxes(&mut tally);
    days::limits(&mut tally);
    indexed::limits(&mut tally);
    let (mut random, mut lost) = (Random::new(1), 0);
    for _ in 0..4_000 {
        claims(&mut tally, &mut random);
        closures::claims(&mut tally, &mut random);
        columns::claims(&mut tally, &mut random);
        drivers::claims(&mut tally, &mut random);
        marks::claims(&mut tally, &mut random);
        days::claims(&mut tally, &mut random);
        indexed::claims(&mut tally, &mut random);
        lost += usize::from(panels::claims(&mut tally, &mut random));
    }
    tally.expect(lost > 0, "with the yes of one test alone a search with both may lose a route");
    coverage(&mut tally);
    println!("{} passed, {} failed", tally.passed, tally.failed);
    tally.failed == 0
}

/// Spelling and value of numbers.
fn numbers(tally: &mut Tally) {
    for (field, value) in [("0", 0), ("7", 7), ("1000001", 1_000_001), ("4294967297", 4_294_967_297)] {
        tally.expect(number(field.as_bytes()) == Some(value), field);
        let negative = signed_number(format!("-{field}").as_bytes());
        tally.expect(negative == Some(-value).filter(|value| *value != 0), format!("-{field}"));
    }
    for field in ["", "00", "07", "-1", "+1", "1 ", "1\r", "--1", "-", "a"] {
        tally.expect(number(field.as_bytes()).is_none(), field);
    }
    tally.expect(number("9".repeat(60_000).as_bytes()) == Some(i64::MAX), "60,000 digits");
}

/// The arcs of a network that is within the limits.
fn arcs(lent: &Lent) -> Vec<Arc> {
    judge_network(lent, &[]).expect("the network is within the limits")
}

/// 'A hall plan worked through'.
fn hall_plan(tally: &mut Tally) {
    let scratch = Scratch::new();
    let talk = hall::case();
    let net = [("net.gr", hall::GR), ("net.co", hall::CO), ("day.p2p", hall::DAY)];
    let net = net.map(|(name, text)| (name.to_string(), text.as_bytes().to_vec()));
    scratch.write(&[&talk.files[..], &net, &talk_files()].concat());
    tally.expect(listing(&scratch.folder) == hall::LISTING, "the listing of the hall plan");
    tally.expect(journeys(&scratch.folder) == hall::JOURNEYS, "the journeys of the hall plan");

    // What is said of the index has the arcs examined in its replies, which come with the last request.
    for upto in [LANDED.min('h'), LAST] {
        replied(tally, &scratch, &hall::talk(upto), upto);
        for talk in talks(upto) {
            replied(tally, &scratch, &exchanges(talk), upto);
        }
    }

    let mut lent = rows_for_reading();
    (lent.n, lent.m) = read_gr(hall::GR.as_bytes(), &mut lent).expect("the hall plan is accepted");
    tally.expect(read_co(hall::CO.as_bytes(), &mut lent).is_ok(), "the hall plan's places are accepted");
    let s = all_s(4, &arcs(&lent));
    tally.expect(s[0] == [2, 3, 4], "S(1)");
    tally.expect(s[4].is_empty(), "S(5)");
    tally.expect(
        build(&mut lent).is_ok() && lent.boxes[16..20] == [1, 0, 1, 0],
        "S(5) has the mark for its box",
    );
    lent.boxes = [-1_000_000, 1_000_000].repeat(12);
    tally.expect(check(&lent).is_ok(), "every box at the full limits");
}

/// A console of the requests up to a letter replies as a talk says.
fn replied(tally: &mut Tally, scratch: &Scratch, talk: &[(&str, &str)], upto: char) {
    let typed: String = talk.iter().map(|(line, _)| format!("{line}\n")).collect();
    let output = scratch.demanded_upto(typed.as_bytes(), upto);
    let output = String::from_utf8(output).expect("replies are plain text");
    tally.expect(output.lines().count() == talk.len(), "one reply for each line");
    for ((line, reply), answer) in talk.iter().zip(output.lines()) {
        tally.expect(answer == *reply, format!("{line}: {reply}, not {answer}"));
    }
}

/// Learners' error 1: boxes from one tree per node lose both ways to 4, though they hold their heads.
fn one_tree_per_node(tally: &mut Tally) {
    let mut lent = Lent {
        n: 4,
        m: 5,
        tails: vec![1, 2, 1, 2, 3],
        heads: vec![2, 1, 3, 3, 4],
        weights: vec![0, 0, 5, 5, 1],
        x: vec![1, 2, 3, 4],
        y: vec![0; 4],
        // Arcs 1 and 2 hold what the trees from 1 and from 2 reach through them, 3 and 4 only their head.
        boxes: [[2, 4, 0, 0], [1, 4, 0, 0], [3, 3, 0, 0], [3, 3, 0, 0], [4, 4, 0, 0]].concat(),
        route: vec![0; 4],
        closed: vec![0; 5],
        ..Lent::default()
    };
    tally.expect(boxed(&mut lent, 1, 4) == refused(12, &[2]), "from 1 the way to 4 is lost");
    tally.expect(boxed(&mut lent, 2, 4) == refused(12, &[2]), "from 2 the way to 4 is lost");
    // A zero walk returns to 1 through arc 1, so S(1) holds 1; the tree from 1 does not show it.
    tally.expect(check(&lent) == refused(13, &[1, 1]), "check refuses boxes from trees");
    tally.expect(build(&mut lent).is_ok() && check(&lent).is_ok(), "built boxes lose nothing");
    tally.expect(boxed(&mut lent, 1, 4) == search(&mut lent, 1, 4), "the way to 4 is found");
}

/// Learners' error 2: boxes of a plan wholly west of the origin do not reach it.
fn wholly_west(tally: &mut Tally) {
    let mut lent = Lent { n: 2, m: 1, tails: vec![1], heads: vec![2], weights: vec![3], ..Lent::default() };
    (lent.x, lent.y, lent.boxes, lent.closed) = (vec![-9, -7], vec![-5, -5], vec![0; 4], vec![0]);
    tally.expect(build(&mut lent).is_ok(), "a plan wholly west is taken");
    tally.expect(lent.boxes == [-7, -7, -5, -5], "its box is wholly west");
}

/// 01's claims on one random network.
fn claims(tally: &mut Tally, random: &mut Random) {
    let (n, m) = (random.between(1, 7), random.between(0, 14));
    let mut lent = plan(random, n, m);
    let texts = (gr_text(random, &lent), co_text(random, &lent));
    let mut read = rows_for_reading();
    read.closed.fill(7);
    (read.n, read.m) = read_gr(&texts.0, &mut read).unwrap_or((0, 0));
    let (arcs, rest) = read.closed.split_at(m as usize);
    tally.expect(arcs.iter().all(|byte| *byte == 0), "reading gives all open");
    tally.expect(rest.iter().all(|byte| *byte == 7), "the rest of the closures is kept");
    tally.expect(read_co(&texts.1, &mut read).is_ok(), "a plan's texts are accepted");
    tally.expect(read.tails.starts_with(&lent.tails), "tails are read back");
    tally.expect(read.heads.starts_with(&lent.heads), "heads are read back");
    tally.expect(read.weights.starts_with(&lent.weights), "weights are read back");
    tally.expect(read.x.starts_with(&lent.x) && read.y.starts_with(&lent.y), "places are read back");

    written_back(tally, random, &lent);
    rewritten(tally, random, texts);

    tally.expect(check(&lent).is_ok(), "built boxes pass check");
    tally.expect(tight_is_smallest(&lent), "no side of a built box can be moved inward");
    lengths_agree(tally, &lent);
    change_boxes(random, &mut lent);
    if check(&lent).is_ok() {
        searches_agree(tally, &mut lent);
    }
    let asked = ask(random, &lent);
    let old = lent.boxes.clone();
    if lent.m > 0 {
        let updated = update(&mut lent, asked.arc, asked.weight, asked.byte);
        tally.expect(updated.is_ok(), "an update is taken");
        tally.expect(check(&lent).is_ok(), "updated boxes pass check");
        let kept = old.chunks(4).zip(lent.boxes.chunks(4)).all(|(old, new)| {
            let (old, new) = (Rectangle::from_sides(old), Rectangle::from_sides(new));
            old.hull(&new) == new
        });
        tally.expect(kept, "updated boxes hold the old ones");
        searches_agree(tally, &mut lent);
    }
    let (before, reply) = (lent.clone(), search(&mut lent.clone(), asked.s, asked.t));
    add_surplus(random, &mut lent);
    tally.expect(search(&mut lent, asked.s, asked.t) == reply, "surplus is not read");
    tally.expect(lent.boxes.starts_with(&before.boxes), "a search leaves the boxes alone");
}

/// The text that is written, which has room in the lent row.
fn text_of(lent: &mut Lent, write: fn(&mut Lent) -> Result<i64, Refusal>) -> Vec<u8> {
    let length = write(lent).expect("the plan is within the limits, and the row is long enough") as usize;
    lent.text[..length].iter().map(|byte| *byte as u8).collect()
}

/// Reading what was written gives the same network. The exact length is room enough; one place less is refused,
/// and changes nothing; the surplus keeps its contents.
fn written_back(tally: &mut Tally, random: &mut Random, lent: &Lent) {
    let mut roomy = Lent { text: some_bytes(random, 9_000), ..lent.clone() };
    let before = roomy.text.clone();
    let gr = text_of(&mut roomy, write_gr);
    tally.expect(roomy.text[gr.len()..] == before[gr.len()..], "the surplus of the text row is kept");
    let co = text_of(&mut roomy, write_co);
    let mut read = rows_for_reading();
    let sizes = read_gr(&gr, &mut read);
    tally.expect(sizes == Ok((lent.n, lent.m)), "a written graph has the same n and m");
    read.n = lent.n;
    tally.expect(read_co(&co, &mut read).is_ok(), "written places are accepted");
    let first = |row: &[i64], own: &[i64], count: i64| row[..count as usize] == own[..count as usize];
    let arcs = [(&read.tails, &lent.tails), (&read.heads, &lent.heads), (&read.weights, &lent.weights)];
    tally.expect(arcs.iter().all(|(row, own)| first(row, own, lent.m)), "written arcs are read back");
    let places = [(&read.x, &lent.x), (&read.y, &lent.y)];
    tally.expect(places.iter().all(|(row, own)| first(row, own, lent.n)), "written places are read back");
    for (text, write) in [(gr, write_gr as fn(&mut Lent) -> Result<i64, Refusal>), (co, write_co)] {
        let mut exact = Lent { text: vec![7; text.len()], ..lent.clone() };
        tally.expect(text_of(&mut exact, write) == text, "the exact length is room enough");
        let mut short = Lent { text: vec![7; text.len() - 1], ..lent.clone() };
        tally.expect(write(&mut short) == refused(2, &[]), "a place less is not");
        tally.expect(short.text == vec![7; text.len() - 1], "and the row stays as it was");
    }
}

/// Writing what was read gives the same text exactly when it had no comments, ended in byte 10 and, for .co,
/// listed the nodes in ascending order.
fn rewritten(tally: &mut Tally, random: &mut Random, texts: (Vec<u8>, Vec<u8>)) {
    let (mut gr, mut co) = texts;
    for text in [&mut gr, &mut co] {
        if random.once_in(3) {
            text.pop();
        }
    }
    let plain = |text: &[u8]| lines(text).iter().all(|line| fields(line)[0] != b"c") && text.ends_with(b"\n");
    let nodes = |text: &[u8]| -> Vec<i64> {
        let of_nodes = lines(text).into_iter().map(fields).filter(|fields| fields[0] == b"v");
        of_nodes.map(|fields| number(fields[1]).expect("a node has a number")).collect()
    };
    let ascending = nodes(&co).windows(2).all(|pair| pair[0] < pair[1]);
    let mut lent = rows_for_reading();
    lent.text = vec![0; 40_960];
    (lent.n, lent.m) = read_gr(&gr, &mut lent).expect("the text is accepted");
    read_co(&co, &mut lent).expect("the text is accepted");
    tally.expect((text_of(&mut lent, write_gr) == gr) == plain(&gr), "a plain .gr comes back, and no other");
    let same = text_of(&mut lent, write_co) == co;
    tally.expect(same == (plain(&co) && ascending), "a plain .co in order comes back, and no other");
}

/// The longest texts, which a reader takes.
fn longest_texts(tally: &mut Tally) {
    let (n, m) = (NODES as usize, ARCS as usize);
    let mut lent = Lent { n: NODES, m: ARCS, text: vec![0; 40_960], ..Lent::default() };
    (lent.tails, lent.heads, lent.weights) = (vec![NODES; m], vec![NODES; m], vec![WEIGHT; m]);
    (lent.x, lent.y) = (vec![-COORDINATE; n], vec![-COORDINATE; n]);
    tally.expect(write_gr(&mut lent) == Ok(36_878), "the longest .gr has 36,878 bytes");
    tally.expect(write_co(&mut lent) == Ok(12_196), "the longest .co has 12,196 bytes");
    tally.expect(36_878 <= TEXT_BYTES, "and is never too long for a reader");
}

/// Every side of a tight box touches a node of S(e), if there is one.
fn tight_is_smallest(lent: &Lent) -> bool {
    all_s(lent.n as usize, &arcs(lent)).iter().zip(lent.boxes.chunks(4)).all(|(s, sides)| {
        let touched = |row: &[i64], side: i64| s.iter().any(|node| row[node - 1] == side);
        let axes = [&lent.x, &lent.x, &lent.y, &lent.y];
        s.is_empty() || axes.iter().zip(sides).all(|(row, side)| touched(row, *side))
    })
}

/// Lengths by walks of counted arcs and by Floyd and Warshall.
fn lengths_agree(tally: &mut Tally, lent: &Lent) {
    let (n, arcs) = (lent.n as usize, open(&arcs(lent)));
    let d = lengths(n, &arcs);
    for s in 1..=n {
        let labels = labels(n, &arcs, s);
        let lengths: Vec<_> = labels.iter().map(|label| label.map(|(d, _)| d)).collect();
        tally.expect(lengths == d[s], "two ways of computing lengths agree");
    }
}

/// After a pass of check the boxed search equals the plain one in length and route, and the route is a way.
fn searches_agree(tally: &mut Tally, lent: &mut Lent) {
    let arcs = arcs(lent);
    for s in 1..=lent.n {
        for t in 1..=lent.n {
            match (search(lent, s, t), boxed(lent, s, t)) {
                (Ok(plain), Ok(boxed)) => {
                    tally.expect(plain.length == boxed.length, "the searches agree in length");
                    tally.expect(plain.route == boxed.route, "the searches agree in route");
                    let on_route = plain.route.iter().map(|number| &arcs[number - 1]);
                    let end = on_route.clone().fold(Some(s as usize), |at, arc| {
                        at.filter(|at| *at == arc.tail).and(Some(arc.head))
                    });
                    tally.expect(end == Some(t as usize), "the route leads from source to target");
                    tally.expect(on_route.clone().all(|arc| !arc.closed), "the route uses open arcs only");
                    let length: i64 = on_route.map(|arc| arc.weight).sum();
                    tally.expect(length == plain.length, "the route has the length");
                    tally.expect(boxed.settled <= plain.settled, "boxes settle no more nodes");
                }
                (plain, boxed) => {
                    tally.expect(plain.is_err() && boxed.is_err(), "no walk is lost or found by boxes");
                }
            }
        }
    }
}
