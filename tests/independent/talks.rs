//! Talks with the console whose replies are written by hand, by the words and definitions of 01 and 02.

/// The lines of a talk with their replies. A line without `=>` is replied `ok`; `--` begins a remark.
pub fn exchanges(talk: &str) -> Vec<(&str, &str)> {
    let said = talk.lines().filter(|line| !line.is_empty() && !line.starts_with("--"));
    said.map(|line| line.split_once(" => ").unwrap_or((line, "ok"))).collect()
}

/// The talks with a console of the requests up to a letter.
pub fn talks(upto: char) -> impl Iterator<Item = &'static str> {
    const TALKS: [&str; 10] = [WORKED, SMALL, AROUND_ZERO, WRITTEN, CLOSED, WHY, MARKS, DAY, PANEL, INDEX];
    TALKS.into_iter().take(match upto {
        ..='g' => 8,
        'h' => 9,
        _ => 10,
    })
}

/// The files that the talks name besides those of the hall plan.
#[rustfmt::skip]
const FILES: [(&str, &str); 19] = [
    ("empty-day.p2p", "p aux sp p2p 0\n"),
    ("twice.p2p", "p aux sp p2p 3\nc the same query twice, and no byte 10 at the end\nq 1 4\nq 1 4\nq 2 1"),
    ("list-early.p2p", "q 1 4\np aux sp p2p 1\n"),
    ("list-early-outside.p2p", "c\nq 0 9\n"),
    ("list-second.p2p", "p aux sp p2p 1\nq 1 4\np aux sp p2p 1\n"),
    ("list-second-large.p2p", "p aux sp p2p 0\np aux sp p2p 300\n"),
    ("list-large.p2p", "p aux sp p2p 257\n"),
    ("list-huge.p2p", "p aux sp p2p 4294967296\n"),
    ("list-far.p2p", "p aux sp p2p 1\nq 1 5\n"),
    ("list-zero.p2p", "p aux sp p2p 1\nq 0 1\n"),
    ("list-beyond.p2p", "p aux sp p2p 1\nq 1 4\nq 4 1\n"),
    ("list-beyond-outside.p2p", "p aux sp p2p 1\nq 1 4\nq 4 5\n"),
    ("list-few.p2p", "p aux sp p2p 2\nq 1 4\n"),
    ("list-comment.p2p", "c no p line\n"),
    ("list-none.p2p", ""),
    ("list-graph.p2p", "p sp 4 6\n"),
    ("list-letter.p2p", "p aux sp p2p 1\na 1 4 3\n"),
    ("list-missing-field.p2p", "p aux sp p2p 1\nq 1\n"),
    ("list-empty-line.p2p", "p aux sp p2p 1\n\nq 1 4\n"),
];

pub fn talk_files() -> Vec<(String, Vec<u8>)> {
    FILES.map(|(name, text)| (name.to_string(), text.into())).to_vec()
}

/// 'A hall plan worked through', lent by hand into rows of just the places needed.
const WORKED: &str = "\
fresh
n 4
m 6
lend tails 1 2 1 3 1 4
lend heads 2 3 3 4 4 1
lend weights 3 2 5 1 9 4
lend x 0 10 10 -5
lend y 0 0 5 20
lend boxes 7 7 7 7 7 7 7 7 7 7 7 7 7 7 7 7 7 7 7 7 7 7 7 7
lend route 0 0 0 0
lend closed 0 0 0 0 0 0
build
show boxes => boxes -5 10 0 20 -5 10 0 20 -5 10 5 20 -5 10 0 20 1 0 1 0 0 10 0 5
-- Places after the route keep their contents.
search 1 4 => ok 6 2 4 3 4
show route => route 3 4 0 0
boxed 1 4 => ok 6 2 4 3 4
show route => route 3 4 0 0
search 1 2 => ok 3 1 2 1
show route => route 1 4 0 0
boxed 1 2 => ok 3 1 2 1
show route => route 1 4 0 0
search 4 2 => ok 7 2 3 6 1
show route => route 6 1 0 0
boxed 4 2 => ok 7 2 3 6 1
show route => route 6 1 0 0
search 1 1 => ok 0 0 1
boxed 1 1 => ok 0 0 1
show route => route 6 1 0 0
check
-- Arc 3's low raised to 6, then every box at the full limits.
lend boxes -5 10 0 20 -5 10 0 20 -5 10 6 20 -5 10 0 20 -5 -5 20 20 0 10 0 5
check => refused 13 3 3 (the box of arc 3 misses node 3)
lend boxes -1000000 1000000 -1000000 1000000 -1000000 1000000 -1000000 1000000 -1000000 1000000 -1000000 1000000 -1000000 1000000 -1000000 1000000 -1000000 1000000 -1000000 1000000 -1000000 1000000 -1000000 1000000
check
boxed 1 4 => ok 6 2 4 3 4
-- Arc 5 reweighted to 6.
build
update 5 6 0
show weights => weights 3 2 5 1 6 4
show boxes => boxes -5 10 0 20 -5 10 0 20 -5 10 5 20 -5 10 0 20 -5 -5 20 20 0 10 0 5
search 1 4 => ok 6 1 4 5
boxed 1 4 => ok 6 1 4 5
show route => route 5 4 0 0
check
";

/// The hall plan written back: `p sp 4 6`, six arc lines of eight bytes; `p aux sp co 4`, four node lines.
const WRITTEN: &str = "\
fresh
gr hall.gr => ok 4 6
co hall.co
write gr => ok 57
show text 18 => text 112 32 115 112 32 52 32 54 10 97 32 49 32 50 32 51 10 97
write co => ok 50
show text 61 => text 112 32 97 117 120 32 115 112 32 99 111 32 52 10 118 32 49 32 48 32 48 10 118 32 50 32 49 48 32 48 10 118 32 51 32 49 48 32 53 10 118 32 52 32 45 53 32 50 48 10 32 52 32 49 32 52 10 0 0 0 0
-- The exact length is room enough, a place less is not.
lend text 7 7
write gr => refused 2 (a lent row is too short)
show text => text 7 7
n 1
m 0
lend text 7 7 7 7 7 7 7 7
write gr => refused 2 (a lent row is too short)
show text => text 7 7 7 7 7 7 7 7
lend text 7 7 7 7 7 7 7 7 7
write gr => ok 9
show text => text 112 32 115 112 32 49 32 48 10
-- Refusals: 5, then 2 for the number rows, then 8 or 9, last 2. For .co m is not looked at.
lend text
lend tails 1 0
lend heads 1 1
lend weights 0
lend x 1000001
lend y
n 513
m 2
write gr => refused 5 0 (n, m or the new weight is beyond its limits)
write co => refused 5 0 (n, m or the new weight is beyond its limits)
n 1
write gr => refused 2 (a lent row is too short)
write co => refused 2 (a lent row is too short)
lend weights 0 0
lend y 0
write gr => refused 8 2 (arc 2 has a bad node or weight)
write co => refused 9 1 (node 1 has a bad coordinate)
m 1
write gr => refused 2 (a lent row is too short)
m 4294967295
lend x 1000000
write gr => refused 5 0 (n, m or the new weight is beyond its limits)
write co => refused 2 (a lent row is too short)
save co hall-again.co => refused 2 (a lent row is too short)
lend text 0 0 0 0 0 0 0 0 0 0 0 0 0 0 0 0 0 0 0 0 0 0 0 0 0 0 0 0
write co => ok 28
save co missing/hall.co => refused 0 0 (the file cannot be written)
save co . => refused 0 0 (the file cannot be written)
save co hall-again.co => ok 28
show text 2 => text 112 32
fresh
n 1
co hall-again.co
show x 2 => x 1000000 0
";

/// Smaller networks of 01, a triangle, and the errors that learners bring.
const SMALL: &str = "\
-- Two nodes, only arc 2 to 1.
fresh
n 2
m 1
lend tails 2
lend heads 1
lend weights 7
lend route 0 0 0 0
search 1 2 => refused 12 1 (no walk leads from the source to the target, settled 1)
lend weights 0
search 1 2 => refused 12 1 (no walk leads from the source to the target, settled 1)
show route => route 0 0 0 0
-- Arcs 1-2 and 2-1 of weight 0, 1-3 and 2-3 of weight 5.
n 3
m 4
lend tails 1 2 1 2
lend heads 2 1 3 3
lend weights 0 0 5 5
search 1 3 => ok 5 1 3 3
show route => route 3 0 0 0
-- Arcs 1-2, 2-3 and 1-3. With arc 3 slow, arc 1 leads to 3; an update of arc 3 mends the box of arc 1.
n 3
m 3
lend tails 1 2 1
lend heads 2 3 3
lend weights 1 1 5
lend x 0 10 10
lend y 0 0 10
lend boxes 10 10 0 0 10 10 10 10 10 10 10 10
check => refused 13 1 3 (the box of arc 1 misses node 3)
lend weights 1 1 1
lend boxes 7 7 7 7 7 7 7 7 7 7 7 7
build
show boxes 4 => boxes 10 10 0 0
update 3 5 0
show boxes 4 => boxes 10 10 0 10
check
-- Error 1: boxes from one tree per node lose the way to 4.
n 4
m 5
lend tails 1 2 1 2 3
lend heads 2 1 3 3 4
lend weights 0 0 5 5 1
lend x 10 12 0 30
lend y 0 1 0 5
lend boxes 0 30 0 5 0 30 0 5 0 0 0 0 0 0 0 0 30 30 5 5
search 1 4 => ok 6 2 4 3 5
boxed 1 4 => refused 12 2 (no walk leads from the source to the target, settled 2)
check => refused 13 3 4 (the box of arc 3 misses node 4)
-- Error 2: a plan west of the origin.
n 2
m 1
lend tails 1
lend heads 2
lend weights 1
lend x -10 -20
lend y -10 -5
lend boxes 0 0 0 0
build
show boxes => boxes -20 -20 -5 -5
";

/// Boxes begun, grown and asked around zero, and places and boxes at the limits.
const AROUND_ZERO: &str = "\
-- The box of arc 1 at its head alone, wholly west and south; then grown further, and then across zero. The rest stays 7.
fresh
lend tails 1 2 3
lend heads 2 3 4
lend weights 1 1 1
lend x 0 -7 -9 2
lend y 0 -3 -4 1
lend boxes 7 7 7 7 7 7 7 7 7 7 7 7 7
n 2
m 1
build
show boxes => boxes -7 -7 -3 -3 7 7 7 7 7 7 7 7 7
n 3
m 2
build
show boxes => boxes -9 -7 -4 -3 -9 -9 -4 -4 7 7 7 7 7
n 4
m 3
build
show boxes => boxes -9 2 -4 1 -9 2 -4 1 2 2 1 1 7
-- The box of arc 2 grown, and arc 1 back to 1; then from corner to corner.
m 4
lend tails 2 1 2 3
lend heads 1 2 3 4
lend weights 1 1 1 1
lend x 0 -7 -9 -8
lend y 0 -3 -4 -2
lend boxes 7 7 7 7 7 7 7 7 7 7 7 7 7 7 7 7 7
build
show boxes => boxes 0 0 0 0 -9 -7 -4 -2 -9 -8 -4 -2 -8 -8 -2 -2 7
lend x 0 1000000 -1000000 0
lend y 0 -1000000 1000000 0
build
show boxes => boxes 0 0 0 0 -1000000 1000000 -1000000 1000000 -1000000 0 0 1000000 0 0 0 0 7
-- Seven places, each at the end of an arc. Which of them does the box -9 2 -4 1 hold, and which the box 7 7 7 7?
n 8
m 7
lend tails 1 1 1 1 1 1 1
lend heads 2 3 4 5 6 7 8
lend weights 1 1 1 1 1 1 1
lend x 0 0 -9 -10 -9 2 3 2
lend y 0 0 -4 -4 -5 1 1 2
lend boxes -9 2 -4 1 -9 2 -4 1 -9 2 -4 1 -9 2 -4 1 -9 2 -4 1 -9 2 -4 1 -9 2 -4 1
boxed 1 2 => ok 1 1 2 1
boxed 1 3 => ok 1 1 3 2
boxed 1 4 => refused 12 1 (no walk leads from the source to the target, settled 1)
boxed 1 5 => refused 12 1 (no walk leads from the source to the target, settled 1)
boxed 1 6 => ok 1 1 6 5
boxed 1 7 => refused 12 1 (no walk leads from the source to the target, settled 1)
boxed 1 8 => refused 12 1 (no walk leads from the source to the target, settled 1)
lend boxes 7 7 7 7 7 7 7 7 7 7 7 7 7 7 7 7 7 7 7 7 7 7 7 7 7 7 7 7
boxed 1 2 => refused 12 1 (no walk leads from the source to the target, settled 1)
boxed 1 3 => refused 12 1 (no walk leads from the source to the target, settled 1)
boxed 1 4 => refused 12 1 (no walk leads from the source to the target, settled 1)
boxed 1 5 => refused 12 1 (no walk leads from the source to the target, settled 1)
boxed 1 6 => refused 12 1 (no walk leads from the source to the target, settled 1)
boxed 1 7 => refused 12 1 (no walk leads from the source to the target, settled 1)
boxed 1 8 => refused 12 1 (no walk leads from the source to the target, settled 1)
-- Three places, of which one and then two are judged.
m 0
lend x -1000000 1000000 2000000
lend y 1000000 -1000000 2000000
n 1
build
n 2
build
lend x 0 1000001 2000000
lend y 0 0 2000000
n 1
build
n 2
build => refused 9 2 (node 2 has a bad coordinate)
lend x 0 0 2000000
lend y 0 -1000001 2000000
n 1
build
n 2
build => refused 9 2 (node 2 has a bad coordinate)
lend x -1000001 0 2000000
lend y 0 1000001 2000000
n 1
build => refused 9 1 (node 1 has a bad coordinate)
n 2
build => refused 9 1 (node 1 has a bad coordinate)
-- Two boxes, of which one and then both are judged.
n 1
lend tails 1 1
lend heads 1 1
lend weights 0 0
lend x 0
lend y 0
lend boxes -1 0 0 1 -1000000 1000000 -1000000 1000000 2000000
m 1
boxed 1 1 => ok 0 0 1
m 2
boxed 1 1 => ok 0 0 1
lend boxes -1 0 0 1 0 0 0 0 2000000
m 1
boxed 1 1 => ok 0 0 1
m 2
boxed 1 1 => ok 0 0 1
lend boxes -1 0 0 1 1 0 0 0 2000000
m 1
boxed 1 1 => ok 0 0 1
m 2
boxed 1 1 => refused 10 2 (the box of arc 2 is not well shaped)
lend boxes -1 0 0 1 0 0 -1 -2 2000000
m 1
boxed 1 1 => ok 0 0 1
m 2
boxed 1 1 => refused 10 2 (the box of arc 2 is not well shaped)
lend boxes -1 0 0 1 -1000001 0 0 0 2000000
m 1
boxed 1 1 => ok 0 0 1
m 2
boxed 1 1 => refused 10 2 (the box of arc 2 is not well shaped)
lend boxes -1 0 0 1 0 0 0 1000001 2000000
m 1
boxed 1 1 => ok 0 0 1
m 2
boxed 1 1 => refused 10 2 (the box of arc 2 is not well shaped)
";

/// Closed tracks, by request b: on the hall plan, on a triangle, and each refusal of an update in its order.
const CLOSED: &str = "\
fresh
gr hall.gr => ok 4 6
co hall.co
build
-- With arc 3 closed 1 to 4 goes by arcs 1, 2 and 4. The boxes still hold all that they must.
lend closed 0 0 1 0 0 0
search 1 4 => ok 6 3 4 1 2 4
boxed 1 4 => ok 6 3 4 1 2 4
search 1 3 => ok 5 2 3 1 2
check
-- A closed arc's tight box is the mark.
build
show boxes 24 => boxes -5 10 0 20 -5 10 0 20 1 0 1 0 -5 10 0 20 1 0 1 0 0 10 0 5
-- With arcs 1, 3 and 5 closed no way leads from 1.
lend closed 1 0 1 0 1 0
search 1 4 => refused 12 1 (no walk leads from the source to the target, settled 1)
boxed 1 4 => refused 12 1 (no walk leads from the source to the target, settled 1)
search 1 1 => ok 0 0 1
search 2 1 => ok 7 3 4 2 4 6
-- An update closes arc 3; the boxes only grow. Another one opens it, with another time.
lend closed 0 0 0 0 0 0 9
build
update 3 5 1
show weights 6 => weights 3 2 5 1 9 4
show closed => closed 0 0 1 0 0 0 9
show boxes 24 => boxes -5 10 0 20 -5 10 0 20 -5 10 5 20 -5 10 0 20 1 0 1 0 0 10 0 5
check
search 1 4 => ok 6 3 4 1 2 4
boxed 1 4 => ok 6 3 4 1 2 4
update 3 4 0
show weights 6 => weights 3 2 4 1 9 4
show closed => closed 0 0 0 0 0 0 9
boxed 1 4 => ok 5 2 4 3 4
-- Boxes that are right while arc 3 takes 4: arc 1 leads to 2 alone. With arc 3 closed it leads to 3 and 4 too.
build
show boxes 8 => boxes 10 10 0 0 -5 10 0 20
check
lend closed 0 0 1 0 0 0
check => refused 13 1 3 (the box of arc 1 misses node 3)
boxed 1 3 => refused 12 1 (no walk leads from the source to the target, settled 1)
search 1 3 => ok 5 2 3 1 2
lend closed 0 0 0 0 0 0
update 3 4 1
show boxes 24 => boxes -5 10 0 20 -5 10 0 20 -5 10 5 20 -5 10 0 20 1 0 1 0 0 10 0 5
check
boxed 1 3 => ok 5 2 3 1 2
-- Reading gives all open; where it is refused, for a row too short or for the text, nothing changes.
gr hall.gr => refused 2 (a lent row is too short)
show closed => closed 0 0 1 0 0 0
fresh
gr hall.gr => ok 4 6
update 1 3 1
update 2 2 1
show closed 3 => closed 1 1 0
gr minus.gr => refused 16 2 7 (line 2, column 7: the field is misspelt)
show closed 3 => closed 1 1 0
gr hall.gr => ok 4 6
show closed 3 => closed 0 0 0
-- A triangle: an update that closes arc 3 mends the box of arc 1.
n 3
m 3
lend tails 1 2 1
lend heads 2 3 3
lend weights 1 1 1
lend x 0 10 10
lend y 0 0 10
build
lend closed 0 0 1
check => refused 13 1 3 (the box of arc 1 misses node 3)
lend closed 0 0 0
update 3 1 1
show boxes 12 => boxes 10 10 0 10 10 10 10 10 10 10 10 10
show closed => closed 0 0 1
check
-- Weight 1,000,000 is an ordinary time.
n 2
m 1
lend weights 1000000
search 1 2 => ok 1000000 1 2 1
lend closed 1
search 1 2 => refused 12 1 (no walk leads from the source to the target, settled 1)
-- The refusals of an update, one after the other: 5, 2, 8, 14, 9, 10, 11, 5, 14. A closed arc is judged like any other.
n 513
m 2
lend tails 1 3
lend heads 2 2
lend weights 1 1000001
lend closed 1
lend x 0 1000001
lend y 0 0
lend boxes 1 0 0 0 0 0 0 0
update 3 1000001 2 => refused 5 0 (n, m or the new weight is beyond its limits)
n 2
update 3 1000001 2 => refused 2 (a lent row is too short)
lend closed 2 255
update 3 1000001 2 => refused 8 2 (arc 2 has a bad node or weight)
lend tails 1 1
update 3 1000001 2 => refused 8 2 (arc 2 has a bad node or weight)
lend weights 1 1
update 3 1000001 2 => refused 14 1 (the closure of arc 1 is neither 0 nor 1)
lend closed 0 255
update 3 1000001 2 => refused 14 2 (the closure of arc 2 is neither 0 nor 1)
lend closed 0 1
update 3 1000001 2 => refused 9 2 (node 2 has a bad coordinate)
lend x 0 10
update 3 1000001 2 => refused 10 1 (the box of arc 1 is not well shaped)
lend boxes 0 0 0 0 0 0 0 0
update 3 1000001 2 => refused 11 (the source, target or arc is not in the network)
update 1 1000001 2 => refused 5 0 (n, m or the new weight is beyond its limits)
update 1 1000000 2 => refused 14 1 (the closure of arc 1 is neither 0 nor 1)
update 1 1000000 255 => refused 14 1 (the closure of arc 1 is neither 0 nor 1)
update 1 1000000 256 => ? a number is too small or too large for its place
update 1 1000000 => ? a wrong count of words for this command
show weights => weights 1 1
show closed => closed 0 1
show boxes => boxes 0 0 0 0 0 0 0 0
update 1 1000000 1
show weights => weights 1000000 1
show closed => closed 1 1
show boxes => boxes 0 0 0 0 0 0 0 0
update 1 1000000 0
show boxes => boxes 0 10 0 0 0 0 0 0
update 1 1000000 1
show boxes => boxes 0 10 0 0 0 0 0 0
-- Every call on a network is lent a byte for each arc; the writers are lent none.
lend closed 1
search 1 2 => refused 2 (a lent row is too short)
boxed 1 2 => refused 2 (a lent row is too short)
build => refused 2 (a lent row is too short)
check => refused 2 (a lent row is too short)
update 1 1 0 => refused 2 (a lent row is too short)
write gr => ok 31
lend closed 0 2
search 0 0 => refused 14 2 (the closure of arc 2 is neither 0 nor 1)
boxed 0 0 => refused 14 2 (the closure of arc 2 is neither 0 nor 1)
build => refused 14 2 (the closure of arc 2 is neither 0 nor 1)
check => refused 14 2 (the closure of arc 2 is neither 0 nor 1)
write gr => ok 31
";

/// Drivers who ask why, by request e: on the hall plan, with zero times, with loops, and each refusal in its order.
const WHY: &str = "\
fresh
-- The hall plan, in rows that hold the arcs alone. From 1 to 4 arcs 1, 2 and 4 take as long as 3 and 4.
n 4
m 6
lend tails 1 2 1 3 1 4
lend heads 2 3 3 4 4 1
lend weights 3 2 5 1 9 4
lend closed 0 0 0 0 0 0
lend x
lend y
lend boxes
lend route
lend text
why 1 4 1 => ok 4 (an equally short way uses it, and the tie rule picked another)
why 1 4 2 => ok 4 (an equally short way uses it, and the tie rule picked another)
why 1 4 3 => ok 5 (it is on the route)
why 1 4 4 => ok 5 (it is on the route)
why 1 4 5 => ok 3 3 (the best way through it is longer by 3)
why 1 4 6 => ok 3 10 (the best way through it is longer by 10)
-- From 4 to 2, where another arc means a whole round more; and from a node to itself, where the route is empty.
why 4 2 1 => ok 5 (it is on the route)
why 4 2 2 => ok 3 10 (the best way through it is longer by 10)
why 4 2 3 => ok 3 10 (the best way through it is longer by 10)
why 4 2 4 => ok 3 10 (the best way through it is longer by 10)
why 4 2 5 => ok 3 13 (the best way through it is longer by 13)
why 4 2 6 => ok 5 (it is on the route)
why 1 1 1 => ok 3 10 (the best way through it is longer by 10)
why 1 1 5 => ok 3 13 (the best way through it is longer by 13)
why 4 4 6 => ok 3 10 (the best way through it is longer by 10)
-- With arc 3 closed the route goes by arcs 1, 2 and 4; with arc 1 closed too, 2 and 3 cannot be reached.
lend closed 0 0 1 0 0 0
why 1 4 1 => ok 5 (it is on the route)
why 1 4 2 => ok 5 (it is on the route)
why 1 4 3 => ok 1 (the track is closed)
why 1 4 4 => ok 5 (it is on the route)
why 1 4 5 => ok 3 3 (the best way through it is longer by 3)
why 1 4 6 => ok 3 10 (the best way through it is longer by 10)
lend closed 1 0 1 0 0 0
why 1 4 1 => ok 1 (the track is closed)
why 1 4 2 => ok 2 (its start cannot be reached, or the target not from its end)
why 1 4 3 => ok 1 (the track is closed)
why 1 4 4 => ok 2 (its start cannot be reached, or the target not from its end)
why 1 4 5 => ok 5 (it is on the route)
why 1 4 6 => ok 3 13 (the best way through it is longer by 13)
-- With arcs 1, 3 and 5 closed no way leads from 1: that comes before any reason, a closed arc's too.
lend closed 1 0 1 0 1 0
why 1 4 1 => refused 12 1 (no walk leads from the source to the target, settled 1)
why 1 4 2 => refused 12 1 (no walk leads from the source to the target, settled 1)
why 1 4 6 => refused 12 1 (no walk leads from the source to the target, settled 1)
why 2 4 3 => ok 1 (the track is closed)
why 1 1 2 => ok 2 (its start cannot be reached, or the target not from its end)
why 1 1 1 => ok 1 (the track is closed)
why 2 4 6 => ok 2 (its start cannot be reached, or the target not from its end)
why 2 1 6 => ok 5 (it is on the route)
lend closed 1 0 1 0 0 1
why 1 4 2 => ok 2 (its start cannot be reached, or the target not from its end)
why 1 4 6 => ok 1 (the track is closed)
why 2 4 5 => ok 2 (its start cannot be reached, or the target not from its end)
show closed => closed 1 0 1 0 0 1
show weights => weights 3 2 5 1 9 4
show route => route
-- Arcs 1-2 and 2-1 of weight 0, 1-3 and 2-3 of weight 5: a walk may go round before it goes on.
n 3
m 4
lend tails 1 2 1 2
lend heads 2 1 3 3
lend weights 0 0 5 5
lend closed 0 0 0 0
why 1 3 1 => ok 4 (an equally short way uses it, and the tie rule picked another)
why 1 3 2 => ok 4 (an equally short way uses it, and the tie rule picked another)
why 1 3 3 => ok 5 (it is on the route)
why 1 3 4 => ok 4 (an equally short way uses it, and the tie rule picked another)
why 2 3 1 => ok 4 (an equally short way uses it, and the tie rule picked another)
why 2 3 2 => ok 4 (an equally short way uses it, and the tie rule picked another)
why 2 3 3 => ok 4 (an equally short way uses it, and the tie rule picked another)
why 2 3 4 => ok 5 (it is on the route)
why 1 1 1 => ok 4 (an equally short way uses it, and the tie rule picked another)
why 1 1 2 => ok 4 (an equally short way uses it, and the tie rule picked another)
why 1 1 3 => ok 2 (its start cannot be reached, or the target not from its end)
why 1 1 4 => ok 2 (its start cannot be reached, or the target not from its end)
-- Parallel arcs and loops: of two that tie the lower number is on the route, and a loop never is.
n 2
m 6
lend tails 1 1 1 1 1 2
lend heads 2 2 2 1 1 2
lend weights 4 3 3 0 7 0
lend closed 0 0 0 0 0 0
why 1 2 1 => ok 3 1 (the best way through it is longer by 1)
why 1 2 2 => ok 5 (it is on the route)
why 1 2 3 => ok 4 (an equally short way uses it, and the tie rule picked another)
why 1 2 4 => ok 4 (an equally short way uses it, and the tie rule picked another)
why 1 2 5 => ok 3 7 (the best way through it is longer by 7)
why 1 2 6 => ok 4 (an equally short way uses it, and the tie rule picked another)
why 1 1 4 => ok 4 (an equally short way uses it, and the tie rule picked another)
why 1 1 5 => ok 3 7 (the best way through it is longer by 7)
why 1 1 2 => ok 2 (its start cannot be reached, or the target not from its end)
why 2 2 6 => ok 4 (an equally short way uses it, and the tie rule picked another)
why 2 2 4 => ok 2 (its start cannot be reached, or the target not from its end)
lend closed 0 1 0 1 0 1
why 1 2 1 => ok 3 1 (the best way through it is longer by 1)
why 1 2 2 => ok 1 (the track is closed)
why 1 2 3 => ok 5 (it is on the route)
why 1 2 4 => ok 1 (the track is closed)
why 1 2 5 => ok 3 7 (the best way through it is longer by 7)
why 1 2 6 => ok 1 (the track is closed)
-- The refusals one after the other: 5, 2 for each of four rows, 8, 14, 11, 12. The other rows are not looked at.
n 513
m 2
lend tails 1
lend heads 2 2
lend weights 1 1000001
lend closed 2 255
lend x 1000001
lend route 7
why 3 0 3 => refused 5 0 (n, m or the new weight is beyond its limits)
n 2
m 2049
why 3 0 3 => refused 5 0 (n, m or the new weight is beyond its limits)
m 2
why 3 0 3 => refused 2 (a lent row is too short)
lend tails 1 3
lend heads 2
why 3 0 3 => refused 2 (a lent row is too short)
lend heads 2 2
lend weights 1
why 3 0 3 => refused 2 (a lent row is too short)
lend weights 1 1000001
lend closed 2
why 3 0 3 => refused 2 (a lent row is too short)
lend closed 2 255
why 3 0 3 => refused 8 2 (arc 2 has a bad node or weight)
lend tails 1 1
why 3 0 3 => refused 8 2 (arc 2 has a bad node or weight)
lend weights 1 1
why 3 0 3 => refused 14 1 (the closure of arc 1 is neither 0 nor 1)
lend closed 1 2
why 3 0 3 => refused 14 2 (the closure of arc 2 is neither 0 nor 1)
lend closed 1 1
why 3 0 3 => refused 11 (the source, target or arc is not in the network)
why 3 2 1 => refused 11 (the source, target or arc is not in the network)
why 0 2 1 => refused 11 (the source, target or arc is not in the network)
why 1 0 1 => refused 11 (the source, target or arc is not in the network)
why 1 3 2 => refused 11 (the source, target or arc is not in the network)
why 1 2 0 => refused 11 (the source, target or arc is not in the network)
why 1 2 3 => refused 11 (the source, target or arc is not in the network)
why 1 2 4294967295 => refused 11 (the source, target or arc is not in the network)
why 4294967295 1 1 => refused 11 (the source, target or arc is not in the network)
why 1 2 1 => refused 12 1 (no walk leads from the source to the target, settled 1)
why 2 1 2 => refused 12 1 (no walk leads from the source to the target, settled 1)
why 1 1 1 => ok 1 (the track is closed)
lend closed 0 1
why 2 1 1 => refused 12 1 (no walk leads from the source to the target, settled 1)
why 1 2 1 => ok 5 (it is on the route)
why 1 2 2 => ok 1 (the track is closed)
why 2 2 1 => ok 2 (its start cannot be reached, or the target not from its end)
m 0
why 1 1 1 => refused 11 (the source, target or arc is not in the network)
why 1 2 1 => refused 11 (the source, target or arc is not in the network)
show route => route 7
show closed => closed 0 1
-- Exactly three numbers, judged like other numbers without sign.
why => ? a wrong count of words for this command
why 1 2 => ? a wrong count of words for this command
why 1 2 1 1 => ? a wrong count of words for this command
why 1 2 boxes => ? a number is misspelt
why 01 2 1 => ? a number is misspelt
why 1 -2 1 => ? a number is misspelt
why 1 2 4294967296 => ? a number is too small or too large for its place
why 4294967296 x 1 => ? a number is too small or too large for its place
why x 2 4294967296 => ? a number is misspelt
";

/// Tracks that lead nowhere, by request f: the mark built, held by, checked, updated, and what is nearly it.
const MARKS: &str = "\
fresh
-- Arc 5 of the hall plan is never on a shortest route. Any well-shaped box of it passes: the mark, its head, the limits.
gr hall.gr => ok 4 6
co hall.co
build
show boxes 28 => boxes -5 10 0 20 -5 10 0 20 -5 10 5 20 -5 10 0 20 1 0 1 0 0 10 0 5 0 0 0 0
check
lend boxes -5 10 0 20 -5 10 0 20 -5 10 5 20 -5 10 0 20 -5 -5 20 20 0 10 0 5
check
lend boxes -5 10 0 20 -5 10 0 20 -5 10 5 20 -5 10 0 20 -1000000 1000000 -1000000 1000000 0 10 0 5
check
lend boxes -5 10 0 20 -5 10 0 20 1 0 1 0 -5 10 0 20 1 0 1 0 0 10 0 5
check => refused 13 3 3 (the box of arc 3 misses node 3)
boxed 1 3 => ok 5 2 3 1 2
lend boxes 1 0 1 0 1 0 1 0 1 0 1 0 1 0 1 0 1 0 1 0 1 0 1 0
check => refused 13 1 2 (the box of arc 1 misses node 2)
boxed 1 4 => refused 12 1 (no walk leads from the source to the target, settled 1)
boxed 4 4 => ok 0 0 1
-- The mark holds no place: not 0, not 1, not those between or beyond, not those at the limits.
n 10
m 9
lend tails 1 1 1 1 1 1 1 1 1
lend heads 2 3 4 5 6 7 8 9 10
lend weights 1 1 1 1 1 1 1 1 1
lend x 0 0 1 0 1 2 -1 5 1000000 -1000000
lend y 0 0 0 1 1 2 -1 -5 1000000 -1000000
lend closed 0 0 0 0 0 0 0 0 0
lend boxes 1 0 1 0 1 0 1 0 1 0 1 0 1 0 1 0 1 0 1 0 1 0 1 0 1 0 1 0 1 0 1 0 1 0 1 0
boxed 1 2 => refused 12 1 (no walk leads from the source to the target, settled 1)
boxed 1 3 => refused 12 1 (no walk leads from the source to the target, settled 1)
boxed 1 4 => refused 12 1 (no walk leads from the source to the target, settled 1)
boxed 1 5 => refused 12 1 (no walk leads from the source to the target, settled 1)
boxed 1 6 => refused 12 1 (no walk leads from the source to the target, settled 1)
boxed 1 7 => refused 12 1 (no walk leads from the source to the target, settled 1)
boxed 1 8 => refused 12 1 (no walk leads from the source to the target, settled 1)
boxed 1 9 => refused 12 1 (no walk leads from the source to the target, settled 1)
boxed 1 10 => refused 12 1 (no walk leads from the source to the target, settled 1)
build
show boxes => boxes 0 0 0 0 1 1 0 0 0 0 1 1 1 1 1 1 2 2 2 2 -1 -1 -1 -1 5 5 -5 -5 1000000 1000000 1000000 1000000 -1000000 -1000000 -1000000 -1000000
-- Loops: one of weight 1 leads nowhere, one of weight 0 leads to its own end.
n 1
m 2
lend tails 1 1
lend heads 1 1
lend weights 1 0
build
show boxes 8 => boxes 1 0 1 0 0 0 0 0
-- Marks updated, arcs 1-2, 2-3 and 1-3. A mark takes the tight box; it stays where that is a mark too.
n 3
m 3
lend tails 1 2 1
lend heads 2 3 3
lend weights 1 1 5
lend x 0 10 10
lend y 0 0 10
lend closed 0 0 0
lend boxes 1 0 1 0 1 0 1 0 1 0 1 0 1 0 1 0
update 1 1 0
show boxes => boxes 10 10 0 10 10 10 10 10 1 0 1 0 1 0 1 0
check
-- Arc 3 given a time that ties: its mark takes the box of 3. Then closed: a box only grows, so this one stays.
update 3 2 0
show boxes 12 => boxes 10 10 0 10 10 10 10 10 10 10 10 10
update 3 2 1
show boxes 12 => boxes 10 10 0 10 10 10 10 10 10 10 10 10
build
show boxes 12 => boxes 10 10 0 10 10 10 10 10 1 0 1 0
update 3 2 1
show boxes 12 => boxes 10 10 0 10 10 10 10 10 1 0 1 0
-- Places west and south: no side of the mark is kept.
lend x -10 -20 -30
lend y -10 -20 -30
lend boxes 1 0 1 0 1 0 1 0 1 0 1 0
update 3 0 0
show boxes => boxes -20 -20 -20 -20 -30 -30 -30 -30 -30 -30 -30 -30
lend boxes -20 -20 -20 -20 -30 -30 -30 -30 1 0 1 0
check => refused 13 3 3 (the box of arc 3 misses node 3)
boxed 1 3 => refused 12 1 (no walk leads from the source to the target, settled 1)
search 1 3 => ok 0 1 2 3
-- All closed: all marks, and check says yes.
lend closed 1 1 1
build
show boxes => boxes 1 0 1 0 1 0 1 0 1 0 1 0
check
update 1 1 0
show boxes => boxes -20 -20 -20 -20 1 0 1 0 1 0 1 0
-- Every other box with reversed sides is 10, the lowest such arc being told.
lend boxes 1 0 1 1 1 0 0 0 0 0 1 0
check => refused 10 1 (the box of arc 1 is not well shaped)
update 1 1 0 => refused 10 1 (the box of arc 1 is not well shaped)
boxed 1 1 => refused 10 1 (the box of arc 1 is not well shaped)
lend boxes 1 0 1 0 1 0 0 0 0 0 1 0
check => refused 10 2 (the box of arc 2 is not well shaped)
lend boxes 1 0 1 0 1 0 1 0 0 0 1 0
check => refused 10 3 (the box of arc 3 is not well shaped)
lend boxes 1 0 1 0 1 0 1 0 1 0 2 1
boxed 1 1 => refused 10 3 (the box of arc 3 is not well shaped)
lend boxes 1 0 1 0 1 0 1 0 -1 -2 -1 -2
boxed 1 1 => refused 10 3 (the box of arc 3 is not well shaped)
lend boxes 1 0 1 0 1 0 1 0 2 1 2 1
boxed 1 1 => refused 10 3 (the box of arc 3 is not well shaped)
lend boxes 1 0 1 0 1 0 1 0 0 1 1 0
boxed 1 1 => refused 10 3 (the box of arc 3 is not well shaped)
lend boxes 1 0 1 0 1 0 1 0 1 0 0 1
boxed 1 1 => refused 10 3 (the box of arc 3 is not well shaped)
lend boxes 1 0 1 0 1 0 1 0 1 0 1 -1
boxed 1 1 => refused 10 3 (the box of arc 3 is not well shaped)
lend boxes 0 1 0 1 1 0 1 0 1 0 1 0
boxed 1 1 => ok 0 0 1
show boxes => boxes 0 1 0 1 1 0 1 0 1 0 1 0
";

/// A day's running list, by request g: on the hall plan, with closures and other boxes, and each refusal in its order.
const DAY: &str = "\
fresh
gr hall.gr => ok 4 6
co hall.co
build
p2p hall.p2p => ok 4 0 16
show answers 6 => answers 6 3 7 0 0 0
p2p twice.p2p => ok 3 0 19
show answers 6 => answers 6 6 7 0 0 0
p2p empty-day.p2p => ok 0 0 0
show answers 6 => answers 6 6 7 0 0 0
-- With arcs 1, 3 and 5 closed no way leads from 1. No route row is needed, and none is written.
lend route
lend closed 1 0 1 0 1 0
p2p hall.p2p => ok 1 3 0
show answers 6 => answers 4294967295 4294967295 4294967295 0 0 0
p2p twice.p2p => ok 1 2 7
show answers 6 => answers 4294967295 4294967295 7 0 0 0
show route => route
-- The boxes decide, checked or not: with the mark for arc 4 the way from 1 to 4 is arc 5, with marks for all there is none.
lend closed 0 0 0 0 0 0
lend boxes -5 10 0 20 -5 10 0 20 -5 10 5 20 1 0 1 0 -5 -5 20 20 0 10 0 5
p2p hall.p2p => ok 4 0 19
show answers 4 => answers 9 3 7 0
lend boxes 1 0 1 0 1 0 1 0 1 0 1 0 1 0 1 0 1 0 1 0 1 0 1 0
p2p hall.p2p => ok 1 3 0
-- The text's refusals. Nothing changes.
p2p list-early.p2p => refused 4 1 (line 1 is data before the p line or a second p line)
p2p list-early-outside.p2p => refused 4 2 (line 2 is data before the p line or a second p line)
p2p list-second.p2p => refused 4 3 (line 3 is data before the p line or a second p line)
p2p list-second-large.p2p => refused 4 2 (line 2 is data before the p line or a second p line)
p2p list-large.p2p => refused 5 1 (a number in line 1 is beyond its limits)
p2p list-huge.p2p => refused 5 1 (a number in line 1 is beyond its limits)
p2p list-far.p2p => refused 5 2 (a number in line 2 is beyond its limits)
p2p list-zero.p2p => refused 5 2 (a number in line 2 is beyond its limits)
p2p list-beyond.p2p => refused 6 3 (the counts disagree at line 3)
p2p list-beyond-outside.p2p => refused 5 3 (a number in line 3 is beyond its limits)
p2p list-few.p2p => refused 6 3 (the counts disagree at line 3)
p2p list-comment.p2p => refused 6 2 (the counts disagree at line 2)
p2p list-none.p2p => refused 6 1 (the counts disagree at line 1)
p2p list-graph.p2p => refused 16 1 3 (line 1, column 3: the field is misspelt)
p2p hall.gr => refused 16 2 3 (line 2, column 3: the field is misspelt)
p2p hall.co => refused 16 1 10 (line 1, column 10: the field is misspelt)
p2p list-letter.p2p => refused 15 2 1 (line 2, column 1: no line of this kind of file begins so)
p2p list-missing-field.p2p => refused 17 2 4 (line 2, column 4: a field is missing or one too many)
p2p list-empty-line.p2p => refused 3 2 1 (line 2 is empty)
p2p missing.p2p => refused 0 0 (the file cannot be read)
show answers 6 => answers 4294967295 4294967295 4294967295 0 0 0
-- The order: 2 for the answers, 5 for n, the lines, 5 for m, 2 for the other rows, 8, 14, 9, 10.
n 513
m 2049
lend answers 7 7 7
lend tails 1 2 1 3 1
lend weights 3 2 5 1 9 1000001
lend closed 0 0 0 0 0 2
lend x 0 10 10 1000001
lend boxes -5 10 0 20 -5 10 0 20 -5 10 5 20 -5 10 0 20 1 0 1 0 1 0 1 1
p2p list-few.p2p => refused 2 (a lent row is too short)
show answers => answers 7 7 7
fresh
n 513
m 2049
lend tails 1 2 1 3 1
lend heads 2 3 3 4 4 1
lend weights 3 2 5 1 9 1000001
lend closed 0 0 0 0 0 2
lend x 0 10 10 1000001
lend y 0 0 5 20
lend boxes -5 10 0 20 -5 10 0 20 -5 10 5 20 -5 10 0 20 1 0 1 0 1 0 1 1
p2p list-few.p2p => refused 5 0 (n, m or the new weight is beyond its limits)
n 4
p2p list-few.p2p => refused 6 3 (the counts disagree at line 3)
p2p hall.p2p => refused 5 0 (n, m or the new weight is beyond its limits)
m 6
p2p list-few.p2p => refused 6 3 (the counts disagree at line 3)
p2p hall.p2p => refused 2 (a lent row is too short)
lend tails 1 2 1 3 1 4
p2p list-few.p2p => refused 6 3 (the counts disagree at line 3)
p2p hall.p2p => refused 8 6 (arc 6 has a bad node or weight)
lend weights 3 2 5 1 9 4
p2p hall.p2p => refused 14 6 (the closure of arc 6 is neither 0 nor 1)
lend closed 0 0 0 0 0 0
p2p hall.p2p => refused 9 4 (node 4 has a bad coordinate)
lend x 0 10 10 -5
p2p hall.p2p => refused 10 6 (the box of arc 6 is not well shaped)
p2p list-zero.p2p => refused 5 2 (a number in line 2 is beyond its limits)
p2p empty-day.p2p => refused 10 6 (the box of arc 6 is not well shaped)
show answers 3 => answers 0 0 0
lend boxes -5 10 0 20 -5 10 0 20 -5 10 5 20 -5 10 0 20 1 0 1 0 0 10 0 5
p2p hall.p2p => ok 4 0 16
show answers 6 => answers 6 3 7 0 0 0
-- One word, the file's name.
p2p => ? a wrong count of words for this command
p2p hall.p2p 4 => ? a wrong count of words for this command
";

/// Modules, masks and lamps, by request h: on the hall plan, with one yes of two, and each refusal in its order.
const PANEL: &str = "\
fresh
-- The hall plan, its nodes in modules 1, 2, 3 and 32. Masks alone are lent no coordinates and no boxes.
gr hall.gr => ok 4 6
lend x
lend y
lend boxes
lend modules 1 2 3 32
lend masks 9 9 9 9 9 9 9
build masks
show masks => masks 2147483654 2147483653 2147483652 2147483651 0 7 9
check masks
search 1 4 masks => ok 6 2 4 3 4
search 1 2 masks => ok 3 1 2 1
search 4 2 masks => ok 7 2 3 6 1
search 1 1 masks => ok 0 0 1
show route 3 => route 6 1 0
-- With 2, 3 and 4 in one module a mask that has it passes toward all of them.
lend modules 1 2 2 2
build masks
show masks 6 => masks 2 3 2 3 0 3
search 1 2 masks => ok 3 1 2 1
search 1 3 masks => ok 5 1 3 3
search 3 1 masks => ok 5 2 3 4 6
-- A larger mask passes too, and bits of modules without nodes are no fault. A smaller one does not.
lend masks 4294967295 4294967295 4294967295 4294967295 4294967295 4294967295
check masks
lend masks 2 3 0 3 0 3
check masks => refused 13 3 3 (the box of arc 3 misses node 3)
search 1 3 masks => ok 5 2 3 1 2
-- The mask of a closed arc is 0, whatever its head.
lend closed 0 0 1 0 0 0
lend masks 1 1 1 1 1 1
build masks
show masks 6 => masks 2 3 0 3 0 3
check masks
lend closed 0 0 0 0 0 0
check masks => refused 13 3 3 (the box of arc 3 misses node 3)
-- Both tests, both with their yes.
fresh
gr hall.gr => ok 4 6
co hall.co
build boxes
show boxes 24 => boxes -5 10 0 20 -5 10 0 20 -5 10 5 20 -5 10 0 20 1 0 1 0 0 10 0 5
lend modules 1 2 3 32
build masks
check boxes masks
search 1 4 boxes masks => ok 6 2 4 3 4
search 4 2 boxes masks => ok 7 2 3 6 1
search 1 4 boxes => ok 6 2 4 3 4
-- Only the boxes have their yes: with the mask 0 for arc 4 the way from 1 to 4 is lost.
lend masks 2147483654 2147483653 2147483652 0 0 7
check boxes
check masks => refused 13 4 1 (the box of arc 4 misses node 1)
check boxes masks => refused 13 4 1 (the box of arc 4 misses node 1)
search 1 4 boxes => ok 6 2 4 3 4
search 1 4 masks => refused 12 3 (no walk leads from the source to the target, settled 3)
search 1 4 boxes masks => refused 12 3 (no walk leads from the source to the target, settled 3)
-- Only the masks have theirs.
build masks
lend boxes -5 10 0 20 -5 10 0 20 -5 10 5 20 1 0 1 0 1 0 1 0 0 10 0 5
check masks
check boxes => refused 13 4 1 (the box of arc 4 misses node 1)
check boxes masks => refused 13 4 1 (the box of arc 4 misses node 1)
search 1 4 masks => ok 6 2 4 3 4
search 1 4 boxes masks => refused 12 3 (no walk leads from the source to the target, settled 3)
-- Where both kinds are checked the boxes come first, though a lower arc has the wrong mask.
lend masks 0 0 0 0 0 0
check boxes masks => refused 13 4 1 (the box of arc 4 misses node 1)
check masks => refused 13 1 2 (the box of arc 1 misses node 2)
build
check boxes masks => refused 13 1 2 (the box of arc 1 misses node 2)
-- An update changes no masks: those of before need not pass.
build masks
update 5 6 0
show masks 6 => masks 2147483654 2147483653 2147483652 2147483651 0 7
check boxes
check masks => refused 13 5 4 (the box of arc 5 misses node 4)
search 1 4 masks => ok 6 2 4 3 4
search 1 4 boxes => ok 6 1 4 5
search 1 4 boxes masks => ok 6 2 4 3 4
build masks
show masks 6 => masks 2147483654 2147483653 2147483652 2147483651 2147483648 7
search 1 4 boxes masks => ok 6 1 4 5
-- The refusals one after the other: 5, 2, 8, 14, 9, 18, 10, 11, 12. With masks alone no coordinate and no box is judged.
n 513
m 1
lend tails 3
lend heads 2
lend weights 1
lend closed 2
lend x 0 1000001
lend y 0 0
lend modules 1
lend masks 0
lend boxes 1 0 0 0
lend route 9 9
build masks => refused 5 0 (n, m or the new weight is beyond its limits)
check masks => refused 5 0 (n, m or the new weight is beyond its limits)
check boxes masks => refused 5 0 (n, m or the new weight is beyond its limits)
search 3 3 masks => refused 5 0 (n, m or the new weight is beyond its limits)
search 3 3 boxes masks => refused 5 0 (n, m or the new weight is beyond its limits)
n 2
build masks => refused 2 (a lent row is too short)
check masks => refused 2 (a lent row is too short)
check boxes masks => refused 2 (a lent row is too short)
search 3 3 masks => refused 2 (a lent row is too short)
search 3 3 boxes masks => refused 2 (a lent row is too short)
lend modules 1 33
lend masks
build masks => refused 2 (a lent row is too short)
check masks => refused 2 (a lent row is too short)
check boxes masks => refused 2 (a lent row is too short)
search 3 3 masks => refused 2 (a lent row is too short)
search 3 3 boxes masks => refused 2 (a lent row is too short)
lend masks 0
build masks => refused 8 1 (arc 1 has a bad node or weight)
check masks => refused 8 1 (arc 1 has a bad node or weight)
check boxes masks => refused 8 1 (arc 1 has a bad node or weight)
search 3 3 masks => refused 8 1 (arc 1 has a bad node or weight)
search 3 3 boxes masks => refused 8 1 (arc 1 has a bad node or weight)
lend tails 1
build masks => refused 14 1 (the closure of arc 1 is neither 0 nor 1)
check masks => refused 14 1 (the closure of arc 1 is neither 0 nor 1)
check boxes masks => refused 14 1 (the closure of arc 1 is neither 0 nor 1)
search 3 3 masks => refused 14 1 (the closure of arc 1 is neither 0 nor 1)
search 3 3 boxes masks => refused 14 1 (the closure of arc 1 is neither 0 nor 1)
lend closed 0
build masks => refused 18 2 (the module of node 2 is outside 1 to 32)
check masks => refused 18 2 (the module of node 2 is outside 1 to 32)
check boxes masks => refused 9 2 (node 2 has a bad coordinate)
search 3 3 masks => refused 18 2 (the module of node 2 is outside 1 to 32)
search 3 3 boxes masks => refused 9 2 (node 2 has a bad coordinate)
lend x 0 10
build masks => refused 18 2 (the module of node 2 is outside 1 to 32)
check masks => refused 18 2 (the module of node 2 is outside 1 to 32)
check boxes masks => refused 18 2 (the module of node 2 is outside 1 to 32)
search 3 3 masks => refused 18 2 (the module of node 2 is outside 1 to 32)
search 3 3 boxes masks => refused 18 2 (the module of node 2 is outside 1 to 32)
lend modules 0 33
build masks => refused 18 1 (the module of node 1 is outside 1 to 32)
check masks => refused 18 1 (the module of node 1 is outside 1 to 32)
check boxes masks => refused 18 1 (the module of node 1 is outside 1 to 32)
search 3 3 masks => refused 18 1 (the module of node 1 is outside 1 to 32)
search 3 3 boxes masks => refused 18 1 (the module of node 1 is outside 1 to 32)
lend modules 1 4294967295
build masks => refused 18 2 (the module of node 2 is outside 1 to 32)
check masks => refused 18 2 (the module of node 2 is outside 1 to 32)
check boxes masks => refused 18 2 (the module of node 2 is outside 1 to 32)
search 3 3 masks => refused 18 2 (the module of node 2 is outside 1 to 32)
search 3 3 boxes masks => refused 18 2 (the module of node 2 is outside 1 to 32)
lend modules 1 32
check masks => refused 13 1 2 (the box of arc 1 misses node 2)
check boxes masks => refused 10 1 (the box of arc 1 is not well shaped)
search 3 3 masks => refused 11 (the source, target or arc is not in the network)
search 3 3 boxes masks => refused 10 1 (the box of arc 1 is not well shaped)
build masks
show masks => masks 2147483648
lend boxes 1 0 1 0
search 3 3 boxes masks => refused 11 (the source, target or arc is not in the network)
search 0 1 masks => refused 11 (the source, target or arc is not in the network)
search 1 0 boxes masks => refused 11 (the source, target or arc is not in the network)
search 1 2 boxes masks => refused 12 1 (no walk leads from the source to the target, settled 1)
search 2 1 masks => refused 12 1 (no walk leads from the source to the target, settled 1)
check boxes masks => refused 13 1 2 (the box of arc 1 misses node 2)
build boxes
check boxes masks
search 1 2 boxes masks => ok 1 1 2 1
show route => route 1 9
lend route 9
search 1 2 masks => refused 2 (a lent row is too short)
search 1 2 boxes masks => refused 2 (a lent row is too short)
check boxes masks
lend route 9 9
lend y 0
search 1 2 masks => ok 1 1 2 1
search 1 2 boxes masks => refused 2 (a lent row is too short)
check boxes masks => refused 2 (a lent row is too short)
check masks
-- The panel: how many modules, and which, lowest first. The rest keeps its contents.
fresh
lamps 0 => ok 0
show lamps 2 => lamps 0 0
lamps 1 => ok 1
show lamps 2 => lamps 1 0
lamps 2147483648 => ok 1
show lamps 2 => lamps 32 0
lamps 2147483654 => ok 3
show lamps 4 => lamps 2 3 32 0
lamps 5 => ok 2
show lamps 4 => lamps 1 3 32 0
lamps 4294967295 => ok 32
show lamps 34 => lamps 1 2 3 4 5 6 7 8 9 10 11 12 13 14 15 16 17 18 19 20 21 22 23 24 25 26 27 28 29 30 31 32 0 0
lamps 2863311530 => ok 16
show lamps 18 => lamps 2 4 6 8 10 12 14 16 18 20 22 24 26 28 30 32 17 18
lend lamps 7 7 7 7 7 7 7 7 7 7 7 7 7 7 7 7 7 7 7 7 7 7 7 7 7 7 7 7 7 7 7
lamps 0 => refused 2 (a lent row is too short)
lamps 3 => refused 2 (a lent row is too short)
show lamps => lamps 7 7 7 7 7 7 7 7 7 7 7 7 7 7 7 7 7 7 7 7 7 7 7 7 7 7 7 7 7 7 7
lend lamps 7 7 7 7 7 7 7 7 7 7 7 7 7 7 7 7 7 7 7 7 7 7 7 7 7 7 7 7 7 7 7 7
lamps 3 => ok 2
show lamps 4 => lamps 1 2 7 7
lamps 4294967296 => ? a number is too small or too large for its place
lamps -1 => ? a number is misspelt
lamps => ? a wrong count of words for this command
lamps 1 2 => ? a wrong count of words for this command
-- The words stand in their order, each once.
search 1 1 masks boxes => ? no such command, help names them
search 1 1 masks masks => ? no such command, help names them
search 1 1 boxes masks x => ? no such command, help names them
search x 1 y => ? no such command, help names them
search x 1 masks => ? a number is misspelt
search 1 masks => ? a number is misspelt
search masks => ? a wrong count of words for this command
boxed 1 1 masks => ? a wrong count of words for this command
check masks boxes => ? no such command, help names them
check x => ? no such command, help names them
build boxes masks => ? no such command, help names them
build x => ? no such command, help names them
";

/// The index by starting point, by requests i and j: on the hall plan, indexes that are others, each refusal in its order, and
/// the arcs examined.
const INDEX: &str = "\
fresh
-- The hall plan: three arcs leave 1, and one each of the others. The index is built without closures, a search needs them.
gr hall.gr => ok 4 6
co hall.co
lend closed
build index
show offsets 6 => offsets 0 3 4 5 6 0
show order 7 => order 1 3 5 2 4 6 0
search 1 4 index => refused 2 (a lent row is too short)
lend closed 0 0 0 0 0 0
search 1 4 index => ok 6 2 4 5 3 4
search 1 2 index => ok 3 1 2 3 1
search 4 2 index => ok 7 2 3 4 6 1
search 1 1 index => ok 0 0 1 0
build
search 1 4 boxes index => ok 6 2 4 5 3 4
lend modules 1 2 3 32
build masks
search 1 4 masks index => ok 6 2 4 5 3 4
search 1 4 boxes masks index => ok 6 2 4 5 3 4
show route 3 => route 3 4 0
-- Closures and weight changes leave it valid.
update 3 5 1
search 1 4 index => ok 6 3 4 5 1 2 4
update 5 6 0
search 1 4 index => ok 6 1 4 5 5
search 1 4 boxes index => ok 6 1 4 5 5
lend closed 1 0 1 0 1 0
search 1 4 index => refused 12 1 3 (no walk leads from the source to the target, settled 1)
search 1 4 boxes index => refused 12 1 3 (no walk leads from the source to the target, settled 1)
-- Any other index is 19; what stands behind it is not read.
lend closed 0 0 0 0 0 0
lend order 3 1 5 2 4 6
search 1 4 index => refused 19 (the index is not the one of this network)
lend order 1 3 5 2 6 4
search 1 4 index => refused 19 (the index is not the one of this network)
lend order 1 3 5 2 4 4
search 1 4 index => refused 19 (the index is not the one of this network)
lend order 0 2 4 1 3 5
search 1 4 index => refused 19 (the index is not the one of this network)
lend order 1 3 5 2 4 6 4294967295
search 1 4 index => ok 6 1 4 5 5
lend offsets 0 3 4 5 5
search 1 4 index => refused 19 (the index is not the one of this network)
lend offsets 1 3 4 5 6
search 1 4 index => refused 19 (the index is not the one of this network)
lend offsets 1 4 5 6 7
search 1 4 index => refused 19 (the index is not the one of this network)
lend offsets 0 3 4 5 6 9
search 1 4 index => ok 6 1 4 5 5
-- n + 1 and m places are needed.
lend offsets 0 3 4 5
search 1 4 index => refused 2 (a lent row is too short)
search 1 4 => ok 6 1 4 5
build index => refused 2 (a lent row is too short)
lend offsets 9 9 9 9 9
lend order 1 3 5 2 4
search 1 4 index => refused 2 (a lent row is too short)
build index => refused 2 (a lent row is too short)
show offsets => offsets 9 9 9 9 9
lend order 9 9 9 9 9 9
build index
show offsets => offsets 0 3 4 5 6
show order => order 1 3 5 2 4 6
-- Nodes that no arc leaves, at either end and between; and no arcs at all.
n 5
m 3
lend tails 4 2 4
lend heads 1 1 2
lend weights 0 0 0
lend offsets 9 9 9 9 9 9 9
lend order 9 9 9 9
build index
show offsets => offsets 0 0 1 1 3 3 9
show order => order 2 1 3 9
search 4 1 index => ok 0 1 2 2 1
search 1 4 index => refused 12 1 0 (no walk leads from the source to the target, settled 1)
n 1
m 0
lend offsets 9 9 9
lend order 9
build index
show offsets => offsets 0 0 9
show order => order 9
search 1 1 index => ok 0 0 1 0
-- Building reads all three arc rows: 5, 2 for each of five rows, 8. Nothing changes.
n 513
m 1
lend tails 3
lend heads
lend weights 1000001
lend closed
lend offsets 7 7
lend order
build index => refused 5 0 (n, m or the new weight is beyond its limits)
n 2
m 2049
build index => refused 5 0 (n, m or the new weight is beyond its limits)
m 1
build index => refused 2 (a lent row is too short)
lend heads 2
build index => refused 2 (a lent row is too short)
lend offsets 7 7 7
build index => refused 2 (a lent row is too short)
lend order 7
build index => refused 8 1 (arc 1 has a bad node or weight)
lend tails 1
build index => refused 8 1 (arc 1 has a bad node or weight)
lend tails
lend weights 1
build index => refused 2 (a lent row is too short)
lend tails 1
lend weights
build index => refused 2 (a lent row is too short)
show offsets => offsets 7 7 7
show order => order 7
lend weights 1000000
-- The refusals of searches one after the other: 5, 2, 8, 14, 19, 9, 18, 10, 11, 12.
n 513
lend tails 3
lend closed 2
lend x 0 1000001
lend y 0 0
lend modules 1 33
lend masks 2147483648
lend boxes 1 0 0 0
lend route 9 9
lend offsets 7 7
search 3 3 index => refused 5 0 (n, m or the new weight is beyond its limits)
search 3 3 boxes index => refused 5 0 (n, m or the new weight is beyond its limits)
search 3 3 masks index => refused 5 0 (n, m or the new weight is beyond its limits)
search 3 3 boxes masks index => refused 5 0 (n, m or the new weight is beyond its limits)
n 2
search 3 3 index => refused 2 (a lent row is too short)
search 3 3 boxes index => refused 2 (a lent row is too short)
search 3 3 masks index => refused 2 (a lent row is too short)
search 3 3 boxes masks index => refused 2 (a lent row is too short)
lend offsets 7 7 7
lend order
search 3 3 index => refused 2 (a lent row is too short)
search 3 3 boxes index => refused 2 (a lent row is too short)
search 3 3 masks index => refused 2 (a lent row is too short)
search 3 3 boxes masks index => refused 2 (a lent row is too short)
lend order 7
search 3 3 index => refused 8 1 (arc 1 has a bad node or weight)
search 3 3 boxes index => refused 8 1 (arc 1 has a bad node or weight)
search 3 3 masks index => refused 8 1 (arc 1 has a bad node or weight)
search 3 3 boxes masks index => refused 8 1 (arc 1 has a bad node or weight)
lend tails 1
search 3 3 index => refused 14 1 (the closure of arc 1 is neither 0 nor 1)
search 3 3 boxes index => refused 14 1 (the closure of arc 1 is neither 0 nor 1)
search 3 3 masks index => refused 14 1 (the closure of arc 1 is neither 0 nor 1)
search 3 3 boxes masks index => refused 14 1 (the closure of arc 1 is neither 0 nor 1)
lend closed 0
search 3 3 index => refused 19 (the index is not the one of this network)
search 3 3 boxes index => refused 19 (the index is not the one of this network)
search 3 3 masks index => refused 19 (the index is not the one of this network)
search 3 3 boxes masks index => refused 19 (the index is not the one of this network)
lend order 1
lend offsets 0 1 2
search 3 3 index => refused 19 (the index is not the one of this network)
search 3 3 boxes index => refused 19 (the index is not the one of this network)
search 3 3 masks index => refused 19 (the index is not the one of this network)
search 3 3 boxes masks index => refused 19 (the index is not the one of this network)
build index
search 3 3 index => refused 11 (the source, target or arc is not in the network)
search 3 3 boxes index => refused 9 2 (node 2 has a bad coordinate)
search 3 3 masks index => refused 18 2 (the module of node 2 is outside 1 to 32)
search 3 3 boxes masks index => refused 9 2 (node 2 has a bad coordinate)
lend x 0 10
search 3 3 index => refused 11 (the source, target or arc is not in the network)
search 3 3 boxes index => refused 10 1 (the box of arc 1 is not well shaped)
search 3 3 masks index => refused 18 2 (the module of node 2 is outside 1 to 32)
search 3 3 boxes masks index => refused 18 2 (the module of node 2 is outside 1 to 32)
lend modules 1 32
search 3 3 index => refused 11 (the source, target or arc is not in the network)
search 3 3 boxes index => refused 10 1 (the box of arc 1 is not well shaped)
search 3 3 masks index => refused 11 (the source, target or arc is not in the network)
search 3 3 boxes masks index => refused 10 1 (the box of arc 1 is not well shaped)
lend boxes 10 10 0 0
search 3 3 index => refused 11 (the source, target or arc is not in the network)
search 3 3 boxes index => refused 11 (the source, target or arc is not in the network)
search 3 3 masks index => refused 11 (the source, target or arc is not in the network)
search 3 3 boxes masks index => refused 11 (the source, target or arc is not in the network)
search 2 1 index => refused 12 1 0 (no walk leads from the source to the target, settled 1)
search 2 1 boxes index => refused 12 1 0 (no walk leads from the source to the target, settled 1)
search 2 1 masks index => refused 12 1 0 (no walk leads from the source to the target, settled 1)
search 2 1 boxes masks index => refused 12 1 0 (no walk leads from the source to the target, settled 1)
search 1 2 index => ok 1000000 1 2 1 1
search 1 2 boxes index => ok 1000000 1 2 1 1
search 1 2 masks index => ok 1000000 1 2 1 1
search 1 2 boxes masks index => ok 1000000 1 2 1 1
show route => route 1 9
-- The arcs examined: all that leave the settled nodes but the target, the closed ones and those shut out by a test too.
fresh
gr hall.gr => ok 4 6
co hall.co
build
build index
lend modules 1 2 3 32
build masks
search 1 3 index => ok 5 1 3 4 3
search 3 2 index => ok 8 3 4 5 4 6 1
search 2 1 boxes index => ok 7 3 4 3 2 4 6
lend closed 0 0 0 0 1 0
search 1 4 index => ok 6 2 4 5 3 4
lend masks 0 0 0 0 0 0
search 1 4 masks index => refused 12 1 3 (no walk leads from the source to the target, settled 1)
search 4 4 masks index => ok 0 0 1 0
search 2 4 boxes masks index => refused 12 1 1 (no walk leads from the source to the target, settled 1)
lend closed 0 0 0 1 1 0
search 1 4 index => refused 12 3 5 (no walk leads from the source to the target, settled 3)
search 1 4 => refused 12 3 (no walk leads from the source to the target, settled 3)
lend boxes 1 0 1 0 -5 10 0 20 -5 10 5 20 -5 10 0 20 1 0 1 0 0 10 0 5
search 1 4 boxes index => refused 12 2 4 (no walk leads from the source to the target, settled 2)
-- Loops and parallel arcs count each; from the target none do.
n 2
m 5
lend tails 1 1 1 2 2
lend heads 1 2 2 2 1
lend weights 0 4 3 0 0
lend closed 0 0 0 0 0
build index
show offsets 3 => offsets 0 3 5
search 1 2 index => ok 3 1 2 3 3
search 2 1 index => ok 0 1 2 2 5
search 2 2 index => ok 0 0 1 0
-- The word stands last, once, and goes with searches alone.
search 1 1 index boxes => ? no such command, help names them
search 1 1 index index => ? no such command, help names them
search 1 1 boxes index masks => ? no such command, help names them
boxed 1 1 index => ? a wrong count of words for this command
check index => ? no such command, help names them
check boxes index => ? no such command, help names them
build boxes index => ? no such command, help names them
build index index => ? no such command, help names them
index => ? no such command, help names them
";
