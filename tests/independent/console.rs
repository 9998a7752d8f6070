//! The console: a line of words is a command, and each line gets exactly one line as its reply.

use crate::calls;
use crate::files::{joined, Folder};
use crate::index::build_index;
use crate::judging::Tests;
use crate::lent::Lent;
use crate::lists::{run_day, Day};
use crate::masks;
use crate::network::Found;
use crate::refusals::Refusal;
use crate::text::{number, read_co, read_gr, signed_number};
use crate::writing;
use std::io::{self, BufRead, Write};

/// The longest line that is taken, its byte 10 not counted.
pub const LINE_BYTES: usize = 262_144;

/// What a row holds: numbers of 32 bits without or with a sign, or bytes.
#[derive(Clone, Copy, PartialEq, Eq)]
pub enum Kind {
    Count,
    Signed,
    Byte,
}

impl Kind {
    pub fn least(self) -> i64 {
        if self == Kind::Signed {
            i32::MIN as i64
        } else {
            0
        }
    }

    pub fn greatest(self) -> i64 {
        match self {
            Kind::Count => u32::MAX as i64,
            Kind::Signed => i32::MAX as i64,
            Kind::Byte => u8::MAX as i64,
        }
    }
}

/// A row of the console: its name, the places it has, what it holds, and where it is.
pub struct Row {
    pub name: &'static str,
    pub places: usize,
    pub kind: Kind,
    pub of: fn(&mut Lent) -> &mut Vec<i64>,
}

#[rustfmt::skip]
static ROWS: [Row; 15] = [
    Row { name: "tails", places: 4_096, kind: Kind::Count, of: |lent| &mut lent.tails },
    Row { name: "heads", places: 4_096, kind: Kind::Count, of: |lent| &mut lent.heads },
    Row { name: "weights", places: 4_096, kind: Kind::Count, of: |lent| &mut lent.weights },
    Row { name: "x", places: 1_024, kind: Kind::Signed, of: |lent| &mut lent.x },
    Row { name: "y", places: 1_024, kind: Kind::Signed, of: |lent| &mut lent.y },
    Row { name: "boxes", places: 16_384, kind: Kind::Signed, of: |lent| &mut lent.boxes },
    Row { name: "route", places: 1_024, kind: Kind::Count, of: |lent| &mut lent.route },
    Row { name: "text", places: 40_960, kind: Kind::Byte, of: |lent| &mut lent.text },
    Row { name: "closed", places: 4_096, kind: Kind::Byte, of: |lent| &mut lent.closed },
    Row { name: "answers", places: 512, kind: Kind::Count, of: |lent| &mut lent.answers },
    Row { name: "modules", places: 1_024, kind: Kind::Count, of: |lent| &mut lent.modules },
    Row { name: "masks", places: 4_096, kind: Kind::Count, of: |lent| &mut lent.masks },
    Row { name: "lamps", places: 64, kind: Kind::Count, of: |lent| &mut lent.lamps },
    Row { name: "offsets", places: 1_024, kind: Kind::Count, of: |lent| &mut lent.offsets },
    Row { name: "order", places: 4_096, kind: Kind::Count, of: |lent| &mut lent.order },
];

/// The rows of a console of the requests up to a letter.
pub fn rows(upto: char) -> &'static [Row] {
    match upto {
        ..='g' => &ROWS[..10],
        'h' => &ROWS[..13],
        _ => &ROWS,
    }
}

/// Why a line is no command. Of several faults the first in this list is told;
/// only the two kinds of bad numbers are judged word by word, from left to right.
#[derive(Clone, Copy, Debug, PartialEq, Eq)]
pub enum Fault {
    LongLine,
    EmptyLine,
    ControlByte,
    EmptyWord,
    NoCommand,
    WordCount,
    NoRow,
    LongRow,
    Misspelt,
    BeyondType,
    FewerLent,
}

/// The words after `?`, in the order of `Fault`.
pub const FAULT_WORDS: [&str; 11] = [
    "the line is too long",
    "the line is empty",
    "a word holds a carriage return or a tab",
    "words are divided by single spaces, with none before or after",
    "no such command, help names them",
    "a wrong count of words for this command",
    "no such row, help names them",
    "the row has fewer places than that",
    "a number is misspelt",
    "a number is too small or too large for its place",
    "fewer places of the row are lent",
];

#[rustfmt::skip]
const COMMANDS: [&[u8]; 16] = [
    b"n", b"m", b"lend", b"show", b"gr", b"co", b"p2p", b"build", b"check", b"update", b"search", b"boxed",
    b"why", b"lamps", b"fresh", b"help",
];

/// What `help` replies in a console of the requests up to a letter.
#[rustfmt::skip]
pub fn help(upto: char) -> &'static str {
    match upto {
        ..='g' => "commands: n N, m M, lend ROW VALUES, show ROW, show ROW K, gr FILE, co FILE, p2p FILE, build, check, \
            update ARC WEIGHT BYTE, search S T, boxed S T, why S T ARC, write gr, write co, save gr FILE, save co FILE, \
            fresh, help; rows: tails, heads, weights, x, y, boxes, route, text, closed, answers",
        'h' => "commands: n N, m M, lend ROW VALUES, show ROW, show ROW K, gr FILE, co FILE, p2p FILE, build, \
            build masks, check, check masks, check boxes masks, update ARC WEIGHT BYTE, search S T, boxed S T, search S T masks, \
            search S T boxes masks, lamps MASK, why S T ARC, write gr, write co, save gr FILE, save co FILE, \
            fresh, help; rows: tails, heads, weights, x, y, boxes, route, text, closed, answers, modules, masks, \
            lamps",
        _ => "commands: n N, m M, lend ROW VALUES, show ROW, show ROW K, gr FILE, co FILE, p2p FILE, build, \
            build masks, build index, check, check masks, check boxes masks, update ARC WEIGHT BYTE, search S T, boxed S T, \
            search S T masks, search S T boxes masks, and index after any search, lamps MASK, \
            why S T ARC, write gr, write co, save gr FILE, save co FILE, \
            fresh, help; rows: tails, heads, weights, x, y, boxes, route, text, closed, answers, modules, masks, \
            lamps, offsets, order",
    }
}

/// A reply other than the one hoped for.
enum No {
    Fault(Fault),
    Refused(Refusal),
    Unwritten,
}

impl From<Fault> for No {
    fn from(fault: Fault) -> No {
        No::Fault(fault)
    }
}

impl From<Refusal> for No {
    fn from(refusal: Refusal) -> No {
        No::Refused(refusal)
    }
}

fn row_named(name: &[u8], upto: char) -> Result<&'static Row, Fault> {
    rows(upto).iter().find(|row| row.name.as_bytes() == name).ok_or(Fault::NoRow)
}

/// A number of a row's kind; only a signed one may have a minus.
fn value(word: &[u8], kind: Kind) -> Result<i64, Fault> {
    let spelt = if kind == Kind::Signed { signed_number(word) } else { number(word) };
    let value = spelt.ok_or(Fault::Misspelt)?;
    if (kind.least()..=kind.greatest()).contains(&value) {
        Ok(value)
    } else {
        Err(Fault::BeyondType)
    }
}

fn count(word: &[u8]) -> Result<i64, Fault> {
    value(word, Kind::Count)
}

/// Writes a text as the words `gr` or `co` ask for; none for other words.
fn writer(of: &[u8]) -> Option<fn(&mut Lent) -> Result<i64, Refusal>> {
    match of {
        b"gr" => Some(writing::write_gr),
        b"co" => Some(writing::write_co),
        _ => None,
    }
}

/// The tests that words name. They stand in the order `boxes`, `masks`, `index`; any other list of words is no command's.
fn tests(words: &[&[u8]], upto: char) -> Result<Tests, Fault> {
    let mut rest = words.iter().peekable();
    let mut next_is = |name: &[u8]| rest.next_if(|word| **word == name).is_some();
    let (boxes, masks, index) = (next_is(b"boxes"), next_is(b"masks"), upto >= 'i' && next_is(b"index"));
    if rest.next().is_some() {
        return Err(Fault::NoCommand);
    }
    Ok(Tests { boxes, masks, index })
}

/// The console's rows and numbers, the last of the requests that it knows, and the folder in which it was started.
pub struct Console {
    lent: Lent,
    upto: char,
    pub folder: Folder,
}

impl Console {
    pub fn started_in(folder: Folder, upto: char) -> Console {
        Console { lent: fresh(), upto, folder }
    }

    /// The reply to one line, without its byte 10.
    pub fn reply(&mut self, line: &[u8]) -> String {
        match self.obey(line) {
            Ok(reply) => reply,
            Err(No::Refused(refusal)) => refusal.to_string(),
            Err(No::Unwritten) => "refused 0 0 (the file cannot be written)".to_string(),
            Err(No::Fault(fault)) => format!("? {}", FAULT_WORDS[fault as usize]),
        }
    }

    /// Judges the line whole, then does what it says.
    fn obey(&mut self, line: &[u8]) -> Result<String, No> {
        if line.len() > LINE_BYTES {
            return Err(No::Fault(Fault::LongLine));
        }
        if line.is_empty() {
            return Err(No::Fault(Fault::EmptyLine));
        }
        if line.contains(&b'\r') || line.contains(&b'\t') {
            return Err(No::Fault(Fault::ControlByte));
        }
        let words: Vec<&[u8]> = line.split(|byte| *byte == b' ').collect();
        if words.iter().any(|word| word.is_empty()) {
            return Err(No::Fault(Fault::EmptyWord));
        }
        let (lent, upto, folder) = (&mut self.lent, self.upto, &mut self.folder);
        match words[..] {
            [b"n", n] => lent.n = count(n)?,
            [b"m", m] => lent.m = count(m)?,
            [b"lend", name, ref numbers @ ..] => {
                let row = row_named(name, upto)?;
                if numbers.len() > row.places {
                    return Err(No::Fault(Fault::LongRow));
                }
                *(row.of)(lent) =
                    numbers.iter().map(|word| value(word, row.kind)).collect::<Result<_, _>>()?;
            }
            [b"show", name] => return Ok(shown(name, (row_named(name, upto)?.of)(lent))),
            [b"show", name, places] => {
                let row = row_named(name, upto)?;
                let places = count(places)? as usize;
                let places = (row.of)(lent).get(..places).ok_or(Fault::FewerLent)?;
                return Ok(shown(name, places));
            }
            [b"gr", file] => {
                (lent.n, lent.m) = read_gr(&folder.read(file)?, lent)?;
                return Ok(format!("ok {} {}", lent.n, lent.m));
            }
            [b"co", file] => read_co(&folder.read(file)?, lent)?,
            [b"p2p", file] => {
                let Day { found, none, sum } = run_day(lent, &folder.read(file)?)?;
                return Ok(format!("ok {found} {none} {sum}"));
            }
            // What is built, checked or asked for is part of the command's name.
            [b"build", ref words @ ..] if words.is_empty() || upto >= 'h' => match tests(words, upto)? {
                Tests::NONE | Tests::BOXES => calls::build(lent)?,
                Tests::MASKS => calls::build_masks(lent)?,
                Tests::INDEX => build_index(lent)?,
                _ => return Err(No::Fault(Fault::NoCommand)),
            },
            [b"check", ref words @ ..] if words.is_empty() || upto >= 'h' => match tests(words, upto)? {
                Tests::NONE => calls::check(lent)?,
                tests if !tests.index => calls::check_by(lent, tests)?,
                _ => return Err(No::Fault(Fault::NoCommand)),
            },
            [b"update", arc, weight, byte] => {
                calls::update(lent, count(arc)?, count(weight)?, value(byte, Kind::Byte)?)?
            }
            [b"search", s, t, ref words @ ..] if words.is_empty() || upto >= 'h' => {
                let tests = tests(words, upto)?;
                let reply = calls::search_by(lent, tests, count(s)?, count(t)?);
                return Ok(told(if upto < 'j' { without_examined(reply) } else { reply }?));
            }
            [b"boxed", s, t] => return Ok(told(calls::boxed(lent, count(s)?, count(t)?)?)),
            [b"lamps", mask] if upto >= 'h' => {
                return Ok(format!("ok {}", masks::lamps(lent, count(mask)?)?))
            }
            [b"why", s, t, arc] => {
                return Ok(format!("ok {}", calls::why(lent, count(s)?, count(t)?, count(arc)?)?));
            }
            // The kind of file is part of the command's name.
            [b"write", of, ref rest @ ..] => {
                let write = writer(of).ok_or(Fault::NoCommand)?;
                let [] = rest else {
                    return Err(No::Fault(Fault::WordCount));
                };
                return Ok(format!("ok {}", write(lent)?));
            }
            // What `write` would put, the row `text` staying as it is.
            [b"save", of, ref rest @ ..] => {
                let write = writer(of).ok_or(Fault::NoCommand)?;
                let [file] = rest else {
                    return Err(No::Fault(Fault::WordCount));
                };
                let mut would = lent.clone();
                let length = write(&mut would)?;
                let bytes = would.text[..length as usize].iter().map(|byte| *byte as u8).collect();
                if !folder.save(file, bytes) {
                    return Err(No::Unwritten);
                }
                return Ok(format!("ok {length}"));
            }
            [b"fresh"] => *lent = fresh(),
            [b"help"] => return Ok(help(upto).to_string()),
            [b"lamps", ..] if upto < 'h' => return Err(No::Fault(Fault::NoCommand)),
            [command, ..] if COMMANDS.contains(&command) => return Err(No::Fault(Fault::WordCount)),
            _ => return Err(No::Fault(Fault::NoCommand)),
        }
        Ok("ok".to_string())
    }
}

/// Everything as at the start: all rows 0 and wholly lent, n and m 0.
fn fresh() -> Lent {
    let mut lent = Lent::default();
    for row in &ROWS {
        *(row.of)(&mut lent) = vec![0; row.places];
    }
    lent
}

/// A row's name and its numbers.
fn shown(name: &[u8], numbers: &[i64]) -> String {
    let name = String::from_utf8_lossy(name);
    format!("{name} {}", joined(numbers)).trim_end().to_string()
}

/// The reply to a search without the arcs examined.
fn without_examined(reply: Result<Found, Refusal>) -> Result<Found, Refusal> {
    reply.map(|found| Found { examined: None, ..found }).map_err(|mut refusal| {
        refusal.values.truncate(1);
        refusal
    })
}

fn told(found: Found) -> String {
    let mut numbers = vec![found.length, found.route.len() as i64, found.settled as i64];
    numbers.extend(found.examined.map(|examined| examined as i64));
    numbers.extend(found.route.iter().map(|arc| *arc as i64));
    format!("ok {}", joined(&numbers))
}

/// Answers each line of `input`, each reply being written at once. The last line may lack its byte 10.
pub fn converse(console: &mut Console, mut input: impl BufRead, mut output: impl Write) -> io::Result<()> {
    let mut line = Vec::new();
    while input.read_until(b'\n', &mut line)? > 0 {
        let reply = console.reply(line.strip_suffix(b"\n").unwrap_or(&line));
        output.write_all(reply.as_bytes())?;
        output.write_all(b"\n")?;
        output.flush()?;
        line.clear();
    }
    Ok(())
}
