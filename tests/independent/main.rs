//! The independent program: document 01 and requests a to j of 02 a second time, from their words alone, to compare the crates with.
//! It is built by: rustc -O --edition 2021 -o target/independent tests/independent/main.rs

mod boxes;
mod calls;
mod cases;
mod closures;
mod columns;
mod compare;
mod console;
mod coverage;
mod days;
mod drivers;
mod files;
mod hall;
mod index;
mod indexed;
mod judging;
mod lent;
mod limits;
mod lists;
mod marks;
mod masks;
mod network;
mod panels;
mod plans;
mod random;
mod reasons;
mod record;
mod refusals;
mod scratch;
mod selftest;
mod shrink;
mod sizes;
mod slips;
mod talks;
mod text;
mod texts;
mod walks;
mod writing;

use compare::{Part, COUNT};
use console::{converse, Console};
use files::{joined, read_file, Folder};
use refusals::Refusal;
use std::fs::File;
use std::io::{self, BufReader, Write};
use std::path::Path;
use std::process::ExitCode;

/// The console's requests up to this letter; what is tried of later ones is the selftest alone.
const LANDED: char = 'g';

/// The last request that is written here.
const LAST: char = 'j';

const USAGE: &str = "\
independent selftest                    checks this program itself
independent expect FILE                 the replies to a file of console commands
independent console                     the replies to console commands as they are typed
independent boxes                       what `boxes` prints for net.gr and net.co here
independent journeys                    what `journeys` prints for these and day.p2p
independent read gr FILE                a reader's reply, then the places it fills, row by row
independent read co FILE N              the same for the coordinates of N nodes
independent record SEED FOLDER          console commands to keep; their files are written into FOLDER
independent compare [K/N] CONSOLE BOXES JOURNEYS [SEED] [COUNT]
                                        compares the programs these commands start, by COUNT small cases
                                        and others; with K/N only the Kth of N parts of the same cases
";

const SEED: u64 = 1;

fn main() -> ExitCode {
    let words: Vec<String> = std::env::args().skip(1).collect();
    let words: Vec<&str> = words.iter().map(String::as_str).collect();
    match obey(&words) {
        Ok(true) => ExitCode::SUCCESS,
        Ok(false) => ExitCode::FAILURE,
        Err(problem) => {
            eprintln!("{problem}");
            ExitCode::FAILURE
        }
    }
}

/// Does what the words say; false if something was found wrong.
fn obey(words: &[&str]) -> Result<bool, Box<dyn std::error::Error>> {
    let mut out = io::stdout().lock();
    match *words {
        ["selftest"] => return Ok(selftest::run()),
        ["expect", file] => converse(
            &mut Console::started_in(Folder::noting(""), LANDED),
            BufReader::new(File::open(file)?),
            out,
        )?,
        ["console"] => converse(&mut Console::started_in(Folder::real(""), LANDED), io::stdin().lock(), out)?,
        ["boxes"] => out.write_all(files::listing(Path::new("")).as_bytes())?,
        ["journeys"] => out.write_all(files::journeys(Path::new("")).as_bytes())?,
        ["read", "gr", file] => out.write_all(told(gr_read(file)).as_bytes())?,
        ["read", "co", file, n] => out.write_all(told(co_read(file, n.parse()?)).as_bytes())?,
        ["record", seed, folder] => {
            let case = record::recorded(seed.parse()?);
            scratch::write_files(Path::new(folder), &case.files);
            out.write_all(&case.input())?;
        }
        ["compare", ref words @ ..] => return compared(words),
        _ => return Err(USAGE.into()),
    }
    Ok(true)
}

/// The comparison that these words ask for: all of it, or a part.
fn compared(words: &[&str]) -> Result<bool, Box<dyn std::error::Error>> {
    let part = words.first().and_then(|word| Part::named(word));
    let words = if part.is_some() { &words[1..] } else { words };
    let [console, boxes, journeys, ref numbers @ ..] = *words else {
        return Err(USAGE.into());
    };
    let (seed, count) = match *numbers {
        [] => (SEED, COUNT),
        [seed] => (seed.parse()?, COUNT),
        [seed, count] => (seed.parse()?, count.parse()?),
        _ => return Err(USAGE.into()),
    };
    Ok(compare::run(part.unwrap_or(Part::WHOLE), [console, boxes, journeys], seed, count))
}

/// The lines of `read`: what the reader returns and the places it fills, or the refusal with its values.
fn told(read: Result<Vec<String>, Refusal>) -> String {
    match read {
        Ok(lines) => lines.join("\n") + "\n",
        Err(Refusal { number, values }) => {
            format!("refused {number} {}", joined(&values)).trim_end().to_string() + "\n"
        }
    }
}

fn row(name: &str, row: &[i64], places: i64) -> String {
    format!("{name} {}", joined(&row[..places as usize])).trim_end().to_string()
}

fn gr_read(file: &str) -> Result<Vec<String>, Refusal> {
    let mut lent = files::rows_for_reading();
    let (n, m) = text::read_gr(&read_file(Path::new(file))?, &mut lent)?;
    let rows = [("tails", &lent.tails), ("heads", &lent.heads), ("weights", &lent.weights)];
    Ok([format!("ok {n} {m}")].into_iter().chain(rows.map(|(name, numbers)| row(name, numbers, m))).collect())
}

fn co_read(file: &str, n: i64) -> Result<Vec<String>, Refusal> {
    let mut lent = files::rows_for_reading();
    lent.n = n;
    text::read_co(&read_file(Path::new(file))?, &mut lent)?;
    Ok(vec!["ok".to_string(), row("x", &lent.x, n), row("y", &lent.y, n)])
}
