//! A mismatch made small, and told so that anyone can try it.

use crate::cases::Case;
use crate::text::number;
use std::time::{Duration, Instant};

/// How long a mismatch is shrunk.
const TIME: Duration = Duration::from_secs(90);

/// How much of a reply is told before and after the place where it differs.
const EXCERPT: usize = 200;

/// A smaller case that still fails: with fewer lines, files, words and lines of files, and lower numbers.
pub fn shrunk(mut case: Case, fails: &dyn Fn(&Case) -> bool) -> Case {
    let end = Instant::now() + TIME;
    let fails = |case: &Case| Instant::now() < end && fails(case);
    let mut size = usize::MAX;
    while size_of(&case) < size {
        size = size_of(&case);
        case.lines = fewer(&case.lines, |lines| fails(&Case { lines, ..case.clone() }));
        case.files = fewer(&case.files, |files| fails(&Case { files, ..case.clone() }));
        for at in 0..case.files.len() {
            let with = |bytes: Vec<u8>| with_file(&case, at, bytes);
            let bytes = smaller(&case.files[at].1, b'\n', |bytes| fails(&with(bytes)));
            case = with(bytes);
        }
        for at in 0..case.lines.len() {
            let with = |line: Vec<u8>| with_line(&case, at, line);
            let line = smaller(&case.lines[at], b' ', |line| fails(&with(line)));
            case = with(line);
        }
    }
    case
}

fn size_of(case: &Case) -> usize {
    let files: usize = case.files.iter().map(|(_, bytes)| 1 + bytes.len()).sum();
    files + case.input().len()
}

fn with_line(case: &Case, at: usize, line: Vec<u8>) -> Case {
    let mut case = case.clone();
    case.lines[at] = line;
    case
}

fn with_file(case: &Case, at: usize, bytes: Vec<u8>) -> Case {
    let mut case = case.clone();
    case.files[at].1 = bytes;
    case
}

/// Fewer of the parts between the dividing bytes, and then lower numbers or shorter words in the parts.
fn smaller(bytes: &[u8], divider: u8, fails: impl Fn(Vec<u8>) -> bool) -> Vec<u8> {
    let parts: Vec<Vec<u8>> = bytes.split(|byte| *byte == divider).map(<[u8]>::to_vec).collect();
    let mut parts = fewer(&parts, |parts| fails(parts.join(&divider)));
    for at in 0..parts.len() {
        for simpler in simpler_words(&parts[at]) {
            let before = std::mem::replace(&mut parts[at], simpler);
            if fails(parts.join(&divider)) {
                break;
            }
            parts[at] = before;
        }
    }
    parts.join(&divider)
}

/// What to try in place of a word, the simplest first.
fn simpler_words(word: &[u8]) -> Vec<Vec<u8>> {
    match number(word) {
        Some(value) => [0, 1, value / 2, value - 1]
            .into_iter()
            .filter(|simpler| (0..value).contains(simpler))
            .map(|simpler| simpler.to_string().into_bytes())
            .collect(),
        None if word.len() > 1 => vec![word[..word.len() / 2].to_vec()],
        None => vec![],
    }
}

/// Leaves out as many of the items as it can, in large parts first.
fn fewer<T: Clone>(items: &[T], fails: impl Fn(Vec<T>) -> bool) -> Vec<T> {
    let mut items = items.to_vec();
    let mut part = items.len().div_ceil(2);
    while part > 0 {
        let mut at = 0;
        while at < items.len() {
            let mut trial = items.clone();
            trial.drain(at..(at + part).min(items.len()));
            if fails(trial.clone()) {
                items = trial;
            } else {
                at += part;
            }
        }
        part /= 2;
    }
    items
}

/// The case as shell lines that make its files and start the program, and as lines to type;
/// then the reply demanded and the one written.
pub fn told(command: &str, case: &Case, demanded: &[u8], written: &[u8]) -> String {
    let mut told = "a mismatch\n".to_string();
    for (name, bytes) in &case.files {
        told += &match name.strip_suffix('/') {
            Some(folder) => format!("in a shell:  mkdir {folder}\n"),
            None => format!("in a shell:  printf '{}' > {name}\n", escaped(bytes)),
        };
    }
    let input = case.input();
    let typable = input.iter().all(|byte| matches!(byte, b' '..=b'~' | b'\n')) && !case.unended;
    if typable {
        told += &format!("in a shell:  {command}\n{}", String::from_utf8_lossy(&input));
    } else {
        told += &format!("in a shell:  printf '{}' | {command}\n", escaped(&input));
    }
    let same = demanded.iter().zip(written).take_while(|(one, other)| one == other).count();
    told += &format!("demanded:  {}\nwritten:   {}\n", excerpt(demanded, same), excerpt(written, same));
    told
}

/// The part of a reply around the place up to which both are the same.
fn excerpt(reply: &[u8], same: usize) -> String {
    let (begin, end) = (same.saturating_sub(EXCERPT), (same + EXCERPT).min(reply.len()));
    let before = if begin > 0 { "..." } else { "" };
    let after = if end < reply.len() { "..." } else { "" };
    format!("{before}{}{after}", escaped(&reply[begin..end]))
}

/// Bytes as `printf` takes them between single quotes.
pub fn escaped(bytes: &[u8]) -> String {
    let one = |byte: &u8| match byte {
        b'\n' => "\\n".to_string(),
        b'%' => "%%".to_string(),
        b'\\' | b'\'' => format!("\\{byte:03o}"),
        b' '..=b'~' => (*byte as char).to_string(),
        _ => format!("\\{byte:03o}"),
    };
    bytes.iter().map(one).collect()
}
