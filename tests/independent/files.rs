//! Files, and what the programs `boxes` and `journeys` print for those of a plan and of a day.

use crate::calls::build;
use crate::lent::Lent;
use crate::lists::{answered, totals, Answered, Day};
use crate::refusals::{refused, Refusal};
use crate::sizes::{ARCS, NODES, QUERIES, TEXT_BYTES};
use crate::text::{read_co, read_gr};
use std::collections::BTreeMap;
use std::ffi::OsStr;
use std::fs::{self, File};
use std::io::Read;
use std::os::unix::ffi::OsStrExt;
use std::path::{Component, Path, PathBuf};

/// A file's bytes, read no further than to know that they are too many.
/// A file that cannot be opened or read is refused with number 0.
pub fn read_file(path: &Path) -> Result<Vec<u8>, Refusal> {
    let mut bytes = Vec::new();
    match File::open(path).and_then(|file| file.take(TEXT_BYTES as u64 + 1).read_to_end(&mut bytes)) {
        Ok(_) => Ok(bytes),
        Err(_) => refused(0, &[0]),
    }
}

/// The folder in which a console was started. Files are saved there, or only noted here as if they were.
pub struct Folder {
    path: PathBuf,
    noted: Option<BTreeMap<PathBuf, Vec<u8>>>,
}

impl Folder {
    pub fn real(path: impl Into<PathBuf>) -> Folder {
        Folder { path: path.into(), noted: None }
    }

    pub fn noting(path: impl Into<PathBuf>) -> Folder {
        Folder { path: path.into(), noted: Some(BTreeMap::new()) }
    }

    /// The files that were noted.
    pub fn noted(&self) -> BTreeMap<PathBuf, Vec<u8>> {
        self.noted.clone().unwrap_or_default()
    }

    /// The path of a file; a dot for this folder is left out.
    fn at(&self, name: &[u8]) -> PathBuf {
        let path = self.path.join(OsStr::from_bytes(name));
        path.components().filter(|part| *part != Component::CurDir).collect()
    }

    pub fn read(&self, name: &[u8]) -> Result<Vec<u8>, Refusal> {
        let path = self.at(name);
        match self.noted.as_ref().and_then(|noted| noted.get(&path)) {
            Some(bytes) => Ok(bytes.clone()),
            None => read_file(&path),
        }
    }

    /// Saves a file whole, or leaves everything as it was; true if it is saved.
    pub fn save(&mut self, name: &[u8], bytes: Vec<u8>) -> bool {
        let path = self.at(name);
        let folder = path.parent().map_or(false, |parent| parent == Path::new("") || parent.is_dir());
        let named = !name.contains(&0)
            && !name.ends_with(b"/")
            && path.file_name().is_some_and(|name| name.len() < 256);
        if !folder || !named || path.is_dir() {
            return false;
        }
        match &mut self.noted {
            Some(noted) => drop(noted.insert(path, bytes)),
            None => {
                let beside = path.with_extension("new");
                return fs::write(&beside, bytes).and_then(|()| fs::rename(&beside, &path)).is_ok();
            }
        }
        true
    }
}

/// Rows of just the places that the readers and build ask for.
pub fn rows_for_reading() -> Lent {
    let arcs = vec![0; ARCS as usize];
    let nodes = vec![0; NODES as usize];
    Lent {
        tails: arcs.clone(),
        heads: arcs.clone(),
        weights: arcs,
        x: nodes.clone(),
        y: nodes,
        boxes: vec![0; 4 * ARCS as usize],
        closed: vec![0; ARCS as usize],
        answers: vec![0; QUERIES as usize],
        ..Lent::default()
    }
}

/// A refusal, and the file that it is of.
type OfFile = (Refusal, &'static str);

/// What is read from a file of the folder.
fn read_from<T>(
    folder: &Path,
    file: &'static str,
    read: impl FnOnce(&[u8]) -> Result<T, Refusal>,
) -> Result<T, OfFile> {
    read_file(&folder.join(file)).and_then(|text| read(&text)).map_err(|refusal| (refusal, file))
}

/// The plan of `net.gr` and `net.co` in the folder, with its boxes.
fn built(folder: &Path) -> Result<Lent, OfFile> {
    let mut lent = rows_for_reading();
    (lent.n, lent.m) = read_from(folder, "net.gr", |text| read_gr(text, &mut lent))?;
    read_from(folder, "net.co", |text| read_co(text, &mut lent))?;
    build(&mut lent).expect("what the readers take has boxes");
    Ok(lent)
}

/// What `boxes` prints for `net.gr` and `net.co` in the folder: a line per arc, or the refusal.
pub fn listing(folder: &Path) -> String {
    let lent = match built(folder) {
        Ok(lent) => lent,
        Err((refusal, _)) => return refusal.with_place() + "\n",
    };
    let mut listing = String::new();
    for e in 0..lent.m as usize {
        let mut fields = vec![e as i64 + 1, lent.tails[e], lent.heads[e], lent.weights[e]];
        fields.extend(&lent.boxes[4 * e..4 * e + 4]);
        listing += &(joined(&fields) + "\n");
    }
    listing
}

/// What `journeys` prints for `net.gr`, `net.co` and `day.p2p` in the folder: a line per query and one with the totals,
/// or the refusal and the file that it is of.
pub fn journeys(folder: &Path) -> String {
    let day = |lent: Lent| read_from(folder, "day.p2p", |text| answered(&lent, text));
    match built(folder).and_then(day) {
        Ok(answered) => journeyed(&answered),
        Err((refusal, file)) => format!("{} {file}\n", refusal.with_place()),
    }
}

fn journeyed(answered: &Answered) -> String {
    let mut lines = String::new();
    for ((s, t), length) in answered {
        let told = length.map_or("no route".to_string(), |length| length.to_string());
        lines += &format!("{s} {t} {told}\n");
    }
    let Day { found, none, sum } = totals(answered);
    lines + &format!("{found} {none} {sum}\n")
}

/// Numbers divided by single spaces.
pub fn joined(numbers: &[i64]) -> String {
    numbers.iter().map(i64::to_string).collect::<Vec<_>>().join(" ")
}
