//! A temporary folder for the files of cases.

use crate::console::{converse, Console};
use crate::files::Folder;
use crate::shrink::escaped;
use crate::LANDED;
use std::collections::BTreeMap;
use std::fs;
use std::path::{Path, PathBuf};
use std::process;

pub struct Scratch {
    pub folder: PathBuf,
}

impl Scratch {
    pub fn new() -> Scratch {
        Scratch { folder: std::env::temp_dir().join(format!("independent-{}", process::id())) }
    }

    /// Makes these files the only ones in the folder.
    pub fn write(&self, files: &[(String, Vec<u8>)]) {
        let _ = fs::remove_dir_all(&self.folder);
        write_files(&self.folder, files);
    }

    /// What a console started in the folder must write for a whole input, and the files that it must save.
    fn conversed(&self, input: &[u8], upto: char) -> (Vec<u8>, BTreeMap<PathBuf, Vec<u8>>) {
        let (mut console, mut output) = (Console::started_in(Folder::noting(&self.folder), upto), Vec::new());
        converse(&mut console, input, &mut output).expect("memory takes every reply");
        (output, console.folder.noted())
    }

    /// What a console started in the folder must write for a whole input.
    pub fn demanded(&self, input: &[u8]) -> Vec<u8> {
        self.demanded_upto(input, LANDED)
    }

    /// The same of a console of the requests up to a letter.
    pub fn demanded_upto(&self, input: &[u8], upto: char) -> Vec<u8> {
        self.conversed(input, upto).0
    }

    /// What it must write, and then what the folder must hold afterwards.
    pub fn demanded_with_files(&self, input: &[u8]) -> Vec<u8> {
        let (mut output, saved) = self.conversed(input, LANDED);
        let mut files = contents(&self.folder);
        files.extend(saved.into_iter().map(|(path, bytes)| (path, Some(bytes))));
        output.extend(self.told(&files));
        output
    }

    /// What the folder holds, a line for each file.
    pub fn listed(&self) -> Vec<u8> {
        self.told(&contents(&self.folder))
    }

    fn told(&self, files: &BTreeMap<PathBuf, Option<Vec<u8>>>) -> Vec<u8> {
        let mut told = Vec::new();
        for (path, bytes) in files {
            let name = path.strip_prefix(&self.folder).unwrap_or(path).display();
            told.extend(match bytes {
                Some(bytes) => format!("(the file {name} holds {})\n", escaped(bytes)).into_bytes(),
                None => format!("(the folder {name} is there)\n").into_bytes(),
            });
        }
        told
    }
}

/// The files in a folder and in its folders with their bytes; the folders without.
fn contents(folder: &Path) -> BTreeMap<PathBuf, Option<Vec<u8>>> {
    let mut found = BTreeMap::new();
    for entry in fs::read_dir(folder).into_iter().flatten().flatten() {
        let path = entry.path();
        if path.is_dir() {
            found.extend(contents(&path));
            found.insert(path, None);
        } else {
            let bytes = fs::read(&path).unwrap_or_default();
            found.insert(path, Some(bytes));
        }
    }
    found
}

impl Drop for Scratch {
    fn drop(&mut self) {
        let _ = fs::remove_dir_all(&self.folder);
    }
}

/// Writes files into a folder; a name that ends in `/` makes a folder.
pub fn write_files(folder: &Path, files: &[(String, Vec<u8>)]) {
    fs::create_dir_all(folder).expect("the folder can be made");
    for (name, bytes) in files {
        let path = folder.join(name);
        fs::create_dir_all(path.parent().expect("a file is in a folder")).expect("the folder can be made");
        let written = if name.ends_with('/') { fs::create_dir(path) } else { fs::write(path, bytes) };
        written.expect("a file can be written");
    }
}
