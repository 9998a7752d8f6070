//! The comparison: what three programs write for many cases, beside what 01 and 02 demand.

use crate::cases::{boxes_case, journeys_case, small, Case};
use crate::columns::told_case;
use crate::files;
use crate::hall;
use crate::limits::{
    limit_case, limit_day, limit_index, limit_panel, limit_slips, limit_texts, limit_why, limit_writing,
    streams,
};
use crate::random::Random;
use crate::scratch::Scratch;
use crate::shrink::{shrunk, told};
use crate::LANDED;
use std::io::{Read, Write};
use std::path::PathBuf;
use std::process::{Child, ChildStdin, Command, Stdio};
use std::sync::mpsc::{channel, Receiver, RecvTimeoutError};
use std::thread;
use std::time::Duration;

/// The small cases, if no other count is asked for.
pub const COUNT: usize = 24_000;

/// How long a program may write nothing while it owes a reply; less while a mismatch is shrunk.
const PATIENCE: Duration = Duration::from_secs(120);
const SHORT_PATIENCE: Duration = Duration::from_secs(30);

/// Cases that one start of the console gets.
const BATCH: usize = 250;

/// Small cases for one case of `boxes` or `journeys`, each of which is a start of its own.
const SMALL_PER_START: usize = 60;

/// A program under test: the words that start it, and what it must write for a case.
struct Program {
    words: Vec<String>,
    demanded: fn(&Scratch, &Case) -> Vec<u8>,
}

/// A program that was started; what it writes arrives piece by piece.
struct Running {
    child: Child,
    input: ChildStdin,
    output: Receiver<Vec<u8>>,
}

impl Program {
    fn new(command: &str, demanded: fn(&Scratch, &Case) -> Vec<u8>) -> Program {
        let mut words: Vec<String> = command.split_whitespace().map(str::to_string).collect();
        // The program is started in another folder, so its own path must not depend on this one.
        if words[0].contains('/') {
            let path = PathBuf::from(&words[0]).canonicalize().expect("the program is there");
            words[0] = path.to_string_lossy().into_owned();
        }
        Program { words, demanded }
    }

    /// Starts the program in the folder of the case's files.
    fn start(&self, scratch: &Scratch) -> Running {
        let mut child = Command::new(&self.words[0])
            .args(&self.words[1..])
            .current_dir(&scratch.folder)
            .stdin(Stdio::piped())
            .stdout(Stdio::piped())
            .spawn()
            .expect("the program can be started");
        let input = child.stdin.take().expect("the input is a pipe");
        let mut from = child.stdout.take().expect("the output is a pipe");
        let (sender, output) = channel();
        thread::spawn(move || {
            let mut piece = vec![0; 65_536];
            while let Ok(count @ 1..) = from.read(&mut piece) {
                let _ = sender.send(piece[..count].to_vec());
            }
        });
        Running { child, input, output }
    }

    /// All that the program writes for a case, with a note if it does not end as it should.
    fn written(&self, scratch: &Scratch, case: &Case, patience: Duration) -> Vec<u8> {
        let Running { mut child, mut input, output } = self.start(scratch);
        let typed = case.input();
        // A thread of its own writes, so that neither side waits for the other to read.
        thread::spawn(move || input.write_all(&typed));
        let mut written = Vec::new();
        loop {
            match output.recv_timeout(patience) {
                Ok(piece) => written.extend(piece),
                Err(RecvTimeoutError::Disconnected) => break,
                Err(RecvTimeoutError::Timeout) => {
                    let _ = child.kill();
                    written.extend(b"(nothing more is written)\n");
                    break;
                }
            }
        }
        match child.wait() {
            Ok(status) if status.success() => (),
            ended => written.extend(format!("(ended with {ended:?})\n").bytes()),
        }
        written
    }

    /// Where the program first writes another line than is demanded for a case.
    fn difference(&self, scratch: &Scratch, case: &Case, patience: Duration) -> Option<Difference> {
        scratch.write(&case.files);
        let demanded = (self.demanded)(scratch, case);
        let mut written = self.written(scratch, case, patience);
        if case.saves() {
            written.extend(scratch.listed());
        }
        if demanded == written {
            return None;
        }
        let (mut demanded, mut written) = (demanded.split_inclusive(is_end), written.split_inclusive(is_end));
        let mut at = 0;
        loop {
            match (demanded.next(), written.next()) {
                (Some(one), Some(other)) if one == other => at += 1,
                (one, other) => {
                    let owned = |line: Option<&[u8]>| line.unwrap_or(b"(no line)\n").to_vec();
                    return Some(Difference { at, demanded: owned(one), written: owned(other) });
                }
            }
        }
    }
}

/// The line of the output at which demanded and written differ, and both lines there.
struct Difference {
    at: usize,
    demanded: Vec<u8>,
    written: Vec<u8>,
}

fn is_end(byte: &u8) -> bool {
    *byte == b'\n'
}

/// A part of the comparison: of every `of` starts of a program the one with this number, from 0.
#[derive(Clone, Copy)]
pub struct Part {
    number: usize,
    of: usize,
}

impl Part {
    pub const WHOLE: Part = Part { number: 0, of: 1 };

    /// The part that `K/N` names, K from 1 to N.
    pub fn named(word: &str) -> Option<Part> {
        let (number, of) = word.split_once('/')?;
        let (number, of): (usize, usize) = (number.parse().ok()?, of.parse().ok()?);
        (1..=of).contains(&number).then_some(Part { number: number - 1, of })
    }
}

/// The comparison so far: the starts that came up, in all parts; the cases compared in this one, and how many were told.
struct Comparison {
    scratch: Scratch,
    part: Part,
    starts: usize,
    compared: usize,
    told: usize,
}

impl Comparison {
    /// Whether the next start of a program is in this part.
    fn next_is_mine(&mut self) -> bool {
        self.starts += 1;
        (self.starts - 1) % self.part.of == self.part.number
    }

    /// Tells how many cases of this kind were compared.
    fn tell(&mut self, kind: &str) {
        println!("{} {kind} agree", self.compared - self.told);
        self.told = self.compared;
    }

    /// Compares cases in one start of the program, if it is in this part.
    /// A mismatch is shrunk, told, and ends the comparison.
    fn compare(&mut self, program: &Program, cases: &[Case]) -> Result<(), String> {
        if !self.next_is_mine() {
            return Ok(());
        }
        let all = Case::together(cases);
        let Some(difference) = program.difference(&self.scratch, &all, PATIENCE) else {
            self.compared += cases.len();
            return Ok(());
        };
        // The case at fault alone, or, if it agrees when it is alone, all of them.
        let mut lines = 0;
        let at_fault = cases.iter().find(|case| {
            lines += case.lines.len();
            difference.at < lines
        });
        let differs = |case: &Case| program.difference(&self.scratch, case, SHORT_PATIENCE).is_some();
        let start = at_fault.filter(|case| differs(case)).unwrap_or(&all);
        let case = shrunk(start.clone(), &differs);
        let last = program.difference(&self.scratch, &case, SHORT_PATIENCE).unwrap_or(difference);
        Err(told(&program.words.join(" "), &case, &last.demanded, &last.written))
    }
}

/// The console answers each line before the next is typed.
fn answers_at_once(console: &Program, scratch: &Scratch) -> Result<(), String> {
    let talk = hall::case();
    scratch.write(&talk.files);
    let mut running = console.start(scratch);
    let mut in_time = true;
    for line in talk.lines {
        let typed = running.input.write_all(&[&line[..], b"\n"].concat());
        let mut last = 0;
        while in_time && last != b'\n' {
            match running.output.recv_timeout(PATIENCE) {
                Ok(piece) => last = piece[piece.len() - 1],
                Err(_) => in_time = false,
            }
        }
        in_time &= typed.is_ok();
    }
    let _ = running.child.kill();
    let _ = running.child.wait();
    if in_time {
        Ok(())
    } else {
        Err("the console does not answer a line before the next is typed\n".to_string())
    }
}

/// All cases, one kind after the other, up to the first mismatch. Every part draws the same random numbers.
fn all_agree(
    comparison: &mut Comparison,
    [console, boxes, journeys]: [&Program; 3],
    seed: u64,
    count: usize,
) -> Result<(), String> {
    let random = &mut Random::new(seed);
    comparison.compare(console, &[hall::case()])?;
    if comparison.next_is_mine() {
        answers_at_once(console, &comparison.scratch)?;
    }
    comparison.compare(console, &[told_case()])?;
    comparison.tell("cases of the hall plan and of lines with slips");
    let mut left = count;
    while left > 0 {
        let batch = left.min(BATCH);
        let cases: Vec<Case> = (0..batch).map(|number| small(random, &format!("t{number}"))).collect();
        comparison.compare(console, &cases)?;
        left -= batch;
    }
    comparison.tell("small cases");
    for case in streams() {
        comparison.compare(console, &[case])?;
    }
    comparison.tell("ends of input and long lines");
    for kind in 0..4 {
        comparison.compare(console, &[limit_case(random, kind)])?;
    }
    comparison.compare(console, &[limit_texts(random, "limit")])?;
    comparison.compare(console, &[limit_why()])?;
    comparison.compare(console, &[limit_writing()])?;
    comparison.compare(console, &[limit_slips()])?;
    comparison.compare(console, &[limit_day()])?;
    if LANDED >= 'h' {
        comparison.compare(console, &[limit_panel()])?;
    }
    if LANDED >= 'i' {
        comparison.compare(console, &[limit_index()])?;
    }
    comparison.tell("cases at the limits");
    for _ in 0..count / SMALL_PER_START {
        comparison.compare(boxes, &[boxes_case(random)])?;
    }
    comparison.tell("cases of boxes");
    for _ in 0..count / SMALL_PER_START {
        comparison.compare(journeys, &[journeys_case(random)])?;
    }
    comparison.tell("cases of journeys");
    Ok(())
}

/// Compares the programs that the three commands start: console, boxes, journeys; true if all cases of the part agree.
pub fn run(part: Part, commands: [&str; 3], seed: u64, count: usize) -> bool {
    let console = Program::new(commands[0], |scratch, case| {
        if case.saves() {
            scratch.demanded_with_files(&case.input())
        } else {
            scratch.demanded(&case.input())
        }
    });
    let boxes = Program::new(commands[1], |scratch, _| files::listing(&scratch.folder).into_bytes());
    let journeys = Program::new(commands[2], |scratch, _| files::journeys(&scratch.folder).into_bytes());
    let mut comparison = Comparison { scratch: Scratch::new(), part, starts: 0, compared: 0, told: 0 };
    let outcome = all_agree(&mut comparison, [&console, &boxes, &journeys], seed, count);
    let (compared, Part { number, of }) = (comparison.compared, part);
    let from = format!("seed {seed}, part {}/{of}", number + 1);
    match &outcome {
        Ok(()) => println!("{compared} cases compared, all agree ({from})"),
        Err(mismatch) => println!("{mismatch}{compared} cases compared before this mismatch ({from})"),
    }
    outcome.is_ok()
}
