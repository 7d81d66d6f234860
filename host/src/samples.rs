//! The project's sample files and the lines that say what is expected of them.

use crate::bindings::{Granted, FILE_PADDING};
use crate::questions::{Answer, Given, Question};
use std::collections::HashMap;
use std::path::{Path, PathBuf};

/// The directory of the samples, beside this package.
pub fn directory() -> PathBuf {
    PathBuf::from(env!("CARGO_MANIFEST_DIR")).join("..").join("samples")
}

/// FNV-1a of 64 bits.
pub fn fnv1a(bytes: &[u8]) -> u64 {
    let mix = |hash: u64, byte: &u8| (hash ^ u64::from(*byte)).wrapping_mul(0x0100_0000_01b3);
    bytes.iter().fold(0xcbf2_9ce4_8422_2325, mix)
}

/// A file of an archive.
#[derive(Clone, Debug, PartialEq, Eq)]
pub struct Member {
    /// Its name in the archive.
    pub name: String,
    /// Its bytes.
    pub bytes: Vec<u8>,
}

const BLOCK: usize = 512;

/// The files of a plain ustar archive, in order; nothing if it is not one.
pub fn members(archive: &[u8]) -> Option<Vec<Member>> {
    let mut found = Vec::new();
    let mut at = 0_usize;
    loop {
        let header = archive.get(at..at.checked_add(BLOCK)?)?;
        if header.iter().all(|byte| *byte == 0) {
            return Some(found);
        }
        if header.get(257..262)? != b"ustar" {
            return None;
        }
        let size = octal(header.get(124..136)?)?;
        let start = at.checked_add(BLOCK)?;
        let bytes = archive.get(start..start.checked_add(size)?)?.to_vec();
        let is_file = matches!(header.get(156)?, 0 | b'0');
        if is_file {
            found.push(Member { name: text(header.get(0..100)?), bytes });
        }
        at = start.checked_add(size.div_ceil(BLOCK).checked_mul(BLOCK)?)?;
    }
}

/// A header's text, up to the NUL.
fn text(field: &[u8]) -> String {
    let bytes: Vec<u8> = field.iter().copied().take_while(|byte| *byte != 0).collect();
    String::from_utf8_lossy(&bytes).into_owned()
}

/// A header's octal number.
fn octal(field: &[u8]) -> Option<usize> {
    usize::from_str_radix(text(field).trim(), 8).ok()
}

/// A list of checks: the files of `checks.tar` in its folder, and what the check of each leaves.
#[derive(Clone, Copy, Debug, PartialEq, Eq)]
pub struct Checks {
    /// The folder in the samples' directory, or nothing for the directory itself.
    pub folder: &'static str,
    /// The list's name.
    pub list: &'static str,
    /// What all marks hold at first; they are as long as the file.
    pub first_mark: u8,
    /// How many lines the list has.
    pub lines: usize,
    /// Its lines have the location.
    pub located: bool,
}

/// All lists of checks.
pub const CHECKS: [Checks; 11] = [
    Checks { folder: "", list: "checks.txt", first_mark: 0xAA, lines: 830, located: false },
    Checks { folder: "levels", list: "checks.txt", first_mark: 0xAA, lines: 400, located: false },
    Checks { folder: "levels", list: "checks01.txt", first_mark: 1, lines: 400, located: false },
    Checks { folder: "padded", list: "checks.txt", first_mark: 0xAA, lines: 400, located: false },
    Checks { folder: "padded", list: "checks01.txt", first_mark: 1, lines: 400, located: false },
    Checks { folder: "locations", list: "checks.txt", first_mark: 0xAA, lines: 400, located: true },
    Checks { folder: "locations", list: "checks01.txt", first_mark: 1, lines: 400, located: true },
    Checks { folder: "vax", list: "checks.txt", first_mark: 0xAA, lines: 400, located: true },
    Checks { folder: "vax", list: "checks01.txt", first_mark: 1, lines: 400, located: true },
    Checks { folder: "rounds", list: "checks.txt", first_mark: 0xAA, lines: 400, located: true },
    Checks { folder: "rounds", list: "checks01.txt", first_mark: 1, lines: 400, located: true },
];

/// A line of a list of checks.
#[derive(Clone, Debug, PartialEq, Eq)]
pub struct CheckLine {
    /// The file.
    pub name: String,
    /// The verdict of the check.
    pub verdict: i32,
    /// Steps of the check.
    pub steps: u64,
    /// FNV-1a of the marks at the end.
    pub marks: u64,
    /// The location, in a list that has it.
    pub location: Option<u64>,
}

impl CheckLine {
    /// What a check left is what the line says, in the location too if the line has it.
    pub fn says(&self, (verdict, steps, location): Granted) -> bool {
        let same = (self.verdict, self.steps) == (verdict, steps);
        same && self.location.is_none_or(|expected| expected == location)
    }
}

/// Reads a line of a list of checks.
pub fn check_line(line: &str) -> Option<CheckLine> {
    let words: Vec<&str> = line.split_whitespace().collect();
    let (words, location) = match *words.as_slice() {
        [name, verdict, steps, marks] => ([name, verdict, steps, marks], None),
        [name, verdict, steps, marks, location] => {
            ([name, verdict, steps, marks], Some(location.parse().ok()?))
        }
        _ => return None,
    };
    Some(CheckLine {
        name: words[0].to_string(),
        verdict: words[1].parse().ok()?,
        steps: words[2].parse().ok()?,
        marks: u64::from_str_radix(words[3], 16).ok()?,
        location,
    })
}

/// The files of a folder's `checks.tar`, by name.
pub fn archived(folder: &str) -> Option<HashMap<String, Vec<u8>>> {
    let archive = std::fs::read(directory().join(folder).join("checks.tar")).ok()?;
    let found = members(&archive)?.into_iter();
    Some(found.map(|member| (member.name, member.bytes)).collect())
}

impl Checks {
    /// The lines, each with its file; nothing if one of them is missing or not of its form, or if there are not so many.
    pub fn checked_files(&self) -> Option<Vec<(CheckLine, Vec<u8>)>> {
        let path = directory().join(self.folder).join(self.list);
        let text = std::fs::read_to_string(path).ok()?;
        let mut files = archived(self.folder)?;
        let lines = text.lines().map(|line| {
            let line = check_line(line).filter(|line| line.location.is_some() == self.located)?;
            let file = files.remove(&line.name)?;
            Some((line, file))
        });
        lines.collect::<Option<Vec<_>>>().filter(|found| found.len() == self.lines)
    }
}

/// The folders with a list of reads, `reads.txt`, and how many lines it has.
pub const READS: [(&str, usize); 6] = [
    ("", 4623),
    ("levels", 10000),
    ("padded", 10000),
    ("locations", 10000),
    ("vax", 10000),
    ("rounds", 10000),
];

/// A line of a list of reads.
#[derive(Clone, Debug, PartialEq, Eq)]
pub struct ReadLine {
    /// The file.
    pub name: String,
    /// What is asked.
    pub question: Question,
    /// What is answered.
    pub answer: Answer,
}

/// Reads a line of a list of reads: a call, the file, the call's numbers, and what is answered.
pub fn read_line(line: &str) -> Option<ReadLine> {
    let (question, answer) = line.split_once(" = ")?;
    let mut words = question.split_whitespace();
    let (call, name) = (words.next()?, words.next()?.to_string());
    let numbers = words.map(|word| word.parse().ok()).collect::<Option<Vec<i64>>>()?;
    let question = match (call, numbers.as_slice()) {
        ("value", [kind, number, record, element, indices @ ..]) => {
            Question::Value(*kind, *number, *record, indices.to_vec(), *element)
        }
        ("entry", [attribute, kind, entry, element]) => {
            Question::Entry(*attribute, *kind, *entry, *element)
        }
        ("pad", [kind, number, element]) => Question::Pad(*kind, *number, *element),
        ("levels", [kind, number, record]) => Question::Levels(*kind, *number, *record),
        ("padding", []) => Question::File(FILE_PADDING),
        _ => return None,
    };
    Some(ReadLine { name, question, answer: read_answer(answer)? })
}

/// `refused N`, `value KIND NUMBER OFFSET`, `levels N`, or `padding N`.
fn read_answer(answer: &str) -> Option<Answer> {
    let words: Vec<&str> = answer.split_whitespace().collect();
    match words.as_slice() {
        ["refused", number] => Some(Err(number.parse().ok()?)),
        ["levels" | "padding", number] => Some(Ok(Given::Field(number.parse().ok()?))),
        ["value", kind, number, offset] => {
            let kinds = ["signed", "unsigned", "single", "double", "character"];
            let kind = kinds.iter().position(|name| name == kind)?;
            let number: i128 = number.parse().ok()?;
            let kind = u64::try_from(kind).ok()?;
            Some(Ok(Given::Value(kind, number as u64, offset.parse().ok()?)))
        }
        _ => None,
    }
}

/// The lines of a list of reads; nothing if one of them cannot be read.
pub fn read_lines(path: &Path) -> Option<Vec<ReadLine>> {
    std::fs::read_to_string(path).ok()?.lines().map(read_line).collect()
}
