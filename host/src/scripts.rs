//! The scripts of rounds of the samples, `rounds/rounds.txt`: areas, rows, and what each round over them leaves.

use crate::samples;
use crate::second::rounds::{Job, Part};
use std::collections::HashMap;

/// The folder of the scripts and of their files in the samples' directory.
pub const FOLDER: &str = "rounds";

/// What the scripts hold: how many there are, their rows, their rounds.
pub const HELD: (usize, usize, usize) = (40, 208, 155);

/// A script: the areas and the list at first, and its rounds.
#[derive(Clone, Debug, Default, PartialEq, Eq)]
pub struct Script {
    /// The file area.
    pub files: Vec<u8>,
    /// The marks area.
    pub marks: Vec<u8>,
    /// The list, each job fresh.
    pub jobs: Vec<Job>,
    /// The rounds in order.
    pub rounds: Vec<Round>,
}

/// A round of a script.
#[derive(Clone, Debug, PartialEq, Eq)]
pub struct Round {
    /// The steps of each unfinished job.
    pub steps: u64,
    /// What the round answers.
    pub answer: i32,
    /// FNV-1a of the marks area after it.
    pub marks: u64,
    /// The last answer and the location of each row after it.
    pub rows: Vec<(i32, u64)>,
}

/// `Q = ANSWER FNV LAST:LOCATION ..`.
fn round(words: &[&str]) -> Option<Round> {
    let [steps, "=", answer, marks, rows @ ..] = words else {
        return None;
    };
    let row = |word: &&str| {
        let (last, location) = word.split_once(':')?;
        Some((last.parse().ok()?, location.parse().ok()?))
    };
    Some(Round {
        steps: steps.parse().ok()?,
        answer: answer.parse().ok()?,
        marks: u64::from_str_radix(marks, 16).ok()?,
        rows: rows.iter().map(row).collect::<Option<Vec<_>>>()?,
    })
}

impl Script {
    /// Takes a line: `file NAME` and `gap N` add to the file area, `marks N BYTE` makes the marks area, `row ..` adds a
    /// row; a round comes behind all of these.
    fn take(&mut self, words: &[&str], files: &HashMap<String, Vec<u8>>) -> Option<()> {
        if let ["round", rest @ ..] = words {
            self.rounds.push(round(rest).filter(|round| round.rows.len() == self.jobs.len())?);
            return Some(());
        }
        if !self.rounds.is_empty() {
            return None;
        }
        match words {
            ["file", name] => self.files.extend(files.get(*name)?),
            ["gap", bytes] => {
                let length = self.files.len() + bytes.parse::<usize>().ok()?;
                self.files.resize(length, 0);
            }
            ["marks", length, mark] => {
                self.marks = vec![mark.parse().ok()?; length.parse().ok()?];
            }
            ["row", owner, rest @ ..] => self.jobs.push(row(owner, rest)?),
            _ => return None,
        }
        Some(())
    }
}

/// `OWNER FILEAT FILELEN MARKSAT MARKSLEN`: a fresh job.
fn row(owner: &str, rest: &[&str]) -> Option<Job> {
    let numbers = rest.iter().map(|word| word.parse().ok()).collect::<Option<Vec<usize>>>()?;
    let [from, length, marks_from, marks_length] = *numbers.as_slice() else {
        return None;
    };
    let marks = Part { from: marks_from, length: marks_length };
    Some(Job::fresh(owner.parse().ok()?, Part { from, length }, marks))
}

/// The scripts of a text, each from its `clear` on; nothing if a line cannot be read.
fn read(text: &str, files: &HashMap<String, Vec<u8>>) -> Option<Vec<Script>> {
    let mut scripts: Vec<Script> = Vec::new();
    for line in text.lines() {
        match line.split_whitespace().collect::<Vec<&str>>().as_slice() {
            ["clear"] => scripts.push(Script::default()),
            words => scripts.last_mut()?.take(words, files)?,
        }
    }
    Some(scripts)
}

/// All scripts of the samples; nothing if one cannot be read, or if they do not hold what they should.
pub fn all() -> Option<Vec<Script>> {
    let path = samples::directory().join(FOLDER).join("rounds.txt");
    let text = std::fs::read_to_string(path).ok()?;
    let scripts = read(&text, &samples::archived(FOLDER)?)?;
    let sum = |of: fn(&Script) -> usize| scripts.iter().map(of).sum::<usize>();
    let held = (scripts.len(), sum(|script| script.jobs.len()), sum(|script| script.rounds.len()));
    (held == HELD).then_some(scripts)
}

#[cfg(test)]
mod tests {
    use super::*;

    fn files() -> HashMap<String, Vec<u8>> {
        HashMap::from([("a.cdf".to_string(), vec![1, 2, 3])])
    }

    #[test]
    fn a_script_is_read() {
        let text = "clear\ngap 2\nfile a.cdf\nmarks 4 170\nrow 7 2 3 0 4\nround 5 = -1 0f 3:0\n";
        let scripts = read(text, &files()).expect("a script");
        let (file, marks) = (Part { from: 2, length: 3 }, Part { from: 0, length: 4 });
        let expected = Script {
            files: vec![0, 0, 1, 2, 3],
            marks: vec![170; 4],
            jobs: vec![Job::fresh(7, file, marks)],
            rounds: vec![Round { steps: 5, answer: -1, marks: 15, rows: vec![(3, 0)] }],
        };
        assert_eq!(scripts, [expected]);
    }

    #[test]
    fn other_lines_are_no_script() {
        let wrong = [
            "file a.cdf",
            "clear\nfile b.cdf",
            "clear\nrow 1 2 3 4",
            "clear\nround 5 = -1 0f 3:0",
            "clear\nround 5 -1 0f",
            "clear\nround 5 = -1 0f\ngap 1",
            "clear\nbuild 1",
        ];
        for text in wrong {
            assert_eq!(read(text, &files()), None, "{text}");
        }
    }
}
