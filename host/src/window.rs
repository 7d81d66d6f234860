//! Jobs that share a window: the proved round and the second one side by side. Each round is made by both and compared in
//! all that it leaves, which is the answer, every row and every mark; and nothing else may change.

use crate::bindings::{self, TlzJob};
use crate::second::rounds::{self, Job, Part, BAD_ROUND};

/// The row that a job is in C.
pub fn row(job: &Job) -> TlzJob {
    TlzJob {
        owner: job.owner,
        answer: job.last,
        file_from: job.file.from,
        file_len: job.file.length,
        marks_from: job.marks.from,
        marks_len: job.marks.length,
        state: job.state,
    }
}

/// The job that a row of C is.
pub fn job(row: &TlzJob) -> Job {
    Job {
        owner: row.owner,
        state: row.state,
        last: row.answer,
        file: Part { from: row.file_from, length: row.file_len },
        marks: Part { from: row.marks_from, length: row.marks_len },
    }
}

/// Files side by side, each with marks of its length at the same offset: the area, and a fresh job for each.
pub fn side_by_side(files: &[Vec<u8>]) -> (Vec<u8>, Vec<Job>) {
    let mut jobs: Vec<Job> = Vec::new();
    let mut from = 0;
    for (file, owner) in files.iter().zip(1..) {
        let part = Part { from, length: file.len() };
        jobs.push(Job::fresh(owner, part, part));
        from += file.len();
    }
    (files.concat(), jobs)
}

/// A list of jobs over two areas, by both; each has marks and rows of its own.
#[derive(Clone, Debug, PartialEq, Eq)]
pub struct Window {
    files: Vec<u8>,
    marks: Vec<u8>,
    rows: Vec<TlzJob>,
    second_marks: Vec<u8>,
    second_jobs: Vec<Job>,
}

impl Window {
    /// Both with the same areas and the same list.
    pub fn new(files: &[u8], marks: &[u8], jobs: &[Job]) -> Window {
        Window {
            files: files.to_vec(),
            marks: marks.to_vec(),
            rows: jobs.iter().map(row).collect(),
            second_marks: marks.to_vec(),
            second_jobs: jobs.to_vec(),
        }
    }

    /// The file area.
    pub fn files(&self) -> &[u8] {
        &self.files
    }

    /// The marks area that both have.
    pub fn marks(&self) -> &[u8] {
        &self.marks
    }

    /// The list that both have.
    pub fn jobs(&self) -> &[Job] {
        &self.second_jobs
    }

    /// A round by both: its answer, if they agree in everything and nothing changed that may not; else what is wrong.
    pub fn round(&mut self, steps: u64) -> Result<i32, String> {
        let before = self.clone();
        let answer = bindings::round(&self.files, &mut self.marks, &mut self.rows, steps);
        let (marks, jobs) = (&mut self.second_marks, &mut self.second_jobs);
        let second = rounds::round(&self.files, marks, jobs, steps);
        let wrong = match answer == second {
            true => self.difference().or_else(|| self.wrong_change(&before, answer)),
            false => Some(format!("proved {answer}, second {second}")),
        };
        let Some(wrong) = wrong else {
            return Ok(answer);
        };
        let lengths = (self.files.len(), self.marks.len());
        Err(format!("{wrong}, in a round of {steps} over {lengths:?}, {:?}", before.second_jobs))
    }

    /// In what the two differ after a round.
    fn difference(&self) -> Option<String> {
        let both = self.rows.iter().map(job).zip(&self.second_jobs);
        let other = both.enumerate().find(|(_, (proved, second))| proved != *second);
        if let Some((place, (proved, second))) = other {
            return Some(format!("row {place}: proved leaves {proved:?}, second {second:?}"));
        }
        let both = self.marks.iter().zip(&self.second_marks);
        let other = both.enumerate().find(|(_, (proved, second))| proved != second);
        other.map(|(at, marks)| format!("marks {marks:?} at {at}"))
    }

    /// What a round of this answer changed that it may not: anything if it was refused; else an owner, a part, a byte of
    /// the file area, or a mark outside all parts.
    fn wrong_change(&self, before: &Window, answer: i32) -> Option<String> {
        if answer == BAD_ROUND {
            return (self != before)
                .then(|| "a round that was refused changed something".to_string());
        }
        let kept = |window: &Window| -> Vec<(u32, Part, Part)> {
            window.jobs().iter().map(|job| (job.owner, job.file, job.marks)).collect()
        };
        if self.files != before.files || kept(self) != kept(before) {
            return Some("the file area, an owner or a part changed".to_string());
        }
        let outside = |at: usize| !self.second_jobs.iter().any(|job| has(job.marks, at));
        let both = self.marks.iter().zip(&before.marks);
        let written = both.enumerate().find(|(at, (now, then))| now != then && outside(*at));
        written.map(|(at, _)| format!("the mark at {at} is in no part and was written"))
    }

    /// The marks of a job's part.
    pub fn marks_of(&self, place: usize) -> Option<&[u8]> {
        part_of(&self.marks, self.second_jobs.get(place)?.marks)
    }

    /// A job of the list by itself, in areas that are its parts.
    pub fn alone(&self, place: usize) -> Option<Window> {
        let job = self.second_jobs.get(place)?;
        let file = part_of(&self.files, job.file)?;
        let marks = self.marks_of(place)?;
        let whole = |bytes: &[u8]| Part { from: 0, length: bytes.len() };
        let only = Job { file: whole(file), marks: whole(marks), ..job.clone() };
        Some(Window::new(file, marks, &[only]))
    }

    /// A job of the list stands where one of another list does: state, last answer and marks are the same.
    pub fn stands_as(&self, place: usize, other: &Window, there: usize) -> bool {
        let of = |window: &Window, place: usize| {
            let job = window.second_jobs.get(place)?;
            Some((job.state, job.last, window.marks_of(place)?.to_vec()))
        };
        of(self, place).is_some_and(|ours| of(other, there) == Some(ours))
    }
}

/// An offset lies in a part.
fn has(part: Part, at: usize) -> bool {
    at >= part.from && at - part.from < part.length
}

/// The bytes of a part of an area; nothing if it does not lie there.
fn part_of(area: &[u8], part: Part) -> Option<&[u8]> {
    area.get(part.from..part.from.checked_add(part.length)?)
}

#[cfg(test)]
mod tests {
    use super::*;
    use crate::build;

    fn window() -> Window {
        let files = [1, 2, 3].map(|seed| build::any(seed).1);
        let (area, jobs) = side_by_side(&files);
        Window::new(&area, &vec![0; area.len() + 1], &jobs)
    }

    /// Every difference of the two is found: in any number of a row and in any mark, after a round that was made and after
    /// one that was refused.
    #[test]
    fn differences_are_found() {
        let changes: [fn(&mut Window); 8] = [
            |window| window.second_jobs[1].owner ^= 1,
            |window| window.second_jobs[2].state[33] ^= 1,
            |window| window.second_jobs[0].file.length -= 1,
            |window| window.second_jobs[0].marks.length -= 1,
            |window| window.second_jobs[0].last ^= 1,
            |window| window.second_marks[3] ^= 1,
            |window| *window.second_marks.last_mut().expect("a mark") ^= 1,
            |window| window.second_jobs[1].file.from -= 1,
        ];
        for (place, change) in changes.iter().enumerate() {
            let mut other = window();
            assert_eq!(other.round(1), Ok(-1));
            change(&mut other);
            assert!(other.round(0).is_err(), "change {place}, refused");
            let seen_in_a_turn = place != 4;
            assert!(!seen_in_a_turn || other.round(1).is_err(), "change {place}");
        }
    }

    /// What may not change is looked at.
    #[test]
    fn wrong_changes_are_found() {
        let before = window();
        let changes: [fn(&mut Window); 4] = [
            |window| window.files[9] ^= 1,
            |window| window.second_jobs[0].owner ^= 1,
            |window| window.second_jobs[1].marks.length -= 1,
            |window| *window.marks.last_mut().expect("a mark") ^= 1,
        ];
        for (place, change) in changes.iter().enumerate() {
            let mut after = before.clone();
            change(&mut after);
            assert!(after.wrong_change(&before, -1).is_some(), "change {place}");
            assert!(after.wrong_change(&before, BAD_ROUND).is_some(), "change {place}, refused");
        }
        let mut after = before.clone();
        after.marks[9] ^= 1;
        after.second_jobs[0].last = 7;
        assert_eq!(after.wrong_change(&before, -1), None);
        assert!(after.wrong_change(&before, BAD_ROUND).is_some());
    }
}
