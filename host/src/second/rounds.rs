//! Files by turns (the request of that name): jobs share a window, and a round gives every unfinished one a grant of the same
//! steps.

use super::check::{grant, State, FRESH, RUNNING};
use super::state;

/// A round that is refused: nothing is granted and nothing changes.
pub const BAD_ROUND: i32 = 24;

/// How many jobs share a window at most.
pub const MOST_JOBS: usize = 8;

/// A part of an area.
#[derive(Clone, Copy, Debug, Default, PartialEq, Eq)]
pub struct Part {
    /// Where it begins in the area.
    pub from: usize,
    /// How many bytes it has.
    pub length: usize,
}

impl Part {
    /// Where it ends, as a number that no sum passes.
    fn end(self) -> u128 {
        self.from as u128 + self.length as u128
    }

    /// It lies in an area of so many bytes.
    fn is_inside(self, area: usize) -> bool {
        self.end() <= area as u128
    }

    /// A byte of the area belongs to both; an empty part has none.
    fn overlaps(self, other: Part) -> bool {
        let first = self.from.max(other.from) as u128;
        first < self.end().min(other.end())
    }

    /// Its bytes in an area that it lies in.
    fn range(self) -> std::ops::Range<usize> {
        self.from..self.from + self.length
    }
}

/// A job: a row of the list.
#[derive(Clone, Debug, PartialEq, Eq)]
pub struct Job {
    /// Whose job it is; no round looks at it.
    pub owner: u32,
    /// The saved state of its check.
    pub state: State,
    /// What its last grant answered, or the verdict that it is finished with.
    pub last: i32,
    /// Its part of the file area.
    pub file: Part,
    /// Its part of the marks area.
    pub marks: Part,
}

impl Job {
    /// A job that begins: its state is fresh, and nothing was answered yet.
    pub fn fresh(owner: u32, file: Part, marks: Part) -> Job {
        Job { owner, state: FRESH, last: RUNNING, file, marks }
    }

    /// Its turn: a finished job takes its verdict, any other the answer of a grant on its own parts.
    fn turn(&mut self, files: &[u8], marks: &mut [u8], steps: u64) {
        self.last = state::verdict(&self.state).unwrap_or_else(|| {
            let (file, marks) = (&files[self.file.range()], &mut marks[self.marks.range()]);
            grant(file, marks, &mut self.state, steps).verdict
        });
    }
}

/// A round over a list of jobs: -1 after each had its turn of so many steps, in list order; or 24, and nothing changed.
pub fn round(files: &[u8], marks: &mut [u8], jobs: &mut [Job], steps: u64) -> i32 {
    if steps == 0 || jobs.len() > MOST_JOBS {
        return BAD_ROUND;
    }
    let parts: [Vec<Part>; 2] =
        [jobs.iter().map(|job| job.file).collect(), jobs.iter().map(|job| job.marks).collect()];
    if !are_apart(&parts[0], files.len()) || !are_apart(&parts[1], marks.len()) {
        return BAD_ROUND;
    }
    jobs.iter_mut().for_each(|job| job.turn(files, marks, steps));
    RUNNING
}

/// Parts of one area, of finished jobs too: each lies in it, and no two overlap.
fn are_apart(parts: &[Part], area: usize) -> bool {
    let behind = |place: usize| parts.iter().skip(place + 1);
    let apart = |(place, part): (usize, &Part)| !behind(place).any(|other| part.overlaps(*other));
    parts.iter().all(|part| part.is_inside(area)) && parts.iter().enumerate().all(apart)
}

#[cfg(test)]
mod tests {
    use super::*;

    /// Whether parts overlap, byte by byte.
    #[test]
    fn overlaps_are_shared_bytes() {
        let all = || (0..6).flat_map(|from| (0..4).map(move |length| Part { from, length }));
        for (one, other) in all().flat_map(|one| all().map(move |other| (one, other))) {
            let shared = one.range().any(|byte| other.range().contains(&byte));
            assert_eq!(one.overlaps(other), shared, "{one:?} {other:?}");
            let inside = one.range().all(|byte| byte < 5) && one.from <= 5;
            assert_eq!(one.is_inside(5), inside, "{one:?}");
        }
    }

    /// Sums past the greatest number are no small numbers.
    #[test]
    fn sums_that_pass_every_number() {
        let far = Part { from: usize::MAX, length: usize::MAX };
        assert!(!far.is_inside(usize::MAX));
        assert!(far.overlaps(Part { from: usize::MAX, length: 1 }));
        assert!(!far.overlaps(Part { from: 0, length: usize::MAX }));
        assert!(!Part { from: 2, length: usize::MAX }.is_inside(1));
    }
}
