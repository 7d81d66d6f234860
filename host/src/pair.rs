//! The proved checker and the second one side by side: each grant is made to both and compared in all that it leaves,
//! which is the answer, the steps, the location, every number of the state and every mark.

use crate::bindings::{check_grant, Granted};
use crate::second::check::{watched_grant, End, State, FRESH, OTHER_FILE, RUNNING};
use crate::second::rules::body;
use crate::second::state::level_count;
use std::collections::BTreeMap;

/// A step that gave 20: phase and kind before it, and what was wrong.
pub type BadStep = (u32, u32, &'static str);

/// What was compared. A phase of 9 stands for all above 8.
#[derive(Clone, Debug, Default, PartialEq, Eq)]
pub struct Compared {
    /// Grants to both checkers.
    pub grants: u64,
    /// What these answered.
    pub answers: BTreeMap<i32, u64>,
    /// Steps that each made in them, by phase.
    pub steps: BTreeMap<u32, u64>,
    /// Steps along an index, by how many levels are above the record that is walked.
    pub levels: BTreeMap<usize, u64>,
    /// Steps that finished a check, by phase and verdict.
    pub ends: BTreeMap<(u32, i32), u64>,
    /// Those that gave 20.
    pub bad_steps: BTreeMap<BadStep, u64>,
    /// Grants that refused and gave a location, by answer.
    pub locations: BTreeMap<i32, u64>,
    /// Grants after the end that gave a location again, by answer.
    pub repeated: BTreeMap<i32, u64>,
}

fn count<K: Ord>(counts: &mut BTreeMap<K, u64>, key: K) {
    *counts.entry(key).or_insert(0) += 1;
}

impl Compared {
    /// Adds a step: the state before it, and how it finished the check if it did.
    fn see(&mut self, before: &State, end: Option<End>) {
        let phase = before[2].min(9);
        count(&mut self.steps, phase);
        if let (4 | 5, Some(levels)) = (phase, level_count(before)) {
            count(&mut self.levels, levels);
        }
        let Some(end) = end else {
            return;
        };
        count(&mut self.ends, (phase, end.verdict()));
        match end {
            End::PastEnd(what) => count(&mut self.bad_steps, (phase, before[3], what)),
            End::OutOfRange => count(&mut self.bad_steps, (phase, 0, "out of range")),
            End::Accepted | End::OfFile(_) | End::At(..) => {}
        }
    }

    /// Adds a grant by what it left.
    fn add(&mut self, (answer, steps, location): Granted) {
        self.grants += 1;
        count(&mut self.answers, answer);
        match (location, steps) {
            (0, _) => {}
            (_, 0) => count(&mut self.repeated, answer),
            _ => count(&mut self.locations, answer),
        }
    }

    /// Which of these verdicts no step of these phases gave.
    pub fn missing(&self, ends: &[(u32, &[i32])]) -> Vec<(u32, i32)> {
        let all =
            ends.iter().flat_map(|(phase, verdicts)| verdicts.iter().map(|end| (*phase, *end)));
        all.filter(|end| !self.ends.contains_key(end)).collect()
    }
}

/// A check by both, each with a state and marks of its own.
#[derive(Clone, Debug)]
pub struct Pair {
    state: Vec<u32>,
    marks: Vec<u8>,
    second_state: Vec<u32>,
    second_marks: Vec<u8>,
}

impl Pair {
    /// Both at the same state, of any length, with the same marks.
    pub fn new(state: &[u32], marks: &[u8]) -> Pair {
        Pair {
            state: state.to_vec(),
            marks: marks.to_vec(),
            second_state: state.to_vec(),
            second_marks: marks.to_vec(),
        }
    }

    /// Both fresh.
    pub fn fresh(marks: &[u8]) -> Pair {
        Pair::new(&FRESH, marks)
    }

    /// The state that both have.
    pub fn state(&self) -> &[u32] {
        &self.state
    }

    /// The marks that both have.
    pub fn marks(&self) -> &[u8] {
        &self.marks
    }

    /// A grant to both: what it leaves, if they agree in everything; else in what they do not.
    pub fn grant(
        &mut self,
        file: &[u8],
        steps: u64,
        compared: &mut Compared,
    ) -> Result<Granted, String> {
        let before = self.state.clone();
        let answer = check_grant(file, &mut self.marks, &mut self.state, steps);
        let mut last = None;
        let mut watch = |state: &State, end: Option<End>| {
            compared.see(state, end);
            last = end;
        };
        let (marks, state) = (&mut self.second_marks, &mut self.second_state);
        let second = watched_grant(file, marks, state, steps, &mut watch);
        compared.add(answer);
        let second = (second.verdict, second.steps, second.location);
        let Some(wrong) = self.difference(answer, second) else {
            return Ok(answer);
        };
        let length = file.len();
        Err(format!("{steps} steps from {before:?}, file of {length}: {wrong}, ended by {last:?}"))
    }

    /// In what the two differ after a grant.
    fn difference(&self, answer: Granted, second: Granted) -> Option<String> {
        if answer != second {
            return Some(format!("proved {answer:?}, second {second:?}"));
        }
        if answer.2 != 0 && !matches!(answer.0, 7..=14 | 23) {
            return Some(format!("{answer:?} has a location"));
        }
        if self.state != self.second_state {
            return Some(format!("proved leaves {:?}, second {:?}", self.state, self.second_state));
        }
        let both = self.marks.iter().zip(&self.second_marks);
        let other = both.enumerate().find(|(_, (proved, second))| proved != second);
        other.map(|(at, marks)| format!("after {answer:?} marks {marks:?} at {at}"))
    }
}

/// Both from a state to the end of its check, in one grant and again in parts of these sizes: the answer, if they agree
/// at every stop, the parts leave what one grant leaves, no mark before the first record or from the file's end on
/// changes, and a grant after the end, with anything lent, says the same again.
pub fn to_the_end(
    file: &[u8],
    state: &[u32],
    marks: &[u8],
    part: &mut dyn FnMut() -> u64,
    compared: &mut Compared,
) -> Result<i32, String> {
    let most = 8 * file.len() as u64 + 100;
    let mut whole = Pair::new(state, marks);
    let granted = whole.grant(file, most, compared)?;
    let mut parts = Pair::new(state, marks);
    let mut in_parts = parts.grant(file, part(), compared)?;
    while in_parts.0 == RUNNING && in_parts.1 < most {
        let (next, more, location) = parts.grant(file, part(), compared)?;
        in_parts = (next, in_parts.1 + more, location);
    }
    let same = in_parts == granted && parts.state == whole.state;
    let end = body(file).len();
    let outside = |marks: &[u8]| -> Vec<u8> {
        marks.iter().take(8).chain(marks.iter().skip(end)).copied().collect()
    };
    if granted.0 == RUNNING || !same || parts.marks != whole.marks {
        return Err(format!("{state:?}: {granted:?}, in parts {in_parts:?}"));
    }
    if outside(&whole.marks) != outside(marks) {
        return Err(format!("{state:?}: marks outside the file's records were written"));
    }
    said_again(&whole, granted, compared)?;
    Ok(granted.0)
}

/// A finished check says its verdict and its location again, in 0 steps and without a change, to a grant of nothing and to
/// one that is lent another file. After 21 a grant of nothing has no verdict.
pub fn said_again(ended: &Pair, granted: Granted, compared: &mut Compared) -> Result<(), String> {
    let again = match granted {
        (OTHER_FILE, ..) => return Ok(()),
        (answer, _, location) => (answer, 0, location),
    };
    for (file, steps) in [(&[][..], 0), (&[1, 2, 3][..], 0), (&[1, 2, 3][..], 1)] {
        let mut pair = ended.clone();
        let said = pair.grant(file, steps, compared)?;
        if said != again || pair.state != ended.state || pair.marks != ended.marks {
            return Err(format!("{:?} says {said:?} and not {again:?}", ended.state));
        }
    }
    Ok(())
}

#[cfg(test)]
mod tests {
    use super::*;
    use crate::build;
    use crate::damage::{damaged, Damage};
    use crate::second::state::{finished, LOCATION};

    /// Every difference is found: in the answer, the steps, each number of the state and any mark.
    #[test]
    fn differences_are_found() {
        let (_, file) = build::any(1);
        let mut compared = Compared::default();
        let mut pair = Pair::fresh(&vec![0; file.len() + 1]);
        assert_eq!(pair.grant(&file, 1, &mut compared), Ok((-1, 1, 0)));
        for at in [0, 7, 8, file.len() - 1, file.len()] {
            let mut other = pair.clone();
            other.second_marks[at] ^= 1;
            assert!(other.grant(&file, 0, &mut compared).is_err(), "mark {at}");
        }
        for place in 0..pair.state.len() {
            let mut other = pair.clone();
            other.second_state[place] ^= 64;
            assert!(other.grant(&file, 0, &mut compared).is_err(), "number {place}");
        }
        let mut longer = Pair::new(&[0; 35], &[]);
        longer.second_state.pop();
        assert!(longer.grant(&file, 1, &mut compared).is_err(), "a number less");
    }

    #[test]
    fn different_answers_are_found() {
        let (_, file) = build::any(1);
        let marks = vec![0; file.len()];
        let mut compared = Compared::default();
        let mut ahead = Pair::fresh(&marks);
        watched_grant(&file, &mut ahead.second_marks, &mut ahead.second_state, 1, &mut |_, _| {});
        assert!(ahead.grant(&file, u64::MAX, &mut compared).is_err(), "steps");
        let other = damaged(&file, &Damage::Field { offset: 4, value: 1 });
        let mut refused = Pair::fresh(&marks);
        let (marks, state) = (&mut refused.second_marks, &mut refused.second_state);
        watched_grant(&file, marks, state, u64::MAX, &mut |_, _| {});
        assert!(refused.grant(&other, 1, &mut compared).is_err(), "answers");
        let mut elsewhere = Pair::new(&finished(9, 504), &[]);
        assert_eq!(elsewhere.grant(&file, 0, &mut compared), Ok((9, 0, 504)));
        elsewhere.second_state[LOCATION] = 505;
        let found = elsewhere.grant(&file, 0, &mut compared).expect_err("locations");
        assert!(found.contains("(9, 0, 504)") && found.contains("(9, 0, 505)"), "{found}");
    }
}
