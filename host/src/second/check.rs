//! The check, step by step (docs/RULES.md, sections 6 to 9), from one saved state to the next.
//!
//! A step looks at the state, the file and the marks that it is lent, and at nothing else; docs/STATE.md gives the
//! order in which it does so.

use super::bytes::length;
use super::rules::{self, Breach, Record};
use super::state::{self, Link, Phase, Point};
use super::walk;

pub use super::state::{State, FRESH, STATE_LENGTH};

/// No verdict yet.
pub const RUNNING: i32 = -1;
/// The file is accepted.
pub const ACCEPTED: i32 = 0;
/// A saved state of another length, a saved number out of its range, or a needed field past the file's end.
pub const BAD_STATE: i32 = 20;
/// The file length differs from the one noted at opening, or the marks are now shorter than it.
pub const OTHER_FILE: i32 = 21;

/// An index has more than eight levels.
pub const TOO_DEEP: i32 = 23;

const FIRST_RECORD: i64 = 8;

/// How a step finishes the check.
#[derive(Clone, Copy, Debug, PartialEq, Eq)]
pub enum End {
    /// 0.
    Accepted,
    /// The number of a refusal that speaks of the file as a whole, or of its CDR or GDR at the opening.
    OfFile(i32),
    /// The number of a refusal that speaks of a record, and the record's file offset.
    At(i32, i64),
    /// 20: a saved number is out of its range.
    OutOfRange,
    /// 20: what is named here lies past the file's end.
    PastEnd(&'static str),
}

impl End {
    /// The verdict that the check is finished with.
    pub fn verdict(self) -> i32 {
        match self {
            End::Accepted => ACCEPTED,
            End::OfFile(number) | End::At(number, _) => number,
            End::OutOfRange | End::PastEnd(_) => BAD_STATE,
        }
    }

    /// The file offset of the record at fault, 0 if there is none.
    pub fn location(self) -> u32 {
        match self {
            End::At(_, offset) => u32::try_from(offset).unwrap_or(0),
            _ => 0,
        }
    }

    /// What a breach of a rule is for the record that breaks it.
    pub(super) fn of_record(breach: Breach, offset: i64) -> End {
        match breach {
            Breach::Rule => End::At(10, offset),
            Breach::Ranges => End::At(12, offset),
            Breach::PastEnd(what) => End::PastEnd(what),
        }
    }
}

/// What a grant answers.
#[derive(Clone, Copy, Debug, PartialEq, Eq)]
pub struct Granted {
    /// -1 while running, 0 accepted, or the refusal's number.
    pub verdict: i32,
    /// Steps made in this grant.
    pub steps: u64,
    /// File offset of the record at fault; 0 without a refusal, or where the refusal is of no record.
    pub location: u64,
}

/// A check under way: its saved state, and the steps made since it began or was loaded.
#[derive(Clone, Debug, PartialEq, Eq)]
pub struct Check {
    state: State,
    steps: u64,
}

impl Default for Check {
    fn default() -> Check {
        Check::fresh()
    }
}

impl Check {
    /// The check before its first step.
    pub fn fresh() -> Check {
        Check::load(FRESH)
    }

    /// The check that a saved state says, whatever its numbers are.
    pub fn load(state: State) -> Check {
        Check { state, steps: 0 }
    }

    /// The saved state.
    pub fn state(&self) -> State {
        self.state
    }

    /// -1 while running, 0 accepted, or the number of the refusing step.
    pub fn verdict(&self) -> i32 {
        state::verdict(&self.state).unwrap_or(RUNNING)
    }

    /// File offset of the record at fault, 0 if there is none.
    pub fn location(&self) -> u64 {
        u64::from(state::location(&self.state))
    }

    /// Steps made since the check began or was loaded, the finishing one included.
    pub fn steps(&self) -> u64 {
        self.steps
    }

    /// A grant of one step; answers as the grant does.
    pub fn step(&mut self, file: &[u8], marks: &mut [u8]) -> i32 {
        self.grant(file, marks, 1).verdict
    }

    /// Makes as many steps as are granted or as remain.
    pub fn grant(&mut self, file: &[u8], marks: &mut [u8], steps: u64) -> Granted {
        let granted = grant(file, marks, &mut self.state, steps);
        self.steps = self.steps.saturating_add(granted.steps);
        granted
    }
}

/// The whole check at once: verdict, steps and location.
pub fn run(file: &[u8], marks: &mut [u8]) -> Granted {
    Check::fresh().grant(file, marks, u64::MAX)
}

/// A grant of steps on a saved state of any length.
pub fn grant(file: &[u8], marks: &mut [u8], state: &mut [u32], steps: u64) -> Granted {
    watched_grant(file, marks, state, steps, &mut |_, _| {})
}

/// The same, each step being shown: the state before it, and how it finishes the check if it does.
pub fn watched_grant(
    file: &[u8],
    marks: &mut [u8],
    state: &mut [u32],
    steps: u64,
    watch: &mut dyn FnMut(&State, Option<End>),
) -> Granted {
    let Ok(state) = <&mut State>::try_from(state) else {
        return Granted { verdict: BAD_STATE, steps: 0, location: 0 };
    };
    let is_running = state::verdict(state).is_none();
    if is_running && steps > 0 && is_other_file(file, marks, state) {
        return Granted { verdict: OTHER_FILE, steps: 0, location: 0 };
    }
    let mut made = 0;
    while made < steps && state::verdict(state).is_none() {
        let after = step(file, marks, state);
        watch(state, after.err());
        *state = after.unwrap_or_else(|end| state::finished(end.verdict(), end.location()));
        made += 1;
    }
    said(state, made)
}

/// What a state says after so many steps.
fn said(state: &State, steps: u64) -> Granted {
    let verdict = state::verdict(state).unwrap_or(RUNNING);
    Granted { verdict, steps, location: u64::from(state::location(state)) }
}

/// 21: looked for once a length is noted.
fn is_other_file(file: &[u8], marks: &[u8], state: &State) -> bool {
    let noted = i64::from(state[1]);
    noted != 0 && (noted != length(file) || length(marks) < noted)
}

/// One step: the state after it, or how it finishes the check.
fn step(file: &[u8], marks: &mut [u8], state: &State) -> Result<State, End> {
    let now = Point::load(state).ok_or(End::OutOfRange)?;
    let next = match now.phase {
        Phase::Fresh => open(file, marks),
        Phase::Sweep => sweep(rules::body(file), marks, &now),
        Phase::Walk(link) => walk::step(rules::body(file), marks, link, &now),
    };
    next.map(|next| next.save())
}

/// The opening: 1, 2, then 3, 4, 5, 14, 6.
fn open(file: &[u8], marks: &[u8]) -> Result<Point, End> {
    if !rules::length_carried(file) {
        return Err(End::OfFile(1));
    }
    if marks.len() < file.len() {
        return Err(End::OfFile(2));
    }
    rules::opening(file).map_err(End::OfFile)?;
    Ok(Point::new(length(file), Phase::Sweep, 0, FIRST_RECORD))
}

/// One step of the sweep over the body of a file: 7, then 14 for types 10 to 13, each at the offset that is swept; then the
/// record's marks.
fn sweep(body: &[u8], marks: &mut [u8], now: &Point) -> Result<Point, End> {
    let refused = |number: i32| End::At(number, now.link);
    let record = Record::at(body, now.link).filter(Record::is_inside).ok_or(refused(7))?;
    match record.record_type {
        Some(-1 | 1..=9) => {}
        Some(10..=13) => return Err(refused(14)),
        _ => return Err(refused(7)),
    }
    let end = record.offset.saturating_add(record.size);
    set_marks(marks, record.offset, end);
    if end == length(body) {
        return Ok(Point::new(now.length, Phase::Walk(Link::Gdr), 0, 0));
    }
    Ok(Point::new(now.length, Phase::Sweep, 0, end))
}

/// Mark 1 at the record's start, 0 at its other bytes.
fn set_marks(marks: &mut [u8], start: i64, end: i64) {
    let bounds = usize::try_from(start).ok().zip(usize::try_from(end).ok());
    let own = bounds.and_then(|(start, end)| marks.get_mut(start..end));
    if let Some((first, others)) = own.and_then(|own| own.split_first_mut()) {
        *first = 1;
        others.fill(0);
    }
}
