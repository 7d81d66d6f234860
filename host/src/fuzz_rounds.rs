//! Fuzzing of rounds: windows of jobs of every kind at random, round after round by both implementations.
//!
//! Good files, rings and other damaged files share a window. States are fresh, points of checks, finished or made up; parts
//! touch or have gaps between them, are longer or shorter than the file, or have no bytes; now and then one overlaps another or
//! passes its area, or there are nine rows. After each round both must have left the same, and nothing else may have
//! changed; a window that is not refused at first is not refused later; fresh jobs end in time; and a job must stand
//! where it would stand by itself.

use crate::build::random::Random;
use crate::fuzz::{self, count, list, Difference};
use crate::made_up::Source;
use crate::second::check::{State, FRESH, RUNNING};
use crate::second::rounds::{Job, Part, BAD_ROUND, MOST_JOBS};
use crate::second::state::verdict;
use crate::window::Window;
use std::collections::BTreeMap;
use std::fmt;

/// What was covered.
#[derive(Clone, Debug, Default, PartialEq, Eq)]
pub struct Covered {
    /// Windows by what is wrong with them.
    pub windows: BTreeMap<&'static str, u64>,
    /// Jobs by their states at first.
    pub states: BTreeMap<&'static str, u64>,
    /// Jobs by their parts.
    pub parts: BTreeMap<&'static str, u64>,
    /// Rounds by their answers.
    pub rounds: BTreeMap<i32, u64>,
    /// Rounds by the steps of each turn.
    pub steps: BTreeMap<&'static str, u64>,
    /// What turns answered.
    pub answers: BTreeMap<i32, u64>,
    /// Jobs that ended in a round, by verdict.
    pub ended: BTreeMap<i32, u64>,
}

fn sum<K>(counts: &BTreeMap<K, u64>) -> u64 {
    counts.values().sum()
}

impl fmt::Display for Covered {
    fn fmt(&self, out: &mut fmt::Formatter) -> fmt::Result {
        writeln!(out, "windows           {}: {}", sum(&self.windows), list(&self.windows))?;
        writeln!(out, "jobs by state     {}: {}", sum(&self.states), list(&self.states))?;
        writeln!(out, "jobs by parts     {}", list(&self.parts))?;
        writeln!(out, "rounds            {}: {}", sum(&self.rounds), list(&self.rounds))?;
        writeln!(out, "rounds by steps   {}", list(&self.steps))?;
        writeln!(out, "turns' answers    {}", list(&self.answers))?;
        write!(out, "jobs ended        {}: {}", sum(&self.ended), list(&self.ended))
    }
}

/// A job before its parts are laid: its file, its marks and its state.
struct Loose {
    file: Vec<u8>,
    marks: Vec<u8>,
    state: State,
}

/// The most rounds of a window.
const MOST_ROUNDS: usize = 30;

/// What is wrong with a right window.
const NOTHING: &str = "nothing";

/// The most bytes between two parts.
const MOST_GAP: usize = 20;

/// One window, and rounds over it by both.
pub fn try_window(random: &mut Random, covered: &mut Covered) -> Result<(), Difference> {
    let (begun, wrong) = any_window(random, covered);
    let mut window = begun.clone();
    let played = rounds(&mut window, random, covered).and_then(|steps| {
        if steps.is_empty() == (wrong == NOTHING) {
            return Err(format!("{} rounds, with {wrong} wrong", steps.len()));
        }
        let place = random.size_below(begun.jobs().len());
        as_alone(&begun, &window, place, &steps)
    });
    played.map_err(|what| Difference { file: Some(begun.files().to_vec()), what })
}

/// Rounds until no job is left that runs, or as many as there may be: the steps of each that was made.
fn rounds(
    window: &mut Window,
    random: &mut Random,
    covered: &mut Covered,
) -> Result<Vec<u64>, String> {
    let (begun, first, changes) = (window.clone(), any_steps(random), random.once_in(4));
    let mut made = Vec::new();
    while made.len() < MOST_ROUNDS {
        let steps = if changes { any_steps(random) } else { first };
        if random.once_in(8) && one_round(window, 0, covered)? != BAD_ROUND {
            return Err("a round of no steps was made".to_string());
        }
        match (one_round(window, steps, covered)?, made.len()) {
            (RUNNING, _) => made.push(steps),
            (BAD_ROUND, 0) if one_round(window, 1, covered)? == BAD_ROUND => return Ok(made),
            (answer, before) => return Err(format!("{answer} after {before} rounds")),
        }
        if !changes {
            in_time(&begun, window, made.len() as u64, first)?;
        }
        if window.jobs().iter().all(|job| job.last != RUNNING) {
            break;
        }
    }
    Ok(made)
}

/// A round by both: its answer, which is counted, and so are its turns.
fn one_round(window: &mut Window, steps: u64, covered: &mut Covered) -> Result<i32, String> {
    let before: Vec<State> = window.jobs().iter().map(|job| job.state).collect();
    let answer = window.round(steps)?;
    count(&mut covered.rounds, answer);
    count(&mut covered.steps, steps_kind(steps));
    if answer == RUNNING {
        for (job, before) in window.jobs().iter().zip(&before) {
            count(&mut covered.answers, job.last);
            if let (None, Some(end)) = (verdict(before), verdict(&job.state)) {
                count(&mut covered.ended, end);
            }
        }
    }
    Ok(answer)
}

/// Jobs begun fresh have ended if they have had all the rounds that they may take, all of the same steps.
fn in_time(begun: &Window, now: &Window, rounds: u64, steps: u64) -> Result<(), String> {
    for (job, first) in now.jobs().iter().zip(begun.jobs()) {
        let most = (first.file.length as u64 / 4 + 1).div_ceil(steps);
        if first.state == FRESH && rounds >= most && verdict(&job.state).is_none() {
            return Err(format!("{job:?} runs after {rounds} rounds of {steps}"));
        }
    }
    Ok(())
}

/// A job by itself, after the same rounds, stands where it stands among the others.
fn as_alone(begun: &Window, now: &Window, place: usize, steps: &[u64]) -> Result<(), String> {
    let Some(mut alone) = begun.alone(place).filter(|_| !steps.is_empty()) else {
        return Ok(());
    };
    for steps in steps {
        if alone.round(*steps)? != RUNNING {
            return Err(format!("row {place} alone is refused"));
        }
    }
    let same = now.stands_as(place, &alone, 0);
    same.then_some(())
        .ok_or_else(|| format!("alone {:?}, among others {:?}", alone.jobs(), now.jobs()))
}

/// Steps of a round: few, many, or many of which the lower half says few.
fn any_steps(random: &mut Random) -> u64 {
    match random.below(8) {
        0 | 1 => 1,
        2..=4 => random.between(2, 20).unsigned_abs(),
        5 => random.between(21, 1000).unsigned_abs(),
        6 => u64::MAX,
        _ => ((1 + random.number() % 9) << 32) + random.number() % 4,
    }
}

fn steps_kind(steps: u64) -> &'static str {
    match steps {
        0 => "0",
        1 => "1",
        2..=20 => "2 to 20",
        21..=1000 => "21 to 1000",
        _ => "more",
    }
}

/// A window of up to eight jobs, or of nine; one in four has something wrong with it, which is told.
fn any_window(random: &mut Random, covered: &mut Covered) -> (Window, &'static str) {
    let number = if random.once_in(40) { MOST_JOBS + 1 } else { random.size_below(MOST_JOBS + 1) };
    let loose: Vec<Loose> = (0..number).map(|_| any_job(random, covered)).collect();
    let files: Vec<&[u8]> = loose.iter().map(|job| job.file.as_slice()).collect();
    let marks: Vec<&[u8]> = loose.iter().map(|job| job.marks.as_slice()).collect();
    let (files, mut file_parts) = laid(&files, random);
    let (marks, mut marks_parts) = laid(&marks, random);
    let wrong = match (number > MOST_JOBS, random.below(8)) {
        (true, _) => "nine rows",
        (false, 0) => spoil(&mut file_parts, files.len(), random),
        (false, 1) => spoil(&mut marks_parts, marks.len(), random),
        _ => NOTHING,
    };
    count(&mut covered.windows, wrong);
    let rows = loose.iter().zip(file_parts.into_iter().zip(marks_parts));
    let rows = rows.map(|(job, (file, marks))| Job {
        owner: random.number() as u32,
        state: job.state,
        last: random.between(-2, 25) as i32,
        file,
        marks,
    });
    (Window::new(&files, &marks, &rows.collect::<Vec<Job>>()), wrong)
}

/// A file, built or damaged, a state, and marks; a part of another length now and then.
fn any_job(random: &mut Random, covered: &mut Covered) -> Loose {
    let file = fuzz::draw(random).file;
    let source = Source::new(&file);
    let (state, marks) = source.any_point(random);
    let marks = source.any_marks(marks, random);
    let (kind, state) = match random.below(16) {
        0 | 1 => ("a point of a check", *state),
        2 => ("near one", source.near(state, random)),
        3 => ("in range", source.in_range(random)),
        4 => ("wrong levels", source.wrong_levels(random)),
        5 => ("finished", source.finished(random)),
        6 => ("wrong location", source.wrong_location(random)),
        7 => ("anything", source.anything(random)),
        _ => ("fresh", FRESH),
    };
    count(&mut covered.states, kind);
    let mut job = Loose { file, marks, state };
    count(&mut covered.parts, change_parts(&mut job, random));
    job
}

/// Gives file or marks another length.
fn change_parts(job: &mut Loose, random: &mut Random) -> &'static str {
    let (length, less) = (job.file.len(), random.between(1, 9) as usize);
    job.marks.truncate(length);
    match random.below(20) {
        0 => {
            job.marks.truncate(length.saturating_sub(less));
            "fewer marks"
        }
        1 | 2 => {
            job.marks.resize(length + less, random.byte());
            "more marks"
        }
        3 => {
            job.file.truncate(length.saturating_sub(less));
            "a shorter file"
        }
        4 => {
            job.file.resize(length + less, random.byte());
            job.marks.resize(length + less, random.byte());
            "a longer file"
        }
        5 => {
            job.file.clear();
            "no bytes"
        }
        6 => {
            job.marks.clear();
            "no marks"
        }
        _ => "of one length",
    }
}

/// Pieces in an area, in any order, some touching, some with gaps about them: the area, and the part of each. An empty
/// piece may lie anywhere.
fn laid(pieces: &[&[u8]], random: &mut Random) -> (Vec<u8>, Vec<Part>) {
    let mut area = Vec::new();
    let mut parts = vec![Part::default(); pieces.len()];
    let mut order: Vec<usize> = (0..pieces.len()).collect();
    random.shuffle(&mut order);
    for place in order {
        add_gap(&mut area, random);
        parts[place] = Part { from: area.len(), length: pieces[place].len() };
        area.extend_from_slice(pieces[place]);
    }
    add_gap(&mut area, random);
    for part in parts.iter_mut().filter(|part| part.length == 0) {
        part.from = random.size_below(area.len() + 1);
    }
    (area, parts)
}

/// Nothing, or some bytes that belong to no part.
fn add_gap(area: &mut Vec<u8>, random: &mut Random) {
    if random.once_in(2) {
        let length = area.len() + 1 + random.size_below(MOST_GAP);
        area.resize(length, random.byte());
    }
}

/// Puts one of the parts where it may not lie; says how.
fn spoil(parts: &mut [Part], area: usize, random: &mut Random) -> &'static str {
    let place = random.size_below(parts.len());
    let others = parts.iter().enumerate().filter(|(at, part)| *at != place && part.length > 0);
    let others: Vec<Part> = others.map(|(_, part)| *part).collect();
    let (Some(own), other) = (parts.get_mut(place), random.one_of(&others)) else {
        return NOTHING;
    };
    let (what, part) = match (random.below(6), other) {
        (0, Some(other)) => ("equal parts", *other),
        (1, Some(other)) => {
            let within = random.size_below(other.length);
            let length = 1 + random.size_below(other.length - within);
            ("one inside another", Part { from: other.from + within, length })
        }
        (2 | 3, Some(other)) => {
            let from = other.from + other.length - 1;
            ("a shared byte", Part { from, length: own.length.clamp(1, area - from) })
        }
        (4, _) => {
            let length = 1 + random.size_below(own.length + 1);
            (
                "an end past every number",
                Part { from: usize::MAX - random.size_below(length), length },
            )
        }
        _ => {
            let beyond = (area + 1 + random.size_below(3)).saturating_sub(own.length);
            ("past the area", Part { from: beyond, ..*own })
        }
    };
    *own = part;
    what
}
