//! Fuzzing: the proved checker, rounds, reader and epochs against the second ones, on files built and damaged at random, and
//! on doubles and dates.
//!
//! For each seed a good file is built and damaged or not. Both check it, in one grant and in grants at random. Then both go on
//! from points of the check with marks made up, from states made up, and after bytes of the file have been changed. At
//! every stop they must agree in the answer, the steps, the location, all 34 numbers of the state and every mark, one grant must
//! leave what several do, and a grant after the end must say the same again. Then both readers are asked: they must answer
//! the same, and never 20 on an accepted file. An answer for a VAX float must be what the plainest statement of them says of
//! the bytes that are stored there: the double, or 22 for a reserved operand; 22 must come for nothing else. On a padded
//! file all this must be the same with other bytes and other marks in the padding, which must stay. Then more files are
//! built and damaged, which share a window, and both make rounds over them. At last both are asked for dates and epochs.

use crate::bindings::Granted;
use crate::build;
use crate::build::model::{File, Index};
use crate::build::random::Random;
use crate::damage::{self, Damage};
use crate::fuzz_epochs;
use crate::fuzz_rounds;
use crate::locations;
use crate::made_up::{Point, Source, BEYOND};
use crate::padding;
use crate::pair::{said_again, to_the_end, Compared, Pair};
use crate::questions::{self, Given, Question};
use crate::second::check::{self, FRESH, RUNNING};
use crate::second::read;
use crate::second::rules::{body, MOST_PADDING};
use std::collections::BTreeMap;
use std::fmt;

/// What was covered.
#[derive(Clone, Debug, Default, PartialEq, Eq)]
pub struct Covered {
    /// Files, one a seed.
    pub files: u64,
    /// Files by what was done to them.
    pub kinds: BTreeMap<&'static str, u64>,
    /// Records of the files before they were damaged, by type.
    pub records: BTreeMap<i64, u64>,
    /// Indexes of variables of the files before they were damaged, by how many levels they have.
    pub levels: BTreeMap<usize, u64>,
    /// Files by their bytes of padding.
    pub padding: BTreeMap<&'static str, u64>,
    /// Verdicts of whole checks.
    pub verdicts: BTreeMap<i32, u64>,
    /// All grants to both checkers.
    pub compared: Compared,
    /// Checks with marks shorter than the file, by verdict.
    pub short_marks: BTreeMap<i32, u64>,
    /// Checks gone on with on made-up marks, by verdict.
    pub made_up_marks: BTreeMap<i32, u64>,
    /// States made up, by phase; 9 stands for all above 8.
    pub made_up_states: BTreeMap<u32, u64>,
    /// What these answered.
    pub made_up_answers: BTreeMap<i32, u64>,
    /// Checks gone on with after a change of the file, by kind of change.
    pub changes: BTreeMap<&'static str, u64>,
    /// What these answered.
    pub changed_answers: BTreeMap<i32, u64>,
    /// Checks repeated with other padding, by verdict.
    pub other_padding: BTreeMap<i32, u64>,
    /// Questions to both readers, by call.
    pub questions: BTreeMap<&'static str, u64>,
    /// How many levels were answered to the call for them.
    pub levels_answered: BTreeMap<i64, u64>,
    /// What they answered: 0, or a refusal.
    pub answers: BTreeMap<i32, u64>,
    /// VAX floats that they answered alike and rightly, by kind: with a double, or with 22 for a reserved operand.
    pub vax_floats: BTreeMap<&'static str, u64>,
    /// The same by sort.
    pub vax_sorts: BTreeMap<&'static str, u64>,
    /// Windows, and rounds over them.
    pub rounds: fuzz_rounds::Covered,
    /// Epochs, dates and differences.
    pub epochs: fuzz_epochs::Covered,
}

impl fmt::Display for Covered {
    fn fmt(&self, out: &mut fmt::Formatter) -> fmt::Result {
        writeln!(out, "files             {}: {}", self.files, list(&self.kinds))?;
        writeln!(out, "records by type   {}", list(&self.records))?;
        writeln!(out, "indexes by levels {}", list(&self.levels))?;
        writeln!(out, "padded files      {}: {}", self.padded(), list(&self.padding))?;
        writeln!(out, "verdicts          {}", list(&self.verdicts))?;
        writeln!(out, "grants            {}", self.compared.grants)?;
        writeln!(out, "steps by phase    {}", list(&self.compared.steps))?;
        writeln!(out, "steps by levels   {}", list(&self.compared.levels))?;
        writeln!(out, "locations         {}", list(&self.compared.locations))?;
        writeln!(out, "said again        {}", list(&self.compared.repeated))?;
        writeln!(out, "short marks       {}", list(&self.short_marks))?;
        writeln!(out, "made-up marks     {}", list(&self.made_up_marks))?;
        writeln!(out, "made-up states    by phase {}", list(&self.made_up_states))?;
        writeln!(out, "their answers     {}", list(&self.made_up_answers))?;
        writeln!(out, "changes           {}", list(&self.changes))?;
        writeln!(out, "their answers     {}", list(&self.changed_answers))?;
        writeln!(out, "20 by what        {}", list(&self.bad_steps()))?;
        writeln!(out, "other padding     {}", list(&self.other_padding))?;
        writeln!(out, "questions         {}", list(&self.questions))?;
        writeln!(out, "levels answered   {}", list(&self.levels_answered))?;
        writeln!(out, "reader's answers  {}", list(&self.answers))?;
        let floats = self.vax_floats.values().sum::<u64>();
        writeln!(out, "VAX floats        {floats}: {}", list(&self.vax_floats))?;
        writeln!(out, "of them           {}", list(&self.vax_sorts))?;
        writeln!(out, "{}", self.rounds)?;
        write!(out, "{}", self.epochs)
    }
}

impl Covered {
    /// Files with padding.
    fn padded(&self) -> u64 {
        PADDED.iter().filter_map(|kind| self.padding.get(kind)).sum()
    }

    /// Steps that gave 20, by what was wrong.
    fn bad_steps(&self) -> BTreeMap<&'static str, u64> {
        let mut found = BTreeMap::new();
        for ((_, _, what), number) in &self.compared.bad_steps {
            *found.entry(*what).or_insert(0) += number;
        }
        found
    }
}

/// `key: count` for each key, as it is printed.
pub(crate) fn list<K: fmt::Display>(counts: &BTreeMap<K, u64>) -> String {
    let each: Vec<String> = counts.iter().map(|(key, count)| format!("{key}: {count}")).collect();
    each.join(", ")
}

pub(crate) fn count<K: Ord>(counts: &mut BTreeMap<K, u64>, key: K) {
    *counts.entry(key).or_insert(0) += 1;
}

/// What went wrong, and on which file.
#[derive(Clone, Debug)]
pub struct Difference {
    /// The file; nothing if it has to do with none.
    pub file: Option<Vec<u8>>,
    /// In words.
    pub what: String,
}

/// The file of this seed and all that is done with it, then a window, then epochs; what was done is added to what was covered.
pub fn try_seed(seed: u64, covered: &mut Covered) -> Result<(), Difference> {
    let mut random = Random::seeded(seed);
    let file = any_file(&mut random, covered);
    covered.files += 1;
    count(&mut covered.padding, padding_kind(&file));
    let source = Source::new(&file);
    let of_file = |what| Difference { file: Some(file), what };
    unchanged(&source, &mut random, covered).map_err(of_file)?;
    with_changes(&source, &mut random, covered)?;
    fuzz_rounds::try_window(&mut random, &mut covered.rounds)?;
    let epochs = fuzz_epochs::try_epochs(&mut random, &mut covered.epochs);
    epochs.map_err(|what| Difference { file: None, what })
}

/// All that is done with a file that stays the same.
fn unchanged(source: &Source, random: &mut Random, covered: &mut Covered) -> Result<(), String> {
    let file = source.file();
    short_marks(file, random, covered)?;
    let steps = whole(file, covered)?;
    in_grants(file, steps, random, covered)?;
    with_marks(source, random, covered)?;
    with_states(source, random, covered)?;
    with_other_padding(source, random, covered)?;
    with_questions(file, random, covered)
}

/// Bytes of padding of a file that has some.
const PADDED: [&str; 3] = ["1", "2 to 510", "511"];

/// A file by its bytes of padding.
fn padding_kind(file: &[u8]) -> &'static str {
    match read::padding(file) {
        Ok(0) => "none",
        Ok(1) => PADDED[0],
        Ok(MOST_PADDING) => PADDED[2],
        Ok(_) => PADDED[1],
        Err(_) => "not opened",
    }
}

/// A file that is drawn at random.
pub(crate) struct Drawn {
    /// What was done to it.
    pub kind: &'static str,
    /// Its model before.
    pub model: File,
    /// Its bytes before.
    pub built: Vec<u8>,
    /// The file.
    pub file: Vec<u8>,
}

/// A drawn file, which is counted.
fn any_file(random: &mut Random, covered: &mut Covered) -> Vec<u8> {
    let drawn = draw(random);
    count_file(&drawn.model, &drawn.built, covered);
    count(&mut covered.kinds, drawn.kind);
    drawn.file
}

/// A built file, left as it is or damaged.
pub(crate) fn draw(random: &mut Random) -> Drawn {
    let (kind, levels) = (random.below(12), 2 + random.size_below(7));
    let (model, built) = match kind {
        7 => build::with_levels(random.number(), levels),
        8 => build::with_levels(random.number(), 9),
        9 => build::with_padding(random.number(), random.between(1, MOST_PADDING) as usize),
        10 | 11 => build::with_vax_floats(random.number()),
        _ => build::any(random.number()),
    };
    let file = built.clone();
    let (kind, file) = match kind {
        0 => ("good", file),
        1 => ("one field at an edge", damaged_by(file, damage::edge_damages, random)),
        2 => ("one link to a record", damaged_by(file, damage::link_damages, random)),
        3 => ("one ring", damaged_by(file, damage::ring_damages, random)),
        4 => ("bytes at random", scattered(file, random)),
        5 => ("one field of the opening", damaged_by(file, damage::opening_damages, random)),
        6 => ("several damages", several(file, random)),
        7 => ("one field of a tree", damaged_by(file, damage::tree_damages, random)),
        8 => ("nine levels", file),
        10 => ("VAX floats", file),
        11 => ("VAX floats, bytes at random", scattered(file, random)),
        _ => ("eof or padding", damaged_by(file, damage::padding_damages, random)),
    };
    Drawn { kind, model, built, file }
}

/// Counts the records of a file and the levels of its indexes.
fn count_file(model: &File, file: &[u8], covered: &mut Covered) {
    for record in damage::records(file) {
        count(&mut covered.records, record.record_type);
    }
    for variable in [3, 8].iter().flat_map(|kind| model.variables(*kind)) {
        count(&mut covered.levels, variable.chain.iter().map(Index::levels).max().unwrap_or(0));
    }
}

fn damaged_by(file: Vec<u8>, damages: fn(&[u8]) -> Vec<Damage>, random: &mut Random) -> Vec<u8> {
    random.one_of(&damages(&file)).map_or(file.clone(), |damage| damage::damaged(&file, damage))
}

fn several(file: Vec<u8>, random: &mut Random) -> Vec<u8> {
    let some = damage::some_of(&damage::all_damages(&file), random);
    some.iter().fold(file, |file, damage| damage::damaged(&file, damage))
}

fn scattered(mut file: Vec<u8>, random: &mut Random) -> Vec<u8> {
    for _ in 0..random.between(1, 8) {
        let at = 312 + random.size_below(file.len().saturating_sub(312));
        let byte = random.byte();
        file.get_mut(at..).and_then(<[u8]>::first_mut).into_iter().for_each(|old| *old = byte);
    }
    file
}

/// Questions to both readers.
const QUESTIONS: usize = 40;

fn with_questions(file: &[u8], random: &mut Random, covered: &mut Covered) -> Result<(), String> {
    let accepted = check::run(file, &mut vec![0; file.len()]).verdict == 0;
    let any = (0..QUESTIONS).map(|_| questions::any(file, random)).collect::<Vec<Question>>();
    for question in any.into_iter().chain(questions::for_vax_floats(file, random)) {
        let answer = questions::agreed(file, &question)?;
        count(&mut covered.questions, questions::call(&question));
        count(&mut covered.answers, answer.err().unwrap_or(0));
        if let Some((kind, sorts)) = questions::vax_float(file, &question, answer)? {
            count(&mut covered.vax_floats, kind.name());
            sorts.into_iter().for_each(|name| count(&mut covered.vax_sorts, name));
        }
        if let (Question::Levels(..), Ok(Given::Field(levels))) = (&question, answer) {
            count(&mut covered.levels_answered, levels);
        }
        if accepted && answer == Err(20) {
            return Err(format!("20 on an accepted file: {question}"));
        }
    }
    Ok(())
}

/// Marks that are shorter than the file: 2.
fn short_marks(file: &[u8], random: &mut Random, covered: &mut Covered) -> Result<(), String> {
    let mut pair = Pair::fresh(&vec![7; random.size_below(file.len())]);
    let expected = if pair.marks().len() < file.len() { 2 } else { 3 };
    let (answer, _, location) = pair.grant(file, 1, &mut covered.compared)?;
    count(&mut covered.short_marks, answer);
    let right = (answer, location) == (expected, 0);
    right.then_some(()).ok_or(format!("short marks: {answer}, location {location}"))
}

/// The whole check in one grant: its steps.
fn whole(file: &[u8], covered: &mut Covered) -> Result<u64, String> {
    let mut pair = Pair::fresh(&vec![0xAA; file.len()]);
    let granted = pair.grant(file, u64::MAX, &mut covered.compared)?;
    let (verdict, steps, location) = granted;
    count(&mut covered.verdicts, verdict);
    if !locations::is_right(file, verdict, location) {
        return Err(format!("{verdict} at {location}, where it cannot be due"));
    }
    said_again(&pair, granted, &mut covered.compared)?;
    if steps > file.len() as u64 / 4 + 1 {
        return Err(format!("{steps} steps for {} bytes", file.len()));
    }
    Ok(steps)
}

/// The check in grants at random, some of nothing, now and then with another file lent.
fn in_grants(
    file: &[u8],
    steps: u64,
    random: &mut Random,
    covered: &mut Covered,
) -> Result<(), String> {
    let mut pair = Pair::fresh(&vec![random.byte(); file.len() + BEYOND]);
    let most = random.between(1, 12);
    let (mut answer, mut made) = (RUNNING, 0);
    while answer == RUNNING {
        let grant = u64::try_from(random.between(0, most)).unwrap_or(1);
        let granted = pair.grant(file, grant, &mut covered.compared)?;
        answer = granted.0;
        made += granted.1;
        if made > 0 && random.once_in(8) {
            other_file(&pair, file, granted, random, covered)?;
        }
    }
    (made == steps).then_some(()).ok_or(format!("{made} steps in grants, {steps} in one"))
}

/// A file of another length answers 21, or the verdict and the location, and changes nothing.
fn other_file(
    pair: &Pair,
    file: &[u8],
    before: Granted,
    random: &mut Random,
    covered: &mut Covered,
) -> Result<(), String> {
    let longer = [file, &[0]].concat();
    let shorter = file.get(1..).unwrap_or(&longer);
    let lent = if random.once_in(2) { longer.as_slice() } else { shorter };
    let mut other = pair.clone();
    let granted = other.grant(lent, 5, &mut covered.compared)?;
    let expected = match before {
        (RUNNING, ..) => (check::OTHER_FILE, 0, 0),
        (answer, _, location) => (answer, 0, location),
    };
    let same = other.state() == pair.state() && other.marks() == pair.marks();
    let right = same && granted == expected;
    right.then_some(()).ok_or(format!("another file lent: {granted:?}, unchanged: {same}"))
}

/// Both go on from a point of the check with the same made-up marks.
fn with_marks(source: &Source, random: &mut Random, covered: &mut Covered) -> Result<(), String> {
    let (state, real) = source.any_point(random);
    let marks = source.any_marks(real, random);
    let answer = go_on(source.file(), &(*state, marks), random, covered)?;
    count(&mut covered.made_up_marks, answer);
    Ok(())
}

/// Both go on from states made up.
fn with_states(source: &Source, random: &mut Random, covered: &mut Covered) -> Result<(), String> {
    for _ in 0..12 {
        let (real, marks) = source.any_point(random);
        let marks = source.any_marks(marks, random);
        let state = match random.below(6) {
            0 => source.near(real, random),
            1 => source.in_range(random),
            2 => source.wrong_levels(random),
            3 => source.wrong_location(random),
            4 => source.finished(random),
            _ => source.anything(random),
        };
        count(&mut covered.made_up_states, state[2].min(9));
        let answer = go_on(source.file(), &(state, marks), random, covered)?;
        count(&mut covered.made_up_answers, answer);
    }
    Ok(())
}

/// The same with other bytes and marks in the padding, from fresh, from a point of the check and from a state made up; and
/// the readers' answers.
fn with_other_padding(
    source: &Source,
    random: &mut Random,
    covered: &mut Covered,
) -> Result<(), String> {
    let (file, end) = (source.file(), body(source.file()).len());
    if end == file.len() {
        return Ok(());
    }
    let other = padding::other_behind(end, file, random);
    let (state, real) = source.any_point(random);
    let marks = source.any_marks(real, random);
    let other_marks = padding::other_behind(end, &marks, random);
    for state in [FRESH, *state, source.near(state, random), source.in_range(random)] {
        let both = [marks.as_slice(), &other_marks];
        let same = padding::same_check([file, &other], &state, both, &mut covered.compared);
        count(&mut covered.other_padding, same?.0);
    }
    for _ in 0..10 {
        let question = questions::any(file, random);
        padding::same_answer([file, &other], &question).map(drop)?;
    }
    Ok(())
}

/// Both go on after the file was changed at a point of its check.
fn with_changes(
    source: &Source,
    random: &mut Random,
    covered: &mut Covered,
) -> Result<(), Difference> {
    for _ in 0..8 {
        let point = source.any_point(random);
        let (kind, (file, (state, real))) = match random.below(4) {
            0 => ("a record at the end", source.moved_to_the_end(point, random)),
            1 => ("a shorter file", source.cut(point, random)),
            2 => ("another eof", (source.with_other_eof(random), point.clone())),
            _ => ("fields or bytes", (source.changed(random), point.clone())),
        };
        count(&mut covered.changes, kind);
        let marks = source.any_marks(&real, random);
        match go_on(&file, &(state, marks), random, covered) {
            Ok(answer) => count(&mut covered.changed_answers, answer),
            Err(what) => {
                return Err(Difference { file: Some(file), what: format!("{kind}: {what}") })
            }
        }
    }
    Ok(())
}

/// Both from a point to the end of its check, in one grant and in grants at random: the answer.
fn go_on(
    file: &[u8],
    point: &Point,
    random: &mut Random,
    covered: &mut Covered,
) -> Result<i32, String> {
    let mut part = || u64::try_from(random.between(1, 20)).unwrap_or(1);
    to_the_end(file, &point.0, &point.1, &mut part, &mut covered.compared)
}

#[cfg(test)]
mod tests {
    use super::*;

    #[test]
    fn equal_seeds_do_the_same() {
        let (mut one, mut other) = (Covered::default(), Covered::default());
        for seed in 0..200 {
            assert!(try_seed(seed, &mut one).is_ok(), "seed {seed}");
            assert!(try_seed(seed, &mut other).is_ok(), "seed {seed}");
        }
        assert_eq!(one, other);
        assert_eq!(one.files, 200);
        assert!(one.verdicts.len() > 8 && one.made_up_states.len() == 10, "{one}");
        assert!(one.compared.steps.len() == 10 && one.bad_steps().len() > 12, "{one}");
        assert_eq!(one.questions.len(), questions::CALLS, "{one}");
        let answers: Vec<i32> = one.answers.keys().copied().collect();
        assert_eq!(answers, [0, 15, 16, 17, 18, 20, 22], "{one}");
        assert!(one.vax_floats.len() == 3 && one.vax_sorts.len() == 7, "{one}");
        assert!(one.vax_floats.values().all(|floats| *floats > 150), "{one}");
        assert!(one.vax_floats.values().sum::<u64>() > 800 && one.answers[&22] > 40, "{one}");
        assert!(one.levels.len() == 10 && one.compared.levels.len() == 8, "{one}");
        assert!(one.levels_answered.len() >= 5, "{one}");
        assert!(one.padding.len() == 5 && one.padded() > 60, "{one}");
        assert!(one.other_padding.len() > 8 && one.changes.len() == 4, "{one}");
        assert!(one.compared.locations.len() == 9 && one.compared.repeated.len() == 9, "{one}");
        let of = &one.rounds;
        assert!(of.windows.len() == 7 && of.states.len() == 8 && of.parts.len() == 7, "{one}");
        assert!(of.rounds[&-1] > 800 && of.rounds[&24] > 150 && of.steps.len() == 5, "{one}");
        assert!(of.answers.len() > 15 && of.ended.len() > 12, "{one}");
        let of = &one.epochs;
        assert!(of.doubles.len() == 9 && of.dates.len() == 4 && of.differences.len() == 6, "{one}");
        assert!(of.doubles.values().all(|doubles| *doubles > 700), "{one}");
        assert!(of.differences.values().all(|pairs| *pairs > 1000), "{one}");
        for answers in [&of.turned, &of.turned_back] {
            assert!(answers.len() == 2 && answers[&0] > 5000 && answers[&27] > 5000, "{one}");
        }
    }
}
