//! Saved states, marks and changes of a file that no check makes by itself, for the comparison of the two checkers.

use crate::build::random::Random;
use crate::build::records::put;
use crate::damage::{self, Found};
use crate::second::bytes::field;
use crate::second::check::{Check, State, FRESH, RUNNING, STATE_LENGTH};
use crate::second::rules::body;
use crate::second::state::{self, FIRST_LEVEL, LEVEL_LENGTH, LEVEL_RANGES, LOCATION, MOST_LEVELS};
use crate::second::state::{GREATEST_COUNT, GREATEST_LINK, GREATEST_OFFSET};

/// Number 0 of every finished state: the verdicts 0 to 14, 20 and 23, each with 1 added.
pub const FINISHED: [u32; 17] = [1, 2, 3, 4, 5, 6, 7, 8, 9, 10, 11, 12, 13, 14, 15, 21, 24];

/// Marks behind the file that nobody may write.
pub const BEYOND: usize = 5;

/// Numbers at the edges of ranges and meanings.
pub fn edges() -> Vec<u32> {
    let tops = [GREATEST_OFFSET, GREATEST_COUNT, GREATEST_LINK, u32::MAX - 1];
    let about_tops = tops.into_iter().flat_map(|top| top - 1..=top + 1);
    let small = (0..=10).chain(15..=26).chain([312, 371, 372, 373]);
    small.chain(about_tops).collect()
}

/// The length of the shortest file that can be accepted.
const SHORTEST: usize = 372;

/// File offset of the CDR's link to the GDR.
const GDR_LINK: usize = 16;

/// How near to a file's end a number is that may put a record's fields past it.
const NEAR_THE_END: usize = 140;

/// A point of a check: state and marks.
pub type Point = (State, Vec<u8>);

/// State and marks after 0, 1, 2 .. steps of the check, the finishing step left out.
pub fn points(file: &[u8]) -> Vec<Point> {
    let mut check = Check::fresh();
    let mut marks = vec![0; file.len()];
    let mut points = vec![(check.state(), marks.clone())];
    while check.step(file, &mut marks) == RUNNING {
        points.push((check.state(), marks.clone()));
    }
    points
}

/// A file and what is made up from it.
#[derive(Clone, Debug)]
pub struct Source {
    file: Vec<u8>,
    /// Where the file ends and its padding begins.
    end: usize,
    points: Vec<Point>,
    records: Vec<Found>,
    fields: Vec<usize>,
    links: Vec<usize>,
    /// Offsets in the padding.
    padding: Vec<i64>,
    /// Values that eof may get.
    eofs: Vec<i64>,
    edges: Vec<u32>,
}

impl Source {
    /// The source that a file is.
    pub fn new(file: &[u8]) -> Source {
        let records = damage::records(file);
        Source {
            file: file.to_vec(),
            end: body(file).len(),
            points: points(file),
            fields: records.iter().flat_map(|of| damage::control_fields(file, of)).collect(),
            links: damage::links(file),
            padding: damage::padding_offsets(file),
            eofs: damage::eof_values(file),
            edges: edges(),
            records,
        }
    }

    /// The file.
    pub fn file(&self) -> &[u8] {
        &self.file
    }

    /// The points of the file's check.
    pub fn points(&self) -> &[Point] {
        &self.points
    }

    /// Any point of the file's check.
    pub fn any_point(&self, random: &mut Random) -> &Point {
        let place = random.size_below(self.points.len());
        &self.points[place]
    }

    fn any_start(&self, random: &mut Random) -> usize {
        random.one_of(&self.records).map_or(8, |record| record.offset)
    }

    /// An offset so near to the file's end that a record's fields may pass it.
    fn near_the_end(&self, random: &mut Random) -> usize {
        self.end.saturating_sub(random.size_below(NEAR_THE_END))
    }

    /// An edge, an offset about the file's end or in the padding, a record's start or one behind it, a field's value, any
    /// number.
    pub fn any_number(&self, random: &mut Random) -> u32 {
        let number = match random.below(13) {
            0 | 1 => random.one_of(&self.edges).copied().map_or(0, i64::from),
            2 => self.end as i64 + random.between(-8, 8),
            3 => self.near_the_end(random) as i64,
            12 => random.one_of(&self.padding).copied().unwrap_or(0) + random.between(-1, 1),
            4..=6 => self.any_start(random) as i64,
            7 => self.any_start(random) as i64 + random.below(65),
            8 => random.one_of(&self.fields).map_or(0, |at| self.value(*at)),
            9 => i64::from(random.number() as u32),
            _ => random.below(4),
        };
        number as u32
    }

    /// The control field at an offset, 0 past the end.
    fn value(&self, at: usize) -> i64 {
        i64::try_from(at).ok().and_then(|at| field(&self.file, at)).unwrap_or(0)
    }

    /// A state of the file's check with one to three numbers changed, most of them within their ranges, or with a level
    /// more or less.
    pub fn near(&self, state: &State, random: &mut Random) -> State {
        let mut state = *state;
        if state::most_levels(state[2]) > 0 && random.once_in(4) {
            self.change_levels(&mut state, random);
        }
        for _ in 0..random.between(1, 3) {
            let meant = meant(&state);
            let place = match random.one_of(&meant) {
                Some(place) if !random.once_in(12) => *place,
                _ => random.size_below(STATE_LENGTH),
            };
            let number = self.any_number(random);
            let (least, most) = range(&state, place);
            state[place] = if random.once_in(6) { number } else { number.clamp(least, most) };
        }
        state
    }

    /// Numbers in their ranges, of the file's length; along an index often with levels.
    pub fn in_range(&self, random: &mut Random) -> State {
        let phase = u32::try_from(random.between(1, 8)).unwrap_or(1);
        let mut state = FRESH;
        state[1] = self.file.len() as u32;
        state[2] = phase;
        state[3] = random.one_of(state::kinds(phase)).copied().unwrap_or(0);
        for place in meant(&state) {
            state[place] = self.any_number(random).min(range(&state, place).1);
        }
        if phase == 1 {
            state[4] = state[4].max(8);
        }
        if random.once_in(2) {
            let count = random.size_below(state::most_levels(phase) + 1);
            (0..count).for_each(|level| set_level(&mut state, level, self.any_level(random)));
        }
        state
    }

    /// A level with numbers in their ranges: mostly a VXR of the file, a small entry number, a small Last.
    fn any_level(&self, random: &mut Random) -> [u32; LEVEL_LENGTH] {
        let indexes = self.records.iter().filter(|record| record.record_type == 6);
        let indexes: Vec<usize> = indexes.map(|record| record.offset).collect();
        let usual = [
            random.one_of(&indexes).map_or(8, |offset| *offset as u32),
            random.between(1, 3) as u32,
            random.below(40) as u32,
        ];
        let mut level = usual;
        for (number, (least, most)) in level.iter_mut().zip(LEVEL_RANGES) {
            if random.once_in(3) {
                *number = self.any_number(random).clamp(least, most);
            }
        }
        level
    }

    /// One level more, the nearest; or one less; or all that may be.
    fn change_levels(&self, state: &mut State, random: &mut Random) {
        let count = state::level_count(state).unwrap_or(0);
        match random.below(4) {
            0 => set_levels(state, &levels(state).split_off(1)),
            1 => {
                let all = [0; MOST_LEVELS].map(|_| self.any_level(random));
                set_levels(state, &all);
            }
            _ if count < MOST_LEVELS => {
                let mut more = levels(state);
                more.insert(0, self.any_level(random));
                set_levels(state, &more);
            }
            _ => set_level(state, random.size_below(MOST_LEVELS), self.any_level(random)),
        }
    }

    /// Numbers in their ranges but for the levels: a level below one that is not there, a level of which not all is
    /// there, a number past its range, or a level in a phase that has none.
    pub fn wrong_levels(&self, random: &mut Random) -> State {
        let mut state = self.in_range(random);
        let count = 1 + random.size_below(MOST_LEVELS);
        let right = [0; MOST_LEVELS].map(|_| self.any_level(random));
        if state::most_levels(state[2]) == 0 {
            set_levels(&mut state, &right[..count]);
            return state;
        }
        set_levels(&mut state, &right[..count]);
        let place = random.size_below(count);
        let mut wrong = right[place];
        match random.below(4) {
            0 if place + 1 < count => wrong = [0; LEVEL_LENGTH],
            1 => wrong = [wrong[0].max(1), 0, wrong[2]],
            2 => wrong = [wrong[0], 0, wrong[2].max(1)],
            _ => {
                let number = random.size_below(LEVEL_LENGTH);
                wrong[number] = LEVEL_RANGES[number].1 + 1;
            }
        }
        set_level(&mut state, place, wrong);
        state
    }

    /// Any numbers, half of them of the file's length.
    pub fn anything(&self, random: &mut Random) -> State {
        let mut state = FRESH;
        for number in &mut state {
            *number = if random.once_in(2) { 0 } else { self.any_number(random) };
        }
        if random.once_in(2) {
            state[1] = self.file.len() as u32;
        }
        state[2] %= if random.once_in(2) { 10 } else { u32::MAX };
        if random.once_in(2) {
            set_levels(&mut state, &[]);
        }
        if random.once_in(2) {
            state[LOCATION] = 0;
        }
        state
    }

    /// A finished state of any verdict, with a location of any kind; the other numbers are 0 or any.
    pub fn finished(&self, random: &mut Random) -> State {
        let mut state = if random.once_in(2) { self.anything(random) } else { FRESH };
        state[0] = random.one_of(&FINISHED).copied().unwrap_or(1);
        state[LOCATION] = self.any_number(random);
        state
    }

    /// Numbers in their ranges but for the location, which no state has that is not finished.
    pub fn wrong_location(&self, random: &mut Random) -> State {
        let mut state = if random.once_in(8) { FRESH } else { self.in_range(random) };
        state[LOCATION] = self.any_number(random).max(1);
        state
    }

    /// Marks of a point, changed here and there or altogether, and some behind the file.
    pub fn any_marks(&self, real: &[u8], random: &mut Random) -> Vec<u8> {
        let mut marks = real.to_vec();
        match random.below(8) {
            0 => marks.fill(1),
            1 => marks.iter_mut().for_each(|mark| *mark = random.byte() % 4),
            2 | 3 => {
                for _ in 0..random.between(1, 6) {
                    let padding = random.one_of(&self.padding).map_or(0, |at| *at as usize);
                    let offsets = [self.any_start(random), self.near_the_end(random), padding];
                    let mark = random.byte() % 4;
                    random.one_of(&offsets).into_iter().for_each(|at| set(&mut marks, *at, mark));
                }
            }
            _ => {}
        }
        marks.resize(real.len() + BEYOND, 0x55);
        marks
    }

    /// The file with one to four fields changed, or bytes anywhere.
    pub fn changed(&self, random: &mut Random) -> Vec<u8> {
        let mut file = self.file.clone();
        if random.once_in(8) {
            for _ in 0..random.between(1, 40) {
                let at = random.size_below(file.len());
                set(&mut file, at, random.byte());
            }
            return file;
        }
        for _ in 0..random.between(1, 4) {
            let (at, value) = self.any_change(random);
            put(&mut file, at, value);
        }
        file
    }

    /// A field and another value for it: eof, the CDR's link, a record's size, any link or any field.
    fn any_change(&self, random: &mut Random) -> (usize, i64) {
        if random.once_in(12) {
            return (damage::eof_offset(&self.file), self.any_eof(random));
        }
        let at = match random.below(12) {
            0 => GDR_LINK,
            1 => self.any_start(random),
            2..=4 => random.one_of(&self.links).copied().unwrap_or(GDR_LINK),
            _ => random.one_of(&self.fields).copied().unwrap_or(GDR_LINK),
        };
        let value = match random.below(8) {
            0 => self.value(at) + random.between(-4, 4),
            1 => self.value(at) ^ 1 << random.below(8),
            2 => -random.between(1, 3),
            3 => any_size(random),
            _ => i64::from(self.any_number(random)),
        };
        (at, value)
    }

    /// Another eof: one that the rules tell from others, or one that may cut a record's fields off.
    fn any_eof(&self, random: &mut Random) -> i64 {
        match random.below(3) {
            0 => self.near_the_end(random) as i64,
            1 => self.file.len() as i64 - random.below(600),
            _ => random.one_of(&self.eofs).copied().unwrap_or(0),
        }
    }

    /// The file with another eof, and now and then another change.
    pub fn with_other_eof(&self, random: &mut Random) -> Vec<u8> {
        let mut file = if random.once_in(4) { self.changed(random) } else { self.file.clone() };
        put(&mut file, damage::eof_offset(&self.file), self.any_eof(random));
        file
    }

    /// The file and a point of its check as if a record stood at the file's end and not all of it before the end: its
    /// first bytes stand there too, as many as the padding has room for, and what led to the record leads there.
    pub fn moved_to_the_end(&self, point: &Point, random: &mut Random) -> (Vec<u8>, Point) {
        let (mut file, (mut state, mut marks)) = (self.file.clone(), point.clone());
        let Some(record) = random.one_of(&self.records) else {
            return (file, (state, marks));
        };
        let bytes = 1 + random.size_below(record.size.min(NEAR_THE_END));
        let to = self.end - bytes;
        let copied = record.size.min(file.len() - to);
        file.copy_within(record.offset..record.offset + copied, to);
        if random.once_in(3) {
            put(&mut file, to, any_size(random));
        }
        for at in self.links.iter().copied().filter(|at| at + 4 <= to) {
            if self.value(at) == record.offset as i64 {
                put(&mut file, at, to as i64);
            }
        }
        for place in [7, 8].into_iter().chain(level_records()) {
            if state[place] == record.offset as u32 {
                state[place] = to as u32;
            }
        }
        let mark = marks.get(record.offset).copied().unwrap_or(0);
        set(&mut marks, to, mark);
        (file, (state, marks))
    }

    /// The file, changed or not, and a point of its check, as if the file ended earlier.
    pub fn cut(&self, point: &Point, random: &mut Random) -> (Vec<u8>, Point) {
        let file = if random.once_in(2) { self.file.clone() } else { self.changed(random) };
        let padding = file.len() - self.end;
        let most = file.len().saturating_sub(SHORTEST).min(padding + 2 * NEAR_THE_END);
        shortened(&file, point, file.len() - random.size_below(most + 1))
    }
}

/// A file and a point of its check as if the file were of this length, which is noted if one was.
pub fn shortened(file: &[u8], point: &Point, length: usize) -> (Vec<u8>, Point) {
    let (mut file, (mut state, mut marks)) = (file.to_vec(), point.clone());
    file.truncate(length);
    marks.truncate(length);
    state[1] = if state[1] == 0 { 0 } else { length as u32 };
    (file, (state, marks))
}

/// The numbers from 4 on that have a meaning in a state: those of its phase, and those of its levels.
fn meant(state: &State) -> Vec<usize> {
    let most = state::greatest(state[2]);
    let of_phase = (4..FIRST_LEVEL).zip(most).filter(|(_, most)| *most > 0).map(|(place, _)| place);
    let levels = state::level_count(state).unwrap_or(0).min(state::most_levels(state[2]));
    of_phase.chain(FIRST_LEVEL..FIRST_LEVEL + LEVEL_LENGTH * levels).collect()
}

/// The least and the greatest that a number may be in the state's phase; those before number 4 may be any.
fn range(state: &State, place: usize) -> (u32, u32) {
    if place == LOCATION {
        return (0, 0);
    }
    if let Some(of_level) = place.checked_sub(FIRST_LEVEL) {
        return LEVEL_RANGES[of_level % LEVEL_LENGTH];
    }
    let most = state::greatest(state[2]);
    let most = place.checked_sub(4).and_then(|place| most.get(place)).copied();
    (0, most.unwrap_or(u32::MAX))
}

/// The places of the levels' records in a state.
fn level_records() -> impl Iterator<Item = usize> {
    (FIRST_LEVEL..LOCATION).step_by(LEVEL_LENGTH)
}

/// The levels of a state, as many as there may be.
fn levels(state: &State) -> Vec<[u32; LEVEL_LENGTH]> {
    level_records().map(|at| [state[at], state[at + 1], state[at + 2]]).collect()
}

/// Sets the level at a place, 0 being the nearest.
fn set_level(state: &mut State, place: usize, level: [u32; LEVEL_LENGTH]) {
    let at = FIRST_LEVEL + LEVEL_LENGTH * place;
    state.iter_mut().skip(at).zip(level).for_each(|(number, new)| *number = new);
}

/// Sets all levels: these, as many as there may be, and none behind them.
fn set_levels(state: &mut State, levels: &[[u32; LEVEL_LENGTH]]) {
    for place in 0..MOST_LEVELS {
        set_level(state, place, levels.get(place).copied().unwrap_or([0; LEVEL_LENGTH]));
    }
}

/// A size that a record may state.
fn any_size(random: &mut Random) -> i64 {
    random.below(NEAR_THE_END as i64)
}

fn set(bytes: &mut [u8], at: usize, byte: u8) {
    bytes.get_mut(at).into_iter().for_each(|old| *old = byte);
}
