//! The saved state of a check: 34 numbers, with the names, phases and ranges of docs/STATE.md.

/// How many numbers a saved state has.
pub const STATE_LENGTH: usize = 34;

/// Where the levels begin in a state, and how many numbers each has.
pub const FIRST_LEVEL: usize = 12;
/// The numbers of a level: record, next, last.
pub const LEVEL_LENGTH: usize = 3;
/// How many index records there may be above the one that is walked.
pub const MOST_LEVELS: usize = 7;
/// The number that keeps the location of a refusal; it stands behind the levels.
pub const LOCATION: usize = FIRST_LEVEL + LEVEL_LENGTH * MOST_LEVELS;

/// A saved state of the right length.
pub type State = [u32; STATE_LENGTH];

/// A fresh state.
pub const FRESH: State = [0; STATE_LENGTH];

/// The greatest offset, and the greatest place in a list.
pub const GREATEST_OFFSET: u32 = 2_147_483_647;
/// The greatest count, and the greatest number + 1.
pub const GREATEST_COUNT: u32 = 2_147_483_648;
/// The greatest offset where a link stands.
pub const GREATEST_LINK: u32 = 2_147_483_711;

/// The shortest file whose length is noted.
const SHORTEST_FILE: u32 = 372;
/// The least offset of a record.
const FIRST_RECORD: u32 = 8;

/// The state of a finished check: its verdict, and the location of its refusal if it has one.
pub fn finished(verdict: i32, location: u32) -> State {
    let mut state = FRESH;
    state[0] = u32::try_from(verdict).map_or(u32::MAX, |verdict| verdict + 1);
    state[LOCATION] = location;
    state
}

/// The verdict of a finished state; number 0 alone says it.
pub fn verdict(state: &State) -> Option<i32> {
    match state[0] {
        1..=15 | 21 | 24 => i32::try_from(state[0] - 1).ok(),
        _ => None,
    }
}

/// The location that a grant gives with a state: of one finished with 7 to 14 or 23 the number that it keeps, of any other 0.
pub fn location(state: &State) -> u32 {
    match verdict(state) {
        Some(7..=14 | 23) => state[LOCATION],
        _ => 0,
    }
}

/// The kinds that a phase may have.
pub fn kinds(phase: u32) -> &'static [u32] {
    match phase {
        3..=5 => &[3, 8],
        7 => &[5, 9],
        _ => &[0],
    }
}

/// The greatest of each of the numbers 4 to 11 in a phase, 0 where a number has no meaning.
pub fn greatest(phase: u32) -> [u32; 8] {
    const OFFSET: u32 = GREATEST_OFFSET;
    const COUNT: u32 = GREATEST_COUNT;
    const LINK: u32 = GREATEST_LINK;
    match phase {
        1 => [OFFSET, 0, 0, 0, 0, 0, 0, 0],
        3 => [LINK, COUNT, COUNT, 0, 0, 0, 0, 0],
        4 => [LINK, OFFSET, COUNT, OFFSET, OFFSET, 0, COUNT, 1],
        5 => [0, OFFSET, COUNT, OFFSET, OFFSET, OFFSET, COUNT, 1],
        6 => [LINK, COUNT, 0, 0, 0, 0, 0, 0],
        7 => [LINK, OFFSET, 0, OFFSET, 0, COUNT, COUNT, 0],
        8 => [LINK, 0, 0, 0, OFFSET, 0, 0, 0],
        _ => [0; 8],
    }
}

/// How many levels there may be in a phase.
pub fn most_levels(phase: u32) -> usize {
    match phase {
        4 | 5 => MOST_LEVELS,
        _ => 0,
    }
}

/// The least and the greatest of each number of a level that is there: record, next, last.
pub const LEVEL_RANGES: [(u32, u32); LEVEL_LENGTH] =
    [(0, GREATEST_OFFSET), (1, GREATEST_COUNT), (0, GREATEST_OFFSET)];

/// How many levels a state has, by their `next`; nothing if a number of a level is out of its range, or if there is a
/// level below one that is not there.
pub fn level_count(state: &State) -> Option<usize> {
    let levels = state[FIRST_LEVEL..LOCATION].chunks_exact(LEVEL_LENGTH);
    let count = levels.clone().take_while(|level| level[1] != 0).count();
    let within = |(number, (least, most)): (&u32, (u32, u32))| (least..=most).contains(number);
    let right = |level: &[u32]| level.iter().zip(LEVEL_RANGES).all(within);
    let absent = |level: &[u32]| level.iter().all(|number| *number == 0);
    let in_range = levels.clone().take(count).all(right) && levels.skip(count).all(absent);
    in_range.then_some(count)
}

/// Every number of a state that is not finished is in its range.
pub fn is_in_range(state: &State) -> bool {
    let [verdict, length, phase, kind, link, ..] = *state;
    let noted = match phase {
        0 => length == 0,
        _ => (SHORTEST_FILE..=GREATEST_OFFSET).contains(&length),
    };
    let rest = state.iter().skip(4).zip(greatest(phase)).all(|(number, most)| *number <= most);
    let swept = phase != 1 || link >= FIRST_RECORD;
    let levels = level_count(state).is_some_and(|count| count <= most_levels(phase));
    let unfinished = verdict == 0 && state[LOCATION] == 0;
    unfinished && phase <= 8 && noted && kinds(phase).contains(&kind) && rest && swept && levels
}

/// What the next step does.
#[derive(Clone, Copy, Debug, PartialEq, Eq)]
pub(super) enum Phase {
    Fresh,
    Sweep,
    Walk(Link),
}

/// The link that a step of the walk takes, by the record it leads to; each has its phase's number.
#[derive(Clone, Copy, Debug, PartialEq, Eq)]
pub(super) enum Link {
    Gdr = 2,
    Variable = 3,
    Index = 4,
    IndexEntry = 5,
    Attribute = 6,
    Entry = 7,
    Unused = 8,
}

impl Phase {
    fn of(number: u32) -> Option<Phase> {
        Some(match number {
            0 => Phase::Fresh,
            1 => Phase::Sweep,
            2 => Phase::Walk(Link::Gdr),
            3 => Phase::Walk(Link::Variable),
            4 => Phase::Walk(Link::Index),
            5 => Phase::Walk(Link::IndexEntry),
            6 => Phase::Walk(Link::Attribute),
            7 => Phase::Walk(Link::Entry),
            8 => Phase::Walk(Link::Unused),
            _ => return None,
        })
    }

    fn number(self) -> i64 {
        match self {
            Phase::Fresh => 0,
            Phase::Sweep => 1,
            Phase::Walk(link) => link as i64,
        }
    }
}

/// A level: an index record one of whose entries led down.
#[derive(Clone, Copy, Debug, PartialEq, Eq)]
pub(super) struct Level {
    /// File offset of the VXR.
    pub record: i64,
    /// The number of the entry after the one that led down.
    pub next: i64,
    /// The Last of the one that led down.
    pub last: i64,
}

/// The levels above the record that is walked, the nearest first.
#[derive(Clone, Copy, Debug, Default, PartialEq, Eq)]
pub(super) struct Levels([Option<Level>; MOST_LEVELS]);

impl Levels {
    /// The levels that a state says.
    fn load(state: &State) -> Levels {
        let mut levels = Levels::default();
        let numbers = state[FIRST_LEVEL..LOCATION].chunks_exact(LEVEL_LENGTH);
        for (slot, level) in levels.0.iter_mut().zip(numbers) {
            let [record, next, last] = [level[0], level[1], level[2]].map(i64::from);
            *slot = (next != 0).then_some(Level { record, next, last });
        }
        levels
    }

    /// Their numbers, 0 where there is no level.
    fn numbers(&self) -> impl Iterator<Item = i64> + '_ {
        let of = |level: &Option<Level>| level.map_or([0; 3], |of| [of.record, of.next, of.last]);
        self.0.iter().flat_map(of)
    }

    /// The nearest level, if the record that is walked is a lower one.
    pub fn nearest(&self) -> Option<Level> {
        self.0[0]
    }

    /// No level more may be led down from: the record that is walked is of the eighth level.
    pub fn are_all(&self) -> bool {
        self.0.iter().all(Option::is_some)
    }

    /// One level more, which becomes the nearest.
    pub fn with(&self, nearest: Level) -> Levels {
        let mut levels = *self;
        levels.0.rotate_right(1);
        levels.0[0] = Some(nearest);
        levels
    }

    /// All but the nearest.
    pub fn without_nearest(&self) -> Levels {
        let mut levels = *self;
        levels.0[0] = None;
        levels.0.rotate_left(1);
        levels
    }
}

/// A state that is not finished and whose numbers are in range; docs/STATE.md says what each of them is.
#[derive(Clone, Copy, Debug, PartialEq, Eq)]
pub(super) struct Point {
    pub length: i64,
    pub phase: Phase,
    pub kind: i64,
    pub link: i64,
    pub count: i64,
    pub greatest: i64,
    pub owner: i64,
    pub before: i64,
    pub entry: i64,
    pub floor: i64,
    pub covered: bool,
    pub levels: Levels,
}

impl Point {
    /// The point before a link of this kind; all numbers not named are 0.
    pub fn new(length: i64, phase: Phase, kind: i64, link: i64) -> Point {
        Point {
            length,
            phase,
            kind,
            link,
            count: 0,
            greatest: 0,
            owner: 0,
            before: 0,
            entry: 0,
            floor: 0,
            covered: false,
            levels: Levels::default(),
        }
    }

    /// The point that a state says; nothing if a number is out of its range.
    pub fn load(state: &State) -> Option<Point> {
        let phase = Phase::of(state[2])?;
        is_in_range(state).then(|| Point {
            length: i64::from(state[1]),
            phase,
            kind: i64::from(state[3]),
            link: i64::from(state[4]),
            count: i64::from(state[5]),
            greatest: i64::from(state[6]),
            owner: i64::from(state[7]),
            before: i64::from(state[8]),
            entry: i64::from(state[9]),
            floor: i64::from(state[10]),
            covered: state[11] == 1,
            levels: Levels::load(state),
        })
    }

    /// The state that says this point.
    pub fn save(&self) -> State {
        let plain = [
            0,
            self.length,
            self.phase.number(),
            self.kind,
            self.link,
            self.count,
            self.greatest,
            self.owner,
            self.before,
            self.entry,
            self.floor,
            i64::from(self.covered),
        ];
        let mut state = FRESH;
        for (slot, number) in state.iter_mut().zip(plain.into_iter().chain(self.levels.numbers())) {
            *slot = u32::try_from(number).unwrap_or(u32::MAX);
        }
        state
    }
}
