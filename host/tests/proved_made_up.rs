//! States and marks made up by the caller: the proved checker and the second one agree in all that every grant leaves.

use std::collections::BTreeSet;
use tlepozaluh_host::build;
use tlepozaluh_host::build::random::Random;
use tlepozaluh_host::made_up::{self, Source};
use tlepozaluh_host::pair::{to_the_end, Compared, Pair};
use tlepozaluh_host::second::check::{State, STATE_LENGTH};
use tlepozaluh_host::second::state::{finished, is_in_range, LOCATION};

/// Verdicts that steps give in each phase from the sweep on, on a file that is good.
const ENDS: [(u32, &[i32]); 8] = [
    (1, &[7]),
    (2, &[8, 9]),
    (3, &[8, 9, 11, 20]),
    (4, &[8, 9, 11, 12, 20]),
    (5, &[8, 9, 10, 12, 20, 23]),
    (6, &[8, 9, 11, 20]),
    (7, &[8, 9, 11, 20]),
    (8, &[0, 8, 9, 11, 13, 20]),
];

/// Both from a state to the end of its check, in one grant and step by step.
fn agreed(file: &[u8], state: &State, marks: &[u8], compared: &mut Compared, what: &str) {
    let end = to_the_end(file, state, marks, &mut || 1, compared);
    end.unwrap_or_else(|wrong| panic!("{what}: {wrong}"));
}

/// Phases in which a step found a number out of its range; 9 stands for all above 8.
fn out_of_range(compared: &Compared) -> Vec<u32> {
    let found = compared.bad_steps.keys().filter(|(_, _, what)| *what == "out of range");
    found.map(|(phase, _, _)| *phase).collect()
}

#[test]
fn every_state_of_a_check_is_in_range() {
    for seed in 0..1000 {
        let (_, file) = build::any(seed);
        let source = Source::new(&file);
        assert!(source.points().iter().all(|(state, _)| is_in_range(state)), "seed {seed}");
    }
}

/// Numbers at edges of ranges and meanings, the length and those about it, and where the check finds records and links.
fn edges(source: &Source) -> BTreeSet<u32> {
    let length = source.file().len() as u32;
    let offsets = source.points().iter().map(|(state, _)| state[4]);
    made_up::edges().into_iter().chain(length - 8..=length + 8).chain(offsets).collect()
}

/// Each number of each third state of a check at each edge.
#[test]
fn one_number_at_an_edge() {
    let mut random = Random::seeded(31);
    let mut compared = Compared::default();
    for seed in 0..8 {
        let (_, file) = build::any(seed);
        let source = Source::new(&file);
        let edges = edges(&source);
        for (state, real) in source.points().iter().step_by(3) {
            let marks = source.any_marks(real, &mut random);
            for (place, edge) in
                (0..STATE_LENGTH).flat_map(|at| edges.iter().map(move |to| (at, to)))
            {
                let mut made_up = *state;
                made_up[place] = *edge;
                agreed(&file, &made_up, &marks, &mut compared, &format!("seed {seed}"));
            }
        }
    }
    assert_eq!(compared.missing(&ENDS), [], "{compared:?}");
    assert_eq!(out_of_range(&compared), (0..=9).collect::<Vec<u32>>());
    assert!(compared.answers.contains_key(&21) && compared.grants > 900_000, "{compared:?}");
    assert!(compared.locations.len() >= 8 && compared.repeated.len() == 9, "{compared:?}");
}

/// One to three numbers of the states of a check changed.
#[test]
fn near_the_states_of_a_check() {
    let mut random = Random::seeded(32);
    let mut compared = Compared::default();
    for seed in 0..300 {
        let (_, file) = build::any(seed);
        let source = Source::new(&file);
        for _ in 0..100 {
            let (state, real) = source.any_point(&mut random);
            let made_up = source.near(state, &mut random);
            let marks = source.any_marks(real, &mut random);
            agreed(&file, &made_up, &marks, &mut compared, &format!("seed {seed}"));
        }
    }
    assert_eq!(compared.missing(&ENDS), [], "{compared:?}");
    assert_eq!(out_of_range(&compared), (0..=9).collect::<Vec<u32>>());
    assert!(compared.answers.contains_key(&21) && compared.grants > 200_000, "{compared:?}");
}

#[test]
fn numbers_in_their_ranges() {
    let mut random = Random::seeded(33);
    let mut compared = Compared::default();
    for seed in 0..600 {
        let (_, file) = build::any(seed);
        let source = Source::new(&file);
        for _ in 0..100 {
            let (_, real) = source.any_point(&mut random);
            let made_up = source.in_range(&mut random);
            assert!(is_in_range(&made_up), "{made_up:?}");
            let marks = source.any_marks(real, &mut random);
            agreed(&file, &made_up, &marks, &mut compared, &format!("seed {seed}"));
        }
    }
    assert_eq!(out_of_range(&compared), []);
    assert_eq!(compared.steps.keys().copied().collect::<Vec<u32>>(), (1..=8).collect::<Vec<u32>>());
    assert!(!compared.answers.contains_key(&21) && compared.grants > 300_000, "{compared:?}");
}

/// Levels with a hole among them, with parts missing, past their ranges, or in a phase that has none: 20 in one step, and
/// no mark changes.
#[test]
fn levels_out_of_range() {
    let mut random = Random::seeded(36);
    let mut compared = Compared::default();
    for seed in 0..300 {
        let (_, file) = build::with_levels(seed, 1 + seed as usize % 8);
        let source = Source::new(&file);
        for _ in 0..100 {
            let (_, real) = source.any_point(&mut random);
            let marks = source.any_marks(real, &mut random);
            let made_up = source.wrong_levels(&mut random);
            assert!(!is_in_range(&made_up), "{made_up:?}");
            let mut pair = Pair::new(&made_up, &marks);
            assert_eq!(pair.grant(&file, 5, &mut compared), Ok((20, 1, 0)), "seed {seed}");
            assert_eq!(pair.marks(), marks);
        }
    }
    assert_eq!(out_of_range(&compared), (1..=8).collect::<Vec<u32>>());
}

/// A location in a state that is not finished: 20 in one step, without a location, and no mark changes.
#[test]
fn locations_out_of_range() {
    let mut random = Random::seeded(38);
    let mut compared = Compared::default();
    for seed in 0..300 {
        let (_, file) = build::any(seed);
        let source = Source::new(&file);
        for _ in 0..100 {
            let (real, marks) = source.any_point(&mut random);
            let marks = source.any_marks(marks, &mut random);
            let mut near = *real;
            near[LOCATION] = source.any_number(&mut random).max(1);
            for made_up in [near, source.wrong_location(&mut random)] {
                assert!(!is_in_range(&made_up), "{made_up:?}");
                let mut pair = Pair::new(&made_up, &marks);
                assert_eq!(pair.grant(&file, 0, &mut compared), Ok((-1, 0, 0)), "seed {seed}");
                assert_eq!(pair.grant(&file, 5, &mut compared), Ok((20, 1, 0)), "seed {seed}");
                assert_eq!((pair.state(), pair.marks()), (&finished(20, 0)[..], &marks[..]));
            }
        }
    }
    assert_eq!(out_of_range(&compared), (0..=8).collect::<Vec<u32>>());
}

/// Finished states of every verdict with locations of every kind: both say the same again, whatever is lent, and the location
/// with 7 to 14 and 23 alone.
#[test]
fn finished_states() {
    let mut random = Random::seeded(39);
    let mut compared = Compared::default();
    for seed in 0..300 {
        let (_, file) = build::any(seed);
        let source = Source::new(&file);
        for _ in 0..100 {
            let (_, marks) = source.any_point(&mut random);
            let made_up = source.finished(&mut random);
            let (verdict, kept) = (made_up[0] as i32 - 1, u64::from(made_up[LOCATION]));
            let location = if matches!(verdict, 7..=14 | 23) { kept } else { 0 };
            let lent = random.size_below(file.len());
            for (file, steps) in [(&file[..], 0), (&file[..], 5), (&file[..lent], 1)] {
                let mut pair = Pair::new(&made_up, marks);
                let said = pair.grant(file, steps, &mut compared);
                assert_eq!(said, Ok((verdict, 0, location)), "{made_up:?}");
                assert_eq!((pair.state(), pair.marks()), (&made_up[..], &marks[..]));
            }
        }
    }
    let repeated: Vec<i32> = compared.repeated.keys().copied().collect();
    assert_eq!(repeated, (7..=14).chain([23]).collect::<Vec<i32>>());
    assert!(compared.answers.len() == 17 && compared.locations.is_empty(), "{compared:?}");
}

/// States of the checks of deep files, changed in their levels and elsewhere.
#[test]
fn near_the_states_of_deep_checks() {
    let mut random = Random::seeded(37);
    let mut compared = Compared::default();
    for seed in 0..100 {
        let (_, file) = build::with_levels(seed, 2 + seed as usize % 8);
        let source = Source::new(&file);
        let along: Vec<_> =
            source.points().iter().filter(|(state, _)| matches!(state[2], 4 | 5)).collect();
        for _ in 0..200 {
            let (state, real) = along[random.size_below(along.len())];
            let made_up = source.near(state, &mut random);
            let marks = source.any_marks(real, &mut random);
            agreed(&file, &made_up, &marks, &mut compared, &format!("seed {seed}"));
        }
    }
    let ends: [(u32, &[i32]); 2] = [(4, &[8, 9, 11, 12, 20]), (5, &[8, 9, 10, 12, 20, 23])];
    assert_eq!(compared.missing(&ends), [], "{compared:?}");
    assert_eq!(compared.levels.keys().copied().collect::<Vec<_>>(), (0..=7).collect::<Vec<_>>());
}

/// Any numbers, with grants of nothing too, and now and then marks that are too short.
#[test]
fn numbers_at_random() {
    let mut random = Random::seeded(34);
    let mut compared = Compared::default();
    for seed in 0..300 {
        let (_, file) = build::any(seed);
        let source = Source::new(&file);
        for _ in 0..200 {
            let (_, real) = source.any_point(&mut random);
            let mut marks = source.any_marks(real, &mut random);
            if random.once_in(16) {
                marks.truncate(random.size_below(file.len()));
            }
            let made_up = source.anything(&mut random);
            let what = format!("seed {seed}");
            let nothing = Pair::new(&made_up, &marks).grant(&file, 0, &mut compared);
            assert_eq!(nothing.map(|(_, steps, _)| steps), Ok(0), "{what}");
            agreed(&file, &made_up, &marks, &mut compared, &what);
        }
    }
    assert_eq!(out_of_range(&compared), (0..=9).collect::<Vec<u32>>());
    assert!(compared.answers.len() == 19 && compared.grants > 150_000, "{compared:?}");
}

/// A length below 372 is out of range, also if the file has it.
#[test]
fn files_that_are_too_short() {
    let (_, file) = build::any(7);
    let source = Source::new(&file);
    let mut random = Random::seeded(35);
    let mut compared = Compared::default();
    for length in (1..=400).step_by(7).chain([371, 372]) {
        for _ in 0..50 {
            let mut made_up = source.in_range(&mut random);
            made_up[1] = length;
            let mut pair = Pair::new(&made_up, &vec![1; length as usize]);
            let granted = pair.grant(&file[..length as usize], 1, &mut compared).expect("the same");
            assert!(length >= 372 || granted == (20, 1, 0), "{made_up:?}");
        }
    }
    assert_eq!(out_of_range(&compared), (1..=8).collect::<Vec<u32>>());
}

#[test]
fn states_of_another_length() {
    let (_, file) = build::any(7);
    let marks = vec![1; file.len()];
    let mut compared = Compared::default();
    for length in (0..40).filter(|length| *length != STATE_LENGTH) {
        for number in [0, 1, 21, u32::MAX] {
            for grant in [0, 1, u64::MAX] {
                let mut pair = Pair::new(&vec![number; length], &marks);
                assert_eq!(pair.grant(&file, grant, &mut compared), Ok((20, 0, 0)));
                assert!(pair.state() == vec![number; length] && pair.marks() == marks);
            }
        }
    }
}
