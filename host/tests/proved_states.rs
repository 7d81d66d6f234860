//! The proved checker's saved states: wrong lengths, grants of 0, finished ones, other files, longer marks.

use tlepozaluh_host::bindings::{check_begin, check_grant, fresh, run};
use tlepozaluh_host::bindings::{Granted, State, STATE_LENGTH};
use tlepozaluh_host::build;
use tlepozaluh_host::build::random::Random;
use tlepozaluh_host::build::records::put;
use tlepozaluh_host::pair::{Compared, Pair};

/// A good file of at least 20 steps, and its steps.
fn good_file() -> (Vec<u8>, u64) {
    let (_, file) = build::any(7);
    let (verdict, steps, _) = run(&file, &mut vec![0; file.len()]);
    assert!(verdict == 0 && steps >= 20);
    (file, steps)
}

/// The state of a finished check that refused no record.
fn finished(verdict: u32) -> State {
    let mut state = [0; STATE_LENGTH];
    state[0] = verdict + 1;
    state
}

/// Locations of all kinds: none, records, edges.
const LOCATIONS: [u32; 7] = [0, 8, 312, 12345, 0x7FFF_FFFF, 0x8000_0000, u32::MAX];

#[test]
fn fresh_is_zeros() {
    let mut state = [7; STATE_LENGTH];
    assert_eq!(check_begin(&mut state), -1);
    assert_eq!(state, [0; STATE_LENGTH]);
}

#[test]
fn states_of_another_length() {
    let (file, _) = good_file();
    let mut marks = vec![9; file.len()];
    for length in (0..40).filter(|length| *length != STATE_LENGTH) {
        for number in [0, 1, u32::MAX] {
            let mut state = vec![number; length];
            assert_eq!(check_begin(&mut state), 20);
            for grant in [0, 1, u64::MAX] {
                assert_eq!(check_grant(&file, &mut marks, &mut state, grant), (20, 0, 0));
                assert_eq!(check_grant(&[], &mut [], &mut state, grant), (20, 0, 0));
            }
            assert_eq!(state, vec![number; length]);
        }
    }
    assert!(marks.iter().all(|mark| *mark == 9));
}

#[test]
fn a_grant_of_nothing_does_nothing() {
    let (file, whole) = good_file();
    for made in 0..=whole {
        let mut marks = vec![9; file.len()];
        let mut state = fresh();
        check_grant(&file, &mut marks, &mut state, made);
        let before = (state, marks.clone());
        let answer = if made == whole { 0 } else { -1 };
        assert_eq!(check_grant(&file, &mut marks, &mut state, 0), (answer, 0, 0));
        assert_eq!(
            check_grant(&[], &mut [], &mut state, 0),
            (answer, 0, 0),
            "21 is not looked for"
        );
        assert_eq!((state, marks), before);
    }
    let mut strange = [u32::MAX; STATE_LENGTH];
    assert_eq!(check_grant(&file, &mut vec![0; file.len()], &mut strange, 0), (-1, 0, 0));
    assert_eq!(strange, [u32::MAX; STATE_LENGTH]);
}

/// A finished state says what is given again, whatever is lent, and nothing changes.
fn said_again(file: &[u8], before: State, again: Granted) {
    let mut state = before;
    let mut marks = vec![1; file.len()];
    for grant in [0, 1, u64::MAX] {
        assert_eq!(check_grant(file, &mut marks, &mut state, grant), again);
        assert_eq!(check_grant(&file[1..], &mut marks, &mut state, grant), again);
        assert_eq!(check_grant(&[], &mut [], &mut state, grant), again);
        assert_eq!(check_grant(file, &mut marks[..5], &mut state, grant), again);
    }
    assert_eq!(state, before);
    assert!(marks.iter().all(|mark| *mark == 1));
}

/// The location is given again with 7 to 14 and 23, whatever number it is, and with no other verdict.
#[test]
fn a_finished_check_repeats_verdict_and_location() {
    let (file, _) = good_file();
    for verdict in (0..=14).chain([20, 23]) {
        for location in LOCATIONS {
            let mut noisy = [0x1234_5678; STATE_LENGTH];
            noisy[0] = verdict + 1;
            for mut before in [finished(verdict), noisy] {
                before[33] = location;
                let has_location = (7..=14).contains(&verdict) || verdict == 23;
                let location = if has_location { u64::from(location) } else { 0 };
                said_again(&file, before, (verdict as i32, 0, location));
            }
        }
    }
}

/// A finished check keeps its verdict, the location of its refusal, and nothing else.
#[test]
fn what_a_finished_check_leaves() {
    let (file, whole) = good_file();
    let mut state = fresh();
    assert_eq!(check_grant(&file, &mut vec![0; file.len()], &mut state, u64::MAX), (0, whole, 0));
    assert_eq!(state, finished(0));
    let mut state = fresh();
    assert_eq!(check_grant(&file[..100], &mut [0; 100], &mut state, 3), (3, 1, 0));
    assert_eq!(state, finished(3));
    assert_eq!(check_grant(&file, &mut vec![0; file.len()], &mut state, 3), (3, 0, 0));
    let mut ring = file.clone();
    put(&mut ring, 8, 7);
    let mut state = fresh();
    assert_eq!(check_grant(&file, &mut vec![0; file.len()], &mut state, 1), (-1, 1, 0));
    assert_eq!(check_grant(&ring, &mut vec![0; file.len()], &mut state, 1), (7, 1, 8));
    assert_eq!((state[0], state[33]), (8, 8));
    assert!(state[1..33].iter().all(|number| *number == 0));
}

/// In a state that is not finished a location other than 0 is out of its range: 20 in one step, without a location.
#[test]
fn a_location_before_the_end() {
    let (file, whole) = good_file();
    for made in 0..whole {
        let mut marks = vec![9; file.len()];
        let mut state = fresh();
        check_grant(&file, &mut marks, &mut state, made);
        for location in LOCATIONS.into_iter().filter(|location| *location != 0) {
            let (mut other, mut other_marks) = (state, marks.clone());
            other[33] = location;
            assert_eq!(check_grant(&file, &mut other_marks, &mut other, 0), (-1, 0, 0));
            assert_eq!(check_grant(&file, &mut other_marks, &mut other, 5), (20, 1, 0));
            assert_eq!((other, &other_marks), (finished(20), &marks));
        }
    }
}

/// States of 33 numbers, as they were before locations were kept: 20 in 0 steps, and nothing changes.
#[test]
fn states_of_thirty_three_numbers() {
    let (file, whole) = good_file();
    for made in 0..=whole {
        let mut marks = vec![9; file.len()];
        let mut state = fresh();
        check_grant(&file, &mut marks, &mut state, made);
        let mut old = state[..33].to_vec();
        for grant in [0, 1, u64::MAX] {
            assert_eq!(check_grant(&file, &mut marks.clone(), &mut old, grant), (20, 0, 0));
        }
        assert_eq!((check_begin(&mut old), old.as_slice()), (20, &state[..33]));
    }
}

#[test]
fn another_length_or_shorter_marks() {
    let (file, whole) = good_file();
    let longer: Vec<u8> = file.iter().copied().chain([0]).collect();
    for made in 1..whole {
        let mut marks = vec![9; file.len() + 1];
        let mut state = fresh();
        assert_eq!(check_grant(&file, &mut marks, &mut state, made), (-1, made, 0));
        let before = (state, marks.clone());
        assert_eq!(check_grant(&longer, &mut marks, &mut state, 1), (21, 0, 0));
        assert_eq!(check_grant(&file[1..], &mut marks, &mut state, 1), (21, 0, 0));
        assert_eq!(check_grant(&[], &mut [], &mut state, 1), (21, 0, 0));
        let mut short = vec![7; file.len() - 1];
        assert_eq!(check_grant(&file, &mut short, &mut state, u64::MAX), (21, 0, 0));
        assert!(short.iter().all(|mark| *mark == 7));
        assert_eq!((state, marks.clone()), before);
        assert_eq!(check_grant(&file, &mut marks, &mut state, u64::MAX), (0, whole - made, 0));
    }
}

#[test]
fn before_the_opening_no_length_is_noted() {
    let (file, _) = good_file();
    let mut state = fresh();
    assert_eq!(check_grant(&[], &mut [], &mut state, 0), (-1, 0, 0));
    assert_eq!(check_grant(&file, &mut vec![0; file.len() - 1], &mut state, 4), (2, 1, 0));
    assert_eq!(run(&file[..10], &mut [0; 9]), (2, 1, 0), "2 before 3");
    assert_eq!(run(&[], &mut []), (3, 1, 0));
}

#[test]
fn a_file_that_is_too_long() {
    let file = vec![0; 1 << 31];
    assert_eq!(run(&file, &mut []), (1, 1, 0), "1 before 2");
    assert_eq!(run(&file[1..], &mut []), (2, 1, 0));
}

#[test]
fn marks_longer_than_the_file() {
    for seed in 0..300 {
        let (_, file) = build::any(seed);
        let mut marks = vec![0x55; file.len() + 1 + seed as usize];
        let answer = run(&file, &mut marks);
        assert!(marks[..8].iter().chain(&marks[file.len()..]).all(|mark| *mark == 0x55));
        let mut exact = vec![0x55; file.len()];
        assert_eq!(run(&file, &mut exact), answer, "seed {seed}");
        assert_eq!(marks[..file.len()], exact, "seed {seed}");
    }
}

/// Bytes that change between grants: the check goes on as the second one does, and ends with a number of the table.
#[test]
fn another_file_of_the_same_length() {
    let mut random = Random::seeded(22);
    let mut compared = Compared::default();
    for seed in 0..4000 {
        let (_, file) = build::any(seed);
        let whole = run(&file, &mut vec![0; file.len()]).1;
        let mut other = file.clone();
        for _ in 0..random.between(1, 40) {
            let at = random.size_below(other.len());
            other[at] = random.byte();
        }
        let mut pair = Pair::fresh(&vec![0; file.len() + 1]);
        let made = 1 + random.below(whole as i64 - 1) as u64;
        assert_eq!(pair.grant(&file, made, &mut compared), Ok((-1, made, 0)), "seed {seed}");
        let most = 2 * file.len() as u64 + 10;
        let (answer, steps, _) = pair.grant(&other, most, &mut compared).expect("the same");
        assert!((0..=14).contains(&answer) || [20, 23].contains(&answer), "seed {seed}: {answer}");
        assert!(steps < most, "seed {seed}");
    }
    assert!([0, 7, 8, 10, 11, 13, 20].iter().all(|answer| compared.answers.contains_key(answer)));
}
