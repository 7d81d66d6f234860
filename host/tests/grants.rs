//! Grants: none, some, too many; after the end; with another file or shorter marks.

use tlepozaluh_host::build;
use tlepozaluh_host::build::random::Random;
use tlepozaluh_host::second::check::{grant, run, Check, Granted, State, RUNNING};
use tlepozaluh_host::second::check::{FRESH, STATE_LENGTH};
use tlepozaluh_host::second::rules::body;
use tlepozaluh_host::second::state::{finished, is_in_range, LOCATION};

/// What a grant leaves that refuses no record.
fn granted(verdict: i32, steps: u64) -> Granted {
    Granted { verdict, steps, location: 0 }
}

/// A good file of at least 20 steps.
fn good_file() -> Vec<u8> {
    let (_, file) = build::any(7);
    assert!(run(&file, &mut vec![0; file.len()]).steps >= 20);
    file
}

#[test]
fn a_grant_of_nothing_does_nothing() {
    let file = good_file();
    let mut marks = vec![9; file.len()];
    let mut check = Check::fresh();
    assert_eq!(check.grant(&file, &mut marks, 0), granted(RUNNING, 0));
    assert_eq!(check, Check::fresh());
    check.grant(&file, &mut marks, 5);
    let before = (check.clone(), marks.clone());
    assert_eq!(check.grant(&file, &mut marks, 0), granted(RUNNING, 0));
    assert_eq!(check.grant(&[], &mut [], 0), granted(RUNNING, 0), "21 is not looked for");
    assert_eq!((check, marks), before);
}

#[test]
fn a_finished_check_repeats_its_verdict() {
    let file = good_file();
    let mut marks = vec![9; file.len()];
    let mut check = Check::fresh();
    check.grant(&file, &mut marks, u64::MAX);
    let before = (check.clone(), marks.clone());
    for grant in [0, 1, u64::MAX] {
        assert_eq!(check.grant(&file, &mut marks, grant), granted(0, 0));
        assert_eq!(check.grant(&[1, 2], &mut [], grant), granted(0, 0));
    }
    assert_eq!(check.step(&file, &mut marks), 0);
    assert_eq!((check, marks), before);
    let mut refused = Check::fresh();
    assert_eq!(refused.grant(&file[..100], &mut [0; 100], 3), granted(3, 1));
    assert_eq!(refused.grant(&file, &mut vec![0; file.len()], 3), granted(3, 0));
    assert_eq!((refused.verdict(), refused.steps()), (3, 1));
}

#[test]
fn another_length_or_shorter_marks() {
    let file = good_file();
    let whole = run(&file, &mut vec![0; file.len()]);
    let longer: Vec<u8> = file.iter().copied().chain([0]).collect();
    for made in 1..whole.steps {
        let mut marks = vec![9; file.len() + 1];
        let mut check = Check::fresh();
        check.grant(&file, &mut marks, made);
        let before = (check.clone(), marks.clone());
        assert_eq!(check.grant(&longer, &mut marks, 1), granted(21, 0));
        assert_eq!(check.grant(&file[1..], &mut marks, 1), granted(21, 0));
        let mut short = vec![7; file.len() - 1];
        assert_eq!(check.grant(&file, &mut short, u64::MAX), granted(21, 0));
        assert!(short.iter().all(|mark| *mark == 7));
        assert_eq!((check.clone(), marks.clone()), before);
        assert_eq!(check.verdict(), RUNNING);
        let rest = check.grant(&file, &mut marks, u64::MAX);
        assert_eq!(rest, granted(0, whole.steps - made));
    }
}

#[test]
fn before_the_opening_no_length_is_noted() {
    let file = good_file();
    let mut check = Check::fresh();
    check.grant(&[], &mut [], 0);
    assert_eq!(check.grant(&file, &mut vec![0; file.len() - 1], 4), granted(2, 1));
    assert_eq!(Check::fresh().grant(&file[..10], &mut [0; 9], 4), granted(2, 1), "2 before 3");
    assert_eq!(Check::fresh().grant(&[], &mut [], 4), granted(3, 1));
}

#[test]
fn a_file_that_is_too_long() {
    let file = vec![0; 1 << 31];
    assert_eq!(run(&file, &mut []), granted(1, 1), "1 before 2");
}

#[test]
fn marks_outside_the_records_are_never_written() {
    for seed in 0..200 {
        let (_, file) = build::any(seed);
        let mut marks = vec![0x55; file.len() + 20];
        assert_eq!(run(&file, &mut marks).verdict, 0, "seed {seed}");
        let end = body(&file).len();
        assert!(marks[..8].iter().chain(&marks[end..]).all(|mark| *mark == 0x55));
    }
}

/// A check is its saved state: loaded anew before each step, it goes on as before.
#[test]
fn from_one_saved_state_to_the_next() {
    for seed in 0..200 {
        let (_, file) = build::any(seed);
        let whole = run(&file, &mut vec![0; file.len()]);
        let mut marks = vec![0; file.len()];
        let mut state = FRESH;
        let mut steps = 0;
        while state[0] == 0 {
            assert!(is_in_range(&state), "seed {seed}: {state:?}");
            let mut check = Check::load(state);
            check.step(&file, &mut marks);
            state = check.state();
            steps += 1;
        }
        assert_eq!((state, steps), (finished(whole.verdict, 0), whole.steps), "seed {seed}");
    }
}

#[test]
fn states_of_another_length() {
    let file = good_file();
    let mut marks = vec![9; file.len()];
    for length in (0..40).filter(|length| *length != STATE_LENGTH) {
        for number in [0, 1, u32::MAX] {
            let mut state = vec![number; length];
            for steps in [0, 1, u64::MAX] {
                assert_eq!(grant(&file, &mut marks, &mut state, steps), granted(20, 0));
            }
            assert_eq!(state, vec![number; length]);
        }
    }
    assert!(marks.iter().all(|mark| *mark == 9));
}

/// What grants of 0, of 1 and of all steps answer on a state.
fn answers(file: &[u8], state: State) -> [(Granted, State); 3] {
    [0, 1, u64::MAX].map(|steps| {
        let mut after = state;
        let answer = grant(file, &mut vec![1; file.len()], &mut after, steps);
        (answer, after)
    })
}

/// A number out of its range: nothing for a grant of 0, else one step with 20; but 21 and finished states come first.
#[test]
fn numbers_out_of_range() {
    let file = good_file();
    let length = file.len() as u32;
    let mut real = FRESH;
    grant(&file, &mut vec![0; file.len()], &mut real, 3);
    let changes = [(0, 16), (0, 20), (0, 22), (0, 23), (0, 25), (2, 9), (3, 1), (4, 7), (5, 1)];
    let changes = changes.into_iter().chain((11..STATE_LENGTH).map(|place| (place, 1)));
    for (place, number) in changes {
        let mut state = real;
        state[place] = number;
        let refused = (granted(20, 1), finished(20, 0));
        assert_eq!(answers(&file, state), [(granted(RUNNING, 0), state), refused, refused]);
        state[1] = length + 1;
        let other = (granted(21, 0), state);
        assert_eq!(answers(&file, state), [(granted(RUNNING, 0), state), other, other]);
    }
}

/// Number 0 says that a check is finished; the location is said again with 7 to 14 and 23, whatever number it is, and with no
/// other verdict.
#[test]
fn finished_states() {
    let file = good_file();
    for verdict in (0..=14).chain([20, 23]) {
        for location in [0, 1, 8, 312, file.len() as u32, 1 << 31, u32::MAX] {
            for others in [0, 1, u32::MAX] {
                let mut state = [others; STATE_LENGTH];
                (state[0], state[LOCATION]) = (verdict as u32 + 1, location);
                let location =
                    if (7..=14).contains(&verdict) || verdict == 23 { location } else { 0 };
                let again = Granted { location: u64::from(location), ..granted(verdict, 0) };
                assert_eq!(answers(&file, state), [(again, state); 3]);
            }
        }
    }
}

/// Bytes that change between grants: the check still ends, and never stops the program.
#[test]
fn another_file_of_the_same_length() {
    let mut random = Random::seeded(21);
    let mut past_the_end = 0;
    for seed in 0..3000 {
        let (_, file) = build::any(seed);
        let mut marks = vec![0; file.len()];
        let whole = run(&file, &mut marks).steps;
        let mut other = file.clone();
        for _ in 0..random.between(1, 40) {
            let at = random.size_below(other.len());
            other[at] = random.byte();
        }
        let mut check = Check::fresh();
        check.grant(&file, &mut marks, 1 + random.below(whole as i64 - 1) as u64);
        let most = 2 * file.len() as u64 + 10;
        let answer = check.grant(&other, &mut marks, most);
        assert!((0..=23).contains(&answer.verdict) && answer.steps < most, "seed {seed}");
        assert_eq!(check.state(), finished(answer.verdict, answer.location as u32), "seed {seed}");
        past_the_end += u64::from(answer.verdict == 20);
    }
    assert!(past_the_end > 0);
}
