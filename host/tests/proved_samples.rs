//! The proved checker on the sample files: every line of the lists of checks and every ring.

use tlepozaluh_host::bindings::{check_grant, fresh, from_bytes, run, to_bytes, Granted};
use tlepozaluh_host::build::random::Random;
use tlepozaluh_host::samples::{self, CheckLine, CHECKS};
use tlepozaluh_host::second::check;

const RUNNING: i32 = -1;

/// Each line of each list with its file, and what the marks hold at first.
fn lines_and_files() -> Vec<(CheckLine, Vec<u8>, u8)> {
    let of = |list: &samples::Checks| {
        let all = list.checked_files().expect(list.list);
        let first_mark = list.first_mark;
        all.into_iter().map(move |(line, file)| (line, file, first_mark)).collect::<Vec<_>>()
    };
    CHECKS.iter().flat_map(of).collect()
}

#[test]
fn every_line_in_one_run() {
    for (line, file, first_mark) in lines_and_files() {
        let mut marks = vec![first_mark; file.len()];
        let answer = run(&file, &mut marks);
        assert!(line.says(answer), "{line:?}: {answer:?}");
        assert_eq!(samples::fnv1a(&marks), line.marks, "marks of {}", line.name);
    }
}

/// Grants from 0 to `greatest` steps, the state kept as bytes between them: verdict, steps and location, which are then given
/// again, whatever is granted and lent.
fn in_grants(file: &[u8], marks: &mut [u8], random: &mut Random, greatest: i64) -> Granted {
    let mut kept = to_bytes(&fresh());
    let mut made = 0;
    loop {
        let mut state = from_bytes(&kept).expect("136 bytes");
        let grant = random.between(0, greatest) as u64;
        let (answer, steps, location) = check_grant(file, marks, &mut state, grant);
        assert!(steps == grant || steps < grant && answer != RUNNING);
        kept = to_bytes(&state);
        made += steps;
        if answer != RUNNING {
            said_again(file, &kept, (answer, 0, location));
            return (answer, made, location);
        }
        assert_eq!(location, 0);
    }
}

/// A finished check says verdict and location again, and its state stays.
fn said_again(file: &[u8], kept: &[u8], again: Granted) {
    let shorter = file.get(1..).unwrap_or(&[]);
    for (lent, grant) in [(file, 0), (file, 1), (shorter, 0), (shorter, 7), (&[], u64::MAX)] {
        let mut state = from_bytes(kept).expect("136 bytes");
        assert_eq!(check_grant(lent, &mut [], &mut state, grant), again);
        assert_eq!(to_bytes(&state), kept);
    }
}

#[test]
fn every_line_in_random_grants() {
    let mut random = Random::seeded(831);
    for (line, file, first_mark) in lines_and_files() {
        for greatest in [1, 2, 5, 40] {
            let mut marks = vec![first_mark; file.len()];
            let answer = in_grants(&file, &mut marks, &mut random, greatest);
            assert!(line.says(answer), "{line:?}: {answer:?}");
            assert_eq!(samples::fnv1a(&marks), line.marks, "marks of {}", line.name);
        }
    }
}

/// A ring is refused at the step that meets its record again, and not after the count its list claims.
#[test]
fn every_ring_is_refused_in_a_few_steps() {
    let mut refused = 0;
    for found in std::fs::read_dir(samples::directory().join("rings")).expect("samples/rings") {
        let path = found.expect("a file").path();
        let file = std::fs::read(&path).expect("its bytes");
        let mut marks = vec![0x77; file.len()];
        let (verdict, steps, location) = run(&file, &mut marks);
        assert!((7..=9).contains(&verdict) && steps <= 30, "{path:?}: {verdict} at {steps}");
        let mut other_marks = vec![0x77; file.len()];
        let other = check::run(&file, &mut other_marks);
        let others = (other.verdict, other.steps, other.location);
        assert_eq!(((verdict, steps, location), marks), (others, other_marks), "{path:?}");
        refused += 1;
    }
    assert_eq!(refused, 11);
}
