//! Every line of the lists of checks: verdict, steps, location and marks, in one run and in grants.

use tlepozaluh_host::build::random::Random;
use tlepozaluh_host::locations;
use tlepozaluh_host::samples::{self, CheckLine, CHECKS};
use tlepozaluh_host::second::check::{run, Check, RUNNING};

/// Each line of each list with its file, and what the marks hold at first.
fn lines_and_files() -> Vec<(CheckLine, Vec<u8>, u8)> {
    let of = |list: &samples::Checks| {
        let all = list.checked_files().expect(list.list);
        let first_mark = list.first_mark;
        all.into_iter().map(move |(line, file)| (line, file, first_mark)).collect::<Vec<_>>()
    };
    CHECKS.iter().flat_map(of).collect()
}

#[test]
fn every_line_in_one_run() {
    for (line, file, first_mark) in lines_and_files() {
        let mut marks = vec![first_mark; file.len()];
        let answer = run(&file, &mut marks);
        let left = (answer.verdict, answer.steps, answer.location);
        assert!(line.says(left), "{line:?}: {answer:?}");
        assert!(
            locations::is_right(&file, answer.verdict, answer.location),
            "{line:?}: {answer:?}"
        );
        assert_eq!(samples::fnv1a(&marks), line.marks, "marks of {}", line.name);
    }
}

#[test]
fn every_line_step_by_step() {
    for (line, file, first_mark) in lines_and_files() {
        let mut marks = vec![first_mark; file.len()];
        let mut check = Check::fresh();
        while check.verdict() == RUNNING {
            let before = (check.steps(), marks.clone());
            let answer = check.step(&file, &mut marks);
            assert_eq!(check.steps(), before.0 + 1, "{}", line.name);
            let refused = answer > 0;
            assert!(!refused || marks == before.1, "a refusal changed marks of {}", line.name);
        }
        assert!(
            line.says((check.verdict(), check.steps(), check.location())),
            "{line:?}: {check:?}"
        );
        assert_eq!(samples::fnv1a(&marks), line.marks, "marks of {}", line.name);
    }
}

#[test]
fn every_line_in_random_grants() {
    let mut random = Random::seeded(830);
    for (line, file, first_mark) in lines_and_files() {
        for greatest in [2, 5, 40] {
            let mut marks = vec![first_mark; file.len()];
            let mut check = Check::fresh();
            let mut made = 0;
            while check.verdict() == RUNNING {
                let grant = random.below(greatest + 1) as u64;
                let answer = check.grant(&file, &mut marks, grant);
                assert!(answer.steps <= grant);
                let whole = answer.steps == grant;
                assert!(whole || answer.verdict != RUNNING, "{} stopped early", line.name);
                made += answer.steps;
            }
            assert!(line.says((check.verdict(), made, check.location())), "{line:?}: {check:?}");
            assert_eq!(samples::fnv1a(&marks), line.marks, "marks of {}", line.name);
            said_again(check, &file, &line);
        }
    }
}

/// A finished check says verdict and location again, whatever is granted and lent.
fn said_again(mut check: Check, file: &[u8], line: &CheckLine) {
    let finished = (check.verdict(), check.location());
    let shorter = file.get(1..).unwrap_or(&[]);
    for (lent, steps) in [(file, 0), (file, 1), (shorter, 0), (shorter, 7), (&[], u64::MAX)] {
        let again = check.grant(lent, &mut [], steps);
        let expected = (finished.0, 0, finished.1);
        assert_eq!((again.verdict, again.steps, again.location), expected, "{line:?}");
    }
}

#[test]
fn every_verdict_occurs() {
    let all = lines_and_files();
    let mut verdicts: Vec<i32> = all.iter().map(|(line, _, _)| line.verdict).collect();
    verdicts.sort_unstable();
    verdicts.dedup();
    assert_eq!(verdicts, [0, 3, 4, 5, 6, 7, 8, 9, 10, 11, 12, 13, 14, 23]);
}
