//! Every script of rounds of the samples, by both implementations: what each round answers and leaves.

use tlepozaluh_host::bindings::check_grant;
use tlepozaluh_host::samples::fnv1a;
use tlepozaluh_host::scripts::{self, HELD};
use tlepozaluh_host::second::check::{grant, State};
use tlepozaluh_host::second::rounds::{Job, Part};
use tlepozaluh_host::window::Window;

/// The location of a job, from a grant of nothing to both with nothing lent; the state stays.
fn location(state: &State) -> u64 {
    let (mut proved, mut second) = (*state, *state);
    let (_, steps, location) = check_grant(&[], &mut [], &mut proved, 0);
    let other = grant(&[], &mut [], &mut second, 0);
    assert_eq!((steps, location), (0, other.location));
    assert_eq!((proved, second), (*state, *state));
    location
}

/// What the caller alone writes in a row: owner and parts.
fn kept(jobs: &[Job]) -> Vec<(u32, Part, Part)> {
    jobs.iter().map(|job| (job.owner, job.file, job.marks)).collect()
}

#[test]
fn every_script() {
    let (mut ran, mut rows, mut rounds) = (0, 0, 0);
    for (number, script) in scripts::all().expect("rounds.txt").iter().enumerate() {
        let mut window = Window::new(&script.files, &script.marks, &script.jobs);
        for (turn, line) in script.rounds.iter().enumerate() {
            let what = format!("script {number}, round {turn}");
            assert_eq!(window.round(line.steps), Ok(line.answer), "{what}");
            assert_eq!(fnv1a(window.marks()), line.marks, "{what}");
            let left = window.jobs().iter().map(|job| (job.last, location(&job.state)));
            assert_eq!(left.collect::<Vec<(i32, u64)>>(), line.rows, "{what}");
            assert_eq!(kept(window.jobs()), kept(&script.jobs), "{what}");
            rounds += 1;
        }
        rows += script.jobs.len();
        ran += 1;
    }
    assert_eq!((ran, rows, rounds), HELD);
}

/// The scripts have rounds of both answers, and rows that end as most checks do.
#[test]
fn what_the_scripts_hold() {
    let scripts = scripts::all().expect("rounds.txt");
    let rounds = || scripts.iter().flat_map(|script| &script.rounds);
    let refused = rounds().filter(|round| round.answer == 24).count();
    assert_eq!((refused, rounds().filter(|round| round.answer == -1).count()), (22, 133));
    let mut answers: Vec<i32> =
        rounds().flat_map(|round| round.rows.iter().map(|row| row.0)).collect();
    answers.sort_unstable();
    answers.dedup();
    assert_eq!(answers, (-1..=14).filter(|answer| *answer != 1).chain([23]).collect::<Vec<i32>>());
}
