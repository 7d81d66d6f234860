//! Rounds that are refused with 24 and change nothing, and their neighbours that are made; by both implementations.

use tlepozaluh_host::build;
use tlepozaluh_host::second::check::{run, RUNNING};
use tlepozaluh_host::second::rounds::{Job, Part, BAD_ROUND};
use tlepozaluh_host::second::state::finished;
use tlepozaluh_host::window::Window;

/// A window before it is given to both.
#[derive(Clone)]
struct Setting {
    files: Vec<u8>,
    marks: Vec<u8>,
    jobs: Vec<Job>,
    steps: u64,
}

/// Bytes before, between and behind the parts.
const GAP: usize = 20;

/// Three good files with gaps about them; the marks lie elsewhere than the files.
fn setting() -> Setting {
    let mut files = vec![0xEE; GAP];
    let mut jobs = Vec::new();
    for (seed, owner) in [(7, 70), (8, 80), (9, 90)] {
        let (_, file) = build::any(seed);
        let part = Part { from: files.len(), length: file.len() };
        jobs.push(Job::fresh(owner, part, Part { from: part.from + 3, ..part }));
        files.extend(file);
        files.extend([0xEE; GAP]);
    }
    let marks = vec![0x5A; files.len() + 1];
    Setting { files, marks, jobs, steps: 4 }
}

fn end(part: Part) -> usize {
    part.from + part.length
}

fn empty(from: usize) -> Part {
    Part { from, length: 0 }
}

/// A job without bytes and marks, at the beginning of both areas.
fn nothing(owner: u32) -> Job {
    Job::fresh(owner, empty(0), empty(0))
}

/// A change of a setting, in words and as it is done.
type Change = (&'static str, fn(&mut Setting));

/// The round is refused, again and again; so it is with other states and last answers in the rows.
fn is_refused(setting: &Setting, what: &str) {
    let states = [
        |_: &mut Job| {},
        |job: &mut Job| job.state = finished(9, 312),
        |job: &mut Job| {
            job.state[2] = 77;
        },
    ];
    for (number, change) in states.iter().enumerate() {
        let mut jobs = setting.jobs.clone();
        jobs.iter_mut().for_each(change);
        jobs.iter_mut().zip(3..).for_each(|(job, last)| job.last = last);
        let mut window = Window::new(&setting.files, &setting.marks, &jobs);
        for _ in 0..2 {
            assert_eq!(window.round(setting.steps), Ok(BAD_ROUND), "{what}, states {number}");
        }
        assert_eq!((window.jobs(), window.marks()), (&jobs[..], &setting.marks[..]), "{what}");
    }
}

/// The rounds are made; in the end each fresh job has the verdict of its own part.
fn is_made(setting: &Setting, what: &str) {
    let mut window = Window::new(&setting.files, &setting.marks, &setting.jobs);
    assert_eq!(window.round(setting.steps), Ok(RUNNING), "{what}");
    assert_eq!(window.round(u64::MAX), Ok(RUNNING), "{what}");
    for (job, was) in window.jobs().iter().zip(&setting.jobs) {
        let file = &setting.files[job.file.from..end(job.file)];
        let expected = run(file, &mut vec![0; job.marks.length]).verdict;
        let verdict = if was.state[0] == 0 { expected } else { was.state[0] as i32 - 1 };
        assert_eq!(job.last, verdict, "{what}");
    }
}

fn each(changes: &[Change], expected: fn(&Setting, &str)) {
    for (what, change) in changes {
        let mut setting = setting();
        change(&mut setting);
        expected(&setting, what);
    }
}

#[test]
fn no_steps_or_too_many_jobs() {
    is_made(&setting(), "as it is");
    each(
        &[
            ("no steps", |of| of.steps = 0),
            ("no steps and no jobs", |of| (of.steps, of.jobs) = (0, Vec::new())),
            ("nine jobs", |of| of.jobs.extend((0..6).map(nothing))),
            ("nine jobs without bytes", |of| of.jobs = (0..9).map(nothing).collect()),
            ("twenty jobs", |of| of.jobs = (0..20).map(nothing).collect()),
        ],
        is_refused,
    );
    each(
        &[
            ("no jobs", |of| of.jobs.clear()),
            ("no jobs, no bytes and no marks", |of| {
                *of = Setting { files: vec![], marks: vec![], jobs: vec![], steps: 1 };
            }),
            ("eight jobs", |of| of.jobs.extend((0..5).map(nothing))),
            ("eight jobs without bytes", |of| of.jobs = (0..8).map(nothing).collect()),
            ("one step", |of| of.steps = 1),
            ("as many steps as there can be", |of| of.steps = u64::MAX),
        ],
        is_made,
    );
}

/// Nine rows are too many even if all of them, or all but one, are finished.
#[test]
fn nine_finished_jobs() {
    for unfinished in 0..2 {
        let mut setting = setting();
        setting.jobs = (0..9).map(nothing).collect();
        setting.jobs.iter_mut().skip(unfinished).for_each(|job| job.state = finished(0, 0));
        is_refused(&setting, "nine finished jobs");
        setting.jobs.pop();
        is_made(&setting, "eight finished jobs");
    }
}

#[test]
fn parts_outside_their_area() {
    each(
        &[
            ("a file of a byte too many", |of| {
                of.jobs[1].file = Part { from: 0, length: of.files.len() + 1 };
                of.jobs = vec![of.jobs[1].clone()];
            }),
            ("the last file", |of| of.jobs[2].file.from += GAP + 1),
            ("the last file's length", |of| of.jobs[2].file.length += GAP + 1),
            ("the last marks", |of| of.jobs[2].marks.from += GAP - 1),
            ("the last marks' length", |of| of.jobs[2].marks.length += GAP - 1),
            ("no bytes beyond the files", |of| of.jobs[0].file = empty(of.files.len() + 1)),
            ("no bytes beyond the marks", |of| of.jobs[0].marks = empty(of.marks.len() + 1)),
            ("no bytes far beyond", |of| of.jobs[0].file = empty(usize::MAX)),
            ("no marks far beyond", |of| of.jobs[0].marks = empty(usize::MAX)),
            ("a byte of no area", |of| {
                (of.files, of.marks) = (vec![], vec![]);
                of.jobs = vec![Job::fresh(1, Part { from: 0, length: 1 }, empty(0))];
            }),
            ("a mark of no area", |of| {
                (of.files, of.marks) = (vec![], vec![]);
                of.jobs = vec![Job::fresh(1, empty(0), Part { from: 0, length: 1 })];
            }),
        ],
        is_refused,
    );
}

/// Parts that end where their area ends.
#[test]
fn parts_up_to_the_end() {
    each(
        &[
            ("the last file at the end", |of| of.jobs[2].file.from += GAP),
            ("the last file to the end", |of| of.jobs[2].file.length += GAP),
            ("the last marks at the end", |of| of.jobs[2].marks.from += GAP - 2),
            ("the last marks to the end", |of| of.jobs[2].marks.length += GAP - 2),
            ("the whole area", |of| {
                of.jobs[1].file = Part { from: 0, length: of.files.len() };
                of.jobs[1].marks = Part { from: 0, length: of.marks.len() };
                of.jobs = vec![of.jobs[1].clone()];
            }),
        ],
        is_made,
    );
}

/// Sums past the greatest number do not come round to an offset inside.
#[test]
fn parts_whose_ends_overflow() {
    for length in [1, 2, 10, 372, usize::MAX / 2, usize::MAX - 1, usize::MAX] {
        let last = usize::MAX - length;
        for from in [last.saturating_add(1), last.saturating_add(11), usize::MAX] {
            let wide = Part { from, length };
            for (place, is_file) in [(0, true), (2, true), (0, false), (2, false)] {
                let mut setting = setting();
                let job = &mut setting.jobs[place];
                *(if is_file { &mut job.file } else { &mut job.marks }) = wide;
                is_refused(&setting, &format!("{wide:?}, row {place}, of the files: {is_file}"));
            }
        }
    }
}

/// Two parts of one area: how the second row's lies to the first's, and whether they overlap.
fn pairs(first: Part, length: usize) -> Vec<(Part, bool)> {
    let at = |from: usize, length: usize| Part { from, length };
    vec![
        (at(end(first), length), false),
        (at(end(first) - 1, length), true),
        (at(end(first) - 1, 1), true),
        (at(first.from - 5, 5), false),
        (at(first.from - 5, 6), true),
        (at(first.from, 1), true),
        (at(first.from + 9, 30), true),
        (first, true),
        (at(first.from - 1, first.length + 2), true),
        (at(first.from, first.length + 1), true),
        (empty(first.from), false),
        (empty(first.from + 1), false),
        (empty(end(first) - 1), false),
        (empty(end(first)), false),
        (empty(0), false),
    ]
}

/// Every way in which two parts of nonzero length may lie, in either area, in either order of the rows; finished rows are
/// judged too.
#[test]
fn parts_that_overlap_or_touch() {
    let of = setting();
    for (area, first) in [of.jobs[0].file, of.jobs[0].marks].into_iter().enumerate() {
        for (second, overlap) in pairs(first, GAP) {
            for (turned, ended) in [(0, 0), (0, 1), (1, 0), (1, 1), (0, 2), (1, 2)] {
                let mut setting = of.clone();
                let job = &mut setting.jobs[1];
                *(if area == 0 { &mut job.file } else { &mut job.marks }) = second;
                setting.jobs.iter_mut().take(ended).for_each(|job| job.state = finished(0, 0));
                setting.jobs.rotate_left(turned);
                let what = format!("area {area}, {second:?} beside {first:?}, {turned}, {ended}");
                let expected = if overlap { is_refused } else { is_made };
                expected(&setting, &what);
            }
        }
    }
}

/// Rows that do not stand beside one another in the list are compared too: every two of eight.
#[test]
fn every_two_of_eight() {
    let part = |place: usize| Part { from: 10 * place, length: 10 };
    for (one, other) in (0..8).flat_map(|one| (0..8).map(move |other| (one, other))) {
        let jobs = (0..8).map(|place| Job::fresh(place as u32, part(place), part(place)));
        let (files, marks) = (vec![1; 80], vec![1; 80]);
        let plain = Setting { files, marks, jobs: jobs.collect(), steps: 1 };
        is_made(&plain, "eight parts that touch");
        for is_file in [true, false] {
            let mut setting = plain.clone();
            let part = Part { from: 10 * other + 9, length: 1 };
            let job = &mut setting.jobs[one];
            *(if is_file { &mut job.file } else { &mut job.marks }) = part;
            let expected = if one == other { is_made } else { is_refused };
            expected(&setting, &format!("{one} and {other}, of the files: {is_file}"));
        }
    }
}

/// Parts without bytes overlap nothing and lie anywhere from 0 to the area's length.
#[test]
fn empty_parts() {
    each(
        &[
            ("two at one offset", |of| {
                (of.jobs[0].file, of.jobs[1].file) = (empty(5), empty(5));
                (of.jobs[0].marks, of.jobs[1].marks) = (empty(5), empty(5));
            }),
            ("at the ends", |of| {
                (of.jobs[0].file, of.jobs[0].marks) =
                    (empty(of.files.len()), empty(of.marks.len()));
            }),
            ("at the beginnings", |of| (of.jobs[0].file, of.jobs[0].marks) = (empty(0), empty(0))),
            ("inside another's", |of| {
                of.jobs[0].file = empty(of.jobs[2].file.from + 4);
                of.jobs[0].marks = empty(of.jobs[2].marks.from + 4);
            }),
            ("of no areas", |of| {
                (of.files, of.marks) = (vec![], vec![]);
                of.jobs = (0..8).map(nothing).collect();
            }),
        ],
        is_made,
    );
}

/// Files are compared with files and marks with marks: a file may lie where another job's marks do.
#[test]
fn the_areas_are_apart() {
    let mut setting = setting();
    let first = setting.jobs[0].clone();
    setting.jobs.truncate(2);
    setting.marks = vec![9; setting.files.len()];
    setting.jobs[0].marks = setting.jobs[1].file;
    setting.jobs[1].marks = first.file;
    is_made(&setting, "each other's parts");
}

/// A round that is refused between others leaves no trace; and what was not refused at first is not refused later.
#[test]
fn refused_between_others() {
    let setting = setting();
    let mut plain = Window::new(&setting.files, &setting.marks, &setting.jobs);
    let mut other = plain.clone();
    for round in 0..40 {
        assert_eq!(plain.round(3), Ok(RUNNING), "round {round}");
        assert_eq!(other.round(0), Ok(BAD_ROUND), "round {round}");
        assert_eq!(other.round(3), Ok(RUNNING), "round {round}");
        assert_eq!(plain, other, "round {round}");
    }
    assert!(plain.jobs().iter().all(|job| job.last == 0));
}
