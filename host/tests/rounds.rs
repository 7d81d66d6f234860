//! Rounds that are made, by both implementations: what each row and its marks are after them, whatever the neighbours.

use std::collections::BTreeMap;
use tlepozaluh_host::bindings::{self, check_grant, TlzJob};
use tlepozaluh_host::build;
use tlepozaluh_host::build::random::Random;
use tlepozaluh_host::damage;
use tlepozaluh_host::made_up::{Source, BEYOND, FINISHED};
use tlepozaluh_host::samples;
use tlepozaluh_host::second::check::{run, State, BAD_STATE, FRESH, OTHER_FILE, RUNNING};
use tlepozaluh_host::second::rounds::{Job, Part};
use tlepozaluh_host::second::state::{finished, verdict, LOCATION};
use tlepozaluh_host::window::{row, side_by_side, Window};

/// What marks are before the first round.
const OLD: u8 = 0xA5;

/// Files side by side, with fresh jobs, and marks behind the last part.
fn window(files: &[Vec<u8>]) -> Window {
    let (area, jobs) = side_by_side(files);
    Window::new(&area, &vec![OLD; area.len() + BEYOND], &jobs)
}

/// The same list with other rows.
fn with_jobs(window: &Window, jobs: &[Job]) -> Window {
    Window::new(window.files(), window.marks(), jobs)
}

/// A built file, every second one damaged.
fn any_file(seed: u64, random: &mut Random) -> Vec<u8> {
    let (_, file) = build::mixed(seed);
    let all = damage::all_damages(&file);
    match random.one_of(&all) {
        Some(damage) if seed % 2 == 1 => damage::damaged(&file, damage),
        _ => file,
    }
}

/// Eight files from a seed on, built and damaged by turns.
fn eight(seed: u64, random: &mut Random) -> Vec<Vec<u8>> {
    (8 * seed..8 * seed + 8).map(|seed| any_file(seed, random)).collect()
}

/// The rings of the samples.
fn rings() -> Vec<Vec<u8>> {
    let found = std::fs::read_dir(samples::directory().join("rings")).expect("samples/rings");
    let paths = found.map(|entry| entry.expect("a file").path());
    let mut paths: Vec<_> = paths.collect();
    paths.sort();
    paths.iter().map(|path| std::fs::read(path).expect("a ring")).collect()
}

/// How many rounds of q steps a fresh check of a file may take.
fn most_rounds(file: usize, q: u64) -> u64 {
    (file as u64 / 4 + 1).div_ceil(q)
}

/// A round, after which each row is what a grant of the proved checker leaves on its own parts.
fn round_of_grants(window: &mut Window, q: u64, what: &str) {
    let before = window.clone();
    assert_eq!(window.round(q), Ok(RUNNING), "{what}");
    for (place, job) in before.jobs().iter().enumerate() {
        let file = &before.files()[job.file.from..job.file.from + job.file.length];
        let mut marks = before.marks_of(place).expect("its marks").to_vec();
        let mut state = job.state;
        let (answer, steps, _) = check_grant(file, &mut marks, &mut state, q);
        assert!(answer != RUNNING || steps == q, "{what}, row {place}");
        assert!(answer != OTHER_FILE || steps == 0, "{what}, row {place}");
        let after = &window.jobs()[place];
        assert_eq!((after.last, after.state), (answer, state), "{what}, row {place}");
        assert_eq!(window.marks_of(place), Some(&marks[..]), "{what}, row {place}");
    }
}

/// Each round of a window of fresh jobs is a grant to each of them, until all have their verdicts.
#[test]
fn each_turn_is_a_grant() {
    let mut random = Random::seeded(1);
    let mut verdicts: BTreeMap<i32, u64> = BTreeMap::new();
    for seed in 0..60 {
        let files = eight(seed, &mut random);
        let mut window = window(&files);
        let q = random.between(1, 9) as u64;
        while window.jobs().iter().any(|job| job.last == RUNNING) {
            round_of_grants(&mut window, q, &format!("seed {seed}"));
        }
        for (job, file) in window.jobs().iter().zip(&files) {
            let whole = run(file, &mut vec![OLD; file.len()]);
            assert_eq!(job.state, finished(whole.verdict, whole.location as u32), "seed {seed}");
            assert_eq!(job.last, whole.verdict, "seed {seed}");
            *verdicts.entry(job.last).or_insert(0) += 1;
        }
    }
    assert!(verdicts.len() > 8 && verdicts[&0] > 240, "{verdicts:?}");
}

/// Whatever its length, a fresh check ends within (length / 4 + 1) / q rounds, rounded up.
#[test]
fn every_job_ends_in_time() {
    let mut random = Random::seeded(2);
    for (q, seeds) in [(1, 0..6), (2, 6..12), (3, 12..18), (7, 18..30), (100, 30..60)] {
        for seed in seeds {
            let files = eight(seed, &mut random);
            let mut window = window(&files);
            let longest = files.iter().map(Vec::len).max().unwrap_or(0);
            for round in 1..=most_rounds(longest, q) {
                assert_eq!(window.round(q), Ok(RUNNING), "seed {seed}, round {round}");
                for (job, file) in window.jobs().iter().zip(&files) {
                    let due = round >= most_rounds(file.len(), q);
                    assert!(!due || job.last != RUNNING, "seed {seed}, {q}, round {round}");
                }
            }
            assert!(window.jobs().iter().all(|job| verdict(&job.state) == Some(job.last)));
        }
    }
}

/// The bound by its numbers, and the shortest files, which end in their first step.
#[test]
fn the_bound_of_short_files() {
    assert_eq!((most_rounds(0, 1), most_rounds(3, 7), most_rounds(4, 1)), (1, 1, 2));
    assert_eq!((most_rounds(372, 1), most_rounds(372, 94), most_rounds(372, 93)), (94, 1, 2));
    let mut window = window(&[vec![], vec![0; 3], vec![0; 8]]);
    assert_eq!(window.round(1), Ok(RUNNING));
    assert!(window.jobs().iter().all(|job| job.last == 3));
}

/// After r rounds of q steps a job stands where one grant of r * q steps would have put it.
#[test]
fn rounds_are_one_grant() {
    let mut random = Random::seeded(3);
    for (seed, q) in [1, 2, 3, 7, 100].into_iter().cycle().take(20).enumerate() {
        let files = eight(seed as u64, &mut random);
        let mut window = window(&files);
        for round in 1..=12 {
            assert_eq!(window.round(q), Ok(RUNNING), "seed {seed}");
            for (place, file) in files.iter().enumerate() {
                let (mut state, mut marks) = (FRESH, vec![OLD; file.len()]);
                let (answer, ..) = check_grant(file, &mut marks, &mut state, round * q);
                let job = &window.jobs()[place];
                let what = format!("seed {seed}, row {place}, {round} rounds of {q}");
                assert_eq!((job.last, job.state), (answer, state), "{what}");
                assert_eq!(window.marks_of(place), Some(&marks[..]), "{what}");
            }
        }
    }
}

/// All steps in one round; none of the number's 64 bits is cut off.
#[test]
fn a_round_of_all_steps() {
    let mut random = Random::seeded(4);
    let steps = [1 << 32, (1 << 32) + 1, 1 << 63, u64::MAX];
    for (seed, q) in steps.into_iter().cycle().take(40).enumerate() {
        let files = eight(seed as u64, &mut random);
        let mut window = window(&files);
        assert_eq!(window.round(q), Ok(RUNNING), "seed {seed}");
        let ended = window.clone();
        assert!(ended.jobs().iter().all(|job| job.last != RUNNING), "seed {seed}");
        for q in [1, 1000, u64::MAX] {
            assert_eq!(window.round(q), Ok(RUNNING), "seed {seed}");
            assert_eq!(window, ended, "seed {seed}");
        }
    }
}

/// Rings beside good files: each ring is refused in a few steps, and the good files are accepted as if they were alone.
#[test]
fn rings_beside_good_files() {
    let all = rings();
    assert_eq!(all.len(), 11);
    for (number, ring) in all.iter().enumerate() {
        let good = |seed: u64| build::any(seed + 10 * number as u64).1;
        let mut window = window(&[good(1), ring.clone(), good(2), ring.clone(), good(3)]);
        for _ in 0..10 {
            round_of_grants(&mut window, 3, &format!("ring {number}"));
        }
        let answers: Vec<i32> = window.jobs().iter().map(|job| job.last).collect();
        assert!([7, 9].contains(&answers[1]) && answers[1] == answers[3], "{answers:?}");
        assert_eq!(window.jobs()[1].state, window.jobs()[3].state);
        assert_eq!(window.round(u64::MAX), Ok(RUNNING));
        assert!([0, 2, 4].iter().all(|place| window.jobs()[*place].last == 0), "ring {number}");
    }
}

/// A neighbour of any kind, of any length: bytes, a file, a point of a check, a state made up.
fn neighbour(random: &mut Random) -> (Vec<u8>, Vec<u8>, State) {
    let seed = random.number() % 1000;
    let file = any_file(seed, random);
    let source = Source::new(&file);
    let (state, marks) = source.any_point(random).clone();
    match random.below(5) {
        0 => ((0..random.below(90)).map(|_| random.byte()).collect(), vec![1; 50], FRESH),
        1 => (file, marks, source.finished(random)),
        2 => (file, marks, source.near(&state, random)),
        3 => (file, marks, source.anything(random)),
        _ => (file, marks, state),
    }
}

/// A window in which a job has any neighbours, any place in the list and parts at any offsets: the window, and the place.
fn among_others(file: &[u8], marks: &[u8], state: State, random: &mut Random) -> (Window, usize) {
    let others = random.size_below(8);
    let mut all: Vec<_> = (0..others).map(|_| neighbour(random)).collect();
    let own = random.size_below(others + 1);
    all.insert(own, (file.to_vec(), marks.to_vec(), state));
    let mut order: Vec<usize> = (0..all.len()).collect();
    random.shuffle(&mut order);
    let (mut files, mut area) =
        (vec![random.byte(); random.size_below(30)], vec![OLD; random.size_below(9)]);
    let mut jobs: Vec<Job> = all.iter().map(|of| job_of(of.2, random)).collect();
    for place in order {
        let (file, marks, _) = &all[place];
        jobs[place].file = Part { from: files.len(), length: file.len() };
        jobs[place].marks = Part { from: area.len(), length: marks.len() };
        files.extend(file);
        area.extend(marks);
        files.resize(files.len() + random.size_below(3), random.byte());
    }
    (Window::new(&files, &area, &jobs), own)
}

/// A job of a state, without parts, with any owner and last answer.
fn job_of(state: State, random: &mut Random) -> Job {
    let fresh = Job::fresh(random.number() as u32, Part::default(), Part::default());
    Job { state, last: random.between(-3, 30) as i32, ..fresh }
}

/// A job's row and marks are the same whatever its neighbours are and wherever its parts lie; other parts of the same
/// areas, other rows and other places in the list make no difference, round after round.
#[test]
fn neighbours_make_no_difference() {
    let mut random = Random::seeded(5);
    let mut unfinished = 0;
    for seed in 0..150 {
        let (file, marks, state) = neighbour(&mut random);
        let q = random.between(1, 12) as u64;
        let (mut first, place) = among_others(&file, &marks, state, &mut random);
        let mut alone = first.alone(place).expect("its parts");
        let (mut other, there) = among_others(&file, &marks, state, &mut random);
        for round in 0..8 {
            let rounds = [&mut first, &mut alone, &mut other].map(|window| window.round(q));
            assert_eq!(rounds, [Ok(RUNNING), Ok(RUNNING), Ok(RUNNING)], "seed {seed}");
            assert!(first.stands_as(place, &alone, 0), "seed {seed}, round {round}");
            assert!(first.stands_as(place, &other, there), "seed {seed}, round {round}");
            unfinished += u64::from(alone.jobs()[0].last == RUNNING);
        }
    }
    assert!(unfinished > 100, "{unfinished}");
}

/// Whether a job is finished is said by its state: a finished one takes its verdict, whatever its last answer was, and
/// nothing else of it changes; one that is not finished has its turn, whatever its last answer was.
#[test]
fn last_answers_are_not_looked_at() {
    let files: Vec<Vec<u8>> = (1..=8).map(|seed| build::any(seed).1).collect();
    let fresh = window(&files);
    for last in [RUNNING, 0, 5, 13, 20, 21, 24, i32::MIN, i32::MAX] {
        for chunk in FINISHED.chunks(4) {
            let mut jobs = fresh.jobs().to_vec();
            jobs.iter_mut().for_each(|job| job.last = last);
            for (place, number) in chunk.iter().enumerate() {
                jobs[place].state = [0x0123_4567; 34];
                (jobs[place].state[0], jobs[place].state[LOCATION]) = (*number, last as u32);
            }
            let mut window = with_jobs(&fresh, &jobs);
            round_of_grants(&mut window, 2, &format!("last answer {last}"));
            for (place, number) in chunk.iter().enumerate() {
                let expected = Job { last: *number as i32 - 1, ..jobs[place].clone() };
                assert_eq!(window.jobs()[place], expected);
                assert!(window.marks_of(place).is_some_and(|all| all.iter().all(|of| *of == OLD)));
            }
            let rest = &window.jobs()[chunk.len()..];
            assert!(rest.iter().all(|job| job.last == RUNNING && job.state[2] == 1), "{last}");
        }
    }
}

/// 20 is a row's answer like any other: the check ends with it, and the neighbours go on.
#[test]
fn states_out_of_range() {
    let files: Vec<Vec<u8>> = (1..=4).map(|seed| build::any(seed).1).collect();
    let fresh = window(&files);
    for (number, value) in [(0, 16), (0, 22), (0, 25), (2, 9), (3, 1), (11, 1), (33, 8), (12, 1)] {
        let mut jobs = fresh.jobs().to_vec();
        jobs[1].state[number] = value;
        jobs[3].state[number] = value;
        let mut window = with_jobs(&fresh, &jobs);
        for _ in 0..3 {
            round_of_grants(&mut window, 2, &format!("number {number}: {value}"));
            for place in [1, 3] {
                let job = &window.jobs()[place];
                assert_eq!((job.last, job.state), (BAD_STATE, finished(BAD_STATE, 0)));
                assert!(window.marks_of(place).is_some_and(|all| all.iter().all(|of| *of == OLD)));
            }
        }
        assert_eq!(window.round(u64::MAX), Ok(RUNNING));
        let answers: Vec<i32> = window.jobs().iter().map(|job| job.last).collect();
        assert_eq!(answers, [0, BAD_STATE, 0, BAD_STATE]);
    }
}

/// 21 is a row's answer like any other: a part of another length than was noted, or fewer marks. The row stays as it was,
/// round after round, its neighbours end, and with the right parts it goes on to its verdict.
#[test]
fn other_parts_than_were_noted() {
    let files: Vec<Vec<u8>> = (1..=5).map(|seed| build::any(seed).1).collect();
    let mut begun = window(&files);
    assert_eq!(begun.round(4), Ok(RUNNING));
    let changes: [fn(&mut Job); 4] = [
        |job| job.file.length -= 1,
        |job| job.marks.length -= 1,
        |job| job.file = Part { from: 3, length: 0 },
        |job| (job.file.from, job.file.length) = (job.file.from + 1, job.file.length - 1),
    ];
    for (number, change) in changes.iter().enumerate() {
        let mut jobs = begun.jobs().to_vec();
        change(&mut jobs[2]);
        let mut window = with_jobs(&begun, &jobs);
        for _ in 0..30 {
            round_of_grants(&mut window, 20, &format!("change {number}"));
            assert_eq!(window.jobs()[2], Job { last: OTHER_FILE, ..jobs[2].clone() });
        }
        let mut jobs = window.jobs().to_vec();
        assert!([0, 1, 3, 4].iter().all(|place| jobs[*place].last == 0), "change {number}");
        (jobs[2].file, jobs[2].marks) = (begun.jobs()[2].file, begun.jobs()[2].marks);
        let mut window = with_jobs(&window, &jobs);
        assert_eq!(window.round(u64::MAX), Ok(RUNNING));
        assert_eq!(window.jobs()[2].last, 0, "change {number}");
    }
}

/// Before the opening nothing is noted: too few marks are 2, and more marks than bytes are fine and stay.
#[test]
fn marks_of_another_length() {
    let files: Vec<Vec<u8>> = (1..=3).map(|seed| build::any(seed).1).collect();
    let (area, mut jobs) = side_by_side(&files);
    let first = files[0].len();
    jobs[0].marks = Part { from: 0, length: first + 7 };
    jobs[1].marks = Part { from: first + 7, length: files[1].len() - 1 };
    jobs[2].marks = Part { from: first + files[1].len() + 6, length: files[2].len() };
    let mut window = Window::new(&area, &vec![OLD; area.len() + 6], &jobs);
    assert_eq!(window.round(u64::MAX), Ok(RUNNING));
    let answers: Vec<i32> = window.jobs().iter().map(|job| job.last).collect();
    assert_eq!(answers, [0, 2, 0]);
    let unwritten = &window.marks()[first..first + 7 + files[1].len() - 1];
    assert!(unwritten.iter().all(|mark| *mark == OLD));
}

/// Rows with states made up, beside one another: each turn is a grant, no later round is refused, and many kinds of answers
/// come from rows that were not finished.
#[test]
fn made_up_states() {
    let mut random = Random::seeded(6);
    let mut answers: BTreeMap<i32, u64> = BTreeMap::new();
    for seed in 0..150 {
        let files = eight(seed, &mut random);
        let plain = window(&files);
        let mut jobs = plain.jobs().to_vec();
        for (job, file) in jobs.iter_mut().zip(&files) {
            let source = Source::new(file);
            let point = source.any_point(&mut random).0;
            job.state = match random.below(6) {
                0 => source.near(&point, &mut random),
                1 => source.in_range(&mut random),
                2 => source.wrong_levels(&mut random),
                3 => source.finished(&mut random),
                4 => source.wrong_location(&mut random),
                _ => source.anything(&mut random),
            };
        }
        let marks: Vec<u8> = plain.marks().iter().map(|_| random.byte() % 4).collect();
        let mut window = Window::new(plain.files(), &marks, &jobs);
        for _ in 0..4 {
            let q = random.between(1, 6) as u64;
            let running: Vec<bool> =
                window.jobs().iter().map(|job| verdict(&job.state).is_none()).collect();
            round_of_grants(&mut window, q, &format!("seed {seed}"));
            let turned = window.jobs().iter().zip(running).filter(|(_, running)| *running);
            turned.for_each(|(job, _)| *answers.entry(job.last).or_insert(0) += 1);
        }
    }
    let expected = [RUNNING, 7, 8, 9, 10, 11, 12, 20, 21];
    assert!(expected.iter().all(|answer| answers.contains_key(answer)), "{answers:?}");
}

/// Marks before, between and behind the parts stay, whatever they are.
#[test]
fn marks_in_no_part() {
    let mut random = Random::seeded(7);
    for seed in 0..40 {
        let files = eight(seed, &mut random);
        let (area, mut jobs) = side_by_side(&files);
        for (place, job) in jobs.iter_mut().enumerate() {
            job.marks.from += 11 * (place + 1);
        }
        let marks: Vec<u8> = (0..area.len() + 100).map(|_| random.byte()).collect();
        let mut window = Window::new(&area, &marks, &jobs);
        assert_eq!(window.round(5), Ok(RUNNING));
        assert_eq!(window.round(u64::MAX), Ok(RUNNING));
        let mut outside: Vec<usize> = (0..marks.len()).collect();
        outside.retain(|at| {
            let inside =
                |job: &Job| (job.marks.from..job.marks.from + job.marks.length).contains(at);
            !jobs.iter().any(inside)
        });
        assert_eq!(outside.len(), 100);
        assert!(outside.iter().all(|at| window.marks()[*at] == marks[*at]), "seed {seed}");
        assert_ne!(window.marks(), marks, "seed {seed}");
    }
}

/// Rows, bytes and marks that lie beside what is lent stay as they are.
#[test]
fn what_is_not_lent() {
    let files: Vec<Vec<u8>> = (1..=3).map(|seed| build::any(seed).1).collect();
    let (area, jobs) = side_by_side(&files);
    let beside = TlzJob { owner: 0x1111_1111, answer: 77, ..row(&jobs[0]) };
    for (lent, q) in [(0, 5), (1, 5), (2, 5), (3, 5), (3, 0)] {
        let mut rows = vec![beside; 2];
        rows.extend(jobs.iter().take(lent).map(row));
        rows.extend([beside; 2]);
        let mut marks = vec![OLD; area.len() + 64];
        let inner = &mut marks[32..32 + area.len()];
        let answer = bindings::round(&area, inner, &mut rows[2..2 + lent], q);
        assert_eq!(answer, if q == 0 { 24 } else { RUNNING });
        assert!(rows.iter().take(2).chain(rows.iter().skip(2 + lent)).all(|row| *row == beside));
        assert!(marks.iter().take(32).chain(&marks[32 + area.len()..]).all(|mark| *mark == OLD));
        let turned = rows[2..2 + lent].iter().filter(|row| row.state[2] != 0).count();
        assert_eq!(turned, if q == 0 { 0 } else { lent });
    }
}
