//! The proved checker and the second one on built and damaged files: verdict, steps, location, every mark and, step by step,
//! the saved state.

use tlepozaluh_host::bindings::{self, check_grant, fresh, from_bytes, to_bytes, State};
use tlepozaluh_host::build;
use tlepozaluh_host::build::model::File;
use tlepozaluh_host::build::random::Random;
use tlepozaluh_host::build::records::put;
use tlepozaluh_host::damage::{self, Damage, Found};
use tlepozaluh_host::locations;
use tlepozaluh_host::second::check::{self, Check, RUNNING};
use tlepozaluh_host::second::tables::encoding;

/// Runs both on a file; gives the verdict.
fn agreed(file: &[u8], what: &dyn Fn() -> String) -> i32 {
    let mut marks = vec![0xAA; file.len()];
    let mut other_marks = marks.clone();
    let answer = bindings::run(file, &mut marks);
    let other = check::run(file, &mut other_marks);
    assert_eq!(answer, (other.verdict, other.steps, other.location), "{}", what());
    assert!(locations::is_right(file, answer.0, answer.2), "{}: {answer:?}", what());
    assert!(marks == other_marks, "marks: {}", what());
    answer.0
}

/// Runs both step by step, the proved one's state kept as bytes between; gives the verdict.
fn agreed_step_by_step(file: &[u8], what: &dyn Fn() -> String) -> i32 {
    let mut marks = vec![0xAA; file.len() + 2];
    let mut other_marks = marks.clone();
    let mut kept = to_bytes(&fresh());
    let mut other = Check::fresh();
    loop {
        let mut state = from_bytes(&kept).expect("136 bytes");
        let answer = check_grant(file, &mut marks, &mut state, 1);
        let verdict = other.step(file, &mut other_marks);
        assert_eq!(answer, (verdict, 1, other.location()), "step {}: {}", other.steps(), what());
        assert!(marks == other_marks, "marks at step {}: {}", other.steps(), what());
        assert_eq!(state, other.state(), "state at step {}: {}", other.steps(), what());
        assert_eq!(state[0] != 0, verdict != RUNNING, "{}", what());
        kept = to_bytes(&state);
        if verdict != RUNNING {
            return verdict;
        }
    }
}

/// Tries each damage on files of these seeds, every tenth step by step; counts the verdicts.
fn agreed_on(seeds: std::ops::Range<u64>, damages: impl Fn(&[u8]) -> Vec<Damage>) -> [u64; 24] {
    agreed_of(seeds.map(|seed| (seed, build::any(seed).1)), damages)
}

/// The same on these files, each with its seed.
fn agreed_of(
    files: impl Iterator<Item = (u64, Vec<u8>)>,
    damages: impl Fn(&[u8]) -> Vec<Damage>,
) -> [u64; 24] {
    let mut verdicts = [0; 24];
    for (seed, file) in files {
        for (place, damage) in damages(&file).iter().enumerate() {
            let damaged = damage::damaged(&file, damage);
            let what = || format!("seed {seed}: {damage:?}");
            let verdict = agreed(&damaged, &what);
            if place % 10 == 0 {
                assert_eq!(agreed_step_by_step(&damaged, &what), verdict, "{}", what());
            }
            verdicts[verdict as usize] += 1;
        }
    }
    verdicts
}

#[test]
fn built_files() {
    for seed in 0..4000 {
        let (_, file) = build::any(seed);
        assert_eq!(agreed(&file, &|| format!("seed {seed}")), 0);
    }
    for seed in 4000..4300 {
        let (_, file) = build::any(seed);
        assert_eq!(agreed_step_by_step(&file, &|| format!("seed {seed}")), 0);
    }
}

#[test]
fn every_control_field_at_its_edges() {
    let verdicts = agreed_on(0..25, damage::edge_damages);
    let expected = [0, 3, 5, 6, 7, 8, 10, 11, 12, 13, 14];
    assert!(expected.iter().all(|verdict| verdicts[*verdict] > 0), "{verdicts:?}");
}

#[test]
fn every_control_field_to_every_record() {
    let verdicts = agreed_on(200..208, damage::start_damages);
    let expected = [0, 5, 6, 7, 8, 9, 10, 11, 12];
    assert!(expected.iter().all(|verdict| verdicts[*verdict] > 0), "{verdicts:?}");
}

#[test]
fn every_link_every_ring_every_length() {
    for damages in [damage::link_damages, damage::ring_damages, damage::length_damages] {
        let verdicts = agreed_on(300..320, damages);
        assert!(verdicts.iter().skip(1).sum::<u64>() > 100, "{verdicts:?}");
    }
}

/// Every damage of eof and padding, on files of few and many bytes of it.
#[test]
fn every_damage_of_padding() {
    let of = |seed: u64| (seed, build::with_padding(seed, 1 + 37 * seed as usize % 511).1);
    let verdicts = agreed_of((0..60).map(of), damage::padding_damages);
    let expected = [0, 6, 7, 8, 11];
    assert!(expected.iter().all(|verdict| verdicts[*verdict] > 100), "{verdicts:?}");
}

/// Every damage of an index of several levels, of each number of them, and nine levels.
#[test]
fn every_damage_of_a_tree() {
    let of = |seed: u64| (seed, build::with_levels(seed, 2 + seed as usize % 8).1);
    for (seed, file) in (0..160).map(of) {
        let what = || format!("seed {seed}");
        let whole = agreed_step_by_step(&file, &what);
        assert_eq!(whole, if seed % 8 == 7 { 23 } else { 0 }, "{}", what());
    }
    let verdicts = agreed_of((0..160).map(of), damage::tree_damages);
    let expected = [0, 8, 9, 10, 11, 12, 13, 23];
    assert!(expected.iter().all(|verdict| verdicts[*verdict] > 100), "{verdicts:?}");
}

#[test]
fn several_damages() {
    let mut random = Random::seeded(1);
    for seed in 0..400 {
        let (_, file) = build::any(seed);
        let all = damage::all_damages(&file);
        for _ in 0..30 {
            let damages = damage::some_of(&all, &mut random);
            let damaged =
                damages.iter().fold(file.clone(), |file, damage| damage::damaged(&file, damage));
            agreed(&damaged, &|| format!("seed {seed}: {damages:?}"));
        }
    }
}

/// A record cut in two that tile: the second part is an unused record. A VDR's Flags may get bit 2.
fn cut_in_two(file: &[u8], record: &Found, size: usize, compressed: bool) -> Vec<u8> {
    let mut cut = file.to_vec();
    if compressed {
        put(&mut cut, record.offset + 28, 4);
    }
    put(&mut cut, record.offset, size as i64);
    put(&mut cut, record.offset + size, (record.size - size) as i64);
    put(&mut cut, record.offset + size + 4, -1);
    cut
}

/// Records whose own size ends before a field they are judged by, in files that are still tiled.
#[test]
fn records_cut_in_two() {
    let mut verdicts = [0; 24];
    for seed in 0..30 {
        let (_, file) = build::any(seed);
        for record in damage::records(&file).iter().filter(|record| record.size >= 16) {
            for size in 8..=(record.size - 8).min(200) {
                for compressed in [false, true] {
                    if compressed && !matches!(record.record_type, 3 | 8) {
                        continue;
                    }
                    let what = || format!("seed {seed}: {record:?} cut at {size}, {compressed}");
                    let verdict = agreed(&cut_in_two(&file, record, size, compressed), &what);
                    verdicts[verdict as usize] += 1;
                }
            }
        }
    }
    assert!([0, 5, 6, 10, 14].iter().all(|verdict| verdicts[*verdict] > 0), "{verdicts:?}");
}

/// A record made longer by the one that follows it.
#[test]
fn records_joined() {
    let mut verdicts = [0; 24];
    for seed in 0..300 {
        let (_, file) = build::any(seed);
        for pair in damage::records(&file).windows(2) {
            let size = pair[0].size + pair[1].size;
            let damage = Damage::Field { offset: pair[0].offset, value: size as i64 };
            let joined = damage::damaged(&file, &damage);
            let verdict = agreed(&joined, &|| format!("seed {seed}: {damage:?}"));
            verdicts[verdict as usize] += 1;
        }
    }
    assert!([0, 5, 6, 8, 10].iter().all(|verdict| verdicts[*verdict] > 0), "{verdicts:?}");
}

/// Bytes at random, in a file whose opening is left whole.
#[test]
fn bytes_at_random() {
    let mut random = Random::seeded(2);
    for seed in 0..6000 {
        let (_, mut file) = build::any(seed);
        for _ in 0..random.between(1, 30) {
            let at = 312 + random.size_below(file.len() - 312);
            file[at] = random.byte();
        }
        let verdict = agreed(&file, &|| format!("seed {seed}"));
        if seed % 20 == 0 {
            assert_eq!(agreed_step_by_step(&file, &|| format!("seed {seed}")), verdict);
        }
    }
}

/// Bytes at random, short files among them.
#[test]
fn no_file_at_all() {
    let mut random = Random::seeded(3);
    for length in 0..800 {
        let file: Vec<u8> = (0..length).map(|_| random.byte()).collect();
        assert_eq!(agreed(&file, &|| format!("length {length}")), 3);
    }
}

/// State and marks after 0, 1, 2 .. steps, one by one.
fn points(file: &[u8]) -> Vec<(State, Vec<u8>)> {
    let mut state = fresh();
    let mut marks = vec![0x33; file.len()];
    let mut points = vec![(state, marks.clone())];
    while check_grant(file, &mut marks, &mut state, 1).1 == 1 {
        points.push((state, marks.clone()));
    }
    points
}

/// From every point a grant of every size leads to the point that single steps lead to: so do all lists of grants.
fn every_grant_from_every_point(file: &[u8], what: &str) {
    let points = points(file);
    let end = points.len() - 1;
    for from in 0..=end {
        for grant in (0..=end - from + 2).chain([usize::MAX]) {
            let (mut state, mut marks) = points[from].clone();
            let to = from.saturating_add(grant).min(end);
            let (answer, steps, location) = check_grant(file, &mut marks, &mut state, grant as u64);
            assert_eq!(steps as usize, to - from, "{what}: {grant} from {from}");
            assert_eq!(
                (state, &marks),
                (points[to].0, &points[to].1),
                "{what}: {grant} from {from}"
            );
            assert_eq!(answer, state[0] as i32 - 1, "{what}: {grant} from {from}");
            assert_eq!(location, u64::from(state[33]), "{what}: {grant} from {from}");
        }
    }
}

#[test]
fn all_grants_on_small_files() {
    let mut base = File::base(encoding(6).expect("encoding 6"));
    every_grant_from_every_point(&build::in_order(&base), "A");
    base.listed_unused = vec![16, 24];
    base.unlisted_unused = vec![8];
    every_grant_from_every_point(&build::in_order(&base), "unused records");
    let mut random = Random::seeded(4);
    let mut tried = 0;
    for seed in 0..400 {
        let (_, file) = build::any(seed);
        if file.len() > 2000 {
            continue;
        }
        let all = damage::all_damages(&file);
        let damage = random.one_of(&all).expect("a damage");
        every_grant_from_every_point(&file, &format!("seed {seed}"));
        every_grant_from_every_point(
            &damage::damaged(&file, damage),
            &format!("{seed} {damage:?}"),
        );
        tried += 1;
    }
    assert!(tried > 100, "{tried}");
}
