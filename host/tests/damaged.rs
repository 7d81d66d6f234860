//! Damaged files: the check ends in time, the location of a refusal is where a plain reading of the file has it, the reader
//! ends, and on an accepted file the reader never answers 20.

use tlepozaluh_host::build;
use tlepozaluh_host::build::random::Random;
use tlepozaluh_host::damage::{self, Damage, Found};
use tlepozaluh_host::locations;
use tlepozaluh_host::questions::REFUSALS;
use tlepozaluh_host::second::check::run;
use tlepozaluh_host::second::read;
use tlepozaluh_host::second::rules::body;

const GREATEST: i64 = 2_147_483_647;

/// Asks the reader for variables' values; gives the refusals.
fn ask_values(file: &[u8], refusals: &mut Vec<u32>) {
    for kind in [3, 8] {
        for number in 0..3 {
            let dimensions = read::variable(file, kind, number).map_or(0, |of| of.sizes.len());
            for record in [0, 5, GREATEST] {
                let indices = vec![0; dimensions];
                let answer = read::read_value(file, kind, number, record, &indices, 0);
                refusals.extend(answer.err());
            }
            refusals.extend(read::levels(file, kind, number, 5).err());
            refusals.extend(read::read_pad(file, kind, number, 0).err());
            refusals.extend(read::dimension_count(file, kind, number).err());
            refusals.extend(read::variance(file, kind, number, 0).err());
        }
    }
}

/// Asks the reader for attributes' entries and the file's descriptors; gives the refusals.
fn ask_entries(file: &[u8], refusals: &mut Vec<u32>) {
    refusals.extend(read::majority(file).err());
    refusals.extend(read::encoding(file).err());
    refusals.extend(read::counts(file).err());
    refusals.extend(read::r_dimensions(file).err());
    refusals.extend(read::padding(file).err());
    for attribute in 0..3 {
        refusals.extend(read::attribute(file, attribute).err());
        for kind in [5, 9] {
            for entry in [0, GREATEST] {
                refusals.extend(read::read_entry(file, attribute, kind, entry, 0).err());
            }
        }
    }
}

/// Checks and reads a file; gives the verdict.
fn tried(file: &[u8], what: &dyn Fn() -> String) -> i32 {
    let mut marks = vec![0xAA; file.len()];
    let answer = run(file, &mut marks);
    assert!((0..=14).contains(&answer.verdict) || answer.verdict == 23, "{}", what());
    assert!(answer.steps <= file.len() as u64 / 4 + 1, "{}: {} steps", what(), answer.steps);
    assert!(locations::is_right(file, answer.verdict, answer.location), "{}: {answer:?}", what());
    let mut refusals = Vec::new();
    ask_values(file, &mut refusals);
    ask_entries(file, &mut refusals);
    assert!(refusals.iter().all(|number| REFUSALS.contains(&(*number as i32))), "{}", what());
    let broken = refusals.iter().filter(|refusal| **refusal == 20).count();
    if answer.verdict == 0 {
        assert_eq!(broken, 0, "{}", what());
    }
    if answer.steps == 1 {
        assert_eq!(broken, refusals.len(), "{}", what());
    }
    answer.verdict
}

/// Tries each damage on files of these seeds; counts the verdicts.
fn tried_all(seeds: std::ops::Range<u64>, damages: impl Fn(&[u8]) -> Vec<Damage>) -> [u64; 24] {
    let mut verdicts = [0; 24];
    for seed in seeds {
        let (_, file) = build::any(seed);
        for damage in damages(&file) {
            let damaged = damage::damaged(&file, &damage);
            let verdict = tried(&damaged, &|| format!("seed {seed}: {damage:?}"));
            verdicts[verdict as usize] += 1;
        }
    }
    verdicts
}

#[test]
fn every_control_field_at_its_edges() {
    let verdicts = tried_all(0..20, damage::edge_damages);
    let expected = [0, 3, 5, 6, 7, 8, 10, 11, 12, 13, 14];
    assert!(expected.iter().all(|verdict| verdicts[*verdict] > 0), "{verdicts:?}");
}

#[test]
fn every_control_field_to_every_record() {
    let verdicts = tried_all(100..106, damage::start_damages);
    let expected = [0, 5, 6, 7, 8, 9, 10, 11, 12];
    assert!(expected.iter().all(|verdict| verdicts[*verdict] > 0), "{verdicts:?}");
}

/// What one of two files alone has of records is unused.
fn differ_in_unused(file: &[u8], other: &[u8]) -> bool {
    let (records, others) = (damage::records(file), damage::records(other));
    let alone = |of: &[Found], in_other: &[Found]| -> Vec<Found> {
        of.iter().filter(|record| !in_other.contains(record)).copied().collect()
    };
    let all = [alone(&records, &others), alone(&others, &records)].concat();
    !all.is_empty() && all.iter().all(|record| record.record_type == -1)
}

/// Padding may be cut away and added, up to 511 bytes of it, if eof stays. If eof is made to agree, unlisted unused records
/// at the end may be cut away, and what was padding may be such records.
#[test]
fn every_length() {
    let (mut padded, mut cut_away) = (0, 0);
    for seed in 0..300 {
        let (_, file) = build::any(seed);
        let end = body(&file).len();
        for damage in damage::length_damages(&file) {
            let damaged = damage::damaged(&file, &damage);
            let accepted = tried(&damaged, &|| format!("seed {seed}: {damage:?}")) == 0;
            if let Damage::Cut { eof: false, .. } | Damage::Grow { eof: false, .. } = damage {
                let good = (end..=end + 511).contains(&damaged.len());
                assert_eq!(accepted, good, "seed {seed}: {damage:?}");
                padded += u64::from(good);
            } else if accepted && body(&damaged) != body(&file) {
                assert!(differ_in_unused(&file, &damaged), "seed {seed}: {damage:?}");
                cut_away += 1;
            }
        }
    }
    assert!(padded > 1000 && cut_away > 0, "{padded} {cut_away}");
}

/// A link into the padding is refused, other bytes there are not; eof may be moved only over unused records.
#[test]
fn every_padding() {
    let mut verdicts = [0; 24];
    for seed in 0..60 {
        let (_, file) = build::with_padding(seed, 1 + 17 * seed as usize % 511);
        let end = body(&file).len();
        for damage in damage::padding_damages(&file) {
            let damaged = damage::damaged(&file, &damage);
            let verdict = tried(&damaged, &|| format!("seed {seed}: {damage:?}"));
            verdicts[verdict as usize] += 1;
            let good = match damage {
                Damage::Field { offset, .. } if offset >= end => true,
                Damage::Grow { .. } => damaged.len() <= end + 511,
                _ if damaged == file => true,
                _ if body(&damaged).len() == end => false,
                _ => verdict == 0 && differ_in_unused(&file, &damaged),
            };
            assert_eq!(verdict == 0, good, "seed {seed}: {damage:?}");
        }
    }
    let expected = [0, 6, 7, 8, 11];
    assert!(expected.iter().all(|verdict| verdicts[*verdict] > 0), "{verdicts:?}");
}

/// A link that leads elsewhere than before is always refused.
#[test]
fn every_link_to_every_record() {
    for seed in 0..20 {
        let (_, file) = build::any(seed);
        for damage in damage::link_damages(&file) {
            let damaged = damage::damaged(&file, &damage);
            let verdict = tried(&damaged, &|| format!("seed {seed}: {damage:?}"));
            assert_eq!(verdict == 0, damaged == file, "seed {seed}: {damage:?}");
        }
    }
}

#[test]
fn every_ring() {
    let mut rings = 0;
    for seed in 0..300 {
        let (_, file) = build::any(seed);
        for damage in damage::ring_damages(&file) {
            let damaged = damage::damaged(&file, &damage);
            let verdict = tried(&damaged, &|| format!("seed {seed}: {damage:?}"));
            assert_eq!(verdict == 0, damaged == file, "seed {seed}: {damage:?}");
            rings += u64::from(verdict == 9);
        }
    }
    assert!(rings > 1000, "{rings}");
}

/// Every damage of an index of several levels, of each number of them.
#[test]
fn every_tree() {
    let mut verdicts = [0; 24];
    for seed in 0..100 {
        let (_, file) = build::with_levels(seed, 2 + seed as usize % 7);
        for damage in damage::tree_damages(&file) {
            let damaged = damage::damaged(&file, &damage);
            let verdict = tried(&damaged, &|| format!("seed {seed}: {damage:?}"));
            verdicts[verdict as usize] += 1;
        }
    }
    let expected = [0, 8, 9, 10, 11, 12, 13, 23];
    assert!(expected.iter().all(|verdict| verdicts[*verdict] > 100), "{verdicts:?}");
}

#[test]
fn several_damages_together() {
    let mut random = Random::seeded(5);
    let mut refused = 0;
    for seed in 0..300 {
        let (_, file) = build::any(seed);
        let all = damage::all_damages(&file);
        for _ in 0..30 {
            let damages = damage::some_of(&all, &mut random);
            let damaged =
                damages.iter().fold(file.clone(), |file, damage| damage::damaged(&file, damage));
            let verdict = tried(&damaged, &|| format!("seed {seed}: {damages:?}"));
            refused += u64::from(verdict != 0);
        }
    }
    assert!(refused > 3000, "{refused}");
}

/// Bytes at random, in a file whose opening is left whole.
#[test]
fn bytes_at_random() {
    let mut random = Random::seeded(6);
    let mut refused = 0;
    for seed in 0..6000 {
        let (_, mut file) = build::any(seed);
        for _ in 0..random.between(1, 30) {
            let at = 312 + random.size_below(file.len() - 312);
            file[at] = random.byte();
        }
        let verdict = tried(&file, &|| format!("seed {seed}"));
        refused += u64::from(verdict != 0);
    }
    assert!(refused > 3000, "{refused}");
}

/// Fields that no rule names: rfu, release, increment, compression offset and blocking.
fn unread_fields(record_type: i64) -> &'static [usize] {
    match record_type {
        1 => &[16, 28, 32, 36, 40, 44],
        2 => &[48, 52, 56],
        3 | 8 => &[36, 40, 44, 56, 60],
        4 => &[32, 48],
        5 | 9 => &[28, 32, 36, 40, 44],
        _ => &[],
    }
}

#[test]
fn unread_fields_change_nothing() {
    let mut tried = 0;
    for seed in 0..200 {
        let (_, file) = build::any(seed);
        let mut marks = vec![0; file.len()];
        let answer = run(&file, &mut marks);
        for record in damage::records(&file) {
            for at in unread_fields(record.record_type) {
                let damage = Damage::Field { offset: record.offset + at, value: -2 };
                let mut other_marks = vec![0; file.len()];
                let other = run(&damage::damaged(&file, &damage), &mut other_marks);
                assert_eq!((other, &other_marks), (answer, &marks), "seed {seed}: {damage:?}");
                tried += 1;
            }
        }
    }
    assert!(tried > 1000, "{tried}");
}
