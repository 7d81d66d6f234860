//! Files whose bytes change between two grants, and files that end before a field that a step needs: the proved checker
//! and the second one agree in all that every grant leaves.

use tlepozaluh_host::build;
use tlepozaluh_host::build::model::{Attribute, Entry, File, Index, IndexEntry, Variable};
use tlepozaluh_host::build::random::Random;
use tlepozaluh_host::build::records::put;
use tlepozaluh_host::damage::{self, Damage};
use tlepozaluh_host::made_up::{shortened, Point, Source, BEYOND};
use tlepozaluh_host::pair::{to_the_end, BadStep, Compared, Pair};
use tlepozaluh_host::second::rules::body;
use tlepozaluh_host::second::tables::{data_type, encoding, DataType};

/// The length of the shortest file that can be accepted.
const SHORTEST: usize = 372;

/// The verdicts that steps can give in each phase from the sweep on.
const ENDS: [(u32, &[i32]); 8] = [
    (1, &[7, 14]),
    (2, &[8, 9]),
    (3, &[8, 9, 10, 11, 14, 20]),
    (4, &[8, 9, 10, 11, 12, 20]),
    (5, &[8, 9, 10, 11, 12, 20]),
    (6, &[8, 9, 10, 11, 20]),
    (7, &[8, 9, 10, 11, 20]),
    (8, &[0, 8, 9, 10, 11, 13, 20]),
];

/// All that can lie past the end, by the phase and kind of the step that needs it.
const PAST_THE_END: [BadStep; 63] = [
    (2, 0, "size and type"),
    (3, 3, "count of variables"),
    (3, 3, "dimension count"),
    (3, 3, "dimension sizes"),
    (3, 3, "fields"),
    (3, 3, "link"),
    (3, 3, "rMaxRec"),
    (3, 3, "size and type"),
    (3, 3, "variances"),
    (3, 8, "count of variables"),
    (3, 8, "dimension sizes"),
    (3, 8, "fields"),
    (3, 8, "link"),
    (3, 8, "size and type"),
    (3, 8, "variances"),
    (4, 3, "VXRtail"),
    (4, 3, "fields"),
    (4, 3, "link"),
    (4, 3, "size and type"),
    (4, 3, "used entries above"),
    (4, 8, "VXRtail"),
    (4, 8, "fields"),
    (4, 8, "link"),
    (4, 8, "size and type"),
    (4, 8, "used entries above"),
    (5, 3, "First"),
    (5, 3, "Last"),
    (5, 3, "Offset"),
    (5, 3, "VDR's size"),
    (5, 3, "dimension count"),
    (5, 3, "dimension sizes"),
    (5, 3, "fields"),
    (5, 3, "size and type"),
    (5, 3, "variances"),
    (5, 8, "First"),
    (5, 8, "Last"),
    (5, 8, "Offset"),
    (5, 8, "VDR's size"),
    (5, 8, "dimension sizes"),
    (5, 8, "fields"),
    (5, 8, "size and type"),
    (5, 8, "variances"),
    (6, 0, "NumAttr"),
    (6, 0, "fields"),
    (6, 0, "link"),
    (6, 0, "size and type"),
    (7, 5, "ADR's Num"),
    (7, 5, "count of entries"),
    (7, 5, "fields"),
    (7, 5, "greatest entry number"),
    (7, 5, "link"),
    (7, 5, "size and type"),
    (7, 9, "ADR's Num"),
    (7, 9, "count of entries"),
    (7, 9, "fields"),
    (7, 9, "greatest entry number"),
    (7, 9, "link"),
    (7, 9, "size and type"),
    (8, 0, "fields"),
    (8, 0, "link"),
    (8, 0, "next record, from record to record"),
    (8, 0, "size and type"),
    (8, 0, "size and type, from record to record"),
];

/// Both from a point to the end of its check, in one grant and step by step.
fn agreed(file: &[u8], point: &Point, compared: &mut Compared, what: &dyn Fn() -> String) {
    let marks = [point.1.as_slice(), &[0x55; BEYOND]].concat();
    let end = to_the_end(file, &point.0, &marks, &mut || 1, compared);
    end.unwrap_or_else(|wrong| panic!("{}: {wrong}", what()));
}

/// One step by both.
fn agreed_step(file: &[u8], point: &Point, compared: &mut Compared, what: &dyn Fn() -> String) {
    let granted = Pair::new(&point.0, &point.1).grant(file, 1, compared);
    granted.unwrap_or_else(|wrong| panic!("{}: {wrong}", what()));
}

fn byte_type() -> DataType {
    data_type(1).expect("data type 1")
}

/// A variable of up to two VXRs with up to two entries each, of one record each; some below one or two others.
fn small_variable(random: &mut Random, sizes: Vec<i64>) -> Variable {
    let mut variable = Variable::plain(byte_type(), sizes);
    for _ in 0..random.below(3) {
        let mut index = Index { entries: Vec::new(), spare: random.below(2) };
        for _ in 0..random.below(3) {
            variable.max_rec += 1;
            let values = variable.any_values(random, variable.max_rec, 1);
            index.entries.push(IndexEntry::Values(values));
        }
        let above = if index.entries.is_empty() { 0 } else { random.below(5) - 2 };
        variable.chain.push((0..above).fold(index, |index, _| Index::above(index)));
    }
    variable
}

/// An attribute of up to two entries of either kind.
fn small_attribute(random: &mut Random) -> Attribute {
    let mut entries = || -> Vec<Entry> {
        let numbers = 0..random.below(3);
        numbers.map(|number| Entry { number, data_type: byte_type(), elements: vec![7] }).collect()
    };
    Attribute { name: Vec::new(), scope: 1, gr_entries: entries(), z_entries: entries() }
}

/// A file of one variable, one attribute or some unused records, in any order of records.
fn small_file(seed: u64) -> Vec<u8> {
    let mut random = Random::seeded(seed);
    let mut file = File::base(encoding(6).expect("encoding 6"));
    let sizes: Vec<i64> = (0..random.below(3)).map(|_| random.between(1, 2)).collect();
    match random.below(7) {
        0 | 1 => {
            file.r_sizes = sizes.clone();
            file.r_variables.push(small_variable(&mut random, sizes));
        }
        2 | 3 => file.z_variables.push(small_variable(&mut random, sizes)),
        4 | 5 => file.attributes.push(small_attribute(&mut random)),
        _ => file.listed_unused = vec![16, 20],
    }
    let file = build::shuffled(&file, &mut random);
    assert!((SHORTEST..=850).contains(&file.len()), "{}", file.len());
    file
}

#[test]
fn every_opening() {
    let mut compared = Compared::default();
    for seed in 0..20 {
        let (_, file) = build::any(seed);
        for damage in damage::opening_damages(&file) {
            let changed = damage::damaged(&file, &damage);
            for length in [0, 371, 372, file.len()] {
                for marks in [length, length.saturating_sub(1), length + 3] {
                    let mut pair = Pair::fresh(&vec![0xAA; marks]);
                    let opened = pair.grant(&changed[..length], 1, &mut compared);
                    assert!(opened.is_ok(), "seed {seed}: {damage:?}, {length}: {opened:?}");
                }
            }
        }
    }
    let too_long = vec![0; 1 << 31];
    assert_eq!(Pair::fresh(&[]).grant(&too_long, 1, &mut compared), Ok((1, 1, 0)));
    assert_eq!(compared.missing(&[(0, &[1, 2, 3, 4, 5, 6, 14])]), [], "{compared:?}");
}

#[test]
fn fields_between_grants() {
    let mut random = Random::seeded(41);
    let mut compared = Compared::default();
    for seed in 0..400 {
        let (_, file) = build::any(seed);
        let source = Source::new(&file);
        for _ in 0..80 {
            let (state, real) = source.any_point(&mut random);
            let point = (*state, source.any_marks(real, &mut random));
            let changed = source.changed(&mut random);
            agreed(&changed, &point, &mut compared, &|| format!("seed {seed}"));
        }
    }
    assert_eq!(compared.missing(&ENDS), [], "{compared:?}");
    assert_eq!(compared.missing(&[(5, &[23])]), [], "{compared:?}");
    assert!(compared.grants > 250_000, "{compared:?}");
}

/// Another eof, at any point and with any marks: in the window or not, before the GDR's end, within a record.
#[test]
fn another_eof_between_grants() {
    let mut random = Random::seeded(44);
    let mut compared = Compared::default();
    let (mut moved, mut none) = (0, 0);
    for seed in 0..400 {
        let (_, file) = build::any(seed);
        let source = Source::new(&file);
        for _ in 0..80 {
            let (state, real) = source.any_point(&mut random);
            let point = (*state, source.any_marks(real, &mut random));
            let changed = source.with_other_eof(&mut random);
            let (before, after) = (body(&file).len(), body(&changed).len());
            moved += u64::from(after != before && after != file.len());
            none += u64::from(after == file.len());
            agreed(&changed, &point, &mut compared, &|| format!("seed {seed}"));
        }
    }
    assert_eq!(compared.missing(&ENDS), [], "{compared:?}");
    assert!(moved > 5000 && none > 5000, "{moved} {none}");
    assert!(compared.grants > 250_000, "{compared:?}");
}

/// Fields and tree damages of files of many levels, at every point of their checks.
#[test]
fn trees_between_grants() {
    let mut compared = Compared::default();
    for seed in 0..20 {
        let (_, file) = build::with_levels(seed, 2 + seed as usize % 8);
        let source = Source::new(&file);
        for damage in damage::tree_damages(&file).iter().step_by(3) {
            let changed = damage::damaged(&file, damage);
            let what = || format!("seed {seed}: {damage:?}");
            for point in source.points().iter().filter(|(state, _)| matches!(state[2], 4 | 5)) {
                agreed_step(&changed, point, &mut compared, &what);
            }
        }
    }
    let ends: [(u32, &[i32]); 2] = [(4, &[11, 12]), (5, &[8, 9, 10, 11, 12, 23])];
    assert_eq!(compared.missing(&ends), [], "{compared:?}");
    assert_eq!(compared.levels.keys().copied().collect::<Vec<_>>(), (0..=7).collect::<Vec<_>>());
    assert!(compared.grants > 100_000, "{compared:?}");
}

#[test]
fn every_field_at_its_edges_at_every_point() {
    let mut compared = Compared::default();
    for seed in 0..30 {
        let file = small_file(seed);
        let source = Source::new(&file);
        for damage in damage::edge_damages(&file) {
            let changed = damage::damaged(&file, &damage);
            let what = || format!("seed {seed}: {damage:?}");
            for point in source.points() {
                agreed_step(&changed, point, &mut compared, &what);
            }
        }
    }
    assert_eq!(compared.missing(&[(3, &[10, 11, 20]), (5, &[10, 12, 20])]), [], "{compared:?}");
    assert!(compared.grants > 300_000, "{compared:?}");
}

/// The CDR's link changed to offsets so near the end that not all of the GDR's fields lie in the file.
#[test]
fn the_link_to_the_gdr_at_every_point() {
    let mut compared = Compared::default();
    for seed in 0..100 {
        let file = small_file(seed);
        let source = Source::new(&file);
        for back in 0..=64 {
            let mut changed = file.clone();
            put(&mut changed, 16, file.len() as i64 - back);
            let what = || format!("seed {seed}: {back} before the end");
            for point in source.points() {
                agreed(&changed, point, &mut compared, &what);
            }
        }
    }
    assert_eq!(compared.missing(&[(3, &[10, 11, 20]), (6, &[8, 11, 20])]), [], "{compared:?}");
    assert!(compared.grants > 300_000, "{compared:?}");
}

#[test]
fn records_at_the_end() {
    let mut random = Random::seeded(42);
    let mut compared = Compared::default();
    for seed in 0..400 {
        let (_, file) = build::any(seed);
        let source = Source::new(&file);
        for _ in 0..50 {
            let point = source.any_point(&mut random);
            let (changed, point) = source.moved_to_the_end(point, &mut random);
            agreed(&changed, &point, &mut compared, &|| format!("seed {seed}"));
        }
    }
    assert!(compared.bad_steps.len() > 40, "{compared:?}");
    assert!(compared.grants > 250_000, "{compared:?}");
}

/// Small files that end at every byte of their last records, at every point of their checks.
#[test]
fn files_cut_at_every_byte() {
    let mut compared = Compared::default();
    for seed in 0..150 {
        let file = small_file(seed);
        let source = Source::new(&file);
        for length in SHORTEST.max(file.len().saturating_sub(150))..file.len() {
            let what = || format!("seed {seed} cut at {length}");
            for point in source.points() {
                let (cut, point) = shortened(&file, point, length);
                agreed_step(&cut, &point, &mut compared, &what);
            }
        }
    }
    let met: Vec<BadStep> = compared.bad_steps.keys().copied().collect();
    assert_eq!(met, PAST_THE_END);
    assert!(compared.grants > 250_000, "{compared:?}");
}

/// The same files with eof at every such byte, and all bytes left behind it. What is needed of the GDR is past the end of
/// none of them: its first 60 bytes lie before eof, or the end is the length.
#[test]
fn bodies_cut_at_every_byte() {
    let mut compared = Compared::default();
    for seed in 0..150 {
        let file = small_file(seed);
        let source = Source::new(&file);
        for eof in SHORTEST.max(file.len().saturating_sub(150))..file.len() {
            let offset = damage::eof_offset(&file);
            let changed = damage::damaged(&file, &Damage::Field { offset, value: eof as i64 });
            let what = || format!("seed {seed}, eof {eof}");
            for point in source.points() {
                agreed_step(&changed, point, &mut compared, &what);
            }
        }
    }
    let met: Vec<BadStep> = compared.bad_steps.keys().copied().collect();
    let of_gdr = ["count of variables", "dimension count", "rMaxRec", "NumAttr"];
    let others = |(phase, _, what): &&BadStep| *phase > 2 && !of_gdr.contains(what);
    let expected = PAST_THE_END.iter().filter(others);
    assert_eq!(met, expected.copied().collect::<Vec<_>>());
    assert!(compared.grants > 250_000, "{compared:?}");
}

/// Values for a field that are not its own; for a record's size those about what its fields need.
fn other_values(file: &[u8], at: usize, is_size: bool) -> Vec<i64> {
    if is_size {
        let needed = [8, 16, 20, 32, 48, 116, 128, 132];
        return needed.into_iter().flat_map(|size| [size - 1, size]).collect();
    }
    let own = i64::from(i32::from_be_bytes(file[at..at + 4].try_into().expect("4 bytes")));
    vec![-1, 0, 11, own + 1, own ^ 4]
}

/// Files that end within their last record, of which or of the GDR one field is changed: what comes first, the field or
/// the file's end?
#[test]
fn fields_of_files_that_are_cut() {
    let mut compared = Compared::default();
    for seed in 0..40 {
        let file = small_file(seed);
        let source = Source::new(&file);
        let records = damage::records(&file);
        let last = records.last().expect("a record");
        let changed = records.iter().filter(|record| *record == last || record.record_type == 2);
        for at in changed.flat_map(|record| damage::control_fields(&file, record)) {
            for value in other_values(&file, at, at == last.offset) {
                let other = damage::damaged(&file, &Damage::Field { offset: at, value });
                for length in (SHORTEST.max(last.offset + 4)..=file.len()).step_by(3) {
                    let what = || format!("seed {seed}: {value} at {at}, cut at {length}");
                    for point in source.points().iter().filter(|(state, _)| state[2] >= 2) {
                        let (cut, point) = shortened(&other, point, length);
                        agreed_step(&cut, &point, &mut compared, &what);
                    }
                }
            }
        }
    }
    let both = [3, 4, 5, 6, 7, 8].map(|phase| (phase, [10, 20].as_slice()));
    assert_eq!(compared.missing(&both), [], "{compared:?}");
    assert!(compared.grants > 500_000, "{compared:?}");
}

#[test]
fn files_cut_and_changed() {
    let mut random = Random::seeded(43);
    let mut compared = Compared::default();
    for seed in 0..400 {
        let source = Source::new(&small_file(seed));
        for _ in 0..200 {
            let point = source.any_point(&mut random);
            let (cut, (state, real)) = source.cut(point, &mut random);
            let point = (state, source.any_marks(&real, &mut random));
            agreed(&cut, &point, &mut compared, &|| format!("seed {seed}"));
        }
    }
    assert_eq!(compared.missing(&ENDS), [], "{compared:?}");
    assert!(compared.grants > 150_000, "{compared:?}");
}
