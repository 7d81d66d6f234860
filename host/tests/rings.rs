//! Files whose links go round: refused in few steps, and the reader ends on them.

use tlepozaluh_host::build::records::put;
use tlepozaluh_host::samples;
use tlepozaluh_host::second::check::{run, Granted};
use tlepozaluh_host::second::read::{attribute, levels, read_entry, read_value, variable};

/// File, verdict, step and location of the refusal.
const RINGS: [(&str, i32, u64, u64); 11] = [
    ("record_size_0", 7, 4, 372),
    ("ring_adr", 9, 30, 831),
    ("ring_entry_back_to_first", 9, 24, 776),
    ("ring_entry_count_2147483647", 9, 24, 776),
    ("ring_entry_short_of_count", 9, 23, 721),
    ("ring_uir", 9, 12, 388),
    ("ring_vdr_count_100000000", 9, 19, 372),
    ("ring_vdr_self", 9, 19, 372),
    ("ring_vxr_self", 9, 18, 504),
    ("ring_vxr_two", 9, 16, 548),
    ("vxr_entry_is_itself", 9, 17, 504),
];

fn ring(name: &str) -> Vec<u8> {
    let path = samples::directory().join("rings").join(format!("{name}.cdf"));
    std::fs::read(path).expect(name)
}

#[test]
fn every_ring_is_refused() {
    let found = std::fs::read_dir(samples::directory().join("rings")).expect("samples/rings");
    assert_eq!(found.count(), RINGS.len());
    for (name, verdict, steps, location) in RINGS {
        let file = ring(name);
        let answer = run(&file, &mut vec![0; file.len()]);
        assert_eq!(answer, Granted { verdict, steps, location }, "{name}");
    }
}

/// 997 bytes allow 124 records on the way, CDR and GDR among them.
#[test]
fn a_ring_answers_below_the_limit() {
    let file = ring("ring_vdr_self");
    assert_eq!(variable(&file, 8, 121).map(|found| found.offset), Ok(372));
    assert_eq!(variable(&file, 8, 122), Err(20));
    assert_eq!(variable(&file, 8, i64::MAX), Err(20));
    assert_eq!(read_value(&file, 8, 119, 2, &[], 0).map(|answer| answer.offset), Ok(548));
    assert_eq!(read_value(&file, 8, 120, 2, &[], 0), Err(20));
    assert_eq!(read_value(&file, 8, 120, 3, &[], 0), Err(16));
    assert_eq!((levels(&file, 8, 120, 2), levels(&file, 8, 121, 2)), (Ok(1), Err(20)));
    assert_eq!((levels(&file, 8, 119, 2), levels(&file, 8, 120, 3)), (Ok(1), Err(16)));
    let file = ring("ring_adr");
    assert_eq!(attribute(&file, 121).map(|found| found.offset), Ok(831));
    assert_eq!(attribute(&file, 122), Err(20));
}

#[test]
fn entries_in_a_ring() {
    for name in ["ring_entry_back_to_first", "ring_entry_count_2147483647"] {
        let file = ring(name);
        assert_eq!(read_entry(&file, 0, 5, 2, 0).map(|answer| answer.offset), Ok(824));
        assert_eq!(read_entry(&file, 0, 5, 3, 0), Err(20), "{name}");
        assert_eq!(read_entry(&file, 0, 9, 3, 0), Err(16), "{name}");
    }
}

/// Without used entries nothing but the number of records met ends the way.
#[test]
fn a_ring_of_index_records_ends() {
    let mut file = ring("ring_vxr_two");
    assert_eq!(read_value(&file, 8, 0, 3, &[], 0).map(|answer| answer.offset), Ok(590));
    put(&mut file, 504 + 16, 0);
    assert_eq!(read_value(&file, 8, 0, 3, &[], 0).map(|answer| answer.offset), Ok(590));
    assert_eq!(read_value(&file, 8, 0, 0, &[], 0), Err(20));
    put(&mut file, 548 + 16, 0);
    assert_eq!(read_value(&file, 8, 0, 3, &[], 0), Err(20));
}

/// An index record that an entry of its own names: the levels end the way.
#[test]
fn a_ring_of_levels_ends() {
    let file = ring("vxr_entry_is_itself");
    let max_rec = variable(&file, 8, 0).expect("a variable").max_rec;
    let answers: Vec<_> = (0..=max_rec).map(|record| levels(&file, 8, 0, record)).collect();
    assert!(answers.contains(&Err(20)), "{answers:?}");
}
