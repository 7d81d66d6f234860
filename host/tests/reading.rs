//! The reader's refusals and their order, clause by clause.

use tlepozaluh_host::build::in_order;
use tlepozaluh_host::build::model::{File, Index, IndexEntry, Lower, Values, Variable};
use tlepozaluh_host::build::records::put;
use tlepozaluh_host::second::read::{self, read_entry, read_pad, read_value};
use tlepozaluh_host::second::tables::{data_type, encoding};

fn values(first: i64, bits: &[u64]) -> Values {
    Values { first, records: bits.iter().map(|bits| vec![*bits]).collect() }
}

/// A zVariable of two VXRs: 0..1 and 4..4 in the first, 6..6 in the second.
/// VDR 372 (132), VXR 504 (44), VVR 548 (12), VVR 560 (10), VXR 570 (32), VVR 602 (10).
/// A second zVariable follows: VDR 612 (132).
fn file(of_type: i64, of_encoding: i64) -> Vec<u8> {
    let mut file = File::base(encoding(of_encoding).expect("encoding"));
    let plain = Variable::plain(data_type(of_type).expect("data type"), Vec::new());
    let chain = vec![
        Index::of(vec![values(0, &[10, 11]), values(4, &[14])]),
        Index::of(vec![values(6, &[16])]),
    ];
    file.z_variables.push(Variable { max_rec: 6, chain, ..plain.clone() });
    file.z_variables.push(plain);
    in_order(&file)
}

fn value(file: &[u8], record: i64) -> Result<u64, u32> {
    read_value(file, 8, 0, record, &[], 0).map(|answer| answer.bits)
}

fn changed(changes: &[(usize, i64)]) -> Vec<u8> {
    let mut file = file(2, 6);
    changes.iter().for_each(|(at, value)| put(&mut file, *at, *value));
    file
}

#[test]
fn records_and_gaps() {
    let file = file(2, 6);
    assert_eq!(file.len(), 744);
    let given = [(0, Ok(10)), (1, Ok(11)), (4, Ok(14)), (6, Ok(16))];
    let gaps = [(2, Err(17)), (3, Err(17)), (5, Err(17))];
    let none = [(-1, Err(16)), (7, Err(16)), (i64::MAX, Err(16)), (i64::MIN, Err(16))];
    for (record, answer) in given.into_iter().chain(gaps).chain(none) {
        assert_eq!(value(&file, record), answer, "record {record}");
    }
    assert_eq!(read_value(&file, 8, 1, 0, &[], 0), Err(16), "no records");
}

#[test]
fn record_variance_clear() {
    let file = changed(&[(400, 0)]);
    for record in [0, 1, 2, 7, i64::MAX] {
        assert_eq!(value(&file, record), Ok(10), "record {record}");
    }
    assert_eq!(value(&file, -1), Err(16));
    assert_eq!(value(&changed(&[(400, 0), (388, -1)]), 0), Err(16));
    let gap = changed(&[(400, 0), (524, 1), (548, 10)]);
    assert_eq!(value(&gap, 1), Err(17), "record 0 in a gap");
}

#[test]
fn what_is_on_the_way_is_judged() {
    let not_rising = changed(&[(590, 4), (594, 4)]);
    assert_eq!(value(&not_rising, 4), Ok(14), "entries after the covering one");
    assert_eq!(value(&not_rising, 3), Err(20), "17 is known at the chain's end only");
    let no_offset = changed(&[(540, 0)]);
    assert_eq!(value(&no_offset, 4), Ok(14), "offsets passed over are not judged");
    assert_eq!(value(&no_offset, 0), Err(20));
    let used = changed(&[(520, 3)]);
    assert_eq!(value(&used, 0), Err(20), "the VXR's own rule is judged");
    let values = changed(&[(548, 13)]);
    assert_eq!(value(&values, 0), Err(20));
    assert_eq!(value(&values, 4), Ok(14));
    assert_eq!(read_value(&values, 8, 0, 0, &[9], 9), Err(20), "20 before 18");
}

#[test]
fn a_variable_passed_over_is_judged() {
    assert_eq!(read::variable(&changed(&[]), 8, 1).map(|of| of.offset), Ok(612));
    for change in [(400, 5), (384, 3), (388, -2), (404, 3), (420, 2), (372, 131)] {
        assert_eq!(read::variable(&changed(&[change]), 8, 1), Err(20), "{change:?}");
        assert_eq!(read::variable(&changed(&[change]), 8, 2), Err(20), "{change:?}");
    }
    for change in [(400 + 240, 5), (384 + 240, 3)] {
        assert!(read::variable(&changed(&[change]), 8, 0).is_ok(), "{change:?}");
        assert_eq!(read::variable(&changed(&[change]), 8, 1), Err(20), "{change:?}");
    }
    assert_eq!(read::variable(&changed(&[(324, 4)]), 8, 0), Err(20), "a link below 8");
    assert_eq!(read::variable(&changed(&[(324, 740)]), 8, 0), Err(20), "a link at the end");
}

#[test]
fn numbers_counts_and_tails_are_not_judged() {
    let file = changed(&[(424, 7), (396, 0), (352, 0), (336, 9), (344, 5)]);
    assert_eq!(value(&file, 4), Ok(14));
    assert_eq!(read::variable(&file, 8, 0).map(|of| of.number), Ok(7));
    assert_eq!(read::counts(&file).map(|counts| counts.z_variables), Ok(0));
}

/// The reader knows no record starts: a VVR inside another record is followed.
#[test]
fn a_record_inside_another_is_followed() {
    let mut file = file(2, 6);
    let name = 612 + 64;
    file.copy_within(560..570, name);
    put(&mut file, 544, name as i64);
    let answer = read_value(&file, 8, 0, 4, &[], 0).expect("a value");
    assert_eq!((answer.bits, answer.offset), (14, name as u64 + 8));
}

#[test]
fn kinds_and_places() {
    let file = file(2, 6);
    for kind in [i64::MIN, -1, 0, 4, 5, 6, 7, 9, i64::MAX] {
        assert_eq!(read_value(&file, kind, 0, 0, &[], 0), Err(15), "kind {kind}");
        assert_eq!(read_pad(&file, kind, 0, 0), Err(15), "kind {kind}");
    }
    for number in [i64::MIN, -1, 2, i64::MAX] {
        assert_eq!(read_value(&file, 8, number, 0, &[], 0), Err(15), "number {number}");
    }
    assert_eq!(read_value(&file, 3, 0, 0, &[], 0), Err(15));
    assert_eq!(read_entry(&file, 0, 5, 0, 0), Err(15));
    assert_eq!(read_entry(&file, 0, 8, 0, 0), Err(15));
    let refused = changed(&[(332, 0)]);
    assert_eq!(read_value(&refused, 5, -1, 0, &[], 0), Err(20), "20 before 15");
    assert_eq!(read_entry(&refused, -1, 3, 0, 0), Err(20), "20 before 15");
}

#[test]
fn indices_and_elements() {
    let file = file(2, 6);
    assert_eq!(read_value(&file, 8, 0, 0, &[0], 0), Err(18));
    assert_eq!(read_value(&file, 8, 0, 0, &[], 1), Err(18));
    assert_eq!(read_value(&file, 8, 0, 0, &[], -1), Err(18));
    assert_eq!(read_value(&file, 8, 0, 2, &[0], 0), Err(17), "17 before 18");
    assert_eq!(read_pad(&file, 8, 0, 0), Err(18), "no pad value");
    let mut model = File::base(encoding(6).expect("encoding"));
    let mut still = Variable::plain(data_type(1).expect("data type"), vec![3]);
    still.variances = vec![false];
    still.chain = vec![Index::of(vec![values(0, &[5])])];
    still.max_rec = 0;
    model.z_variables.push(still);
    let file = in_order(&model);
    for (index, answer) in [(-1, Err(18)), (0, Ok(5)), (2, Ok(5)), (3, Err(18))] {
        let found = read_value(&file, 8, 0, 0, &[index], 0).map(|answer| answer.bits);
        assert_eq!(found, answer, "index {index}");
    }
}

/// A file whose record 0 holds a VAX float with these highest bits, the others clear: 40 hex is 1/2 in every kind.
fn vax_file(of_type: i64, of_encoding: i64, top: u8) -> Vec<u8> {
    let mut file = file(of_type, of_encoding);
    let at = read::record_offset(&file, 8, 0, 0).expect("a record") as usize;
    let size = data_type(of_type).expect("data type").size as usize;
    file[at..at + size].fill(0);
    file[at + 1] = top;
    file
}

#[test]
fn vax_floats() {
    for number in [3, 14, 15] {
        for of_type in [21, 22, 31, 44, 45] {
            let half = 0x3FE0_0000_0000_0000;
            let cases = [(0, Ok(0)), (0x40, Ok(half)), (0x80, Err(22)), (0xC0, Ok(1 << 63 | half))];
            for (top, answer) in cases {
                let file = vax_file(of_type, number, top);
                assert_eq!(value(&file, 0), answer, "type {of_type}");
                let kind = read_value(&file, 8, 0, 0, &[], 0).map(|answer| answer.kind);
                assert_eq!(kind, answer.map(|_| 3), "type {of_type}");
                assert_eq!(read_value(&file, 8, 0, 0, &[], 1), Err(18), "18 before 22");
                assert_eq!(read_value(&file, 8, 0, 0, &[0], 0), Err(18), "18 before 22");
                assert_eq!(read_value(&file, 8, 0, 2, &[], 0), Err(17), "17 before 22");
            }
        }
        for of_type in [1, 2, 4, 11, 12, 14, 41, 51, 52] {
            assert_eq!(value(&file(of_type, number), 4), Ok(14), "type {of_type}");
        }
    }
}

/// Every data type in both byte orders, from the same eight bytes.
#[test]
fn decoding() {
    let bytes = [0xF1_u8, 0x82, 0x93, 0xA4, 0xB5, 0xC6, 0xD7, 0xE8];
    let signed = |number: i64| (0, number as u64);
    let cases = [
        (1, signed(-15), signed(-15)),
        (41, signed(-15), signed(-15)),
        (2, signed(-32_015), signed(-3_710)),
        (4, signed(-1_533_836_559), signed(-243_100_764)),
        (11, (1, 0xF1), (1, 0xF1)),
        (12, (1, 0x82F1), (1, 0xF182)),
        (14, (1, 0xA493_82F1), (1, 0xF182_93A4)),
        (21, (2, 0xA493_82F1), (2, 0xF182_93A4)),
        (44, (2, 0xA493_82F1), (2, 0xF182_93A4)),
        (22, (3, 0xE8D7_C6B5_A493_82F1), (3, 0xF182_93A4_B5C6_D7E8)),
        (31, (3, 0xE8D7_C6B5_A493_82F1), (3, 0xF182_93A4_B5C6_D7E8)),
        (45, (3, 0xE8D7_C6B5_A493_82F1), (3, 0xF182_93A4_B5C6_D7E8)),
        (51, (4, 0xF1), (4, 0xF1)),
        (52, (4, 0xF1), (4, 0xF1)),
    ];
    let little = [4, 6, 13, 16].map(|number| (number, true));
    let big = [1, 2, 5, 7, 9, 11, 12].map(|number| (number, false));
    for (of_encoding, is_little) in little.into_iter().chain(big) {
        for (of_type, from_little, from_big) in cases {
            let mut file = file(of_type, of_encoding);
            let at = read::record_offset(&file, 8, 0, 0).expect("a record") as usize;
            let size = data_type(of_type).expect("data type").size as usize;
            file[at..at + size].copy_from_slice(&bytes[..size]);
            let answer = read_value(&file, 8, 0, 0, &[], 0).expect("a value");
            let expected = if is_little { from_little } else { from_big };
            assert_eq!((answer.kind, answer.bits), expected, "type {of_type}");
        }
    }
}

fn lower(first: i64, last: i64, index: Index) -> IndexEntry {
    IndexEntry::Lower(Lower { first, last, index })
}

/// A zVariable of two VXRs in the top chain, MaxRec 14, length 708.
/// VXR 504 (44): 0..6 names VXR 548, 7..9 names VXR 646 (20), which has no entries.
/// VXR 548 (44): 1..2 names VVR 592 (12), 4..5 names VXR 604 (32), whose 5..5 names VVR 636 (10).
/// VXR 666 (32): 14..14 names VVR 698 (10).
fn file_of_levels() -> Vec<u8> {
    let mut file = File::base(encoding(6).expect("encoding"));
    let plain = Variable::plain(data_type(2).expect("data type"), Vec::new());
    let third = Index::of(vec![values(5, &[25])]);
    let second = Index {
        entries: vec![IndexEntry::Values(values(1, &[21, 22])), lower(4, 5, third)],
        spare: 0,
    };
    let top = Index { entries: vec![lower(0, 6, second), lower(7, 9, Index::default())], spare: 0 };
    let chain = vec![top, Index::of(vec![values(14, &[34])])];
    file.z_variables.push(Variable { max_rec: 14, chain, ..plain });
    in_order(&file)
}

/// The file of levels with some fields changed.
fn changed_levels(changes: &[(usize, i64)]) -> Vec<u8> {
    let mut file = file_of_levels();
    changes.iter().for_each(|(at, value)| put(&mut file, *at, *value));
    file
}

#[test]
fn records_below() {
    let file = file_of_levels();
    assert_eq!(file.len(), 708);
    for (record, bits, levels) in [(1, 21, 2), (2, 22, 2), (5, 25, 3), (14, 34, 1)] {
        assert_eq!(value(&file, record), Ok(bits), "record {record}");
        assert_eq!(read::levels(&file, 8, 0, record), Ok(levels), "record {record}");
    }
    for record in [0, 3, 4].into_iter().chain(6..=13) {
        assert_eq!(value(&file, record), Err(17), "record {record}");
        assert_eq!(read::levels(&file, 8, 0, record), Err(17), "record {record}");
    }
    for (number, record, refusal) in [(0, -1, 16), (0, 15, 16), (1, 1, 15), (-1, 1, 15)] {
        assert_eq!(read::levels(&file, 8, number, record), Err(refusal));
        assert_eq!(read::levels(&file, 5, number, record), Err(15));
    }
}

#[test]
fn record_variance_clear_below() {
    let from_zero = [(400, 0), (568, 0), (576, 1)];
    for record in [0, 1, 14, i64::MAX] {
        assert_eq!(value(&changed_levels(&from_zero), record), Ok(21), "record {record}");
        assert_eq!(read::levels(&changed_levels(&from_zero), 8, 0, record), Ok(2));
        assert_eq!(value(&changed_levels(&[(400, 0)]), record), Err(17), "record {record}");
    }
    assert_eq!(read::levels(&changed_levels(&[(400, 0), (388, -1)]), 8, 0, 0), Err(16));
}

/// Both calls for a record of the file of levels, the changes made.
fn both(changes: &[(usize, i64)], record: i64) -> (Result<u64, u32>, Result<i64, u32>) {
    let file = changed_levels(changes);
    (value(&file, record), read::levels(&file, 8, 0, record))
}

/// 17 is known at the end of a lower record: what comes behind it in the chain is not looked at.
#[test]
fn a_gap_below_is_known_at_once() {
    for change in [(686, 3), (670, 7), (678, -1), (512, 4)] {
        for record in [0, 3, 4, 6, 7, 9] {
            assert_eq!(both(&[change], record), (Err(17), Err(17)), "{change:?}");
        }
        for record in [10, 14] {
            assert_eq!(both(&[change], record), (Err(20), Err(20)), "{change:?}");
        }
    }
}

/// Entries of a lower record are judged up to the covering one, or all if none covers.
#[test]
fn entries_below_are_judged() {
    for change in [(572, 2), (580, 7), (580, 3)] {
        assert_eq!(both(&[change], 1), (Ok(21), Ok(2)), "{change:?}");
        assert_eq!(both(&[change], 14), (Ok(34), Ok(1)), "{change:?}");
        for record in [0, 3, 5, 6] {
            assert_eq!(both(&[change], record), (Err(20), Err(20)), "{change:?}");
        }
    }
    for record in 2..=6 {
        assert_eq!(both(&[(524, 2)], record), (Err(20), Err(20)), "First below the one above");
    }
    assert_eq!(both(&[(524, 2)], 1), (Err(17), Err(17)), "the top chain does not cover it");
    assert_eq!(both(&[(532, 4)], 4), (Err(20), Err(20)), "Last above the one above");
    assert_eq!(both(&[(532, 4)], 5), (Err(17), Err(17)));
}

/// A lower record's next and its rule are judged where it is met.
#[test]
fn a_lower_record_is_judged() {
    for change in [(556, 8), (556, -1), (556, 666), (560, 1), (564, 3), (548, 43), (548, 1000)] {
        for record in [0, 1, 5, 6] {
            assert_eq!(both(&[change], record), (Err(20), Err(20)), "{change:?}");
        }
        assert_eq!(both(&[change], 8), (Err(17), Err(17)), "{change:?}");
        assert_eq!(both(&[change], 14), (Ok(34), Ok(1)), "{change:?}");
    }
    for change in [(612, 1), (616, 2), (620, -1)] {
        assert_eq!(both(&[change], 1), (Ok(21), Ok(2)), "{change:?}");
        assert_eq!(both(&[change], 0), (Err(17), Err(17)), "{change:?}");
        assert_eq!(both(&[change], 4), (Err(20), Err(20)), "{change:?}");
    }
    for change in [(654, 1), (658, 1), (662, 1)] {
        assert_eq!(both(&[change], 8), (Err(20), Err(20)), "{change:?}");
    }
}

/// The call for levels ends at the entry that names no index record, and judges nothing behind it.
#[test]
fn levels_end_before_the_values() {
    for (change, levels) in [((584, 0), 2), ((584, 372), 2), ((584, 708), 2), ((592, 7), 2)] {
        assert_eq!(both(&[change], 1), (Err(20), Ok(levels)), "{change:?}");
    }
    assert_eq!(both(&[(552, 7)], 1), (Err(20), Ok(1)), "values in place of the index record");
    assert_eq!(both(&[(596, 6)], 1), (Err(20), Err(20)), "an index record in place of the values");
}

/// The values of record n are named at level n + 1, up to the ninth.
#[test]
fn a_ninth_level_is_not_read() {
    let mut file = File::base(encoding(6).expect("encoding"));
    let plain = Variable::plain(data_type(2).expect("data type"), Vec::new());
    let ninth = Index::of(vec![values(8, &[8])]);
    let index = (0..8).rev().fold(ninth, |index, record| {
        let own = IndexEntry::Values(values(record, &[record as u64]));
        Index { entries: vec![own, lower(record + 1, 8, index)], spare: 0 }
    });
    file.z_variables.push(Variable { max_rec: 8, chain: vec![index], ..plain });
    let file = in_order(&file);
    for record in 0..8 {
        assert_eq!(value(&file, record), Ok(record as u64));
        assert_eq!(read::levels(&file, 8, 0, record), Ok(record + 1));
    }
    assert_eq!((value(&file, 8), read::levels(&file, 8, 0, 8)), (Err(20), Err(20)));
}
