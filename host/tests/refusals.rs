//! Each clause of the check by a file that breaks it: verdict and step of the refusal.

use tlepozaluh_host::build::in_order;
use tlepozaluh_host::build::model::{Attribute, Entry, File, Index, IndexEntry, Lower};
use tlepozaluh_host::build::model::{Values, Variable};
use tlepozaluh_host::build::records::put;
use tlepozaluh_host::second::check::run;
use tlepozaluh_host::second::tables::{data_type, encoding, DataType};

/// Verdict and steps of a whole check; tests/locations.rs has the locations.
fn checked(file: &[u8], mut marks: Vec<u8>) -> (i32, u64) {
    let answer = run(file, &mut marks);
    (answer.verdict, answer.steps)
}

fn base() -> File {
    File::base(encoding(6).expect("encoding 6"))
}

fn of_type(number: i64) -> DataType {
    data_type(number).expect("data type")
}

fn values(first: i64, records: i64) -> Values {
    Values { first, records: (0..records).map(|number| vec![number as u64]).collect() }
}

fn variable(max_rec: i64, chain: Vec<Index>) -> Variable {
    Variable { max_rec, chain, ..Variable::plain(of_type(2), Vec::new()) }
}

/// Fields, their new values, verdict and step. A file without changes comes first.
type Case = (&'static [(usize, i64)], i32, u64);

/// Runs each case over marks that were all 0, and over longer ones that were all 1.
fn try_cases(name: &str, file: &[u8], cases: &[Case]) {
    for (changes, verdict, steps) in cases {
        let mut changed = file.to_vec();
        changes.iter().for_each(|(at, value)| put(&mut changed, *at, *value));
        for marks in [vec![0; changed.len()], vec![1; changed.len() + 20]] {
            let answer = checked(&changed, marks);
            assert_eq!(answer, (*verdict, *steps), "{name} with {changes:?}");
        }
    }
}

/// File H: VDR at 372, VXR at 504, VVR at 536, length 550.
fn file_h() -> Vec<u8> {
    let mut file = base();
    let chain = vec![Index::of(vec![values(0, 3)])];
    file.z_variables.push(variable(2, chain));
    in_order(&file)
}

#[test]
fn opening() {
    const COMPRESSED: i64 = 0xCCCC_0001;
    let cases: [Case; 38] = [
        (&[], 0, 15),
        (&[(0, 0)], 3, 1),
        (&[(4, 0xFFFE)], 3, 1),
        (&[(4, COMPRESSED)], 4, 1),
        (&[(4, COMPRESSED), (8, 0)], 4, 1),
        (&[(8, 303)], 5, 1),
        (&[(12, 2)], 5, 1),
        (&[(20, 3)], 5, 1),
        (&[(28, 0)], 5, 1),
        (&[(28, 8)], 5, 1),
        (&[(28, 10)], 5, 1),
        (&[(28, 17)], 5, 1),
        (&[(28, 16)], 0, 15),
        (&[(32, 7)], 5, 1),
        (&[(32, 4)], 5, 1),
        (&[(32, -1)], 5, 1),
        (&[(32, 1)], 14, 1),
        (&[(32, 1), (16, 0)], 14, 1),
        (&[(32, 2)], 0, 15),
        (&[(16, 0)], 6, 1),
        (&[(16, 311)], 6, 1),
        (&[(16, 500)], 6, 1),
        (&[(16, i64::MAX)], 6, 1),
        (&[(312, 64)], 6, 1),
        (&[(316, 3)], 6, 1),
        (&[(332, 549)], 7, 6),
        (&[(332, 551)], 6, 1),
        (&[(332, 371)], 6, 1),
        (&[(332, 372)], 8, 6),
        (&[(332, 504)], 8, 8),
        (&[(332, -1)], 6, 1),
        (&[(336, -1)], 6, 1),
        (&[(340, -1)], 6, 1),
        (&[(344, -2)], 6, 1),
        (&[(348, 11)], 6, 1),
        (&[(348, -1)], 6, 1),
        (&[(348, 1)], 6, 1),
        (&[(352, -1)], 6, 1),
    ];
    try_cases("H", &file_h(), &cases);
}

#[test]
fn sweep() {
    let cases: [Case; 14] = [
        (&[(372, 0)], 7, 4),
        (&[(372, -1)], 7, 4),
        (&[(372, i64::MAX)], 7, 4),
        (&[(536, 7)], 7, 6),
        (&[(536, 13)], 7, 7),
        (&[(536, 15)], 7, 6),
        (&[(540, 0)], 7, 6),
        (&[(540, 14)], 7, 6),
        (&[(540, -2)], 7, 6),
        (&[(540, 10)], 14, 6),
        (&[(540, 11)], 14, 6),
        (&[(540, 12)], 14, 6),
        (&[(540, 13)], 14, 6),
        (&[(540, 13), (536, 7)], 7, 6),
    ];
    try_cases("H", &file_h(), &cases);
}

#[test]
fn walk_to_a_variable() {
    let cases: [Case; 30] = [
        (&[(320, 372)], 8, 8),
        (&[(324, 504)], 8, 9),
        (&[(324, 373)], 8, 9),
        (&[(324, 550)], 8, 9),
        (&[(324, 4)], 8, 9),
        (&[(324, -1)], 8, 9),
        (&[(324, 0)], 11, 9),
        (&[(324, 0), (352, 0)], 13, 11),
        (&[(336, 1)], 11, 8),
        (&[(344, 0)], 11, 8),
        (&[(352, 2)], 11, 13),
        (&[(340, 1)], 11, 14),
        (&[(380, 372)], 9, 13),
        (&[(380, 312)], 8, 13),
        (&[(384, 3)], 10, 9),
        (&[(388, -2)], 10, 9),
        (&[(400, 5)], 14, 9),
        (&[(400, 36)], 14, 9),
        (&[(400, 5), (384, 3)], 14, 9),
        (&[(400, 9)], 10, 9),
        (&[(400, 3)], 10, 9),
        (&[(404, 3)], 10, 9),
        (&[(404, -1)], 10, 9),
        (&[(420, 0)], 10, 9),
        (&[(420, 2)], 10, 9),
        (&[(424, 1)], 11, 9),
        (&[(424, -1)], 11, 9),
        (&[(424, 1), (404, 3)], 10, 9),
        (&[(500, 11)], 10, 9),
        (&[(500, -1)], 10, 9),
    ];
    try_cases("H", &file_h(), &cases);
}

#[test]
fn walk_along_an_index() {
    let cases: [Case; 27] = [
        (&[(392, 536)], 8, 10),
        (&[(392, 0)], 11, 10),
        (&[(392, 0), (396, 0)], 12, 10),
        (&[(392, 0), (396, 0), (388, -1)], 13, 13),
        (&[(396, 0)], 11, 12),
        (&[(396, 372)], 11, 12),
        (&[(388, 3)], 12, 12),
        (&[(388, 3), (396, 0)], 11, 12),
        (&[(388, -1)], 0, 15),
        (&[(388, 1)], 0, 15),
        (&[(512, 504)], 9, 12),
        (&[(516, 2)], 10, 10),
        (&[(516, -1)], 10, 10),
        (&[(520, 2)], 10, 10),
        (&[(520, -1)], 10, 10),
        (&[(520, 0)], 12, 11),
        (&[(520, 0), (388, -1)], 13, 14),
        (&[(524, -1)], 12, 11),
        (&[(524, 3)], 12, 11),
        (&[(528, 3)], 10, 11),
        (&[(524, 1)], 10, 11),
        (&[(528, i64::MAX >> 32)], 10, 11),
        (&[(532, 0)], 8, 11),
        (&[(532, 0), (524, -1)], 12, 11),
        (&[(532, 504)], 9, 11),
        (&[(532, 372)], 8, 11),
        (&[(532, 537)], 8, 11),
    ];
    try_cases("H", &file_h(), &cases);
}

/// VXRs of the entries 0..1 and, spare, 2..2 in one; 5..5 in another; an empty one between.
/// VDR 372, VXR 504 (44), VVRs 548 (12), VXR 560 (20), VXR 580 (32), VVR 612 (10).
#[test]
fn ranges_rise_along_the_whole_chain() {
    let mut file = base();
    let chain = vec![
        Index { spare: 1, ..Index::of(vec![values(0, 2)]) },
        Index::of(vec![]),
        Index::of(vec![values(5, 1)]),
    ];
    file.z_variables.push(variable(5, chain));
    let file = in_order(&file);
    assert_eq!(file.len(), 622);
    let cases: [Case; 9] = [
        (&[], 0, 21),
        (&[(600, 2), (604, 2), (388, 2)], 0, 21),
        (&[(600, 1), (604, 1), (388, 1)], 12, 17),
        (&[(600, 0), (604, 0), (388, 0)], 12, 17),
        (&[(388, 2)], 12, 18),
        (&[(528, -5), (536, -5), (544, -5)], 0, 21),
        (&[(396, 560)], 11, 18),
        (&[(568, 0), (396, 560)], 12, 16),
        (&[(568, 0), (396, 560), (388, 1)], 13, 19),
    ];
    try_cases("three VXRs", &file, &cases);
}

/// A lower VXR of these values, named for a range.
fn lower(first: i64, last: i64, values: Vec<Values>) -> IndexEntry {
    IndexEntry::Lower(Lower { first, last, index: Index::of(values) })
}

/// VXR 504 (44) with the entries 0..5, which names VXR 548 (44), and 6..6, VVR 614 (10); below 0..1, VVR 592 (12), and
/// 4..4, VVR 604 (10).
#[test]
fn walk_along_two_levels() {
    let mut file = base();
    let entries =
        vec![lower(0, 5, vec![values(0, 2), values(4, 1)]), IndexEntry::Values(values(6, 1))];
    file.z_variables.push(variable(4, vec![Index { entries, spare: 0 }]));
    let file = in_order(&file);
    assert_eq!(file.len(), 624);
    try_cases("two levels", &file, &TWO_LEVELS);
}

/// The cases of the file of two levels.
const TWO_LEVELS: [Case; 33] = [
    (&[], 0, 22),
    (&[(556, 504)], 11, 14),
    (&[(556, -1)], 11, 14),
    (&[(556, 1), (560, 3)], 10, 14),
    (&[(560, 3)], 10, 14),
    (&[(564, 3)], 10, 14),
    (&[(524, 1)], 12, 15),
    (&[(532, 3)], 12, 16),
    (&[(532, 4)], 0, 22),
    (&[(532, 6)], 12, 18),
    (&[(524, -1)], 12, 14),
    (&[(528, 5)], 12, 18),
    (&[(568, -1)], 12, 15),
    (&[(572, 1), (580, 1)], 12, 16),
    (&[(572, 2), (580, 2), (388, 2)], 0, 22),
    (&[(580, 6)], 12, 16),
    (&[(540, 504)], 9, 14),
    (&[(540, 0)], 8, 14),
    (&[(540, 372)], 8, 14),
    (&[(540, 592)], 10, 14),
    (&[(552, 7)], 10, 14),
    (&[(596, 6)], 10, 15),
    (&[(584, 548)], 9, 15),
    (&[(588, 504)], 9, 16),
    (&[(588, 592)], 9, 16),
    (&[(544, 548)], 9, 18),
    (&[(512, 548)], 9, 19),
    (&[(396, 548)], 11, 19),
    (&[(388, 5)], 12, 19),
    (&[(388, 2)], 12, 19),
    (&[(388, 6)], 0, 22),
    (&[(564, 0)], 12, 17),
    (&[(564, 0), (388, -1)], 13, 20),
];

/// One entry a level and the values 0..2 in the lowest: VXRs from 504 on, 32 bytes each.
#[test]
fn levels_of_one_entry() {
    for levels in 1..=9_usize {
        let mut file = base();
        let index = Index::of_levels(vec![values(0, 3)], levels);
        file.z_variables.push(variable(2, vec![index]));
        let file = in_order(&file);
        let (verdict, steps) = if levels < 9 { (0, 12 + 3 * levels as u64) } else { (23, 26) };
        assert_eq!(checked(&file, vec![0; file.len()]), (verdict, steps), "{levels}");
        if levels == 8 {
            try_cases("eight levels", &file, &EIGHT_LEVELS);
        }
    }
}

/// The eighth VXR is at 728, the VVR at 760.
const EIGHT_LEVELS: [Case; 7] = [
    (&[], 0, 36),
    (&[(756, 504)], 23, 25),
    (&[(756, 728)], 23, 25),
    (&[(764, 6)], 23, 25),
    (&[(724, 504)], 9, 24),
    (&[(748, 1), (756, 504)], 23, 25),
    (&[(748, -1), (756, 504)], 12, 25),
];

/// ADRs at 372 and 646; g/rEntries 0 at 488 and 3 at 538; zEntry 1 at 590; length 762.
fn file_of_attributes() -> Vec<u8> {
    let entry = |number: i64, data_type: i64, elements: usize| Entry {
        number,
        data_type: of_type(data_type),
        elements: vec![7; elements],
    };
    let attribute = |gr_entries: Vec<Entry>, z_entries: Vec<Entry>| Attribute {
        name: b"attribute".to_vec(),
        scope: 1,
        gr_entries,
        z_entries,
    };
    let mut file = base();
    let gr_entries = vec![entry(0, 2, 1), entry(3, 51, 4)];
    file.attributes.push(attribute(gr_entries, vec![entry(1, 4, 2)]));
    file.attributes.push(attribute(vec![], vec![]));
    in_order(&file)
}

#[test]
fn walk_along_attributes() {
    let file = file_of_attributes();
    assert_eq!(file.len(), 762);
    let cases: [Case; 29] = [
        (&[], 0, 22),
        (&[(372, 115)], 7, 5),
        (&[(388, 0)], 10, 12),
        (&[(388, 3)], 10, 12),
        (&[(388, 2)], 0, 22),
        (&[(392, 1)], 11, 12),
        (&[(392, -1)], 11, 12),
        (&[(396, 3)], 11, 15),
        (&[(396, -1)], 11, 15),
        (&[(400, 2)], 11, 15),
        (&[(412, 0)], 11, 17),
        (&[(416, 0)], 11, 17),
        (&[(384, 590)], 8, 13),
        (&[(408, 488)], 8, 16),
        (&[(500, 1)], 11, 13),
        (&[(504, 3)], 10, 13),
        (&[(508, -1)], 10, 13),
        (&[(512, 0)], 10, 13),
        (&[(512, 2)], 10, 13),
        (&[(504, 22), (512, 0x2000_0002)], 10, 13),
        (&[(504, 12)], 0, 22),
        (&[(508, 3)], 0, 22),
        (&[(546, 488)], 9, 15),
        (&[(658, 488)], 9, 19),
        (&[(654, 372)], 9, 21),
        (&[(690, 0)], 11, 20),
        (&[(666, 0)], 11, 18),
        (&[(340, 1)], 11, 21),
        (&[(380, 0), (340, 1), (654, 646)], 13, 19),
    ];
    try_cases("attributes", &file, &cases);
}

/// UIRs on the list at 372 (16) and 388 (20), one of 8 bytes at 408 on no list.
#[test]
fn walk_along_unused_records() {
    let mut file = base();
    file.listed_unused = vec![16, 20];
    file.unlisted_unused = vec![8];
    let cases: [Case; 8] = [
        (&[], 0, 13),
        (&[(384, 388)], 11, 11),
        (&[(400, 0)], 11, 12),
        (&[(356, 388)], 11, 11),
        (&[(356, 388), (400, 0)], 0, 12),
        (&[(356, 408)], 10, 11),
        (&[(396, 408)], 10, 13),
        (&[(396, 388)], 9, 13),
    ];
    try_cases("unused records", &in_order(&file), &cases);
}

/// rVariables of sizes 2 and 3: VDRs at 380 and 516, the second of MaxRec 4.
#[test]
fn walk_along_r_variables() {
    let mut file = base();
    file.r_sizes = vec![2, 3];
    let plain = Variable::plain(of_type(1), vec![2, 3]);
    let records = (0..5).map(|_| vec![1; 6]).collect();
    let chain = vec![Index::of(vec![Values { first: 0, records }])];
    file.r_variables.push(plain.clone());
    file.r_variables.push(Variable { max_rec: 4, chain, ..plain });
    let file = in_order(&file);
    let cases: [Case; 9] = [
        (&[], 0, 18),
        (&[(344, 3)], 11, 15),
        (&[(344, -1)], 11, 15),
        (&[(336, 1)], 11, 15),
        (&[(508, 1)], 10, 9),
        (&[(512, -2)], 10, 9),
        (&[(512, 0)], 0, 18),
        (&[(644, 0)], 10, 13),
        (&[(524, 380)], 9, 15),
    ];
    try_cases("rVariables", &file, &cases);
}

/// A VDR whose own size ends early is 10; Flags are looked at from 32 bytes on.
#[test]
fn short_variable_records() {
    let rest = |vdr: i64| [(372, vdr), (372 + vdr as usize, 132 - vdr), (376 + vdr as usize, -1)];
    for (size, flags, verdict) in
        [(40, 1, 10), (40, 5, 14), (32, 5, 14), (124, 5, 14), (124, 1, 10)]
    {
        let mut file = file_h();
        put(&mut file, 400, flags);
        rest(size).iter().for_each(|(at, value)| put(&mut file, *at, *value));
        let answer = checked(&file, vec![0; 550]);
        assert_eq!(answer, (verdict, 10), "VDR of {size} bytes, flags {flags}");
    }
    let mut file = file_h();
    let two = [(372, 28), (400, 12), (404, -1), (412, 92), (416, -1)];
    two.iter().for_each(|(at, value)| put(&mut file, *at, *value));
    let answer = checked(&file, vec![0; 550]);
    assert_eq!(answer, (10, 11), "12 at offset 28 has bit 2 set");
}

/// Each record type with less than the fields it is judged by, at the head of its list.
#[test]
fn records_of_eight_bytes() {
    for (record_type, head, steps) in [(3, 320, 6), (8, 324, 7), (4, 328, 8), (-1, 356, 9)] {
        let mut file = base();
        file.unlisted_unused = vec![8];
        let mut file = in_order(&file);
        put(&mut file, 376, record_type);
        put(&mut file, head, 372);
        let answer = checked(&file, vec![0; 380]);
        assert_eq!(answer, (10, steps), "type {record_type}");
    }
}

#[test]
fn record_bytes() {
    let cases = [
        (vec![2_147_483_647, 1], 1, 0, 11),
        (vec![2_147_483_647, 1], 2, 10, 7),
        (vec![65_536, 32_768], 1, 10, 7),
        (vec![65_536, 65_536, 65_536, 65_536], 1, 10, 7),
        (vec![2_147_483_647; 10], 45, 10, 7),
        (vec![46_340, 46_340], 1, 0, 11),
    ];
    for (sizes, number, verdict, steps) in cases {
        let mut file = base();
        let variances = vec![true; sizes.len()];
        let plain = Variable::plain(of_type(number), sizes.clone());
        file.z_variables.push(Variable { variances, ..plain });
        let file = in_order(&file);
        let answer = checked(&file, vec![0; file.len()]);
        assert_eq!(answer, (verdict, steps), "{sizes:?} of type {number}");
    }
}

/// A GDR inside another record passes the opening, and is no record start.
#[test]
fn a_gdr_inside_another_record() {
    let mut file = base();
    file.unlisted_unused = vec![80];
    let mut file = in_order(&file);
    file.copy_within(312..372, 384);
    put(&mut file, 16, 384);
    assert_eq!(checked(&file, vec![0; 452]), (8, 5));
}

#[test]
fn second_descriptor_records_are_unclaimed() {
    for record_type in [1, 2] {
        let mut file = base();
        file.unlisted_unused = vec![8];
        let mut file = in_order(&file);
        put(&mut file, 376, record_type);
        let answer = checked(&file, vec![0; 380]);
        assert_eq!(answer, (13, 9), "type {record_type}");
    }
}
