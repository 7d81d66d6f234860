//! Where a refusal is due (docs/RULES.md, section 11): files that break one clause each, with the offset of the record at
//! fault, and single steps of states made up. By both implementations, in one grant and step by step; a grant after the end
//! says the location again.

use tlepozaluh_host::bindings::{Granted, State, STATE_LENGTH};
use tlepozaluh_host::build::model::{Attribute, Entry, File, Index, IndexEntry, Lower};
use tlepozaluh_host::build::model::{Values, Variable};
use tlepozaluh_host::build::records::put;
use tlepozaluh_host::build::{self, in_order};
use tlepozaluh_host::damage;
use tlepozaluh_host::locations;
use tlepozaluh_host::pair::{said_again, to_the_end, Compared, Pair};
use tlepozaluh_host::second::check::{grant, run, Check, FRESH};
use tlepozaluh_host::second::tables::{data_type, encoding, DataType};

fn base() -> File {
    File::base(encoding(6).expect("encoding 6"))
}

fn of_type(number: i64) -> DataType {
    data_type(number).expect("data type")
}

fn values(first: i64, records: i64) -> Values {
    Values { first, records: (0..records).map(|number| vec![number as u64]).collect() }
}

/// A file of one zVariable of 2-byte numbers with this chain of VXRs: VDR at 372, first VXR at 504.
fn file_of(max_rec: i64, chain: Vec<Index>) -> Vec<u8> {
    let mut file = base();
    let plain = Variable::plain(of_type(2), Vec::new());
    file.z_variables.push(Variable { max_rec, chain, ..plain });
    in_order(&file)
}

/// File H (docs/RULES.md, 18.4): CDR 8, GDR 312, VDR 372, VXR 504 with one entry, VVR 536, length 550.
fn file_h() -> Vec<u8> {
    file_of(2, vec![Index::of(vec![values(0, 3)])])
}

fn changed(file: &[u8], fields: &[(usize, i64)]) -> Vec<u8> {
    let mut changed = file.to_vec();
    fields.iter().for_each(|(at, value)| put(&mut changed, *at, *value));
    changed
}

/// Fields and their new values; verdict and location.
type Case = (&'static [(usize, i64)], i32, u64);

/// A file is refused with this number at this location, by both, whatever the marks are at first.
fn refused(file: &[u8], (verdict, location): (i32, u64), what: &str) {
    let mut compared = Compared::default();
    for marks in [vec![0; file.len()], vec![1; file.len() + 20]] {
        let mut second_state = FRESH;
        let second = grant(file, &mut marks.clone(), &mut second_state, u64::MAX);
        assert_eq!((second.verdict, second.location), (verdict, location), "second: {what}");
        let mut pair = Pair::fresh(&marks);
        let granted = pair.grant(file, u64::MAX, &mut compared);
        let granted = granted.unwrap_or_else(|wrong| panic!("{what}: {wrong}"));
        assert_eq!((granted.0, granted.2), (verdict, location), "{what}");
        assert_eq!((pair.state()[0] as i32, u64::from(pair.state()[33])), (verdict + 1, location));
        said_again(&pair, granted, &mut compared).unwrap_or_else(|wrong| panic!("{what}: {wrong}"));
        let stepped = to_the_end(file, &FRESH, &marks, &mut || 1, &mut compared);
        assert_eq!(stepped, Ok(verdict), "{what}");
    }
    assert!(locations::is_right(file, verdict, location), "by a plain reading: {what}");
}

/// Each case is refused as it says.
fn all_refused(name: &str, file: &[u8], cases: &[Case]) {
    for (fields, verdict, location) in cases {
        let what = format!("{name} with {fields:?}");
        refused(&changed(file, fields), (*verdict, *location), &what);
    }
}

/// 3 to 6, and 14 of the CDR's Flags, are of no record; nor are 1 and 2.
#[test]
fn the_opening_has_no_location() {
    let cases: [Case; 8] = [
        (&[(0, 0)], 3, 0),
        (&[(4, 0xCCCC_0001)], 4, 0),
        (&[(8, 303)], 5, 0),
        (&[(28, 8)], 5, 0),
        (&[(32, 1)], 14, 0),
        (&[(16, 311)], 6, 0),
        (&[(312, 64)], 6, 0),
        (&[(332, 551)], 6, 0),
    ];
    all_refused("H", &file_h(), &cases);
    let mut compared = Compared::default();
    let short = Pair::fresh(&[0; 549]).grant(&file_h(), 5, &mut compared);
    assert_eq!(short, Ok((2, 1, 0)));
    let too_long = vec![0; 1 << 31];
    assert_eq!(Pair::fresh(&[]).grant(&too_long, 5, &mut compared), Ok((1, 1, 0)));
}

/// 7 and 14 of the sweep: the offset that is swept, and where fewer than 8 bytes are left the one where they begin.
#[test]
fn the_swept_offset() {
    let cases: [Case; 14] = [
        (&[(372, 0)], 7, 372),
        (&[(372, 7)], 7, 372),
        (&[(372, -1)], 7, 372),
        (&[(376, 0)], 7, 372),
        (&[(504, 2000)], 7, 504),
        (&[(536, 7)], 7, 536),
        (&[(536, 15)], 7, 536),
        (&[(536, 13)], 7, 549),
        (&[(536, 8)], 7, 544),
        (&[(540, 14)], 7, 536),
        (&[(540, -2)], 7, 536),
        (&[(540, 10)], 14, 536),
        (&[(376, 13), (540, 10)], 14, 372),
        (&[(540, 12), (536, 15)], 7, 536),
    ];
    all_refused("H", &file_h(), &cases);
}

/// The sweep ends at eof: what begins before it and passes it is at fault, also where the file goes on.
#[test]
fn the_swept_offset_of_a_padded_file() {
    let mut file = file_h();
    file.resize(690, 0);
    let cases: [Case; 4] = [
        (&[(332, 549)], 7, 536),
        (&[(332, 551)], 7, 550),
        (&[(332, 557)], 7, 550),
        (&[(332, 690)], 7, 550),
    ];
    all_refused("H and 140 bytes", &file, &cases);
}

/// The CDR holds the link to the GDR.
#[test]
fn a_gdr_that_is_no_record() {
    let mut file = base();
    file.unlisted_unused = vec![80];
    let mut file = in_order(&file);
    file.copy_within(312..372, 384);
    refused(&changed(&file, &[(16, 384)]), (8, 8), "a GDR inside another record");
}

/// 8 and 9: the record that holds the link, which is a head of the GDR, of a VDR, or a next, or an offset of a VXR.
#[test]
fn the_holder_of_a_link() {
    let cases: [Case; 20] = [
        (&[(320, 372)], 8, 312),
        (&[(324, 504)], 8, 312),
        (&[(324, 373)], 8, 312),
        (&[(324, 550)], 8, 312),
        (&[(324, 4)], 8, 312),
        (&[(324, -1)], 8, 312),
        (&[(324, 312)], 8, 312),
        (&[(328, 372)], 8, 312),
        (&[(356, 372)], 8, 312),
        (&[(380, 312)], 8, 372),
        (&[(380, 504)], 8, 372),
        (&[(392, 536)], 8, 372),
        (&[(392, 372)], 8, 372),
        (&[(512, 372)], 8, 504),
        (&[(532, 0)], 8, 504),
        (&[(532, 372)], 8, 504),
        (&[(532, 537)], 8, 504),
        (&[(380, 372)], 9, 372),
        (&[(512, 504)], 9, 504),
        (&[(532, 504)], 9, 504),
    ];
    all_refused("H", &file_h(), &cases);
}

/// 10, 14 and 11 on a claim: the record that the link leads to. 10 of a value record is its own, with whatever entry.
#[test]
fn the_target_of_a_link() {
    let cases: [Case; 14] = [
        (&[(384, 3)], 10, 372),
        (&[(388, -2)], 10, 372),
        (&[(404, 3)], 10, 372),
        (&[(500, 11)], 10, 372),
        (&[(400, 5)], 14, 372),
        (&[(400, 36)], 14, 372),
        (&[(400, 5), (384, 3)], 14, 372),
        (&[(424, 1)], 11, 372),
        (&[(424, -1)], 11, 372),
        (&[(516, 2)], 10, 504),
        (&[(520, 2)], 10, 504),
        (&[(524, 1)], 10, 536),
        (&[(528, 3)], 10, 536),
        (&[(540, 6)], 10, 536),
    ];
    all_refused("H", &file_h(), &cases);
}

/// 11 at a list's end and 12 of MaxRec: the last member, or the record with the head where the list is empty. 12 of an
/// entry: the VXR that has it.
#[test]
fn the_holder_of_a_zero_link() {
    let cases: [Case; 16] = [
        (&[(336, 1)], 11, 312),
        (&[(344, 0)], 11, 312),
        (&[(324, 0)], 11, 312),
        (&[(340, 1)], 11, 312),
        (&[(352, 2)], 11, 372),
        (&[(352, 0)], 11, 372),
        (&[(392, 0)], 11, 372),
        (&[(392, 0), (396, 0)], 12, 372),
        (&[(396, 0)], 11, 504),
        (&[(396, 372)], 11, 504),
        (&[(388, 3)], 12, 504),
        (&[(388, 3), (396, 0)], 11, 504),
        (&[(520, 0)], 12, 504),
        (&[(524, -1)], 12, 504),
        (&[(524, 3)], 12, 504),
        (&[(532, 0), (524, -1)], 12, 504),
    ];
    all_refused("H", &file_h(), &cases);
}

/// 13: the first in file order of the records that no link leads to.
#[test]
fn the_first_unclaimed_record() {
    let cases: [Case; 3] = [
        (&[(324, 0), (352, 0)], 13, 372),
        (&[(392, 0), (396, 0), (388, -1)], 13, 504),
        (&[(520, 0), (388, -1)], 13, 536),
    ];
    all_refused("H", &file_h(), &cases);
    let mut file = base();
    file.unlisted_unused = vec![8, 24, 8, 8];
    let cases: [Case; 5] = [
        (&[(376, 7)], 13, 372),
        (&[(384, 6), (408, 1)], 13, 380),
        (&[(408, 1), (416, 7)], 13, 404),
        (&[(416, 2)], 13, 412),
        (&[(376, 9), (384, 9), (408, 9), (416, 9)], 13, 372),
    ];
    all_refused("unused records at 372, 380, 404, 412", &in_order(&file), &cases);
}

/// VDR 372, VXR 504 (44, one entry spare), VVR 548 (12), VXR 560 (20, no entries), VXR 580 (32), VVR 612 (10), length 622.
#[test]
fn a_chain_of_three() {
    let first = Index { spare: 1, ..Index::of(vec![values(0, 2)]) };
    let chain = vec![first, Index::of(vec![]), Index::of(vec![values(5, 1)])];
    let cases: [Case; 11] = [
        (&[(600, 1), (604, 1), (388, 1)], 12, 580),
        (&[(388, 2)], 12, 580),
        (&[(396, 560)], 11, 580),
        (&[(568, 0)], 11, 560),
        (&[(568, 0), (396, 560)], 12, 560),
        (&[(568, 0), (396, 560), (388, 1)], 13, 580),
        (&[(512, 580)], 13, 560),
        (&[(568, 504)], 9, 560),
        (&[(588, 560)], 9, 580),
        (&[(568, 548)], 8, 560),
        (&[(608, 548)], 9, 580),
    ];
    all_refused("three VXRs", &file_of(5, chain), &cases);
}

/// VXR 504 (44) has the entries 0..5, which names VXR 548 (44), and 6..6, VVR 614 (10); VXR 548 has 0..1, VVR 592 (12), and
/// 4..4, VVR 604 (10); length 624.
#[test]
fn two_levels() {
    let index = Index::of(vec![values(0, 2), values(4, 1)]);
    let lower = IndexEntry::Lower(Lower { first: 0, last: 5, index });
    let entries = vec![lower, IndexEntry::Values(values(6, 1))];
    let file = file_of(4, vec![Index { entries, spare: 0 }]);
    assert_eq!(file.len(), 624);
    let cases: [Case; 25] = [
        (&[(556, 504)], 11, 548),
        (&[(556, -1)], 11, 548),
        (&[(556, 1), (560, 3)], 10, 548),
        (&[(564, 3)], 10, 548),
        (&[(524, -1)], 12, 504),
        (&[(524, 1)], 12, 548),
        (&[(532, 3)], 12, 548),
        (&[(532, 6)], 12, 504),
        (&[(528, 5)], 12, 504),
        (&[(568, -1)], 12, 548),
        (&[(572, 1), (580, 1)], 12, 548),
        (&[(580, 6)], 12, 548),
        (&[(540, 0)], 8, 504),
        (&[(540, 372)], 8, 504),
        (&[(588, 372)], 8, 548),
        (&[(588, 0)], 8, 548),
        (&[(540, 504)], 9, 504),
        (&[(584, 548)], 9, 548),
        (&[(588, 592)], 9, 548),
        (&[(544, 548)], 9, 504),
        (&[(512, 548)], 9, 504),
        (&[(596, 6)], 10, 592),
        (&[(576, 0)], 10, 592),
        (&[(396, 548)], 11, 504),
        (&[(388, 5)], 12, 504),
    ];
    all_refused("two levels", &file, &cases);
    all_refused("two levels", &file, &[(&[(564, 0), (388, -1)], 13, 592)]);
}

/// One entry a level: VXRs from 504 on, 32 bytes each. The eighth is at 728, and what follows it at 760.
#[test]
fn too_deep() {
    let nine = file_of(2, vec![Index::of_levels(vec![values(0, 3)], 9)]);
    all_refused("nine levels", &nine, &[(&[], 23, 760), (&[(768, 1)], 23, 760)]);
    let eight = file_of(2, vec![Index::of_levels(vec![values(0, 3)], 8)]);
    let cases: [Case; 6] = [
        (&[(756, 504)], 23, 504),
        (&[(756, 728)], 23, 728),
        (&[(764, 6)], 23, 760),
        (&[(724, 504)], 9, 696),
        (&[(748, -1), (756, 504)], 12, 728),
        (&[(756, 372)], 8, 728),
    ];
    all_refused("eight levels", &eight, &cases);
}

/// ADRs at 372 and 646; of the first the g/rEntries 0 at 488 and 3 at 538 and the zEntry 1 at 590; length 762.
fn file_of_attributes() -> Vec<u8> {
    let entry = |number: i64, data_type: i64, elements: usize| Entry {
        number,
        data_type: of_type(data_type),
        elements: vec![7; elements],
    };
    let attribute = |gr_entries: Vec<Entry>, z_entries: Vec<Entry>| Attribute {
        name: b"attribute".to_vec(),
        scope: 1,
        gr_entries,
        z_entries,
    };
    let mut file = base();
    let gr_entries = vec![entry(0, 2, 1), entry(3, 51, 4)];
    file.attributes.push(attribute(gr_entries, vec![entry(1, 4, 2)]));
    file.attributes.push(attribute(vec![], vec![]));
    in_order(&file)
}

#[test]
fn attributes() {
    let cases: [Case; 16] = [
        (&[(388, 0)], 10, 372),
        (&[(662, 3)], 10, 646),
        (&[(392, 1)], 11, 372),
        (&[(666, 0)], 11, 646),
        (&[(328, 0)], 11, 312),
        (&[(340, 1)], 11, 646),
        (&[(340, 3)], 11, 646),
        (&[(328, 488)], 8, 312),
        (&[(380, 488)], 8, 372),
        (&[(654, 1)], 8, 646),
        (&[(380, 372)], 9, 372),
        (&[(654, 372)], 9, 646),
        (&[(372, 115)], 7, 487),
        (&[(380, 0), (340, 1)], 13, 646),
        (&[(328, 0), (340, 0)], 13, 372),
        (&[(384, 0), (396, 0), (400, -1)], 13, 488),
    ];
    all_refused("attributes", &file_of_attributes(), &cases);
}

#[test]
fn entries_of_attributes() {
    let cases: [Case; 23] = [
        (&[(504, 3)], 10, 488),
        (&[(512, 2)], 10, 488),
        (&[(610, -1)], 10, 590),
        (&[(500, 1)], 11, 488),
        (&[(550, 1)], 11, 538),
        (&[(602, 1)], 11, 590),
        (&[(396, 3)], 11, 538),
        (&[(400, 2)], 11, 538),
        (&[(496, 0)], 11, 488),
        (&[(384, 0)], 11, 372),
        (&[(412, 0)], 11, 590),
        (&[(416, 0)], 11, 590),
        (&[(408, 0)], 11, 372),
        (&[(670, 1)], 11, 646),
        (&[(690, 0)], 11, 646),
        (&[(384, 590)], 8, 372),
        (&[(408, 488)], 8, 372),
        (&[(496, 646)], 8, 488),
        (&[(598, 538)], 8, 590),
        (&[(546, 488)], 9, 538),
        (&[(598, 590)], 9, 590),
        (&[(658, 488)], 9, 646),
        (&[(682, 590)], 9, 646),
    ];
    all_refused("attributes", &file_of_attributes(), &cases);
}

/// UIRs on the list at 372 (16) and 388 (20), one of 8 bytes at 408 on no list.
#[test]
fn unused_records() {
    let mut file = base();
    file.listed_unused = vec![16, 20];
    file.unlisted_unused = vec![8];
    let cases: [Case; 9] = [
        (&[(384, 388)], 11, 372),
        (&[(400, 0)], 11, 388),
        (&[(356, 388)], 11, 388),
        (&[(356, 408)], 10, 408),
        (&[(396, 408)], 10, 408),
        (&[(396, 388)], 9, 388),
        (&[(356, 8)], 8, 312),
        (&[(380, 312)], 8, 372),
        (&[(396, 416)], 8, 388),
    ];
    all_refused("unused records", &in_order(&file), &cases);
}

/// rVariables of sizes 2 and 3: VDRs at 380 (136) and 516 (136), the second of MaxRec 4 with a VXR at 652.
#[test]
fn r_variables() {
    let mut file = base();
    file.r_sizes = vec![2, 3];
    let plain = Variable::plain(of_type(1), vec![2, 3]);
    let records = (0..5).map(|_| vec![1; 6]).collect();
    let chain = vec![Index::of(vec![Values { first: 0, records }])];
    file.r_variables.push(plain.clone());
    file.r_variables.push(Variable { max_rec: 4, chain, ..plain });
    let cases: [Case; 12] = [
        (&[(344, 3)], 11, 516),
        (&[(336, 1)], 11, 516),
        (&[(388, 0)], 11, 380),
        (&[(320, 0)], 11, 312),
        (&[(352, 1)], 11, 312),
        (&[(320, 516)], 11, 516),
        (&[(512, -2)], 10, 380),
        (&[(544, 5)], 14, 516),
        (&[(388, 312)], 8, 380),
        (&[(524, 380)], 9, 516),
        (&[(404, 1)], 11, 380),
        (&[(396, 0)], 12, 380),
    ];
    all_refused("rVariables", &in_order(&file), &cases);
}

/// Damaged files of all kinds: the location of each refusal is one that a plain reading of the file has for its number, and
/// the plain reading has neither 0 nor the offset behind it.
#[test]
fn locations_of_damaged_files() {
    let mut refusals = [0; 24];
    for seed in 0..24 {
        let (_, file) = build::with_levels(seed, 1 + seed as usize % 9);
        for damage in damage::all_damages(&file).iter().skip(seed as usize % 3).step_by(3) {
            let damaged = damage::damaged(&file, damage);
            let granted = run(&damaged, &mut vec![0xAA; damaged.len()]);
            let (verdict, location) = (granted.verdict, granted.location);
            let what = || format!("seed {seed}, {damage:?}: {granted:?}");
            assert!(locations::is_right(&damaged, verdict, location), "{}", what());
            if location != 0 {
                refusals[verdict as usize] += 1;
                assert!(!locations::is_right(&damaged, verdict, 0), "{}", what());
                assert!(!locations::is_right(&damaged, verdict, location + 1), "{}", what());
            }
        }
    }
    for (verdict, count) in refusals.iter().enumerate() {
        let has_location = matches!(verdict, 7..=14 | 23);
        assert_eq!(*count > 20, has_location, "{verdict}: {refusals:?}");
    }
}

/// The marks of a file after the sweep.
fn swept(file: &[u8]) -> Vec<u8> {
    let mut marks = vec![0; file.len()];
    let mut check = Check::fresh();
    while check.state()[2] != 2 {
        assert_eq!(check.step(file, &mut marks), -1);
    }
    marks
}

/// The first twelve numbers of a state.
type Numbers = [u32; 12];

/// The state of these numbers, with a level if there is one.
fn state(numbers: Numbers, level: Option<[u32; 3]>) -> State {
    let mut state = [0; STATE_LENGTH];
    let all = numbers.into_iter().chain(level.into_iter().flatten());
    state.iter_mut().zip(all).for_each(|(slot, number)| *slot = number);
    state
}

/// One step by both: what it leaves.
fn one_step(file: &[u8], marks: &[u8], state: State) -> Granted {
    let mut pair = Pair::new(&state, marks);
    let granted = pair.grant(file, 1, &mut Compared::default());
    granted.unwrap_or_else(|wrong| panic!("{wrong}"))
}

/// Where the link stands in the states below: within the VDR's name, where no step looks by itself.
const LINK: u32 = 460;

/// Each phase that has a link, with what says whether a head or a next is taken; and how far before the link the record
/// begins that holds it.
const HOLDERS: [(Numbers, u32); 17] = [
    ([0, 550, 3, 3, LINK, 0, 0, 0, 0, 0, 0, 0], 8),
    ([0, 550, 3, 3, LINK, 7, 0, 0, 0, 0, 0, 0], 8),
    ([0, 550, 3, 8, LINK, 0, 0, 0, 0, 0, 0, 0], 12),
    ([0, 550, 3, 8, LINK, 7, 0, 0, 0, 0, 0, 0], 8),
    ([0, 550, 3, 8, LINK, 0, 9, 0, 0, 0, 0, 0], 12),
    ([0, 550, 4, 3, LINK, 0, 0, 372, 0, 0, 0, 0], 20),
    ([0, 550, 4, 8, LINK, 5, 3, 372, 0, 0, 9, 1], 20),
    ([0, 550, 4, 8, LINK, 0, 0, 372, 1, 0, 0, 0], 8),
    ([0, 550, 6, 0, LINK, 0, 0, 0, 0, 0, 0, 0], 16),
    ([0, 550, 6, 0, LINK, 1, 0, 0, 0, 0, 0, 0], 8),
    ([0, 550, 7, 5, LINK, 0, 0, 372, 0, 0, 0, 0], 12),
    ([0, 550, 7, 5, LINK, 3, 0, 372, 0, 0, 4, 0], 12),
    ([0, 550, 7, 5, LINK, 0, 0, 372, 0, 1, 0, 0], 8),
    ([0, 550, 7, 9, LINK, 3, 0, 372, 0, 0, 4, 0], 36),
    ([0, 550, 7, 9, LINK, 0, 0, 372, 0, 2_147_483_648, 0, 0], 8),
    ([0, 550, 8, 0, LINK, 0, 0, 0, 0, 0, 0, 0], 44),
    ([0, 550, 8, 0, LINK, 0, 0, 0, 1, 0, 0, 0], 8),
];

/// In a state made up the holder is told by the same numbers; where it would begin before the file it is 0.
#[test]
fn holders_in_states_made_up() {
    let file = changed(&file_h(), &[(LINK as usize, 4)]);
    let marks = swept(&file);
    for (numbers, before) in HOLDERS {
        let location = u64::from(LINK - before);
        assert_eq!(one_step(&file, &marks, state(numbers, None)), (8, 1, location), "{numbers:?}");
        let mut early = numbers;
        early[4] = 20;
        let location = u64::from(20_u32.saturating_sub(before));
        assert_eq!(one_step(&file, &marks, state(early, None)), (8, 1, location), "{early:?}");
        early[4] = 3;
        assert_eq!(one_step(&file, &marks, state(early, None)), (8, 1, 0), "{early:?}");
        let mut late = numbers;
        late[4] = 2_147_483_711;
        assert_eq!(one_step(&file, &marks, state(late, None)), (20, 1, 0), "{late:?}");
    }
}

/// Below the top chain a next that is not 0 is 11 of its holder, in a state made up; on the claim it is 11 of the target.
#[test]
fn a_lower_next_in_a_state_made_up() {
    let file = changed(&file_h(), &[(LINK as usize, 504)]);
    let marks = swept(&file);
    let level = Some([504, 1, 5]);
    for (before, location) in [(0, 440), (1, 452), (504, 452)] {
        let numbers = [0, 550, 4, 8, LINK, 0, 3, 372, before, 0, 0, 0];
        assert_eq!(one_step(&file, &marks, state(numbers, level)), (11, 1, location), "{before}");
        let early = [0, 550, 4, 8, 16, 0, 3, 372, before, 0, 0, 0];
        let location = if before == 0 { 0 } else { 8 };
        assert_eq!(one_step(&file, &marks, state(early, level)), (11, 1, location), "{before}");
    }
}

/// The CDR, the VXR of an entry, the swept offset and the first unclaimed record in states made up.
#[test]
fn other_locations_in_states_made_up() {
    let file = file_h();
    let mut marks = swept(&file);
    let step =
        |file: &[u8], marks: &[u8], numbers: Numbers| one_step(file, marks, state(numbers, None));
    let start = [0, 550, 2, 0, 0, 0, 0, 0, 0, 0, 0, 0];
    assert_eq!(step(&changed(&file, &[(16, 504)]), &marks, start), (8, 1, 8));
    assert_eq!(step(&changed(&file, &[(16, 0)]), &marks, start), (8, 1, 8));
    let entry = |vxr: u32, floor: u32| [0, 550, 5, 8, 0, 0, 3, 372, vxr, 0, floor, 0];
    assert_eq!(step(&file, &marks, entry(504, 1)), (12, 1, 504));
    assert_eq!(step(&file, &marks, entry(0, 3)), (12, 1, 0), "First is the CDR's version");
    assert_eq!(step(&changed(&file, &[(372, 100)]), &marks, entry(504, 0)), (10, 1, 536));
    for at in [9, 373, 543, 549, 550, 551, 2_147_483_647] {
        let sweep = [0, 550, 1, 0, at, 0, 0, 0, 0, 0, 0, 0];
        assert_eq!(step(&file, &marks, sweep), (7, 1, u64::from(at)));
    }
    let unused = [0, 550, 8, 0, 356, 0, 0, 0, 0, 0, 0, 0];
    for (at, next) in [(312, 312), (372, 372), (504, 504), (536, 536)] {
        assert_eq!(step(&file, &marks, unused), (13, 1, next));
        marks[at] = 2;
    }
    assert_eq!(step(&file, &marks, unused), (0, 1, 0));
    assert_eq!(step(&file, &marks, start), (9, 1, 8));
    assert_eq!(step(&changed(&file, &[(536, 15)]), &marks, unused), (20, 1, 0));
}

/// A location is given with the refusing step and after it; before it, with 21, and with a grant of nothing, there is none.
#[test]
fn locations_come_with_the_refusal() {
    let file = changed(&file_h(), &[(388, 3)]);
    let mut compared = Compared::default();
    let mut pair = Pair::fresh(&[0; 550]);
    for _ in 0..11 {
        assert_eq!(pair.grant(&file, 1, &mut compared), Ok((-1, 1, 0)));
        assert_eq!(pair.grant(&file, 0, &mut compared), Ok((-1, 0, 0)));
        assert_eq!(pair.grant(&file[1..], 1, &mut compared), Ok((21, 0, 0)));
    }
    assert_eq!(pair.grant(&file, 9, &mut compared), Ok((12, 1, 504)));
    for (lent, steps) in [(&file[..], 0), (&file[..], 9), (&file[1..], 9), (&[][..], 0)] {
        assert_eq!(pair.grant(lent, steps, &mut compared), Ok((12, 0, 504)));
    }
}
