//! Single steps whose numbers turn on the order in which a step looks at things (docs/STATE.md): each with the answer and
//! the state that are due, from the proved checker and from the second one.

use tlepozaluh_host::bindings::{self, State, STATE_LENGTH};
use tlepozaluh_host::build::in_order;
use tlepozaluh_host::build::model::{Attribute, Entry, File, Index, IndexEntry, Lower};
use tlepozaluh_host::build::model::{Values, Variable};
use tlepozaluh_host::build::records::put;
use tlepozaluh_host::pair::{Compared, Pair};
use tlepozaluh_host::second::check::{self, Check};
use tlepozaluh_host::second::rules::body;
use tlepozaluh_host::second::tables::{data_type, encoding, DataType};

const OFFSET: u32 = 2_147_483_647;
const COUNT: u32 = 2_147_483_648;

fn base() -> File {
    File::base(encoding(6).expect("encoding 6"))
}

fn of_type(number: i64) -> DataType {
    data_type(number).expect("data type")
}

/// Values from a record number on.
fn values(first: i64, count: u64) -> Values {
    Values { first, records: (1..=count).map(|value| vec![value]).collect() }
}

/// A file of one zVariable of 2-byte numbers with this index, VDR at 372 and VXR at 504.
fn file_of(max_rec: i64, index: Index) -> Vec<u8> {
    let plain = Variable::plain(of_type(2), Vec::new());
    let mut file = base();
    file.z_variables.push(Variable { max_rec, chain: vec![index], ..plain });
    in_order(&file)
}

/// File H (docs/RULES.md, 18.4): VDR at 372, VXR at 504, VVR at 536, length 550.
fn file_h() -> Vec<u8> {
    file_of(2, Index::of(vec![values(0, 3)]))
}

/// A VXR at 504 whose entry 0..5 names a lower one at 536, with 0..1 at 580 and 4..4 at 592; MaxRec 4, length 602. The
/// entry's First, Last and Offset stand at 524, 528 and 532, the lower next at 544, the lower Firsts at 556, Lasts at 564
/// and Offsets at 572.
fn file_of_two_levels() -> Vec<u8> {
    let index = Index::of(vec![values(0, 2), values(4, 1)]);
    let lower = IndexEntry::Lower(Lower { first: 0, last: 5, index });
    file_of(4, Index { entries: vec![lower], spare: 0 })
}

/// One ADR at 372 with the g/rEntries 0 at 488 and 3 at 537; an unused record of zeros at 586, length 662.
fn file_of_entries() -> Vec<u8> {
    let entry = |number: i64| Entry { number, data_type: of_type(1), elements: vec![7] };
    let gr_entries = vec![entry(0), entry(3)];
    let mut file = base();
    let name = b"attribute".to_vec();
    file.attributes.push(Attribute { name, scope: 1, gr_entries, z_entries: Vec::new() });
    file.unlisted_unused = vec![76];
    in_order(&file)
}

/// The marks of a file after the sweep.
fn swept(file: &[u8]) -> Vec<u8> {
    let mut marks = vec![0; file.len()];
    let mut check = Check::fresh();
    while check.state()[2] != 2 {
        assert_eq!(check.step(file, &mut marks), -1);
    }
    marks
}

fn changed(file: &[u8], fields: &[(usize, i64)]) -> Vec<u8> {
    let mut changed = file.to_vec();
    fields.iter().for_each(|(at, value)| put(&mut changed, *at, *value));
    changed
}

/// The first twelve numbers of a state.
type Numbers = [u32; 12];

/// A level: record, next, last.
type Level = [u32; 3];

/// The state of these numbers and these levels, the nearest first.
fn state(numbers: Numbers, levels: &[Level]) -> State {
    let mut state = [0; STATE_LENGTH];
    let all = numbers.iter().chain(levels.iter().flatten());
    state.iter_mut().zip(all).for_each(|(slot, number)| *slot = *number);
    state
}

/// One step, from a state without levels, that refuses with this number.
fn refuses(file: &[u8], marks: &[u8], numbers: Numbers, number: i32) {
    refuses_from(file, marks, state(numbers, &[]), number);
}

/// One step that refuses with this number: the state is finished with it and with the location that is given, and no mark
/// changes. tests/locations.rs has the locations.
fn refuses_from(file: &[u8], marks: &[u8], state: State, number: i32) {
    let mut pair = Pair::new(&state, marks);
    let second = Check::load(state).step(file, &mut marks.to_vec());
    assert_eq!(second, number, "the second one, from {state:?}");
    let granted = pair.grant(file, 1, &mut Compared::default());
    let (answer, steps, location) = granted.unwrap_or_else(|wrong| panic!("{wrong}"));
    assert_eq!((answer, steps), (number, 1), "from {state:?}");
    let mut finished = [0; STATE_LENGTH];
    (finished[0], finished[33]) = (number as u32 + 1, location as u32);
    assert_eq!((pair.state(), pair.marks()), (finished.as_slice(), marks));
}

/// One step between states without levels.
fn goes_on(file: &[u8], marks: &[u8], from: Numbers, next: Numbers, claimed: Option<usize>) {
    goes_from(file, marks, state(from, &[]), state(next, &[]), claimed);
}

/// One step that goes on to a state, and claims the record at an offset if there is one.
fn goes_from(file: &[u8], marks: &[u8], state: State, next: State, claimed: Option<usize>) {
    let mut after = marks.to_vec();
    claimed.into_iter().for_each(|at| after[at] = 2);
    let mut pair = Pair::new(&state, marks);
    let second = Check::load(state).step(file, &mut marks.to_vec());
    assert_eq!(second, -1, "the second one, from {state:?}");
    assert_eq!(pair.grant(file, 1, &mut Compared::default()), Ok((-1, 1, 0)));
    assert_eq!((pair.state(), pair.marks()), (next.as_slice(), after.as_slice()));
}

/// A VDR that its own size cuts short is 10 at an index entry too.
#[test]
fn a_vdr_made_shorter_before_an_index_entry() {
    let file = file_h();
    let mut pair = Pair::fresh(&[0; 550]);
    let mut compared = Compared::default();
    assert_eq!(pair.grant(&file, 10, &mut compared), Ok((-1, 10, 0)));
    let shorter = changed(&file, &[(372, 100)]);
    assert_eq!(pair.grant(&shorter, 1, &mut compared), Ok((10, 1, 536)));
}

/// Flags bit 2 is looked at where the VDR is claimed, and no more at its index entries.
#[test]
fn a_vdr_made_compressed_before_an_index_entry() {
    let file = changed(&file_h(), &[(400, 5)]);
    let marks = swept(&file);
    refuses(&file, &marks, [0, 550, 3, 8, 324, 0, 0, 0, 0, 0, 0, 0], 14);
    let state = [0, 550, 5, 8, 0, 0, 3, 372, 504, 0, 0, 0];
    goes_on(&file, &marks, state, [0, 550, 4, 8, 512, 0, 3, 372, 504, 0, 3, 1], Some(536));
}

/// A VDR of 100 bytes of which the file has 20: its own size comes before the file's end, and Flags are not looked for.
#[test]
fn a_short_vdr_at_the_end() {
    let mut file = in_order(&base());
    file.resize(420, 0);
    let file = changed(&file, &[(332, 420), (324, 400), (400, 100), (404, 8)]);
    let mut marks = vec![0; 420];
    marks[400] = 1;
    refuses(&file, &marks, [0, 420, 3, 8, 324, 0, 0, 0, 0, 0, 0, 0], 10);
    for size in [32, 131] {
        let file = changed(&file, &[(400, size)]);
        refuses(&file, &marks, [0, 420, 3, 8, 324, 0, 0, 0, 0, 0, 0, 0], 10);
    }
    let file = changed(&file, &[(400, 132)]);
    refuses(&file, &marks, [0, 420, 3, 8, 324, 0, 0, 0, 0, 0, 0, 0], 20);
}

/// Entries are counted to 2,147,483,648, which stands for all above; a state with more is out of range.
#[test]
fn the_count_of_entries() {
    let file = file_of_entries();
    let marks = swept(&file);
    for entries in [OFFSET, COUNT] {
        let state = [0, 662, 7, 5, 384, 0, 0, 372, 0, entries, 0, 0];
        let next = [0, 662, 7, 5, 496, 0, 0, 372, 0, COUNT, 1, 0];
        goes_on(&file, &marks, state, next, Some(488));
        refuses(&file, &marks, [0, 662, 7, 5, 545, 0, 0, 372, 0, entries, 4, 0], 11);
    }
    for link in [384, 545] {
        refuses(&file, &marks, [0, 662, 7, 5, link, 0, 0, 372, 0, COUNT + 1, 0, 0], 20);
    }
}

/// An ADR at the file's end: a step looks at its fields one by one, and only where it needs them.
#[test]
fn an_adr_at_the_end() {
    let file = file_of_entries();
    let marks = swept(&file);
    let from = |link: u32, before_end: u32, entries: u32, floor: u32| -> Numbers {
        [0, 662, 7, 5, link, 0, 0, 662 - before_end, 0, entries, floor, 0]
    };
    let no_start = changed(&file, &[(384, 489)]);
    for before_end in [1, 10, 23, 24, 47] {
        refuses(&no_start, &marks, from(384, before_end, 0, 0), 8);
    }
    refuses(&file, &marks, from(384, 23, 0, 0), 20);
    goes_on(
        &file,
        &marks,
        from(384, 24, 0, 0),
        [0, 662, 7, 5, 496, 0, 0, 638, 0, 1, 1, 0],
        Some(488),
    );
    refuses(&file, &marks, from(545, 27, 0, 0), 20);
    refuses(&file, &marks, from(545, 28, 1, 0), 11);
    refuses(&file, &marks, from(545, 28, 0, 0), 20);
    refuses(&file, &marks, from(545, 32, 0, 0), 11);
    goes_on(&file, &marks, from(545, 32, 0, 1), [0, 662, 7, 9, 666, 0, 0, 630, 0, 0, 0, 0], None);
}

/// The CDR's link changed so that the GDR's count lies in the file and not all of its 60 bytes do.
#[test]
fn a_gdr_at_the_end() {
    let file = file_of_entries();
    let marks = swept(&file);
    let at_the_end = |bytes: i64| changed(&file, &[(16, 662 - bytes)]);
    let head = |kind: u32, count: u32, greatest: u32| -> Numbers {
        [0, 662, 3, kind, 320, count, greatest, 0, 0, 0, 0, 0]
    };
    refuses(&at_the_end(27), &marks, head(3, 0, 0), 20);
    refuses(&at_the_end(28), &marks, head(3, 1, 0), 11);
    refuses(&at_the_end(28), &marks, head(3, 0, 0), 20);
    refuses(&at_the_end(36), &marks, head(3, 0, 0), 11);
    goes_on(&at_the_end(36), &marks, head(3, 0, 1), [0, 662, 3, 8, 638, 0, 0, 0, 0, 0, 0, 0], None);
    refuses(&at_the_end(43), &marks, head(8, 0, 0), 20);
    refuses(&at_the_end(44), &marks, head(8, 1, 0), 11);
    goes_on(&at_the_end(44), &marks, head(8, 0, 0), [0, 662, 6, 0, 634, 0, 0, 0, 0, 0, 0, 0], None);
    let attributes = |count: u32| -> Numbers { [0, 662, 6, 0, 320, count, 0, 0, 0, 0, 0, 0] };
    refuses(&at_the_end(31), &marks, attributes(0), 20);
    refuses(&at_the_end(32), &marks, attributes(1), 11);
    goes_on(&at_the_end(32), &marks, attributes(0), [0, 662, 8, 0, 674, 0, 0, 0, 0, 0, 0, 0], None);
}

/// An rVariable without dimensions needs no more of the GDR than their count.
#[test]
fn the_dimension_count_at_the_end() {
    let mut file = base();
    file.r_variables.push(Variable::plain(of_type(1), Vec::new()));
    file.unlisted_unused = vec![60];
    let file = in_order(&file);
    let marks = swept(&file);
    let at_the_end = |bytes: i64| changed(&file, &[(16, 560 - bytes)]);
    let state = [0, 560, 3, 3, 320, 0, 0, 0, 0, 0, 0, 0];
    refuses(&at_the_end(39), &marks, state, 20);
    goes_on(&at_the_end(40), &marks, state, [0, 560, 4, 3, 392, 0, 0, 372, 0, 0, 0, 0], Some(372));
}

/// A VXR of one used entry whose First, Last or Offset is past the end: First is judged before Last is looked for, Last
/// before the offset.
#[test]
fn an_index_entry_at_the_end() {
    let file = file_h();
    let marks = swept(&file);
    let vxr_at_the_end = |bytes: usize, first: i64, last: i64| -> (Vec<u8>, Numbers) {
        let vxr = 550 - bytes;
        let fields = [(vxr + 12, 1), (vxr + 16, 1), (vxr + 20, first), (vxr + 24, last)];
        (changed(&file, &fields), [0, 550, 5, 8, 0, 0, 3, 372, vxr as u32, 0, 1, 0])
    };
    let cases = [
        (20, 1, 1, 20),
        (23, 1, 1, 20),
        (24, -1, 1, 12),
        (24, 0, 1, 12),
        (24, 1, 1, 20),
        (27, -1, 1, 12),
        (27, 1, 1, 20),
        (28, -1, 1, 12),
        (28, 1, 0, 12),
        (28, 1, 1, 20),
        (31, 1, 0, 12),
        (31, 1, 1, 20),
        (32, 1, 1, 8),
    ];
    for (bytes, first, last, number) in cases {
        let (file, state) = vxr_at_the_end(bytes, first, last);
        refuses(&file, &marks, state, number);
    }
}

/// A value record of fewer than 8 bytes is 10, also where the VDR lies past the end.
#[test]
fn a_value_record_too_short() {
    let file = file_h();
    let marks = swept(&file);
    let state = |vdr: u32| -> Numbers { [0, 550, 5, 8, 0, 0, 3, vdr, 504, 0, 0, 0] };
    refuses(&file, &marks, state(549), 20);
    let short = changed(&file, &[(536, 7)]);
    refuses(&short, &marks, state(549), 10);
    refuses(&short, &marks, state(372), 10);
}

/// The last step looks at a record's type and mark before it needs its size.
#[test]
fn an_unclaimed_record_that_leaves_the_file() {
    let mut file = in_order(&base());
    file.resize(380, 0);
    let file = changed(&file, &[(332, 380), (372, 8), (376, 7)]);
    let state = [0, 380, 8, 0, 356, 0, 0, 0, 0, 0, 0, 0];
    let mut marks = vec![0; 380];
    marks[8] = 1;
    marks[312] = 2;
    marks[372] = 1;
    for size in [8, 7, 0, 9, 1000, -1] {
        refuses(&changed(&file, &[(372, size)]), &marks, state, 13);
    }
    marks[372] = 2;
    for size in [7, 0, 9, 1000, -1] {
        refuses(&changed(&file, &[(372, size)]), &marks, state, 20);
    }
}

/// The level that the first entry of the file of two levels leads down from.
const ABOVE: Level = [504, 1, 5];

/// The point before an entry of the lower VXR of the file of two levels.
fn at_lower(entry: u32, floor: u32) -> State {
    state([0, 602, 5, 8, 0, 0, 5, 372, 536, entry, floor, 0], &[ABOVE])
}

/// H with n levels of one entry each takes three steps more a level: a record, an entry and a next.
#[test]
fn steps_of_levels() {
    for levels in 1..=8 {
        let file = file_of(2, Index::of_levels(vec![values(0, 3)], levels));
        let mut pair = Pair::fresh(&vec![0; file.len()]);
        let answer = pair.grant(&file, u64::MAX, &mut Compared::default());
        assert_eq!(answer, Ok((0, 15 + 3 * (levels as u64 - 1), 0)), "{levels} levels");
    }
}

/// The eighth level's entry that names an index record is 23: the ninth is neither claimed nor judged.
#[test]
fn nine_levels() {
    let file = file_of(2, Index::of_levels(vec![values(0, 3)], 9));
    let ninth = 504 + 8 * 32;
    for file in [file.clone(), changed(&file, &[(ninth + 8, 1), (ninth + 12, 7)])] {
        let mut pair = Pair::fresh(&vec![0; file.len()]);
        let granted = pair.grant(&file, u64::MAX, &mut Compared::default());
        assert_eq!(granted, Ok((23, 26, ninth as u64)));
        assert_eq!((pair.state()[0], pair.marks()[ninth]), (24, 1));
    }
}

/// 23 comes right after the type, before 9, 10 and 11; one level higher the same record is claimed twice.
#[test]
fn too_deep_before_claimed_twice() {
    let file = changed(&file_of_two_levels(), &[(572, 504)]);
    let mut marks = swept(&file);
    let from =
        |levels: usize| state([0, 602, 5, 8, 0, 0, 5, 372, 536, 0, 0, 0], &vec![ABOVE; levels]);
    for mark in [1, 2] {
        marks[504] = mark;
        refuses_from(&file, &marks, from(7), 23);
        refuses_from(&changed(&file, &[(512, 1), (516, 5)]), &marks, from(7), 23);
        refuses_from(&changed(&file, &[(508, 5)]), &marks, from(7), 8);
    }
    refuses_from(&file, &marks, from(6), 9);
    marks[504] = 0;
    refuses_from(&file, &marks, from(7), 8);
}

/// Values may be named at the eighth level.
#[test]
fn values_of_the_eighth_level() {
    let file = file_of_two_levels();
    let marks = swept(&file);
    let next = |levels: &[Level]| state([0, 602, 5, 8, 0, 0, 5, 372, 536, 1, 2, 0], levels);
    for levels in [vec![ABOVE], vec![ABOVE; 7]] {
        let from = state([0, 602, 5, 8, 0, 0, 5, 372, 536, 0, 0, 0], &levels);
        goes_from(&file, &marks, from, next(&levels), Some(580));
    }
}

/// A range below that leaves the one above is 12, before its link is looked at.
#[test]
fn a_lower_range_before_its_link() {
    let file = changed(&file_of_two_levels(), &[(572, 581), (576, 0)]);
    let marks = swept(&file);
    refuses_from(&file, &marks, at_lower(0, 0), 8);
    refuses_from(&file, &marks, at_lower(1, 2), 8);
    refuses_from(&file, &marks, at_lower(0, 1), 12);
    refuses_from(&changed(&file, &[(556, -1)]), &marks, at_lower(0, 0), 12);
    refuses_from(&changed(&file, &[(564, -1)]), &marks, at_lower(0, 0), 12);
    refuses_from(&changed(&file, &[(564, 5)]), &marks, at_lower(0, 0), 8);
    refuses_from(&changed(&file, &[(564, 6)]), &marks, at_lower(0, 0), 12);
    refuses_from(&changed(&file, &[(568, 6)]), &marks, at_lower(1, 2), 12);
}

/// A Last above that of the nearest level is 12 though the Offset passes the end; only the nearest level counts.
#[test]
fn a_lower_range_before_the_end() {
    let file = file_h();
    let marks = swept(&file);
    let vxr = 550 - 28;
    let fields = [(vxr + 12, 1), (vxr + 16, 1), (vxr + 20, 1), (vxr + 24, 4)];
    let file = changed(&file, &fields);
    let numbers = [0, 550, 5, 8, 0, 0, 3, 372, vxr as u32, 0, 1, 0];
    refuses(&file, &marks, numbers, 20);
    for (last, number) in [(0, 12), (3, 12), (4, 20), (5, 20), (OFFSET, 20)] {
        refuses_from(&file, &marks, state(numbers, &[[504, 1, last], [504, 1, 0]]), number);
    }
}

/// A lower record's rule comes before its next, and both before its claim: no mark changes.
#[test]
fn a_lower_record_before_its_next() {
    let file = file_of_two_levels();
    let marks = swept(&file);
    let numbers = [0, 602, 5, 8, 0, 0, 5, 372, 504, 0, 0, 0];
    for next in [1, -1, 504, 536] {
        refuses(&changed(&file, &[(544, next)]), &marks, numbers, 11);
        refuses(&changed(&file, &[(544, next), (548, 3)]), &marks, numbers, 10);
        refuses(&changed(&file, &[(544, next), (552, 3)]), &marks, numbers, 10);
        refuses(&changed(&file, &[(544, next), (552, -1)]), &marks, numbers, 10);
    }
    let next = state([0, 602, 5, 8, 0, 0, 5, 372, 536, 0, 0, 0], &[ABOVE]);
    goes_from(&file, &marks, state(numbers, &[]), next, Some(536));
}

/// A check from fresh meets a lower next on the claim.
#[test]
fn a_lower_next_on_the_claim() {
    let file = changed(&file_of_two_levels(), &[(544, 504)]);
    let mut pair = Pair::fresh(&vec![0; file.len()]);
    assert_eq!(pair.grant(&file, u64::MAX, &mut Compared::default()), Ok((11, 13, 536)));
    assert_eq!((pair.marks()[504], pair.marks()[536]), (2, 1));
}

/// A lower record that ends before its fields is 10, one that the file ends before is 20.
#[test]
fn a_lower_record_at_the_end() {
    let file = file_of_two_levels();
    let mut marks = swept(&file);
    let numbers = [0, 602, 5, 8, 0, 0, 5, 372, 504, 0, 0, 0];
    for (bytes, size, number) in [(7, 32, 20), (8, 19, 10), (8, 20, 20), (19, 20, 20), (20, 20, 10)]
    {
        let at = 602 - bytes;
        marks[at] = 1;
        let fields = [(532, at as i64), (at, size), (at + 4, 6), (at + 8, 0), (at + 12, 1)];
        refuses(&changed(&file, &fields), &marks, numbers, number);
        marks[at] = 0;
    }
}

/// The number of an entry that led down goes up to 2,147,483,648, and there is no entry behind that.
#[test]
fn the_greatest_numbers_of_a_level() {
    let file = file_of_two_levels();
    let marks = swept(&file);
    let numbers = [0, 602, 4, 8, 544, 0, 5, 372, 536, 0, 5, 1];
    let from = |level: Level| state(numbers, &[level]);
    let top = |floor: u32| state([0, 602, 4, 8, 512, 0, 5, 372, 504, 0, floor, 1], &[]);
    goes_from(&file, &marks, from([504, COUNT, 5]), top(6), None);
    goes_from(&file, &marks, from([504, 1, OFFSET]), top(COUNT), None);
    refuses_from(&file, &marks, from([OFFSET, COUNT, OFFSET]), 20);
    for level in [[504, COUNT + 1, 5], [504, 1, OFFSET + 1], [OFFSET + 1, 1, 5], [504, 0, 5]] {
        refuses_from(&file, &marks, from(level), 20);
    }
}

/// A level below one that is not there, part of a level, and levels in a phase without any are 20 in one step.
#[test]
fn holes_among_levels() {
    let file = file_of_two_levels();
    let marks = swept(&file);
    let none = [0; 3];
    for numbers in
        [[0, 602, 4, 8, 544, 0, 5, 372, 536, 0, 5, 1], [0, 602, 5, 8, 0, 0, 5, 372, 536, 0, 0, 0]]
    {
        for levels in [
            vec![none, ABOVE],
            vec![ABOVE, none, ABOVE],
            vec![ABOVE, ABOVE, ABOVE, ABOVE, ABOVE, none, ABOVE],
            vec![[504, 0, 0]],
            vec![[0, 0, 5]],
            vec![ABOVE, [504, 0, 0]],
            vec![ABOVE, [0, 0, 1]],
        ] {
            refuses_from(&file, &marks, state(numbers, &levels), 20);
        }
    }
    for numbers in [
        [0; 12],
        [0, 602, 1, 0, 8, 0, 0, 0, 0, 0, 0, 0],
        [0, 602, 2, 0, 0, 0, 0, 0, 0, 0, 0, 0],
        [0, 602, 3, 8, 324, 0, 0, 0, 0, 0, 0, 0],
        [0, 602, 6, 0, 328, 0, 0, 0, 0, 0, 0, 0],
        [0, 602, 7, 5, 384, 0, 0, 372, 0, 0, 0, 0],
        [0, 602, 8, 0, 356, 0, 0, 0, 0, 0, 0, 0],
    ] {
        refuses_from(&file, &marks, state(numbers, &[ABOVE]), 20);
    }
}

/// States of twelve and of 33 numbers, fresh, under way or finished, are 20 in 0 steps and without a location, and neither
/// they nor the marks change.
#[test]
fn older_states() {
    let mut states = vec![[0; 12], [0, 550, 5, 8, 0, 0, 3, 372, 504, 0, 0, 0]];
    states.extend((1..=24).map(|verdict| [verdict, 0, 0, 0, 0, 0, 0, 0, 0, 0, 0, 0]));
    for numbers in states {
        for length in [12, 33] {
            is_too_old(state(numbers, &[])[..length].to_vec());
        }
    }
}

/// A state is 20 in 0 steps, by both, and cannot be begun.
fn is_too_old(old: Vec<u32>) {
    let file = file_h();
    let marks = swept(&file);
    for steps in [0, 1, u64::MAX] {
        let mut pair = Pair::new(&old, &marks);
        assert_eq!(pair.grant(&file, steps, &mut Compared::default()), Ok((20, 0, 0)));
        assert_eq!((pair.state(), pair.marks()), (old.as_slice(), marks.as_slice()));
        let (mut lent, mut second) = (marks.clone(), old.clone());
        let granted = check::grant(&file, &mut lent, &mut second, steps);
        assert_eq!((granted.verdict, granted.steps, granted.location), (20, 0, 0));
        assert_eq!((&second, &lent), (&old, &marks));
    }
    let mut begun = old.clone();
    assert_eq!((bindings::check_begin(&mut begun), begun), (20, old));
}

/// Below the top chain a next that is not zero is 11 at once, also if it leads to an index record.
#[test]
fn a_lower_next_that_is_not_zero() {
    let file = file_of_two_levels();
    let mut marks = swept(&file);
    let numbers = [0, 602, 4, 8, 544, 0, 5, 372, 536, 0, 5, 1];
    for next in [1, -1, 504, 580, 602, 1000] {
        let file = changed(&file, &[(544, next)]);
        refuses_from(&file, &marks, state(numbers, &[ABOVE]), 11);
        refuses_from(&file, &marks, state(numbers, &[[OFFSET, 1, 5]]), 11);
    }
    let file = changed(&file, &[(544, 504)]);
    marks[504] = 1;
    let next = state([0, 602, 5, 8, 0, 0, 5, 372, 504, 0, 5, 1], &[]);
    goes_from(&file, &marks, state(numbers, &[]), next, Some(504));
}

/// Behind a lower record the one above is gone on with, at the entry that the level names or at its own next.
#[test]
fn up_from_a_lower_record() {
    let file = file_of_two_levels();
    let marks = swept(&file);
    let from = |levels: &[Level]| state([0, 602, 4, 8, 544, 0, 5, 372, 536, 0, 5, 1], levels);
    let next = state([0, 602, 4, 8, 512, 0, 5, 372, 504, 0, 6, 1], &[]);
    goes_from(&file, &marks, from(&[ABOVE]), next, None);
    let next = state([0, 602, 5, 8, 0, 0, 5, 372, 536, 1, 10, 1], &[[504, 1, 9]]);
    goes_from(&file, &marks, from(&[[536, 1, 9], [504, 1, 9]]), next, None);
    let next = state([0, 602, 4, 8, 544, 0, 5, 372, 536, 0, 10, 1], &[[504, 1, 9]]);
    goes_from(&file, &marks, from(&[[536, 2, 9], [504, 1, 9]]), next, None);
    let all: Vec<Level> = (0..7).map(|number| [504, 1, number]).collect();
    let next = state([0, 602, 4, 8, 512, 0, 5, 372, 504, 0, 1, 1], &all[1..]);
    goes_from(&file, &marks, from(&all), next, None);
}

/// The record above is looked at after the link: what passes the end is 20, a link that is not zero 11 before that.
#[test]
fn a_record_above_at_the_end() {
    let file = file_of_two_levels();
    let marks = swept(&file);
    let from = |link: u32, record: u32| {
        state([0, 602, 4, 8, link, 0, 5, 372, 536, 0, 5, 1], &[[record, 1, 5]])
    };
    for record in [602 - 19, 602 - 16, 602, 603, OFFSET] {
        refuses_from(&file, &marks, from(544, record), 20);
        refuses_from(&file, &marks, from(504, record), 11);
    }
    for link in [599, 602, OFFSET] {
        refuses_from(&file, &marks, from(link, 504), 20);
    }
    let record = 602 - 20;
    let next = state([0, 602, 4, 8, record + 8, 0, 5, 372, record, 0, 6, 1], &[]);
    let file = changed(&file, &[(598, 1)]);
    goes_from(&file, &marks, from(544, record), next, None);
}

/// An empty lower record: its next is taken with the First of the entry that names it.
#[test]
fn an_empty_lower_record() {
    let file = changed(&file_of_two_levels(), &[(552, 0), (524, 3)]);
    let marks = swept(&file);
    let from = state([0, 602, 5, 8, 0, 0, 5, 372, 504, 0, 0, 0], &[]);
    let next = state([0, 602, 4, 8, 544, 0, 5, 372, 536, 0, 3, 0], &[ABOVE]);
    goes_from(&file, &marks, from, next, Some(536));
}

/// MaxRec in the range of an entry that names an index record is not covered by it.
#[test]
fn max_rec_in_a_gap_below() {
    let accepted = (0, 20, 0);
    let refused = (12, 17, 504);
    for (max_rec, answer) in [(-1, accepted), (1, accepted), (2, refused), (5, refused)] {
        let file = changed(&file_of_two_levels(), &[(388, max_rec)]);
        let mut pair = Pair::fresh(&vec![0; file.len()]);
        let whole = pair.grant(&file, u64::MAX, &mut Compared::default());
        assert_eq!(whole, Ok(answer), "MaxRec {max_rec}");
    }
}

/// File H with so many bytes behind eof, which would be one unused record before it.
fn padded_h(padding: usize) -> Vec<u8> {
    let mut file = file_h();
    file.resize(550 + padding, 0);
    changed(&file, &[(550, padding as i64), (554, -1)])
}

/// The marks of file H after the sweep, and of 140 bytes behind it as if they were swept too.
fn padded_marks() -> Vec<u8> {
    let mut marks = swept(&padded_h(140));
    marks[550] = 1;
    marks
}

/// The sweep of a file of 690 bytes, at an offset.
fn sweep_at(offset: u32) -> Numbers {
    [0, 690, 1, 0, offset, 0, 0, 0, 0, 0, 0, 0]
}

/// The walk of a file of 690 bytes at its first link.
const START: Numbers = [0, 690, 2, 0, 0, 0, 0, 0, 0, 0, 0, 0];

/// The sweep ends at eof, and a record that passes eof is 7, also one that ends at the length.
#[test]
fn the_sweep_of_a_padded_file() {
    let (file, marks) = (padded_h(140), padded_marks());
    goes_on(&file, &marks, sweep_at(504), sweep_at(536), None);
    goes_on(&file, &marks, sweep_at(536), START, None);
    for offset in [543, 549, 550, 551, 682, 690] {
        refuses(&file, &marks, sweep_at(offset), 7);
    }
    for size in [15, 22, 154, 155] {
        refuses(&changed(&file, &[(536, size)]), &marks, sweep_at(536), 7);
    }
}

/// Where eof is out of the window, or below the GDR's first 60 bytes, the end is the length; else it is eof, also if it is
/// not the one that the sweep has found.
#[test]
fn an_eof_changed_between_grants() {
    let (file, marks) = (padded_h(140), padded_marks());
    for eof in [i64::from(i32::MIN), -1, 0, 178, 179, 371, 690, 691, i64::from(i32::MAX)] {
        let other = changed(&file, &[(332, eof)]);
        goes_on(&other, &marks, sweep_at(536), sweep_at(550), None);
        goes_on(&other, &marks, sweep_at(550), START, None);
        refuses(&other, &marks, sweep_at(690), 7);
    }
    for (eof, first, last) in [(372, 372, 504), (504, 504, 536), (549, 536, 536)] {
        let other = changed(&file, &[(332, eof)]);
        refuses(&other, &marks, sweep_at(first), 7);
        refuses(&other, &marks, sweep_at(last), 7);
    }
    let longer = changed(&file, &[(332, 689)]);
    goes_on(&longer, &marks, sweep_at(536), sweep_at(550), None);
    refuses(&longer, &marks, sweep_at(550), 7);
}

/// The window has 512 offsets: an eof of length - 511 is the end, one of length - 512 is not.
#[test]
fn the_edge_of_the_window() {
    let state = |length: u32| [0, length, 1, 0, 550, 0, 0, 0, 0, 0, 0, 0];
    refuses(&padded_h(511), &[0; 1061], state(1061), 7);
    let mut marks = vec![0; 1062];
    marks[550] = 1;
    let start = [0, 1062, 2, 0, 0, 0, 0, 0, 0, 0, 0, 0];
    goes_on(&padded_h(512), &marks, state(1062), start, None);
}

/// A link from eof on is 8 whatever its mark is; one before it, to a size and type that pass eof, is 20.
#[test]
fn a_link_into_the_padding() {
    let mut marks = vec![1; 690];
    let unused = [0, 690, 8, 0, 356, 0, 0, 0, 0, 0, 0, 0];
    let to = |link: i64, eof: i64| changed(&padded_h(140), &[(356, link), (332, eof)]);
    for mark in [0, 1, 2, 0xAA] {
        marks[550..].fill(mark);
        for link in [550, 551, 682, 689, 690] {
            refuses(&to(link, 550), &marks, unused, 8);
        }
    }
    for link in [543, 549] {
        refuses(&to(link, 550), &marks, unused, 20);
    }
    marks[550] = 1;
    let next = [0, 690, 8, 0, 558, 0, 0, 0, 550, 0, 0, 0];
    goes_on(&to(550, 690), &marks, unused, next, Some(550));
    goes_on(&to(550, 371), &marks, unused, next, Some(550));
    refuses(&to(550, 558), &marks, unused, 20);
    goes_on(&to(550, 566), &marks, unused, next, Some(550));
}

/// The opening asks for the GDR's whole size before eof, the end for its first 60 bytes alone.
#[test]
fn a_gdr_that_passes_eof() {
    let mut file = base();
    file.r_sizes = vec![2, 3];
    file.unlisted_unused = vec![20];
    let file = in_order(&file);
    let mut marks = vec![0; 400];
    (marks[8], marks[312], marks[380]) = (1, 2, 1);
    let unused = [0, 400, 8, 0, 356, 0, 0, 0, 0, 0, 0, 0];
    for (eof, last) in [(400, 0), (380, 0), (379, 20), (372, 20), (371, 0), (-1, 0)] {
        let other = changed(&file, &[(332, eof)]);
        refuses(&other, &marks, unused, last);
        let opened = Pair::fresh(&marks).grant(&other, 1, &mut Compared::default());
        assert_eq!(opened, Ok(if eof >= 380 { (-1, 1, 0) } else { (6, 1, 0) }), "{eof}");
    }
}

/// A negative CDR's link is read as 1 where the end is looked for: eof is then the field at 21.
#[test]
fn the_end_by_a_negative_link() {
    let (file, marks) = (padded_h(140), padded_marks());
    let release = |eof: i64| (24, (eof - 512) << 24);
    let with = |version: i64, eof: i64| changed(&file, &[(16, -1), (20, version), release(eof)]);
    goes_on(&with(2, 550), &marks, sweep_at(536), START, None);
    refuses(&with(2, 549), &marks, sweep_at(536), 7);
    refuses(&with(2, 550), &marks, sweep_at(550), 7);
    goes_on(&with(0, 550), &marks, sweep_at(536), sweep_at(550), None);
    refuses(&changed(&with(2, 550), &[(16, i64::from(i32::MIN))]), &marks, sweep_at(550), 7);
}

/// In a good CDR the field at 21 is 512, version 2 and the release's first byte: with a negative link a file of 513 to 1023
/// bytes ends there, a longer or shorter one at its length.
#[test]
fn a_negative_link_in_a_good_cdr() {
    for (length, ends_early) in [(520, true), (600, true), (1023, true), (1024, false)] {
        let mut file = base();
        file.unlisted_unused = vec![132, 8, length - 512];
        let good = in_order(&file);
        let other = changed(&good, &[(16, -1)]);
        let marks = swept(&good);
        let sweep = |at: u32| [0, length as u32, 1, 0, at, 0, 0, 0, 0, 0, 0, 0];
        let start = [0, length as u32, 2, 0, 0, 0, 0, 0, 0, 0, 0, 0];
        goes_on(&good, &marks, sweep(504), sweep(512), None);
        goes_on(&good, &marks, sweep(512), start, None);
        if ends_early {
            goes_on(&other, &marks, sweep(504), start, None);
            refuses(&other, &marks, sweep(512), 7);
        } else {
            goes_on(&other, &marks, sweep(504), sweep(512), None);
            goes_on(&other, &marks, sweep(512), start, None);
        }
        refuses(&other, &marks, start, 8);
    }
    let mut file = base();
    file.unlisted_unused = vec![139];
    let (good, sweep) = (in_order(&file), [0, 511, 1, 0, 372, 0, 0, 0, 0, 0, 0, 0]);
    let start = [0, 511, 2, 0, 0, 0, 0, 0, 0, 0, 0, 0];
    goes_on(&changed(&good, &[(16, -1)]), &swept(&good), sweep, start, None);
}

/// The window of a short file reaches below 0. An eof of 10 is no end, as the GDR is not before it: two files that differ
/// from 10 on alone, in the CDR, are refused with other numbers.
#[test]
fn an_eof_before_the_cdr() {
    let mut file = base();
    file.unlisted_unused = vec![28];
    let file = changed(&in_order(&file), &[(332, 10)]);
    let other = changed(&file, &[(20, 3)]);
    assert_eq!((file.len(), &file[..10]), (400, &other[..10]));
    for (file, number) in [(&file, 6), (&other, 5)] {
        refuses(file, &[1; 400], [0; 12], number);
        assert_eq!(body(file).len(), 400);
    }
    let state = [0, 400, 1, 0, 372, 0, 0, 0, 0, 0, 0, 0];
    let start = [0, 400, 2, 0, 0, 0, 0, 0, 0, 0, 0, 0];
    let mut marks = vec![0; 400];
    marks[372] = 1;
    goes_on(&file, &marks, state, start, None);
}

/// A record that no link claims is 13 before eof, and is not looked for from eof on.
#[test]
fn an_unclaimed_record_in_the_padding() {
    let mut file = in_order(&base());
    file.resize(380, 0);
    let file = changed(&file, &[(372, 8), (376, 7)]);
    let mut marks = vec![1; 380];
    marks[312] = 2;
    let unused = [0, 380, 8, 0, 356, 0, 0, 0, 0, 0, 0, 0];
    refuses(&file, &marks, unused, 0);
    refuses(&changed(&file, &[(332, 380)]), &marks, unused, 13);
    refuses(&changed(&file, &[(332, 376)]), &marks, unused, 20);
}

/// Marks and the noted length go by the file's length, not by its end.
#[test]
fn lengths_of_a_padded_file() {
    let file = padded_h(140);
    let (short, goes_on) = ((2, 1, 0), (-1, 1, 0));
    for (marks, answer) in [(550, short), (689, short), (690, goes_on), (700, goes_on)] {
        let granted = Pair::fresh(&vec![0; marks]).grant(&file, 1, &mut Compared::default());
        assert_eq!(granted, Ok(answer), "{marks} marks");
    }
    let other = (21, 0, 0);
    for (noted, marks, answer) in [(550, 690, other), (690, 689, other), (690, 690, goes_on)] {
        let mut numbers = sweep_at(8);
        numbers[1] = noted;
        let mut pair = Pair::new(&state(numbers, &[]), &vec![0; marks]);
        assert_eq!(pair.grant(&file, 1, &mut Compared::default()), Ok(answer), "{noted} {marks}");
    }
}
