//! The samples that are made here, of several levels and of VAX floats by the builder from the models below, and padded ones
//! from a sample: their checks, reads and dumps by both implementations.

use std::collections::BTreeMap;

use tlepozaluh_host::appendices;
use tlepozaluh_host::bindings;
use tlepozaluh_host::build::in_order;
use tlepozaluh_host::build::model::{
    Attribute, Entry, File, Index, IndexEntry, Lower, Values, Variable,
};
use tlepozaluh_host::build::records::put;
use tlepozaluh_host::dump::{self, askable};
use tlepozaluh_host::questions::{proved, second, vax_float, Given, Question};
use tlepozaluh_host::samples::{self, CheckLine};
use tlepozaluh_host::second::check::run;
use tlepozaluh_host::second::dump::dump as second_dump;
use tlepozaluh_host::second::tables::{data_type, encoding, DataType, Form, DATA_TYPES};
use tlepozaluh_host::vax::{Kind, Parts, KINDS};

fn base(of_encoding: i64) -> File {
    File::base(encoding(of_encoding).expect("encoding"))
}

fn of_type(number: i64) -> DataType {
    data_type(number).expect("data type")
}

/// Values from a record number on, each ten times its record number.
fn values(first: i64, count: i64) -> IndexEntry {
    let record = |number: i64| vec![10 * number as u64];
    IndexEntry::Values(Values { first, records: (first..first + count).map(record).collect() })
}

fn lower(first: i64, last: i64, index: Index) -> IndexEntry {
    IndexEntry::Lower(Lower { first, last, index })
}

fn index(entries: Vec<IndexEntry>, spare: i64) -> Index {
    Index { entries, spare }
}

/// A variable of 4-byte numbers without dimensions.
fn variable(name: &str, max_rec: i64, chain: Vec<Index>) -> Variable {
    let plain = Variable::plain(of_type(4), Vec::new());
    Variable { name: name.as_bytes().to_vec(), max_rec, chain, ..plain }
}

/// Two levels beside values, in both VXRs of the top chain, and an rVariable that has two levels too.
fn two_levels() -> File {
    let mut file = base(6);
    let first =
        index(vec![lower(0, 2, index(vec![values(0, 2), values(2, 1)], 0)), values(3, 3)], 1);
    let second = index(vec![lower(8, 12, index(vec![values(8, 2)], 2))], 0);
    file.z_variables.push(variable("two", 9, vec![first, second]));
    let only = index(vec![lower(0, 3, index(vec![values(0, 1), values(1, 3)], 0))], 0);
    file.r_variables.push(variable("rtwo", 3, vec![only]));
    file
}

/// The values of record n are named at level n + 1; the last level also names those of one record more.
fn of_levels(levels: i64) -> File {
    let lowest = index(vec![values(levels - 1, 1), values(levels, 1)], 0);
    let chain = (0..levels - 1).rev().fold(lowest, |below, record| {
        index(vec![values(record, 1), lower(record + 1, levels, below)], 0)
    });
    let mut file = base(1);
    file.z_variables.push(variable("deep", levels, vec![chain]));
    file
}

/// Sparse records with a pad value: a lower VXR without used entries, one that has gaps, one that is named for more than
/// it holds.
fn sparse_levels() -> File {
    let gaps = index(vec![values(5, 1), values(8, 2)], 0);
    let below = index(vec![lower(20, 29, index(vec![values(22, 2)], 1))], 0);
    let top = index(
        vec![
            lower(0, 3, index(Vec::new(), 2)),
            lower(4, 11, gaps),
            values(12, 1),
            lower(15, 30, below),
        ],
        0,
    );
    let mut file = base(6);
    let variable = variable("sparse", 23, vec![top]);
    file.z_variables.push(Variable { s_records: 1, pad: Some(vec![99]), ..variable });
    file
}

/// A small good sample without padding: GDR at 312, VDR at 372, length 550.
const H: &str = "02_h_le.cdf";

/// H with so many bytes behind it, of which none is zero.
fn padded_h(bytes: usize) -> Vec<u8> {
    let counted = (0..bytes).map(|number| (number % 255 + 1) as u8);
    sample("", H).into_iter().chain(counted).collect()
}

/// H with 140 bytes behind it that would be two good records, a zVariable's and an unused one, if eof were the length; the
/// variable of H names the first as the next one.
fn linked_h() -> Vec<u8> {
    let mut file = sample("", H);
    let mut vdr = file[372..504].to_vec();
    for (at, value) in [(8, 0), (16, -1), (20, 0), (24, 0), (52, 1)] {
        put(&mut vdr, at, value);
    }
    vdr[64] = b'p';
    put(&mut file, 312 + 40, 2);
    put(&mut file, 372 + 8, 550);
    file.extend(vdr);
    file.extend([0, 0, 0, 8, 0xFF, 0xFF, 0xFF, 0xFF]);
    file
}

/// The elements of one value or entry of any type: numbers below zero and above, letters, floats of both signs.
fn some_elements(of_encoding: i64, data_type: DataType, place: u64, count: u64) -> Vec<u64> {
    let element = |at: u64| match (Kind::of(of_encoding, data_type.number), data_type.form) {
        (Some(kind), _) => {
            let exponent = kind.offset() + 5 * place + at;
            let mantissa = kind.greatest_mantissa() / (7 + place) + at;
            kind.pattern(Parts { negative: (place + at) % 2 == 1, exponent, mantissa })
        }
        (None, Form::Signed) => (-50 * (place as i64 + 1) + at as i64) as u64,
        (None, Form::Character) => u64::from(b'A') + place + at,
        (None, _) => 200 + place + at,
    };
    (0..count).map(element).collect()
}

/// A variable of any type with three records and a pad value.
fn typed_variable(of_encoding: i64, data_type: DataType, letter: char) -> Variable {
    let count = if data_type.form == Form::Character { 3 } else { 1 };
    let value = |place| some_elements(of_encoding, data_type, place, count);
    Variable {
        name: format!("{letter}{}", data_type.number).into_bytes(),
        elements: count as i64,
        pad: Some(value(3)),
        max_rec: 2,
        chain: vec![Index::of(vec![Values { first: 0, records: (0..3).map(value).collect() }])],
        ..Variable::plain(data_type, Vec::new())
    }
}

/// An entry of any type, of three elements.
fn typed_entry(of_encoding: i64, (number, data_type): (i64, DataType)) -> Entry {
    let elements = some_elements(of_encoding, data_type, number as u64 % 5, 3);
    Entry { number, data_type, elements }
}

/// All data types: as rVariables, zVariables and entries of each kind.
fn all_types(of_encoding: i64) -> File {
    let mut file = base(of_encoding);
    let variables = |letter| DATA_TYPES.map(|of| typed_variable(of_encoding, of, letter)).to_vec();
    file.r_variables = variables('r');
    file.z_variables = variables('z');
    let entries = || (0..).zip(DATA_TYPES).map(|of| typed_entry(of_encoding, of)).collect();
    for (name, scope, z_entries) in [("of file", 1, Vec::new()), ("of variables", 2, entries())] {
        let name = name.as_bytes().to_vec();
        file.attributes.push(Attribute { name, scope, gr_entries: entries(), z_entries });
    }
    file
}

/// Mantissas of every sort: the least and the greatest, around the middle, one bit, every other bit.
fn mantissas(kind: Kind) -> Vec<u64> {
    let greatest = kind.greatest_mantissa();
    let middle = greatest / 2;
    let ends = (0..16).flat_map(|low| [low, greatest - low]);
    let single = (4..kind.width()).map(|bit| 1 << bit);
    ends.chain([middle - 1, middle, middle + 2, greatest / 3]).chain(single).collect()
}

/// The special patterns of a kind: zeros and reserved operands of every mantissa; then for the exponents at both ends and
/// about 1.0 the mantissas at both ends, which with D_FLOAT, and with G_FLOAT's exponents 1 and 2, are rounded in every way.
fn patterns(kind: Kind) -> Vec<u64> {
    let greatest = kind.greatest_exponent();
    let exponents = [1, 2, 3, kind.offset(), kind.offset() + 1, greatest - 1, greatest];
    let ends = (0..16).flat_map(|low| [low, kind.greatest_mantissa() - low]);
    let ends: Vec<u64> = ends.chain([kind.greatest_mantissa() / 3]).collect();
    let zeros = mantissas(kind).into_iter().map(|mantissa| (0, mantissa));
    let others = exponents.iter().flat_map(|of| ends.iter().map(|mantissa| (*of, *mantissa)));
    let both = |(exponent, mantissa)| {
        [false, true].map(|negative| kind.pattern(Parts { negative, exponent, mantissa }))
    };
    zeros.chain(others).flat_map(both).collect()
}

/// A zVariable of floats, one a record.
fn floats(name: &str, data_type: DataType, patterns: &[u64]) -> Variable {
    Variable { name: name.as_bytes().to_vec(), ..Variable::of_elements(data_type, patterns) }
}

/// Special patterns as values of every type of a kind, as elements of entries and as pad values; and values of two, entries
/// and pad values of which the first or the second is a reserved operand.
fn special_patterns(kind: Kind) -> File {
    let (mut file, types) = File::base_of(kind);
    let one = kind.pattern(Parts { negative: false, exponent: kind.offset() + 1, mantissa: 0 });
    let reserved = kind.pattern(Parts { negative: true, exponent: 0, mantissa: 5 });
    let zero = kind.pattern(Parts { negative: false, exponent: 0, mantissa: 5 });
    for (data_type, pad) in types.iter().zip([reserved, one, zero]) {
        let variable = floats(&format!("v{}", data_type.number), *data_type, &patterns(kind));
        file.z_variables.push(Variable { pad: Some(vec![pad]), ..variable });
    }
    let pairs = vec![vec![one, reserved], vec![reserved, one], vec![zero, zero]];
    file.z_variables.push(Variable {
        sizes: vec![2],
        variances: vec![true],
        max_rec: 2,
        chain: vec![Index::of(vec![Values { first: 0, records: pairs }])],
        ..floats("pairs", types[0], &[])
    });
    file.r_variables.push(Variable { pad: Some(vec![reserved]), ..floats("r", types[1], &[one]) });
    let entry =
        |number, elements| Entry { number, data_type: types[number as usize % 2], elements };
    let gr_entries = vec![entry(0, patterns(kind)), entry(1, vec![reserved, one])];
    let z_entries = vec![entry(0, vec![one, reserved, zero]), entry(1, vec![reserved])];
    let name = b"special".to_vec();
    file.attributes.push(Attribute { name, scope: 2, gr_entries, z_entries });
    file
}

/// The floats of a kind in the rows of the appendices, and the same with the sign set.
fn of_appendix(kind: Kind) -> File {
    let (mut file, types) = File::base_of(kind);
    for (name, negative) in [("rows", false), ("negative", true)] {
        let cases = appendices::cases(kind).into_iter();
        let cases = cases.map(|case| kind.pattern(Parts { negative, ..case.parts }));
        file.z_variables.push(floats(name, types[0], &cases.collect::<Vec<u64>>()));
    }
    file
}

/// The samples of VAX floats.
fn of_vax() -> Vec<(&'static str, Vec<u8>)> {
    let [f, d, g] = KINDS;
    let models = [
        ("all_types_03.cdf", all_types(3)),
        ("all_types_14.cdf", all_types(14)),
        ("all_types_15.cdf", all_types(15)),
        ("patterns_f.cdf", special_patterns(f)),
        ("patterns_d.cdf", special_patterns(d)),
        ("patterns_g.cdf", special_patterns(g)),
        ("appendix_f.cdf", of_appendix(f)),
        ("appendix_d.cdf", of_appendix(d)),
        ("appendix_g.cdf", of_appendix(g)),
    ];
    models.into_iter().map(|(name, model)| (name, in_order(&model))).collect()
}

/// Each sample of a folder with its bytes.
fn built(folder: &str) -> Vec<(&'static str, Vec<u8>)> {
    match folder {
        "levels" => vec![
            ("two_levels.cdf", in_order(&two_levels())),
            ("eight_levels.cdf", in_order(&of_levels(8))),
            ("nine_levels.cdf", in_order(&of_levels(9))),
            ("sparse_levels.cdf", in_order(&sparse_levels())),
        ],
        "vax" => of_vax(),
        "padded" => vec![("padding_512.cdf", padded_h(512)), ("padding_link.cdf", linked_h())],
        _ => vec![
            ("padding_001.cdf", padded_h(1)),
            ("padding_140.cdf", padded_h(140)),
            ("padding_511.cdf", padded_h(511)),
        ],
    }
}

/// Folders with such samples, and how many lines `built_reads.txt` has there.
const FOLDERS: [(&str, usize); 4] = [("", 21), ("levels", 134), ("padded", 15), ("vax", 1338)];

fn text(folder: &str, name: &str) -> String {
    std::fs::read_to_string(samples::directory().join(folder).join(name)).expect(name)
}

fn sample(folder: &str, name: &str) -> Vec<u8> {
    std::fs::read(samples::directory().join(folder).join(name)).expect(name)
}

#[test]
fn they_are_built() {
    for (folder, _) in FOLDERS {
        for (name, bytes) in built(folder) {
            assert!(bytes == sample(folder, name), "{name}");
        }
    }
}

/// The lines of a folder's list of checks, each with its file.
fn checks(folder: &str) -> Vec<(CheckLine, Vec<u8>)> {
    let lines = text(folder, "built_checks.txt");
    let lines: Vec<CheckLine> =
        lines.lines().map(|line| samples::check_line(line).expect(line)).collect();
    let names: Vec<&str> = lines.iter().map(|line| line.name.as_str()).collect();
    assert_eq!(names, built(folder).iter().map(|(name, _)| *name).collect::<Vec<_>>());
    let file = |line: &CheckLine| sample(folder, &line.name);
    lines.into_iter().map(|line| (line.clone(), file(&line))).collect()
}

#[test]
fn every_check() {
    for (line, file) in FOLDERS.iter().flat_map(|(folder, _)| checks(folder)) {
        let (mut marks, mut second_marks) = (vec![0xAA; file.len()], vec![0xAA; file.len()]);
        let granted = run(&file, &mut second_marks);
        let left = (granted.verdict, granted.steps, granted.location);
        assert!(line.location.is_some() && line.says(left), "{line:?}: {granted:?}");
        assert_eq!(samples::fnv1a(&second_marks), line.marks, "marks of {}", line.name);
        let answer = bindings::run(&file, &mut marks);
        assert_eq!(answer, left, "proved: {}", line.name);
        assert_eq!(marks, second_marks, "marks of {}", line.name);
    }
}

#[test]
fn every_read() {
    for (folder, count) in FOLDERS {
        let path = samples::directory().join(folder).join("built_reads.txt");
        let lines = samples::read_lines(&path).expect("built_reads.txt");
        assert_eq!(lines.len(), count, "{folder}");
        for line in lines {
            let file = sample(folder, &line.name);
            assert_eq!(second(&file, &line.question), line.answer, "second: {line:?}");
            assert_eq!(proved(&file, &line.question), line.answer, "proved: {line:?}");
            let float = vax_float(&file, &line.question, line.answer);
            float.unwrap_or_else(|wrong| panic!("{line:?}: {wrong}"));
        }
    }
}

/// The VAX floats of the dumps, reserved operands too, are right by the bytes of the samples and the plainest statement of
/// VAX floats, and are of every sort.
#[test]
fn every_vax_float() {
    let mut seen: BTreeMap<(Kind, &str), usize> = BTreeMap::new();
    let mut floats = 0;
    for (name, file) in built("vax") {
        let dump = text("vax", &name.replace(".cdf", ".dump"));
        let judged = dump::judged_floats(&file, &dump);
        for (kind, sorts) in judged.unwrap_or_else(|wrong| panic!("{name}: {wrong}")) {
            sorts.into_iter().for_each(|sort| *seen.entry((kind, sort)).or_insert(0) += 1);
            floats += 1;
        }
    }
    assert!(seen.len() == 3 + 6 + 7 && seen.values().all(|count| *count >= 30), "{seen:?}");
    assert_eq!(floats, 7389);
}

/// All that a reader finds in the accepted ones; in one that is not opened or has a broken list, 20.
#[test]
fn every_dump() {
    for (folder, (line, file)) in FOLDERS
        .iter()
        .flat_map(|(folder, _)| checks(folder).into_iter().map(move |of| (folder, of)))
    {
        let accepted = line.verdict == 0;
        let dump = line.name.replace(".cdf", ".dump");
        let expected = if accepted { Ok(text(folder, &dump)) } else { Err(20) };
        assert_eq!(second_dump(&file), expected.clone(), "second: {}", line.name);
        let lines = |text: String| text.lines().map(|line| askable(line) + "\n").collect();
        let expected = expected.map(lines).map_err(|number| number as i32);
        assert_eq!(dump::dump(&file), expected, "{}", line.name);
    }
}

/// What stands behind eof in the sample with a link there is good, where eof is the length.
#[test]
fn a_link_into_the_body() {
    let mut file = linked_h();
    assert_eq!(run(&file, &mut vec![1; file.len()]).verdict, 8);
    let length = file.len() as i64;
    put(&mut file, 312 + 20, length);
    assert_eq!(run(&file, &mut vec![1; file.len()]).verdict, 0);
    assert_eq!(bindings::run(&file, &mut vec![1; length as usize]).0, 0);
    assert_eq!(second(&file, &Question::Variable(8, 1, 52)), Ok(Given::Field(1)));
    assert_eq!(proved(&file, &Question::Variable(8, 1, 52)), Ok(Given::Field(1)));
}
