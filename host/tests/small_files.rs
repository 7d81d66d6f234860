//! The small files A to M (docs/RULES.md, section 18), built with the bytes it gives.

use tlepozaluh_host::build::in_order;
use tlepozaluh_host::build::model::{File, Index, Values, Variable};
use tlepozaluh_host::build::records::put;
use tlepozaluh_host::second::check::{run, Granted};
use tlepozaluh_host::second::read::{read_value, Answer};
use tlepozaluh_host::second::tables::{data_type, encoding};

const UNTOUCHED: u8 = 0xAA;

/// Offset and mark.
type Mark = (usize, u8);

/// Name, file, length, verdict, steps, location, marks.
type Row = (&'static str, Vec<u8>, usize, i32, u64, u64, &'static [Mark]);

fn base() -> File {
    File::base(encoding(6).expect("encoding 6"))
}

/// A zVariable of one entry 0.. with these records.
fn variable(number: i64, sizes: &[i64], records: Vec<Vec<u64>>) -> Variable {
    let data_type = data_type(number).expect("data type");
    let mut variable = Variable::plain(data_type, sizes.to_vec());
    variable.max_rec = records.len() as i64 - 1;
    variable.chain = vec![Index::of(vec![Values { first: 0, records }])];
    variable
}

fn with_unused(listed: &[usize], unlisted: &[usize]) -> Vec<u8> {
    let mut file = base();
    file.listed_unused = listed.to_vec();
    file.unlisted_unused = unlisted.to_vec();
    in_order(&file)
}

fn file_h() -> Vec<u8> {
    let mut file = base();
    file.z_variables.push(variable(2, &[], vec![vec![1], vec![2], vec![3]]));
    in_order(&file)
}

fn file_e() -> Vec<u8> {
    let mut file = with_unused(&[], &[8]);
    put(&mut file, 376, 7);
    file
}

fn file_g() -> Vec<u8> {
    let mut file = with_unused(&[16], &[]);
    put(&mut file, 380, 372);
    file
}

/// H with one byte more in the VVR.
fn file_i() -> Vec<u8> {
    let mut file = file_h();
    file.push(0);
    put(&mut file, 536, 15);
    put(&mut file, 332, 551);
    file
}

/// What the check leaves, and the marks that the sweep set, those of 0 left out.
fn checked(file: &[u8]) -> (Granted, Vec<Mark>) {
    let mut marks = vec![UNTOUCHED; file.len() + 3];
    let granted = run(file, &mut marks);
    assert!(marks.iter().take(8).all(|mark| *mark == UNTOUCHED));
    assert!(marks.iter().skip(file.len()).all(|mark| *mark == UNTOUCHED));
    let own = marks.iter().copied().enumerate().take(file.len());
    (granted, own.filter(|(_, mark)| ![0, UNTOUCHED].contains(mark)).collect())
}

#[test]
fn files_a_to_i() {
    let a = in_order(&base());
    let cut = |length: usize| a[..length].to_vec();
    let table: [Row; 9] = [
        ("A", a.clone(), 372, 0, 8, 0, &[(8, 1), (312, 2)]),
        ("B", cut(0), 0, 3, 1, 0, &[]),
        ("C", cut(371), 371, 3, 1, 0, &[]),
        ("D", with_unused(&[], &[8]), 380, 0, 9, 0, &[(8, 1), (312, 2), (372, 1)]),
        ("E", file_e(), 380, 13, 9, 372, &[(8, 1), (312, 2), (372, 1)]),
        ("F", with_unused(&[16], &[]), 388, 0, 10, 0, &[(8, 1), (312, 2), (372, 2)]),
        ("G", file_g(), 388, 9, 10, 372, &[(8, 1), (312, 2), (372, 2)]),
        ("H", file_h(), 550, 0, 15, 0, &[(8, 1), (312, 2), (372, 2), (504, 2), (536, 2)]),
        ("I", file_i(), 551, 10, 11, 536, &[(8, 1), (312, 2), (372, 2), (504, 2), (536, 1)]),
    ];
    for (name, file, length, verdict, steps, location, marks) in table {
        assert_eq!(file.len(), length, "{name}");
        let granted = Granted { verdict, steps, location };
        assert_eq!(checked(&file), (granted, marks.to_vec()), "{name}");
    }
}

#[test]
fn base_file_is_as_given() {
    let file = in_order(&base());
    let field = |at: usize| i32::from_be_bytes(file[at..at + 4].try_into().expect("4 bytes"));
    let given = [(8, 304), (12, 1), (16, 312), (20, 2), (28, 6), (32, 3)];
    let gdr = [(312, 60), (316, 2), (320, 0), (324, 0), (328, 0), (332, 372)];
    let rest = [(336, 0), (340, 0), (344, -1), (348, 0), (352, 0), (356, 0)];
    for (at, value) in given.into_iter().chain(gdr).chain(rest) {
        assert_eq!(field(at), value, "field at {at}");
    }
}

#[test]
fn file_j() {
    let mut file = file_h();
    file[546..548].copy_from_slice(&[0xFF, 0xFE]);
    let signed = |number: i64| Ok(Answer { kind: 0, bits: number as u64, offset: 546 });
    assert_eq!(read_value(&file, 8, 0, 1, &[], 0), signed(-257));
    put(&mut file, 28, 1);
    assert_eq!(read_value(&file, 8, 0, 1, &[], 0), signed(-2));
}

#[test]
fn file_k() {
    assert_eq!(read_value(&file_h(), 8, 0, 3, &[], 0), Err(16));
    assert!(read_value(&file_h(), 8, 0, 2, &[], 0).is_ok());
}

#[test]
fn file_l() {
    for (row, place) in [(true, 3), (false, 1)] {
        let mut file = base();
        file.row_majority = row;
        file.z_variables.push(variable(1, &[2, 3], vec![(0..6).collect()]));
        let bytes = in_order(&file);
        let answer = Answer { kind: 0, bits: place, offset: 560 + place };
        assert_eq!(read_value(&bytes, 8, 0, 0, &[1, 0], 0), Ok(answer), "row majority: {row}");
    }
}

#[test]
fn file_m() {
    for row in [true, false] {
        let mut file = base();
        file.row_majority = row;
        let mut variable = variable(1, &[3, 5], vec![(0..3).collect()]);
        variable.variances = vec![true, false];
        file.z_variables.push(variable);
        let answer = Answer { kind: 0, bits: 2, offset: 562 };
        assert_eq!(read_value(&in_order(&file), 8, 0, 0, &[2, 4], 0), Ok(answer));
    }
}
