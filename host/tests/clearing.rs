//! The marks of records of every size about the edges of a run, by both implementations: whatever the marks were, a record's
//! first is 1 and its others are 0, and no mark of what is not swept changes.

use tlepozaluh_host::build;
use tlepozaluh_host::build::model::File;
use tlepozaluh_host::build::records::put;
use tlepozaluh_host::damage;
use tlepozaluh_host::pair::{Compared, Pair};
use tlepozaluh_host::second::tables::encoding;

/// What a mark is before the check.
const OLD: u8 = 0xA5;

/// Sizes about each edge of a run up to eighteen of them, where the clearing in runs begins, and of longer records.
fn sizes() -> Vec<usize> {
    let edges = (1..=18).flat_map(|runs| [16 * runs - 1, 16 * runs, 16 * runs + 1]);
    edges.chain([8, 9, 1000, 4095, 4096, 4097, 65_535, 65_536, 65_537]).collect()
}

/// A good file with unused records of these sizes behind its GDR, and their offsets.
fn with_unused(sizes: &[usize]) -> (Vec<u8>, Vec<usize>) {
    let mut file = build::in_order(&File::base(encoding(6).expect("encoding 6")));
    let mut starts = vec![];
    for size in sizes {
        let start = file.len();
        starts.push(start);
        file.resize(start + size, 0xFF);
        put(&mut file, start, *size as i64);
    }
    let (eof, length) = (damage::eof_offset(&file), file.len() as i64);
    put(&mut file, eof, length);
    (file, starts)
}

/// The marks after a grant by both, of a fresh check.
fn marks_after(file: &[u8], steps: u64) -> (i32, Vec<u8>) {
    let mut pair = Pair::fresh(&vec![OLD; file.len() + 20]);
    let granted = pair.grant(file, steps, &mut Compared::default());
    let (answer, _, _) = granted.unwrap_or_else(|wrong| panic!("{wrong}"));
    (answer, pair.marks().to_vec())
}

/// One record of each size, and one of 16 bytes behind it, in a whole check.
#[test]
fn every_edge_of_a_run() {
    for size in sizes() {
        let (file, starts) = with_unused(&[size, 16]);
        let (answer, marks) = marks_after(&file, u64::MAX);
        assert_eq!(answer, 0, "{size}");
        for (offset, mark) in marks.iter().enumerate().skip(starts[0]) {
            let expected = match offset {
                _ if offset >= file.len() => OLD,
                _ if starts.contains(&offset) => 1,
                _ => 0,
            };
            assert_eq!(*mark, expected, "a record of {size}, mark {offset}");
        }
    }
}

/// A sweep that is put down behind each record has cleared the marks up to there and no others.
#[test]
fn no_mark_behind_a_record() {
    let sizes = sizes();
    let (file, starts) = with_unused(&sizes);
    for (record, start) in starts.iter().enumerate() {
        let (answer, marks) = marks_after(&file, 4 + record as u64);
        let end = start + sizes[record];
        assert_eq!(answer, -1, "record {record}");
        assert_eq!(marks[*start], 1, "record {record}");
        assert!(marks[start + 1..end].iter().all(|mark| *mark == 0), "record {record}");
        assert!(marks[end..].iter().all(|mark| *mark == OLD), "record {record}");
    }
}
