//! Padded files, by both implementations: the padding cannot matter, and a padded file is what it is without padding.

use std::collections::BTreeMap;

use tlepozaluh_host::bindings::{Granted, FILE_PADDING};
use tlepozaluh_host::build;
use tlepozaluh_host::build::model::File;
use tlepozaluh_host::build::random::Random;
use tlepozaluh_host::build::records::put;
use tlepozaluh_host::damage;
use tlepozaluh_host::made_up::Source;
use tlepozaluh_host::padding::{other_behind, same_answer, same_check};
use tlepozaluh_host::pair::{Compared, Pair};
use tlepozaluh_host::questions::{self, agreed, Given, Question, REFUSALS};
use tlepozaluh_host::samples;
use tlepozaluh_host::second::check::FRESH;
use tlepozaluh_host::second::rules::body;
use tlepozaluh_host::second::tables::encoding;

const GDR: usize = 312;

/// A good file of 372 bytes and so many zeros behind it.
fn padded_base(padding: usize) -> Vec<u8> {
    let mut file = build::in_order(&File::base(encoding(6).expect("encoding 6")));
    file.resize(372 + padding, 0);
    file
}

/// Verdict, steps and location of a fresh check by both.
fn checked(file: &[u8]) -> Granted {
    let granted = Pair::fresh(&vec![1; file.len()]).grant(file, u64::MAX, &mut Compared::default());
    granted.unwrap_or_else(|wrong| panic!("{wrong}"))
}

/// The bytes of padding that both readers tell, or their refusal.
fn told(file: &[u8]) -> Result<i64, i32> {
    let answer =
        agreed(file, &Question::File(FILE_PADDING)).unwrap_or_else(|wrong| panic!("{wrong}"));
    answer.map(|given| match given {
        Given::Field(bytes) => bytes,
        other => panic!("{other:?}"),
    })
}

/// Every gap between eof and the length: up to 511 bytes are padding, more are refused.
#[test]
fn every_gap() {
    for gap in 0..=600 {
        let file = padded_base(gap);
        let good = gap <= 511;
        assert_eq!(checked(&file), if good { (0, 8, 0) } else { (6, 1, 0) }, "{gap}");
        assert_eq!(told(&file), if good { Ok(gap as i64) } else { Err(20) }, "{gap}");
    }
}

/// Every eof of a file of zeros behind its GDR: 6 before the GDR's end and past the length, 7 where bytes are left that are
/// no record.
#[test]
fn every_eof() {
    for padding in [0, 1, 140, 511] {
        let mut file = padded_base(padding);
        let length = 372 + padding as i64;
        for eof in -2..length + 520 {
            put(&mut file, GDR + 20, eof);
            let expected = match eof {
                372 => (0, 8, 0),
                373.. if eof <= length => (7, 4, 372),
                _ => (6, 1, 0),
            };
            assert_eq!(checked(&file), expected, "{eof} of {length}");
            let opened = (372..=length).contains(&eof);
            assert_eq!(told(&file), if opened { Ok(length - eof) } else { Err(20) }, "{eof}");
        }
    }
}

/// A padded file, damaged or not, and its source.
fn any_padded(seed: u64, random: &mut Random) -> Source {
    let (_, file) = build::with_padding(seed, random.between(1, 511) as usize);
    let damages = damage::all_damages(&file);
    let damaged = random.one_of(&damages).map(|damage| damage::damaged(&file, damage));
    Source::new(damaged.as_ref().filter(|_| random.once_in(2)).unwrap_or(&file))
}

/// Questions about a file: some at random, and those for its VAX floats.
fn asked(file: &[u8], random: &mut Random) -> Vec<Question> {
    let mut found: Vec<Question> = (0..40).map(|_| questions::any(file, random)).collect();
    found.extend(questions::for_vax_floats(file, random));
    found
}

/// Two files that differ from their end on alone have the same verdict, steps, states and marks below the end, whatever
/// the marks and the saved state are; the marks from the end on stay; and every question has the same answer.
#[test]
fn the_padding_cannot_matter() {
    let mut random = Random::seeded(101);
    let mut compared = Compared::default();
    let mut answers: BTreeMap<i32, u64> = BTreeMap::new();
    for seed in 0..400 {
        let source = any_padded(seed, &mut random);
        let (file, end) = (source.file(), body(source.file()).len());
        let other = other_behind(end, file, &mut random);
        for _ in 0..10 {
            let (real, marks) = source.any_point(&mut random);
            let marks = source.any_marks(marks, &mut random);
            let others = other_behind(end, &marks, &mut random);
            let made_up = [source.near(real, &mut random), source.in_range(&mut random)];
            for state in [FRESH, *real].iter().chain(&made_up) {
                let same = same_check([file, &other], state, [&marks, &others], &mut compared);
                assert!(same.is_ok(), "seed {seed}: {same:?}");
            }
        }
        for question in asked(file, &mut random) {
            let answer = same_answer([file, &other], &question);
            let answer = answer.unwrap_or_else(|wrong| panic!("seed {seed}: {wrong}"));
            *answers.entry(answer.err().unwrap_or(0)).or_insert(0) += 1;
        }
    }
    let ends: Vec<i32> = compared.answers.keys().copied().collect();
    assert!([0, 6, 7, 8, 9, 10, 11, 12, 13, 20].iter().all(|end| ends.contains(end)), "{ends:?}");
    let refused = REFUSALS.iter().all(|number| answers.get(number) > Some(&3));
    assert!(answers[&0] > 1000 && refused, "{answers:?}");
}

/// The marks below an offset that a fresh check leaves after so many steps, with its answer, its location and all numbers of
/// its state but the noted length.
fn left(file: &[u8], marks: &[u8], steps: u64, end: usize) -> (Granted, Vec<u32>, Vec<u8>) {
    let mut pair = Pair::fresh(marks);
    let granted = pair.grant(file, steps, &mut Compared::default());
    let granted = granted.unwrap_or_else(|wrong| panic!("{wrong}"));
    assert_eq!(pair.marks()[end..], marks[end..], "marks from the end on");
    let mut state = pair.state().to_vec();
    state[1] = 0;
    (granted, state, pair.marks()[..end].to_vec())
}

/// A file whose eof is its length, good or damaged, is checked step by step as it is with padding of any bytes behind it.
#[test]
fn a_padded_file_is_checked_as_the_unpadded_one() {
    let mut random = Random::seeded(102);
    let mut verdicts = [0; 24];
    for seed in 0..2000 {
        let (_, file) = build::with_padding(seed, 0);
        let some = [damage::edge_damages, damage::link_damages][random.size_below(2)];
        let damages = some(&file);
        let damaged = random.one_of(&damages).map(|damage| damage::damaged(&file, damage));
        let file = damaged.filter(|_| !random.once_in(4)).unwrap_or(file);
        let (end, bytes) = (file.len(), [1, 2, 140, 510, 511][random.size_below(5)]);
        if told(&file) != Ok(0) {
            continue;
        }
        let (verdict, steps, _) = checked(&file);
        verdicts[verdict as usize] += 1;
        let padding: Vec<u8> = (0..bytes).map(|_| random.byte()).collect();
        let padded = [file.as_slice(), &padding].concat();
        let marks: Vec<u8> = (0..padded.len()).map(|_| random.byte() % 4).collect();
        for steps in [steps, random.below(steps as i64) as u64] {
            let unpadded = left(&file, &marks[..end], steps, end);
            assert_eq!(left(&padded, &marks, steps, end), unpadded, "seed {seed}");
        }
    }
    let expected = [0, 7, 8, 9, 10, 11, 12, 13, 14];
    assert!(expected.iter().all(|verdict| verdicts[*verdict] > 0), "{verdicts:?}");
}

/// Every question about an accepted file but for the padding itself has the answer that it has without padding.
#[test]
fn a_padded_file_is_read_as_the_unpadded_one() {
    let mut random = Random::seeded(103);
    let mut answers: BTreeMap<i32, u64> = BTreeMap::new();
    for seed in 0..500 {
        let (model, padded) = build::any(seed);
        let file = body(&padded);
        assert_eq!((told(&padded), told(file)), (Ok(model.padding as i64), Ok(0)), "seed {seed}");
        for question in asked(&padded, &mut random) {
            let answer = agreed(&padded, &question).unwrap_or_else(|wrong| panic!("{wrong}"));
            if question != Question::File(FILE_PADDING) {
                assert_eq!(agreed(file, &question), Ok(answer), "seed {seed}: {question}");
                *answers.entry(answer.err().unwrap_or(0)).or_insert(0) += 1;
            }
        }
    }
    let numbers: Vec<i32> = answers.keys().copied().collect();
    assert_eq!(numbers, [0, 15, 16, 17, 18, 22], "{answers:?}");
    assert!(answers.values().all(|count| *count > 10), "{answers:?}");
}

/// One byte too many: 6 in one step, no mark is written, and the reader opens nothing.
#[test]
fn a_gap_of_512() {
    let mut random = Random::seeded(104);
    for seed in 0..100 {
        let (_, file) = build::with_padding(seed, 512);
        let marks: Vec<u8> = file.iter().map(|_| random.byte()).collect();
        let (granted, _, after) = left(&file, &marks, 5, file.len());
        assert_eq!((granted, after), ((6, 1, 0), marks), "seed {seed}");
        for _ in 0..20 {
            let question = questions::any(&file, &mut random);
            assert_eq!(agreed(&file, &question), Ok(Err(20)), "seed {seed}: {question}");
        }
    }
}

/// The records that may be met go by the file's length: 997 bytes allow 124 of them, 1021 allow 127.
#[test]
fn padding_lets_more_records_be_met() {
    let path = samples::directory().join("rings").join("ring_vdr_self.cdf");
    let ring = std::fs::read(path).expect("a ring");
    for (padding, most) in [(0, 121), (2, 121), (3, 122), (24, 124), (511, 185)] {
        let file = [ring.as_slice(), &vec![9; padding]].concat();
        assert_eq!(checked(&file), (9, 19, 372));
        let max_rec = |number| agreed(&file, &Question::Variable(8, number, 16));
        assert_eq!(max_rec(most), Ok(Ok(Given::Field(2))), "{padding}");
        assert_eq!(max_rec(most + 1), Ok(Err(20)), "{padding}");
    }
}
