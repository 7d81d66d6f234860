//! The proved reader and the second one: every call, on samples, rings, built, shuffled and damaged files.

use std::collections::{BTreeMap, BTreeSet};

use tlepozaluh_host::build;
use tlepozaluh_host::build::random::Random;
use tlepozaluh_host::damage::{self, Damage};
use tlepozaluh_host::questions::{self, agreed, Answer, Given, Question, CALLS};
use tlepozaluh_host::samples;
use tlepozaluh_host::second::bytes::field;
use tlepozaluh_host::second::{check, read};

/// What was answered: how often each number, by which calls anything was given, and how many VAX floats and reserved
/// operands, by kind; each of these is judged by the bytes of the file.
#[derive(Default)]
struct Tally {
    numbers: BTreeMap<i32, u64>,
    given: BTreeSet<&'static str>,
    asked: u64,
    vax_floats: BTreeMap<&'static str, u64>,
}

impl Tally {
    fn ask(&mut self, file: &[u8], question: &Question, what: &dyn Fn() -> String) {
        let _counted = self.answer(file, question, what);
    }

    /// What both answer; ends the test if they do not agree.
    fn answer(&mut self, file: &[u8], question: &Question, what: &dyn Fn() -> String) -> Answer {
        let answer = agreed(file, question).unwrap_or_else(|wrong| panic!("{}: {wrong}", what()));
        *self.numbers.entry(answer.as_ref().err().copied().unwrap_or(0)).or_insert(0) += 1;
        if answer.is_ok() {
            self.given.insert(questions::call(question));
        }
        self.asked += 1;
        let float = questions::vax_float(file, question, answer);
        if let Some((kind, _)) = float.unwrap_or_else(|wrong| panic!("{}: {wrong}", what())) {
            *self.vax_floats.entry(kind.name()).or_insert(0) += 1;
        }
        answer
    }

    /// Every number of the reader was answered, and every call gave something.
    fn is_whole(&self) -> bool {
        let numbers: Vec<i32> = self.numbers.keys().copied().collect();
        numbers == [0, 15, 16, 17, 18, 20, 22] && self.given.len() == CALLS
    }
}

/// Sample files, rings, files of several levels, padded files, VAX floats and the files of all archives, by name.
fn sample_files() -> Vec<(String, Vec<u8>)> {
    let mut found = Vec::new();
    let directory = samples::directory();
    for folder in ["", "rings", "levels", "padded", "vax"].map(|folder| directory.join(folder)) {
        for entry in std::fs::read_dir(folder).expect("samples") {
            let path = entry.expect("samples").path();
            if path.extension().is_some_and(|extension| extension == "cdf") {
                let bytes = std::fs::read(&path).expect("a sample");
                found.push((path.display().to_string(), bytes));
            }
        }
    }
    found.sort();
    for folder in ["", "levels", "padded", "locations", "vax", "rounds"] {
        let archive = std::fs::read(directory.join(folder).join("checks.tar")).expect("checks.tar");
        let members = samples::members(&archive).expect("an archive");
        found.extend(members.into_iter().map(|member| (member.name, member.bytes)));
    }
    found
}

/// Every number of every call at its edges, on every sample, every ring and every file of all archives.
#[test]
fn every_edge_on_every_sample() {
    let files = sample_files();
    assert_eq!(files.len(), 46 + 11 + 4 + 2 + 9 + 830 + 5 * 400);
    let all = questions::edges();
    let mut tally = Tally::default();
    for (name, file) in &files {
        for question in &all {
            tally.ask(file, question, &|| name.clone());
        }
    }
    assert!(tally.asked > 1_000_000 && tally.is_whole(), "{:?} {:?}", tally.numbers, tally.given);
}

/// Questions at random on every sample, ring and file of all archives.
#[test]
fn any_question_on_every_sample() {
    let mut random = Random::seeded(11);
    let mut tally = Tally::default();
    for (name, file) in sample_files() {
        for _ in 0..400 {
            let question = questions::any(&file, &mut random);
            tally.ask(&file, &question, &|| name.clone());
        }
    }
    assert!(tally.is_whole(), "{:?} {:?}", tally.numbers, tally.given);
}

/// Every record of a good file's variables, every index and element; every entry and pad value.
fn all_of(file: &[u8], tally: &mut Tally, what: &dyn Fn() -> String) {
    for kind in [3, 8] {
        for number in 0.. {
            let Ok(of) = read::variable(file, kind, number) else { break };
            for record in (-1..=of.max_rec.min(40) + 1).chain([of.max_rec]) {
                tally.ask(file, &Question::Levels(kind, number, record), what);
            }
            for element in 0..of.elements.min(6) {
                tally.ask(file, &Question::Pad(kind, number, element), what);
                for record in (0..=of.max_rec.min(8)).chain([of.max_rec]) {
                    for turn in 0..8 {
                        let index = |size: &i64| (turn * 7 + 3 * record) % size;
                        let indices = of.sizes.iter().map(index).collect();
                        let asked = Question::Value(kind, number, record, indices, element);
                        tally.ask(file, &asked, what);
                    }
                }
            }
        }
    }
    for attribute in 0.. {
        if read::attribute(file, attribute).is_err() {
            break;
        }
        for kind in [5, 9] {
            for place in 0.. {
                let asked = Question::EntryAt(attribute, kind, place, 20);
                let Ok(Given::Field(entry)) = tally.answer(file, &asked, what) else { break };
                tally.ask(file, &Question::Entry(attribute, kind, entry, 0), what);
                tally.ask(file, &Question::EntryField(attribute, kind, entry, 24), what);
            }
        }
    }
}

/// On an accepted file no call answers 20.
#[test]
fn built_files() {
    let mut random = Random::seeded(12);
    let mut tally = Tally::default();
    for seed in 0..2000 {
        let file = build::mixed(seed).1;
        let what = || format!("seed {seed}");
        all_of(&file, &mut tally, &what);
        for _ in 0..60 {
            let question = questions::any(&file, &mut random);
            tally.ask(&file, &question, &what);
        }
    }
    let numbers: Vec<i32> = tally.numbers.keys().copied().collect();
    assert_eq!(numbers, [0, 15, 16, 17, 18, 22], "{:?}", tally.numbers);
    assert_eq!(tally.given.len(), CALLS);
    let floats = &tally.vax_floats;
    assert!(floats.len() == 3 && floats.values().all(|count| *count > 5000), "{floats:?}");
    assert!(tally.numbers[&22] > 2000, "{:?}", tally.numbers);
}

/// Asks a damaged file; on one that is still accepted no call answers 20.
fn ask_damaged(file: &[u8], random: &mut Random, tally: &mut Tally, what: &dyn Fn() -> String) {
    let accepted = check::run(file, &mut vec![0; file.len()]).verdict == 0;
    for _ in 0..12 {
        let question = questions::any(file, random);
        let answer = tally.answer(file, &question, what);
        assert!(!accepted || answer != Err(20), "{}: {question}", what());
    }
}

fn ask_all(seeds: std::ops::Range<u64>, damages: impl Fn(&[u8]) -> Vec<Damage>) -> Tally {
    let mut random = Random::seeded(seeds.start + 13);
    let mut tally = Tally::default();
    for seed in seeds {
        let file = build::mixed(seed).1;
        for damage in damages(&file) {
            let damaged = damage::damaged(&file, &damage);
            let what = || format!("seed {seed}: {damage:?}");
            ask_damaged(&damaged, &mut random, &mut tally, &what);
        }
    }
    tally
}

#[test]
fn every_control_field_at_its_edges() {
    let tally = ask_all(0..25, damage::edge_damages);
    assert!(tally.is_whole(), "{:?} {:?}", tally.numbers, tally.given);
}

#[test]
fn every_control_field_to_every_record() {
    let tally = ask_all(200..206, damage::start_damages);
    assert!(tally.numbers[&20] > 1000, "{:?}", tally.numbers);
}

#[test]
fn every_link_every_ring_every_length() {
    for damages in [damage::link_damages, damage::ring_damages, damage::length_damages] {
        let tally = ask_all(300..320, damages);
        assert!(tally.numbers[&20] > 50, "{:?}", tally.numbers);
    }
}

/// Damages of indexes of several levels: all records of the variables of a damaged file are asked for.
#[test]
fn every_damage_of_a_tree() {
    let mut tally = Tally::default();
    for seed in 0..64 {
        let (_, file) = build::with_levels(seed, 2 + seed as usize % 8);
        for damage in damage::tree_damages(&file) {
            let damaged = damage::damaged(&file, &damage);
            let what = || format!("seed {seed}: {damage:?}");
            for (number, record) in (0..4).flat_map(|number| (0..24).map(move |of| (number, of))) {
                tally.ask(&damaged, &Question::Levels(8, number, record), &what);
                tally.ask(&damaged, &Question::Value(8, number, record, vec![0], 0), &what);
            }
        }
    }
    assert!(tally.numbers[&0] > 100_000 && tally.numbers[&20] > 100_000, "{:?}", tally.numbers);
}

#[test]
fn several_damages_and_bytes_at_random() {
    let mut random = Random::seeded(14);
    let mut tally = Tally::default();
    for seed in 0..1500 {
        let mut file = build::mixed(seed).1;
        let all = damage::all_damages(&file);
        let damages = damage::some_of(&all, &mut random);
        let damaged =
            damages.iter().fold(file.clone(), |file, damage| damage::damaged(&file, damage));
        ask_damaged(&damaged, &mut random, &mut tally, &|| format!("seed {seed}: {damages:?}"));
        for _ in 0..random.between(1, 30) {
            let at = 312 + random.size_below(file.len() - 312);
            file[at] = random.byte();
        }
        ask_damaged(&file, &mut random, &mut tally, &|| format!("seed {seed}: bytes"));
    }
    assert!(tally.is_whole(), "{:?} {:?}", tally.numbers, tally.given);
}

/// Files that do not open: every call answers 20, whatever is asked.
#[test]
fn no_file_at_all() {
    let mut random = Random::seeded(15);
    let mut tally = Tally::default();
    for length in 0..800 {
        let file: Vec<u8> = (0..length).map(|_| random.byte()).collect();
        for _ in 0..20 {
            let question = questions::any(&file, &mut random);
            assert_eq!(tally.answer(&file, &question, &|| format!("length {length}")), Err(20));
        }
    }
}

/// A ring is walked until more than length/8 records are met; then 20, and not for ever.
#[test]
fn rings_end() {
    let mut tally = Tally::default();
    for name in ["ring_vdr_self", "ring_vdr_count_100000000", "ring_adr", "ring_vxr_two"] {
        let path = samples::directory().join("rings").join(format!("{name}.cdf"));
        let file = std::fs::read(path).expect(name);
        for number in (0..200).chain([i64::MAX]) {
            for question in [
                Question::VariableName(8, number),
                Question::AttributeName(number),
                Question::Value(8, number, 2, Vec::new(), 0),
                Question::Levels(8, number, 2),
                Question::EntryField(number, 5, 0, 16),
                Question::EntryAt(0, 5, number as u64, 16),
            ] {
                tally.ask(&file, &question, &|| name.to_string());
            }
        }
    }
    assert!(tally.numbers[&20] > 100 && tally.numbers[&0] > 100, "{:?}", tally.numbers);
}

/// The link to the values where no more records may be met, at every place of a ring: as it is, zero, past the end, to a
/// record of another type, to the index record itself.
#[test]
fn the_last_record_of_a_ring() {
    let mut tally = Tally::default();
    let path = samples::directory().join("rings").join("ring_vdr_self.cdf");
    let file = std::fs::read(path).expect("a ring");
    let vxr = read::variable(&file, 8, 0).expect("a variable").vxr_head;
    let entries = field(&file, vxr + 12).expect("entries");
    let (offset_at, length) = ((vxr + 20 + 8 * entries) as usize, file.len() as i64);
    for link in [field(&file, offset_at as i64).expect("a link"), 0, 4, 8, 372, vxr, length, -1] {
        let other = damage::damaged(&file, &Damage::Field { offset: offset_at, value: link });
        for (number, record) in (100..130).flat_map(|number| [(number, 0), (number, 2)]) {
            let what = || format!("link {link}, variable {number}");
            tally.ask(&other, &Question::Value(8, number, record, Vec::new(), 0), &what);
            tally.ask(&other, &Question::Levels(8, number, record), &what);
        }
    }
    assert!(tally.numbers[&20] > 100 && tally.numbers[&0] > 100, "{:?}", tally.numbers);
}

/// The fields that are shown: these offsets and no others, and what the file says of itself.
#[test]
fn the_fields_that_are_shown() {
    let sample = |name: &str| std::fs::read(samples::directory().join(name)).expect(name);
    let file = sample("12_attrs_be_r_and_z.cdf");
    let shown = |question: &dyn Fn(u64) -> Question| -> Vec<u64> {
        let answer = |at: &u64| questions::proved(&file, &question(*at));
        (0..300).filter(|at| answer(at).map_err(|number| assert_eq!(number, 18)).is_ok()).collect()
    };
    assert_eq!(shown(&|at| Question::Variable(3, 0, at)), [12, 16, 28, 32, 48, 52]);
    assert_eq!(shown(&|at| Question::Variable(8, 0, at)), [12, 16, 28, 32, 48, 52, 128]);
    assert_eq!(shown(&|at| Question::Attribute(0, at)), [16, 20, 24, 28, 40, 44]);
    assert_eq!(shown(&|at| Question::File(at)), [0, 1, 2, 3, 4, 5, 6]);
    let at_place = |at| Question::EntryAt(0, 5, 0, at);
    assert_eq!(shown(&at_place), [12, 16, 20, 24]);
}

/// Two reads with the same question answer the same.
#[test]
fn equal_questions_have_equal_answers() {
    let mut random = Random::seeded(16);
    for seed in 0..200 {
        let (_, file) = build::any(seed);
        let before = file.clone();
        for _ in 0..20 {
            let question = questions::any(&file, &mut random);
            assert_eq!(questions::proved(&file, &question), questions::proved(&file, &question));
        }
        assert_eq!(file, before);
    }
}
