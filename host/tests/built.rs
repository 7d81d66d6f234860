//! Files that the builder makes: accepted, with the steps, marks, values and descriptors of
//! the model they are made of.

use std::collections::BTreeMap;

use tlepozaluh_host::build;
use tlepozaluh_host::build::model::{Attribute, Entry, File, Index, Variable};
use tlepozaluh_host::build::random::Random;
use tlepozaluh_host::damage;
use tlepozaluh_host::second::check::{run, Granted};
use tlepozaluh_host::second::read;
use tlepozaluh_host::second::rules::Name;
use tlepozaluh_host::second::tables::{DataType, DATA_TYPES, ENCODINGS};
use tlepozaluh_host::vax::Kind;

const FILES: u64 = 8000;

/// Links of a list of so many records: one each, and the zero link.
fn links<T>(list: &[T]) -> u64 {
    list.len() as u64 + 1
}

/// Links of a VXR's entries: one each, and below those of the lower VXRs, each with its next.
fn entry_links(index: &Index) -> u64 {
    let below = index.lower().map(|lower| entry_links(&lower.index) + 1);
    index.entries.len() as u64 + below.sum::<u64>()
}

/// Steps of the check: the opening, one a record, one a link.
fn steps(model: &File, records: usize) -> u64 {
    let variables = model.r_variables.iter().chain(&model.z_variables);
    let chain = |variable: &Variable| -> u64 {
        links(&variable.chain) + variable.chain.iter().map(entry_links).sum::<u64>()
    };
    let entries =
        |attribute: &Attribute| links(&attribute.gr_entries) + links(&attribute.z_entries);
    let heads = links(&model.r_variables)
        + links(&model.z_variables)
        + links(&model.attributes)
        + links(&model.listed_unused);
    let own = variables.map(chain).sum::<u64>() + model.attributes.iter().map(entries).sum::<u64>();
    1 + records as u64 + 1 + heads + own
}

#[test]
fn accepted_with_steps_and_marks() {
    for seed in 0..FILES {
        let (model, file) = build::mixed(seed);
        let records = damage::records(&file);
        let mut marks = vec![0xAA; file.len()];
        let answer = run(&file, &mut marks);
        let steps = steps(&model, records.len());
        let expected = Granted { verdict: 0, steps, location: 0 };
        assert_eq!(answer, expected, "seed {seed}");
        let ones = marks[8..].iter().filter(|mark| **mark == 1).count();
        let twos = marks[8..].iter().filter(|mark| **mark == 2).count();
        assert_eq!(ones, 1 + model.unlisted_unused.len(), "seed {seed}");
        assert_eq!(ones + twos, records.len(), "seed {seed}");
        assert!(records.iter().all(|record| marks[record.offset] != 0), "seed {seed}");
    }
}

#[test]
fn equal_seeds_give_equal_files() {
    assert_eq!(build::any(3).1, build::any(3).1);
    assert_ne!(build::any(3).1, build::any(4).1);
}

/// The answer is right for the bits that are stored, or is the refusal: the stored element itself, or for a VAX float the
/// nearest double or 22.
fn assert_right(
    model: &File,
    data_type: DataType,
    stored: Result<u64, u32>,
    answer: Result<read::Answer, u32>,
    what: &str,
) {
    let shown = answer.map(|answer| (answer.kind, answer.bits));
    match (stored, Kind::of(model.encoding.number, data_type.number)) {
        (Ok(pattern), Some(kind)) => {
            let bits = shown.map(|(_, bits)| bits).map_err(|refusal| refusal as i32);
            kind.judge(pattern, bits).unwrap_or_else(|wrong| panic!("{what}: {wrong}"));
            assert!(shown.is_err() || answer.is_ok_and(|answer| answer.kind == 3), "{what}");
        }
        (Ok(bits), None) => assert_eq!(shown, Ok((data_type.form.number(), bits)), "{what}"),
        (Err(refusal), _) => assert_eq!(shown, Err(refusal), "{what}"),
    }
}

/// A question about a variable's value, mostly of one that is there.
struct Question {
    record: i64,
    indices: Vec<i64>,
    element: i64,
}

fn any_question(random: &mut Random, of: &Variable) -> Question {
    let near = of.max_rec.min(20);
    let record = if random.once_in(8) { of.max_rec } else { random.between(-1, near + 1) };
    let mut indices: Vec<i64> = of.sizes.iter().map(|size| random.below(*size)).collect();
    if random.once_in(8) {
        let place = random.size_below(indices.len());
        let wrong = [-1, of.sizes.get(place).copied().unwrap_or(0)][random.size_below(2)];
        indices.iter_mut().skip(place).take(1).for_each(|index| *index = wrong);
    }
    if random.once_in(16) {
        indices.push(0);
    }
    let element = if random.once_in(8) { of.elements } else { random.below(of.elements) };
    Question { record, indices, element }
}

/// What the model has stored for the answer: 16, 17, 18 in that order, or the element's bits.
fn stored_value(model: &File, of: &Variable, asked: &Question) -> Result<u64, u32> {
    let wanted = if of.record_variance { asked.record } else { asked.record.min(0) };
    if wanted < 0 || of.max_rec == -1 || wanted > of.max_rec {
        return Err(16);
    }
    let values = of.values();
    if !values.iter().any(|values| (values.first..=values.last()).contains(&wanted)) {
        return Err(17);
    }
    let in_range = asked.indices.iter().zip(&of.sizes).all(|(at, size)| (0..*size).contains(at));
    let counts_agree = asked.indices.len() == of.sizes.len();
    if !in_range || !counts_agree || !(0..of.elements).contains(&asked.element) {
        return Err(18);
    }
    let at = asked.element as usize;
    Ok(of.bits(model.row_majority, wanted, &asked.indices, at).expect("a stored element"))
}

#[test]
fn values_are_the_models() {
    let mut random = Random::seeded(17);
    let mut given = 0;
    let mut refused = [0; 23];
    for seed in 0..FILES {
        let (model, file) = build::mixed(seed);
        for kind in [3, 8] {
            for (number, of) in model.variables(kind).iter().enumerate() {
                let asked = any_question(&mut random, of);
                let number = number as i64;
                let answer = read::read_value(
                    &file,
                    kind,
                    number,
                    asked.record,
                    &asked.indices,
                    asked.element,
                );
                let stored = stored_value(&model, of, &asked);
                assert_right(&model, of.data_type, stored, answer, &format!("seed {seed}"));
                answer.map_or_else(|refusal| refused[refusal as usize] += 1, |_| given += 1);
            }
        }
    }
    assert!(given > 1000, "{given}");
    assert!([16, 17, 18, 22].iter().all(|number| refused[*number] > 50), "{refused:?}");
}

/// The model's answer: 16, 17, or the level at which the record's values are named.
fn expected_levels(of: &Variable, record: i64) -> Result<i64, u32> {
    let wanted = if of.record_variance { record } else { record.min(0) };
    if wanted < 0 || of.max_rec == -1 || wanted > of.max_rec {
        return Err(16);
    }
    of.chain.iter().find_map(|index| index.level_of(wanted)).ok_or(17)
}

#[test]
fn levels_are_the_models() {
    let mut given = [0; 9];
    let mut refused = [0; 21];
    for seed in 0..FILES {
        let (model, file) = build::any(seed);
        for kind in [3, 8] {
            for (number, of) in (0..).zip(model.variables(kind)) {
                for record in (-1..=of.max_rec.min(30) + 1).chain([of.max_rec]) {
                    let answer = read::levels(&file, kind, number, record);
                    assert_eq!(answer, expected_levels(of, record), "seed {seed}");
                    let counted = |found: i64| given[found as usize] += 1;
                    answer.map_or_else(|refusal| refused[refusal as usize] += 1, counted);
                }
            }
            let beyond = model.variables(kind).len() as i64;
            assert_eq!(read::levels(&file, kind, beyond, 0), Err(15));
        }
    }
    assert!(given[1..].iter().all(|count| *count > 500), "{given:?}");
    assert!(refused[16..=17].iter().all(|count| *count > 500), "{refused:?}");
}

/// A ninth level is refused, and all below the eighth is 20 to the reader.
#[test]
fn nine_levels() {
    for seed in 0..500 {
        let (model, file) = build::with_levels(seed, 9);
        assert_eq!(run(&file, &mut vec![0; file.len()]).verdict, 23, "seed {seed}");
        for (number, of) in (0..).zip(&model.z_variables) {
            for record in 0..=of.max_rec.min(60) {
                let answer = read::levels(&file, 8, number, record);
                match expected_levels(of, record) {
                    Ok(9) => assert_eq!(answer, Err(20), "seed {seed}"),
                    Err(17) => assert!(matches!(answer, Err(17 | 20)), "seed {seed}: {answer:?}"),
                    other => assert_eq!(answer, other, "seed {seed}"),
                }
            }
        }
    }
}

/// How many elements were given, and how many refused with 22.
type Found = [u64; 2];

fn tally(found: &mut Found, answer: Result<read::Answer, u32>) {
    found[0] += u64::from(answer.is_ok());
    found[1] += u64::from(answer == Err(22));
}

fn sum(found: Found, more: Found) -> Found {
    [found[0] + more[0], found[1] + more[1]]
}

/// Asks for a variable's pad value, one element below and one above included.
fn check_pad(model: &File, file: &[u8], kind: i64, number: i64, of: &Variable) -> Found {
    let pad = of.pad.clone().unwrap_or_default();
    let mut found = [0, 0];
    for at in -1..=of.elements {
        let bits = usize::try_from(at).ok().and_then(|at| pad.get(at));
        let answer = read::read_pad(file, kind, number, at);
        let what = format!("kind {kind} number {number}");
        assert_right(model, of.data_type, bits.copied().ok_or(18), answer, &what);
        tally(&mut found, answer);
    }
    found
}

#[test]
fn pad_values_are_the_models() {
    let mut found = [0, 0];
    for seed in 0..FILES {
        let (model, file) = build::mixed(seed);
        for kind in [3, 8] {
            for (number, of) in (0..).zip(model.variables(kind)) {
                found = sum(found, check_pad(&model, &file, kind, number, of));
            }
        }
    }
    assert!(found[0] > 1000 && found[1] > 50, "{found:?}");
}

fn check_entries(model: &File, file: &[u8], attribute: i64, kind: i64, entries: &[Entry]) -> Found {
    let mut found = [0, 0];
    for number in [-1, 0, 1, 2, 3, 4, 5, 6, i64::from(i32::MAX)] {
        let first = entries.iter().find(|entry| entry.number == number);
        for at in [-1, 0, 1, 4, 5] {
            let bits = |entry: &Entry| match usize::try_from(at).ok() {
                Some(at) => entry.elements.get(at).copied().ok_or(18),
                None => Err(18),
            };
            let stored = first.map_or(Err(16), bits);
            let answer = read::read_entry(file, attribute, kind, number, at);
            let data_type = first.map_or(DATA_TYPES[0], |entry| entry.data_type);
            let what = format!("attribute {attribute} kind {kind} entry {number}");
            assert_right(model, data_type, stored, answer, &what);
            tally(&mut found, answer);
        }
    }
    found
}

#[test]
fn entries_are_the_models() {
    let mut found = [0, 0];
    for seed in 0..FILES {
        let (model, file) = build::mixed(seed);
        for (number, attribute) in model.attributes.iter().enumerate() {
            for kind in [5, 9] {
                let entries = attribute.entries(kind);
                let more = check_entries(&model, &file, number as i64, kind, entries);
                found = sum(found, more);
            }
        }
        let beyond = model.attributes.len() as i64;
        assert_eq!(read::read_entry(&file, beyond, 5, 0, 0), Err(15), "seed {seed}");
        assert_eq!(read::read_entry(&file, -1, 9, 0, 0), Err(15), "seed {seed}");
        assert_eq!(read::read_entry(&file, 0, 3, 0, 0), Err(15), "seed {seed}");
    }
    assert!(found[0] > 1000 && found[1] > 500, "{found:?}");
}

fn name_bytes(file: &[u8], name: Name) -> &[u8] {
    &file[name.offset as usize..(name.offset + name.length) as usize]
}

fn check_variable(file: &[u8], kind: i64, number: i64, of: &Variable) {
    let found = read::variable(file, kind, number).expect("a variable");
    assert_eq!(found.data_type, of.data_type);
    assert_eq!((found.max_rec, found.s_records), (of.max_rec, of.s_records));
    assert_eq!((found.elements, found.number), (of.elements, number));
    assert_eq!(found.flags, i64::from(of.record_variance) + 2 * i64::from(of.pad.is_some()));
    assert_eq!((&found.sizes, &found.variances), (&of.sizes, &of.variances));
    assert_eq!(name_bytes(file, found.name), of.name);
    let dimensions = of.sizes.len() as i64;
    let own = |answer: i64| if kind == 8 { Ok(answer) } else { Err(18) };
    assert_eq!(read::dimension_count(file, kind, number), own(dimensions));
    for (at, (size, varies)) in (0..).zip(of.sizes.iter().zip(&of.variances)) {
        assert_eq!(read::dimension_size(file, kind, number, at), own(*size));
        assert_eq!(read::variance(file, kind, number, at), Ok(-i64::from(*varies)));
    }
    for at in [-1, dimensions] {
        assert_eq!(read::dimension_size(file, kind, number, at), Err(18));
        assert_eq!(read::variance(file, kind, number, at), Err(18));
    }
}

fn check_attribute(file: &[u8], number: i64, of: &Attribute) {
    let found = read::attribute(file, number).expect("an attribute");
    let greatest = |list: &[Entry]| list.iter().map(|entry| entry.number).max().unwrap_or(-1);
    assert_eq!((found.scope, found.number), (of.scope, number));
    assert_eq!(found.gr_entries, of.gr_entries.len() as i64);
    assert_eq!(found.z_entries, of.z_entries.len() as i64);
    assert_eq!(found.gr_maximum, greatest(&of.gr_entries));
    assert_eq!(found.z_maximum, greatest(&of.z_entries));
    assert_eq!(name_bytes(file, found.name), of.name);
    for kind in [5, 9] {
        for entry in of.entries(kind) {
            let first = of.entries(kind).iter().find(|other| other.number == entry.number);
            let found = read::entry(file, number, kind, entry.number).expect("an entry");
            assert_eq!((found.attribute, found.number), (number, entry.number));
            assert_eq!(Some(found.data_type), first.map(|first| first.data_type));
            let elements = first.map(|first| first.elements.len() as i64);
            assert_eq!(Some(found.elements), elements);
        }
    }
}

#[test]
fn descriptors_are_the_models() {
    for seed in 0..FILES {
        let (model, file) = build::any(seed);
        assert_eq!(read::majority(&file), Ok(i64::from(model.row_majority)));
        assert_eq!(read::encoding(&file), Ok(model.encoding));
        assert_eq!(read::r_dimensions(&file).as_ref(), Ok(&model.r_sizes));
        assert_eq!(read::r_dimension_size(&file, -1), Err(18));
        assert_eq!(read::r_dimension_size(&file, model.r_sizes.len() as i64), Err(18));
        let counts = read::counts(&file).expect("counts");
        assert_eq!(counts.r_variables, model.r_variables.len() as i64);
        assert_eq!(counts.z_variables, model.z_variables.len() as i64);
        assert_eq!(counts.attributes, model.attributes.len() as i64);
        for kind in [3, 8] {
            for (number, of) in (0..).zip(model.variables(kind)) {
                check_variable(&file, kind, number, of);
            }
            let beyond = model.variables(kind).len() as i64;
            assert_eq!(read::variable(&file, kind, beyond), Err(15));
            assert_eq!(read::variable(&file, kind, -1), Err(15));
        }
        for (number, of) in (0..).zip(&model.attributes) {
            check_attribute(&file, number, of);
        }
        assert_eq!(read::attribute(&file, counts.attributes), Err(15));
        assert_eq!(read::variable(&file, 5, 0), Err(15));
    }
}

/// Counts the sorts of VAX floats.
fn count_sorts(counts: &mut BTreeMap<(Kind, &str), usize>, kind: Kind, patterns: &[u64]) {
    for name in patterns.iter().flat_map(|pattern| kind.sorts(*pattern)) {
        *counts.entry((kind, name)).or_insert(0) += 1;
    }
}

/// VAX floats of every sort are built as values, as pad values and as elements of entries.
#[test]
fn every_sort_of_vax_float_is_built() {
    let mut counts = [BTreeMap::new(), BTreeMap::new(), BTreeMap::new()];
    for model in (0..FILES).map(|seed| build::mixed(seed).0) {
        let kind = |data_type: DataType| Kind::of(model.encoding.number, data_type.number);
        for variable in model.r_variables.iter().chain(&model.z_variables) {
            let Some(kind) = kind(variable.data_type) else { continue };
            for values in variable.values() {
                count_sorts(&mut counts[0], kind, &values.records.concat());
            }
            count_sorts(&mut counts[1], kind, variable.pad.as_deref().unwrap_or(&[]));
        }
        let entries = |of: &Attribute| [of.gr_entries.clone(), of.z_entries.clone()].concat();
        for entry in model.attributes.iter().flat_map(entries) {
            let Some(kind) = kind(entry.data_type) else { continue };
            count_sorts(&mut counts[2], kind, &entry.elements);
        }
    }
    let sorts = 3 + 6 + 7;
    for counts in counts {
        assert!(counts.len() == sorts && counts.values().all(|count| *count > 5), "{counts:?}");
    }
}

/// What the builder must have made at least once.
#[derive(Default)]
struct Seen {
    types: [Vec<i64>; 2],
    encodings: Vec<i64>,
    happened: [bool; 17],
}

impl Seen {
    fn look(&mut self, model: &File) {
        self.encodings.push(model.encoding.number);
        self.happened[0] |= model.listed_unused.len() > 1;
        self.happened[1] |= model.unlisted_unused.iter().any(|size| *size < 16);
        self.happened[2] |= model.r_sizes.len() == 10;
        self.happened[3] |= !model.row_majority;
        for (seen, list) in self.types.iter_mut().zip([&model.r_variables, &model.z_variables]) {
            seen.extend(list.iter().map(|variable| variable.data_type.number));
        }
        for variable in model.r_variables.iter().chain(&model.z_variables) {
            self.look_at_variable(variable);
        }
        for attribute in &model.attributes {
            let numbers: Vec<i64> = attribute.gr_entries.iter().map(|entry| entry.number).collect();
            self.happened[10] |= numbers.len() > 1 && numbers[1..].contains(&numbers[0]);
            self.happened[11] |= attribute.z_entries.len() > 1;
        }
    }

    fn look_at_variable(&mut self, variable: &Variable) {
        let values = variable.values();
        let gap = values.windows(2).any(|pair| pair[1].first > pair[0].last() + 1);
        self.happened[4] |= gap;
        self.happened[5] |=
            variable.chain.iter().filter(|index| index.entries.len() > 1).count() > 1;
        self.happened[6] |= variable.chain.iter().any(|index| index.spare > 0);
        self.happened[7] |= variable.chain.iter().any(|index| index.entries.is_empty());
        self.happened[8] |= !variable.record_variance && variable.max_rec > 0;
        self.happened[9] |= variable.pad.is_some() && variable.variances.contains(&false);
        variable.chain.iter().for_each(|index| self.look_at_levels(index));
    }

    fn look_at_levels(&mut self, index: &Index) {
        self.happened[12] |= index.levels() == 8;
        for lower in index.all().into_iter().flat_map(Index::lower) {
            let (first, last) = (lower.index.entries.first(), lower.index.entries.last());
            self.happened[13] |= first.is_none();
            self.happened[14] |= first.is_some_and(|first| first.first() > lower.first);
            self.happened[15] |= last.is_some_and(|last| last.last() < lower.last);
            self.happened[16] |= lower.index.entries.len() > 1;
        }
    }
}

#[test]
fn every_kind_of_file_is_built() {
    let mut seen = Seen::default();
    for seed in 0..500 {
        seen.look(&build::any(seed).0);
    }
    for data_type in DATA_TYPES {
        assert!(seen.types.iter().all(|types| types.contains(&data_type.number)), "{data_type:?}");
    }
    assert!(ENCODINGS.iter().all(|encoding| seen.encodings.contains(&encoding.number)));
    assert_eq!(seen.happened, [true; 17]);
}
