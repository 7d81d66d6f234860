//! Questions to a reader, of every call: put to the proved reader and to the second one, and answered in one form.

use crate::bindings::{self, FILE_PADDING, RESERVED_OPERAND};
use crate::build::random::Random;
use crate::damage;
use crate::second::bytes::{field, unsigned};
use crate::second::read;
use crate::second::rules::{Attribute, Entry, Name, Variable};
use crate::second::tables::Form;
use crate::second::vax::{D_FLOAT, F_FLOAT, G_FLOAT};
use crate::vax::Kind;
use std::fmt;

/// A question: a call of the reader with its numbers.
#[derive(Clone, Debug, PartialEq, Eq)]
pub enum Question {
    /// kind, number, record, indices, element.
    Value(i64, i64, i64, Vec<i64>, i64),
    /// kind, number, record.
    Levels(i64, i64, i64),
    /// attribute, kind, entry number, element.
    Entry(i64, i64, i64, i64),
    /// kind, number, element.
    Pad(i64, i64, i64),
    /// what is asked.
    File(u64),
    /// dimension of the rVariables.
    Dimension(i64),
    /// kind, number, offset of the field.
    Variable(i64, i64, u64),
    /// kind, number, dimension.
    Size(i64, i64, i64),
    /// kind, number, dimension.
    Variance(i64, i64, i64),
    /// kind, number.
    VariableName(i64, i64),
    /// number, offset of the field.
    Attribute(i64, u64),
    /// number.
    AttributeName(i64),
    /// attribute, kind, entry number, offset of the field.
    EntryField(i64, i64, i64, u64),
    /// attribute, kind, place, offset of the field.
    EntryAt(i64, i64, u64, u64),
    /// attribute, kind, place, element.
    EntryValueAt(i64, i64, u64, i64),
}

/// What is given: a value's kind, bits and offset, a field, or a name's offset and length.
#[derive(Clone, Copy, Debug, PartialEq, Eq)]
pub enum Given {
    /// Kind, bits, offset.
    Value(u64, u64, u64),
    /// A field.
    Field(i64),
    /// Offset and length.
    Name(u64, u64),
}

/// What is given, or the number of a refusal.
pub type Answer = Result<Given, i32>;

impl fmt::Display for Question {
    fn fmt(&self, out: &mut fmt::Formatter) -> fmt::Result {
        write!(out, "{self:?}")
    }
}

/// The proved reader's answer.
pub fn proved(file: &[u8], question: &Question) -> Answer {
    use Question::*;
    let value = |given: bindings::Value| Given::Value(given.kind, given.bits, given.offset);
    let field = |given: i32| Given::Field(i64::from(given));
    let name = |given: bindings::Name| Given::Name(given.offset, given.length);
    match question {
        Value(kind, number, record, indices, element) => {
            bindings::read_value(file, *kind, *number, *record, indices, *element).map(value)
        }
        Levels(kind, number, record) => {
            bindings::read_levels(file, *kind, *number, *record).map(field)
        }
        Entry(attribute, kind, entry, element) => {
            bindings::read_entry(file, *attribute, *kind, *entry, *element).map(value)
        }
        Pad(kind, number, element) => bindings::read_pad(file, *kind, *number, *element).map(value),
        File(what) => bindings::read_file(file, *what).map(field),
        Dimension(dimension) => bindings::read_dimension(file, *dimension).map(field),
        Variable(kind, number, at) => bindings::read_variable(file, *kind, *number, *at).map(field),
        Size(kind, number, of) => bindings::read_size(file, *kind, *number, *of).map(field),
        Variance(kind, number, of) => bindings::read_variance(file, *kind, *number, *of).map(field),
        VariableName(kind, number) => bindings::read_variable_name(file, *kind, *number).map(name),
        Attribute(number, at) => bindings::read_attribute(file, *number, *at).map(field),
        AttributeName(number) => bindings::read_attribute_name(file, *number).map(name),
        EntryField(attribute, kind, entry, at) => {
            bindings::read_entry_field(file, *attribute, *kind, *entry, *at).map(field)
        }
        EntryAt(attribute, kind, place, at) => {
            bindings::read_entry_at(file, *attribute, *kind, *place, *at).map(field)
        }
        EntryValueAt(attribute, kind, place, element) => {
            bindings::read_entry_value_at(file, *attribute, *kind, *place, *element).map(value)
        }
    }
}

/// A shown field, or 18.
fn shown(field: Option<i64>) -> Result<Given, u32> {
    field.map(Given::Field).ok_or(18)
}

/// What the file says of itself, by the second reader.
fn file_field(file: &[u8], what: u64) -> Result<Given, u32> {
    let counts = read::counts(file)?;
    shown(match what {
        0 => Some(read::majority(file)?),
        1 => Some(read::encoding(file)?.number),
        2 => Some(counts.r_variables),
        3 => Some(counts.z_variables),
        4 => Some(counts.attributes),
        5 => i64::try_from(read::r_dimensions(file)?.len()).ok(),
        FILE_PADDING => Some(read::padding(file)?),
        _ => None,
    })
}

/// A field of a VDR by its offset; the dimension count is a zVDR's alone.
fn variable_field(kind: i64, of: &Variable, at: u64) -> Option<i64> {
    match at {
        12 => Some(of.data_type.number),
        16 => Some(of.max_rec),
        28 => Some(of.flags),
        32 => Some(of.s_records),
        48 => Some(of.elements),
        52 => Some(of.number),
        128 if kind == 8 => i64::try_from(of.sizes.len()).ok(),
        _ => None,
    }
}

fn attribute_field(of: &Attribute, at: u64) -> Option<i64> {
    match at {
        16 => Some(of.scope),
        20 => Some(of.number),
        24 => Some(of.gr_entries),
        28 => Some(of.gr_maximum),
        40 => Some(of.z_entries),
        44 => Some(of.z_maximum),
        _ => None,
    }
}

fn entry_field(of: &Entry, at: u64) -> Option<i64> {
    match at {
        12 => Some(of.attribute),
        16 => Some(of.data_type.number),
        20 => Some(of.number),
        24 => Some(of.elements),
        _ => None,
    }
}

/// The second reader's answer.
pub fn second(file: &[u8], question: &Question) -> Answer {
    use Question::*;
    let value = |given: read::Answer| Given::Value(given.kind, given.bits, given.offset);
    let name = |of: Name| Given::Name(of.offset as u64, of.length as u64);
    let at_place = |place: &u64| i64::try_from(*place).unwrap_or(i64::MAX);
    let answer = match question {
        Value(kind, number, record, indices, element) => {
            read::read_value(file, *kind, *number, *record, indices, *element).map(value)
        }
        Levels(kind, number, record) => {
            read::levels(file, *kind, *number, *record).map(Given::Field)
        }
        Entry(attribute, kind, entry, element) => {
            read::read_entry(file, *attribute, *kind, *entry, *element).map(value)
        }
        Pad(kind, number, element) => read::read_pad(file, *kind, *number, *element).map(value),
        File(what) => file_field(file, *what),
        Dimension(of) => read::r_dimension_size(file, *of).map(Given::Field),
        Variable(kind, number, at) => read::variable(file, *kind, *number)
            .and_then(|of| shown(variable_field(*kind, &of, *at))),
        Size(kind, number, of) => read::dimension_size(file, *kind, *number, *of).map(Given::Field),
        Variance(kind, number, of) => read::variance(file, *kind, *number, *of).map(Given::Field),
        VariableName(kind, number) => read::variable(file, *kind, *number).map(|of| name(of.name)),
        Attribute(number, at) => {
            read::attribute(file, *number).and_then(|of| shown(attribute_field(&of, *at)))
        }
        AttributeName(number) => read::attribute(file, *number).map(|of| name(of.name)),
        EntryField(attribute, kind, entry, at) => {
            read::entry(file, *attribute, *kind, *entry).and_then(|of| shown(entry_field(&of, *at)))
        }
        EntryAt(attribute, kind, place, at) => {
            read::entry_at_place(file, *attribute, *kind, at_place(place))
                .and_then(|of| shown(entry_field(&of, *at)))
        }
        EntryValueAt(attribute, kind, place, element) => {
            read::read_entry_at_place(file, *attribute, *kind, at_place(place), *element).map(value)
        }
    };
    answer.map_err(|refusal| refusal as i32)
}

/// The numbers with which a reader refuses.
pub const REFUSALS: [i32; 6] = [15, 16, 17, 18, 20, 22];

/// Both answers, if they are one; else both in words.
pub fn agreed(file: &[u8], question: &Question) -> Result<Answer, String> {
    let (ours, other) = (proved(file, question), second(file, question));
    if ours != other {
        return Err(format!("{question}: proved {ours:?}, second {other:?}"));
    }
    let right = |number: &i32| REFUSALS.contains(number);
    if !ours.as_ref().err().is_none_or(right) {
        return Err(format!("{question}: answered {ours:?}"));
    }
    Ok(ours)
}

/// The kind that VAX floats are answered as.
const DOUBLE: u64 = Form::Double.number();

/// What both readers answer for the value of a record, of a zVariable without dimensions: a double's bits or a refusal.
pub fn agreed_double(file: &[u8], number: i64, record: i64) -> Result<Result<u64, i32>, String> {
    let question = Question::Value(8, number, record, Vec::new(), 0);
    match agreed(file, &question)? {
        Ok(Given::Value(DOUBLE, bits, _)) => Ok(Ok(bits)),
        Ok(other) => Err(format!("{question}: {other:?} is no double")),
        Err(refusal) => Ok(Err(refusal)),
    }
}

/// What the second implementation answers for the pattern of a VAX float: a double's bits or 22.
pub fn second_double(kind: Kind, pattern: u64) -> Result<u64, i32> {
    let of_kind = match kind {
        Kind::F => F_FLOAT,
        Kind::D => D_FLOAT,
        Kind::G => G_FLOAT,
    };
    let bytes = pattern.to_le_bytes();
    of_kind.double(&bytes[..kind.bits() as usize / 8]).ok_or(RESERVED_OPERAND)
}

/// The kind of VAX float that a question asks for; nothing if it is none, or if the variable or entry is not there.
pub fn vax_kind(file: &[u8], question: &Question) -> Option<Kind> {
    use Question::*;
    let data_type = match question {
        Value(kind, number, ..) | Pad(kind, number, _) => {
            read::variable(file, *kind, *number).ok()?.data_type
        }
        Entry(attribute, kind, entry, _) => {
            read::entry(file, *attribute, *kind, *entry).ok()?.data_type
        }
        EntryValueAt(attribute, kind, place, _) => {
            let place = i64::try_from(*place).ok()?;
            read::entry_at_place(file, *attribute, *kind, place).ok()?.data_type
        }
        _ => return None,
    };
    Kind::of(read::encoding(file).ok()?.number, data_type.number)
}

/// File offset of the element that a question asks for, whatever is stored there; nothing if there is no such element.
fn element_offset(file: &[u8], question: &Question) -> Option<i64> {
    use Question::*;
    let (first, elements, size, element) = match question {
        Value(kind, number, record, indices, element) => {
            let of = read::variable(file, *kind, *number).ok()?;
            let first = read::value_offset(file, *kind, *number, *record, indices).ok()?;
            (first, of.elements, of.data_type.size, element)
        }
        Pad(kind, number, element) => {
            let of = read::variable(file, *kind, *number).ok()?;
            (of.pad?, of.elements, of.data_type.size, element)
        }
        Entry(attribute, kind, entry, element) => {
            let of = read::entry(file, *attribute, *kind, *entry).ok()?;
            (of.value, of.elements, of.data_type.size, element)
        }
        EntryValueAt(attribute, kind, place, element) => {
            let place = i64::try_from(*place).ok()?;
            let of = read::entry_at_place(file, *attribute, *kind, place).ok()?;
            (of.value, of.elements, of.data_type.size, element)
        }
        _ => return None,
    };
    (0..elements).contains(element).then_some(first + element * size)
}

/// Judges the answer to a question for a VAX float, 22 too, by the bytes of the file and the plainest statement: the float's
/// kind and sorts; nothing if no VAX float is asked for, or if it is refused for another reason. A 22 where no VAX float is
/// asked for is an error.
pub fn vax_float(
    file: &[u8],
    question: &Question,
    answer: Answer,
) -> Result<Option<(Kind, Vec<&'static str>)>, String> {
    let wrong = |what: &str| format!("{question}: {answer:?}: {what}");
    let Some(kind) = vax_kind(file, question) else {
        return match answer {
            Err(RESERVED_OPERAND) => Err(wrong("no VAX float is asked for")),
            _ => Ok(None),
        };
    };
    let (bits, offset) = match answer {
        Ok(Given::Value(DOUBLE, bits, offset)) => (Ok(bits), i64::try_from(offset).ok()),
        Ok(_) => return Err(wrong("no double")),
        Err(RESERVED_OPERAND) => (Err(RESERVED_OPERAND), element_offset(file, question)),
        Err(_) => return Ok(None),
    };
    let stored = |at| unsigned(file, at, (kind.bits() / 8) as i64, true);
    let pattern = offset.and_then(stored).ok_or_else(|| wrong("no such element"))?;
    kind.judge(pattern, bits).map_err(|what| wrong(&what))?;
    Ok(Some((kind, kind.sorts(pattern))))
}

/// The most variables, attributes, entries of a list and records that are asked for VAX floats.
const MOST: i64 = 8;

/// Questions for the VAX floats of a file, if it has such an encoding: pad values, values and elements of entries.
pub fn for_vax_floats(file: &[u8], random: &mut Random) -> Vec<Question> {
    if read::encoding(file).map_or(true, |of| of.vax_double.is_none()) {
        return Vec::new();
    }
    let mut found = Vec::new();
    for (kind, number) in [3, 8].iter().flat_map(|kind| (0..MOST).map(|number| (*kind, number))) {
        let Ok(of) = read::variable(file, kind, number) else { continue };
        found.push(Question::Pad(kind, number, 0));
        for record in 0..(of.max_rec + 1).min(MOST) {
            let indices = of.sizes.iter().map(|size| random.below(*size)).collect();
            found.push(Question::Value(kind, number, record, indices, 0));
        }
    }
    let lists = (0..MOST).flat_map(|attribute| [(attribute, 5), (attribute, 9)]);
    for ((attribute, kind), place) in lists.flat_map(|list| (0..MOST).map(move |at| (list, at))) {
        let Ok(of) = read::entry_at_place(file, attribute, kind, place) else { continue };
        let elements = 0..of.elements.min(MOST);
        found.extend(elements.map(|at| Question::EntryValueAt(attribute, kind, place as u64, at)));
        found.push(Question::Entry(attribute, kind, of.number, 0));
    }
    found.retain(|question| vax_kind(file, question).is_some());
    found
}

/// Numbers that no good question has, and some that it may have.
const EDGES: [i64; 18] = [
    i64::MIN,
    -4_294_967_296,
    -2_147_483_649,
    -2_147_483_648,
    -2,
    -1,
    0,
    1,
    2,
    121,
    2_147_483_646,
    2_147_483_647,
    2_147_483_648,
    4_294_967_295,
    4_294_967_296,
    4_294_967_297,
    i64::MAX - 1,
    i64::MAX,
];

/// Kinds: those of variables and entries, other record types, and numbers that are equal to them in their lower bits.
const KINDS: [i64; 14] =
    [3, 8, 5, 9, 0, -1, 4, 6, 7, 4_294_967_299, 4_294_967_304, 259, i64::MIN, i64::MAX];

/// What can be asked for by a small number: now and then an edge.
fn small(random: &mut Random, most: i64) -> i64 {
    if random.once_in(6) {
        return random.one_of(&EDGES).copied().unwrap_or(0);
    }
    random.between(0, most)
}

/// Now and then a number from the file's own fields, so that entries and records of any number are met.
fn own_number(file: &[u8], random: &mut Random, most: i64) -> i64 {
    if !random.once_in(3) {
        return small(random, most);
    }
    let records = damage::records(file);
    let record = random.one_of(&records).map_or(8, |found| found.offset);
    let at = record.saturating_add(4 * random.size_below(16));
    i64::try_from(at).ok().and_then(|at| field(file, at)).unwrap_or(0)
}

fn kind(random: &mut Random, right: [i64; 2]) -> i64 {
    if random.once_in(8) {
        return random.one_of(&KINDS).copied().unwrap_or(0);
    }
    right[random.size_below(2)]
}

/// Offsets of fields: all that are shown, their neighbours and others.
fn offset(random: &mut Random) -> u64 {
    const SHOWN: [u64; 14] = [12, 16, 20, 24, 28, 32, 36, 40, 44, 48, 52, 64, 128, 132];
    match random.below(6) {
        0 => random.number(),
        1 => random.number() % 200,
        _ => random.one_of(&SHOWN).copied().unwrap_or(16),
    }
}

/// As many indices as the variable has dimensions, below their sizes, most of the time.
fn indices(file: &[u8], kind: i64, number: i64, random: &mut Random) -> Vec<i64> {
    let sizes = read::variable(file, kind, number).map_or(Vec::new(), |of| of.sizes);
    let mut found: Vec<i64> = sizes.iter().map(|size| random.below(*size)).collect();
    if random.once_in(6) {
        let place = random.size_below(found.len().max(1));
        let wrong = small(random, 3);
        found.iter_mut().skip(place).take(1).for_each(|index| *index = wrong);
    }
    match random.below(12) {
        0 => found.push(small(random, 2)),
        1 => drop(found.pop()),
        2 => found.resize(random.size_below(14), 0),
        _ => (),
    }
    found
}

/// A variable: mostly one that the file says is there.
fn any_variable(file: &[u8], random: &mut Random) -> (i64, i64) {
    let kind = kind(random, [3, 8]);
    let said = read::counts(file).map_or(0, |of| match kind {
        3 => of.r_variables,
        _ => of.z_variables,
    });
    let number = if random.once_in(3) { small(random, 3) } else { random.below(said.min(8)) };
    (kind, number)
}

/// A record number: mostly one that the variable has.
fn any_record(file: &[u8], kind: i64, number: i64, random: &mut Random) -> i64 {
    let greatest = read::variable(file, kind, number).map_or(-1, |of| of.max_rec);
    match random.below(4) {
        0 | 1 if greatest >= 0 => random.between(0, greatest.min(60)),
        2 if greatest >= 0 => greatest,
        _ => own_number(file, random, 8),
    }
}

/// Any question about a variable.
fn of_variable(file: &[u8], random: &mut Random) -> Question {
    let (kind, number) = any_variable(file, random);
    match random.below(11) {
        0..=3 => {
            let indices = indices(file, kind, number, random);
            let record = any_record(file, kind, number, random);
            Question::Value(kind, number, record, indices, small(random, 1))
        }
        9 | 10 => Question::Levels(kind, number, any_record(file, kind, number, random)),
        4 => Question::Pad(kind, number, small(random, 2)),
        5 => Question::Variable(kind, number, offset(random)),
        6 => Question::Size(kind, number, small(random, 3)),
        7 => Question::Variance(kind, number, small(random, 3)),
        _ => Question::VariableName(kind, number),
    }
}

/// Any question about an attribute.
fn of_attribute(file: &[u8], random: &mut Random) -> Question {
    let (attribute, kind) = (small(random, 3), kind(random, [5, 9]));
    match random.below(7) {
        0 | 1 => {
            let entry = own_number(file, random, 4);
            Question::Entry(attribute, kind, entry, small(random, 4))
        }
        2 => Question::EntryField(attribute, kind, own_number(file, random, 4), offset(random)),
        3 => Question::EntryAt(attribute, kind, small(random, 4) as u64, offset(random)),
        4 => {
            let place = small(random, 4) as u64;
            Question::EntryValueAt(attribute, kind, place, small(random, 4))
        }
        5 => Question::Attribute(attribute, offset(random)),
        _ => Question::AttributeName(attribute),
    }
}

/// Any question about a file: mostly of what is there.
pub fn any(file: &[u8], random: &mut Random) -> Question {
    match random.below(12) {
        0 => Question::File(random.number() % 8),
        1 => Question::File(small(random, 6) as u64),
        2 => Question::Dimension(small(random, 3)),
        3..=7 => of_variable(file, random),
        _ => of_attribute(file, random),
    }
}

/// The call of a question, in a word.
pub fn call(question: &Question) -> &'static str {
    match question {
        Question::Value(..) => "value",
        Question::Levels(..) => "levels",
        Question::Entry(..) => "entry",
        Question::Pad(..) => "pad",
        Question::File(..) => "file",
        Question::Dimension(..) => "dimension",
        Question::Variable(..) => "variable",
        Question::Size(..) => "size",
        Question::Variance(..) => "variance",
        Question::VariableName(..) => "variable name",
        Question::Attribute(..) => "attribute",
        Question::AttributeName(..) => "attribute name",
        Question::EntryField(..) => "entry field",
        Question::EntryAt(..) => "entry at",
        Question::EntryValueAt(..) => "entry value at",
    }
}

/// How many calls there are.
pub const CALLS: usize = 15;

/// Questions that go through the edges of every number, one number at a time.
pub fn edges() -> Vec<Question> {
    let mut all = Vec::new();
    for edge in EDGES {
        all.extend(edge_of_variables(edge));
        all.extend(edge_of_attributes(edge));
        all.extend([Question::File(edge as u64), Question::Dimension(edge)]);
    }
    for kind in KINDS {
        all.extend(edge_of_kinds(kind));
    }
    for at in (0..=200).chain([u64::MAX, 1 << 32, (1 << 32) + 16, u64::MAX - 15]) {
        all.extend([3, 8].map(|kind| Question::Variable(kind, 0, at)));
        all.extend([Question::Attribute(0, at), Question::EntryField(0, 5, 0, at)]);
        all.extend([Question::EntryAt(0, 5, 0, at), Question::EntryAt(0, 9, 0, at)]);
    }
    all
}

fn edge_of_variables(edge: i64) -> Vec<Question> {
    let of = |kind| {
        vec![
            Question::Value(kind, edge, 0, Vec::new(), 0),
            Question::Value(kind, 0, edge, Vec::new(), 0),
            Question::Value(kind, 0, 0, Vec::new(), edge),
            Question::Value(kind, 0, 0, vec![edge], 0),
            Question::Value(kind, 0, 0, vec![edge, 0], 0),
            Question::Value(kind, 0, 0, vec![0, edge], 0),
            Question::Value(kind, 0, 0, vec![0; edge.clamp(0, 40) as usize], 0),
            Question::Levels(kind, edge, 0),
            Question::Levels(kind, 0, edge),
            Question::Pad(kind, edge, 0),
            Question::Pad(kind, 0, edge),
            Question::Variable(kind, edge, 12),
            Question::Size(kind, edge, 0),
            Question::Size(kind, 0, edge),
            Question::Variance(kind, edge, 0),
            Question::Variance(kind, 0, edge),
            Question::VariableName(kind, edge),
        ]
    };
    [3, 8].into_iter().flat_map(of).collect()
}

fn edge_of_attributes(edge: i64) -> Vec<Question> {
    let of = |kind| {
        vec![
            Question::Entry(edge, kind, 0, 0),
            Question::Entry(0, kind, edge, 0),
            Question::Entry(0, kind, 0, edge),
            Question::EntryField(edge, kind, 0, 16),
            Question::EntryField(0, kind, edge, 16),
            Question::EntryAt(edge, kind, 0, 16),
            Question::EntryAt(0, kind, edge as u64, 16),
            Question::EntryValueAt(edge, kind, 0, 0),
            Question::EntryValueAt(0, kind, edge as u64, 0),
            Question::EntryValueAt(0, kind, 0, edge),
        ]
    };
    let plain = [Question::Attribute(edge, 16), Question::AttributeName(edge)];
    [5, 9].into_iter().flat_map(of).chain(plain).collect()
}

fn edge_of_kinds(kind: i64) -> Vec<Question> {
    vec![
        Question::Value(kind, 0, 0, Vec::new(), 0),
        Question::Value(kind, -1, -1, vec![-1], -1),
        Question::Levels(kind, 0, 0),
        Question::Levels(kind, -1, -1),
        Question::Pad(kind, 0, 0),
        Question::Variable(kind, 0, 12),
        Question::Variable(kind, 0, 128),
        Question::Variable(kind, 0, 13),
        Question::Size(kind, 0, 0),
        Question::Variance(kind, 0, 0),
        Question::VariableName(kind, 0),
        Question::Entry(0, kind, 0, 0),
        Question::Entry(-1, kind, 0, 0),
        Question::EntryField(0, kind, 0, 16),
        Question::EntryField(0, kind, 0, 17),
        Question::EntryAt(0, kind, 0, 16),
        Question::EntryValueAt(0, kind, 0, 0),
    ]
}
