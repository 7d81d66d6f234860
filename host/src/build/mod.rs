//! Builds good files of every kind of record, from a model and in any order of records, padded or not.

pub mod model;
pub mod random;
pub mod records;

use crate::second::tables::{DataType, Encoding};
use model::{Attribute, Entry, File, Index, IndexEntry, Variable};
use random::Random;
use records::{Made, Records};

/// The file's bytes, records in the order CDR, GDR, variables, attributes, unused records, then the padding.
pub fn in_order(file: &File) -> Vec<u8> {
    bytes(file, None)
}

/// The file's bytes, records behind the CDR in any order, then the padding.
pub fn shuffled(file: &File, random: &mut Random) -> Vec<u8> {
    bytes(file, Some(random))
}

/// All records and the padding.
fn bytes(file: &File, shuffle: Option<&mut Random>) -> Vec<u8> {
    let mut records = records_of(file);
    let mut bytes = records.file(shuffle);
    bytes.extend(records.padding(file.padding));
    bytes
}

/// Any good file: its model and its bytes.
pub fn any(seed: u64) -> (File, Vec<u8>) {
    let mut random = Random::seeded(seed);
    let file = File::any(&mut random);
    let bytes = shuffled(&file, &mut random);
    (file, bytes)
}

/// Any good file with VAX floats.
pub fn with_vax_floats(seed: u64) -> (File, Vec<u8>) {
    let mut random = Random::seeded(seed);
    let file = File::any_vax(&mut random);
    let bytes = shuffled(&file, &mut random);
    (file, bytes)
}

/// Any good file; one in four has VAX floats for the most part.
pub fn mixed(seed: u64) -> (File, Vec<u8>) {
    match seed % 4 {
        0 => with_vax_floats(seed),
        _ => any(seed),
    }
}

/// Any file with so many bytes behind eof: good, if there are no more than 511.
pub fn with_padding(seed: u64, padding: usize) -> (File, Vec<u8>) {
    let mut random = Random::seeded(seed);
    let file = File { padding, ..File::any(&mut random) };
    let bytes = shuffled(&file, &mut random);
    (file, bytes)
}

/// Any file with a zVariable whose index has so many levels: good, if there are no more than eight.
pub fn with_levels(seed: u64, levels: usize) -> (File, Vec<u8>) {
    let mut random = Random::seeded(seed);
    let mut file = File::any(&mut random);
    let mut variable = Variable::any(&mut random, vec![2]);
    variable.index(&mut random, levels);
    let place = random.size_below(file.z_variables.len() + 1);
    file.z_variables.insert(place, variable);
    file.draw_vax_floats(&mut random);
    let bytes = shuffled(&file, &mut random);
    (file, bytes)
}

fn count<T>(list: &[T]) -> i64 {
    i64::try_from(list.len()).unwrap_or(0)
}

/// All records of a file, linked.
fn records_of(file: &File) -> Records {
    let mut records = Records::new(file.noise);
    let cdr = records.record(1, 304, &[]);
    let gdr = records.record(2, 60, &fields(&file.r_sizes));
    let flags = 2 + i64::from(file.row_majority);
    records.set(cdr, &[(12, 2), (20, file.encoding.number), (24, flags)]);
    records.link(cdr, 8, Some(gdr));
    let (r, z) = (count(&file.r_variables), count(&file.z_variables));
    let (attributes, max_rec) = (count(&file.attributes), file.r_max_rec());
    let dimensions = count(&file.r_sizes);
    records.set(gdr, &[(24, r), (28, attributes), (32, max_rec), (36, dimensions), (40, z)]);
    for (kind, head) in [(3, 8), (8, 12)] {
        let members = file.variables(kind).iter().zip(0..);
        let members: Vec<Made> = members
            .map(|(variable, number)| add_variable(&mut records, variable, kind, number, file))
            .collect();
        records.list(gdr, head, &members);
    }
    let members = file.attributes.iter().zip(0..);
    let members: Vec<Made> = members
        .map(|(attribute, number)| add_attribute(&mut records, attribute, number, file.encoding))
        .collect();
    records.list(gdr, 16, &members);
    add_unused(&mut records, gdr, file);
    records
}

/// Control fields in a row.
fn fields(numbers: &[i64]) -> Vec<u8> {
    numbers.iter().flat_map(|number| (*number as i32).to_be_bytes()).collect()
}

/// Elements in the encoding's byte order.
fn elements(bits: &[u64], data_type: DataType, encoding: Encoding) -> Vec<u8> {
    let size = usize::try_from(data_type.size).unwrap_or(0);
    let one = |bits: &u64| {
        let mut bytes: Vec<u8> = bits.to_le_bytes().into_iter().take(size).collect();
        if !encoding.little_endian {
            bytes.reverse();
        }
        bytes
    };
    bits.iter().flat_map(one).collect()
}

/// A VDR from its dimensions on: a zVariable's own, variances, pad value.
fn variable_tail(variable: &Variable, kind: i64, encoding: Encoding) -> Vec<u8> {
    let mut tail = Vec::new();
    if kind == 8 {
        tail.extend(fields(&[count(&variable.sizes)]));
        tail.extend(fields(&variable.sizes));
    }
    let variances: Vec<i64> = variable.variances.iter().map(|varies| -i64::from(*varies)).collect();
    tail.extend(fields(&variances));
    let pad = variable.pad.as_deref().unwrap_or(&[]);
    tail.extend(elements(pad, variable.data_type, encoding));
    tail
}

fn add_variable(
    records: &mut Records,
    variable: &Variable,
    kind: i64,
    number: i64,
    file: &File,
) -> Made {
    let tail = variable_tail(variable, kind, file.encoding);
    let flags = i64::from(variable.record_variance) + 2 * i64::from(variable.pad.is_some());
    let vdr = records.record(kind, 128, &tail);
    records.set(vdr, &[(12, variable.data_type.number), (16, variable.max_rec), (28, flags)]);
    records.set(vdr, &[(32, variable.s_records), (48, variable.elements), (52, number)]);
    records.set_name(vdr, 64, &variable.name);
    let chain: Vec<Made> = variable
        .chain
        .iter()
        .map(|index| add_index(records, index, variable.data_type, file.encoding))
        .collect();
    records.list(vdr, 20, &chain);
    records.link(vdr, 24, chain.last().copied());
    vdr
}

/// A VXR and what its entries name; the fields of spare entries are not read.
fn add_index(
    records: &mut Records,
    index: &Index,
    data_type: DataType,
    encoding: Encoding,
) -> Made {
    let used = index.entries.len();
    let entries = used + usize::try_from(index.spare).unwrap_or(0);
    let vxr = records.record(6, 20 + 12 * entries, &[]);
    records.set(vxr, &[(12, count(&index.entries) + index.spare), (16, count(&index.entries))]);
    for (place, entry) in index.entries.iter().enumerate() {
        let named = match entry {
            IndexEntry::Values(values) => {
                records.record(7, 8, &elements(&values.records.concat(), data_type, encoding))
            }
            IndexEntry::Lower(lower) => add_lower(records, &lower.index, data_type, encoding),
        };
        let at = 20 + 4 * place;
        records.set(vxr, &[(at, entry.first()), (at + 4 * entries, entry.last())]);
        records.link(vxr, at + 8 * entries, Some(named));
    }
    vxr
}

/// A lower VXR: there is none behind it.
fn add_lower(
    records: &mut Records,
    index: &Index,
    data_type: DataType,
    encoding: Encoding,
) -> Made {
    let vxr = add_index(records, index, data_type, encoding);
    records.link(vxr, 8, None);
    vxr
}

fn add_attribute(
    records: &mut Records,
    attribute: &Attribute,
    number: i64,
    encoding: Encoding,
) -> Made {
    let adr = records.record(4, 116, &[]);
    records.set(adr, &[(16, attribute.scope), (20, number)]);
    records.set_name(adr, 52, &attribute.name);
    for (kind, head, at) in [(5, 12, 24), (9, 36, 40)] {
        let entries = attribute.entries(kind);
        let greatest = entries.iter().map(|entry| entry.number).max().unwrap_or(-1);
        records.set(adr, &[(at, count(entries)), (at + 4, greatest)]);
        let members: Vec<Made> =
            entries.iter().map(|entry| add_entry(records, entry, kind, number, encoding)).collect();
        records.list(adr, head, &members);
    }
    adr
}

fn add_entry(
    records: &mut Records,
    entry: &Entry,
    kind: i64,
    attribute: i64,
    encoding: Encoding,
) -> Made {
    let value = elements(&entry.elements, entry.data_type, encoding);
    let aedr = records.record(kind, 48, &value);
    records.set(aedr, &[(12, attribute), (16, entry.data_type.number)]);
    records.set(aedr, &[(20, entry.number), (24, count(&entry.elements))]);
    aedr
}

/// The list of UIRs with its back links, and the unlisted ones.
fn add_unused(records: &mut Records, gdr: Made, file: &File) {
    let members: Vec<Made> =
        file.listed_unused.iter().map(|size| records.record(-1, *size, &[])).collect();
    records.list(gdr, 44, &members);
    let mut previous = None;
    for member in members {
        records.link(member, 12, previous);
        previous = Some(member);
    }
    for size in &file.unlisted_unused {
        records.record(-1, *size, &[]);
    }
}
