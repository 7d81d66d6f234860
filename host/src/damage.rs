//! Damages good files: control fields, links, indexes of several levels, length, eof and padding.

use crate::build::random::Random;
use crate::build::records::put;
use crate::second::bytes::field;
use crate::second::rules::{body, Record, MOST_PADDING};

/// File offset of the CDR's link to the GDR.
const GDR_LINK: usize = 16;

/// One damage to a file.
#[derive(Clone, Debug, PartialEq, Eq)]
pub enum Damage {
    /// A control field gets another value.
    Field {
        /// File offset of the field.
        offset: usize,
        /// The value.
        value: i64,
    },
    /// The file ends early.
    Cut {
        /// Its new length.
        length: usize,
        /// The GDR's eof is made to agree.
        eof: bool,
    },
    /// Bytes follow the file.
    Grow {
        /// How many.
        by: usize,
        /// The GDR's eof is made to agree.
        eof: bool,
    },
}

/// A record of a good file.
#[derive(Clone, Copy, Debug, PartialEq, Eq)]
pub struct Found {
    /// File offset of its start.
    pub offset: usize,
    /// Its size.
    pub size: usize,
    /// Its type.
    pub record_type: i64,
}

/// The records of a good file in file order.
pub fn records(file: &[u8]) -> Vec<Found> {
    records_from(body(file), 8)
}

/// What looks like records in the padding, from the file's end on.
fn images(file: &[u8]) -> Vec<Found> {
    records_from(file, body(file).len() as i64)
}

/// The records that stand one behind the other from an offset on.
fn records_from(bytes: &[u8], mut offset: i64) -> Vec<Found> {
    let mut found = Vec::new();
    while let Some(record) = Record::at(bytes, offset).filter(Record::is_inside) {
        found.push(Found {
            offset: usize::try_from(offset).unwrap_or(0),
            size: usize::try_from(record.size).unwrap_or(0),
            record_type: record.record_type.unwrap_or(0),
        });
        offset += record.size;
    }
    found
}

/// Bytes at a record's start that hold control fields only, names and values left out.
fn leading_control(record_type: i64) -> usize {
    match record_type {
        1 => 48,
        2 => usize::MAX,
        3 | 8 => 64,
        4 => 52,
        5 | 9 => 48,
        6 => usize::MAX,
        7 => 8,
        _ => 16,
    }
}

/// File offsets of a record's control fields.
pub fn control_fields(file: &[u8], record: &Found) -> Vec<usize> {
    let mut ends = vec![(0, leading_control(record.record_type).min(record.size))];
    if matches!(record.record_type, 3 | 8) {
        ends.push((128, record.size - pad_bytes(file, record)));
    }
    let inside = ends.iter().flat_map(|(start, end)| (*start..*end).step_by(4));
    inside.filter(|at| at + 4 <= record.size).map(|at| record.offset + at).collect()
}

/// Bytes of a VDR's pad value: what its dimensions leave.
fn pad_bytes(file: &[u8], vdr: &Found) -> usize {
    let own = number(file, vdr.offset + 128);
    let gdr = number(file, GDR_LINK);
    let dimensions = number(file, usize::try_from(gdr).unwrap_or(0) + 36);
    let fixed = if vdr.record_type == 8 { 132 + 8 * own } else { 128 + 4 * dimensions };
    vdr.size.saturating_sub(usize::try_from(fixed).unwrap_or(0))
}

fn number(file: &[u8], offset: usize) -> i64 {
    i64::try_from(offset).ok().and_then(|at| field(file, at)).unwrap_or(0)
}

/// Where in a record its links stand.
fn link_offsets(file: &[u8], record: &Found) -> Vec<usize> {
    match record.record_type {
        1 => vec![8],
        2 => vec![8, 12, 16, 44],
        3 | 8 => vec![8, 20, 24],
        4 => vec![8, 12, 36],
        5 | 9 => vec![8],
        6 => index_links(file, record),
        -1 if record.size >= 16 => vec![8, 12],
        _ => Vec::new(),
    }
}

/// A VXR's next and the offsets of its used entries.
fn index_links(file: &[u8], vxr: &Found) -> Vec<usize> {
    let entries = usize::try_from(number(file, vxr.offset + 12)).unwrap_or(0);
    let used = usize::try_from(number(file, vxr.offset + 16)).unwrap_or(0);
    let offsets = (0..used.min(vxr.size)).map(|entry| 20 + 8 * entries + 4 * entry);
    offsets.chain([8]).collect()
}

/// File offsets of all links in use, VXRtail and a listed UIR's previous among them.
pub fn links(file: &[u8]) -> Vec<usize> {
    let found = records(file);
    let listed = listed_unused(file);
    let in_use = |record: &&Found| record.record_type != -1 || listed.contains(&record.offset);
    let of = |record: &Found| -> Vec<usize> {
        link_offsets(file, record).into_iter().map(|at| record.offset + at).collect()
    };
    found.iter().filter(in_use).flat_map(of).collect()
}

/// File offsets of the UIRs on a good file's list.
fn listed_unused(file: &[u8]) -> Vec<usize> {
    let mut listed = Vec::new();
    let mut link = number(file, usize::try_from(number(file, GDR_LINK)).unwrap_or(0) + 44);
    while let Ok(offset) = usize::try_from(link) {
        if offset == 0 || listed.contains(&offset) {
            break;
        }
        listed.push(offset);
        link = number(file, offset + 8);
    }
    listed
}

fn to_value(offset: usize, value: i64) -> Damage {
    Damage::Field { offset, value }
}

/// The edge values, and the field's own value one less and one more.
fn edge_values(own: i64) -> [i64; 11] {
    let least = i64::from(i32::MIN);
    let greatest = i64::from(i32::MAX);
    [least, -2, -1, 0, 1, 7, 8, own - 1, own + 1, greatest, greatest - 1]
}

/// Every control field, the magics too, set to every edge value.
pub fn edge_damages(file: &[u8]) -> Vec<Damage> {
    let found = records(file);
    let fields = found.iter().flat_map(|record| control_fields(file, record)).chain([0, 4]);
    let of = |offset: usize| edge_values(number(file, offset)).map(|value| to_value(offset, value));
    fields.flat_map(of).collect()
}

/// These fields, each set to each of these values.
fn every_value(fields: Vec<usize>, values: &[i64]) -> Vec<Damage> {
    let of = |offset: usize| values.iter().map(move |value| to_value(offset, *value));
    fields.into_iter().flat_map(of).collect()
}

/// File offsets of all records.
fn starts(file: &[u8]) -> Vec<i64> {
    records(file).iter().filter_map(|record| i64::try_from(record.offset).ok()).collect()
}

/// Every control field set to every record's start.
pub fn start_damages(file: &[u8]) -> Vec<Damage> {
    let found = records(file);
    let fields = found.iter().flat_map(|record| control_fields(file, record)).collect();
    every_value(fields, &starts(file))
}

/// Every link set to every record's start and to an offset behind it: cross links and rings.
pub fn link_damages(file: &[u8]) -> Vec<Damage> {
    let targets: Vec<i64> = starts(file).into_iter().flat_map(|to| [to, to + 4]).collect();
    every_value(links(file), &targets)
}

/// Every record's next link set to the record itself and to those of its type: rings.
pub fn ring_damages(file: &[u8]) -> Vec<Damage> {
    let found = records(file);
    let has_next = |record: &&Found| matches!(record.record_type, 3..=6 | 8 | 9);
    let of = |from: &Found| -> Vec<Damage> {
        let same = found.iter().filter(|to| to.record_type == from.record_type);
        let targets = same.filter_map(|to| i64::try_from(to.offset).ok());
        targets.map(|to| to_value(from.offset + 8, to)).collect()
    };
    found.iter().filter(has_next).flat_map(of).collect()
}

/// The file cut short and made longer, eof agreeing or not.
pub fn length_damages(file: &[u8]) -> Vec<Damage> {
    let found = records(file);
    let starts = found.iter().flat_map(|record| [record.offset, record.offset + 7]);
    let round = [0, 7, 8, 311, 312, 371, 372, file.len().saturating_sub(1)].into_iter();
    let cuts = starts.chain(round).filter(|length| *length < file.len());
    let cut = |length: usize| [false, true].map(|eof| Damage::Cut { length, eof });
    let grow = |by: usize| [false, true].map(|eof| Damage::Grow { by, eof });
    cuts.flat_map(cut).chain([1, 4, 7, 8, 9, 16, 511, 512].into_iter().flat_map(grow)).collect()
}

/// Magics, CDR and GDR at values that the opening tells apart.
pub fn opening_damages(file: &[u8]) -> Vec<Damage> {
    let gdr = usize::try_from(number(file, GDR_LINK)).unwrap_or(312);
    let magics = [(4, 0xCCCC_0001), (4, 0x0000_FFFE), (0, 0xCDF2_6001), (0, 0)];
    let cdr = [(8, 305), (12, 3), (20, 3), (28, 8), (28, 10), (32, 0), (32, 1), (32, 7), (16, 311)];
    let gdr_fields = [20, 24, 28, 32, 36, 40].map(|at| (gdr + at, -2));
    let eofs = eof_values(file).into_iter().map(|eof| (eof_offset(file), eof));
    let all = magics.into_iter().chain(cdr).chain(gdr_fields).chain(eofs);
    all.map(|(offset, value)| to_value(offset, value)).collect()
}

/// A VXR of a file and where it stands in its index.
#[derive(Clone, Copy, Debug, PartialEq, Eq)]
pub struct Node {
    /// File offset of the VXR.
    pub offset: usize,
    /// Its level: 1 in the top chain.
    pub level: usize,
    /// File offset of the variable's VDR.
    pub owner: usize,
    /// The VXR and the entry that name it, below the top chain.
    pub named_by: Option<(usize, usize)>,
}

/// A used entry of a VXR.
#[derive(Clone, Copy, Debug, PartialEq, Eq)]
struct Used {
    /// File offsets of its First, Last and Offset.
    at: [usize; 3],
    /// What these hold.
    holds: [i64; 3],
}

/// The deepest index that is looked through.
const DEEPEST: usize = 9;

/// All VXRs of a good file's indexes, each above those that it names.
pub fn nodes(file: &[u8]) -> Vec<Node> {
    let mut found = Vec::new();
    for vdr in records(file).iter().filter(|record| matches!(record.record_type, 3 | 8)) {
        let mut link = number(file, vdr.offset + 20);
        while let Some(offset) = index_at(file, link) {
            if found.iter().any(|node: &Node| node.offset == offset) {
                break;
            }
            let top = Node { offset, level: 1, owner: vdr.offset, named_by: None };
            add_nodes(file, top, &mut found);
            link = number(file, offset + 8);
        }
    }
    found
}

/// A node and those below it.
fn add_nodes(file: &[u8], node: Node, found: &mut Vec<Node>) {
    found.push(node);
    if node.level == DEEPEST {
        return;
    }
    for (entry, used) in used_entries(file, node.offset).iter().enumerate() {
        if let Some(offset) = index_at(file, used.holds[2]) {
            let (level, named_by) = (node.level + 1, Some((node.offset, entry)));
            add_nodes(file, Node { offset, level, named_by, ..node }, found);
        }
    }
}

/// File offset of the VXR that a link leads to, if it does.
fn index_at(file: &[u8], link: i64) -> Option<usize> {
    let offset = usize::try_from(link).ok().filter(|offset| *offset >= 8)?;
    (number(file, offset + 4) == 6).then_some(offset)
}

/// The used entries of the VXR at an offset, as many as lie in the file.
fn used_entries(file: &[u8], vxr: usize) -> Vec<Used> {
    let entries = usize::try_from(number(file, vxr + 12)).unwrap_or(0);
    let used = usize::try_from(number(file, vxr + 16)).unwrap_or(0);
    let of = |entry: usize| {
        let at = [0, 1, 2].map(|column| vxr + 20 + 4 * (column * entries + entry));
        Used { at, holds: at.map(|at| number(file, at)) }
    };
    let in_file = |entry: &Used| entry.at[2] + 4 <= file.len();
    (0..used).map(of).take_while(in_file).collect()
}

/// Indexes of several levels: lower nexts, ranges that leave those above or touch, types exchanged, entries that name
/// other index records, MaxRec where no values are.
pub fn tree_damages(file: &[u8]) -> Vec<Damage> {
    let all = nodes(file);
    let mut damages = Vec::new();
    for node in &all {
        let used = used_entries(file, node.offset);
        if let Some((above, entry)) = node.named_by {
            let naming = used_entries(file, above).get(entry).copied();
            damages.extend(naming.iter().flat_map(|naming| lower_damages(node, naming, &used)));
        }
        let others = all.iter().filter(|other| other.owner == node.owner);
        let others: Vec<i64> = others.filter_map(|other| other.offset.try_into().ok()).collect();
        let owner = i64::try_from(node.owner).unwrap_or(0);
        let targets: Vec<i64> = others.into_iter().chain([0, owner, owner + 4]).collect();
        damages.extend(used.iter().flat_map(|entry| naming_damages(file, entry, &targets)));
    }
    damages
}

/// What is done to a lower VXR, to the entry that names it and to its ranges.
fn lower_damages(node: &Node, naming: &Used, used: &[Used]) -> Vec<Damage> {
    let [first, last, own] = naming.holds;
    let nexts = [own, 8, 1, -1].map(|next| to_value(node.offset + 8, next));
    let [first_at, last_at, _] = naming.at;
    let narrower = [to_value(first_at, first + 1), to_value(last_at, last - 1)];
    let wider = [to_value(first_at, first - 1), to_value(last_at, last + 1)];
    let max_rec = [first, last].map(|record| to_value(node.owner + 16, record));
    let outside = used.iter().flat_map(|entry| {
        let [first_at, last_at, _] = entry.at;
        [to_value(first_at, first - 1), to_value(first_at, first), to_value(last_at, last + 1)]
    });
    let touching = used.windows(2).flat_map(|pair| {
        let (before, behind) = (pair[0].holds, pair[1].holds);
        [to_value(pair[1].at[0], before[1]), to_value(pair[0].at[1], behind[0])]
    });
    let own_changes = nexts.into_iter().chain(narrower).chain(wider).chain(max_rec);
    own_changes.chain(outside).chain(touching).collect()
}

/// What is done to a used entry: the type of what it names is exchanged, or it names something else: another VXR of its
/// index, the VDR, or no record.
fn naming_damages(file: &[u8], entry: &Used, others: &[i64]) -> Vec<Damage> {
    let named = usize::try_from(entry.holds[2]).unwrap_or(0);
    let other_type = if number(file, named + 4) == 6 { 7 } else { 6 };
    let exchanged = std::iter::once(to_value(named + 4, other_type));
    exchanged.chain(others.iter().map(|other| to_value(entry.at[2], *other))).collect()
}

/// File offset of the GDR's eof, where the CDR's link says.
pub fn eof_offset(file: &[u8]) -> usize {
    usize::try_from(number(file, GDR_LINK)).unwrap_or(1).saturating_add(20)
}

/// Values of eof that the rules tell apart: about the edges of the window, about the GDR's end, about every record's.
pub fn eof_values(file: &[u8]) -> Vec<i64> {
    let (length, gdr) = (file.len() as i64, number(file, GDR_LINK));
    let window = [length - MOST_PADDING - 1, length - MOST_PADDING, length, length + 1];
    let ends = records(file).into_iter().map(|record| (record.offset + record.size) as i64);
    let about = ends.flat_map(|end| [end - 1, end, end + 1]);
    let of_gdr = [gdr + 59, gdr + 60, gdr + 61, gdr + 99, gdr + 100];
    let far = [i64::from(i32::MIN), -1, 0, 1, length + MOST_PADDING, i64::from(i32::MAX)];
    window.into_iter().chain(about).chain(of_gdr).chain(far).collect()
}

/// Offsets from the file's end on, those of what looks like a record among them.
pub fn padding_offsets(file: &[u8]) -> Vec<i64> {
    let (end, length) = (body(file).len() as i64, file.len() as i64);
    let images = images(file).into_iter().map(|image| image.offset as i64);
    images.chain([end, end + 1, length - 8, length - 1, length].map(|at| at.max(end))).collect()
}

/// eof about all that it is compared with; links into the padding; a last record that runs into it; other bytes in it;
/// gaps up to the greatest and past it.
pub fn padding_damages(file: &[u8]) -> Vec<Damage> {
    let (end, length) = (body(file).len(), file.len());
    let mut damages = every_value(vec![eof_offset(file)], &eof_values(file));
    damages.extend(every_value(links(file), &padding_offsets(file)));
    if let Some(last) = records(file).last() {
        let ends = [end - 1, end + 1, end + 8, length, length + 1];
        damages.extend(ends.map(|to| to_value(last.offset, to as i64 - last.offset as i64)));
    }
    damages.extend((end..length).step_by(29).map(|offset| to_value(offset, -1)));
    let gaps = [510, 511, 512, 513, 1024].into_iter();
    let grown = gaps.filter_map(|gap| (end + gap).checked_sub(length));
    damages.extend(grown.map(|by| Damage::Grow { by, eof: false }));
    damages
}

/// Damages of all kinds.
pub fn all_damages(file: &[u8]) -> Vec<Damage> {
    let mut all = edge_damages(file);
    all.extend(link_damages(file));
    all.extend(tree_damages(file));
    all.extend(length_damages(file));
    all.extend(padding_damages(file));
    all
}

/// One to three of these damages.
pub fn some_of(damages: &[Damage], random: &mut Random) -> Vec<Damage> {
    let count = random.between(1, 3);
    (0..count).filter_map(|_| random.one_of(damages).cloned()).collect()
}

/// The file with the damage done.
pub fn damaged(file: &[u8], damage: &Damage) -> Vec<u8> {
    let mut bytes = file.to_vec();
    match damage {
        Damage::Field { offset, value } => put(&mut bytes, *offset, *value),
        Damage::Cut { length, eof } => {
            bytes.truncate(*length);
            agree(&mut bytes, *eof);
        }
        Damage::Grow { by, eof } => {
            bytes.resize(bytes.len().saturating_add(*by), 0);
            agree(&mut bytes, *eof);
        }
    }
    bytes
}

/// Sets the GDR's eof to the length, if asked for and if there is one.
fn agree(file: &mut [u8], eof: bool) {
    let length = i64::try_from(file.len()).unwrap_or(0);
    if eof {
        put(file, eof_offset(file), length);
    }
}
