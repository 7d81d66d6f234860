//! What a good file holds, before it is bytes.

use super::random::Random;
use crate::second::rules::MOST_PADDING;
use crate::second::tables::{
    data_type, encoding, DataType, Encoding, Form, DATA_TYPES, ENCODINGS, GREATEST,
};
use crate::vax::Kind;

/// A good file: its descriptors, variables, attributes and unused records.
#[derive(Clone, Debug)]
pub struct File {
    /// Encoding of all values.
    pub encoding: Encoding,
    /// Row majority, else column.
    pub row_majority: bool,
    /// Dimension sizes of the rVariables.
    pub r_sizes: Vec<i64>,
    /// rVariables.
    pub r_variables: Vec<Variable>,
    /// zVariables.
    pub z_variables: Vec<Variable>,
    /// Attributes.
    pub attributes: Vec<Attribute>,
    /// Sizes of the UIRs on the list, each 16 or more.
    pub listed_unused: Vec<usize>,
    /// Sizes of the unused records on no list, each 8 or more.
    pub unlisted_unused: Vec<usize>,
    /// Bytes of padding behind eof, at most 511.
    pub padding: usize,
    /// Seed of the bytes that are not read, in fields and in the padding; 0 for zero bytes.
    pub noise: u64,
}

/// A variable.
#[derive(Clone, Debug)]
pub struct Variable {
    /// Its name, at most 64 bytes.
    pub name: Vec<u8>,
    /// Data type.
    pub data_type: DataType,
    /// Elements of a value.
    pub elements: i64,
    /// Record variance.
    pub record_variance: bool,
    /// Kind of sparse records, 0 to 2.
    pub s_records: i64,
    /// MaxRec.
    pub max_rec: i64,
    /// The pad value's elements, as bits.
    pub pad: Option<Vec<u64>>,
    /// Dimension sizes; those of an rVariable equal the file's.
    pub sizes: Vec<i64>,
    /// Dimension variances.
    pub variances: Vec<bool>,
    /// The VXRs in chain order.
    pub chain: Vec<Index>,
}

/// A VXR, of the top chain or a lower one.
#[derive(Clone, Debug, Default)]
pub struct Index {
    /// Used entries.
    pub entries: Vec<IndexEntry>,
    /// Entries not in use.
    pub spare: i64,
}

/// A used index entry.
#[derive(Clone, Debug)]
pub enum IndexEntry {
    /// It names values.
    Values(Values),
    /// It names a lower VXR.
    Lower(Lower),
}

/// A range of record numbers and the lower VXR that its entry names.
#[derive(Clone, Debug)]
pub struct Lower {
    /// First record number.
    pub first: i64,
    /// Last record number.
    pub last: i64,
    /// The lower VXR, whose ranges lie in this one.
    pub index: Index,
}

/// The values that a used index entry names: its range and its VVR.
#[derive(Clone, Debug)]
pub struct Values {
    /// First record number.
    pub first: i64,
    /// Each record's elements as bits, in the order of the bytes.
    pub records: Vec<Vec<u64>>,
}

impl Values {
    /// Last record number.
    pub fn last(&self) -> i64 {
        self.first + i64::try_from(self.records.len()).unwrap_or(0) - 1
    }
}

impl IndexEntry {
    /// First record number.
    pub fn first(&self) -> i64 {
        match self {
            IndexEntry::Values(values) => values.first,
            IndexEntry::Lower(lower) => lower.first,
        }
    }

    /// Last record number.
    pub fn last(&self) -> i64 {
        match self {
            IndexEntry::Values(values) => values.last(),
            IndexEntry::Lower(lower) => lower.last,
        }
    }

    /// All values that it names, itself or below.
    fn values(&self) -> Vec<&Values> {
        match self {
            IndexEntry::Values(values) => vec![values],
            IndexEntry::Lower(lower) => lower.index.values(),
        }
    }
}

impl Index {
    /// The VXR whose entries name these values, without spare entries.
    pub fn of(values: Vec<Values>) -> Index {
        Index { entries: values.into_iter().map(IndexEntry::Values).collect(), spare: 0 }
    }

    /// A VXR of one entry that names this one, its range being just that of the entries below; 0 to 0 if there are none.
    pub fn above(index: Index) -> Index {
        let first = index.entries.first().map_or(0, IndexEntry::first);
        let last = index.entries.last().map_or(0, IndexEntry::last);
        Index { entries: vec![IndexEntry::Lower(Lower { first, last, index })], spare: 0 }
    }

    /// An index of so many levels, 1 or more: one entry a level, and these values in the lowest.
    pub fn of_levels(values: Vec<Values>, levels: usize) -> Index {
        (1..levels).fold(Index::of(values), |index, _| Index::above(index))
    }

    /// The lower VXRs that its entries name.
    pub fn lower(&self) -> impl Iterator<Item = &Lower> {
        self.entries.iter().filter_map(|entry| match entry {
            IndexEntry::Lower(lower) => Some(lower),
            IndexEntry::Values(_) => None,
        })
    }

    /// This VXR and all below it.
    pub fn all(&self) -> Vec<&Index> {
        let below = self.lower().flat_map(|lower| lower.index.all());
        std::iter::once(self).chain(below).collect()
    }

    /// All values that it or a VXR below names, in order.
    pub fn values(&self) -> Vec<&Values> {
        self.entries.iter().flat_map(IndexEntry::values).collect()
    }

    /// Goes over every element of its values, below too.
    fn all_elements(&mut self, each: &mut dyn FnMut(&mut u64)) {
        for entry in &mut self.entries {
            match entry {
                IndexEntry::Values(values) => {
                    values.records.iter_mut().flatten().for_each(&mut *each)
                }
                IndexEntry::Lower(lower) => lower.index.all_elements(each),
            }
        }
    }

    /// How many levels it has, itself included.
    pub fn levels(&self) -> usize {
        1 + self.lower().map(|lower| lower.index.levels()).max().unwrap_or(0)
    }

    /// The level at which a record's values are named, this VXR being the first; nothing if they are not.
    pub fn level_of(&self, record: i64) -> Option<i64> {
        let covers = |entry: &&IndexEntry| (entry.first()..=entry.last()).contains(&record);
        match self.entries.iter().find(covers)? {
            IndexEntry::Values(_) => Some(1),
            IndexEntry::Lower(lower) => lower.index.level_of(record).map(|below| below + 1),
        }
    }
}

/// An attribute.
#[derive(Clone, Debug)]
pub struct Attribute {
    /// Its name, at most 64 bytes.
    pub name: Vec<u8>,
    /// 1 global, 2 variable.
    pub scope: i64,
    /// g/rEntries in list order.
    pub gr_entries: Vec<Entry>,
    /// zEntries in list order.
    pub z_entries: Vec<Entry>,
}

/// An attribute's entry.
#[derive(Clone, Debug)]
pub struct Entry {
    /// Entry number.
    pub number: i64,
    /// Data type.
    pub data_type: DataType,
    /// Its elements as bits.
    pub elements: Vec<u64>,
}

impl File {
    /// A file without variables, attributes and unused records.
    pub fn base(encoding: Encoding) -> File {
        File {
            encoding,
            row_majority: true,
            r_sizes: Vec::new(),
            r_variables: Vec::new(),
            z_variables: Vec::new(),
            attributes: Vec::new(),
            listed_unused: Vec::new(),
            unlisted_unused: Vec::new(),
            padding: 0,
            noise: 0,
        }
    }

    /// A base in an encoding with VAX floats of this kind, and the data types that are such floats.
    pub fn base_of(kind: Kind) -> (File, Vec<DataType>) {
        let number = [14, 3, 15][kind as usize];
        let is_float = |of: &DataType| Kind::of(number, of.number) == Some(kind);
        let file = File::base(encoding(number).unwrap_or(ENCODINGS[0]));
        (file, DATA_TYPES.into_iter().filter(is_float).collect())
    }

    /// Any good file.
    pub fn any(random: &mut Random) -> File {
        let encoding = random.one_of(&ENCODINGS).copied().unwrap_or(ENCODINGS[0]);
        let mut file = File::base(encoding);
        file.row_majority = random.once_in(2);
        file.noise = random.number() >> 1;
        file.r_sizes = any_sizes(random);
        for _ in 0..random.below(4) {
            file.r_variables.push(Variable::any(random, file.r_sizes.clone()));
        }
        for _ in 0..random.below(4) {
            let sizes = any_sizes(random);
            file.z_variables.push(Variable::any(random, sizes));
        }
        for _ in 0..random.below(4) {
            file.attributes.push(Attribute::any(random));
        }
        file.listed_unused = any_unused(random, 16);
        file.unlisted_unused = any_unused(random, 8);
        file.padding = any_padding(random);
        file.draw_vax_floats(random);
        file
    }

    /// Any good file with VAX floats: most types of variables and entries are those of floats.
    pub fn any_vax(random: &mut Random) -> File {
        let mut file = File::any(random);
        let vax: Vec<Encoding> =
            ENCODINGS.iter().copied().filter(|of| of.vax_double.is_some()).collect();
        file.encoding = random.one_of(&vax).copied().unwrap_or(file.encoding);
        for variable in file.r_variables.iter_mut().chain(&mut file.z_variables) {
            if variable.elements == 1 && !random.once_in(4) {
                variable.data_type = any_float_type(random);
            }
        }
        for entry in file.attributes.iter_mut().flat_map(Attribute::all_entries) {
            if !random.once_in(4) {
                entry.data_type = any_float_type(random);
            }
        }
        file.draw_all(random);
        file
    }

    /// Gives each element that is a VAX float a pattern that is drawn as one.
    pub fn draw_vax_floats(&mut self, random: &mut Random) {
        if self.encoding.vax_double.is_some() {
            self.draw_elements(random, |kind, random, _, bits| {
                if let Some(kind) = kind {
                    *bits = kind.any(random);
                }
            });
        }
    }

    /// Draws every element anew.
    fn draw_all(&mut self, random: &mut Random) {
        self.draw_elements(random, |kind, random, data_type, bits| {
            *bits = match kind {
                Some(kind) => kind.any(random),
                None => any_bits(random, data_type),
            };
        });
    }

    /// Goes over every element: of values, pad values and entries.
    fn draw_elements(
        &mut self,
        random: &mut Random,
        draw: impl Fn(Option<Kind>, &mut Random, DataType, &mut u64),
    ) {
        let encoding = self.encoding.number;
        let mut each = |data_type: DataType, bits: &mut u64| {
            draw(Kind::of(encoding, data_type.number), random, data_type, bits)
        };
        for variable in self.r_variables.iter_mut().chain(&mut self.z_variables) {
            let data_type = variable.data_type;
            variable.all_elements(&mut |bits| each(data_type, bits));
        }
        for entry in self.attributes.iter_mut().flat_map(Attribute::all_entries) {
            let data_type = entry.data_type;
            entry.elements.iter_mut().for_each(|bits| each(data_type, bits));
        }
    }

    /// The variables of a kind, which is the record type of its VDRs.
    pub fn variables(&self, kind: i64) -> &[Variable] {
        if kind == 3 {
            &self.r_variables
        } else {
            &self.z_variables
        }
    }

    /// rMaxRec: the greatest MaxRec of the rVariables, or -1.
    pub fn r_max_rec(&self) -> i64 {
        self.r_variables.iter().map(|variable| variable.max_rec).max().unwrap_or(-1)
    }
}

/// Bytes of padding: mostly none, often the fewest or the most.
fn any_padding(random: &mut Random) -> usize {
    let bytes = match random.below(10) {
        0..=5 => 0,
        6 => 1,
        7 => MOST_PADDING,
        _ => random.between(1, MOST_PADDING),
    };
    usize::try_from(bytes).unwrap_or(0)
}

fn any_unused(random: &mut Random, least: i64) -> Vec<usize> {
    let count = random.below(4);
    (0..count).map(|_| usize::try_from(random.between(least, least + 40)).unwrap_or(16)).collect()
}

/// Dimension sizes: mostly few and small, now and then ten, or one that is very large.
fn any_sizes(random: &mut Random) -> Vec<i64> {
    let count = if random.once_in(20) { 10 } else { random.below(4) };
    let mut sizes: Vec<i64> = (0..count).map(|_| random.between(1, 3)).collect();
    if count == 10 {
        sizes.iter_mut().skip(3).for_each(|size| *size = 1);
    }
    if random.once_in(10) {
        sizes.iter_mut().take(1).for_each(|size| *size = GREATEST);
    }
    sizes
}

fn any_name(random: &mut Random) -> Vec<u8> {
    let length = if random.once_in(8) { 64 } else { random.below(12) };
    (0..length).map(|_| random.byte().max(1)).collect()
}

/// An element's bits in the form in which the reader answers them.
pub fn any_bits(random: &mut Random, data_type: DataType) -> u64 {
    let edge = [0, 1, 0x7f, 0x80, 0xff, 0x7fff, 0x8000, 0x8000_0000, 0x7f80_0001, u64::MAX];
    let any = random.number();
    let bits = if random.once_in(4) { random.one_of(&edge).copied().unwrap_or(0) } else { any };
    let kept = match data_type.size {
        1 => bits & 0xff,
        2 => bits & 0xffff,
        4 => bits & 0xffff_ffff,
        _ => bits,
    };
    let sign = 1_u64 << (8 * data_type.size - 1);
    if data_type.form == Form::Signed && kept & sign != 0 {
        kept | !(sign | (sign - 1))
    } else {
        kept
    }
}

/// One of the types of floats.
fn any_float_type(random: &mut Random) -> DataType {
    let number = random.one_of(&[21, 22, 31, 44, 45]).copied().unwrap_or(21);
    data_type(number).unwrap_or(DATA_TYPES[0])
}

fn any_data_type(random: &mut Random) -> DataType {
    random.one_of(&DATA_TYPES).copied().unwrap_or(DATA_TYPES[0])
}

impl Variable {
    /// A variable of these sizes without records; small dimensions vary.
    pub fn plain(data_type: DataType, sizes: Vec<i64>) -> Variable {
        Variable {
            name: Vec::new(),
            data_type,
            elements: 1,
            record_variance: true,
            s_records: 0,
            max_rec: -1,
            pad: None,
            variances: sizes.iter().map(|size| *size < 1000).collect(),
            sizes,
            chain: Vec::new(),
        }
    }

    /// A variable without dimensions, with a record for each of these elements.
    pub fn of_elements(data_type: DataType, elements: &[u64]) -> Variable {
        let values =
            Values { first: 0, records: elements.iter().map(|bits| vec![*bits]).collect() };
        Variable {
            max_rec: values.last(),
            chain: vec![Index::of(vec![values])],
            ..Variable::plain(data_type, Vec::new())
        }
    }

    /// Any variable of these sizes.
    pub fn any(random: &mut Random, sizes: Vec<i64>) -> Variable {
        let mut variable = Variable::plain(any_data_type(random), sizes);
        variable.name = any_name(random);
        if variable.data_type.form == Form::Character {
            variable.elements = random.between(1, 5);
        }
        variable.record_variance = !random.once_in(4);
        variable.s_records = random.below(3);
        for variance in variable.variances.iter_mut() {
            *variance = *variance && !random.once_in(4);
        }
        if random.once_in(2) {
            let elements = 0..variable.elements;
            variable.pad = Some(elements.map(|_| any_bits(random, variable.data_type)).collect());
        }
        let levels = any_levels(random);
        variable.index(random, levels);
        variable
    }

    /// Gives the variable any index of so many levels, and a MaxRec for it.
    pub fn index(&mut self, random: &mut Random, levels: usize) {
        self.chain = self.any_chain(random, levels);
        self.max_rec = self.any_max_rec(random);
    }

    /// Goes over every element of its pad value and its values.
    fn all_elements(&mut self, each: &mut dyn FnMut(&mut u64)) {
        self.pad.iter_mut().flatten().for_each(&mut *each);
        self.chain.iter_mut().for_each(|index| index.all_elements(each));
    }

    /// All values of its index, in order.
    pub fn values(&self) -> Vec<&Values> {
        self.chain.iter().flat_map(Index::values).collect()
    }

    /// Elements of one record: of a value, times the sizes of varying dimensions.
    pub fn record_elements(&self) -> i64 {
        let varying = self.sizes.iter().zip(&self.variances).filter(|(_, varies)| **varies);
        varying.fold(self.elements, |all, (size, _)| all.saturating_mul(*size))
    }

    /// Any chain: several VXRs, some without used entries, with gaps and spare entries; one of them with so many levels.
    fn any_chain(&self, random: &mut Random, levels: usize) -> Vec<Index> {
        let mut free = 0;
        let count = if levels > 1 { random.between(1, 3) } else { random.below(4) };
        let deepest = random.below(count);
        let mut chain = Vec::new();
        for place in 0..count {
            let levels = if place == deepest { levels } else { 1 };
            chain.push(self.any_index(random, &mut free, levels));
        }
        if random.once_in(12) {
            let last = Index::of(vec![self.any_values(random, GREATEST - 1, 2)]);
            chain.push(if random.once_in(3) { Index::above(last) } else { last });
        }
        chain
    }

    /// Any VXR of so many levels, from a free record number on, which is moved behind it.
    fn any_index(&self, random: &mut Random, free: &mut i64, levels: usize) -> Index {
        let mut index = Index { entries: Vec::new(), spare: random.below(3) };
        let count = if levels > 1 { random.between(1, 3) } else { random.below(4) };
        let deepest = random.below(count);
        for place in 0..count {
            *free += any_gap(random);
            let down = levels > 1 && (place == deepest || random.once_in(4));
            if down {
                let below = if place == deepest { levels - 1 } else { 1 };
                index.entries.push(IndexEntry::Lower(self.any_lower(random, free, below)));
            } else {
                let records = random.between(1, 4);
                index.entries.push(IndexEntry::Values(self.any_values(random, *free, records)));
                *free += records;
            }
        }
        index
    }

    /// Any lower VXR of so many levels and a range around it, often a wider one.
    fn any_lower(&self, random: &mut Random, free: &mut i64, levels: usize) -> Lower {
        let first = *free;
        *free += any_gap(random);
        let index = self.any_index(random, free, levels);
        *free += any_gap(random);
        *free = (*free).max(first + 1);
        Lower { first, last: *free - 1, index }
    }

    /// Any records from `first` on.
    pub fn any_values(&self, random: &mut Random, first: i64, count: i64) -> Values {
        let elements = self.record_elements();
        let mut record = || (0..elements).map(|_| any_bits(random, self.data_type)).collect();
        Values { first, records: (0..count).map(|_| record()).collect() }
    }

    /// A record number that an entry covers, often the last one; or -1.
    fn any_max_rec(&self, random: &mut Random) -> i64 {
        let entries = self.values();
        let Some(last) = entries.last() else {
            return -1;
        };
        match random.below(6) {
            0 => -1,
            1 | 2 => {
                let some = random.one_of(&entries).copied().unwrap_or(last);
                random.between(some.first, some.last())
            }
            _ => last.last(),
        }
    }

    /// Tuples of indices of the varying dimensions, in the order of the bytes.
    pub fn stored_tuples(&self, row_majority: bool) -> Vec<Vec<i64>> {
        let varying = self.sizes.iter().zip(&self.variances).filter(|(_, varies)| **varies);
        let mut sizes: Vec<i64> = varying.map(|(size, _)| *size).collect();
        if !row_majority {
            sizes.reverse();
        }
        let mut tuples = vec![Vec::new()];
        for size in sizes {
            tuples = tuples.iter().flat_map(|tuple| longer_tuples(tuple, size)).collect();
        }
        if !row_majority {
            tuples.iter_mut().for_each(|tuple| tuple.reverse());
        }
        tuples
    }

    /// The bits at a record, tuple of indices and element; nothing if no entry covers the record.
    pub fn bits(&self, row: bool, record: i64, indices: &[i64], element: usize) -> Option<u64> {
        let covers = |values: &&Values| (values.first..=values.last()).contains(&record);
        let all = self.values();
        let values = all.into_iter().find(covers)?;
        let moving = indices.iter().zip(&self.variances).filter(|(_, varies)| **varies);
        let wanted: Vec<i64> = moving.map(|(index, _)| *index).collect();
        let place = self.stored_tuples(row).iter().position(|tuple| *tuple == wanted)?;
        let elements = usize::try_from(self.elements).ok()?;
        let stored = values.records.get(usize::try_from(record - values.first).ok()?)?;
        stored.get(place * elements + element).copied()
    }
}

/// How many levels an index has: mostly one, now and then any number up to eight.
fn any_levels(random: &mut Random) -> usize {
    match random.below(10) {
        0..=5 => 1,
        6 => 2,
        7 => 3,
        8 => usize::try_from(random.between(4, 7)).unwrap_or(4),
        _ => 8,
    }
}

/// Record numbers that are left out: mostly none.
fn any_gap(random: &mut Random) -> i64 {
    if random.once_in(3) {
        random.below(4)
    } else {
        0
    }
}

/// The tuple with each index of one more dimension behind it.
fn longer_tuples(tuple: &[i64], size: i64) -> Vec<Vec<i64>> {
    (0..size).map(|index| tuple.iter().copied().chain([index]).collect()).collect()
}

impl Attribute {
    /// Any attribute.
    pub fn any(random: &mut Random) -> Attribute {
        Attribute {
            name: any_name(random),
            scope: random.between(1, 2),
            gr_entries: any_entries(random),
            z_entries: any_entries(random),
        }
    }

    /// All entries.
    fn all_entries(&mut self) -> impl Iterator<Item = &mut Entry> {
        self.gr_entries.iter_mut().chain(&mut self.z_entries)
    }

    /// The entries of a kind, which is the record type of its AEDRs.
    pub fn entries(&self, kind: i64) -> &[Entry] {
        if kind == 5 {
            &self.gr_entries
        } else {
            &self.z_entries
        }
    }
}

/// Any list of entries, equal numbers among them.
fn any_entries(random: &mut Random) -> Vec<Entry> {
    let count = random.below(5);
    (0..count).map(|_| any_entry(random)).collect()
}

fn any_entry(random: &mut Random) -> Entry {
    let number = if random.once_in(16) { GREATEST } else { random.below(6) };
    let data_type = any_data_type(random);
    let count = random.between(1, 5);
    Entry { number, data_type, elements: (0..count).map(|_| any_bits(random, data_type)).collect() }
}
