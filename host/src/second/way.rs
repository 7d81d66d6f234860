//! The reader's way to an answer (docs/RULES.md, section 13): CDR and GDR, a list to the
//! wanted place, then the index, level by level, or the list of entries.

use super::bytes::{field, length, range, sign_extended, unsigned};
use super::rules::{self, Attribute, Bounds, Entry, Header, Index, IndexEntry, Record, Variable};
use super::tables::{
    entry_kind, record_type, variable_kind, DataType, EntryKind, Form, VariableKind,
};
use super::vax::VaxFloat;

/// The way breaks a rule, or is too long.
pub const BROKEN: u32 = 20;
/// No such variable or attribute.
pub const NO_OBJECT: u32 = 15;
/// No such record or entry number.
pub const NO_NUMBER: u32 = 16;
/// The record number lies in a gap of the index.
pub const GAP: u32 = 17;
/// Dimension index or element out of range, or wrong number of indices.
pub const OUT_OF_RANGE: u32 = 18;
/// A VAX float whose exponent is zero and whose sign is set.
pub const RESERVED_OPERAND: u32 = 22;

/// A value read: its kind, its bits and the file offset of its lowest byte.
#[derive(Clone, Copy, Debug, PartialEq, Eq)]
pub struct Answer {
    /// 0 signed, 1 unsigned, 2 single, 3 double, 4 character code.
    pub kind: u64,
    /// Signed values sign-extended to 64 bits; floats their own bits, zero-extended; VAX floats the double's bits.
    pub bits: u64,
    /// File offset the value was read from.
    pub offset: u64,
}

/// The most levels of an index, the top chain included.
const MOST_LEVELS: i64 = 8;

/// Which entry of an attribute is wanted.
#[derive(Clone, Copy, Debug)]
pub enum Wanted {
    /// The first of this entry number.
    Number(i64),
    /// The one at this place of the list, from 0.
    Place(i64),
}

/// The way so far.
pub struct Way<'a> {
    /// The file up to its end.
    file: &'a [u8],
    /// The length of the whole file.
    length: i64,
    /// What CDR and GDR say.
    pub header: Header,
    met: i64,
}

impl<'a> Way<'a> {
    /// CDR and GDR: a file that the opening refuses gives 20.
    pub fn open(file: &'a [u8]) -> Result<Way<'a>, u32> {
        if !rules::length_carried(file) {
            return Err(BROKEN);
        }
        let header = rules::opening(file).map_err(|_| BROKEN)?;
        Ok(Way { file: rules::body(file), length: length(file), header, met: 2 })
    }

    /// One record more may be met: not more than length/8 of them.
    fn may_meet(&self) -> bool {
        (self.met + 1).saturating_mul(8) <= self.length
    }

    /// Bytes from the file's end on.
    pub fn padding(&self) -> i64 {
        self.length - length(self.file)
    }

    /// Meets the record a link leads to: at 8 or above, of the right type, inside the file.
    fn meet(&mut self, link: i64, record_type: i64) -> Result<Record<'a>, u32> {
        if !self.may_meet() || link < 8 {
            return Err(BROKEN);
        }
        self.met += 1;
        Record::at(self.file, link)
            .filter(|record| record.record_type == Some(record_type) && record.is_inside())
            .ok_or(BROKEN)
    }

    /// A field on the way.
    fn needed(&self, offset: i64) -> Result<i64, u32> {
        field(self.file, offset).ok_or(BROKEN)
    }

    /// Goes along one of the GDR's lists to a place, judging every record met.
    fn place<T>(
        &mut self,
        head: i64,
        record_type: i64,
        place: i64,
        judge: impl Fn(&Record, &Header) -> Result<T, u32>,
    ) -> Result<T, u32> {
        let mut link_field = self.header.gdr + head;
        let mut left = place;
        while left >= 0 {
            let link = self.needed(link_field)?;
            if link == 0 {
                return Err(NO_OBJECT);
            }
            let record = self.meet(link, record_type)?;
            let found = judge(&record, &self.header)?;
            if left == 0 {
                return Ok(found);
            }
            left -= 1;
            link_field = link + 8;
        }
        Err(NO_OBJECT)
    }

    /// The variable of this kind and number: its kind and its VDR.
    pub fn variable(
        &mut self,
        kind: i64,
        number: i64,
    ) -> Result<(&'static VariableKind, Variable), u32> {
        let kind = variable_kind(kind).ok_or(NO_OBJECT)?;
        let judge = |record: &Record, header: &Header| {
            if rules::is_compressed(record) {
                return Err(BROKEN);
            }
            rules::variable(record, kind, header.gdr).map_err(|_| BROKEN)
        };
        let variable = self.place(kind.head, kind.record_type, number, judge)?;
        Ok((kind, variable))
    }

    /// The attribute of this number.
    pub fn attribute(&mut self, number: i64) -> Result<Attribute, u32> {
        let judge = |record: &Record, _: &Header| rules::attribute(record).map_err(|_| BROKEN);
        self.place(16, record_type::ADR, number, judge)
    }

    /// An attribute's entry of this kind.
    pub fn entry(&mut self, attribute: i64, kind: i64, wanted: Wanted) -> Result<Entry, u32> {
        let kind = entry_kind(kind).ok_or(NO_OBJECT)?;
        let adr = self.attribute(attribute)?;
        self.listed_entry(adr.offset + kind.head, kind, wanted)
    }

    /// Goes along a list of entries to the wanted one; 16 at its end.
    fn listed_entry(&mut self, head: i64, kind: &EntryKind, wanted: Wanted) -> Result<Entry, u32> {
        let mut link = self.needed(head)?;
        let mut place = 0;
        while link != 0 {
            let record = self.meet(link, kind.record_type)?;
            let entry = rules::entry(&record).map_err(|_| BROKEN)?;
            let found = match wanted {
                Wanted::Number(number) => entry.number == number,
                Wanted::Place(wanted) => place == wanted,
            };
            if found {
                return Ok(entry);
            }
            place += 1;
            link = self.needed(link + 8)?;
        }
        Err(NO_NUMBER)
    }

    /// File offset of the first byte of a variable's record: 16, then the index and the VVR.
    pub fn record(&mut self, variable: &Variable, record: i64) -> Result<i64, u32> {
        let wanted = stored_record(variable, record)?;
        let (entry, _) = self.lowest_entry(variable.vxr_head, wanted)?;
        let vvr = self.meet(entry.offset, record_type::VVR)?;
        rules::values(&vvr, &entry, variable.record_bytes).map_err(|_| BROKEN)?;
        Ok(vvr.offset + 8 + (wanted - entry.first) * variable.record_bytes)
    }

    /// How many levels the index has on the way to a variable's record: 16, then the index; the VVR is not met.
    pub fn levels(&mut self, variable: &Variable, record: i64) -> Result<i64, u32> {
        let wanted = stored_record(variable, record)?;
        Ok(self.lowest_entry(variable.vxr_head, wanted)?.1)
    }

    /// The lowest used entry that covers the record, and its level: the entry of the top chain, and from it down; 17 at
    /// the end of the chain or of a lower record.
    fn lowest_entry(&mut self, head: i64, record: i64) -> Result<(IndexEntry, i64), u32> {
        let mut entry = self.top_entry(head, record)?;
        for level in 1..=MOST_LEVELS {
            if !self.names_index(entry.offset) {
                return Ok((entry, level));
            }
            if level < MOST_LEVELS {
                entry = self.lower_entry(&entry, record)?;
            }
        }
        Err(BROKEN)
    }

    /// The used entry of the top chain that covers the record; 17 at its end.
    fn top_entry(&mut self, head: i64, record: i64) -> Result<IndexEntry, u32> {
        let mut link = head;
        let mut within = Bounds { floor: 0, ceiling: None };
        while link != 0 {
            let vxr = self.meet(link, record_type::VXR)?;
            let index = rules::index(&vxr).map_err(|_| BROKEN)?;
            if let Some(entry) = self.covering_entry(&index, record, &mut within)? {
                return Ok(entry);
            }
            link = self.needed(link + 8)?;
        }
        Err(GAP)
    }

    /// The used entry, of the lower VXR that an entry names, that covers the record; 17 if none does.
    fn lower_entry(&mut self, naming: &IndexEntry, record: i64) -> Result<IndexEntry, u32> {
        let vxr = self.meet(naming.offset, record_type::VXR)?;
        let index = rules::index(&vxr).map_err(|_| BROKEN)?;
        if rules::next_index(&vxr).map_err(|_| BROKEN)? != 0 {
            return Err(BROKEN);
        }
        let mut within = Bounds { floor: naming.first, ceiling: Some(naming.last) };
        self.covering_entry(&index, record, &mut within)?.ok_or(GAP)
    }

    /// The used entry of a VXR that covers the record; those before it rise within the bounds, which move on with them.
    fn covering_entry(
        &self,
        index: &Index,
        record: i64,
        within: &mut Bounds,
    ) -> Result<Option<IndexEntry>, u32> {
        for number in 0..index.used {
            let entry = index.entry(self.file, number, *within).map_err(|_| BROKEN)?;
            if entry.covers(record) {
                return Ok(Some(entry));
            }
            *within = within.behind(entry.last);
        }
        Ok(None)
    }

    /// An entry's link leads to an index record.
    fn names_index(&self, link: i64) -> bool {
        let found = Record::at(self.file, link).and_then(|record| record.record_type);
        link >= 8 && found == Some(record_type::VXR)
    }

    /// The element at this offset, decoded: 22 for a reserved operand.
    pub fn value(&self, data_type: DataType, offset: i64) -> Result<Answer, u32> {
        let encoding = self.header.encoding;
        let bits = match encoding.vax_float(data_type.form) {
            Some(kind) => self.vax_bits(kind, offset)?,
            None => self.plain_bits(data_type, offset)?,
        };
        let kind = encoding.answered(data_type.form).number();
        let offset = u64::try_from(offset).map_err(|_| BROKEN)?;
        Ok(Answer { kind, bits, offset })
    }

    /// The bits of a double for the VAX float at this offset.
    fn vax_bits(&self, kind: &VaxFloat, offset: i64) -> Result<u64, u32> {
        let bytes = range(self.file, offset, kind.size).ok_or(BROKEN)?;
        kind.double(bytes).ok_or(RESERVED_OPERAND)
    }

    /// The bits of an element that is no VAX float.
    fn plain_bits(&self, data_type: DataType, offset: i64) -> Result<u64, u32> {
        let little_endian = self.header.encoding.little_endian;
        let number = unsigned(self.file, offset, data_type.size, little_endian).ok_or(BROKEN)?;
        Ok(match data_type.form {
            Form::Signed => sign_extended(number, data_type.size),
            _ => number,
        })
    }
}

/// The stored record that a record number asks for: 16 if it is not from 0 to MaxRec; with record variance clear it is
/// record 0 for every number from 0 on, and 16 if there is none.
fn stored_record(variable: &Variable, record: i64) -> Result<i64, u32> {
    let varies = variable.record_variance();
    let greatest = if varies { variable.max_rec } else { i64::MAX };
    if variable.max_rec == -1 || !(0..=greatest).contains(&record) {
        return Err(NO_NUMBER);
    }
    Ok(if varies { record } else { 0 })
}

/// The place of a value in its record: 18 for wrong indices. Only varying dimensions move it.
pub fn place_in_record(variable: &Variable, row: bool, indices: &[i64]) -> Result<i64, u32> {
    let sizes = &variable.sizes;
    let in_range = |(index, size): (&i64, &i64)| (0..*size).contains(index);
    if indices.len() != sizes.len() || !indices.iter().zip(sizes).all(in_range) {
        return Err(OUT_OF_RANGE);
    }
    let steps = indices.iter().zip(sizes).zip(&variable.variances);
    let varying = steps.filter(|(_, varies)| **varies).map(|(step, _)| step);
    let add = |place: i64, (index, size): (&i64, &i64)| place * size + index;
    Ok(if row { varying.fold(0, add) } else { varying.rev().fold(0, add) })
}
