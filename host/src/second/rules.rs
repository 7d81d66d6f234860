//! Each record's rule (docs/RULES.md, section 5), for the checker and the reader alike, judged in the order of docs/STATE.md.

use super::bytes::{field, length};
use super::tables::{self, record_type, DataType, Encoding, VariableKind, GREATEST};
use std::ops::RangeInclusive;

/// Why a record or an index entry does not meet its rule.
#[derive(Clone, Copy, Debug, PartialEq, Eq)]
pub(crate) enum Breach {
    /// Its fields or its size are wrong, or its own size ends before a field it is judged by.
    Rule,
    /// The entry's range is wrong.
    Ranges,
    /// What is named here lies past the end of the file.
    PastEnd(&'static str),
}

/// A record: where it starts, its own size and its type.
#[derive(Clone, Copy, Debug)]
pub(crate) struct Record<'a> {
    file: &'a [u8],
    /// File offset of its first byte.
    pub offset: i64,
    /// The size it states.
    pub size: i64,
    /// The type it states, if that lies in the file.
    pub record_type: Option<i64>,
}

impl<'a> Record<'a> {
    /// The record at this offset, if its size lies in the file.
    pub fn at(file: &'a [u8], offset: i64) -> Option<Record<'a>> {
        let size = field(file, offset)?;
        let record_type = field(file, offset.checked_add(4)?);
        Some(Record { file, offset, size, record_type })
    }

    /// Its whole size lies inside the file.
    pub fn is_inside(&self) -> bool {
        self.size >= 8 && self.offset.saturating_add(self.size) <= length(self.file)
    }

    /// It has so many bytes, which hold the fields it is judged by: own size first, the file's end second.
    fn holds(&self, bytes: i64) -> Result<(), Breach> {
        demand(self.size >= bytes)?;
        if self.offset.saturating_add(bytes) > length(self.file) {
            return Err(Breach::PastEnd("fields"));
        }
        Ok(())
    }

    /// The field at this offset of the record.
    fn field(&self, at: i64) -> Result<i64, Breach> {
        needed(self.file, self.offset.saturating_add(at), "fields")
    }

    /// The name of up to 64 bytes that stands here.
    fn name(&self, at: i64) -> Name {
        let offset = self.offset.saturating_add(at);
        let bytes = usize::try_from(offset).ok().and_then(|start| self.file.get(start..));
        let letters = bytes.unwrap_or(&[]).iter().take(64).take_while(|byte| **byte != 0);
        Name { offset, length: i64::try_from(letters.count()).unwrap_or(64) }
    }
}

/// A breach unless the clause is met.
fn demand(met: bool) -> Result<(), Breach> {
    if met {
        Ok(())
    } else {
        Err(Breach::Rule)
    }
}

/// A field that must lie in the file.
fn needed(file: &[u8], offset: i64, what: &'static str) -> Result<i64, Breach> {
    field(file, offset).ok_or(Breach::PastEnd(what))
}

/// So many fields in a row.
fn row(file: &[u8], offset: i64, count: i64, what: &'static str) -> Result<Vec<i64>, Breach> {
    (0..count).map(|number| needed(file, offset.saturating_add(4 * number), what)).collect()
}

/// A name: where it stands in the file, and its length up to the NUL.
#[derive(Clone, Copy, Debug, PartialEq, Eq)]
pub struct Name {
    /// File offset of the first byte.
    pub offset: i64,
    /// Bytes before the NUL, at most 64.
    pub length: i64,
}

/// What CDR and GDR say.
#[derive(Clone, Debug, PartialEq, Eq)]
pub(crate) struct Header {
    /// File offset of the GDR.
    pub gdr: i64,
    /// The last varying index runs fastest.
    pub row_majority: bool,
    /// Encoding of the values.
    pub encoding: Encoding,
    /// Dimension sizes of the rVariables.
    pub sizes: Vec<i64>,
    /// NrVars.
    pub r_variables: i64,
    /// NzVars.
    pub z_variables: i64,
    /// NumAttr.
    pub attributes: i64,
}

const FIRST_MAGIC: i64 = 0xCDF2_6002_u32 as i32 as i64;
const PLAIN: i64 = 0x0000_FFFF;
const COMPRESSED: i64 = 0xCCCC_0001_u32 as i32 as i64;
const CDR_OFFSET: i64 = 8;
const CDR_SIZE: i64 = 304;
/// File offset of the CDR's link to the GDR.
pub(crate) const GDR_LINK: i64 = CDR_OFFSET + 8;
/// What a negative link stands for: an offset where no record starts.
const NO_START: i64 = 1;
/// The GDR's eof.
const GDR_EOF: i64 = 20;
/// The GDR's dimension count of the rVariables, and where their sizes begin.
const GDR_DIMENSIONS: i64 = 36;
const GDR_SIZES: i64 = 60;
/// How many dimensions a variable may have.
const DIMENSIONS: RangeInclusive<i64> = 0..=10;

/// The opening from refusal 3 on: 3, 4, 5, 14, 6 in that order.
pub(crate) fn opening(file: &[u8]) -> Result<Header, i32> {
    magics(file)?;
    let (flags, encoding) = cdr(file).ok_or(5)?;
    if flags & 2 == 0 {
        return Err(14);
    }
    gdr(file, flags & 1 == 1, encoding).ok_or(6)
}

/// The file's length is one that is carried.
pub(crate) fn length_carried(file: &[u8]) -> bool {
    length(file) <= GREATEST
}

/// 3 for length and magics, 4 for a compressed file.
fn magics(file: &[u8]) -> Result<(), i32> {
    if length(file) < 372 || field(file, 0) != Some(FIRST_MAGIC) {
        return Err(3);
    }
    match field(file, 4) {
        Some(PLAIN) => Ok(()),
        Some(COMPRESSED) => Err(4),
        _ => Err(3),
    }
}

/// Flags and encoding of a CDR that meets its rule.
fn cdr(file: &[u8]) -> Option<(i64, Encoding)> {
    let record = Record::at(file, CDR_OFFSET)?;
    let version = record.field(12).ok()?;
    let encoding = tables::encoding(record.field(20).ok()?)?;
    let flags = record.field(24).ok()?;
    let met = record.record_type == Some(record_type::CDR)
        && record.size == CDR_SIZE
        && version == 2
        && (0..=3).contains(&flags);
    met.then_some((flags, encoding))
}

/// How far eof may lie below the file's length.
pub const MOST_PADDING: i64 = 511;

/// eof is one that a file of this length may have.
fn is_in_window(eof: i64, file: &[u8]) -> bool {
    (length(file) - MOST_PADDING..=length(file)).contains(&eof)
}

/// The offset that a link leads to: a negative one stands for 1, where no record starts.
pub(crate) fn target(link: i64) -> i64 {
    if link < 0 {
        NO_START
    } else {
        link
    }
}

/// The end of any file: eof, if the GDR's first 60 bytes lie below it and it lies in the window; else the file's length.
fn end(file: &[u8]) -> i64 {
    let gdr = field(file, GDR_LINK).map(target);
    let eof = gdr.and_then(|gdr| field(file, gdr + GDR_EOF).filter(|eof| gdr + GDR_SIZES <= *eof));
    eof.filter(|eof| is_in_window(*eof, file)).unwrap_or(length(file))
}

/// A file's bytes before its end: all that is looked at after the opening.
pub fn body(file: &[u8]) -> &[u8] {
    usize::try_from(end(file)).ok().and_then(|end| file.get(..end)).unwrap_or(file)
}

/// The header, if the GDR meets its rule.
fn gdr(file: &[u8], row_majority: bool, encoding: Encoding) -> Option<Header> {
    let offset = field(file, GDR_LINK)?;
    let record = Record::at(file, offset)?;
    let number = |at: i64| record.field(at).ok();
    let dimensions = number(GDR_DIMENSIONS).filter(|count| DIMENSIONS.contains(count))?;
    let header = Header {
        gdr: offset,
        row_majority,
        encoding,
        r_variables: number(24)?,
        z_variables: number(40)?,
        attributes: number(28)?,
        sizes: row(file, offset + GDR_SIZES, dimensions, "sizes").ok()?,
    };
    let counts = [header.r_variables, header.z_variables, header.attributes];
    let eof = number(GDR_EOF)?;
    let met = offset >= CDR_OFFSET + CDR_SIZE
        && record.record_type == Some(record_type::GDR)
        && record.size == GDR_SIZES + 4 * dimensions
        && header.sizes.iter().all(|size| *size >= 1)
        && counts.iter().all(|count| *count >= 0)
        && number(32)? >= -1
        && is_in_window(eof, file)
        && offset + record.size <= eof;
    met.then_some(header)
}

/// A VDR's fields.
#[derive(Clone, Debug, PartialEq, Eq)]
pub struct Variable {
    /// File offset of the VDR.
    pub offset: i64,
    /// Data type of its values.
    pub data_type: DataType,
    /// Greatest record number, or -1.
    pub max_rec: i64,
    /// First VXR, or 0.
    pub vxr_head: i64,
    /// Last VXR, or 0.
    pub vxr_tail: i64,
    /// Flags as stored.
    pub flags: i64,
    /// Kind of sparse records, 0 to 2.
    pub s_records: i64,
    /// Elements of a value.
    pub elements: i64,
    /// Its number as stored.
    pub number: i64,
    /// Its name.
    pub name: Name,
    /// Dimension sizes; an rVariable's are the GDR's.
    pub sizes: Vec<i64>,
    /// Dimension variances.
    pub variances: Vec<bool>,
    /// File offset of the pad value, if there is one.
    pub pad: Option<i64>,
    /// Bytes of one record.
    pub record_bytes: i64,
}

impl Variable {
    /// Bit 0 of Flags.
    pub fn record_variance(&self) -> bool {
        self.flags & 1 == 1
    }
}

/// Flags bit 2, looked at only in a VDR of 32 bytes or more, and only if Flags lie in the file.
pub(crate) fn is_compressed(vdr: &Record) -> bool {
    vdr.size >= 32 && vdr.field(28).is_ok_and(|flags| flags & 4 != 0)
}

/// The VDR's rule, Flags bit 2 aside: its own size, its fields, then its dimensions.
pub(crate) fn variable(vdr: &Record, kind: &VariableKind, gdr: i64) -> Result<Variable, Breach> {
    vdr.holds(fixed_bytes(kind))?;
    let data_type = tables::data_type(vdr.field(12)?).ok_or(Breach::Rule)?;
    let (flags, elements) = (vdr.field(28)?, vdr.field(48)?);
    let (max_rec, s_records) = (vdr.field(16)?, vdr.field(32)?);
    demand(elements == 1 || elements > 1 && data_type.form == tables::Form::Character)?;
    demand((0..=7).contains(&flags) && max_rec >= -1 && (0..=2).contains(&s_records))?;
    let pad_bytes = if flags & 2 != 0 { elements * data_type.size } else { 0 };
    let (sizes, variances) = dimensions(vdr, kind, gdr, pad_bytes)?;
    Ok(Variable {
        offset: vdr.offset,
        data_type,
        max_rec,
        vxr_head: vdr.field(20)?,
        vxr_tail: vdr.field(24)?,
        flags,
        s_records,
        elements,
        number: vdr.field(52)?,
        name: vdr.name(64),
        record_bytes: record_bytes(elements * data_type.size, &sizes, &variances)?,
        sizes,
        variances,
        pad: (flags & 2 != 0).then_some(vdr.offset + vdr.size - pad_bytes),
    })
}

/// Bytes of a VDR before its sizes and variances.
fn fixed_bytes(kind: &VariableKind) -> i64 {
    if kind.own_dimensions {
        132
    } else {
        128
    }
}

/// A VDR's dimension count, its exact size, then its dimension sizes and variances. The count and the sizes of an
/// rVariable stand in the GDR.
fn dimensions(
    vdr: &Record,
    kind: &VariableKind,
    gdr: i64,
    pad_bytes: i64,
) -> Result<(Vec<i64>, Vec<bool>), Breach> {
    let (count_at, sizes_at) = if kind.own_dimensions {
        (vdr.offset + 128, vdr.offset + 132)
    } else {
        (gdr + GDR_DIMENSIONS, gdr + GDR_SIZES)
    };
    let count = needed(vdr.file, count_at, "dimension count")?;
    demand(DIMENSIONS.contains(&count))?;
    let own_sizes = if kind.own_dimensions { 4 * count } else { 0 };
    let variances_at = fixed_bytes(kind) + own_sizes;
    demand(vdr.size == variances_at + 4 * count + pad_bytes)?;
    let sizes = row(vdr.file, sizes_at, count, "dimension sizes")?;
    let variances = row(vdr.file, vdr.offset + variances_at, count, "variances")?;
    demand(sizes.iter().all(|size| *size >= 1))?;
    demand(variances.iter().all(|variance| (-1..=0).contains(variance)))?;
    Ok((sizes, variances.iter().map(|variance| *variance == -1).collect()))
}

/// Bytes of one record: the value's bytes times the sizes of varying dimensions.
fn record_bytes(value_bytes: i64, sizes: &[i64], variances: &[bool]) -> Result<i64, Breach> {
    let varying = sizes.iter().zip(variances).filter(|(_, varies)| **varies);
    let mut bytes = value_bytes;
    demand(bytes <= GREATEST)?;
    for (size, _) in varying {
        bytes = bytes.checked_mul(*size).ok_or(Breach::Rule)?;
        demand(bytes <= GREATEST)?;
    }
    Ok(bytes)
}

/// A VXR's fields.
#[derive(Clone, Copy, Debug, PartialEq, Eq)]
pub(crate) struct Index {
    /// File offset of the VXR.
    pub offset: i64,
    /// Entries it has room for.
    pub entries: i64,
    /// Entries in use.
    pub used: i64,
}

/// One used entry of a VXR.
#[derive(Clone, Copy, Debug, PartialEq, Eq)]
pub(crate) struct IndexEntry {
    /// First record number.
    pub first: i64,
    /// Last record number.
    pub last: i64,
    /// File offset of the record it names: a VVR, or a lower VXR.
    pub offset: i64,
}

/// What the range of an entry is held to.
#[derive(Clone, Copy, Debug, PartialEq, Eq)]
pub(crate) struct Bounds {
    /// The least that First may be.
    pub floor: i64,
    /// The greatest that Last may be, in a lower record: the Last of the entry that names it.
    pub ceiling: Option<i64>,
}

impl Bounds {
    /// The bounds of the entry behind one that ends here.
    pub fn behind(self, last: i64) -> Bounds {
        Bounds { floor: last + 1, ..self }
    }
}

impl IndexEntry {
    /// The record number lies in First..Last.
    pub fn covers(&self, record: i64) -> bool {
        (self.first..=self.last).contains(&record)
    }
}

impl Index {
    /// What the VXR at this offset says, unjudged; nothing if it does not lie in the file.
    pub fn at(file: &[u8], offset: i64) -> Option<Index> {
        let entries = field(file, offset.checked_add(12)?)?;
        let used = field(file, offset.checked_add(16)?)?;
        Some(Index { offset, entries, used })
    }

    /// The entry of this number: First at least 0 and at least the floor, Last at least First and at most the ceiling;
    /// then its offset. A negative number of entries gives the offsets that none gives.
    pub fn entry(&self, file: &[u8], number: i64, within: Bounds) -> Result<IndexEntry, Breach> {
        let entries = self.entries.max(0);
        let at = |column: i64| self.offset + 20 + 4 * (column * entries + number);
        let first = needed(file, at(0), "First")?;
        if first < 0 || first < within.floor {
            return Err(Breach::Ranges);
        }
        let last = needed(file, at(1), "Last")?;
        if last < first || within.ceiling.is_some_and(|ceiling| last > ceiling) {
            return Err(Breach::Ranges);
        }
        Ok(IndexEntry { first, last, offset: needed(file, at(2), "Offset")? })
    }
}

/// The VXR's rule.
pub(crate) fn index(vxr: &Record) -> Result<Index, Breach> {
    vxr.holds(20)?;
    let (entries, used) = (vxr.field(12)?, vxr.field(16)?);
    demand((0..=entries).contains(&used) && vxr.size == 20 + 12 * entries)?;
    Ok(Index { offset: vxr.offset, entries, used })
}

/// A lower VXR's next, which must be 0.
pub(crate) fn next_index(vxr: &Record) -> Result<i64, Breach> {
    vxr.field(8)
}

/// The VVR's rule, for the index entry that names it.
pub(crate) fn values(vvr: &Record, entry: &IndexEntry, record_bytes: i64) -> Result<(), Breach> {
    demand(vvr.size == 8 + (entry.last - entry.first + 1) * record_bytes)
}

/// An ADR's fields.
#[derive(Clone, Copy, Debug, PartialEq, Eq)]
pub struct Attribute {
    /// File offset of the ADR.
    pub offset: i64,
    /// 1 global, 2 variable.
    pub scope: i64,
    /// Its number as stored.
    pub number: i64,
    /// Number of g/rEntries.
    pub gr_entries: i64,
    /// Greatest g/rEntry number.
    pub gr_maximum: i64,
    /// Number of zEntries.
    pub z_entries: i64,
    /// Greatest zEntry number.
    pub z_maximum: i64,
    /// Its name.
    pub name: Name,
}

/// The ADR's rule.
pub(crate) fn attribute(adr: &Record) -> Result<Attribute, Breach> {
    adr.holds(116)?;
    demand(adr.size == 116)?;
    let scope = adr.field(16)?;
    demand(scope == 1 || scope == 2)?;
    Ok(Attribute {
        offset: adr.offset,
        scope,
        number: adr.field(20)?,
        gr_entries: adr.field(24)?,
        gr_maximum: adr.field(28)?,
        z_entries: adr.field(40)?,
        z_maximum: adr.field(44)?,
        name: adr.name(52),
    })
}

/// An AEDR's fields.
#[derive(Clone, Copy, Debug, PartialEq, Eq)]
pub struct Entry {
    /// Its attribute's number as stored.
    pub attribute: i64,
    /// Data type of its elements.
    pub data_type: DataType,
    /// Entry number.
    pub number: i64,
    /// How many elements it has.
    pub elements: i64,
    /// File offset of its value.
    pub value: i64,
}

/// The AEDR's rule.
pub(crate) fn entry(aedr: &Record) -> Result<Entry, Breach> {
    aedr.holds(48)?;
    let data_type = tables::data_type(aedr.field(16)?).ok_or(Breach::Rule)?;
    let number = aedr.field(20)?;
    let elements = aedr.field(24)?;
    demand(number >= 0 && elements >= 1)?;
    demand(aedr.size == 48 + elements * data_type.size)?;
    let attribute = aedr.field(12)?;
    Ok(Entry { attribute, data_type, number, elements, value: aedr.offset + 48 })
}

/// The rule of a listed UIR: 16 bytes or more. Gives the previous UIR it names.
pub(crate) fn unused(uir: &Record) -> Result<i64, Breach> {
    uir.holds(16)?;
    uir.field(12)
}
