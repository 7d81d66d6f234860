//! The reader: values, entries, pad values and descriptors (docs/RULES.md, sections 14 to 16).
//!
//! Each call answers what was asked for or the refusal's number, of several the first
//! in the order 20, 15, 16, 17, 18, 22.

use super::rules::{Attribute, Entry, Variable};
use super::tables::{DataType, Encoding};
use super::way::{place_in_record, Wanted, Way, OUT_OF_RANGE};

pub use super::way::Answer;

/// One element of a variable's value.
pub fn read_value(
    file: &[u8],
    kind: i64,
    number: i64,
    record: i64,
    indices: &[i64],
    element: i64,
) -> Result<Answer, u32> {
    let mut way = Way::open(file)?;
    let (_, variable) = way.variable(kind, number)?;
    let value = value_at(&mut way, &variable, record, indices)?;
    element_at(&way, variable.data_type, variable.elements, value, element)
}

/// File offset of a value's first byte.
fn value_at(way: &mut Way, variable: &Variable, record: i64, indices: &[i64]) -> Result<i64, u32> {
    let start = way.record(variable, record)?;
    let place = place_in_record(variable, way.header.row_majority, indices)?;
    Ok(start + place * variable.elements * variable.data_type.size)
}

/// One element of an attribute's entry: the first entry of that number.
pub fn read_entry(
    file: &[u8],
    attribute: i64,
    kind: i64,
    entry: i64,
    element: i64,
) -> Result<Answer, u32> {
    entry_element(file, attribute, kind, Wanted::Number(entry), element)
}

fn entry_element(
    file: &[u8],
    attribute: i64,
    kind: i64,
    wanted: Wanted,
    element: i64,
) -> Result<Answer, u32> {
    let mut way = Way::open(file)?;
    let found = way.entry(attribute, kind, wanted)?;
    element_at(&way, found.data_type, found.elements, found.value, element)
}

/// One element of a variable's pad value; 18 if there is none.
pub fn read_pad(file: &[u8], kind: i64, number: i64, element: i64) -> Result<Answer, u32> {
    let mut way = Way::open(file)?;
    let (_, variable) = way.variable(kind, number)?;
    let pad = variable.pad.ok_or(OUT_OF_RANGE)?;
    element_at(&way, variable.data_type, variable.elements, pad, element)
}

/// 18 for the element, then 22, or the value.
fn element_at(
    way: &Way,
    data_type: DataType,
    elements: i64,
    value: i64,
    element: i64,
) -> Result<Answer, u32> {
    if !(0..elements).contains(&element) {
        return Err(OUT_OF_RANGE);
    }
    way.value(data_type, value + element * data_type.size)
}

/// 1 for row majority, 0 for column majority.
pub fn majority(file: &[u8]) -> Result<i64, u32> {
    Ok(i64::from(Way::open(file)?.header.row_majority))
}

/// The encoding.
pub fn encoding(file: &[u8]) -> Result<Encoding, u32> {
    Ok(Way::open(file)?.header.encoding)
}

/// The GDR's counts.
#[derive(Clone, Copy, Debug, PartialEq, Eq)]
pub struct Counts {
    /// NrVars.
    pub r_variables: i64,
    /// NzVars.
    pub z_variables: i64,
    /// NumAttr.
    pub attributes: i64,
}

/// NrVars, NzVars, NumAttr.
pub fn counts(file: &[u8]) -> Result<Counts, u32> {
    let header = Way::open(file)?.header;
    Ok(Counts {
        r_variables: header.r_variables,
        z_variables: header.z_variables,
        attributes: header.attributes,
    })
}

/// Dimension sizes of the rVariables.
pub fn r_dimensions(file: &[u8]) -> Result<Vec<i64>, u32> {
    Ok(Way::open(file)?.header.sizes)
}

/// How many bytes of padding the file has, 0 to 511.
pub fn padding(file: &[u8]) -> Result<i64, u32> {
    Ok(Way::open(file)?.padding())
}

/// Size of one dimension of the rVariables; 18 if it is not there.
pub fn r_dimension_size(file: &[u8], dimension: i64) -> Result<i64, u32> {
    nth(&r_dimensions(file)?, dimension)
}

fn nth<T: Copy>(list: &[T], number: i64) -> Result<T, u32> {
    let found = usize::try_from(number).ok().and_then(|at| list.get(at));
    found.copied().ok_or(OUT_OF_RANGE)
}

/// A variable's VDR. The sizes of an rVariable are the GDR's.
pub fn variable(file: &[u8], kind: i64, number: i64) -> Result<Variable, u32> {
    Ok(Way::open(file)?.variable(kind, number)?.1)
}

/// A zVariable's own dimension sizes; 18 for an rVariable, which has none.
fn own_sizes(file: &[u8], kind: i64, number: i64) -> Result<Vec<i64>, u32> {
    let (kind, variable) = Way::open(file)?.variable(kind, number)?;
    if kind.own_dimensions {
        Ok(variable.sizes)
    } else {
        Err(OUT_OF_RANGE)
    }
}

/// A zVariable's dimension count; 18 for an rVariable.
pub fn dimension_count(file: &[u8], kind: i64, number: i64) -> Result<i64, u32> {
    let sizes = own_sizes(file, kind, number)?;
    i64::try_from(sizes.len()).map_err(|_| OUT_OF_RANGE)
}

/// Size of a zVariable's dimension; 18 if it is not there, or for an rVariable.
pub fn dimension_size(file: &[u8], kind: i64, number: i64, dimension: i64) -> Result<i64, u32> {
    nth(&own_sizes(file, kind, number)?, dimension)
}

/// A variable's dimension variance, -1 or 0; 18 if the dimension is not there.
pub fn variance(file: &[u8], kind: i64, number: i64, dimension: i64) -> Result<i64, u32> {
    let variances = variable(file, kind, number)?.variances;
    Ok(if nth(&variances, dimension)? { -1 } else { 0 })
}

/// File offset of the first byte of a variable's record.
pub fn record_offset(file: &[u8], kind: i64, number: i64, record: i64) -> Result<i64, u32> {
    let mut way = Way::open(file)?;
    let (_, variable) = way.variable(kind, number)?;
    way.record(&variable, record)
}

/// File offset of the first byte of a variable's value, whatever is stored there.
pub fn value_offset(
    file: &[u8],
    kind: i64,
    number: i64,
    record: i64,
    indices: &[i64],
) -> Result<i64, u32> {
    let mut way = Way::open(file)?;
    let (_, variable) = way.variable(kind, number)?;
    value_at(&mut way, &variable, record, indices)
}

/// How many levels a variable's index has on the way to a record, 1 to 8.
pub fn levels(file: &[u8], kind: i64, number: i64, record: i64) -> Result<i64, u32> {
    let mut way = Way::open(file)?;
    let (_, variable) = way.variable(kind, number)?;
    way.levels(&variable, record)
}

/// An attribute's ADR.
pub fn attribute(file: &[u8], number: i64) -> Result<Attribute, u32> {
    Way::open(file)?.attribute(number)
}

/// An attribute's AEDR: the first of that entry number.
pub fn entry(file: &[u8], attribute: i64, kind: i64, entry: i64) -> Result<Entry, u32> {
    Way::open(file)?.entry(attribute, kind, Wanted::Number(entry))
}

/// An attribute's AEDR by its place in the list, which also shows those of equal entry
/// numbers; 16 at the list's end. `dump` needs it.
pub fn entry_at_place(file: &[u8], attribute: i64, kind: i64, place: i64) -> Result<Entry, u32> {
    Way::open(file)?.entry(attribute, kind, Wanted::Place(place))
}

/// One element of the entry at a place of the list, for `dump`.
pub fn read_entry_at_place(
    file: &[u8],
    attribute: i64,
    kind: i64,
    place: i64,
    element: i64,
) -> Result<Answer, u32> {
    entry_element(file, attribute, kind, Wanted::Place(place), element)
}
