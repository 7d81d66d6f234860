//! The constant tables (docs/RULES.md, section 3): data types, encodings, kinds of variables and entries.

use super::vax::{VaxFloat, D_FLOAT, F_FLOAT, G_FLOAT};

/// The greatest number a control field holds; also the greatest file length and record bytes.
pub const GREATEST: i64 = 2_147_483_647;

/// How the bytes of an element are to be taken.
#[derive(Clone, Copy, Debug, PartialEq, Eq)]
pub enum Form {
    /// Two's complement.
    Signed,
    /// Plain number.
    Unsigned,
    /// Float of 4 bytes.
    Single,
    /// Float of 8 bytes.
    Double,
    /// Character code, 0 to 255.
    Character,
}

impl Form {
    /// The number of this value kind in the interface for C.
    pub const fn number(self) -> u64 {
        match self {
            Form::Signed => 0,
            Form::Unsigned => 1,
            Form::Single => 2,
            Form::Double => 3,
            Form::Character => 4,
        }
    }
}

/// A data type of Table 5.9 of the format description.
#[derive(Clone, Copy, Debug, PartialEq, Eq)]
pub struct DataType {
    /// The number in the file.
    pub number: i64,
    /// Bytes of one element.
    pub size: i64,
    /// How the bytes are taken.
    pub form: Form,
}

const fn of(number: i64, size: i64, form: Form) -> DataType {
    DataType { number, size, form }
}

/// All data types.
pub const DATA_TYPES: [DataType; 14] = [
    of(1, 1, Form::Signed),
    of(2, 2, Form::Signed),
    of(4, 4, Form::Signed),
    of(11, 1, Form::Unsigned),
    of(12, 2, Form::Unsigned),
    of(14, 4, Form::Unsigned),
    of(21, 4, Form::Single),
    of(22, 8, Form::Double),
    of(31, 8, Form::Double),
    of(41, 1, Form::Signed),
    of(44, 4, Form::Single),
    of(45, 8, Form::Double),
    of(51, 1, Form::Character),
    of(52, 1, Form::Character),
];

/// The data type of this number.
pub fn data_type(number: i64) -> Option<DataType> {
    DATA_TYPES.iter().copied().find(|data_type| data_type.number == number)
}

/// A data encoding.
#[derive(Clone, Copy, Debug, PartialEq, Eq)]
pub struct Encoding {
    /// The number in the file.
    pub number: i64,
    /// Least significant byte first.
    pub little_endian: bool,
    /// The VAX floats that doubles are, if floats are VAX floats.
    pub vax_double: Option<&'static VaxFloat>,
}

impl Encoding {
    /// The VAX float that an element of this form is, if it is one.
    pub fn vax_float(self, form: Form) -> Option<&'static VaxFloat> {
        let double = self.vax_double?;
        match form {
            Form::Single => Some(&F_FLOAT),
            Form::Double => Some(double),
            _ => None,
        }
    }

    /// The form in which an element of this form is answered: VAX floats are doubles.
    pub fn answered(self, form: Form) -> Form {
        if self.vax_float(form).is_some() {
            Form::Double
        } else {
            form
        }
    }
}

const fn big(number: i64) -> Encoding {
    Encoding { number, little_endian: false, vax_double: None }
}

const fn little(number: i64) -> Encoding {
    Encoding { number, little_endian: true, vax_double: None }
}

const fn vax(number: i64, double: &'static VaxFloat) -> Encoding {
    Encoding { number, little_endian: true, vax_double: Some(double) }
}

/// All encodings: 1 to 7, 9, 11 to 16.
pub const ENCODINGS: [Encoding; 14] = [
    big(1),
    big(2),
    vax(3, &D_FLOAT),
    little(4),
    big(5),
    little(6),
    big(7),
    big(9),
    big(11),
    big(12),
    little(13),
    vax(14, &D_FLOAT),
    vax(15, &G_FLOAT),
    little(16),
];

/// The encoding of this number.
pub fn encoding(number: i64) -> Option<Encoding> {
    ENCODINGS.iter().copied().find(|encoding| encoding.number == number)
}

/// Record types of Table 2.1 that are looked for by number.
pub mod record_type {
    /// CDF descriptor record.
    pub const CDR: i64 = 1;
    /// Global descriptor record.
    pub const GDR: i64 = 2;
    /// rVariable descriptor record.
    pub const RVDR: i64 = 3;
    /// Attribute descriptor record.
    pub const ADR: i64 = 4;
    /// Attribute g/rEntry descriptor record.
    pub const AGREDR: i64 = 5;
    /// Variable index record.
    pub const VXR: i64 = 6;
    /// Variable values record.
    pub const VVR: i64 = 7;
    /// zVariable descriptor record.
    pub const ZVDR: i64 = 8;
    /// Attribute zEntry descriptor record.
    pub const AZEDR: i64 = 9;
    /// Unused internal record.
    pub const UIR: i64 = -1;
}

/// Where r and z variables differ.
#[derive(Debug, PartialEq, Eq)]
pub struct VariableKind {
    /// The type of its VDRs.
    pub record_type: i64,
    /// The GDR's field with the head of the list.
    pub head: i64,
    /// The GDR's field with the number of variables.
    pub count: i64,
    /// The GDR's field with the greatest MaxRec, if it has one.
    pub greatest: Option<i64>,
    /// The VDR has dimensions of its own.
    pub own_dimensions: bool,
}

/// rVariables.
pub const R_VARIABLES: VariableKind = VariableKind {
    record_type: record_type::RVDR,
    head: 8,
    count: 24,
    greatest: Some(32),
    own_dimensions: false,
};

/// zVariables.
pub const Z_VARIABLES: VariableKind = VariableKind {
    record_type: record_type::ZVDR,
    head: 12,
    count: 40,
    greatest: None,
    own_dimensions: true,
};

/// The kind of variable of this number, which is its record type.
pub fn variable_kind(number: i64) -> Option<&'static VariableKind> {
    [&R_VARIABLES, &Z_VARIABLES].into_iter().find(|kind| kind.record_type == number)
}

/// Where g/r and z entries differ.
#[derive(Debug, PartialEq, Eq)]
pub struct EntryKind {
    /// The type of its AEDRs.
    pub record_type: i64,
    /// The ADR's field with the head of the list.
    pub head: i64,
    /// The ADR's field with the number of entries.
    pub count: i64,
    /// The ADR's field with the greatest entry number.
    pub maximum: i64,
}

/// g/rEntries.
pub const GR_ENTRIES: EntryKind =
    EntryKind { record_type: record_type::AGREDR, head: 12, count: 24, maximum: 28 };

/// zEntries.
pub const Z_ENTRIES: EntryKind =
    EntryKind { record_type: record_type::AZEDR, head: 36, count: 40, maximum: 44 };

/// The kind of entry of this number, which is its record type.
pub fn entry_kind(number: i64) -> Option<&'static EntryKind> {
    [&GR_ENTRIES, &Z_ENTRIES].into_iter().find(|kind| kind.record_type == number)
}
