//! The structs for C as three texts declare them: the header, the Rattle sources, the bindings.
//! Each is read into its plain fields in order, with their types in C, and compared.

use crate::calls::{defined_numbers, number_type, without_comments, without_line_comments};
use std::mem::size_of;

/// A struct: its name in C and its fields in order, those of a struct inside it in its place.
#[derive(Clone, Debug, PartialEq, Eq)]
pub struct Struct {
    /// Its name in C.
    pub name: String,
    /// Its fields.
    pub fields: Vec<Field>,
}

/// A field of a struct.
#[derive(Clone, Debug, PartialEq, Eq)]
pub struct Field {
    /// Its name; before it, the names of the fields that it is inside of.
    pub name: String,
    /// Its type in C, of an array that of an element.
    pub c_type: String,
    /// How many elements an array has.
    pub count: Option<usize>,
}

/// Where C lays a struct's fields.
#[derive(Clone, Debug, PartialEq, Eq)]
pub struct Layout {
    /// The offset of each field.
    pub offsets: Vec<usize>,
    /// The size of the struct.
    pub size: usize,
    /// Its alignment.
    pub alignment: usize,
}

/// A struct as a text declares it: its name, and its fields with their types as they are written.
struct Declared {
    name: String,
    fields: Vec<(String, String)>,
}

/// The name in C of a struct of the Rattle sources or the bindings: `Job` and `TlzJob` are `tlz_job`.
pub fn c_name(name: &str) -> String {
    let mut found = "tlz".to_string();
    for letter in name.strip_prefix("Tlz").unwrap_or(name).chars() {
        if letter.is_ascii_uppercase() {
            found.push('_');
        }
        found.push(letter.to_ascii_lowercase());
    }
    found
}

/// A field of the header, `TYPE NAME` or `TYPE NAME[COUNT]`; some of one type may stand behind one another.
fn header_fields(text: &str, numbers: &[(String, i64)]) -> Option<Vec<Field>> {
    let (c_type, names) = text.trim().split_once(char::is_whitespace)?;
    let one = |text: &str| {
        let (name, count) = match text.trim().split_once('[') {
            None => (text.trim(), None),
            Some((name, count)) => (name, Some(count.strip_suffix(']')?.trim())),
        };
        let defined = |word: &str| numbers.iter().find(|(name, _)| name == word);
        let number =
            |word: &str| word.parse().ok().or_else(|| usize::try_from(defined(word)?.1).ok());
        let count = match count {
            None => None,
            Some(word) => Some(number(word)?),
        };
        Some(Field { name: name.to_string(), c_type: c_type.to_string(), count })
    };
    names.split(',').map(one).collect()
}

/// The structs of a header, `typedef struct NAME { .. } NAME;`.
pub fn of_header(text: &str) -> Result<Vec<Struct>, String> {
    let numbers = defined_numbers(text);
    let text = without_comments(text);
    let read = |after: &str| {
        let (name, rest) = after.split_once('{')?;
        let (body, behind) = rest.split_once('}')?;
        let name = name.trim();
        let closed = behind.split(';').next()?.trim() == name;
        let parts = body.split(';').filter(|part| !part.trim().is_empty());
        let fields = parts.map(|part| header_fields(part, &numbers)).collect::<Option<Vec<_>>>()?;
        closed.then(|| Struct { name: name.to_string(), fields: fields.concat() })
    };
    let wrong = |after: &str| format!("a struct that cannot be read: {after:.60}");
    let each = text.split("typedef struct ").skip(1);
    each.map(|after| read(after).ok_or_else(|| wrong(after))).collect()
}

/// The structs with `#[repr(C)]` of a text in Rattle or Rust.
fn declared(text: &str) -> Result<Vec<Declared>, String> {
    let read = |after: &str| {
        let (name, rest) = after.split_once("pub struct ")?.1.split_once('{')?;
        let (body, _) = rest.split_once('}')?;
        let parts = body.split(',').map(str::trim).filter(|part| !part.is_empty());
        let field = |part: &str| {
            let (name, of_type) = part.strip_prefix("pub ")?.split_once(':')?;
            Some((name.trim().to_string(), of_type.trim().to_string()))
        };
        let fields = parts.map(field).collect::<Option<Vec<_>>>()?;
        Some(Declared { name: name.trim().to_string(), fields })
    };
    let wrong = |after: &str| format!("a struct that cannot be read: {after:.60}");
    let text = without_line_comments(text);
    let each = text.split("#[repr(C)]").skip(1);
    each.map(|after| read(after).ok_or_else(|| wrong(after))).collect()
}

/// The names of the structs with `#[repr(C)]` of a text in Rattle or Rust.
pub fn names(text: &str) -> Result<Vec<String>, String> {
    Ok(declared(text)?.into_iter().map(|of| of.name).collect())
}

/// A number of elements: as it is, or by the name of a constant of the text, with its module before it or not.
fn count_of(word: &str, text: &str) -> Option<usize> {
    let name = word.rsplit("::").next()?;
    let constant = || {
        let (_, rest) = text.split_once(&format!("const {name}: usize = "))?;
        rest.split(';').next()?.trim().parse().ok()
    };
    word.parse().ok().or_else(constant)
}

/// The plain fields that a field of this name and type has.
fn plain(name: &str, of_type: &str, all: &[Declared], text: &str) -> Option<Vec<Field>> {
    if let Some(inner) = all.iter().find(|of| of.name == of_type) {
        let each = inner
            .fields
            .iter()
            .map(|(inside, of_type)| plain(&format!("{name}_{inside}"), of_type, all, text));
        return Some(each.collect::<Option<Vec<_>>>()?.concat());
    }
    let array = of_type.strip_prefix('[').and_then(|rest| rest.strip_suffix(']'));
    let (element, count) = match array.and_then(|array| array.split_once(';')) {
        None => (of_type, None),
        Some((element, count)) => (element, Some(count_of(count.trim(), text)?)),
    };
    let c_type = number_type(element)?.to_string();
    Some(vec![Field { name: name.to_string(), c_type, count }])
}

/// The structs with `#[repr(C)]` of a text in Rattle or Rust, as C has them.
pub fn of_source(text: &str) -> Result<Vec<Struct>, String> {
    let all = declared(text)?;
    let flat = |of: &Declared| {
        let fields = of.fields.iter().map(|(name, of_type)| plain(name, of_type, &all, text));
        let fields = fields.collect::<Option<Vec<_>>>()?.concat();
        Some(Struct { name: c_name(&of.name), fields })
    };
    let wrong = |of: &Declared| format!("{} has a field that cannot be read", of.name);
    all.iter().map(|of| flat(of).ok_or_else(|| wrong(of))).collect()
}

/// In what the structs of a header differ from those of a source; the source may have more, which are parts of these.
pub fn differences(declared: &[Struct], others: &[Struct]) -> Vec<String> {
    let mut found = Vec::new();
    for ours in declared {
        let same: Vec<&Struct> = others.iter().filter(|other| other.name == ours.name).collect();
        match same.as_slice() {
            [other] => found.extend(struct_differences(ours, other)),
            _ => found.push(format!("{} is not declared once in each", ours.name)),
        }
    }
    found
}

/// In what two declarations of one struct differ: in the number of fields, or in one's name or type.
fn struct_differences(ours: &Struct, other: &Struct) -> Vec<String> {
    let name = &ours.name;
    if ours.fields.len() != other.fields.len() {
        return vec![format!("{name} has {} and {} fields", ours.fields.len(), other.fields.len())];
    }
    let named = |one: &Field, other: &Field| {
        one.name == other.name || other.name.ends_with(&format!("_{}", one.name))
    };
    let differ = |(one, other): &(&Field, &Field)| {
        !named(one, other) || (&one.c_type, one.count) != (&other.c_type, other.count)
    };
    let both = ours.fields.iter().zip(&other.fields).filter(differ);
    both.map(|(one, other)| format!("{name} has {one:?} and {other:?}")).collect()
}

/// The size of a number of C.
fn c_size(c_type: &str) -> Option<usize> {
    Some(match c_type {
        "uint8_t" | "int8_t" => 1,
        "uint16_t" | "int16_t" => 2,
        "uint32_t" | "int32_t" | "float" => 4,
        "uint64_t" | "int64_t" | "double" => 8,
        "size_t" => size_of::<usize>(),
        _ => return None,
    })
}

impl Struct {
    /// Where its fields lie: each at the next multiple of its number's size; the whole is a multiple of the greatest.
    pub fn layout(&self) -> Option<Layout> {
        let (mut end, mut alignment, mut offsets) = (0_usize, 1, Vec::new());
        for field in &self.fields {
            let size = c_size(&field.c_type)?;
            let offset = end.next_multiple_of(size);
            offsets.push(offset);
            end = offset + size * field.count.unwrap_or(1);
            alignment = alignment.max(size);
        }
        Some(Layout { offsets, size: end.next_multiple_of(alignment), alignment })
    }
}
