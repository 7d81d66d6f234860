//! All that the reader finds in an accepted file, as text; samples/README.md gives the form.

use super::read::{self, Answer};
use super::rules::{Attribute, Entry, Name, Variable};
use super::tables::{DataType, Form};
use super::way::{GAP, NO_NUMBER, RESERVED_OPERAND};

/// A record of more values than this shows its first one and ` ..`.
pub(crate) const MOST_VALUES: i64 = 100_000;

/// The whole dump; a refusal's number if the file is not one to be read.
pub fn dump(file: &[u8]) -> Result<String, u32> {
    let counts = read::counts(file)?;
    let mut text = format!(
        "CDF encoding={} majority={} rdims={} nr={} nz={} na={}\n",
        read::encoding(file)?.number,
        if read::majority(file)? == 1 { "row" } else { "column" },
        numbers(&read::r_dimensions(file)?),
        counts.r_variables,
        counts.z_variables,
        counts.attributes,
    );
    text += &padding_note(read::padding(file)?);
    for (kind, count) in [(3, counts.r_variables), (8, counts.z_variables)] {
        for number in 0..count {
            text += &variable_lines(file, kind, number)?;
        }
    }
    for number in 0..counts.attributes {
        text += &attribute_lines(file, number)?;
    }
    Ok(text + "END\n")
}

/// A note of the bytes of padding, if there are any.
pub(crate) fn padding_note(bytes: i64) -> String {
    if bytes == 0 {
        return String::new();
    }
    format!("# padding={bytes}\n")
}

/// Numbers with commas, `-` for none.
pub(crate) fn numbers(list: &[i64]) -> String {
    if list.is_empty() {
        return "-".to_string();
    }
    list.iter().map(i64::to_string).collect::<Vec<_>>().join(",")
}

pub(crate) fn letter(set: bool) -> char {
    if set {
        'T'
    } else {
        'F'
    }
}

/// A name; bytes outside 21 to 7e hex, and `%`, as `%xx`.
fn name_text(file: &[u8], name: Name) -> String {
    let start = usize::try_from(name.offset).unwrap_or(0);
    let length = usize::try_from(name.length).unwrap_or(0);
    let bytes = file.iter().skip(start).take(length);
    bytes.map(|byte| name_letter(*byte)).collect()
}

pub(crate) fn name_letter(byte: u8) -> String {
    match byte {
        b'%' => "%25".to_string(),
        0x21..=0x7e => char::from(byte).to_string(),
        _ => format!("%{byte:02x}"),
    }
}

/// The form in which elements of a type are answered.
fn form_of(file: &[u8], data_type: DataType) -> Result<Form, u32> {
    Ok(read::encoding(file)?.answered(data_type.form))
}

fn variable_lines(file: &[u8], kind: i64, number: i64) -> Result<String, u32> {
    let variable = read::variable(file, kind, number)?;
    let mut text = variable_line(file, kind, number, &variable)?;
    for record in 0..=variable.max_rec {
        text += &record_line(file, kind, number, &variable, record)?;
    }
    Ok(text)
}

fn variable_line(file: &[u8], kind: i64, number: i64, of: &Variable) -> Result<String, u32> {
    let varys: String = of.variances.iter().map(|varies| letter(*varies)).collect();
    let pad = match of.pad {
        None => "-".to_string(),
        Some(offset) => {
            let element = |element| read::read_pad(file, kind, number, element);
            let form = form_of(file, of.data_type)?;
            format!("{}@{offset}", value_token(form, of.elements, element)?)
        }
    };
    Ok(format!(
        "VAR {} num={} name={} type={} elems={} dims={} varys={} recvary={} maxrec={} srec={} pad={}\n",
        if kind == 3 { 'r' } else { 'z' },
        of.number,
        name_text(file, of.name),
        of.data_type.number,
        of.elements,
        numbers(&of.sizes),
        if varys.is_empty() { "-" } else { &varys },
        letter(of.record_variance()),
        of.max_rec,
        of.s_records,
        pad,
    ))
}

/// `R rec @OFF TOKEN ..`, every tuple of indices, the last index fastest; or `R rec GAP`.
fn record_line(
    file: &[u8],
    kind: i64,
    number: i64,
    variable: &Variable,
    record: i64,
) -> Result<String, u32> {
    let offset = match read::record_offset(file, kind, number, record) {
        Err(GAP) => return Ok(format!("R {record} GAP\n")),
        other => other?,
    };
    let form = form_of(file, variable.data_type)?;
    let mut text = format!("R {record} @{offset}");
    let mut indices = vec![0; variable.sizes.len()];
    let all = variable.sizes.iter().fold(1_i64, |all, size| all.saturating_mul(*size));
    for _ in 0..if all > MOST_VALUES { 1 } else { all } {
        let element = |at| read::read_value(file, kind, number, record, &indices, at);
        text.push(' ');
        text += &value_token(form, variable.elements, element)?;
        advance(&mut indices, &variable.sizes);
    }
    Ok(text + if all > MOST_VALUES { " ..\n" } else { "\n" })
}

/// The next tuple of indices, the last one fastest.
pub(crate) fn advance(indices: &mut [i64], sizes: &[i64]) {
    for (index, size) in indices.iter_mut().zip(sizes).rev() {
        *index += 1;
        if *index < *size {
            return;
        }
        *index = 0;
    }
}

/// One value as a token: characters together, anything else by its only element.
fn value_token(
    form: Form,
    elements: i64,
    element: impl Fn(i64) -> Result<Answer, u32>,
) -> Result<String, u32> {
    if form != Form::Character {
        return element_token(form, element(0));
    }
    let mut text = "c".to_string();
    for number in 0..elements {
        text += &format!("{:02x}", element(number)?.bits);
    }
    Ok(text)
}

/// The token of a reserved operand.
pub(crate) const RESERVED: &str = "reserved";

fn element_token(form: Form, element: Result<Answer, u32>) -> Result<String, u32> {
    match element {
        Err(RESERVED_OPERAND) => Ok(RESERVED.to_string()),
        other => Ok(bits_token(form, other?.bits)),
    }
}

/// The bits of an element of a form as a token.
pub(crate) fn bits_token(form: Form, bits: u64) -> String {
    match form {
        Form::Signed => (bits as i64).to_string(),
        Form::Unsigned => bits.to_string(),
        Form::Single => format!("f{bits:08x}"),
        Form::Double => format!("d{bits:016x}"),
        Form::Character => format!("c{bits:02x}"),
    }
}

fn attribute_lines(file: &[u8], number: i64) -> Result<String, u32> {
    let attribute = read::attribute(file, number)?;
    let mut text = format!(
        "ATTR num={} name={} scope={} ngr={} maxgr={} nz={} maxz={}\n",
        attribute.number,
        name_text(file, attribute.name),
        attribute.scope,
        attribute.gr_entries,
        attribute.gr_maximum,
        attribute.z_entries,
        attribute.z_maximum,
    );
    for kind in [5, 9] {
        text += &entry_lines(file, number, &attribute, kind)?;
    }
    Ok(text)
}

fn entry_lines(file: &[u8], number: i64, of: &Attribute, kind: i64) -> Result<String, u32> {
    let letter = match (kind, of.scope) {
        (9, _) => 'z',
        (_, 1) => 'g',
        _ => 'r',
    };
    let mut text = String::new();
    for place in 0.. {
        let entry = match read::entry_at_place(file, number, kind, place) {
            Err(NO_NUMBER) => break,
            other => other?,
        };
        let element = |at| read::read_entry_at_place(file, number, kind, place, at);
        let form = form_of(file, entry.data_type)?;
        text += &format!("E {letter} {}", entry_text(&entry, form, element)?);
    }
    Ok(text)
}

fn entry_text(
    entry: &Entry,
    form: Form,
    element: impl Fn(i64) -> Result<Answer, u32>,
) -> Result<String, u32> {
    let mut text = format!(
        "{} attr={} type={} elems={} @{}",
        entry.number, entry.attribute, entry.data_type.number, entry.elements, entry.value,
    );
    let tokens = if form == Form::Character { 1 } else { entry.elements };
    for token in 0..tokens {
        text.push(' ');
        text += &value_token(form, entry.elements, |at| element(token + at))?;
    }
    Ok(text + "\n")
}
