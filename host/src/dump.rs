//! All that the proved reader finds in an accepted file, in the form of samples/README.md.
//!
//! One thing cannot be asked for: the offset of a record, entry value or pad value whose first element is a reserved operand,
//! which is refused with 22. It is shown as `@?`.
//!
//! The VAX floats of any dump of that form can be judged by the bytes of its file.

use crate::bindings::{self, Name, Value, FILE_PADDING, RESERVED_OPERAND};
use crate::second::bytes::unsigned;
use crate::second::dump::{advance, bits_token, letter, name_letter, numbers, padding_note};
use crate::second::dump::{MOST_VALUES, RESERVED};
use crate::second::tables::{data_type, encoding, Form};
use crate::vax::Kind;

const GAP: i32 = 17;
const NO_NUMBER: i32 = 16;

/// The whole dump; a refusal's number if the file is not one to be read.
pub fn dump(file: &[u8]) -> Result<String, i32> {
    let said = |what| bindings::read_file(file, what);
    let sizes = (0..i64::from(said(5)?)).map(|of| bindings::read_dimension(file, of));
    let sizes = sizes.map(|size| size.map(i64::from)).collect::<Result<Vec<i64>, i32>>()?;
    let mut text = format!(
        "CDF encoding={} majority={} rdims={} nr={} nz={} na={}\n",
        said(1)?,
        if said(0)? == 1 { "row" } else { "column" },
        numbers(&sizes),
        said(2)?,
        said(3)?,
        said(4)?,
    );
    text += &padding_note(i64::from(said(FILE_PADDING)?));
    for (kind, count) in [(3, said(2)?), (8, said(3)?)] {
        for number in 0..i64::from(count) {
            text += &Variable::of(file, kind, number, &sizes)?.lines()?;
        }
    }
    for number in 0..i64::from(said(4)?) {
        text += &attribute_lines(file, number)?;
    }
    Ok(text + "END\n")
}

/// A line of a dump as the calls can give it: the offset of what begins with a reserved operand cannot be asked for.
pub fn askable(line: &str) -> String {
    let words: Vec<&str> = line.split(' ').collect();
    let next_is_reserved = |at: usize| words.get(at + 1) == Some(&RESERVED);
    let shown = |(at, word): (usize, &&str)| match word.split_once('@') {
        Some(("pad=reserved", _)) => format!("pad={RESERVED}@?"),
        Some(("", _)) if next_is_reserved(at) => "@?".to_string(),
        _ => word.to_string(),
    };
    words.iter().enumerate().map(shown).collect::<Vec<String>>().join(" ")
}

/// Judges every VAX float of a dump by the bytes of the file, reserved operands too: their kinds and sorts, or what is wrong.
/// The values of a line must stand in the file as they do in the line.
pub fn judged_floats(file: &[u8], dump: &str) -> Result<Vec<(Kind, Vec<&'static str>)>, String> {
    let encoding = number_of(dump, "CDF encoding=").ok_or("no encoding")?;
    let (mut kind, mut found) = (None, Vec::new());
    for line in dump.lines() {
        if let Some(data_type) = number_of(line, " type=") {
            kind = Kind::of(encoding, data_type);
        }
        let (Some(kind), Some((first, tokens))) = (kind, values_of(line)) else { continue };
        let first: i64 = first.parse().map_err(|_| format!("{line}: no offset"))?;
        for (token, at) in tokens.iter().zip((first..).step_by(kind.bits() as usize / 8)) {
            let sorts = judged_token(file, kind, at, token);
            found.push((kind, sorts.map_err(|wrong| format!("{line}: {wrong}"))?));
        }
    }
    Ok(found)
}

/// The number behind these words of a text.
fn number_of(text: &str, words: &str) -> Option<i64> {
    text.split_once(words)?.1.split(' ').next()?.parse().ok()
}

/// The offset and the tokens of a line: @OFFSET TOKEN .., or a pad value, TOKEN@OFFSET.
fn values_of(line: &str) -> Option<(&str, Vec<&str>)> {
    let has_offset = |word: &str| word.starts_with('@') || word.starts_with("pad=");
    let mut words = line.split(' ').skip_while(|word| !has_offset(word));
    let (before, offset) = words.next()?.split_once('@')?;
    let pad = before.strip_prefix("pad=");
    Some((offset, pad.map_or_else(|| words.collect(), |token| vec![token])))
}

/// The sorts of the VAX float at an offset, if its token is right.
fn judged_token(
    file: &[u8],
    kind: Kind,
    at: i64,
    token: &str,
) -> Result<Vec<&'static str>, String> {
    let size = kind.bits() as i64 / 8;
    let pattern = unsigned(file, at, size, true).ok_or("no such offset")?;
    let bits = token.strip_prefix('d').and_then(|digits| u64::from_str_radix(digits, 16).ok());
    let shown = match token {
        RESERVED => Err(RESERVED_OPERAND),
        _ => Ok(bits.ok_or("no double")?),
    };
    kind.judge(pattern, shown)?;
    Ok(kind.sorts(pattern))
}

fn name_text(file: &[u8], name: Name) -> String {
    let bytes = file.iter().skip(name.offset as usize).take(name.length as usize);
    bytes.map(|byte| name_letter(*byte)).collect()
}

/// The form in which elements of a data type are answered, by its number; 20 if there is none.
fn form_of(file: &[u8], number: i32) -> Result<Form, i32> {
    let of_file = encoding(i64::from(bindings::read_file(file, 1)?)).ok_or(20)?;
    data_type(i64::from(number)).map(|of| of_file.answered(of.form)).ok_or(20)
}

/// Elements of one value: its token, and the offset of the first. Characters stand together, anything else alone.
fn value_token(
    form: Form,
    elements: i64,
    element: impl Fn(i64) -> Result<Value, i32>,
) -> Result<(String, String), i32> {
    let first = element(0);
    if first == Err(RESERVED_OPERAND) {
        return Ok((RESERVED.to_string(), "?".to_string()));
    }
    let first = first?;
    assert_eq!(first.kind, form.number(), "the kind of a value");
    let offset = first.offset.to_string();
    if form != Form::Character {
        return Ok((bits_token(form, first.bits), offset));
    }
    let mut text = "c".to_string();
    for number in 0..elements {
        text += &format!("{:02x}", element(number)?.bits);
    }
    Ok((text, offset))
}

/// A variable as it is asked for.
struct Variable<'a> {
    file: &'a [u8],
    kind: i64,
    number: i64,
    form: Form,
    elements: i64,
    sizes: Vec<i64>,
}

impl<'a> Variable<'a> {
    fn of(file: &'a [u8], kind: i64, number: i64, r_sizes: &[i64]) -> Result<Variable<'a>, i32> {
        let field = |at| bindings::read_variable(file, kind, number, at);
        let mut sizes = r_sizes.to_vec();
        if kind == 8 {
            let all = 0..i64::from(field(128)?);
            let all = all.map(|of| bindings::read_size(file, kind, number, of).map(i64::from));
            sizes = all.collect::<Result<Vec<i64>, i32>>()?;
        }
        let (form, elements) = (form_of(file, field(12)?)?, i64::from(field(48)?));
        Ok(Variable { file, kind, number, form, elements, sizes })
    }

    fn field(&self, at: u64) -> Result<i32, i32> {
        bindings::read_variable(self.file, self.kind, self.number, at)
    }

    fn lines(&self) -> Result<String, i32> {
        let mut text = self.line()?;
        for record in 0..=i64::from(self.field(16)?) {
            text += &self.record_line(record)?;
        }
        Ok(text)
    }

    fn line(&self) -> Result<String, i32> {
        let variance = |of| bindings::read_variance(self.file, self.kind, self.number, of as i64);
        let varys = (0..self.sizes.len()).map(variance).collect::<Result<Vec<i32>, i32>>()?;
        let varys: String = varys.iter().map(|variance| letter(*variance == -1)).collect();
        let name = bindings::read_variable_name(self.file, self.kind, self.number)?;
        Ok(format!(
            "VAR {} num={} name={} type={} elems={} dims={} varys={} recvary={} maxrec={} srec={} pad={}\n",
            if self.kind == 3 { 'r' } else { 'z' },
            self.field(52)?,
            name_text(self.file, name),
            self.field(12)?,
            self.field(48)?,
            numbers(&self.sizes),
            if varys.is_empty() { "-" } else { &varys },
            letter(self.field(28)? & 1 == 1),
            self.field(16)?,
            self.field(32)?,
            self.pad()?,
        ))
    }

    fn pad(&self) -> Result<String, i32> {
        let element = |at| bindings::read_pad(self.file, self.kind, self.number, at);
        if self.field(28)? & 2 == 0 {
            assert_eq!(element(0), Err(18), "a pad value that is not there");
            return Ok("-".to_string());
        }
        let (token, offset) = value_token(self.form, self.elements, element)?;
        Ok(format!("{token}@{offset}"))
    }

    fn record_line(&self, record: i64) -> Result<String, i32> {
        let mut indices = vec![0; self.sizes.len()];
        let all = self.sizes.iter().fold(1_i64, |all, size| all.saturating_mul(*size));
        let mut text = String::new();
        for place in 0..if all > MOST_VALUES { 1 } else { all } {
            let (kind, number) = (self.kind, self.number);
            let element = |at| bindings::read_value(self.file, kind, number, record, &indices, at);
            let (token, offset) = match value_token(self.form, self.elements, element) {
                Err(GAP) => return Ok(format!("R {record} GAP\n")),
                other => other?,
            };
            if place == 0 {
                text = format!("R {record} @{offset}");
            }
            text += &format!(" {token}");
            advance(&mut indices, &self.sizes);
        }
        Ok(text + if all > MOST_VALUES { " ..\n" } else { "\n" })
    }
}

fn attribute_lines(file: &[u8], number: i64) -> Result<String, i32> {
    let field = |at| bindings::read_attribute(file, number, at);
    let name = bindings::read_attribute_name(file, number)?;
    let mut text = format!(
        "ATTR num={} name={} scope={} ngr={} maxgr={} nz={} maxz={}\n",
        field(20)?,
        name_text(file, name),
        field(16)?,
        field(24)?,
        field(28)?,
        field(40)?,
        field(44)?,
    );
    for kind in [5, 9] {
        let letter = if kind == 9 { 'z' } else { ['g', 'r'][usize::from(field(16)? == 2)] };
        let mut seen = Vec::new();
        for place in 0.. {
            match entry_line(file, number, kind, place, &mut seen) {
                Err(NO_NUMBER) => break,
                other => text += &format!("E {letter} {}\n", other?),
            }
        }
    }
    Ok(text)
}

/// The first entry of a number, asked for by its place and by its number.
fn same_by_number(file: &[u8], attribute: i64, kind: i64, place: u64, number: i64) {
    for at in [12, 16, 20, 24] {
        let by_number = bindings::read_entry_field(file, attribute, kind, number, at);
        let by_place = bindings::read_entry_at(file, attribute, kind, place, at);
        assert_eq!(by_number, by_place, "the first entry of a number");
    }
    let by_number = bindings::read_entry(file, attribute, kind, number, 0);
    let by_place = bindings::read_entry_value_at(file, attribute, kind, place, 0);
    assert_eq!(by_number, by_place, "the first entry of a number");
}

/// The entry at a place; the numbers of those before it are in `seen`.
fn entry_line(
    file: &[u8],
    attribute: i64,
    kind: i64,
    place: u64,
    seen: &mut Vec<i32>,
) -> Result<String, i32> {
    let field = |at| bindings::read_entry_at(file, attribute, kind, place, at);
    let (number, of_type, elements) = (field(20)?, field(16)?, field(24)?);
    let mut text = format!("{number} attr={} type={of_type} elems={elements}", field(12)?);
    if !seen.contains(&number) {
        seen.push(number);
        same_by_number(file, attribute, kind, place, i64::from(number));
    }
    let form = form_of(file, of_type)?;
    let tokens = if form == Form::Character { 1 } else { elements };
    for token in 0..i64::from(tokens) {
        let element = |at| bindings::read_entry_value_at(file, attribute, kind, place, token + at);
        let (token_text, offset) = value_token(form, i64::from(elements), element)?;
        if token == 0 {
            text += &format!(" @{offset}");
        }
        text += &format!(" {token_text}");
    }
    Ok(text)
}
