//! The calls for C as three texts declare them: the header, the Rattle sources, the bindings.
//! Each is read into the same form, C's, and compared.

use crate::structs;

/// A call: its name, what it gives, what it takes.
#[derive(Clone, Debug, PartialEq, Eq)]
pub struct Call {
    /// Its name.
    pub name: String,
    /// The type that it gives.
    pub answer: String,
    /// Its parameters in order.
    pub parameters: Vec<Parameter>,
}

/// A parameter of a call.
#[derive(Clone, Debug, PartialEq, Eq)]
pub struct Parameter {
    /// Its name; none for the length of a lent slice, which the Rattle source does not name.
    pub name: Option<String>,
    /// Its type in C.
    pub c_type: String,
}

impl Call {
    /// The call as a prototype on one line.
    pub fn prototype(&self) -> String {
        let spaced =
            |c_type: &str| format!("{c_type}{}", if c_type.ends_with('*') { "" } else { " " });
        let one = |parameter: &Parameter| {
            spaced(&parameter.c_type) + parameter.name.as_deref().unwrap_or("")
        };
        let parameters: Vec<String> = self.parameters.iter().map(one).collect();
        let inside = if parameters.is_empty() { "void".to_string() } else { parameters.join(", ") };
        format!("{}{}({inside});", spaced(&self.answer), self.name)
    }
}

/// A type of numbers in C, by its name in Rattle and Rust.
pub(crate) fn number_type(name: &str) -> Option<&'static str> {
    let known = [
        ("u8", "uint8_t"),
        ("u16", "uint16_t"),
        ("u32", "uint32_t"),
        ("u64", "uint64_t"),
        ("i8", "int8_t"),
        ("i16", "int16_t"),
        ("i32", "int32_t"),
        ("i64", "int64_t"),
        ("usize", "size_t"),
        ("f32", "float"),
        ("f64", "double"),
        ("bool", "bool"),
        ("()", "void"),
    ];
    known.iter().find(|(ours, _)| *ours == name.trim()).map(|(_, c)| *c)
}

/// A type of numbers in C, or one of these structs.
fn c_type(name: &str, structs: &[String]) -> Option<String> {
    let of_struct = || structs.iter().find(|of| *of == name.trim()).map(|of| structs::c_name(of));
    number_type(name).map(str::to_string).or_else(of_struct)
}

/// The C types of a Rattle parameter: a slice is a pointer and a length.
fn of_rattle(text: &str, structs: &[String]) -> Option<Vec<String>> {
    let text = text.trim();
    let (pointed, is_const) = match (text.strip_prefix("&mut "), text.strip_prefix('&')) {
        (Some(rest), _) => (rest.trim(), false),
        (None, Some(rest)) => (rest.trim(), true),
        (None, None) => return Some(vec![number_type(text)?.to_string()]),
    };
    let slice = pointed.strip_prefix('[').and_then(|rest| rest.strip_suffix(']'));
    let pointer = pointer_to(&c_type(slice.unwrap_or(pointed), structs)?, is_const);
    let length = slice.map(|_| "size_t".to_string());
    Some(std::iter::once(pointer).chain(length).collect())
}

fn pointer_to(c_type: &str, is_const: bool) -> String {
    format!("{}{c_type} *", if is_const { "const " } else { "" })
}

/// The C type of a parameter or answer of the bindings.
fn of_binding(text: &str, structs: &[String]) -> Option<String> {
    let text = text.trim();
    match (text.strip_prefix("*mut "), text.strip_prefix("*const ")) {
        (Some(pointed), _) => Some(pointer_to(&c_type(pointed, structs)?, false)),
        (None, Some(pointed)) => Some(pointer_to(&c_type(pointed, structs)?, true)),
        (None, None) => Some(number_type(text)?.to_string()),
    }
}

/// The text without comments from `//` to the line's end.
pub(crate) fn without_line_comments(text: &str) -> String {
    let code = |line: &str| line.split("//").next().unwrap_or("").to_string();
    text.lines().map(code).collect::<Vec<String>>().join("\n")
}

/// The text without comments between `/*` and `*/`.
pub(crate) fn without_comments(text: &str) -> String {
    let mut kept = String::new();
    let mut rest = text;
    while let Some((before, after)) = rest.split_once("/*") {
        kept.push_str(before);
        kept.push(' ');
        rest = after.split_once("*/").map_or("", |(_, behind)| behind);
    }
    kept + rest
}

/// Words of a declaration, the stars of pointers as words of their own.
fn words(text: &str) -> Vec<String> {
    text.replace('*', " * ").split_whitespace().map(str::to_string).collect()
}

/// A declared name and the type before it.
fn declared(text: &str) -> Option<(String, String)> {
    let words = words(text);
    let (name, before) = words.split_last()?;
    (!before.is_empty() && name != "*").then(|| (name.clone(), before.join(" ")))
}

fn c_parameter(text: &str) -> Option<Parameter> {
    let (name, c_type) = declared(text)?;
    Some(Parameter { name: Some(name), c_type })
}

/// A statement that is a prototype; nothing if it is none.
fn prototype(statement: &str) -> Option<Result<Call, String>> {
    let (before, rest) = statement.split_once('(')?;
    let wrong = || format!("the header has something that is no plain prototype: {statement}");
    let read = || {
        let (name, answer) = declared(before)?;
        let inside = rest.trim().strip_suffix(')')?.trim();
        let parts: Vec<&str> =
            if inside == "void" { Vec::new() } else { inside.split(',').collect() };
        let parameters = parts.into_iter().map(c_parameter).collect::<Option<Vec<Parameter>>>()?;
        Some(Call { name, answer, parameters })
    };
    Some(read().ok_or_else(wrong))
}

/// The prototypes of a header.
pub fn of_header(text: &str) -> Result<Vec<Call>, String> {
    let text = without_comments(text).replace("\\\n", " ");
    let code: Vec<&str> = text.lines().filter(|line| !line.trim_start().starts_with('#')).collect();
    let code = code.join("\n").replace("extern \"C\" {", "").replace('}', "");
    code.split(';').filter_map(prototype).collect()
}

/// A parameter's name and its type as they are written.
type Taken<'a> = (&'a str, &'a str);

/// `NAME(PARAMETERS) -> ANSWER` and what follows, cut in its three parts.
fn signature(text: &str) -> Option<(&str, Vec<Taken<'_>>, &str)> {
    let (name, rest) = text.split_once('(')?;
    let (inside, after) = rest.split_once(')')?;
    let parts = inside.split(',').map(str::trim).filter(|part| !part.is_empty());
    let parameters = parts.map(|part| part.split_once(':')).collect::<Option<Vec<_>>>()?;
    let ends = ["ensures", "requires", "{", ";"];
    let end = ends.iter().filter_map(|word| after.find(word)).min().unwrap_or(after.len());
    let answer = after.get(..end)?.trim().strip_prefix("->").unwrap_or("()");
    Some((name.trim(), parameters, answer.trim()))
}

fn export(text: &str, structs: &[String]) -> Option<Call> {
    let (name, taken, answer) = signature(text)?;
    let mut parameters = Vec::new();
    for (name, rattle_type) in taken {
        let name = name.trim().trim_start_matches("mut ").to_string();
        let names = std::iter::once(Some(name)).chain(std::iter::repeat(None));
        let types = of_rattle(rattle_type, structs)?;
        parameters
            .extend(types.into_iter().zip(names).map(|(c_type, name)| Parameter { name, c_type }));
    }
    Some(Call { name: name.to_string(), answer: number_type(answer)?.to_string(), parameters })
}

/// The functions of a Rattle source that C can call: `#[unsafe(no_mangle)]` and `extern "C"`.
pub fn of_rattle_source(text: &str) -> Result<Vec<Call>, String> {
    let structs = structs::names(text)?;
    let text = without_line_comments(text);
    let read = |after: &str| {
        let head = after.split('{').next().unwrap_or("").to_string();
        let (_, call) = after.split_once("extern \"C\" fn ").ok_or(format!("no call: {head}"))?;
        export(call, &structs).ok_or(format!("a call that cannot be read: {head}"))
    };
    text.split("#[unsafe(no_mangle)]").skip(1).map(read).collect()
}

fn binding(text: &str, structs: &[String]) -> Option<Call> {
    let (name, taken, answer) = signature(text)?;
    let parameter = |(name, rust_type): (&str, &str)| {
        let c_type = of_binding(rust_type, structs)?;
        Some(Parameter { name: Some(name.trim().to_string()), c_type })
    };
    let parameters = taken.into_iter().map(parameter).collect::<Option<Vec<Parameter>>>()?;
    Some(Call { name: name.to_string(), answer: of_binding(answer, structs)?, parameters })
}

/// The functions that the bindings declare, in their block `extern "C"`.
pub fn of_bindings(text: &str) -> Result<Vec<Call>, String> {
    let structs = structs::names(text)?;
    let text = without_line_comments(text);
    let (_, block) = text.split_once("extern \"C\" {").ok_or("no block of calls")?;
    let wrong = |call: &str| format!("a binding that cannot be read: {call}");
    let read = |call: &str| binding(call, &structs).ok_or_else(|| wrong(call));
    let block = block.split('}').next().unwrap_or("");
    block.split("pub fn ").skip(1).map(read).collect()
}

/// In what two declarations of one call differ.
fn call_differences(ours: &Call, other: &Call) -> Vec<String> {
    let mut found = Vec::new();
    let name = &ours.name;
    if ours.answer != other.answer {
        found.push(format!("{name} gives {} and {}", ours.answer, other.answer));
    }
    let types = |call: &Call| -> Vec<String> {
        call.parameters.iter().map(|parameter| parameter.c_type.clone()).collect()
    };
    if types(ours) != types(other) {
        found.push(format!("{name} takes {:?} and {:?}", types(ours), types(other)));
    }
    if has_swapped_names(ours, other) {
        found.push(format!("{name} names its parameters in another order"));
    }
    found
}

/// A parameter has the name that another place has in the other declaration.
fn has_swapped_names(ours: &Call, other: &Call) -> bool {
    let place = |parameter: &Parameter| {
        let same = |there: &Parameter| there.name.is_some() && there.name == parameter.name;
        other.parameters.iter().position(same)
    };
    let places = ours.parameters.iter().map(place).enumerate();
    places.filter_map(|(here, there)| Some((here, there?))).any(|(here, there)| here != there)
}

/// In what two lists of calls differ; nothing if they declare the same calls.
pub fn differences(ours: &[Call], others: &[Call]) -> Vec<String> {
    let mut found = missing(ours, others);
    found.extend(missing(others, ours));
    for call in ours {
        let same = others.iter().filter(|other| other.name == call.name);
        found.extend(same.flat_map(|other| call_differences(call, other)));
    }
    found
}

/// Calls that a list has twice, or that the other list has not.
pub fn missing(ours: &[Call], others: &[Call]) -> Vec<String> {
    let count = |list: &[Call], name: &str| list.iter().filter(|call| call.name == name).count();
    let wrong = |call: &&Call| count(ours, &call.name) != 1 || count(others, &call.name) != 1;
    ours.iter()
        .filter(wrong)
        .map(|call| format!("{} is not declared once in each", call.name))
        .collect()
}

/// The numbers that a header defines, `#define TLZ_NAME NUMBER`, in order.
pub fn defined_numbers(text: &str) -> Vec<(String, i64)> {
    let text = without_comments(text);
    let read = |line: &str| {
        let mut words = line.strip_prefix("#define TLZ_")?.split_whitespace();
        let name = format!("TLZ_{}", words.next()?);
        let number = words.next()?.trim_matches(['(', ')']).parse().ok()?;
        Some((name, number))
    };
    text.lines().filter_map(read).collect()
}

/// The rows `| NUMBER | NAME | meaning |` of a table in a text.
pub fn table_numbers(text: &str) -> Vec<(String, i64)> {
    let read = |line: &str| {
        let mut cells = line.strip_prefix('|')?.split('|').map(str::trim);
        let number = cells.next()?.parse().ok()?;
        let name = cells.next()?.trim_matches('`').to_string();
        name.starts_with("TLZ_").then_some((name, number))
    };
    text.lines().filter_map(read).collect()
}
