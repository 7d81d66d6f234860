//! Header, Rattle sources, bindings and documents declare the same calls and numbers; and the comparison
//! would find it if they did not.

use std::fs::{read_dir, read_to_string};
use std::mem::{align_of, offset_of, size_of};
use std::path::{Path, PathBuf};
use tlepozaluh_host::bindings::{check_begin, FILE_PADDING, RESERVED_OPERAND, STATE_LENGTH};
use tlepozaluh_host::bindings::{read_attribute, read_entry_at, read_file, read_variable};
use tlepozaluh_host::bindings::{TlzJob, BAD_ROUND, MOST_JOBS, NO_EPOCH};
use tlepozaluh_host::calls::{self, Call};
use tlepozaluh_host::samples;
use tlepozaluh_host::second::check::TOO_DEEP;
use tlepozaluh_host::second::{epochs, rounds};
use tlepozaluh_host::structs::{self, Layout, Struct};

/// Constants of the header that are no numbers that come back, and how the reader's begin.
const OTHERS: [&str; 4] = ["TLZ_STATE_LEN", "TLZ_LONGEST_FILE", "TLZ_MOST_JOBS", "TLZ_BAD_WAY"];
const FIELDS: [&str; 4] = ["TLZ_FILE_", "TLZ_VARIABLE_", "TLZ_ATTRIBUTE_", "TLZ_ENTRY_"];
const KINDS: [(&str, i64); 11] = [
    ("TLZ_RVARIABLE", 3),
    ("TLZ_ZVARIABLE", 8),
    ("TLZ_GRENTRY", 5),
    ("TLZ_ZENTRY", 9),
    ("TLZ_SIGNED", 0),
    ("TLZ_UNSIGNED", 1),
    ("TLZ_SINGLE", 2),
    ("TLZ_DOUBLE", 3),
    ("TLZ_CHARACTER", 4),
    ("TLZ_FLAG_RECORD_VARIANCE", 1),
    ("TLZ_FLAG_PAD", 2),
];

/// A constant of the reader: a kind, a flag or a field.
fn is_readers(name: &str) -> bool {
    let is_kind = KINDS.iter().any(|(kind, _)| *kind == name);
    is_kind || FIELDS.iter().any(|begin| name.starts_with(begin))
}

fn project() -> PathBuf {
    Path::new(env!("CARGO_MANIFEST_DIR")).join("..")
}

fn text(name: &str) -> String {
    read_to_string(project().join(name)).expect(name)
}

/// The `.rt` files below a folder.
fn rattle_files(folder: &Path) -> Vec<PathBuf> {
    let mut found = Vec::new();
    for entry in read_dir(folder).expect("a folder of sources") {
        let path = entry.expect("an entry").path();
        if path.is_dir() {
            found.extend(rattle_files(&path));
        } else if path.extension().is_some_and(|extension| extension == "rt") {
            found.push(path);
        }
    }
    found.sort();
    found
}

/// The crates whose call is for the benchmark alone and in no library.
const OF_BENCHMARK: [&str; 2] = ["clearing", "clearing_c"];

/// All sources of crates/*/src that the libraries are made of, in one text.
fn sources() -> String {
    let crates = read_dir(project().join("crates")).expect("crates");
    let folders = crates.map(|entry| entry.expect("a crate").path());
    let folders = folders.filter(|folder| OF_BENCHMARK.iter().all(|name| !folder.ends_with(name)));
    let folders = folders.map(|folder| folder.join("src")).filter(|folder| folder.is_dir());
    let files = folders.flat_map(|folder| rattle_files(&folder));
    files.map(|file| read_to_string(file).expect("a source") + "\n").collect()
}

fn header() -> String {
    text("include/tlepozaluh.h")
}

/// In what header and sources differ, in calls or structs; an unreadable one differs too.
fn drift(header: &str, sources: &str) -> Vec<String> {
    let of_calls = match (calls::of_header(header), calls::of_rattle_source(sources)) {
        (Ok(declared), Ok(exported)) => calls::differences(&declared, &exported),
        (Err(wrong), _) | (_, Err(wrong)) => vec![wrong],
    };
    of_calls.into_iter().chain(struct_drift(header, sources)).collect()
}

/// In what the structs of the header and of a source differ.
fn struct_drift(header: &str, source: &str) -> Vec<String> {
    match (structs::of_header(header), structs::of_source(source)) {
        (Ok(declared), Ok(others)) => structs::differences(&declared, &others),
        (Err(wrong), _) | (_, Err(wrong)) => vec![wrong],
    }
}

#[test]
fn the_header_declares_the_exports() {
    let exported = calls::of_rattle_source(&sources()).expect("the exports");
    assert!(exported.len() >= 21, "{exported:?}");
    assert_eq!(drift(&header(), &sources()), Vec::<String>::new());
}

#[test]
fn the_bindings_declare_what_the_header_does() {
    let declared = calls::of_header(&header()).expect("the header");
    let bound = calls::of_bindings(&text("host/src/bindings.rs")).expect("the bindings");
    assert!(!bound.is_empty());
    assert_eq!(calls::missing(&bound, &declared), Vec::<String>::new());
    let of_bound = |call: &&Call| bound.iter().any(|other| other.name == call.name);
    let declared: Vec<Call> = declared.iter().filter(of_bound).cloned().collect();
    assert_eq!(calls::differences(&bound, &declared), Vec::<String>::new());
}

/// The one struct of the header.
fn job() -> Struct {
    let declared = structs::of_header(&header()).expect("the header's structs");
    let [job] = declared.as_slice() else {
        panic!("{declared:?}");
    };
    job.clone()
}

/// Each field of a row has the name, the type and the place that the header gives it.
#[test]
fn the_bindings_have_the_row_of_the_header() {
    let bindings = text("host/src/bindings.rs");
    let bound = structs::of_source(&bindings).expect("the bindings' structs");
    assert_eq!(bound, [job()]);
    for (from, to) in OF_ROW {
        let drifted = header().replacen(from, to, 1);
        assert!(header().contains(from) && !struct_drift(&drifted, &bindings).is_empty(), "{to}");
    }
}

/// The row as Rust lays it, and as C's rules lay the header's.
#[test]
fn the_layout_of_a_row() {
    let offsets = vec![
        offset_of!(TlzJob, owner),
        offset_of!(TlzJob, answer),
        offset_of!(TlzJob, file_from),
        offset_of!(TlzJob, file_len),
        offset_of!(TlzJob, marks_from),
        offset_of!(TlzJob, marks_len),
        offset_of!(TlzJob, state),
    ];
    let (size, alignment) = (size_of::<TlzJob>(), align_of::<TlzJob>());
    let laid = Layout { offsets, size, alignment };
    assert_eq!(job().layout(), Some(laid.clone()));
    if size_of::<usize>() == 8 {
        assert_eq!(laid.offsets, [0, 4, 8, 16, 24, 32, 40]);
        assert_eq!((laid.size, laid.alignment), (176, 8));
    }
}

/// Fields with room between them and behind them.
#[test]
fn layouts_with_room() {
    let header = "#define TLZ_N 3\ntypedef struct tlz_x { uint8_t a; uint32_t b; uint16_t c[TLZ_N], d; } tlz_x;";
    let found = structs::of_header(header).expect("a struct");
    let expected = Layout { offsets: vec![0, 4, 8, 14], size: 16, alignment: 4 };
    assert_eq!(found[0].layout(), Some(expected));
}

/// Structs inside a struct lie in its place, and fields are found by their own names.
#[test]
fn structs_inside_structs() {
    let source = "#[repr(C)]\npub struct Part {\n    pub from: usize, // where\n    pub len: usize,\n}\n#[repr(C)]\npub struct \
        Pair {\n    pub file: Part,\n    pub marks: Part,\n}\n#[repr(C)]\n#[derive(Clone, Copy)]\npub struct TwoParts {\n    pub owner: \
        i32,\n    pub parts: Pair,\n    pub state: [u32; 34],\n}\npub struct Other { pub x: Strange }\n";
    let header = "typedef struct tlz_two_parts { int32_t owner; size_t file_from, file_len; size_t marks_from; size_t marks_len; \
        uint32_t state[34]; } tlz_two_parts;";
    assert_eq!(struct_drift(header, source), Vec::<String>::new());
    let edits = [
        ("pub file: Part,\n    pub marks: Part", "pub marks: Part,\n    pub file: Part"),
        ("pub from: usize, // where\n    pub len: usize", "pub len: usize,\n    pub from: usize"),
        ("pub len: usize", "pub len: u64"),
        ("[u32; 34]", "[u32; 33]"),
        ("[u32; 34]", "[i32; 34]"),
        ("[u32; 34]", "[Strange; 34]"),
        ("pub owner: i32,", ""),
        ("struct TwoParts", "struct Twoparts"),
        ("#[repr(C)]\n#[derive(Clone, Copy)]", ""),
        ("pub parts: Pair", "pub parts: Other"),
    ];
    for (from, to) in edits {
        let drifted = source.replacen(from, to, 1);
        assert!(source.contains(from) && !struct_drift(header, &drifted).is_empty(), "{to}");
    }
}

/// docs/INTERFACE.md has a heading and the prototype of every call, and of no other.
#[test]
fn every_call_is_described() {
    let described = text("docs/INTERFACE.md");
    let flat = described.split_whitespace().collect::<Vec<&str>>().join(" ");
    let declared = calls::of_header(&header()).expect("the header");
    for call in &declared {
        let heading = format!("### {}", call.name);
        assert!(described.lines().any(|line| line == heading), "{heading}");
        assert!(flat.contains(&call.prototype()), "{}", call.prototype());
    }
    let headings = described.lines().filter(|line| line.starts_with("### tlz_")).count();
    assert_eq!(headings, declared.len());
}

/// Edits of the header: a text and what comes in its place.
const OF_HEADER: &[(&str, &str)] = &[
    ("int32_t tlz_check_begin(uint32_t *state, size_t state_len);", ""),
    ("int32_t tlz_check_begin", "int64_t tlz_check_begin"),
    ("tlz_check_begin(uint32_t *state", "tlz_check_begin(uint64_t *state"),
    ("tlz_check_begin(uint32_t *state", "tlz_check_begin(const uint32_t *state"),
    ("tlz_check_begin(uint32_t *state, size_t state_len)", "tlz_check_begin(uint32_t *state)"),
    ("tlz_check_grant(const uint8_t *file", "tlz_check_grant(uint8_t *file"),
    ("uint64_t grant, uint64_t *steps", "uint64_t *steps, uint64_t grant"),
    ("uint64_t grant, uint64_t *steps", "uint32_t grant, uint64_t *steps"),
    ("uint64_t *steps, uint64_t *where", "uint64_t *steps"),
    ("uint64_t *steps, uint64_t *where", "uint64_t *where, uint64_t *steps"),
    ("uint64_t *steps, uint64_t *where", "uint64_t *steps, uint32_t *where"),
    ("uint64_t grant, uint64_t *steps", "uint64_t grant, uint64_t *steps, int32_t more"),
    ("uint64_t grant, uint64_t *steps", "uint64_t grant, uint64_t *steps);\nvoid tlz_more(void"),
    ("int32_t tlz_check_begin(uint32_t", "int32_t (*tlz_check_begin)(uint32_t"),
    ("tlz_round(const uint8_t *files", "tlz_round(uint8_t *files"),
    ("tlz_job *jobs, size_t count", "const tlz_job *jobs, size_t count"),
    ("tlz_job *jobs, size_t count", "uint32_t *jobs, size_t count"),
    ("tlz_job *jobs, size_t count", "tlz_job *jobs"),
    ("tlz_read_pad(const uint8_t *file", "tlz_read_pads(const uint8_t *file"),
    ("int32_t tlz_read_levels(", "int64_t tlz_read_levels("),
    ("int64_t number, int64_t record,", "int64_t record, int64_t number,"),
    ("const int64_t *indices, size_t index_count", "const int64_t *indices, uint32_t index_count"),
    ("uint64_t what, int32_t *field", "int64_t what, int32_t *field"),
    ("uint64_t place, uint64_t at", "uint64_t at, uint64_t place"),
    ("uint64_t *offset, uint64_t *length", "uint64_t *length, uint64_t *offset"),
    ("int32_t tlz_epoch_date(", "double tlz_epoch_date("),
    ("tlz_epoch_date(double epoch", "tlz_epoch_date(float epoch"),
    ("tlz_epoch_date(double epoch", "tlz_epoch_date(uint64_t epoch"),
    ("tlz_epoch_date(double epoch", "tlz_epoch_date(const double *epoch"),
    ("int32_t *year, int32_t *month", "int32_t *month, int32_t *year"),
    ("int32_t *year, int32_t *month", "int64_t *year, int32_t *month"),
    ("int32_t *year, int32_t *month", "int32_t year, int32_t *month"),
    ("int32_t *day, int32_t *milliseconds", "int32_t *milliseconds, int32_t *day"),
    ("int32_t *day, int32_t *milliseconds", "int32_t *day"),
    ("tlz_epoch_from(int64_t year, int64_t month", "tlz_epoch_from(int64_t month, int64_t year"),
    ("tlz_epoch_from(int64_t year, int64_t month", "tlz_epoch_from(int32_t year, int64_t month"),
    ("int64_t milliseconds, double *epoch", "int64_t milliseconds, float *epoch"),
    ("int64_t milliseconds, double *epoch", "int64_t milliseconds, double epoch"),
    ("int64_t milliseconds, double *epoch", "double *epoch, int64_t milliseconds"),
    ("tlz_epoch_difference(double a, double b", "tlz_epoch_difference(double b, double a"),
    ("tlz_epoch_difference(double a, double b", "tlz_epoch_difference(double a, float b"),
    ("double b, double *difference", "double b, const double *difference"),
];

/// Edits of the header's row.
const OF_ROW: &[(&str, &str)] = &[
    ("    uint32_t owner; ", "    int32_t owner; "),
    ("    int32_t answer; ", "    int64_t answer; "),
    ("    uint32_t owner; ", "    uint32_t owner; uint32_t more; "),
    ("    uint32_t owner; ", "    "),
    ("size_t file_from, file_len;", "size_t file_len, file_from;"),
    ("size_t file_from, file_len;", "uint64_t file_from, file_len;"),
    ("size_t file_from, file_len;", "size_t marks_from, marks_len;"),
    ("uint32_t state[TLZ_STATE_LEN]; /*", "uint32_t state[33]; /*"),
    ("uint32_t state[TLZ_STATE_LEN]; /*", "uint64_t state[TLZ_STATE_LEN]; /*"),
    ("uint32_t state[TLZ_STATE_LEN]; /*", "uint32_t *state; /*"),
    ("#define TLZ_STATE_LEN 34", "#define TLZ_STATE_LEN 35"),
    ("typedef struct tlz_job {", "typedef struct tlz_row {"),
    ("} tlz_job;", "} tlz_jobs;"),
];

/// Edits of the sources, made wherever the text stands: a function below a call may have the same parameters.
const OF_SOURCES: &[(&str, &str)] = &[
    ("#[unsafe(no_mangle)]\npub extern \"C\" fn tlz_check_begin", "pub fn tlz_check_begin"),
    ("fn tlz_check_begin(state: &mut [u32]) -> i32", "fn tlz_check_begin(state: &mut [u32])"),
    ("fn tlz_check_begin(state: &mut [u32])", "fn tlz_check_begin(state: &mut [u64])"),
    ("fn tlz_check_begin(state: &mut [u32])", "fn tlz_check_begin(state: &[u32])"),
    ("fn tlz_check_begin(state: &mut [u32])", "fn tlz_check_begin(state: &mut u32)"),
    ("    grant: u64,\n    steps: &mut u64,\n", "    steps: &mut u64,\n    grant: u64,\n"),
    ("    grant: u64,\n    steps: &mut u64,\n", "    grant: u64,\n    steps: u64,\n"),
    ("    file: &[u8],\n    marks: &mut [u8],\n", "    marks: &mut [u8],\n    file: &[u8],\n"),
    ("fn tlz_check_begin(", "fn tlz_check_start("),
    ("fn tlz_round(", "fn tlz_rounds("),
    ("    pub owner: u32,\n    pub answer: i32,\n", "    pub answer: i32,\n    pub owner: u32,\n"),
    ("    pub owner: u32,\n    pub answer: i32,\n", "    pub owner: u32,\n    pub answer: u32,\n"),
    ("const STATE_LENGTH: usize = 34;", "const STATE_LENGTH: usize = 35;"),
    ("    epoch: f64,\n    year: &mut i32,\n", "    epoch: f32,\n    year: &mut i32,\n"),
    ("    epoch: f64,\n    year: &mut i32,\n", "    year: &mut i32,\n    epoch: f64,\n"),
    ("    month: &mut i32,\n    day: &mut i32,\n", "    day: &mut i32,\n    month: &mut i32,\n"),
    ("fn tlz_epoch_from(", "fn tlz_epoch_of("),
    ("fn tlz_epoch_difference(", "fn tlz_epoch_between("),
];

/// Each edit of the header or of the sources is found.
#[test]
fn drift_is_found() {
    let (header, sources) = (header(), sources());
    for (from, to) in OF_HEADER.iter().chain(OF_ROW) {
        assert!(header.contains(from), "{from}");
        assert!(!drift(&header.replacen(from, to, 1), &sources).is_empty(), "{from} -> {to}");
    }
    for (from, to) in OF_SOURCES {
        assert!(sources.contains(from), "{from}");
        assert!(!drift(&header, &sources.replace(from, to)).is_empty(), "{from} -> {to}");
    }
}

/// Parameters of one type in another order are found by their names.
#[test]
fn swapped_names_are_found() {
    let source =
        "#[unsafe(no_mangle)]\npub extern \"C\" fn tlz_x(kind: &mut u64, bits: &mut u64) -> i32 {";
    assert!(drift("int32_t tlz_x(uint64_t *kind, uint64_t *bits);", source).is_empty());
    assert!(drift("int32_t tlz_x(uint64_t *value_kind, uint64_t *bits);", source).is_empty());
    assert!(!drift("int32_t tlz_x(uint64_t *bits, uint64_t *kind);", source).is_empty());
}

/// Doubles, and pointers to them, in all three texts.
#[test]
fn doubles_as_parameters() {
    let source = "#[unsafe(no_mangle)]\npub extern \"C\" fn tlz_x(\n    epoch: f64,\n    year: &mut i32,\n    to: &mut f64,\n) -> i32\n{ 0 }";
    let header = "int32_t tlz_x(double epoch, int32_t *year, double *to);";
    let bindings =
        "extern \"C\" {\n    pub fn tlz_x(epoch: f64, year: *mut i32, to: *mut f64) -> i32;\n}";
    assert_eq!(drift(header, source), Vec::<String>::new());
    let bound = calls::of_bindings(bindings).expect("the bindings");
    assert_eq!(calls::of_header(header), Ok(bound.clone()));
    assert_eq!(bound[0].prototype(), header);
    let edits = [
        ("double epoch", "float epoch"),
        ("double epoch", "int64_t epoch"),
        ("double epoch", "double *epoch"),
        ("int32_t *year", "double *year"),
        ("double *to", "double to"),
        ("double *to", "const double *to"),
        ("double *to", "float *to"),
    ];
    for (from, to) in edits {
        let drifted = header.replacen(from, to, 1);
        assert!(!drift(&drifted, source).is_empty(), "{drifted}");
        assert_ne!(calls::of_header(&drifted), Ok(bound.clone()), "{drifted}");
    }
}

/// Every form of parameter that a call can have.
#[test]
fn forms_of_parameters() {
    let source = "// a comment, #[no mangle]\n#[unsafe(no_mangle)]\npub extern \"C\" fn tlz_read(\n    file: &[u8],\n    \
        number: i64, // which\n    indices: &[i64],\n    low: u32,\n    out: &mut [i16],\n    bits: &mut u64,\n    one: &u8,\n) -> u32\n    \
        requires { x } ensures { y }\n{ 0 }\n#[unsafe(no_mangle)]\npub extern \"C\" fn tlz_none() { }\n";
    let header = "#define X(a) \\\n    f(a);\n/* int32_t no(void); */\nextern \"C\" {\nuint32_t tlz_read(const uint8_t *file, \
        size_t n,\n int64_t number, const int64_t *indices, size_t index_count, uint32_t low, int16_t *out,\n size_t m, \
        uint64_t* bits, const uint8_t * one);\nvoid tlz_none(void);\n}\n";
    assert_eq!(drift(header, source), Vec::<String>::new());
    assert!(
        !drift(&header.replace("const int64_t *indices", "int64_t *indices"), source).is_empty()
    );
    assert!(!drift(&header.replace("void tlz_none(void)", "void tlz_none(size_t a)"), source)
        .is_empty());
    assert!(calls::of_rattle_source(&source.replace("u32,", "Strange,")).is_err());
}

/// The table of docs/INTERFACE.md, the header and the tools' words have the same numbers: -1 to 24, but not 19, and 27.
#[test]
fn every_number_of_the_table() {
    let table = calls::table_numbers(&text("docs/INTERFACE.md"));
    let defined = calls::defined_numbers(&header());
    let comes_back =
        |(name, _): &(String, i64)| !OTHERS.contains(&name.as_str()) && !is_readers(name);
    let numbers: Vec<(String, i64)> = defined.into_iter().filter(comes_back).collect();
    assert_eq!(numbers, table);
    let all: Vec<i64> = table.iter().map(|(_, number)| *number).collect();
    assert_eq!(all, (-1..=18).chain(20..=24).chain([27]).collect::<Vec<i64>>());
    let ours = [
        ("TLZ_TOO_DEEP", TOO_DEEP),
        ("TLZ_RESERVED_OPERAND", RESERVED_OPERAND),
        ("TLZ_BAD_ROUND", BAD_ROUND),
        ("TLZ_BAD_ROUND", rounds::BAD_ROUND),
        ("TLZ_NO_EPOCH", NO_EPOCH),
        ("TLZ_NO_EPOCH", epochs::NO_EPOCH),
    ];
    for (name, number) in ours {
        assert!(table.contains(&(name.to_string(), i64::from(number))), "{name}: {table:?}");
    }
    let words = text("tools/words.c");
    for (name, _) in &table {
        assert_eq!(words.matches(&format!("{{ {name}, \"")).count(), 1, "{name} in tools/words.c");
    }
    let drifted = header().replace("#define TLZ_BAD_LINK 8", "#define TLZ_BAD_LINK 9");
    assert_ne!(calls::defined_numbers(&drifted), calls::defined_numbers(&header()));
}

/// Numbers that stand behind a text, everywhere in another one.
fn numbers_behind(sources: &str, before: &str) -> Vec<usize> {
    let digits = |rest: &str| rest.split(|c: char| !c.is_ascii_digit()).next()?.parse().ok();
    sources.split(before).skip(1).filter_map(digits).collect()
}

/// TLZ_STATE_LEN is the length that the code, the library, the bindings and the documents have.
#[test]
fn the_length_of_a_state() {
    let defined = calls::defined_numbers(&header());
    let defined =
        defined.iter().find(|(name, _)| name == "TLZ_STATE_LEN").map(|(_, n)| *n as usize);
    let length = defined.expect("TLZ_STATE_LEN");
    assert_eq!(length, STATE_LENGTH);
    for other in 0..3 * length {
        let answer = check_begin(&mut vec![1; other]);
        assert_eq!(answer, if other == length { -1 } else { 20 }, "{other}");
    }
    assert_eq!(numbers_behind(&sources(), "const STATE_LENGTH: usize = "), [length]);
    let literal = numbers_behind(&sources(), "state.len() != ");
    assert!(literal.is_empty(), "the code has one literal for it: {literal:?}");
    for document in ["docs/STATE.md", "docs/INTERFACE.md"] {
        let said = numbers_behind(&text(document), "`TLZ_STATE_LEN` is ");
        assert!(
            !said.is_empty() && said.iter().all(|number| *number == length),
            "{document}: {said:?}"
        );
    }
}

/// TLZ_MOST_JOBS is the number that the bindings and the second implementation have.
#[test]
fn the_most_jobs() {
    let defined = calls::defined_numbers(&header());
    let most = ("TLZ_MOST_JOBS".to_string(), MOST_JOBS as i64);
    assert!(defined.contains(&most), "{defined:?}");
    assert_eq!(MOST_JOBS, rounds::MOST_JOBS);
}

/// The rows `| NUMBER | .., `NAME` | meaning |` of the reader's tables in a text.
fn reader_rows(text: &str) -> Vec<(String, i64)> {
    let read = |line: &str| {
        let mut cells = line.strip_prefix('|')?.split('|').map(str::trim);
        let number = cells.next()?.parse().ok()?;
        let name = cells.next()?.split('`').nth(1)?.to_string();
        is_readers(&name).then_some((name, number))
    };
    text.lines().filter_map(read).collect()
}

/// The header's constants of the reader are the ones that the library takes, and docs/INTERFACE.md has them in its tables.
#[test]
fn every_constant_of_the_reader() {
    let mut defined = calls::defined_numbers(&header());
    assert!(defined.contains(&("TLZ_BAD_WAY".to_string(), 20)));
    defined.retain(|(name, _)| is_readers(name));
    for (name, number) in KINDS.into_iter().chain([("TLZ_FILE_PADDING", FILE_PADDING as i64)]) {
        assert!(defined.contains(&(name.to_string(), number)), "{name}");
    }
    let described = text("docs/INTERFACE.md");
    for (name, number) in &defined {
        assert!(described.contains(&format!("`{name}`")), "{name}");
        let rows = reader_rows(&described);
        let row = rows.iter().find(|(row, _)| row == name);
        assert!(row.is_none_or(|(_, shown)| shown == number), "{name}: {row:?}");
        assert!(row.is_some() || KINDS.iter().any(|(kind, _)| kind == name), "{name}");
    }
    let fields = |begin: &str| -> Vec<u64> {
        let of = defined.iter().filter(|(name, _)| name.starts_with(begin));
        of.map(|(_, number)| *number as u64).collect()
    };
    let file = samples::directory().join("12_attrs_be_r_and_z.cdf");
    let file = std::fs::read(file).expect("a sample");
    let shown = |call: &dyn Fn(u64) -> Result<i32, i32>| -> Vec<u64> {
        (0..300).filter(|at| call(*at).is_ok()).collect()
    };
    assert_eq!(fields("TLZ_FILE_"), shown(&|at| read_file(&file, at)));
    assert_eq!(fields("TLZ_VARIABLE_"), shown(&|at| read_variable(&file, 8, 0, at)));
    assert_eq!(fields("TLZ_ATTRIBUTE_"), shown(&|at| read_attribute(&file, 0, at)));
    assert_eq!(fields("TLZ_ENTRY_"), shown(&|at| read_entry_at(&file, 0, 5, 0, at)));
}
