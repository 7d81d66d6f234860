//! The samples against what an independent second reader, JCDF, reads from them.

use std::path::Path;

use tlepozaluh_host::dump;
use tlepozaluh_host::samples;
use tlepozaluh_host::second;
use tlepozaluh_host::second::check::{run, ACCEPTED};
use tlepozaluh_host::second::read::{read_entry, read_value};

/// What is compared where JCDF's dump is not the whole truth.
#[derive(Clone, Copy, Debug, PartialEq)]
enum Compare {
    /// Every line of the dump, notes left out.
    Whole,
    /// Every line, but those where JCDF is wrong: how its line begins, and what the bytes hold.
    Except(&'static [(&'static str, &'static str)]),
    /// JCDF reads nothing of the file; these are the lines its bytes hold.
    Lines(&'static str),
    /// JCDF reads nothing of the file; the `.vax.jcdf` dump, made without JCDF, is compared: `vax` there is any float.
    Vax,
}

/// The samples in which JCDF is wrong or answers otherwise, and why.
const EXCEPTIONS: [(&str, Compare, &str); 11] = [
    ("14_sparse_pad", Compare::Whole, "JCDF shows the pad value in gaps: in notes, ours GAP"),
    ("21_duplicate_entries", Compare::Whole, "JCDF keeps the last of equal numbers: in notes"),
    (
        "15_sparse_previous",
        Compare::Whole,
        "JCDF fills gaps from a wrong offset: in notes, ours GAP",
    ),
    ("16_gap_without_sparseness", Compare::Whole, "JCDF fails in a gap: in notes, ours GAP"),
    ("27_novary_record0_in_gap", Compare::Whole, "JCDF fails in a gap: in notes, ours GAP"),
    ("22_dims_product_overflow", Compare::Except(&SAMPLE_22), "JCDF takes sizes modulo 2^32"),
    (
        "25_entry_number_2147483647",
        Compare::Lines(ENTRY_25),
        "JCDF makes a list of entries that long",
    ),
    (
        "26_entry_number_2000000000",
        Compare::Lines(ENTRY_26),
        "JCDF makes a list of entries that long",
    ),
    ("30_encoding_03", Compare::Vax, "JCDF refuses the encoding"),
    ("30_encoding_14", Compare::Vax, "JCDF refuses the encoding"),
    ("30_encoding_15", Compare::Vax, "JCDF refuses the encoding"),
];

/// 641 times 6,700,417 is 2^32 + 1: JCDF takes a record for 1 byte, where it is 641.
const SAMPLE_22: [(&str, &str); 2] =
    [("R 0 @560 0  ERROR ", "R 0 @560 0 .."), ("R 1 @561 7  ERROR ", "R 1 @1201 1 ..")];

const ENTRY_25: &str = "\
CDF encoding=6 majority=row rdims=- nr=0 nz=1 na=1
VAR z num=0 name=h type=2 elems=1 dims=- varys=- recvary=T maxrec=2 srec=0 pad=-
R 0 @544 1
R 1 @546 -257
R 2 @548 3
ATTR num=0 name=HUGE scope=1 ngr=2 maxgr=2147483647 nz=0 maxz=-1
E g 2147483647 attr=0 type=2 elems=1 @714 1
E g 0 attr=0 type=2 elems=1 @764 2
END
";

const ENTRY_26: &str = "\
CDF encoding=6 majority=row rdims=- nr=0 nz=1 na=1
VAR z num=0 name=h type=2 elems=1 dims=- varys=- recvary=T maxrec=2 srec=0 pad=-
R 0 @544 1
R 1 @546 -257
R 2 @548 3
ATTR num=0 name=LARGE scope=2 ngr=0 maxgr=-1 nz=2 maxz=2000000000
E z 0 attr=0 type=2 elems=1 @714 2
E z 2000000000 attr=0 type=2 elems=1 @764 1
END
";

/// Names of the sample files that JCDF has read, without `.cdf`; the others have a dump of ours.
fn names() -> Vec<String> {
    let entries = std::fs::read_dir(samples::directory()).expect("samples/");
    let paths = entries.map(|entry| entry.expect("samples/").path());
    let is_cdf = |path: &Path| {
        let ours = path.with_extension("dump").exists();
        !ours && path.extension().is_some_and(|extension| extension == "cdf")
    };
    let stem = |path: &Path| path.file_stem().map(|stem| stem.to_string_lossy().into_owned());
    let mut names: Vec<String> =
        paths.filter(|path| is_cdf(path)).filter_map(|path| stem(&path)).collect();
    names.sort();
    names
}

fn sample(name: &str) -> Vec<u8> {
    std::fs::read(samples::directory().join(format!("{name}.cdf"))).expect(name)
}

/// The lines of a dump that are compared: notes begin with `#`.
fn dump_lines(name: &str) -> Vec<String> {
    let path = samples::directory().join(format!("{name}.jcdf"));
    let text = std::fs::read_to_string(path).expect(name);
    text.lines().filter(|line| !line.starts_with('#')).map(str::to_string).collect()
}

/// JCDF's lines, with the bytes' own where JCDF is wrong. Every exception must occur.
fn corrected(theirs: Vec<String>, exceptions: &[(&str, &str)]) -> Vec<String> {
    let find = |line: &String| exceptions.iter().find(|(begin, _)| line.starts_with(begin));
    assert_eq!(theirs.iter().filter_map(find).count(), exceptions.len());
    theirs.iter().map(|line| find(line).map_or(line.clone(), |(_, own)| own.to_string())).collect()
}

fn expected(name: &str) -> Vec<String> {
    let exception = EXCEPTIONS.iter().find(|(of, _, _)| *of == name);
    match exception.map_or(Compare::Whole, |(_, compare, _)| *compare) {
        Compare::Whole => dump_lines(name),
        Compare::Vax => dump_lines(&format!("{name}.vax")),
        Compare::Lines(lines) => lines.lines().map(str::to_string).collect(),
        Compare::Except(exceptions) => corrected(dump_lines(name), exceptions),
    }
}

/// A token of a float that is a double or a reserved operand.
fn is_vax_float(token: &str) -> bool {
    let is_digit = |c: char| c.is_ascii_digit() || ('a'..='f').contains(&c);
    let double = token.strip_prefix('d').is_some_and(|d| d.len() == 16 && d.chars().all(is_digit));
    double || token == "reserved"
}

/// Our lines with `vax` for each float that theirs show as `vax`; how many these are is added.
fn as_theirs(ours: &str, theirs: &[String], vax: &mut usize) -> Vec<String> {
    let mut word = |(own, other): (&str, &str)| {
        let stands_for = other == "vax" && is_vax_float(own);
        *vax += usize::from(stands_for);
        if stands_for { other } else { own }.to_string()
    };
    let mut line = |(own, other): (&str, &String)| {
        let rest = own.split(' ').skip(other.split(' ').count()).map(str::to_string);
        let pairs = own.split(' ').zip(other.split(' '));
        pairs.map(&mut word).chain(rest).collect::<Vec<String>>().join(" ")
    };
    let more = ours.lines().skip(theirs.len()).map(str::to_string);
    ours.lines().zip(theirs).map(&mut line).chain(more).collect()
}

/// How many floats the `.vax.jcdf` dumps show.
const VAX_FLOATS: usize = 12;

#[test]
fn every_sample() {
    let names = names();
    assert_eq!(names.len(), 43);
    let mut vax = 0;
    for name in &names {
        let (ours, theirs) = (second::dump::dump(&sample(name)).expect(name), expected(name));
        assert_eq!(as_theirs(&ours, &theirs, &mut vax), theirs, "{name}");
    }
    assert_eq!(vax, VAX_FLOATS);
}

/// The proved reader: every value, entry, pad value and descriptor of every sample.
#[test]
fn every_sample_by_the_proved_reader() {
    let (mut lines, mut vax) = (0, 0);
    for name in names() {
        let (ours, theirs) = (dump::dump(&sample(&name)).expect(&name), expected(&name));
        assert_eq!(as_theirs(&ours, &theirs, &mut vax), theirs, "{name}");
        lines += theirs.len();
    }
    assert!(lines > 800 && vax == VAX_FLOATS, "{lines} {vax}");
}

/// The floats of the samples with VAX floats: each token of both dumps against the bytes at its offset.
#[test]
fn vax_floats_are_those_of_the_bytes() {
    let mut judged = 0;
    for name in ["30_encoding_03", "30_encoding_14", "30_encoding_15"] {
        let file = sample(name);
        for ours in [second::dump::dump(&file).expect(name), dump::dump(&file).expect(name)] {
            judged += dump::judged_floats(&file, &ours).expect(name).len();
        }
    }
    assert_eq!(judged, 2 * VAX_FLOATS);
}

#[test]
fn every_exception_is_a_sample() {
    let names = names();
    for (name, _, why) in EXCEPTIONS {
        assert!(names.iter().any(|known| known == name), "{name}: {why}");
    }
}

#[test]
fn every_sample_is_accepted() {
    for name in names() {
        let file = sample(&name);
        assert_eq!(run(&file, &mut vec![0; file.len()]).verdict, ACCEPTED, "{name}");
    }
}

/// An entry asked by its number is the first line of that number.
#[test]
fn entries_by_number() {
    let mut asked = 0;
    for name in names() {
        let file = sample(&name);
        let text = second::dump::dump(&file).expect(&name);
        let mut seen = Vec::new();
        for line in text.lines().filter(|line| line.starts_with("E ")) {
            let words: Vec<&str> = line.split_whitespace().collect();
            let kind = if words[1] == "z" { 9 } else { 5 };
            let entry: i64 = words[2].parse().expect(line);
            let attribute: i64 = words[3].trim_start_matches("attr=").parse().expect(line);
            let offset: u64 = words[6].trim_start_matches('@').parse().expect(line);
            if seen.contains(&(kind, entry, attribute)) {
                continue;
            }
            seen.push((kind, entry, attribute));
            let answer = read_entry(&file, attribute, kind, entry, 0).expect(line);
            assert_eq!(answer.offset, offset, "{name}: {line}");
            asked += 1;
        }
    }
    assert!(asked > 100, "{asked}");
}

/// Sample 22: 641 by 6,700,417 values in a record of 641 bytes, the second dimension still.
#[test]
fn sizes_whose_product_passes_2_to_the_32() {
    let file = sample("22_dims_product_overflow");
    for (record, row, column) in [(0, 640, 6_700_416), (1, 640, 0), (1, 1, 6_700_416)] {
        let answer = read_value(&file, 8, 0, record, &[row, column], 0).expect("a value");
        let start = 560 + 641 * record + row;
        assert_eq!(answer.offset, start as u64);
        assert_eq!(answer.bits as i64, i64::from(file[start as usize] as i8));
    }
    assert_eq!(read_value(&file, 8, 0, 0, &[641, 0], 0), Err(18));
    assert_eq!(read_value(&file, 8, 0, 0, &[0, 6_700_417], 0), Err(18));
}
