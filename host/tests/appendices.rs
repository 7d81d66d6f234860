//! Every VAX float of appendices A and B of the format description, by the second implementation and, from the samples, by the
//! proved reader.

use tlepozaluh_host::appendices::{cases, Case, DOUBLE, MISPRINTS, SINGLE};
use tlepozaluh_host::questions::{agreed_double, second_double};
use tlepozaluh_host::samples;
use tlepozaluh_host::vax::{self, Kind, Parts, KINDS};

/// What the second implementation answers.
fn answer(kind: Kind, parts: Parts) -> Result<u64, i32> {
    second_double(kind, kind.pattern(parts))
}

/// What is right for a row with the sign set: a reserved operand where the exponent is zero, else the row's double negated.
fn negated(case: &Case, bits: u64) -> Result<u64, i32> {
    match case.parts.exponent {
        0 => Err(22),
        _ => Ok(1 << 63 | bits),
    }
}

/// 41 rows in A; 99 in B, 48 with a G_FLOAT and 63 with a D_FLOAT, 12 with both.
#[test]
fn every_row_is_there() {
    assert_eq!((SINGLE.lines().count(), DOUBLE.lines().count()), (41, 99));
    assert_eq!(KINDS.map(|kind| cases(kind).len()), [41, 63, 48]);
    let with_double = |kind| cases(kind).iter().filter(|case| case.double.is_some()).count();
    assert_eq!(KINDS.map(with_double), [20, 8, 27]);
    for (printed, right) in MISPRINTS {
        assert_eq!(DOUBLE.lines().filter(|row| *row == printed).count(), 1, "{printed}");
        assert_eq!(DOUBLE.lines().filter(|row| *row == right).count(), 0, "{right}");
    }
}

/// A misprinted row contradicts itself or the one before it.
#[test]
fn misprints() {
    let g_float = |mantissa, exponent| {
        answer(Kind::G, Parts { negative: false, exponent, mantissa }).expect("a value")
    };
    assert_ne!(g_float(2, 0x381), 0x37F << 52 | 0x20);
    assert_eq!(g_float(2, 0x381), 0x37F << 52 | 2);
    assert_ne!(g_float((1 << 52) - 2, 0x47F), 0x47D << 52 | ((1 << 52) - 1));
    assert_eq!(g_float((1 << 52) - 1, 0x47F), 0x47D << 52 | ((1 << 52) - 1));
}

/// Digits and exponent of a number as printed.
fn printed(text: &str) -> (&str, i32) {
    let (digits, exponent) = text.split_once('e').expect(text);
    (digits, exponent.parse().expect(text))
}

/// The answer is the row's double, and its printed value: rounded to so many digits if the float is a double's value; else
/// the double nearest to what is printed, or the even one of two.
fn check(kind: Kind, case: &Case, bits: u64) {
    assert!(case.double.is_none_or(|double| double == bits), "{case:?}: {bits:x}");
    let sorts = kind.sorts(kind.pattern(case.parts));
    if sorts.contains(&vax::EXACT) || sorts.contains(&vax::ZERO) {
        let decimals = printed(case.value).0.len() - 2;
        let text = format!("{:.decimals$e}", f64::from_bits(bits));
        assert_eq!(printed(&text), printed(case.value), "{case:?}");
        return;
    }
    let near: f64 = case.value.parse().expect(case.value);
    if sorts.contains(&vax::TIE) {
        assert!(bits.is_multiple_of(2) && near.to_bits().abs_diff(bits) <= 1, "{case:?}: {bits:x}");
    } else {
        assert_eq!(near.to_bits(), bits, "{case:?}");
    }
}

#[test]
fn every_row() {
    for kind in KINDS {
        for case in cases(kind) {
            let bits = answer(kind, case.parts).expect("a value");
            check(kind, &case, bits);
            kind.judge(kind.pattern(case.parts), Ok(bits)).expect("the nearest double");
            let negative = Parts { negative: true, ..case.parts };
            assert_eq!(answer(kind, negative), negated(&case, bits), "{case:?}");
        }
    }
}

/// The samples that hold the rows: zVariable 0 as they are, zVariable 1 with the sign set.
#[test]
fn every_row_by_both_readers() {
    let mut refused = 0;
    for (kind, name) in
        KINDS.into_iter().zip(["appendix_f.cdf", "appendix_d.cdf", "appendix_g.cdf"])
    {
        let file = std::fs::read(samples::directory().join("vax").join(name)).expect(name);
        for (case, record) in cases(kind).iter().zip(0..) {
            let ask = |number| agreed_double(&file, number, record).expect("one answer");
            let bits = ask(0).expect("a value");
            check(kind, case, bits);
            let with_sign = ask(1);
            assert_eq!(with_sign, negated(case, bits), "{case:?}");
            refused += usize::from(with_sign.is_err());
        }
    }
    assert_eq!(refused, 15);
}
