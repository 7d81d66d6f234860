//! VAX floats: the exact value of F_FLOAT, D_FLOAT and G_FLOAT as a fraction of whole numbers, and the double nearest to it.

use super::whole::Fraction;
use std::cmp::Ordering;
use Part::{Exponent, Mantissa, Sign};

/// What bits of a float are.
#[derive(Clone, Copy, Debug, PartialEq, Eq)]
enum Part {
    Sign,
    Exponent,
    Mantissa,
}

/// A row of a table: a byte, its bits from the first to the last, and which bits of which part they are.
#[derive(Debug, PartialEq, Eq)]
struct Row {
    byte: usize,
    bits: (u32, u32),
    part: Part,
    of_part: (u32, u32),
}

const fn row(byte: usize, bits: (u32, u32), part: Part, of_part: (u32, u32)) -> Row {
    Row { byte, bits, part, of_part }
}

/// A kind of VAX float.
#[derive(Debug, PartialEq, Eq)]
pub struct VaxFloat {
    /// The rows of its table.
    rows: &'static [Row],
    /// Bytes of one.
    pub size: i64,
    /// Bits of the mantissa.
    width: u64,
    /// What is taken from the exponent.
    offset: u64,
}

/// Table 5.4 of the format description.
pub const F_FLOAT: VaxFloat = VaxFloat {
    rows: &[
        row(0, (0, 6), Mantissa, (16, 22)),
        row(0, (7, 7), Exponent, (0, 0)),
        row(1, (0, 6), Exponent, (1, 7)),
        row(1, (7, 7), Sign, (0, 0)),
        row(2, (0, 7), Mantissa, (0, 7)),
        row(3, (0, 7), Mantissa, (8, 15)),
    ],
    size: 4,
    width: 23,
    offset: 128,
};

/// Table 5.7, with bits 0 to 7 of byte 5.
pub const D_FLOAT: VaxFloat = VaxFloat {
    rows: &[
        row(0, (0, 6), Mantissa, (48, 54)),
        row(0, (7, 7), Exponent, (0, 0)),
        row(1, (0, 6), Exponent, (1, 7)),
        row(1, (7, 7), Sign, (0, 0)),
        row(2, (0, 7), Mantissa, (32, 39)),
        row(3, (0, 7), Mantissa, (40, 47)),
        row(4, (0, 7), Mantissa, (16, 23)),
        row(5, (0, 7), Mantissa, (24, 31)),
        row(6, (0, 7), Mantissa, (0, 7)),
        row(7, (0, 7), Mantissa, (8, 15)),
    ],
    size: 8,
    width: 55,
    offset: 128,
};

/// Table 5.8, with bits 0 to 7 of byte 5.
pub const G_FLOAT: VaxFloat = VaxFloat {
    rows: &[
        row(0, (0, 3), Mantissa, (48, 51)),
        row(0, (4, 7), Exponent, (0, 3)),
        row(1, (0, 6), Exponent, (4, 10)),
        row(1, (7, 7), Sign, (0, 0)),
        row(2, (0, 7), Mantissa, (32, 39)),
        row(3, (0, 7), Mantissa, (40, 47)),
        row(4, (0, 7), Mantissa, (16, 23)),
        row(5, (0, 7), Mantissa, (24, 31)),
        row(6, (0, 7), Mantissa, (0, 7)),
        row(7, (0, 7), Mantissa, (8, 15)),
    ],
    size: 8,
    width: 52,
    offset: 1024,
};

impl VaxFloat {
    /// The double nearest to the float of these bytes, as its bits; nothing for the reserved operand.
    pub fn double(&self, bytes: &[u8]) -> Option<u64> {
        let sign = self.part(bytes, Sign);
        match (self.part(bytes, Exponent), sign) {
            (0, 0) => Some(0),
            (0, _) => None,
            (exponent, _) => {
                let magnitude = self.magnitude(exponent, self.part(bytes, Mantissa));
                Some(sign << 63 | nearest(&magnitude))
            }
        }
    }

    /// A part's bits, joined row by row.
    fn part(&self, bytes: &[u8], part: Part) -> u64 {
        let rows = self.rows.iter().filter(|row| row.part == part);
        rows.fold(0, |joined, row| {
            let byte = bytes.get(row.byte).copied().unwrap_or(0);
            let above_left_out = u64::from(byte) % (2 << row.bits.1);
            joined | above_left_out >> row.bits.0 << row.of_part.0
        })
    }

    /// 0.1m in binary times 2^(e - offset): with a mantissa of w bits, (2^w + m) 2^e over 2^(w + 1) 2^offset.
    fn magnitude(&self, exponent: u64, mantissa: u64) -> Fraction {
        let digits = (1 << self.width) + mantissa;
        Fraction::scaled(digits, exponent, self.width + 1 + self.offset)
    }
}

/// The first bits that are no finite double's, the sign being clear.
const INFINITE: u64 = 0x7FF0_0000_0000_0000;

/// The double of these bits, below infinity: 1.m times 2^(e - 1023), or 0.m times 2^-1022 if e is 0. The bits of infinity
/// stand for 2^1024.
fn of_double(bits: u64) -> Fraction {
    match (bits >> 52, bits % (1 << 52)) {
        (0, mantissa) => Fraction::scaled(mantissa, 0, 52 + 1022),
        (exponent, mantissa) => Fraction::scaled((1 << 52) + mantissa, exponent, 52 + 1023),
    }
}

/// The greatest double that is not above a value. Doubles with a clear sign rise with their bits, from 0 on.
fn greatest_not_above(value: &Fraction) -> u64 {
    let (mut not_above, mut above) = (0, INFINITE);
    while above - not_above > 1 {
        let between = not_above + (above - not_above) / 2;
        if of_double(between).compare(value) == Ordering::Greater {
            above = between;
        } else {
            not_above = between;
        }
    }
    not_above
}

/// The nearest of the doubles on both sides of a value; of two that are equally near, the one whose last bit is even.
fn nearest(value: &Fraction) -> u64 {
    let lower = greatest_not_above(value);
    let upper = lower + 1;
    let [to_lower, to_upper] = [lower, upper].map(|bits| of_double(bits).distance(value));
    match to_lower.compare(&to_upper) {
        Ordering::Less => lower,
        Ordering::Greater => upper,
        Ordering::Equal => [lower, upper][usize::from(lower % 2 == 1)],
    }
}

#[cfg(test)]
mod tests {
    use super::super::whole::Whole;
    use super::*;

    /// Every bit of every byte stands in one row, and every bit of every part.
    #[test]
    fn rows_have_every_bit_once() {
        for (kind, exponents) in [(&F_FLOAT, 8), (&D_FLOAT, 8), (&G_FLOAT, 11)] {
            let mut bits = vec![0; 8 * kind.size as usize];
            let mut parts = [vec![0; 1], vec![0; exponents], vec![0; kind.width as usize]];
            for row in kind.rows {
                assert_eq!(row.bits.1 - row.bits.0, row.of_part.1 - row.of_part.0, "{row:?}");
                (row.bits.0..=row.bits.1).for_each(|bit| bits[8 * row.byte + bit as usize] += 1);
                let part = &mut parts[row.part as usize];
                (row.of_part.0..=row.of_part.1).for_each(|bit| part[bit as usize] += 1);
            }
            assert!(bits.iter().chain(parts.iter().flatten()).all(|count| *count == 1));
        }
    }

    /// A float with one bit of one byte set has one bit of one part.
    #[test]
    fn parts_of_single_bits() {
        for kind in [&F_FLOAT, &D_FLOAT, &G_FLOAT] {
            for bit in 0..8 * kind.size as usize {
                let mut bytes = vec![0; kind.size as usize];
                bytes[bit / 8] = 1 << (bit % 8);
                let parts = [Sign, Exponent, Mantissa].map(|part| kind.part(&bytes, part));
                assert_eq!(parts.iter().map(|part| part.count_ones()).sum::<u32>(), 1);
            }
        }
    }

    /// The examples of the request: 1.0, and the least G_FLOAT, 2^-1024.
    #[test]
    fn known_values() {
        assert_eq!(F_FLOAT.double(&[0x80, 0x40, 0, 0]), Some(1_f64.to_bits()));
        assert_eq!(D_FLOAT.double(&[0x80, 0xC0, 0, 0, 0, 0, 0, 0]), Some((-1_f64).to_bits()));
        assert_eq!(G_FLOAT.double(&[0x10, 0x40, 0, 0, 0, 0, 0, 0]), Some(1_f64.to_bits()));
        assert_eq!(G_FLOAT.double(&[0x10, 0, 0, 0, 0, 0, 0, 0]), Some(1 << 50));
        assert_eq!(F_FLOAT.double(&[0x7F, 0, 0xFF, 0xFF]), Some(0));
        assert_eq!(F_FLOAT.double(&[0x7F, 0x80, 0xFF, 0xFF]), None);
    }

    /// The value of a double by its bits, where it is a whole number.
    #[test]
    fn whole_doubles() {
        for number in [1_u64, 2, 3, 10, 1 << 40, (1 << 53) - 1] {
            let own = Fraction { above: Whole::of(number), below: Whole::of(1) };
            let bits = (number as f64).to_bits();
            assert_eq!(of_double(bits).compare(&own), Ordering::Equal);
            assert_eq!((greatest_not_above(&own), nearest(&own)), (bits, bits));
        }
        let half = |power| Fraction { above: Whole::of(1), below: Whole::two_to(power) };
        assert_eq!((nearest(&half(1074)), nearest(&half(1075))), (1, 0));
        assert_eq!(of_double(0).compare(&half(3000)), Ordering::Less);
    }
}
