//! VAX floats, stated apart from the second implementation: patterns to be stored, and when a double is the right answer.
//!
//! A pattern is the float's bytes as one number, the lowest byte first, as the builder stores it.

use crate::bindings::RESERVED_OPERAND;
use crate::build::random::Random;

/// A kind of VAX float.
#[derive(Clone, Copy, Debug, PartialEq, Eq, PartialOrd, Ord)]
pub enum Kind {
    /// F_FLOAT, of 4 bytes.
    F,
    /// D_FLOAT, of 8 bytes.
    D,
    /// G_FLOAT, of 8 bytes.
    G,
}

/// All kinds.
pub const KINDS: [Kind; 3] = [Kind::F, Kind::D, Kind::G];

/// A float taken apart.
#[derive(Clone, Copy, Debug, PartialEq, Eq)]
pub struct Parts {
    /// The sign bit.
    pub negative: bool,
    /// The exponent's bits.
    pub exponent: u64,
    /// The mantissa's bits.
    pub mantissa: u64,
}

impl Kind {
    /// The kind of a data type in an encoding, both by their numbers; nothing if it is no VAX float.
    pub fn of(encoding: i64, data_type: i64) -> Option<Kind> {
        match (encoding, data_type) {
            (3 | 14 | 15, 21 | 44) => Some(Kind::F),
            (3 | 14, 22 | 31 | 45) => Some(Kind::D),
            (15, 22 | 31 | 45) => Some(Kind::G),
            _ => None,
        }
    }

    /// Its name.
    pub fn name(self) -> &'static str {
        ["F_FLOAT", "D_FLOAT", "G_FLOAT"][self as usize]
    }

    /// Bits of a float.
    pub fn bits(self) -> u64 {
        [32, 64, 64][self as usize]
    }

    /// Bits of its mantissa.
    pub fn width(self) -> u64 {
        [23, 55, 52][self as usize]
    }

    /// What is taken from its exponent.
    pub fn offset(self) -> u64 {
        [128, 128, 1024][self as usize]
    }

    /// Its greatest mantissa.
    pub fn greatest_mantissa(self) -> u64 {
        (1 << self.width()) - 1
    }

    /// Its greatest exponent.
    pub fn greatest_exponent(self) -> u64 {
        2 * self.offset() - 1
    }

    /// The words of 16 bits in the other order: in the file the first one holds sign and exponent.
    fn turned(self, number: u64) -> u64 {
        let words = (0..self.bits() / 16).map(|place| number >> (16 * place) & 0xFFFF);
        words.fold(0, |joined, word| joined << 16 | word)
    }

    /// The parts of a pattern.
    pub fn parts(self, pattern: u64) -> Parts {
        let number = self.turned(pattern);
        Parts {
            negative: number >> (self.bits() - 1) == 1,
            exponent: (number >> self.width()) & self.greatest_exponent(),
            mantissa: number & self.greatest_mantissa(),
        }
    }

    /// The pattern of these parts.
    pub fn pattern(self, parts: Parts) -> u64 {
        let sign = u64::from(parts.negative) << (self.bits() - 1);
        self.turned(sign | parts.exponent << self.width() | parts.mantissa)
    }

    /// How many of the mantissa's last bits a double has no room for.
    fn beyond(self, exponent: u64) -> u64 {
        match (self, exponent) {
            (Kind::D, _) => 3,
            (Kind::G, 1) => 2,
            (Kind::G, 2) => 1,
            _ => 0,
        }
    }

    /// Any pattern: zeros, reserved operands, ties, carries and subnormal answers are all common.
    pub fn any(self, random: &mut Random) -> u64 {
        let exponent = match random.below(8) {
            0 => 0,
            1 => 1,
            2 => 2,
            3 => self.greatest_exponent(),
            4 => self.offset() + u64::from(random.byte() % 8),
            _ => random.number() & self.greatest_exponent(),
        };
        let mantissa = self.any_mantissa(self.beyond(exponent), random);
        self.pattern(Parts { negative: random.once_in(2), exponent, mantissa })
    }

    /// Any mantissa, of whose last bits so many are beyond a double's.
    fn any_mantissa(self, beyond: u64, random: &mut Random) -> u64 {
        let (any, low) = (random.number() & self.greatest_mantissa(), random.number() % 16);
        match random.below(8) {
            0 => low,
            1 => self.greatest_mantissa() - low,
            2 => self.greatest_mantissa() - low % 4,
            3 | 4 if beyond > 0 => any >> beyond << beyond | 1 << (beyond - 1),
            _ => any,
        }
    }

    /// The sorts that a pattern is of.
    pub fn sorts(self, pattern: u64) -> Vec<&'static str> {
        let parts = self.parts(pattern);
        if parts.exponent == 0 {
            return vec![if parts.negative { RESERVED } else { ZERO }];
        }
        let beyond = self.beyond(parts.exponent);
        let rest = parts.mantissa & ((1 << beyond) - 1);
        let half = 1 << beyond >> 1;
        let kept = parts.mantissa >> beyond;
        let up = beyond > 0 && (rest > half || rest == half && kept % 2 == 1);
        let carries = up && kept == self.greatest_mantissa() >> beyond;
        let found = [
            (EXACT, rest == 0),
            (TIE, beyond > 0 && rest == half),
            (UP, up),
            (CARRY, carries),
            (SUBNORMAL, self == Kind::G && parts.exponent < 3 && !(parts.exponent == 2 && carries)),
        ];
        found.iter().filter(|(_, holds)| *holds).map(|(name, _)| *name).collect()
    }

    /// Judges what a reader answers for a pattern: the bits of a double, or a refusal.
    pub fn judge(self, pattern: u64, answer: Result<u64, i32>) -> Result<(), String> {
        let parts = self.parts(pattern);
        let wrong = |what: &str| {
            let given = answer.map(|bits| format!("{bits:x}"));
            Err(format!("{}: {parts:?}: {what}: {given:?}", self.name()))
        };
        if parts.exponent == 0 {
            let expected = if parts.negative { Err(RESERVED_OPERAND) } else { Ok(0) };
            return if answer == expected { Ok(()) } else { wrong("zero exponent") };
        }
        let Ok(bits) = answer else { return wrong("refused") };
        let magnitude = bits & (u64::MAX >> 1);
        if (bits >> 63 == 1) != parts.negative || magnitude >= INFINITE {
            return wrong("sign or infinity");
        }
        let own = self.units(parts);
        let away = |double: u64| distance(&own, &units_of_double(double));
        let here = away(magnitude);
        let others = [magnitude.checked_sub(1), Some(magnitude + 1)].map(|other| other.map(away));
        if others.iter().flatten().any(|other| *other < here) {
            return wrong("another double is nearer");
        }
        if others.contains(&Some(here)) && magnitude % 2 == 1 {
            return wrong("the even one is as near");
        }
        let exact = here == [0; DIGITS];
        if exact != self.sorts(pattern).contains(&EXACT) || self == Kind::F && !exact {
            return wrong("exact or not");
        }
        Ok(())
    }

    /// The float's magnitude in units of 2^-1076, a whole number: 1m, and so many zeros behind it.
    fn units(self, parts: Parts) -> Units {
        let zeros = parts.exponent + UNIT - self.offset() - self.width() - 1;
        shifted(1 << self.width() | parts.mantissa, zeros)
    }
}

/// The value is zero.
pub const ZERO: &str = "zero";
/// It stands for no value.
pub const RESERVED: &str = "reserved operand";
/// It is a double's value.
pub const EXACT: &str = "exact";
/// Two doubles are equally near.
pub const TIE: &str = "tie";
/// The double above is the answer.
pub const UP: &str = "up";
/// The double above, a power of two, is the answer: all bits that a double has room for are ones.
pub const CARRY: &str = "carry";
/// The answer is a subnormal double.
pub const SUBNORMAL: &str = "subnormal";

/// Bits of infinity.
const INFINITE: u64 = 0x7FF0_0000_0000_0000;

/// All magnitudes are multiples of 2^-UNIT: the last bit of the least G_FLOAT.
const UNIT: u64 = 1076;

/// Digits to the base 2^64 that hold all magnitudes.
const DIGITS: usize = 34;

/// A whole number, the highest digit first.
type Units = [u64; DIGITS];

/// A number with so many binary zeros behind it.
fn shifted(number: u64, zeros: u64) -> Units {
    let wide = u128::from(number) << (zeros % 64);
    let last = DIGITS - 1 - usize::try_from(zeros / 64).unwrap_or(0);
    let mut units = [0; DIGITS];
    units[last] = wide as u64;
    units[last - 1] = (wide >> 64) as u64;
    units
}

/// A double's magnitude in units; infinity stands for 2^1024.
fn units_of_double(bits: u64) -> Units {
    let (exponent, mantissa) = (bits >> 52, bits & ((1 << 52) - 1));
    match exponent {
        0 => shifted(mantissa, UNIT - 1074),
        _ => shifted(1 << 52 | mantissa, exponent - 1 + UNIT - 1074),
    }
}

/// The greater number less the smaller.
fn distance(one: &Units, other: &Units) -> Units {
    let (greater, smaller) = if one < other { (other, one) } else { (one, other) };
    let mut found = *greater;
    let mut borrowed = 0;
    for (digit, less) in found.iter_mut().zip(smaller).rev() {
        let wide = i128::from(*digit) - i128::from(*less) - borrowed;
        *digit = wide as u64;
        borrowed = i128::from(wide < 0);
    }
    found
}
