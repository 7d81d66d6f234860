//! Whole numbers of any size, and fractions of them; none is negative.

use std::cmp::Ordering;

/// A whole number: digits to the base 2^64, the lowest first, the highest not zero.
#[derive(Clone, Debug, PartialEq, Eq)]
pub struct Whole {
    digits: Vec<u64>,
}

impl Whole {
    /// This number.
    pub fn of(number: u64) -> Whole {
        Whole::trimmed(vec![number])
    }

    /// A power of two.
    pub fn two_to(power: u64) -> Whole {
        let mut digits = vec![0; usize::try_from(power / 64).unwrap_or(0)];
        digits.push(1 << (power % 64));
        Whole { digits }
    }

    /// The number of these digits, zeros above it left out.
    fn trimmed(mut digits: Vec<u64>) -> Whole {
        while digits.last() == Some(&0) {
            digits.pop();
        }
        Whole { digits }
    }

    /// The product.
    pub fn times(&self, other: &Whole) -> Whole {
        let mut digits = vec![0; self.digits.len() + other.digits.len()];
        for (place, digit) in self.digits.iter().enumerate() {
            if *digit != 0 {
                add_product(&mut digits[place..], *digit, &other.digits);
            }
        }
        Whole::trimmed(digits)
    }

    /// The greater of the two less the smaller.
    pub fn distance(&self, other: &Whole) -> Whole {
        let (greater, smaller) = if self < other { (other, self) } else { (self, other) };
        let mut digits = greater.digits.clone();
        let mut borrowed = false;
        for (place, digit) in digits.iter_mut().enumerate() {
            let less = smaller.digits.get(place).copied().unwrap_or(0);
            let (once, first) = digit.overflowing_sub(less);
            let (twice, second) = once.overflowing_sub(u64::from(borrowed));
            *digit = twice;
            borrowed = first || second;
        }
        Whole::trimmed(digits)
    }
}

/// Adds a digit times these digits; there is room for the sum.
fn add_product(sum: &mut [u64], digit: u64, digits: &[u64]) {
    let mut carry = 0;
    for (place, slot) in sum.iter_mut().enumerate() {
        let other = digits.get(place).copied();
        if other.is_none() && carry == 0 {
            return;
        }
        let product = u128::from(digit) * u128::from(other.unwrap_or(0));
        let all = product + u128::from(*slot) + carry;
        *slot = all as u64;
        carry = all >> 64;
    }
}

impl Ord for Whole {
    fn cmp(&self, other: &Whole) -> Ordering {
        let by_length = self.digits.len().cmp(&other.digits.len());
        by_length.then_with(|| self.digits.iter().rev().cmp(other.digits.iter().rev()))
    }
}

impl PartialOrd for Whole {
    fn partial_cmp(&self, other: &Whole) -> Option<Ordering> {
        Some(self.cmp(other))
    }
}

/// A fraction, in any terms; what is below the line is not zero.
#[derive(Clone, Debug)]
pub struct Fraction {
    /// Above the line.
    pub above: Whole,
    /// Below the line.
    pub below: Whole,
}

impl Fraction {
    /// A number times one power of two over another, their common part left out.
    pub fn scaled(number: u64, up: u64, down: u64) -> Fraction {
        let common = up.min(down);
        let above = Whole::of(number).times(&Whole::two_to(up - common));
        Fraction { above, below: Whole::two_to(down - common) }
    }

    /// Which of the two is the greater: both brought to one denominator.
    pub fn compare(&self, other: &Fraction) -> Ordering {
        self.above.times(&other.below).cmp(&other.above.times(&self.below))
    }

    /// The greater of the two less the smaller.
    pub fn distance(&self, other: &Fraction) -> Fraction {
        let (one, two) = (self.above.times(&other.below), other.above.times(&self.below));
        Fraction { above: one.distance(&two), below: self.below.times(&other.below) }
    }
}

#[cfg(test)]
mod tests {
    use super::*;
    use crate::build::random::Random;

    /// The sum.
    fn sum(one: &Whole, other: &Whole) -> Whole {
        let mut digits = one.digits.clone();
        digits.resize(one.digits.len().max(other.digits.len()) + 1, 0);
        let mut carry = 0;
        for (place, digit) in digits.iter_mut().enumerate() {
            let more = other.digits.get(place).copied().unwrap_or(0);
            let sum = u128::from(*digit) + u128::from(more) + carry;
            *digit = sum as u64;
            carry = sum >> 64;
        }
        Whole::trimmed(digits)
    }

    fn of(number: u128) -> Whole {
        let high = Whole::of((number >> 64) as u64).times(&Whole::two_to(64));
        sum(&high, &Whole::of(number as u64))
    }

    /// Sums, products, distances and order of numbers that fit in 128 bits.
    #[test]
    fn numbers_of_128_bits() {
        let mut random = Random::seeded(21);
        for _ in 0..20_000 {
            let shifts = [random.size_below(64), random.size_below(64)];
            let [one, two] = shifts.map(|shift| u128::from(random.number() >> shift));
            assert_eq!(of(one).times(&of(two)), of(one * two));
            let (high, low) = (one << random.size_below(63), two << random.size_below(63));
            assert_eq!(sum(&of(high), &of(low)), of(high + low));
            assert_eq!(of(high).distance(&of(low)), of(high.abs_diff(low)));
            assert_eq!(of(high).cmp(&of(low)), high.cmp(&low));
        }
    }

    /// (a + b)(a - b) and a^2 - b^2, for numbers of many digits.
    #[test]
    fn long_numbers() {
        let mut random = Random::seeded(22);
        for _ in 0..2000 {
            let powers = [random.below(2000), random.below(2000)];
            let [a, b] = powers.map(|power| {
                sum(&Whole::of(random.number()), &Whole::two_to(power.unsigned_abs()))
            });
            let product = sum(&a, &b).times(&a.distance(&b));
            assert_eq!(product, a.times(&a).distance(&b.times(&b)));
            let fraction = |above: &Whole, below: &Whole| Fraction {
                above: above.clone(),
                below: below.clone(),
            };
            let (one, two) = (fraction(&a, &b), fraction(&b, &a));
            assert_eq!(one.compare(&two), a.cmp(&b));
            let distance = fraction(&product, &a.times(&b));
            assert_eq!(one.distance(&two).compare(&distance), Ordering::Equal);
        }
    }

    #[test]
    fn powers_of_two() {
        for power in 0..200 {
            let twice = sum(&Whole::two_to(power), &Whole::two_to(power));
            assert_eq!(twice, Whole::two_to(power + 1));
            assert_eq!(Whole::of(2).times(&Whole::two_to(power)), twice);
            assert!(Whole::two_to(power) < twice);
            let same = Fraction::scaled(3, 100, power);
            let plain = Fraction {
                above: Whole::of(3).times(&Whole::two_to(100)),
                below: Whole::two_to(power),
            };
            assert_eq!(same.compare(&plain), Ordering::Equal);
        }
        assert_eq!(Whole::of(5).distance(&Whole::of(5)), Whole::of(0));
    }
}
