//! Fuzzing of epochs: doubles, dates and pairs of doubles at random, by both implementations.
//!
//! Doubles are any bits, whole numbers, numbers beside them, numbers near the last epoch and about powers of two, zeros,
//! subnormal numbers, and no numbers at all. Dates are there or have something wrong with them. Both must answer the same, a
//! double must be refused exactly if it is no epoch as the plainest words on doubles say, an epoch must come back from its date
//! and a date from its epoch, and a difference must be what one subtraction of doubles makes.

use crate::build::random::Random;
use crate::epochs::{agreed, words, Answer, Given, Question, REFUSED};
use crate::fuzz::{count, list};
use std::collections::BTreeMap;
use std::fmt;

/// What was covered.
#[derive(Clone, Debug, Default, PartialEq, Eq)]
pub struct Covered {
    /// Doubles that were asked for their dates, by sort.
    pub doubles: BTreeMap<&'static str, u64>,
    /// What these were answered: 0 for an epoch turned, or 27.
    pub turned: BTreeMap<i32, u64>,
    /// Dates that were asked for their epochs, by what is wrong with them.
    pub dates: BTreeMap<&'static str, u64>,
    /// What these were answered.
    pub turned_back: BTreeMap<i32, u64>,
    /// Differences, by sign or by what is refused.
    pub differences: BTreeMap<&'static str, u64>,
}

fn sum<K>(counts: &BTreeMap<K, u64>) -> u64 {
    counts.values().sum()
}

impl fmt::Display for Covered {
    fn fmt(&self, out: &mut fmt::Formatter) -> fmt::Result {
        writeln!(out, "epochs            {}: {}", sum(&self.doubles), list(&self.doubles))?;
        writeln!(out, "turned or refused {}", list(&self.turned))?;
        writeln!(out, "dates             {}: {}", sum(&self.dates), list(&self.dates))?;
        writeln!(out, "turned or refused {}", list(&self.turned_back))?;
        write!(out, "differences       {}: {}", sum(&self.differences), list(&self.differences))
    }
}

/// The last epoch.
const LAST: i64 = 315_569_519_999_999;

/// Milliseconds of a day.
const DAY: i64 = 86_400_000;

/// Questions of each form for a seed.
const QUESTIONS: usize = 70;

/// Doubles, dates and differences, each put to both.
pub fn try_epochs(random: &mut Random, covered: &mut Covered) -> Result<(), String> {
    for _ in 0..QUESTIONS {
        one_double(random, covered)?;
        one_date(random, covered)?;
        one_difference(random, covered)?;
    }
    Ok(())
}

/// The plainest words on doubles: a number, its sign clear, without a fraction, up to the last epoch.
fn is_epoch(bits: u64) -> bool {
    let double = f64::from_bits(bits);
    double.is_sign_positive() && double.fract() == 0.0 && double <= LAST as f64
}

fn answer_of(answer: Answer) -> i32 {
    answer.err().unwrap_or(0)
}

/// A double and its date, and back.
fn one_double(random: &mut Random, covered: &mut Covered) -> Result<(), String> {
    let (sort, bits) = any_double(random);
    let answer = agreed(Question::Date(bits))?;
    count(&mut covered.doubles, sort);
    count(&mut covered.turned, answer_of(answer));
    let right = match answer {
        Ok(Given::Date(date)) => agreed(Question::Epoch(date))? == Ok(Given::Double(bits)),
        other => other == Err(REFUSED),
    };
    let right = right && answer.is_ok() == is_epoch(bits);
    right.then_some(()).ok_or_else(|| format!("date {bits:016x} = {}", words(answer)))
}

/// A date and its epoch, and back.
fn one_date(random: &mut Random, covered: &mut Covered) -> Result<(), String> {
    let (wrong, date) = any_date(random);
    let answer = agreed(Question::Epoch(date))?;
    count(&mut covered.dates, wrong);
    count(&mut covered.turned_back, answer_of(answer));
    let right = match answer {
        Ok(Given::Double(bits)) => {
            is_epoch(bits) && agreed(Question::Date(bits))? == Ok(Given::Date(date))
        }
        other => other == Err(REFUSED),
    };
    let right = right && (wrong == LATE_DAY || answer.is_ok() == (wrong == NOTHING));
    right.then_some(()).ok_or_else(|| format!("{wrong} wrong: bits {date:?} = {}", words(answer)))
}

/// Two doubles and their difference, both ways.
fn one_difference(random: &mut Random, covered: &mut Covered) -> Result<(), String> {
    let (_, a) = any_double(random);
    let b = match random.below(8) {
        0 => a,
        1..=3 => any_whole(random),
        _ => any_double(random).1,
    };
    for (a, b) in [(a, b), (b, a)] {
        let answer = agreed(Question::Difference(a, b))?;
        let (sort, expected) = expected_difference(a, b);
        count(&mut covered.differences, sort);
        if answer != expected {
            return Err(format!("{sort}: diff {a:016x} {b:016x} = {}", words(answer)));
        }
    }
    Ok(())
}

/// The sort of a difference and what is to be answered: one subtraction of doubles where both are epochs.
fn expected_difference(a: u64, b: u64) -> (&'static str, Answer) {
    let between = f64::from_bits(a) - f64::from_bits(b);
    let sort = match (is_epoch(a), is_epoch(b)) {
        (false, false) => "both refused",
        (false, true) => "the first refused",
        (true, false) => "the second refused",
        (true, true) if between > 0.0 => "above zero",
        (true, true) if between < 0.0 => "below zero",
        (true, true) => "equal",
    };
    let taken = is_epoch(a) && is_epoch(b);
    (sort, if taken { Ok(Given::Double(between.to_bits())) } else { Err(REFUSED) })
}

/// Bits of a whole number, as a double.
fn whole(number: i64) -> u64 {
    (number as f64).to_bits()
}

/// An epoch: any one, or one about the beginning of a day.
fn any_whole(random: &mut Random) -> u64 {
    let number = random.between(0, LAST);
    whole(match random.below(4) {
        0 => (number - number % DAY + random.between(-2, 2)).max(0),
        1 => number % (1 << (1 + random.below(48))),
        _ => number,
    })
}

/// Any double, and its sort.
fn any_double(random: &mut Random) -> (&'static str, u64) {
    let epoch = any_whole(random);
    let step = 1 << random.below(53);
    match random.below(16) {
        0 => ("any bits", random.number()),
        1 => ("beside a whole number", epoch.wrapping_add(step)),
        2 => ("beside a whole number", epoch.saturating_sub(step)),
        3 => ("near the last epoch", whole(LAST + random.between(-3, 3))),
        4 => ("near the last epoch", whole(LAST).wrapping_add_signed(random.between(-40, 40))),
        5 => ("the sign set", epoch | 1 << 63),
        6 => ("a greater number", whole(random.between(LAST + 1, i64::MAX))),
        7 => ("about a power of two", about_a_power(random)),
        8 => ("zero or subnormal", random.number() >> (12 + random.below(52))),
        9 => ("zero or subnormal", u64::from(random.once_in(2)) << 63),
        10 => ("no number", 0x7FF << 52 | u64::from(random.once_in(2)) << 63),
        11 => ("no number", 0x7FF << 52 | random.number() >> random.below(64)),
        _ => ("a whole number", epoch),
    }
}

/// A power of two, or a double next to it.
fn about_a_power(random: &mut Random) -> u64 {
    let exponent = random.between(1023 - 3, 1023 + 66).unsigned_abs();
    (exponent << 52).wrapping_add_signed(random.between(-1, 1))
}

/// What is wrong with a date that is there.
const NOTHING: &str = "nothing";

/// A day that some months have and some have not.
const LATE_DAY: &str = "perhaps the day";

/// A date, and what is wrong with it.
fn any_date(random: &mut Random) -> (&'static str, [i64; 4]) {
    let year = random.between(0, 9999);
    let year = if random.once_in(2) { year - year % 100 } else { year };
    let month = if random.once_in(3) { 2 } else { random.between(1, 12) };
    let milliseconds = match random.below(4) {
        0 => 0,
        1 => DAY - 1,
        _ => random.below(DAY),
    };
    let date = [year, month, random.between(1, 28), milliseconds];
    match random.below(8) {
        0 => ("one number", spoiled(date, random)),
        1 => ("one number's higher bits", with_higher_bits(date, random)),
        2..=4 => (LATE_DAY, [year, month, random.between(29, 31), milliseconds]),
        _ => (NOTHING, date),
    }
}

/// The least and the greatest of each number that any date has.
const RANGES: [(i64, i64); 4] = [(0, 9999), (1, 12), (1, 31), (0, DAY - 1)];

/// The date with one number out of its range: just below, just above, or far away.
fn spoiled(mut date: [i64; 4], random: &mut Random) -> [i64; 4] {
    let place = random.size_below(4);
    let (least, greatest) = RANGES[place];
    date[place] = match random.below(6) {
        0 | 1 => least - 1,
        2 | 3 => greatest + 1,
        4 => least.saturating_sub(1 + (random.number() >> (1 + random.below(62))) as i64),
        _ => greatest.saturating_add(1 + (random.number() >> (1 + random.below(62))) as i64),
    };
    date
}

/// The date with one number whose lower bits alone are in its range.
fn with_higher_bits(mut date: [i64; 4], random: &mut Random) -> [i64; 4] {
    let place = random.size_below(4);
    let widths: &[i64] = [&[16, 32, 48][..], &[8, 16, 32], &[8, 16, 32], &[32, 40]][place];
    let width = random.one_of(widths).copied().unwrap_or(32);
    date[place] += (random.between(1, 100) * [1, -1][random.size_below(2)]) << width;
    date
}
