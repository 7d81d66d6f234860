//! Epochs as dates (the request of that name): a value of type 31 is a double that counts milliseconds from the beginning of
//! year 0, and has a date of the proleptic Gregorian calendar.
//!
//! The calendar is the list of all its days, each made from the day before. A double is taken as its bits, and all is reckoned
//! with whole numbers.

use std::sync::OnceLock;

/// The number of what is no epoch, and of a date that does not exist.
pub const NO_EPOCH: i32 = 27;

/// Milliseconds of a day.
pub const DAY: i64 = 24 * 60 * 60 * 1000;

/// The last year that has epochs; the first one is 0.
const LAST_YEAR: u16 = 9999;

/// A day of the calendar; days are in the order of their fields.
#[derive(Clone, Copy, Debug, PartialEq, Eq, PartialOrd, Ord)]
pub struct Day {
    /// Its year, from 0.
    pub year: u16,
    /// Its month, from 1.
    pub month: u8,
    /// The day of the month, from 1.
    pub day: u8,
}

/// The day with which epochs begin.
const FIRST: Day = Day { year: 0, month: 1, day: 1 };

/// Every fourth year is a leap year, but of the years that end a century only every fourth one.
fn is_leap(year: u16) -> bool {
    match (year % 4, year % 100, year % 400) {
        (_, 0, left) => left == 0,
        (left, ..) => left == 0,
    }
}

impl Day {
    /// How many days its month has.
    fn days_of_month(self) -> u8 {
        match self.month {
            2 if is_leap(self.year) => 29,
            2 => 28,
            4 | 6 | 9 | 11 => 30,
            _ => 31,
        }
    }

    /// The day after it.
    fn next(self) -> Day {
        if self.day < self.days_of_month() {
            Day { day: self.day + 1, ..self }
        } else if self.month < 12 {
            Day { month: self.month + 1, day: 1, ..self }
        } else {
            Day { year: self.year + 1, month: 1, day: 1 }
        }
    }
}

/// All days from 1 January of year 0 to 31 December of year 9999, in order.
pub fn calendar() -> &'static [Day] {
    static DAYS: OnceLock<Vec<Day>> = OnceLock::new();
    DAYS.get_or_init(|| {
        let days = std::iter::successors(Some(FIRST), |day| Some(day.next()));
        days.take_while(|day| day.year <= LAST_YEAR).collect()
    })
}

/// A date, or four numbers that are none.
#[derive(Clone, Copy, Debug, PartialEq, Eq)]
pub struct Date {
    /// The year.
    pub year: i64,
    /// The month, from 1.
    pub month: i64,
    /// The day of the month, from 1.
    pub day: i64,
    /// Milliseconds of the day.
    pub milliseconds: i64,
}

/// The whole number below 2^63 that the double of these bits is, with its sign clear; nothing if it is none.
fn whole(bits: u64) -> Option<i64> {
    let (sign, exponent, mantissa) = (bits >> 63, bits >> 52 & 0x7FF, bits % (1 << 52));
    // Of a normal double, 53 binary digits; its value is that number times 2^(exponent - 1075).
    let digits = 1 << 52 | mantissa;
    let number = match (sign, exponent) {
        (0, 0) if mantissa == 0 => 0,
        (0, 1075..=1085) => digits << (exponent - 1075),
        (0, 1023..=1074) => {
            let beyond = 1075 - exponent;
            (digits % (1 << beyond) == 0).then_some(digits >> beyond)?
        }
        _ => return None,
    };
    i64::try_from(number).ok()
}

/// The bits of the double that a whole number below 2^53 is: its highest digit is not stored, the others are the first of the
/// mantissa, and the exponent is 1023 more than the highest digit's place.
fn double(number: u64) -> u64 {
    number.checked_ilog2().map_or(0, |highest| {
        let mantissa = (number << (52 - highest)) - (1 << 52);
        (1023 + u64::from(highest)) << 52 | mantissa
    })
}

/// The milliseconds that an epoch counts, and its day.
fn counted(epoch: u64) -> Result<(i64, Day), i32> {
    let count = whole(epoch).ok_or(NO_EPOCH)?;
    let place = usize::try_from(count / DAY).map_err(|_| NO_EPOCH)?;
    let day = calendar().get(place).ok_or(NO_EPOCH)?;
    Ok((count, *day))
}

/// The date of an epoch, which is a double by its bits; or 27.
pub fn date(epoch: u64) -> Result<Date, i32> {
    let (count, of) = counted(epoch)?;
    Ok(Date {
        year: i64::from(of.year),
        month: i64::from(of.month),
        day: i64::from(of.day),
        milliseconds: count % DAY,
    })
}

/// The epoch of a date, as the double's bits; or 27.
pub fn epoch(date: Date) -> Result<u64, i32> {
    let asked = (date.year, date.month, date.day);
    let fields = |of: &Day| (i64::from(of.year), i64::from(of.month), i64::from(of.day));
    let place = calendar().binary_search_by_key(&asked, fields).map_err(|_| NO_EPOCH)?;
    if !(0..DAY).contains(&date.milliseconds) {
        return Err(NO_EPOCH);
    }
    let before = i64::try_from(place).map_err(|_| NO_EPOCH)? * DAY;
    Ok(double((before + date.milliseconds).unsigned_abs()))
}

/// The milliseconds from the second epoch to the first, as a double's bits; or 27.
pub fn difference(one: u64, other: u64) -> Result<u64, i32> {
    let between = counted(one)?.0 - counted(other)?.0;
    Ok(u64::from(between < 0) << 63 | double(between.unsigned_abs()))
}

#[cfg(test)]
mod tests {
    use super::*;

    /// 97 of 400 years are leap years; another rule gives other counts.
    #[test]
    fn days_and_leap_years() {
        assert_eq!((0..=LAST_YEAR).filter(|year| is_leap(*year)).count(), 2425);
        let days = calendar();
        assert_eq!(days.len(), 3_652_425);
        assert_eq!(days.len(), 10_000 * 365 + 2425);
        assert_eq!(days.first(), Some(&FIRST));
        assert_eq!(days.last(), Some(&Day { year: 9999, month: 12, day: 31 }));
        assert!(days.windows(2).all(|two| two[0] < two[1]));
        let of = |month| days.iter().filter(|day| day.month == month).count();
        let months: Vec<usize> = (1..=12).map(of).collect();
        let long = 310_000;
        let expected =
            [long, 282_425, long, 300_000, long, 300_000, long, long, 300_000, long, 300_000, long];
        assert_eq!(months, expected);
    }

    /// Days about the ends of months and years.
    #[test]
    fn next_days() {
        let day = |year, month, day| Day { year, month, day };
        let pairs = [
            (day(0, 2, 28), day(0, 2, 29)),
            (day(0, 2, 29), day(0, 3, 1)),
            (day(0, 12, 31), day(1, 1, 1)),
            (day(1582, 10, 4), day(1582, 10, 5)),
            (day(1900, 2, 28), day(1900, 3, 1)),
            (day(1999, 12, 31), day(2000, 1, 1)),
            (day(2000, 2, 28), day(2000, 2, 29)),
            (day(2001, 4, 30), day(2001, 5, 1)),
            (day(2001, 7, 31), day(2001, 8, 1)),
        ];
        for (before, after) in pairs {
            assert_eq!(before.next(), after);
        }
    }

    /// The whole numbers and the doubles that they are.
    #[test]
    fn whole_numbers_and_bits() {
        for number in [0, 1, 2, 3, 10, 86_400_000, (1 << 40) + 1, 1 << 52, (1 << 53) - 1] {
            let bits = (number as f64).to_bits();
            assert_eq!((double(number), whole(bits)), (bits, i64::try_from(number).ok()));
            assert_eq!(whole(bits | 1 << 63), None, "{number}");
        }
        for number in [1_i64 << 53, (1 << 62) + (1 << 11), i64::MAX - 1023] {
            assert_eq!(whole((number as f64).to_bits()), Some(number));
        }
        let none = [0.5, 1.5, 0.999, 4_503_599_627_370_495.5, 9.3e18, 1e300, f64::MIN_POSITIVE];
        for double in none.into_iter().chain([f64::NAN, f64::INFINITY, -1.0, -0.5]) {
            assert_eq!(whole(double.to_bits()), None, "{double}");
        }
        assert_eq!((whole(1), whole((1 << 52) - 1)), (None, None));
    }
}
