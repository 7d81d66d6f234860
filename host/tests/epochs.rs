//! Epochs, dates and differences: both implementations against plain numbers, and against each other on every day.

use tlepozaluh_host::build::random::Random;
use tlepozaluh_host::epochs::{agreed, Answer, Given, Question};
use tlepozaluh_host::second::epochs::calendar;

/// Milliseconds of a day.
const DAY: i64 = 86_400_000;

/// The last epoch: the last millisecond of year 9999.
const LAST: i64 = 315_569_519_999_999;

/// Bits of the double that is this whole number.
fn bits(number: i64) -> u64 {
    let double = number as f64;
    assert_eq!(double as i64, number);
    double.to_bits()
}

/// What both answer; they must answer the same.
fn asked(question: Question) -> Answer {
    agreed(question).unwrap_or_else(|wrong| panic!("{wrong}"))
}

fn date_of(epoch: u64) -> Answer {
    asked(Question::Date(epoch))
}

fn epoch_of(date: [i64; 4]) -> Answer {
    asked(Question::Epoch(date))
}

fn difference(a: u64, b: u64) -> Answer {
    asked(Question::Difference(a, b))
}

/// An epoch and its date are each other's.
fn are_one(epoch: i64, date: [i64; 4]) {
    assert_eq!(date_of(bits(epoch)), Ok(Given::Date(date)), "{epoch}");
    assert_eq!(epoch_of(date), Ok(Given::Double(bits(epoch))), "{date:?}");
}

/// Epochs that are known, among them days about the ends of Februaries and the day on which other calendars changed.
const KNOWN: &[(i64, [i64; 4])] = &[
    (0, [0, 1, 1, 0]),
    (1, [0, 1, 1, 1]),
    (86_399_999, [0, 1, 1, 86_399_999]),
    (86_400_000, [0, 1, 2, 0]),
    (5_011_200_000, [0, 2, 28, 0]),
    (5_097_600_000, [0, 2, 29, 0]),
    (5_184_000_000, [0, 3, 1, 0]),
    (31_622_399_999, [0, 12, 31, 86_399_999]),
    (31_622_400_000, [1, 1, 1, 0]),
    (131_328_000_000, [4, 2, 29, 0]),
    (3_160_771_200_000, [100, 2, 28, 0]),
    (3_160_857_600_000, [100, 3, 1, 0]),
    (12_627_878_400_000, [400, 2, 29, 0]),
    (49_946_976_000_000, [1582, 10, 4, 0]),
    (49_947_062_400_000, [1582, 10, 5, 0]),
    (49_947_926_400_000, [1582, 10, 15, 0]),
    (50_496_220_800_000, [1600, 2, 29, 0]),
    (58_660_502_400_000, [1858, 11, 17, 0]),
    (59_963_241_600_000, [1900, 2, 28, 0]),
    (59_963_328_000_000, [1900, 3, 1, 0]),
    (60_089_472_000_000, [1904, 2, 29, 0]),
    (62_167_219_199_999, [1969, 12, 31, 86_399_999]),
    (62_167_219_200_000, [1970, 1, 1, 0]),
    (63_066_567_845_678, [1998, 7, 2, 11_045_678]),
    (63_113_904_000_000, [2000, 1, 1, 0]),
    (63_119_001_600_000, [2000, 2, 29, 0]),
    (63_119_088_000_000, [2000, 3, 1, 0]),
    (63_876_384_000_000, [2024, 2, 29, 0]),
    (66_274_675_200_000, [2100, 2, 28, 0]),
    (66_274_761_600_000, [2100, 3, 1, 0]),
    (315_448_387_200_000, [9996, 2, 29, 0]),
    (315_569_519_999_999, [9999, 12, 31, 86_399_999]),
];

#[test]
fn known_epochs() {
    for (epoch, date) in KNOWN {
        are_one(*epoch, *date);
    }
    // 3:04:05.678, and bits that are written as such.
    assert_eq!(11_045_678, ((3 * 60 + 4) * 60 + 5) * 1000 + 678);
    assert_eq!(date_of(0x42CC_4537_8230_0000), Ok(Given::Date([1970, 1, 1, 0])));
    assert_eq!(epoch_of([0, 1, 1, 0]), Ok(Given::Double(0)));
    assert_eq!(epoch_of([0, 1, 1, 1]), Ok(Given::Double(0x3FF0_0000_0000_0000)));
}

/// Every day of the calendar, its first and its last millisecond and one between them, which is another one each day.
#[test]
fn every_day() {
    let mut days = 0;
    for (number, day) in (0_i64..).zip(calendar()) {
        let [year, month] = [i64::from(day.year), i64::from(day.month)];
        for milliseconds in [0, 1 + number * 48_271 % (DAY - 2), DAY - 1] {
            let date = [year, month, i64::from(day.day), milliseconds];
            are_one(number * DAY + milliseconds, date);
        }
        days += 1;
    }
    assert_eq!((days, days * DAY - 1), (3_652_425, LAST));
}

/// Every year with every month and day, and with those on both sides of what there is: in order, those that are there have the
/// epochs from 0 on, a day apart.
#[test]
fn every_date_that_is_there() {
    let days = |year, month| (0..=32).map(move |day| [year, month, day, 0]);
    let dates = |year| (0..=13).flat_map(move |month| days(year, month));
    let (mut found, mut refused) = (0, 0);
    for date in (-1..=10_000).flat_map(dates) {
        let answer = epoch_of(date);
        if answer == Err(27) {
            refused += 1;
        } else {
            assert_eq!(answer, Ok(Given::Double(bits(found * DAY))), "{date:?}");
            found += 1;
        }
    }
    assert_eq!((found, refused), (3_652_425, 10_002 * 14 * 33 - 3_652_425));
}

/// How many days a month has: the last one that is there.
fn days_of(year: i64, month: i64) -> i64 {
    let days = (1..=40).filter(|day| epoch_of([year, month, *day, 0]).is_ok());
    days.count() as i64
}

#[test]
fn months() {
    let days = |year: i64| (1..=12).map(|month| days_of(year, month)).collect::<Vec<i64>>();
    for year in [1, 3, 100, 1900, 1999, 2001, 2100, 9900, 9999] {
        assert_eq!(days(year), [31, 28, 31, 30, 31, 30, 31, 31, 30, 31, 30, 31], "{year}");
    }
    for year in [0, 4, 400, 1600, 1996, 2000, 2400, 9600, 9996] {
        assert_eq!(days(year), [31, 29, 31, 30, 31, 30, 31, 31, 30, 31, 30, 31], "{year}");
    }
}

/// The leap years of two centuries and more, and all years that end a century and are leap years.
const LEAP_YEARS: [i64; 52] = [
    1892, 1896, 1904, 1908, 1912, 1916, 1920, 1924, 1928, 1932, 1936, 1940, 1944, 1948, 1952, 1956,
    1960, 1964, 1968, 1972, 1976, 1980, 1984, 1988, 1992, 1996, 2000, 2004, 2008, 2012, 2016, 2020,
    2024, 2028, 2032, 2036, 2040, 2044, 2048, 2052, 2056, 2060, 2064, 2068, 2072, 2076, 2080, 2084,
    2088, 2092, 2096, 2104,
];
const LEAP_CENTURIES: [i64; 25] = [
    0, 400, 800, 1200, 1600, 2000, 2400, 2800, 3200, 3600, 4000, 4400, 4800, 5200, 5600, 6000,
    6400, 6800, 7200, 7600, 8000, 8400, 8800, 9200, 9600,
];

#[test]
fn leap_years() {
    let is_leap = |year: &i64| epoch_of([*year, 2, 29, 0]).is_ok();
    let of = |years: &mut dyn Iterator<Item = i64>| years.filter(is_leap).collect::<Vec<i64>>();
    assert_eq!(of(&mut (1890..=2106)), LEAP_YEARS);
    assert_eq!(of(&mut (0..=9999).step_by(100)), LEAP_CENTURIES);
    assert_eq!(of(&mut (0..=16)), [0, 4, 8, 12, 16]);
    assert_eq!(of(&mut (0..=9999)).len(), 2425);
}

/// Epochs at random: from the epoch to its date and back, and from the date to its epoch and back.
#[test]
fn round_trips() {
    let mut random = Random::seeded(110);
    for _ in 0..300_000 {
        let epoch = bits(random.between(0, LAST));
        let Ok(Given::Date(date)) = date_of(epoch) else { panic!("{epoch:x}") };
        assert_eq!(epoch_of(date), Ok(Given::Double(epoch)));
        let date = [random.between(0, 9999), random.between(1, 12), 0, random.below(DAY)];
        let date = [date[0], date[1], random.between(1, days_of(date[0], date[1])), date[3]];
        let Ok(Given::Double(epoch)) = epoch_of(date) else { panic!("{date:?}") };
        assert_eq!(date_of(epoch), Ok(Given::Date(date)));
    }
}

/// Doubles that are no epochs.
fn no_epochs() -> Vec<u64> {
    let payloads = [0x7FF8 << 48, 0x7FF0_0000_0000_0001, 0x7FF4 << 48, 0x7FFF_FFFF_FFFF_FFFF];
    let of_whole = |number: i64| [bits(number) + 1, bits(number) - 1];
    let wholes = [1, 2, 3, 1000, DAY - 1, DAY, 62_167_219_200_000, LAST - 1, LAST, 1 << 48];
    let numbers = [
        [f64::INFINITY, f64::NEG_INFINITY, -0.0, -1.0, -0.5, -1000.0],
        [0.5, 1.5, 0.1, 86_400_000.25, -62_167_219_200_000.0, -(LAST as f64)],
        [5e-324, -5e-324, f64::MIN_POSITIVE, f64::EPSILON, f64::MAX, f64::MIN],
        [LAST as f64 + 0.5, LAST as f64 + 1.0, LAST as f64 + 2.0, 1e15, 1e18, 1e19],
    ];
    let powers = [49, 50, 52, 53, 62, 63, 64, 65, 127, 128, 1023].map(|power| 2_f64.powi(power));
    let subnormal = [1, 2, (1 << 52) - 1, 1 << 51, 1 << 63 | 1];
    let nans = payloads.into_iter().flat_map(|payload| [payload, payload | 1 << 63]);
    let beside = wholes.into_iter().flat_map(of_whole);
    let numbers = numbers.into_iter().flatten().chain(powers).map(f64::to_bits);
    nans.chain(beside).chain(numbers).chain(subnormal).collect()
}

/// 27 for their dates, and for their differences on either side; the calls leave the caller's numbers alone, or `bindings`
/// would end the test.
#[test]
fn what_is_no_epoch() {
    let none = no_epochs();
    assert_eq!(none.len(), 8 + 20 + 24 + 11 + 5);
    for double in &none {
        assert_eq!(date_of(*double), Err(27), "{double:x}");
        for epoch in [0, 1, 63_113_904_000_000, LAST].map(bits) {
            assert_eq!(difference(*double, epoch), Err(27), "{double:x}");
            assert_eq!(difference(epoch, *double), Err(27), "{double:x}");
        }
        assert_eq!(difference(*double, *double), Err(27), "{double:x}");
    }
}

/// Every power of two and its neighbours: those from 1 to 2^48 are epochs.
#[test]
fn powers_of_two() {
    for exponent in 1..0x7FF_u64 {
        let double = exponent << 52;
        let is_epoch = (1023..=1023 + 48).contains(&exponent);
        assert_eq!(date_of(double).is_ok(), is_epoch, "{exponent}");
        assert_eq!((date_of(double + 1), date_of(double - 1)), (Err(27), Err(27)), "{exponent}");
        assert_eq!(date_of(double | 1 << 63), Err(27), "{exponent}");
    }
    assert!(date_of(0).is_ok() && date_of(0x7FF << 52).is_err());
}

/// Each bit of the mantissa, at each exponent that epochs have: it counts one millisecond or more, or makes a fraction; at the
/// greatest exponent it may lead past the last epoch.
#[test]
fn single_bits_of_the_mantissa() {
    for (power, bit) in (0..49).flat_map(|power| (0..52).map(move |bit| (power, bit))) {
        let double = (1023 + power) << 52 | 1 << bit;
        let below = 52 - bit;
        let number = (below <= power).then(|| (1_i64 << power) + (1 << (power - below)));
        let expected = number.filter(|number| *number <= LAST);
        let counted = expected.map(|number| difference(bits(number), bits(0)));
        assert_eq!(date_of(double).is_ok(), expected.is_some(), "2^{power}, bit {bit}");
        assert!(counted.is_none_or(|given| given == Ok(Given::Double(double))));
    }
}

/// Dates that do not exist.
const NO_DATES: &[[i64; 4]] = &[
    [-1, 1, 1, 0],
    [-1, 12, 31, DAY - 1],
    [-4, 2, 29, 0],
    [10_000, 1, 1, 0],
    [10_000, 12, 31, 0],
    [2000, 0, 1, 0],
    [2000, -1, 1, 0],
    [2000, 13, 1, 0],
    [9999, 13, 1, 0],
    [0, 0, 1, 0],
    [2000, 1, 0, 0],
    [0, 1, 0, 0],
    [2000, 1, -1, 0],
    [2000, 1, 32, 0],
    [2000, 2, 30, 0],
    [2001, 2, 29, 0],
    [1900, 2, 29, 0],
    [100, 2, 29, 0],
    [9900, 2, 29, 0],
    [9999, 2, 29, 0],
    [0, 2, 30, 0],
    [2000, 4, 31, 0],
    [2000, 6, 31, 0],
    [2000, 9, 31, 0],
    [2000, 11, 31, 0],
    [9999, 12, 32, 0],
    [2000, 1, 1, -1],
    [0, 1, 1, -1],
    [2000, 1, 1, DAY],
    [9999, 12, 31, DAY],
    [0, 0, 0, 0],
    [-1, -1, -1, -1],
    [i64::MIN; 4],
    [i64::MAX; 4],
];

#[test]
fn dates_that_do_not_exist() {
    for date in NO_DATES {
        assert_eq!(epoch_of(*date), Err(27), "{date:?}");
    }
    for place in 0..4 {
        for far in [i64::MIN, i64::MIN + 1, -(1 << 40), 1 << 40, i64::MAX - 1, i64::MAX] {
            let mut date = [2000, 1, 1, 0];
            date[place] = far;
            assert_eq!(epoch_of(date), Err(27), "{date:?}");
        }
    }
    let there =
        [[0, 2, 29, 0], [4, 2, 29, 0], [400, 2, 29, 0], [2000, 2, 29, 0], [9999, 12, 31, 0]];
    assert!(there.into_iter().all(|date| epoch_of(date).is_ok()));
}

/// The least and the greatest of each number, and those just outside.
#[test]
fn ranges_of_the_numbers() {
    let ranges = [(0, 9999), (1, 12), (1, 31), (0, DAY - 1)];
    for (place, (least, greatest)) in ranges.into_iter().enumerate() {
        for number in [least - 1, least, greatest, greatest + 1] {
            let mut date = [2000, 1, 1, 0];
            date[place] = number;
            let inside = (least..=greatest).contains(&number);
            assert_eq!(epoch_of(date).is_ok(), inside, "{date:?}");
        }
    }
}

/// Numbers that would be right if they were cut to 8, 16 or 32 bits.
#[test]
fn numbers_that_are_not_cut() {
    let widths: [&[u32]; 4] = [&[16, 32, 48], &[8, 16, 32, 48], &[8, 16, 32, 48], &[32, 48]];
    let good = [[2000, 1, 1, 0], [1998, 7, 2, 11_045_678], [0, 2, 29, DAY - 1]];
    for (place, width) in (0..4).flat_map(|place| widths[place].iter().map(move |w| (place, w))) {
        for (date, sign) in good.into_iter().flat_map(|date| [(date, 1), (date, -1)]) {
            let mut long = date;
            long[place] += sign << width;
            assert_eq!(epoch_of(long), Err(27), "{long:?}");
            assert!(epoch_of(date).is_ok());
        }
    }
}

/// Differences that are known, with their signs; equal epochs have +0, whose bits are all clear.
#[test]
fn known_differences() {
    let known = [
        (1, 0, 1.0),
        (0, 1, -1.0),
        (LAST, 0, 315_569_519_999_999.0),
        (0, LAST, -315_569_519_999_999.0),
        (LAST, LAST - 1, 1.0),
        (63_113_904_000_000, 62_167_219_200_000, 946_684_800_000.0),
        (62_167_219_200_000, 63_113_904_000_000, -946_684_800_000.0),
        (63_113_904_000_000, 63_066_567_845_678, 47_336_154_322.0),
        (63_066_567_845_678, LAST, -252_502_952_154_321.0),
    ];
    for (a, b, expected) in known {
        let given = difference(bits(a), bits(b));
        assert_eq!(given, Ok(Given::Double(f64::to_bits(expected))), "{a} {b}");
    }
    for epoch in [0, 1, 62_167_219_200_000, 63_066_567_845_678, LAST] {
        assert_eq!(difference(bits(epoch), bits(epoch)), Ok(Given::Double(0)), "{epoch}");
    }
}

/// Epochs at random, far apart and near each other: the difference is the whole number, is one subtraction of doubles, is the
/// other way's with the other sign, and leads from b to a.
#[test]
fn differences_are_exact() {
    let mut random = Random::seeded(111);
    let mut seen = [0; 3];
    for _ in 0..300_000 {
        let a = random.between(0, LAST);
        let near = 1_i64 << random.below(49);
        let b = (a + random.between(-near, near)).clamp(0, LAST);
        let Ok(Given::Double(given)) = difference(bits(a), bits(b)) else { panic!("{a} {b}") };
        assert_eq!(given, bits(a - b), "{a} {b}");
        assert_eq!(given, (a as f64 - b as f64).to_bits(), "{a} {b}");
        assert_eq!(b as f64 + f64::from_bits(given), a as f64, "{a} {b}");
        let other = if a == b { 0 } else { given ^ 1 << 63 };
        assert_eq!(difference(bits(b), bits(a)), Ok(Given::Double(other)), "{a} {b}");
        seen[usize::from(a > b) + 2 * usize::from(a < b)] += 1;
    }
    assert!(seen[0] > 1000 && seen[1] > 100_000 && seen[2] > 100_000, "{seen:?}");
}
