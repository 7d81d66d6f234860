//! Questions of epochs and dates, put to the proved calls and to the second implementation and answered in one form; and the
//! list of them in the samples, `epochs/epochs.txt`.
//!
//! A double stands as its bits.

use crate::bindings;
use crate::samples;
use crate::second::epochs;
use std::fmt;

/// A question: a call with its numbers.
#[derive(Clone, Copy, Debug, PartialEq, Eq)]
pub enum Question {
    /// The date of an epoch.
    Date(u64),
    /// The epoch of a date: year, month, day, milliseconds of the day.
    Epoch([i64; 4]),
    /// The milliseconds from the second epoch to the first.
    Difference(u64, u64),
}

/// What is given.
#[derive(Clone, Copy, Debug, PartialEq, Eq)]
pub enum Given {
    /// Year, month, day, milliseconds of the day.
    Date([i64; 4]),
    /// An epoch, or a difference of epochs.
    Double(u64),
}

/// What is given, or the number of a refusal.
pub type Answer = Result<Given, i32>;

/// As in the list.
impl fmt::Display for Question {
    fn fmt(&self, out: &mut fmt::Formatter) -> fmt::Result {
        match self {
            Question::Date(epoch) => write!(out, "date {epoch:016x}"),
            Question::Epoch([year, month, day, milliseconds]) => {
                write!(out, "bits {year} {month} {day} {milliseconds}")
            }
            Question::Difference(a, b) => write!(out, "diff {a:016x} {b:016x}"),
        }
    }
}

/// An answer as in the list.
pub fn words(answer: Answer) -> String {
    match answer {
        Ok(Given::Date([year, month, day, milliseconds])) => {
            format!("0 {year} {month} {day} {milliseconds}")
        }
        Ok(Given::Double(bits)) => format!("0 {bits:016x}"),
        Err(number) => format!("{number}"),
    }
}

/// The number of every refusal.
pub const REFUSED: i32 = bindings::NO_EPOCH;

/// What the proved calls answer.
pub fn proved(question: Question) -> Answer {
    match question {
        Question::Date(epoch) => bindings::epoch_date(epoch)
            .map(|of| Given::Date([of.year, of.month, of.day, of.milliseconds].map(i64::from))),
        Question::Epoch([year, month, day, milliseconds]) => {
            bindings::epoch_from(year, month, day, milliseconds).map(Given::Double)
        }
        Question::Difference(a, b) => bindings::epoch_difference(a, b).map(Given::Double),
    }
}

/// What the second implementation answers.
pub fn second(question: Question) -> Answer {
    match question {
        Question::Date(epoch) => {
            epochs::date(epoch).map(|of| Given::Date([of.year, of.month, of.day, of.milliseconds]))
        }
        Question::Epoch([year, month, day, milliseconds]) => {
            epochs::epoch(epochs::Date { year, month, day, milliseconds }).map(Given::Double)
        }
        Question::Difference(a, b) => epochs::difference(a, b).map(Given::Double),
    }
}

/// Both answers, if they are one and no refusal but 27; else both in words.
pub fn agreed(question: Question) -> Result<Answer, String> {
    let (ours, other) = (proved(question), second(question));
    if ours != other || ours.is_err_and(|number| number != REFUSED) {
        return Err(format!("{question}: proved {}, second {}", words(ours), words(other)));
    }
    Ok(ours)
}

/// The list's path in the samples' directory.
pub const LIST: &str = "epochs/epochs.txt";

/// What the list holds: its lines of dates, of epochs and of differences.
pub const HELD: [usize; 3] = [2042, 969, 989];

/// A line of the list.
#[derive(Clone, Copy, Debug, PartialEq, Eq)]
pub struct Line {
    /// What is asked.
    pub question: Question,
    /// What is answered.
    pub answer: Answer,
}

/// The bits of a double: 16 hexadecimal digits.
fn bits(word: &str) -> Option<u64> {
    let right = word.len() == 16 && word.bytes().all(|byte| byte.is_ascii_hexdigit());
    u64::from_str_radix(word, 16).ok().filter(|_| right)
}

/// Year, month, day and milliseconds.
fn date(words: &[&str]) -> Option<[i64; 4]> {
    let numbers = words.iter().map(|word| word.parse().ok()).collect::<Option<Vec<i64>>>()?;
    numbers.try_into().ok()
}

/// Reads a line: `date BITS`, `bits YEAR MONTH DAY MILLISECONDS` or `diff BITS BITS`, then `= 0` and what is given, or `= 27`.
fn line(text: &str) -> Option<Line> {
    let (asked, answer) = text.split_once(" = ")?;
    let [asked, answer] = [asked, answer].map(|part| part.split(' ').collect::<Vec<&str>>());
    let question = match asked.as_slice() {
        ["date", epoch] => Question::Date(bits(epoch)?),
        ["bits", numbers @ ..] => Question::Epoch(date(numbers)?),
        ["diff", a, b] => Question::Difference(bits(a)?, bits(b)?),
        _ => return None,
    };
    let answer = match (question, answer.as_slice()) {
        (_, ["27"]) => Err(REFUSED),
        (Question::Date(_), ["0", numbers @ ..]) => Ok(Given::Date(date(numbers)?)),
        (Question::Epoch(_) | Question::Difference(..), ["0", double]) => {
            Ok(Given::Double(bits(double)?))
        }
        _ => return None,
    };
    Some(Line { question, answer })
}

/// How many lines ask for dates, for epochs and for differences.
pub fn held(lines: &[Line]) -> [usize; 3] {
    let mut held = [0; 3];
    for line in lines {
        let form = match line.question {
            Question::Date(_) => 0,
            Question::Epoch(_) => 1,
            Question::Difference(..) => 2,
        };
        held[form] += 1;
    }
    held
}

/// All lines of the list; nothing if one cannot be read, or if they are not as many as they should be.
pub fn all() -> Option<Vec<Line>> {
    let text = std::fs::read_to_string(samples::directory().join(LIST)).ok()?;
    let lines = text.lines().map(line).collect::<Option<Vec<Line>>>()?;
    (held(&lines) == HELD).then_some(lines)
}

#[cfg(test)]
mod tests {
    use super::*;

    #[test]
    fn lines_are_read() {
        let read = [
            (
                "date 421d7daad8000000 = 0 1 1 1 43200000",
                Question::Date(0x421d_7daa_d800_0000),
                Ok(Given::Date([1, 1, 1, 43_200_000])),
            ),
            ("date fff0000000000000 = 27", Question::Date(0xFFF << 52), Err(27)),
            (
                "bits 0 1 29 86399999 = 0 41e2ab0d7fe00000",
                Question::Epoch([0, 1, 29, 86_399_999]),
                Ok(Given::Double(0x41e2_ab0d_7fe0_0000)),
            ),
            ("bits -1 1 30 86400000 = 27", Question::Epoch([-1, 1, 30, 86_400_000]), Err(27)),
            (
                "diff 4010000000000000 4014000000000000 = 0 bff0000000000000",
                Question::Difference(0x401 << 52, 0x4014 << 48),
                Ok(Given::Double(0xBFF << 52)),
            ),
        ];
        for (text, question, answer) in read {
            assert_eq!(line(text), Some(Line { question, answer }), "{text}");
            assert_eq!(format!("{question} = {}", words(answer)), text);
        }
    }

    #[test]
    fn other_lines_are_none() {
        let wrong = [
            "",
            "date 421d7daad8000000",
            "date 421d7daad800000 = 27",
            "date +21d7daad8000000 = 27",
            "date 421d7daad8000000 = 26",
            "date 421d7daad8000000 = 0 1 1 1",
            "date 421d7daad8000000 = 0 421d7daad8000000",
            "bits 0 1 29 = 27",
            "bits 0 1 29 x = 27",
            "bits 0 1 29 5 = 0 1 1 1 5",
            "diff 4010000000000000 = 27",
            "diff 4010000000000000 4010000000000000 = 0",
            "sum 4010000000000000 4010000000000000 = 27",
        ];
        for text in wrong {
            assert_eq!(line(text), None, "{text}");
        }
    }
}
