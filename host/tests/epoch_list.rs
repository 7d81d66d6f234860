//! Every line of the samples' list of epochs, by both implementations.

use tlepozaluh_host::epochs::{self, agreed, held, Given, Line, Question, HELD};

fn lines() -> Vec<Line> {
    epochs::all().expect("epochs.txt")
}

#[test]
fn every_line() {
    let mut ran = 0;
    for (number, line) in lines().iter().enumerate() {
        assert_eq!(agreed(line.question), Ok(line.answer), "line {}", number + 1);
        ran += 1;
    }
    assert_eq!(ran, 4000);
}

/// Its lines of each form, those that are refused among them, and how many different ones there are.
#[test]
fn what_the_list_holds() {
    let lines = lines();
    assert_eq!(held(&lines), HELD);
    assert_eq!(HELD, [2042, 969, 989]);
    let refused: Vec<Line> = lines.iter().filter(|line| line.answer.is_err()).copied().collect();
    assert_eq!(held(&refused), [649, 699, 530]);
    let mut texts: Vec<String> = lines.iter().map(|line| format!("{line:?}")).collect();
    texts.sort_unstable();
    texts.dedup();
    assert_eq!(texts.len(), 3490);
}

/// The list has the first and the last epoch, negative zero, and differences of both signs; of equal epochs it has none.
#[test]
fn what_the_list_asks() {
    let lines = lines();
    let asks = |question: Question| lines.iter().any(|line| line.question == question);
    for double in [0.0, 315_569_519_999_999.0, -0.0, 0.5, f64::INFINITY] {
        assert!(asks(Question::Date(f64::to_bits(double))), "{double}");
    }
    let differences = |holds: fn(u64) -> bool| {
        let of = lines.iter().filter(|line| matches!(line.question, Question::Difference(..)));
        let is_so = |given| matches!(given, Given::Double(bits) if holds(bits));
        of.filter(|line| line.answer.is_ok_and(is_so)).count()
    };
    assert_eq!(differences(|bits| bits == 0), 0);
    assert_eq!(differences(|bits| bits >> 63 == 0) + differences(|bits| bits >> 63 == 1), 459);
    assert!(differences(|bits| bits >> 63 == 0) > 100 && differences(|bits| bits >> 63 == 1) > 100);
}
