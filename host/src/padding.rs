//! The padding cannot matter: two files that differ from their end on alone are checked and read alike.

use crate::bindings::Granted;
use crate::build::random::Random;
use crate::pair::{Compared, Pair};
use crate::questions::{self, Answer, Question};
use crate::second::rules::body;

/// These bytes, which belong to a file, with others from the file's end on.
pub fn other_behind(end: usize, bytes: &[u8], random: &mut Random) -> Vec<u8> {
    let mut other = bytes.to_vec();
    other.iter_mut().skip(end).for_each(|byte| *byte = random.byte());
    other
}

/// Both checkers from a state on a file and on one that differs from it from the end on alone, the marks differing there
/// too: what is left, if this, the state and the marks below the end are the same for both, and the others stay.
pub fn same_check(
    files: [&[u8]; 2],
    state: &[u32],
    marks: [&[u8]; 2],
    compared: &mut Compared,
) -> Result<Granted, String> {
    let end = body(files[0]).len();
    let mut pairs = marks.map(|marks| Pair::new(state, marks));
    let most = 8 * files[0].len() as u64 + 100;
    let answer = pairs[0].grant(files[0], most, compared)?;
    let other = pairs[1].grant(files[1], most, compared)?;
    let below = |pair: &Pair| pair.marks().iter().take(end).copied().collect::<Vec<u8>>();
    let same = pairs[0].state() == pairs[1].state() && below(&pairs[0]) == below(&pairs[1]);
    if answer != other || !same {
        return Err(format!("{state:?}: {answer:?}, with other padding {other:?}"));
    }
    let stays =
        |(pair, marks): (&Pair, &[u8])| pair.marks().iter().skip(end).eq(marks.iter().skip(end));
    if !pairs.iter().zip(marks).all(stays) {
        return Err(format!("{state:?}: marks from the end on were written"));
    }
    Ok(answer)
}

/// What both readers answer, if it is the same for both files.
pub fn same_answer(files: [&[u8]; 2], question: &Question) -> Result<Answer, String> {
    let answer = questions::agreed(files[0], question)?;
    let other = questions::agreed(files[1], question)?;
    if answer != other {
        return Err(format!("{question}: {answer:?}, with other padding {other:?}"));
    }
    Ok(answer)
}
