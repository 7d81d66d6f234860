//! The proved checker, rounds, reader and epochs, called as C calls them (`include/tlepozaluh.h`).

// The only module with unsafe code: a call of a C function cannot be written without it.
#![allow(unsafe_code)]

/// How many numbers a saved state has.
pub const STATE_LENGTH: usize = 34;

/// A saved state of the right length.
pub type State = [u32; STATE_LENGTH];

/// A job of a round, a row of the list, as C has it: `tlz_job`.
#[repr(C)]
#[derive(Clone, Copy, Debug, PartialEq, Eq)]
pub struct TlzJob {
    /// Whose file it is.
    pub owner: u32,
    /// What its last turn answered.
    pub answer: i32,
    /// Where its part of the file area begins.
    pub file_from: usize,
    /// How many bytes that part has.
    pub file_len: usize,
    /// Where its part of the marks area begins.
    pub marks_from: usize,
    /// How many marks that part has.
    pub marks_len: usize,
    /// Its saved state.
    pub state: [u32; STATE_LENGTH],
}

/// The calls as the header declares them.
mod c {
    use super::TlzJob;

    extern "C" {
        pub fn tlz_check_begin(state: *mut u32, state_len: usize) -> i32;
        pub fn tlz_check_grant(
            file: *const u8,
            file_len: usize,
            marks: *mut u8,
            marks_len: usize,
            state: *mut u32,
            state_len: usize,
            grant: u64,
            steps: *mut u64,
            location: *mut u64,
        ) -> i32;
        pub fn tlz_round(
            files: *const u8,
            files_len: usize,
            marks: *mut u8,
            marks_len: usize,
            jobs: *mut TlzJob,
            count: usize,
            q: u64,
        ) -> i32;
        pub fn tlz_read_value(
            file: *const u8,
            file_len: usize,
            kind: i64,
            number: i64,
            record: i64,
            indices: *const i64,
            index_count: usize,
            element: i64,
            value_kind: *mut u64,
            bits: *mut u64,
            offset: *mut u64,
        ) -> i32;
        pub fn tlz_read_levels(
            file: *const u8,
            file_len: usize,
            kind: i64,
            number: i64,
            record: i64,
            field: *mut i32,
        ) -> i32;
        pub fn tlz_read_entry(
            file: *const u8,
            file_len: usize,
            attribute: i64,
            kind: i64,
            entry: i64,
            element: i64,
            value_kind: *mut u64,
            bits: *mut u64,
            offset: *mut u64,
        ) -> i32;
        pub fn tlz_read_entry_value_at(
            file: *const u8,
            file_len: usize,
            attribute: i64,
            kind: i64,
            place: u64,
            element: i64,
            value_kind: *mut u64,
            bits: *mut u64,
            offset: *mut u64,
        ) -> i32;
        pub fn tlz_read_pad(
            file: *const u8,
            file_len: usize,
            kind: i64,
            number: i64,
            element: i64,
            value_kind: *mut u64,
            bits: *mut u64,
            offset: *mut u64,
        ) -> i32;
        pub fn tlz_read_file(file: *const u8, file_len: usize, what: u64, field: *mut i32) -> i32;
        pub fn tlz_read_dimension(
            file: *const u8,
            file_len: usize,
            dimension: i64,
            field: *mut i32,
        ) -> i32;
        pub fn tlz_read_variable(
            file: *const u8,
            file_len: usize,
            kind: i64,
            number: i64,
            at: u64,
            field: *mut i32,
        ) -> i32;
        pub fn tlz_read_size(
            file: *const u8,
            file_len: usize,
            kind: i64,
            number: i64,
            dimension: i64,
            field: *mut i32,
        ) -> i32;
        pub fn tlz_read_variance(
            file: *const u8,
            file_len: usize,
            kind: i64,
            number: i64,
            dimension: i64,
            field: *mut i32,
        ) -> i32;
        pub fn tlz_read_variable_name(
            file: *const u8,
            file_len: usize,
            kind: i64,
            number: i64,
            offset: *mut u64,
            length: *mut u64,
        ) -> i32;
        pub fn tlz_read_attribute(
            file: *const u8,
            file_len: usize,
            number: i64,
            at: u64,
            field: *mut i32,
        ) -> i32;
        pub fn tlz_read_attribute_name(
            file: *const u8,
            file_len: usize,
            number: i64,
            offset: *mut u64,
            length: *mut u64,
        ) -> i32;
        pub fn tlz_read_entry_field(
            file: *const u8,
            file_len: usize,
            attribute: i64,
            kind: i64,
            entry: i64,
            at: u64,
            field: *mut i32,
        ) -> i32;
        pub fn tlz_read_entry_at(
            file: *const u8,
            file_len: usize,
            attribute: i64,
            kind: i64,
            place: u64,
            at: u64,
            field: *mut i32,
        ) -> i32;
        pub fn tlz_epoch_date(
            epoch: f64,
            year: *mut i32,
            month: *mut i32,
            day: *mut i32,
            milliseconds: *mut i32,
        ) -> i32;
        pub fn tlz_epoch_from(
            year: i64,
            month: i64,
            day: i64,
            milliseconds: i64,
            epoch: *mut f64,
        ) -> i32;
        pub fn tlz_epoch_difference(a: f64, b: f64, difference: *mut f64) -> i32;
    }
}

/// Makes a state fresh: -1, since there is no verdict yet, or 20 and nothing changed if it has not 34 numbers.
pub fn check_begin(state: &mut [u32]) -> i32 {
    // SAFETY: pointer and length are one lent slice's.
    unsafe { c::tlz_check_begin(state.as_mut_ptr(), state.len()) }
}

/// What a grant leaves: its answer, the steps made, and the file offset of the record at fault or 0.
pub type Granted = (i32, u64, u64);

/// A grant of steps on a saved state.
pub fn check_grant(file: &[u8], marks: &mut [u8], state: &mut [u32], grant: u64) -> Granted {
    let (mut steps, mut location) = (u64::MAX, u64::MAX);
    // SAFETY: each pointer and its length are one lent slice's, or a local number's; the borrows keep
    // what is written apart from all else.
    let answer = unsafe {
        c::tlz_check_grant(
            file.as_ptr(),
            file.len(),
            marks.as_mut_ptr(),
            marks.len(),
            state.as_mut_ptr(),
            state.len(),
            grant,
            &mut steps,
            &mut location,
        )
    };
    (answer, steps, location)
}

/// A fresh state.
pub fn fresh() -> State {
    let mut state = [u32::MAX; STATE_LENGTH];
    check_begin(&mut state);
    state
}

/// The whole check at once.
pub fn run(file: &[u8], marks: &mut [u8]) -> Granted {
    check_grant(file, marks, &mut fresh(), u64::MAX)
}

/// The most jobs of a round, `TLZ_MOST_JOBS`.
pub const MOST_JOBS: usize = 8;

/// The number of a round that is refused, `TLZ_BAD_ROUND`.
pub const BAD_ROUND: i32 = 24;

/// A round: each unfinished job of the list is granted q steps.
pub fn round(files: &[u8], marks: &mut [u8], jobs: &mut [TlzJob], q: u64) -> i32 {
    // SAFETY: each pointer and its length are one lent slice's; the borrows keep what is written apart from all else.
    unsafe {
        c::tlz_round(
            files.as_ptr(),
            files.len(),
            marks.as_mut_ptr(),
            marks.len(),
            jobs.as_mut_ptr(),
            jobs.len(),
            q,
        )
    }
}

/// A state as a caller keeps it on disk: each number in 4 bytes, the lowest first.
pub fn to_bytes(state: &State) -> Vec<u8> {
    state.iter().flat_map(|number| number.to_le_bytes()).collect()
}

/// The state that these bytes keep; nothing if they are not 136.
pub fn from_bytes(bytes: &[u8]) -> Option<State> {
    let numbers: Vec<u32> = bytes
        .chunks_exact(4)
        .filter_map(|four| four.try_into().ok().map(u32::from_le_bytes))
        .collect();
    numbers.try_into().ok().filter(|_| bytes.len() == 4 * STATE_LENGTH)
}

/// The number of a VAX float that stands for no value, `TLZ_RESERVED_OPERAND`.
pub const RESERVED_OPERAND: i32 = 22;

/// What stands in the caller's numbers before a call of the reader or of epochs.
const BEFORE: u64 = 0x5A5A_A5A5_0F0F_F0F1;

/// A value: its kind, its bits and the file offset it was read from.
#[derive(Clone, Copy, Debug, PartialEq, Eq)]
pub struct Value {
    /// 0 signed, 1 unsigned, 2 single, 3 double, 4 character code.
    pub kind: u64,
    /// Signed values sign-extended to 64 bits; floats their own bits, zero-extended; VAX floats the double's bits.
    pub bits: u64,
    /// File offset of the lowest byte.
    pub offset: u64,
}

/// Where a name stands in the file.
#[derive(Clone, Copy, Debug, PartialEq, Eq)]
pub struct Name {
    /// File offset of its first byte.
    pub offset: u64,
    /// Bytes before the NUL, at most 64.
    pub length: u64,
}

/// 0 gives the numbers as they are now; a refusal must have left them as they were.
fn given<T: PartialEq + std::fmt::Debug>(answer: i32, before: T, after: T) -> Result<T, i32> {
    if answer == 0 {
        return Ok(after);
    }
    assert_eq!(before, after, "refused with {answer}, and the caller's numbers changed");
    Err(answer)
}

/// Asks for a value: the three numbers that a call sets are lent to it.
fn value(call: impl FnOnce(*mut u64, *mut u64, *mut u64) -> i32) -> Result<Value, i32> {
    let before = Value { kind: BEFORE, bits: !BEFORE, offset: BEFORE / 2 };
    let mut after = before;
    let answer = call(&mut after.kind, &mut after.bits, &mut after.offset);
    given(answer, before, after)
}

/// Asks for a field.
fn field(call: impl FnOnce(*mut i32) -> i32) -> Result<i32, i32> {
    let before = BEFORE as i32;
    let mut after = before;
    let answer = call(&mut after);
    given(answer, before, after)
}

/// Asks for a name.
fn name(call: impl FnOnce(*mut u64, *mut u64) -> i32) -> Result<Name, i32> {
    let before = Name { offset: BEFORE, length: !BEFORE };
    let mut after = before;
    let answer = call(&mut after.offset, &mut after.length);
    given(answer, before, after)
}

// SAFETY, of all calls below: pointer and length are one lent slice's; the numbers that are written are locals of their own.

/// An element of a variable's value.
pub fn read_value(
    file: &[u8],
    kind: i64,
    number: i64,
    record: i64,
    indices: &[i64],
    element: i64,
) -> Result<Value, i32> {
    let (f, n) = (file.as_ptr(), file.len());
    // no indices are lent as null, as C may
    let i = if indices.is_empty() { std::ptr::null() } else { indices.as_ptr() };
    let count = indices.len();
    value(|k, b, o| unsafe {
        c::tlz_read_value(f, n, kind, number, record, i, count, element, k, b, o)
    })
}

/// How many levels a variable's index has on the way to a record.
pub fn read_levels(file: &[u8], kind: i64, number: i64, record: i64) -> Result<i32, i32> {
    let (f, n) = (file.as_ptr(), file.len());
    field(|to| unsafe { c::tlz_read_levels(f, n, kind, number, record, to) })
}

/// An element of an attribute's entry: the first of that number.
pub fn read_entry(
    file: &[u8],
    attribute: i64,
    kind: i64,
    entry: i64,
    element: i64,
) -> Result<Value, i32> {
    let (f, n) = (file.as_ptr(), file.len());
    value(|k, b, o| unsafe { c::tlz_read_entry(f, n, attribute, kind, entry, element, k, b, o) })
}

/// An element of the entry at a place of its list, from 0.
pub fn read_entry_value_at(
    file: &[u8],
    attribute: i64,
    kind: i64,
    place: u64,
    element: i64,
) -> Result<Value, i32> {
    let (f, n) = (file.as_ptr(), file.len());
    value(|k, b, o| unsafe {
        c::tlz_read_entry_value_at(f, n, attribute, kind, place, element, k, b, o)
    })
}

/// An element of a variable's pad value.
pub fn read_pad(file: &[u8], kind: i64, number: i64, element: i64) -> Result<Value, i32> {
    let (f, n) = (file.as_ptr(), file.len());
    value(|k, b, o| unsafe { c::tlz_read_pad(f, n, kind, number, element, k, b, o) })
}

/// What `read_file` is asked for the bytes of padding, `TLZ_FILE_PADDING`.
pub const FILE_PADDING: u64 = 6;

/// What the file says of itself.
pub fn read_file(file: &[u8], what: u64) -> Result<i32, i32> {
    field(|to| unsafe { c::tlz_read_file(file.as_ptr(), file.len(), what, to) })
}

/// The size of a dimension of the rVariables.
pub fn read_dimension(file: &[u8], dimension: i64) -> Result<i32, i32> {
    field(|to| unsafe { c::tlz_read_dimension(file.as_ptr(), file.len(), dimension, to) })
}

/// A field of a variable's VDR, by its offset in the record.
pub fn read_variable(file: &[u8], kind: i64, number: i64, at: u64) -> Result<i32, i32> {
    field(|to| unsafe { c::tlz_read_variable(file.as_ptr(), file.len(), kind, number, at, to) })
}

/// The size of a dimension of a zVariable.
pub fn read_size(file: &[u8], kind: i64, number: i64, dimension: i64) -> Result<i32, i32> {
    let (f, n) = (file.as_ptr(), file.len());
    field(|to| unsafe { c::tlz_read_size(f, n, kind, number, dimension, to) })
}

/// The variance of a dimension of a variable, -1 or 0.
pub fn read_variance(file: &[u8], kind: i64, number: i64, dimension: i64) -> Result<i32, i32> {
    let (f, n) = (file.as_ptr(), file.len());
    field(|to| unsafe { c::tlz_read_variance(f, n, kind, number, dimension, to) })
}

/// Where a variable's name stands.
pub fn read_variable_name(file: &[u8], kind: i64, number: i64) -> Result<Name, i32> {
    let (f, n) = (file.as_ptr(), file.len());
    name(|o, l| unsafe { c::tlz_read_variable_name(f, n, kind, number, o, l) })
}

/// A field of an attribute's ADR, by its offset in the record.
pub fn read_attribute(file: &[u8], number: i64, at: u64) -> Result<i32, i32> {
    field(|to| unsafe { c::tlz_read_attribute(file.as_ptr(), file.len(), number, at, to) })
}

/// Where an attribute's name stands.
pub fn read_attribute_name(file: &[u8], number: i64) -> Result<Name, i32> {
    let (f, n) = (file.as_ptr(), file.len());
    name(|o, l| unsafe { c::tlz_read_attribute_name(f, n, number, o, l) })
}

/// A field of the AEDR of the first entry of a number, by its offset in the record.
pub fn read_entry_field(
    file: &[u8],
    attribute: i64,
    kind: i64,
    entry: i64,
    at: u64,
) -> Result<i32, i32> {
    let (f, n) = (file.as_ptr(), file.len());
    field(|to| unsafe { c::tlz_read_entry_field(f, n, attribute, kind, entry, at, to) })
}

/// A field of the AEDR at a place of its list, from 0.
pub fn read_entry_at(
    file: &[u8],
    attribute: i64,
    kind: i64,
    place: u64,
    at: u64,
) -> Result<i32, i32> {
    let (f, n) = (file.as_ptr(), file.len());
    field(|to| unsafe { c::tlz_read_entry_at(f, n, attribute, kind, place, at, to) })
}

/// The number of what is no epoch, and of a date that does not exist, `TLZ_NO_EPOCH`.
pub const NO_EPOCH: i32 = 27;

/// A date as a call sets it.
#[derive(Clone, Copy, Debug, PartialEq, Eq)]
pub struct Date {
    /// The year.
    pub year: i32,
    /// The month, from 1.
    pub month: i32,
    /// The day of the month, from 1.
    pub day: i32,
    /// Milliseconds of the day.
    pub milliseconds: i32,
}

/// Asks for a double, which is given as its bits.
fn double(call: impl FnOnce(*mut f64) -> i32) -> Result<u64, i32> {
    let mut after = f64::from_bits(BEFORE);
    let answer = call(&mut after);
    given(answer, BEFORE, after.to_bits())
}

/// The date of an epoch; doubles are lent and given as their bits.
pub fn epoch_date(epoch: u64) -> Result<Date, i32> {
    let [year, month] = [BEFORE, !BEFORE].map(|number| number as i32);
    let [day, milliseconds] = [BEFORE, !BEFORE].map(|number| (number >> 32) as i32);
    let before = Date { year, month, day, milliseconds };
    let mut after = before;
    // SAFETY: the numbers that are written are four fields of a local.
    let answer = unsafe {
        c::tlz_epoch_date(
            f64::from_bits(epoch),
            &mut after.year,
            &mut after.month,
            &mut after.day,
            &mut after.milliseconds,
        )
    };
    given(answer, before, after)
}

/// The epoch of a date, as its bits.
pub fn epoch_from(year: i64, month: i64, day: i64, milliseconds: i64) -> Result<u64, i32> {
    double(|to| unsafe { c::tlz_epoch_from(year, month, day, milliseconds, to) })
}

/// The milliseconds from an epoch b to an epoch a, as the bits of a double.
pub fn epoch_difference(a: u64, b: u64) -> Result<u64, i32> {
    let (a, b) = (f64::from_bits(a), f64::from_bits(b));
    double(|to| unsafe { c::tlz_epoch_difference(a, b, to) })
}

#[cfg(test)]
mod tests {
    use super::*;

    #[test]
    fn what_a_call_gives() {
        assert_eq!((given(0, 1, 2), given(0, 1, 1), given(27, 1, 1)), (Ok(2), Ok(1), Err(27)));
        assert_eq!(double(|_| NO_EPOCH), Err(NO_EPOCH));
        assert_eq!(double(|_| 0), Ok(BEFORE));
    }

    /// A refusal that changes the caller's number, even to one of another sign alone, is found.
    #[test]
    #[should_panic(expected = "refused with 27, and the caller's numbers changed")]
    fn a_changed_number_is_found() {
        // SAFETY: the pointer is that of a local.
        let _ = double(|to| unsafe {
            *to = -*to;
            NO_EPOCH
        });
    }
}
