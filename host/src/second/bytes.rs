//! Bytes of the file as numbers (docs/RULES.md, sections 3 and 14).

/// The length of a buffer as a signed number.
pub fn length(buffer: &[u8]) -> i64 {
    i64::try_from(buffer.len()).unwrap_or(i64::MAX)
}

/// The `size` bytes at `offset`, or nothing if they do not all lie in the file.
pub fn range(file: &[u8], offset: i64, size: i64) -> Option<&[u8]> {
    let start = usize::try_from(offset).ok()?;
    file.get(start..start.checked_add(usize::try_from(size).ok()?)?)
}

/// The control field at `offset`: 4 bytes, two's complement, big-endian.
pub fn field(file: &[u8], offset: i64) -> Option<i64> {
    let four: [u8; 4] = range(file, offset, 4)?.try_into().ok()?;
    Some(i64::from(i32::from_be_bytes(four)))
}

/// The `size` bytes (1 to 8) at `offset` as one unsigned number.
pub fn unsigned(file: &[u8], offset: i64, size: i64, little_endian: bool) -> Option<u64> {
    let bytes = range(file, offset, size)?;
    let join = |number: u64, byte: &u8| number << 8 | u64::from(*byte);
    Some(if little_endian { bytes.iter().rev().fold(0, join) } else { bytes.iter().fold(0, join) })
}

/// An unsigned number of `size` bytes taken as two's complement, sign-extended to 64 bits.
pub fn sign_extended(number: u64, size: i64) -> u64 {
    match size {
        1 => number as u8 as i8 as i64 as u64,
        2 => number as u16 as i16 as i64 as u64,
        4 => number as u32 as i32 as i64 as u64,
        _ => number,
    }
}
