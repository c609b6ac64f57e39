//! What the program `pbn` has to print: a table's line and a text come in, a record's bytes or a refusal go out.
use super::{lines, read, OUTSIDE};

/// The input that the program holds, table and text.
pub const MOST_BYTES: usize = 65_536;

/// The most bytes of a record that a text can give.
const MOST_RECORD: usize = 296;

/// The whole output for an input.
pub fn output(input: &[u8]) -> Vec<u8> {
    if input.len() > MOST_BYTES {
        return b"over 65536 bytes\n".to_vec();
    }
    let Some(end) = input.iter().position(|&byte| byte == b'\n') else {
        return format!("{OUTSIDE} 1\n").into_bytes();
    };
    let (table, text) = (lines::number(&input[..end]).unwrap_or(0), &input[end + 1..]);
    let mut record = vec![0; MOST_RECORD];
    let number = read(text, table, &mut record);
    if number >= 1024 {
        return format!("{} {}\n", number / 1024, number % 1024).into_bytes();
    }
    record.truncate(number as usize);
    record
}
