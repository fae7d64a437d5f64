//! Answers out of an answer buffer.

use crate::Answer;

/// The bytes of an answer buffer.
pub const BUFFER: usize = 40;

/// The answer of a number and the buffer written with it.
pub fn answered(number: u64, buffer: &[u8; BUFFER]) -> Answer {
    let [value, detail, reads, memory_type] = [8, 16, 24, 32].map(|at| word(buffer, at));
    match number {
        0 => Answer::Done {
            address: value,
            size: detail,
            reads,
            memory_type,
        },
        4 => Answer::Outside {
            entry: value,
            level: detail,
            reads,
        },
        5 => Answer::Fault {
            code: value,
            level: detail,
            reads,
        },
        refusal => Answer::Refused(refusal),
    }
}

/// The little-endian number at an offset of an answer buffer.
fn word(buffer: &[u8; BUFFER], at: usize) -> u64 {
    let mut bytes = [0; 8];
    bytes.copy_from_slice(&buffer[at..at + 8]);
    u64::from_le_bytes(bytes)
}
