//! The five numbers of an answer.

/// Answer, value, detail, entries read and the memory type index.
#[derive(Clone, Copy, Debug, PartialEq, Eq)]
pub struct Answer {
    pub answer: u64,
    pub value: u64,
    pub detail: u64,
    pub entries: u64,
    pub memory_type: u64,
}

impl Answer {
    /// The bytes that the host receives.
    pub const BYTES: usize = 40;

    pub const DONE: u64 = 0;
    pub const UNKNOWN: u64 = 1;
    pub const WIDTH: u64 = 2;
    pub const FORM: u64 = 3;
    pub const OUTSIDE: u64 = 4;
    pub const FAULT: u64 = 5;
    pub const SHORT_CARD: u64 = 6;
    pub const SHORT_BUFFER: u64 = 7;
    pub const ROOT: u64 = 8;
    pub const PAGING: u64 = 9;
    pub const EXTENSION: u64 = 10;
    pub const SPACES: u64 = 11;
    pub const SPACE_NUMBER: u64 = 12;

    /// The answer of that number with all else 0.
    pub fn bare(answer: u64) -> Answer {
        Answer {
            answer,
            value: 0,
            detail: 0,
            entries: 0,
            memory_type: 0,
        }
    }

    /// The five numbers in order.
    pub fn numbers(&self) -> [u64; 5] {
        [
            self.answer,
            self.value,
            self.detail,
            self.entries,
            self.memory_type,
        ]
    }

    /// The bytes that the host receives.
    pub fn bytes(&self) -> [u8; Answer::BYTES] {
        let mut bytes = [0; Answer::BYTES];
        let numbers = self.numbers();
        for (part, number) in bytes.chunks_exact_mut(8).zip(numbers) {
            part.copy_from_slice(&number.to_le_bytes());
        }
        bytes
    }

    /// The printed line of that number, without its end.
    pub fn line(&self, number: u64) -> String {
        format!(
            "{number} {} {:016x} {} {} {}",
            self.answer, self.value, self.detail, self.entries, self.memory_type
        )
    }
}

#[cfg(test)]
mod tests {
    use super::Answer;

    /// Bytes are little-endian, and a line has the paper's form.
    #[test]
    fn bytes_and_line_have_the_papers_form() {
        let answer = Answer {
            answer: 0,
            value: 0x5ABC,
            detail: 1,
            entries: 4,
            memory_type: 7,
        };
        assert_eq!(answer.line(7), "7 0 0000000000005abc 1 4 7");
        let bytes = answer.bytes();
        assert_eq!((bytes[0], bytes[8], bytes[9]), (0, 0xBC, 0x5A));
        assert_eq!((bytes[16], bytes[24], bytes[32]), (1, 4, 7));
    }
}
