//! Questions and answers as text.

use std::fmt::{Display, Formatter, Result};

use crate::{Answer, Question, FETCH, READ, SUPERVISOR, USER, WRITE};
use crate::{CARD_SHORT, EXTENSION, FORM, PAGING, ROOT, SPACES, SPACE_NUMBER, UNKNOWN, WIDTH};

impl Display for Question {
    /// Mode, access and address.
    fn fmt(&self, text: &mut Formatter) -> Result {
        let mode = match self.mode {
            SUPERVISOR => "supervisor",
            USER => "user",
            _ => "unknown mode",
        };
        let access = match self.access {
            READ => "read",
            WRITE => "write",
            FETCH => "fetch",
            _ => "unknown access",
        };
        write!(text, "{mode} {access} {:#x}", self.address)
    }
}

impl Display for Answer {
    /// What was answered, with the entries read where there was a translation.
    fn fmt(&self, text: &mut Formatter) -> Result {
        match self {
            Answer::Done {
                address,
                size,
                reads,
                memory_type,
            } => {
                write!(
                    text,
                    "physical {address:#x}, size {size}, memory type index {memory_type}, entries read: {reads}"
                )
            }
            Answer::Outside {
                entry,
                level,
                reads,
            } => {
                write!(
                    text,
                    "entry {entry:#x} outside memory, level {level}, entries read: {reads}"
                )
            }
            Answer::Fault { code, level, reads } => {
                write!(
                    text,
                    "page fault, code {code}, level {level}, entries read: {reads}"
                )
            }
            Answer::Refused(number) => write!(text, "refused with {number}, {}", meaning(*number)),
        }
    }
}

/// What a refusal's number says.
fn meaning(number: u64) -> &'static str {
    match number {
        UNKNOWN => "access, mode or kind unknown",
        WIDTH => "width not from 32 to 52",
        ROOT => "root too large for the width",
        PAGING => "paging on without PE, PAE or LME",
        EXTENSION => "an extension bit not served",
        SPACES => "space numbers cannot be on",
        SPACE_NUMBER => "space number not served",
        FORM => "address form",
        CARD_SHORT => "card short",
        _ => "number unknown",
    }
}

#[cfg(test)]
mod tests {
    use crate::{Answer, EXTENSION, PAGING, ROOT, SPACES, WIDTH};

    /// Each wrong setting has a text of its own.
    #[test]
    fn each_wrong_setting_is_named() {
        let texts = [
            (WIDTH, "refused with 2, width not from 32 to 52"),
            (ROOT, "refused with 8, root too large for the width"),
            (PAGING, "refused with 9, paging on without PE, PAE or LME"),
            (EXTENSION, "refused with 10, an extension bit not served"),
            (SPACES, "refused with 11, space numbers cannot be on"),
        ];
        for (number, text) in texts {
            assert_eq!(Answer::Refused(number).to_string(), text);
        }
    }
}
