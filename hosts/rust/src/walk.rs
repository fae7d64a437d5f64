//! The uncached walk.

use aalbrett_raw as raw;

use crate::answer::{answered, BUFFER};
use crate::{Answer, Question, Settings};

/// One uncached walk of guest memory, whose first byte is physical address 0.
///
/// `Done` sets Accessed in every entry on the path, and Dirty in the last for a write; any other
/// answer leaves memory as it was.
pub fn walk(settings: Settings, question: Question, memory: &mut [u8]) -> Answer {
    let Question {
        address,
        access,
        mode,
    } = question;
    let mut buffer = [0; BUFFER];
    let number = raw::walk(&settings, [address, access, mode], memory, &mut buffer);
    answered(number, &buffer)
}
