//! The uncached walk once more, written for speed behind the host's interface.

use crate::answer::Answer;
use crate::host;
use crate::settings::Settings;
use crate::translate::{refusal, unpaged, FETCH, USER, WRITE};
use crate::walk;

/// The bits of an entry that grant rights, once XD is turned over.
const GRANTS: u64 = walk::WRITABLE | walk::USER | walk::EXECUTE_DISABLE;

/// The host's uncached walk.
///
/// # Safety
/// Both pointers must be good for so many bytes, and the two runs apart.
#[inline(never)]
pub unsafe extern "C" fn fast_walk(
    cr0: u64,
    cr3: u64,
    cr4: u64,
    efer: u64,
    width: u64,
    address: u64,
    access: u64,
    mode: u64,
    memory: *mut u8,
    memory_length: usize,
    answer: *mut u8,
    answer_length: usize,
) -> u64 {
    if answer_length < Answer::BYTES {
        return Answer::SHORT_BUFFER;
    }
    // SAFETY: the host lends both runs for the call.
    let (memory, buffer) = unsafe {
        (
            host::lent(memory, memory_length),
            host::lent(answer, answer_length),
        )
    };
    let settings = Settings {
        cr0,
        cr3,
        cr4,
        efer,
        width,
    };
    let given = translate(&settings, address, access, mode, memory);
    buffer[..Answer::BYTES].copy_from_slice(&given.bytes());
    given.answer
}

/// The uncached translation; a success marks the entries in memory.
#[inline(always)]
fn translate(
    settings: &Settings,
    address: u64,
    access: u64,
    mode: u64,
    memory: &mut [u8],
) -> Answer {
    if let Some(answer) = refusal(settings, address, access, mode) {
        return answer;
    }
    if !settings.paging() {
        return unpaged(address);
    }
    Descent::new(settings, address, access, mode).run(settings.root(), memory)
}

/// The granting bits that the access needs in every entry.
#[inline(always)]
fn needed(settings: &Settings, access: u64, mode: u64) -> u64 {
    let user = mode == USER;
    let write = access == WRITE && (user || settings.write_protect());
    let fetch = access == FETCH;
    u64::from(write) << 1 | u64::from(user) << 2 | u64::from(fetch) << 63
}

/// The bits of an error code that the question brings.
#[inline(always)]
fn fault_bits(settings: &Settings, access: u64, mode: u64) -> u64 {
    let fetch = access == FETCH && settings.no_execute();
    u64::from(access == WRITE) << 1 | mode << 2 | u64::from(fetch) << 4
}

/// What a walk carries down: the question's numbers and the path so far.
pub struct Descent {
    address: u64,
    bad: u64,
    needed: u64,
    write: bool,
    fault: u64,
    granted: u64,
    path: [(usize, u64); 4],
}

impl Descent {
    /// The descent before its first entry, for a question that passed the tests.
    #[inline(always)]
    pub fn new(settings: &Settings, address: u64, access: u64, mode: u64) -> Descent {
        let disabled = u64::from(!settings.no_execute()) << 63;
        Descent {
            address,
            bad: ((1 << 52) - (1 << settings.width)) | disabled,
            needed: needed(settings, access, mode),
            write: access == WRITE,
            fault: fault_bits(settings, access, mode),
            granted: GRANTS,
            path: [(0, 0); 4],
        }
    }

    /// The answer of the walk from the root down; a success marks the entries in memory.
    #[inline(always)]
    pub fn run(&mut self, root: u64, memory: &mut [u8]) -> Answer {
        let (Ok(answer) | Err(answer)) = self.read_down(root, memory);
        answer
    }

    /// Whether all entries read grant what the bit says, XD turned over.
    #[inline(always)]
    pub fn grants(&self, bit: u64) -> bool {
        self.granted & bit != 0
    }

    /// The entry of the level as it was read.
    #[inline(always)]
    pub fn entry(&self, level: u64) -> u64 {
        self.path[4 - level as usize].1
    }

    /// Reads the entry of the level in a table; gives the entry, or the refusal it meets.
    #[inline(always)]
    fn read(&mut self, memory: &[u8], table: u64, level: u64) -> Result<u64, Answer> {
        let at = walk::entry_address(table, level, self.address);
        let Some(entry) = walk::read_entry(memory, at) else {
            return Err(given(Answer::OUTSIDE, at, level, 4 - level));
        };
        if entry & walk::PRESENT == 0 {
            return Err(given(Answer::FAULT, self.fault, level, 5 - level));
        }
        let own = match level {
            4 => walk::LARGE,
            2 | 3 if entry & walk::LARGE != 0 => (1 << walk::shift(level)) - (1 << 13),
            _ => 0,
        };
        if entry & (self.bad | own) != 0 {
            return Err(given(Answer::FAULT, self.fault | 9, level, 5 - level));
        }
        self.path[4 - level as usize] = (at as usize, entry);
        self.granted &= entry ^ walk::EXECUTE_DISABLE;
        Ok(entry)
    }

    /// The answer at the page that ends the walk; a success marks the entries.
    #[inline(always)]
    fn finish(&self, memory: &mut [u8], entry: u64, level: u64) -> Answer {
        let path = &self.path[..5 - level as usize];
        if self.granted & self.needed != self.needed {
            let lacking = lacking(path, self.needed);
            return given(Answer::FAULT, self.fault | 1, lacking, 5 - level);
        }
        mark(path, self.write, memory);
        let offset = (1 << walk::shift(level)) - 1;
        let value = entry & walk::FRAME & !offset | self.address & offset;
        Answer {
            memory_type: walk::memory_type(entry, level),
            ..given(Answer::DONE, value, level, 5 - level)
        }
    }

    /// The answer of the walk, or the refusal that ends it early.
    #[inline(always)]
    fn read_down(&mut self, root: u64, memory: &mut [u8]) -> Result<Answer, Answer> {
        let mut table = self.read(memory, root, 4)? & walk::FRAME;
        for level in [3, 2] {
            let entry = self.read(memory, table, level)?;
            if entry & walk::LARGE != 0 {
                return Ok(self.finish(memory, entry, level));
            }
            table = entry & walk::FRAME;
        }
        let entry = self.read(memory, table, 1)?;
        Ok(self.finish(memory, entry, 1))
    }
}

/// The answer with these numbers.
#[inline(always)]
fn given(answer: u64, value: u64, detail: u64, entries: u64) -> Answer {
    Answer {
        answer,
        value,
        detail,
        entries,
        memory_type: 0,
    }
}

/// The highest level whose own entry lacks a needed bit, or 0.
#[inline(always)]
fn lacking(path: &[(usize, u64)], needed: u64) -> u64 {
    for (level, (_, entry)) in (1..=4).rev().zip(path) {
        if (entry ^ walk::EXECUTE_DISABLE) & needed != needed {
            return level;
        }
    }
    0
}

/// Sets Accessed in every entry of the path, and Dirty in the last on a write.
#[inline(always)]
fn mark(path: &[(usize, u64)], write: bool, memory: &mut [u8]) {
    for (at, _) in path {
        memory[*at] |= walk::ACCESSED as u8;
    }
    if let (true, Some((at, _))) = (write, path.last()) {
        memory[*at] |= walk::DIRTY as u8;
    }
}

#[cfg(test)]
mod tests {
    use super::fast_walk;
    use crate::compare::walks;

    /// The fast walk and the plain one agree on fresh cases.
    #[test]
    fn fast_and_plain_agree() {
        let tally = walks(2, 20_000, fast_walk);
        assert_eq!(tally.fewer(1), Vec::<&str>::new(), "{}", tally.table());
    }
}
