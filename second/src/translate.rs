//! The uncached translation: tests, walk, rights and marks.

use crate::answer::Answer;
use crate::settings::Settings;
use crate::walk::{self, End, Step, Walk};

pub const READ: u64 = 0;
pub const WRITE: u64 = 1;
pub const FETCH: u64 = 2;
pub const SUPERVISOR: u64 = 0;
pub const USER: u64 = 1;

/// The rights that an access needs under the settings.
#[derive(Clone, Copy, Debug, PartialEq, Eq)]
pub struct Rights {
    pub write: bool,
    pub user: bool,
    pub fetch: bool,
}

impl Rights {
    /// What the access needs; a fetch counts even with NXE = 0.
    pub fn needed(settings: &Settings, access: u64, mode: u64) -> Rights {
        Rights {
            write: access == WRITE && (mode == USER || settings.write_protect()),
            user: mode == USER,
            fetch: access == FETCH,
        }
    }

    /// What one entry grants.
    pub fn granted(entry: u64) -> Rights {
        Rights {
            write: entry & walk::WRITABLE != 0,
            user: entry & walk::USER != 0,
            fetch: entry & walk::EXECUTE_DISABLE == 0,
        }
    }

    /// What all the entries of a path grant together.
    pub fn combined(steps: &[Step]) -> Rights {
        let all = |test: fn(Rights) -> bool| steps.iter().all(|s| test(Rights::granted(s.entry)));
        Rights {
            write: all(|rights| rights.write),
            user: all(|rights| rights.user),
            fetch: all(|rights| rights.fetch),
        }
    }

    /// Whether these rights hold everything needed.
    pub fn allow(&self, needed: Rights) -> bool {
        (self.write || !needed.write)
            && (self.user || !needed.user)
            && (self.fetch || !needed.fetch)
    }
}

/// The refusal that comes before any walk or hit, if there is one.
pub fn refusal(settings: &Settings, address: u64, access: u64, mode: u64) -> Option<Answer> {
    if access > FETCH || mode > USER {
        return Some(Answer::bare(Answer::UNKNOWN));
    }
    if let Some(number) = settings.refusal() {
        return Some(Answer::bare(number));
    }
    let formed = if settings.paging() {
        canonical(address)
    } else {
        address < 1 << 32
    };
    (!formed).then(|| Answer::bare(Answer::FORM))
}

/// Whether bits 63 to 47 are equal.
pub fn canonical(address: u64) -> bool {
    matches!(address >> 47, 0 | 0x1FFFF)
}

/// The answer with paging off to an address below 2^32.
pub fn unpaged(address: u64) -> Answer {
    Answer {
        value: address,
        ..Answer::bare(Answer::DONE)
    }
}

/// The uncached translation; a success marks the entries in memory.
pub fn translate(
    settings: &Settings,
    address: u64,
    access: u64,
    mode: u64,
    memory: &mut [u8],
) -> Answer {
    if let Some(answer) = refusal(settings, address, access, mode) {
        return answer;
    }
    if !settings.paging() {
        return unpaged(address);
    }
    walked(settings, address, access, mode, memory).0
}

/// The answer of a walk and its path; a success marks the entries in memory.
pub fn walked(
    settings: &Settings,
    address: u64,
    access: u64,
    mode: u64,
    memory: &mut [u8],
) -> (Answer, Walk) {
    let walk = walk::walk(settings, address, memory);
    let given = |answer, value, detail| Answer {
        value,
        detail,
        entries: walk.steps.len() as u64,
        ..Answer::bare(answer)
    };
    let fault = |cause, level| given(Answer::FAULT, code(settings, access, mode, cause), level);
    let needed = Rights::needed(settings, access, mode);
    let answer = match walk.end {
        End::Outside { address, level } => given(Answer::OUTSIDE, address, level),
        End::Missing { level } => fault(0, level),
        End::Reserved { level } => fault(9, level),
        End::Page { .. } if !Rights::combined(&walk.steps).allow(needed) => {
            fault(1, lacking(&walk.steps, needed))
        }
        End::Page { size } => {
            mark(&walk.steps, access == WRITE, memory);
            Answer {
                memory_type: walk.memory_type(),
                ..given(Answer::DONE, walk.physical(address), size)
            }
        }
    };
    (answer, walk)
}

/// The error code; the cause brings bits 0 and 3.
fn code(settings: &Settings, access: u64, mode: u64, cause: u64) -> u64 {
    let write = u64::from(access == WRITE) << 1;
    let user = u64::from(mode == USER) << 2;
    let fetch = u64::from(access == FETCH && settings.no_execute()) << 4;
    cause | write | user | fetch
}

/// The highest level whose own entry lacks a needed right, or 0.
fn lacking(steps: &[Step], needed: Rights) -> u64 {
    let short = |step: &&Step| !Rights::granted(step.entry).allow(needed);
    steps.iter().find(short).map_or(0, |step| step.level)
}

/// Sets Accessed in every entry of the path, and Dirty in the last on a write.
fn mark(steps: &[Step], write: bool, memory: &mut [u8]) {
    for step in steps {
        memory[step.address as usize] |= walk::ACCESSED as u8;
    }
    if let (true, Some(last)) = (write, steps.last()) {
        memory[last.address as usize] |= walk::DIRTY as u8;
    }
}
