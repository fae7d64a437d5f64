//! The calls on what Rust lends them; each gives the answer's number.

use crate::{aalbrett_invpcid, aalbrett_start, aalbrett_step, aalbrett_walk, Machine, Settings};

/// One uncached walk of guest memory; address, access and mode are what is asked.
#[inline]
pub fn walk(
    settings: &Settings,
    [address, access, mode]: [u64; 3],
    memory: &mut [u8],
    answer: &mut [u8],
) -> u64 {
    // SAFETY: both slices are lent for the call with their own lengths, and do not overlap.
    unsafe {
        aalbrett_walk(
            settings.cr0,
            settings.cr3,
            settings.cr4,
            settings.efer,
            settings.width,
            address,
            access,
            mode,
            memory.as_mut_ptr(),
            memory.len(),
            answer.as_mut_ptr(),
            answer.len(),
        )
    }
}

/// Starts a machine with these settings.
#[inline]
pub fn start(machine: &mut Machine, settings: &Settings) -> u64 {
    // SAFETY: the record is lent for the call, and has the archive's layout.
    unsafe {
        aalbrett_start(
            machine,
            settings.cr0,
            settings.cr3,
            settings.cr4,
            settings.efer,
            settings.width,
        )
    }
}

/// One card's step on a machine and guest memory.
#[inline]
pub fn step(machine: &mut Machine, memory: &mut [u8], card: &[u8], answer: &mut [u8]) -> u64 {
    // SAFETY: the record has the archive's layout and may hold anything; all four are lent for the
    // call, the slices with their own lengths, and do not overlap.
    unsafe {
        aalbrett_step(
            machine,
            memory.as_mut_ptr(),
            memory.len(),
            card.as_ptr(),
            card.len(),
            answer.as_mut_ptr(),
            answer.len(),
        )
    }
}

/// INVPCID on a machine: kind, space number and address.
#[inline]
pub fn invpcid(machine: &mut Machine, [kind, number, address]: [u64; 3], answer: &mut [u8]) -> u64 {
    // SAFETY: the record has the archive's layout and may hold anything; both are lent for the call,
    // the slice with its own length, and do not overlap.
    unsafe {
        aalbrett_invpcid(
            machine,
            kind,
            number,
            address,
            answer.as_mut_ptr(),
            answer.len(),
        )
    }
}
