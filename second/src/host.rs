//! The host's call of the uncached walk: numbers, guest memory and an answer buffer.

use crate::settings::Settings;

/// The uncached walk as the host sees it.
pub type HostWalk = unsafe extern "C" fn(
    cr0: u64,
    cr3: u64,
    cr4: u64,
    efer: u64,
    width: u64,
    address: u64,
    access: u64,
    mode: u64,
    memory: *mut u8,
    memory_length: usize,
    answer: *mut u8,
    answer_length: usize,
) -> u64;

/// One question of the host.
#[derive(Clone, Copy, Debug)]
pub struct Question {
    pub address: u64,
    pub access: u64,
    pub mode: u64,
}

/// The number that the host's walk returns on lent bytes.
pub fn call(
    walk: HostWalk,
    settings: &Settings,
    question: &Question,
    memory: &mut [u8],
    answer: &mut [u8],
) -> u64 {
    // SAFETY: both runs of bytes are lent for the call with their own lengths.
    unsafe {
        walk(
            settings.cr0,
            settings.cr3,
            settings.cr4,
            settings.efer,
            settings.width,
            question.address,
            question.access,
            question.mode,
            memory.as_mut_ptr(),
            memory.len(),
            answer.as_mut_ptr(),
            answer.len(),
        )
    }
}

/// The lent bytes of a pointer and a length; no bytes for a length of 0.
///
/// # Safety
/// The pointer must be good for so many bytes, for as long as they are used.
pub unsafe fn lent<'a>(pointer: *mut u8, length: usize) -> &'a mut [u8] {
    if length == 0 {
        return &mut [];
    }
    // SAFETY: the caller lends so many bytes.
    unsafe { std::slice::from_raw_parts_mut(pointer, length) }
}
