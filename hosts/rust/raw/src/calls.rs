//! The exported functions.

use crate::Machine;

extern "C" {
    /// One uncached walk.
    pub fn aalbrett_walk(
        cr0: u64,
        cr3: u64,
        cr4: u64,
        efer: u64,
        width: u64,
        address: u64,
        access: u64,
        mode: u64,
        memory: *mut u8,
        memory_length: usize,
        answer: *mut u8,
        answer_length: usize,
    ) -> u64;

    /// Starts a machine.
    pub fn aalbrett_start(
        machine: *mut Machine,
        cr0: u64,
        cr3: u64,
        cr4: u64,
        efer: u64,
        width: u64,
    ) -> u64;

    /// One card's step on a machine, in place.
    pub fn aalbrett_step(
        machine: *mut Machine,
        memory: *mut u8,
        memory_length: usize,
        card: *const u8,
        card_length: usize,
        answer: *mut u8,
        answer_length: usize,
    ) -> u64;

    /// INVPCID on a machine, in place.
    pub fn aalbrett_invpcid(
        machine: *mut Machine,
        kind: u64,
        number: u64,
        address: u64,
        answer: *mut u8,
        answer_length: usize,
    ) -> u64;

    /// A loop of remembered translations by value, to be timed; it is in libtiming.a alone.
    pub fn timing_translations(
        cr0: u64,
        cr3: u64,
        cr4: u64,
        efer: u64,
        width: u64,
        access: u64,
        mode: u64,
        turns: u64,
        addresses: *const u8,
        addresses_length: usize,
        memory: *mut u8,
        memory_length: usize,
    ) -> u64;
}
