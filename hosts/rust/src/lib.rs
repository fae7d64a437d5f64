//! Aalbrett for a host in Rust: safe calls of the proved archive.

mod answer;
mod card;
mod machine;
mod memory;
mod text;
mod walk;

pub use aalbrett_raw::{Place, Settings};
pub use card::Card;
pub use machine::Machine;
pub use memory::byte;
pub use walk::walk;

/// Access: a read.
pub const READ: u64 = 0;
/// Access: a write.
pub const WRITE: u64 = 1;
/// Access: an instruction fetch.
pub const FETCH: u64 = 2;

/// Mode: supervisor.
pub const SUPERVISOR: u64 = 0;
/// Mode: user.
pub const USER: u64 = 1;

/// Refused: access, mode, card kind or INVPCID kind unknown.
pub const UNKNOWN: u64 = 1;
/// Refused: the width M is not from 32 to 52.
pub const WIDTH: u64 = 2;
/// Refused: the address is not canonical or, with paging off, not below 2^32.
pub const FORM: u64 = 3;
/// Refused: the card is not of 32 bytes.
pub const CARD_SHORT: u64 = 6;
/// Refused: the root in CR3 is not below 2^M.
pub const ROOT: u64 = 8;
/// Refused: paging on without PE, PAE or LME.
pub const PAGING: u64 = 9;
/// Refused: paging on with a bit of CR4 that is not served, of 12 and 20 to 24.
pub const EXTENSION: u64 = 10;
/// Refused: space numbers with paging off, or turned on while CR3 bits 11:0 are not 0.
pub const SPACES: u64 = 11;
/// Refused: INVPCID's space number is above 4,095, or in kinds 0 and 1 not 0 without space numbers.
pub const SPACE_NUMBER: u64 = 12;

/// INVPCID: drops each place of a number whose page contains an address, but no G place.
pub const INVPCID_ADDRESS: u64 = 0;
/// INVPCID: drops each place of a number, but no G place.
pub const INVPCID_NUMBER: u64 = 1;
/// INVPCID: drops everything.
pub const INVPCID_ALL: u64 = 2;
/// INVPCID: drops all but G places.
pub const INVPCID_LOCAL: u64 = 3;

/// What is asked: a virtual address, how it is used and by whom.
#[derive(Clone, Copy, Debug, PartialEq, Eq)]
pub struct Question {
    pub address: u64,
    pub access: u64,
    pub mode: u64,
}

/// What a question or a card is answered. `reads` counts the table entries read.
#[derive(Clone, Copy, Debug, PartialEq, Eq)]
pub enum Answer {
    /// The physical address; size is 1, 2 or 3 for a page of 4 KiB, 2 MiB or 1 GiB, and 0 with paging off.
    /// The memory type index is 4 times PAT plus 2 times PCD plus PWT of the last entry, and 0 with paging off.
    /// All are 0 where no translation was asked.
    Done {
        address: u64,
        size: u64,
        reads: u64,
        memory_type: u64,
    },
    /// The table entry at this physical address lies outside memory; of a card's store, at level 0, the store.
    Outside { entry: u64, level: u64, reads: u64 },
    /// A page fault with its error code and the level of the entry at fault.
    Fault { code: u64, level: u64, reads: u64 },
    /// Refused before a walk: [`UNKNOWN`], [`WIDTH`], [`ROOT`], [`PAGING`], [`EXTENSION`], [`SPACES`],
    /// [`SPACE_NUMBER`], [`FORM`] or [`CARD_SHORT`].
    Refused(u64),
}
