//! Cards: one call of a machine, in 32 bytes.

use crate::{Question, Settings};

/// A card's 32 bytes.
#[derive(Clone, Copy, Debug, PartialEq, Eq)]
pub struct Card(pub [u8; 32]);

impl Card {
    /// The card of a kind with an address and a value; its other bytes are 0.
    fn new(kind: u8, address: u64, value: u64) -> Card {
        let mut bytes = [0; 32];
        bytes[0] = kind;
        bytes[8..16].copy_from_slice(&address.to_le_bytes());
        bytes[16..24].copy_from_slice(&value.to_le_bytes());
        Card(bytes)
    }

    /// Translates an address; an access or a mode above 255 is as unknown as 255.
    pub fn translate(question: Question) -> Card {
        let mut card = Card::new(0, question.address, 0);
        card.0[1] = question.access.min(255) as u8;
        card.0[2] = question.mode.min(255) as u8;
        card
    }

    /// Stores a value's 8 bytes in guest memory, at a physical address.
    pub fn store(address: u64, value: u64) -> Card {
        Card::new(1, address, value)
    }

    /// Loads CR3; all but G places are dropped. With space numbers the places of the number loaded that are
    /// not G are dropped, or none where bit 63 is set, which is then no part of CR3.
    pub fn load_root(cr3: u64) -> Card {
        Card::new(2, 0, cr3)
    }

    /// Drops each place whose page, at the place's own size, contains the address, of the present number or G.
    pub fn drop_page(address: u64) -> Card {
        Card::new(3, address, 0)
    }

    /// Drops everything.
    pub fn drop_all() -> Card {
        Card::new(4, 0, 0)
    }

    /// Loads settings, of CR0 and CR4 the low 32 bits and of M the low 8; CR3 stays, and everything is dropped.
    pub fn load_settings(settings: Settings) -> Card {
        let halves = settings.cr0 & 0xFFFF_FFFF | settings.cr4 << 32;
        let mut card = Card::new(5, halves, settings.efer);
        card.0[24] = settings.width as u8;
        card
    }
}
