//! Exercise cards and the step of one card.

use crate::answer::Answer;
use crate::case::store;
use crate::machine::Machine;

/// The bytes of a card.
pub const CARD: usize = 32;

/// What a card asks for.
#[derive(Clone, Copy, Debug, PartialEq, Eq)]
pub enum Card {
    Translate {
        address: u64,
        access: u8,
        mode: u8,
    },
    Store {
        address: u64,
        value: u64,
    },
    LoadRoot {
        value: u64,
    },
    DropPage {
        address: u64,
    },
    DropAll,
    LoadSettings {
        cr0: u32,
        cr4: u32,
        efer: u64,
        width: u8,
    },
    Unknown {
        kind: u8,
    },
}

impl Card {
    /// The card of these bytes, or nothing if they are not 32.
    pub fn read(bytes: &[u8]) -> Option<Card> {
        let bytes: &[u8; CARD] = bytes.try_into().ok()?;
        let (address, value) = (number(bytes, 8), number(bytes, 16));
        let card = match bytes[0] {
            0 => Card::Translate {
                address,
                access: bytes[1],
                mode: bytes[2],
            },
            1 => Card::Store { address, value },
            2 => Card::LoadRoot { value },
            3 => Card::DropPage { address },
            4 => Card::DropAll,
            5 => Card::LoadSettings {
                cr0: address as u32,
                cr4: (address >> 32) as u32,
                efer: value,
                width: bytes[24],
            },
            kind => Card::Unknown { kind },
        };
        Some(card)
    }

    /// Writes the bytes that this card uses, others stay.
    pub fn write(&self, bytes: &mut [u8; CARD]) {
        let mut put = |at: usize, number: u64| {
            bytes[at..at + 8].copy_from_slice(&number.to_le_bytes());
        };
        match *self {
            Card::Translate { address, .. } | Card::DropPage { address } => put(8, address),
            Card::Store { address, value } => {
                put(8, address);
                put(16, value);
            }
            Card::LoadRoot { value } => put(16, value),
            Card::LoadSettings { cr0, cr4, efer, .. } => {
                put(8, u64::from(cr0) | u64::from(cr4) << 32);
                put(16, efer);
            }
            Card::DropAll | Card::Unknown { .. } => {}
        }
        bytes[0] = self.kind();
        if let Card::Translate { access, mode, .. } = *self {
            (bytes[1], bytes[2]) = (access, mode);
        }
        if let Card::LoadSettings { width, .. } = *self {
            bytes[24] = width;
        }
    }

    /// The kind's number.
    pub fn kind(&self) -> u8 {
        match *self {
            Card::Translate { .. } => 0,
            Card::Store { .. } => 1,
            Card::LoadRoot { .. } => 2,
            Card::DropPage { .. } => 3,
            Card::DropAll => 4,
            Card::LoadSettings { .. } => 5,
            Card::Unknown { kind } => kind,
        }
    }
}

/// The little-endian number of 8 bytes from there on.
fn number(bytes: &[u8; CARD], at: usize) -> u64 {
    let part = bytes[at..at + 8].iter().rev();
    part.fold(0, |number, byte| number << 8 | u64::from(*byte))
}

/// The answer to one card; machine and memory become what it leaves.
pub fn step(machine: &mut Machine, memory: &mut [u8], bytes: &[u8]) -> Answer {
    let Some(card) = Card::read(bytes) else {
        return Answer::bare(Answer::SHORT_CARD);
    };
    match card {
        Card::Translate {
            address,
            access,
            mode,
        } => machine.translate(address, access.into(), mode.into(), memory),
        Card::Store { address, value } if store(memory, address, value) => {
            Answer::bare(Answer::DONE)
        }
        Card::Store { address, .. } => Answer {
            value: address,
            ..Answer::bare(Answer::OUTSIDE)
        },
        Card::LoadRoot { value } => machine.load_root(value),
        Card::DropPage { address } => machine.drop_page(address),
        Card::DropAll => machine.drop_all(),
        Card::LoadSettings {
            cr0,
            cr4,
            efer,
            width,
        } => machine.load_settings(cr0.into(), cr4.into(), efer, width.into()),
        Card::Unknown { .. } => Answer::bare(Answer::UNKNOWN),
    }
}

#[cfg(test)]
mod tests {
    use super::{Card, CARD};

    /// Each card is read back from the bytes it writes, whatever the others hold.
    #[test]
    fn cards_are_read_back() {
        let cards = [
            Card::Translate {
                address: 0x1122_3344_5566_7788,
                access: 2,
                mode: 1,
            },
            Card::Store {
                address: 5,
                value: u64::MAX,
            },
            Card::LoadRoot { value: 0x1000 },
            Card::DropPage { address: 7 },
            Card::DropAll,
            Card::LoadSettings {
                cr0: 0x8001_0001,
                cr4: 0x20,
                efer: 0x900,
                width: 40,
            },
            Card::Unknown { kind: 200 },
        ];
        for card in cards {
            for rest in [0, 0xA5] {
                let mut bytes = [rest; CARD];
                card.write(&mut bytes);
                assert_eq!(Card::read(&bytes), Some(card));
                assert_eq!(Card::read(&bytes[..CARD - 1]), None);
            }
        }
    }
}
