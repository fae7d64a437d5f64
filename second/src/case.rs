//! One walk to compare: settings, question and memory.

use crate::answer::Answer;
use crate::random::Random;
use crate::settings::Settings;
use crate::translate::translate;

/// The bytes of one stored record.
pub const RECORD: usize = 328;
/// The most stores of one stored record.
pub const PAIRS: usize = 16;
/// The address of a pair that is not used.
const UNUSED: u64 = u64::MAX;

/// What memory holds before the stores; the number is a seed.
#[derive(Clone, Copy, Debug, PartialEq, Eq)]
pub enum Background {
    Zeros,
    Bytes(u64),
    Entries(u64),
}

/// Settings, question and what makes up the memory.
#[derive(Clone, Debug)]
pub struct Case {
    pub settings: Settings,
    pub address: u64,
    pub access: u64,
    pub mode: u64,
    pub length: usize,
    pub background: Background,
    pub stores: Vec<(u64, u64)>,
}

impl Case {
    /// Makes the bytes into the memory of this case.
    pub fn lay_out(&self, memory: &mut Vec<u8>) {
        memory.clear();
        memory.resize(self.length, 0);
        match self.background {
            Background::Zeros => {}
            Background::Bytes(seed) => {
                let mut random = Random::new(seed);
                fill(memory, || random.word());
            }
            Background::Entries(seed) => {
                let mut random = Random::new(seed);
                let pages = (self.length / 4096).max(1) as u64;
                fill(memory, || likely_entry(&mut random, pages));
            }
        }
        for (address, value) in &self.stores {
            store(memory, *address, *value);
        }
    }

    /// The memory of this case.
    pub fn memory(&self) -> Vec<u8> {
        let mut memory = Vec::new();
        self.lay_out(&mut memory);
        memory
    }

    /// The uncached translation of this case's question in that memory.
    pub fn translate(&self, memory: &mut [u8]) -> Answer {
        translate(&self.settings, self.address, self.access, self.mode, memory)
    }

    /// The stored form, for a case on zeros with at most 16 stores.
    pub fn record(&self) -> Vec<u8> {
        assert!(self.stores.len() <= PAIRS && self.background == Background::Zeros);
        let settings = &self.settings;
        let mut numbers = vec![settings.cr0, settings.cr3, settings.cr4, settings.efer];
        numbers.extend([settings.width, self.address, self.access, self.mode]);
        numbers.push(self.length as u64);
        numbers.extend(self.stores.iter().flat_map(|pair| [pair.0, pair.1]));
        for _ in self.stores.len()..PAIRS {
            numbers.extend([UNUSED, 0]);
        }
        numbers.iter().flat_map(|n| n.to_le_bytes()).collect()
    }

    /// The expected line of that number, with every byte that the walk changed.
    pub fn line(&self, number: u64) -> String {
        let before = self.memory();
        let mut memory = before.clone();
        let mut line = self.translate(&mut memory).line(number);
        for (offset, byte) in memory.iter().enumerate() {
            if *byte != before[offset] {
                line.push_str(&format!(" {offset}:{byte:02x}"));
            }
        }
        line
    }
}

/// Stores the value's 8 bytes if all of them are inside; says whether they are.
pub fn store(memory: &mut [u8], address: u64, value: u64) -> bool {
    let inside = address
        .checked_add(8)
        .is_some_and(|end| end <= memory.len() as u64);
    if inside {
        let start = address as usize;
        memory[start..start + 8].copy_from_slice(&value.to_le_bytes());
    }
    inside
}

/// Fills the bytes with words, the last one cut off.
fn fill(memory: &mut [u8], mut word: impl FnMut() -> u64) {
    for part in memory.chunks_mut(8) {
        part.copy_from_slice(&word().to_le_bytes()[..part.len()]);
    }
}

/// A word that is often a good entry for a table within so many pages.
fn likely_entry(random: &mut Random, pages: u64) -> u64 {
    let word = random.word();
    let frame = ((word >> 8) % (pages + 1)) << 12;
    let flags = word & 0x7F;
    match word >> 56 {
        0..=7 => frame | flags & !1,
        8..=15 => frame | flags | 1 << 63,
        16..=47 => frame | flags | 0x87,
        48..=49 => frame | flags | (word & 1 << 50),
        _ => frame | flags | 7,
    }
}

#[cfg(test)]
mod tests {
    use super::{store, Background, Case, RECORD};
    use crate::settings::Settings;

    /// A store is made exactly when its 8 bytes are inside.
    #[test]
    fn stores_at_the_end() {
        let mut memory = vec![0; 20];
        assert!(store(&mut memory, 12, u64::MAX));
        assert_eq!(memory[11..13], [0, 255]);
        assert!(!store(&mut memory, 13, 0));
        assert!(!store(&mut memory, u64::MAX - 7, 0));
        assert_eq!(memory[12..], [255; 8]);
    }

    /// A record has 41 numbers, and an unused pair's address is all ones.
    #[test]
    fn a_record_has_its_length() {
        let case = Case {
            settings: Settings::initial(),
            address: 0x1234,
            access: 0,
            mode: 1,
            length: 100,
            background: Background::Zeros,
            stores: vec![(8, 1)],
        };
        let record = case.record();
        assert_eq!(record.len(), RECORD);
        assert_eq!(record[32], 40);
        assert_eq!(record[72..80], [8, 0, 0, 0, 0, 0, 0, 0]);
        assert_eq!(record[88..96], [255; 8]);
        assert_eq!(case.line(3), "3 0 0000000000001234 0 0 0");
    }
}
