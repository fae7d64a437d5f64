//! The settings record, which settings are served, and which of them is wrong.

use crate::answer::Answer;

/// CR0, CR3, CR4, EFER and the physical width M.
#[derive(Clone, Copy, Debug, PartialEq, Eq)]
pub struct Settings {
    pub cr0: u64,
    pub cr3: u64,
    pub cr4: u64,
    pub efer: u64,
    pub width: u64,
}

impl Settings {
    pub const PE: u64 = 1 << 0;
    pub const WP: u64 = 1 << 16;
    pub const PG: u64 = 1 << 31;
    pub const PAE: u64 = 1 << 5;
    pub const PGE: u64 = 1 << 7;
    pub const PCIDE: u64 = 1 << 17;
    pub const LME: u64 = 1 << 8;
    pub const NXE: u64 = 1 << 11;
    /// The numbers of CR4's extension bits that are not served.
    pub const EXTENSIONS: [u64; 6] = [12, 20, 21, 22, 23, 24];
    /// The same bits of CR4, which must be clear when paging is on.
    pub const LEFT_OUT: u64 = 1 << 12 | 0x1F << 20;

    /// All registers 0 and M = 40.
    pub fn initial() -> Settings {
        Settings {
            cr0: 0,
            cr3: 0,
            cr4: 0,
            efer: 0,
            width: 40,
        }
    }

    /// Whether these settings are served.
    pub fn served(&self) -> bool {
        self.refusal().is_none()
    }

    /// The number that says which setting is wrong, the first in the order of the tests.
    pub fn refusal(&self) -> Option<u64> {
        if !(32..=52).contains(&self.width) {
            return Some(Answer::WIDTH);
        }
        if self.cr3 >> self.width != 0 {
            return Some(Answer::ROOT);
        }
        if self.paging() && !self.long_mode() {
            return Some(Answer::PAGING);
        }
        if self.paging() && self.cr4 & Settings::LEFT_OUT != 0 {
            return Some(Answer::EXTENSION);
        }
        (self.space_numbers() && !self.paging()).then_some(Answer::SPACES)
    }

    /// The number that refuses a start or a settings load, where the space numbers were on before it or not.
    pub fn load_refusal(&self, numbered: bool) -> Option<u64> {
        let turned_on = self.space_numbers() && !numbered;
        let refused = turned_on && self.cr3 & 0xFFF != 0;
        self.refusal().or(refused.then_some(Answer::SPACES))
    }

    /// Whether PE, PAE and LME are set.
    pub fn long_mode(&self) -> bool {
        self.cr0 & Settings::PE != 0
            && self.cr4 & Settings::PAE != 0
            && self.efer & Settings::LME != 0
    }

    /// Whether paging is on.
    pub fn paging(&self) -> bool {
        self.cr0 & Settings::PG != 0
    }

    /// Whether a supervisor's write needs R/W.
    pub fn write_protect(&self) -> bool {
        self.cr0 & Settings::WP != 0
    }

    /// Whether G places are kept at a root load.
    pub fn global_pages(&self) -> bool {
        self.cr4 & Settings::PGE != 0
    }

    /// Whether the low bits of CR3 are a space number.
    pub fn space_numbers(&self) -> bool {
        self.cr4 & Settings::PCIDE != 0
    }

    /// The present space number.
    pub fn number(&self) -> u64 {
        if self.space_numbers() {
            self.cr3 & 0xFFF
        } else {
            0
        }
    }

    /// Whether XD forbids fetches (else it is reserved).
    pub fn no_execute(&self) -> bool {
        self.efer & Settings::NXE != 0
    }

    /// The settings that a root load of the value leaves; with space numbers bit 63 is no part of CR3.
    pub fn with_root(&self, value: u64) -> Settings {
        let high = if self.space_numbers() { 1 << 63 } else { 0 };
        Settings {
            cr3: value & !high,
            ..*self
        }
    }

    /// The root: the base of the level 4 table.
    pub fn root(&self) -> u64 {
        self.cr3 & !0xFFF
    }
}

#[cfg(test)]
mod tests {
    use super::Settings;

    /// The settings of document 01's exercises.
    fn exercise() -> Settings {
        Settings {
            cr0: 0x8001_0001,
            cr3: 0x1000,
            cr4: 0x20,
            efer: 0x900,
            width: 40,
        }
    }

    /// The number of the exercise's settings after a change, 0 where they are served.
    fn number(change: impl FnOnce(&mut Settings)) -> u64 {
        let mut settings = exercise();
        change(&mut settings);
        settings.refusal().unwrap_or(0)
    }

    /// With paging on each tested bit decides, and tells its number.
    #[test]
    fn paging_on_tests_every_named_bit() {
        assert!(exercise().served());
        for bit in (0..64).filter(|bit| *bit != 31) {
            let cr0 = number(|settings| settings.cr0 ^= 1 << bit);
            assert_eq!(cr0, if bit == 0 { 9 } else { 0 }, "CR0 bit {bit}");
            let cr4 = number(|settings| settings.cr4 ^= 1 << bit);
            let told = match bit {
                5 => 9,
                12 | 20..=24 => 10,
                _ => 0,
            };
            assert_eq!(cr4, told, "CR4 bit {bit}");
            let efer = number(|settings| settings.efer ^= 1 << bit);
            assert_eq!(efer, if bit == 8 { 9 } else { 0 }, "EFER bit {bit}");
        }
    }

    /// M and CR3 are tested at either PG.
    #[test]
    fn width_and_root_are_tested_at_either_paging() {
        for cr0 in [0, 0x8001_0001] {
            for width in [0, 31, 32, 40, 52, 53, 64, 1 << 32 | 40, u64::MAX] {
                let told = number(|settings| (settings.cr0, settings.width) = (cr0, width));
                let served = (32..=52).contains(&width);
                assert_eq!(told, if served { 0 } else { 2 }, "M = {width}");
            }
            for (cr3, known) in [((1 << 40) - 1, 0), (1 << 40, 8), (u64::MAX, 8)] {
                let told = number(|settings| (settings.cr0, settings.cr3) = (cr0, cr3));
                assert_eq!(told, known, "CR3 = {cr3:#x}");
            }
        }
    }

    /// With paging off no other bit is tested.
    #[test]
    fn paging_off_tests_width_and_root_alone() {
        for (cr4, efer) in [(!Settings::PCIDE, 0), (0, u64::MAX), (0, 0)] {
            let told = number(|settings| {
                (settings.cr0, settings.cr4, settings.efer) = (0, cr4, efer);
            });
            assert_eq!(told, 0);
        }
    }

    /// Where two neighbours are wrong, the first in the order 2, 8, 9, 10 is told.
    #[test]
    fn the_order_of_the_tests() {
        let large = |settings: &mut Settings| settings.cr3 = 1 << 63;
        let missing = |settings: &mut Settings| settings.efer = 0;
        let extended = |settings: &mut Settings| settings.cr4 |= 1 << 24;
        for width in [31, 53, 64, 255] {
            let told = number(|settings| {
                large(settings);
                settings.width = width;
            });
            assert_eq!(told, 2);
        }
        let told = number(|settings| {
            large(settings);
            missing(settings);
        });
        assert_eq!(told, 8);
        let told = number(|settings| {
            missing(settings);
            extended(settings);
        });
        assert_eq!(told, 9);
    }

    /// The space numbers want paging, and CR3 bits 11:0 clear where they are turned on.
    #[test]
    fn space_numbers_are_turned_on_with_care() {
        let on = |cr3| Settings {
            cr3,
            cr4: 0x2_0020,
            ..exercise()
        };
        assert_eq!((on(0x1000).number(), on(0x1FFF).number()), (0, 0xFFF));
        assert_eq!(exercise().number(), 0);
        for (cr3, numbered, told) in [
            (0x1000, false, None),
            (0x1001, false, Some(11)),
            (0x1800, false, Some(11)),
            (0x1001, true, None),
        ] {
            assert_eq!(on(cr3).refusal(), None);
            assert_eq!(on(cr3).load_refusal(numbered), told);
        }
        let off = Settings {
            cr0: 0,
            ..on(0x1000)
        };
        assert_eq!(off.refusal(), Some(11));
        assert_eq!(off.load_refusal(true), Some(11));
        let extended = Settings {
            cr4: 0x12_0020,
            ..on(0x1001)
        };
        assert_eq!(extended.load_refusal(false), Some(10));
    }
}
