//! Single random cards, on few tables and pages.

use crate::card::Card;
use crate::draw_settings::unserved;
use crate::random::Random;
use crate::settings::Settings;
use crate::walk::{ATTRIBUTE, CACHE_DISABLE, LARGE, LARGE_ATTRIBUTE, WRITE_THROUGH};

/// The entries that a deck may store, with the values that suit its tables.
///
/// Both roots have an entry that points at the root itself, one entry of level 3 points outside,
/// two of level 2 lead to one table, the pages of level 1 share a set, and two large pages of each
/// size are neighbours.
pub const ENTRIES: [(u64, u64); 24] = [
    (0x1000, 0x2007),
    (0x1018, 0x1007),
    (0x1FF8, 0x1003),
    (0x6000, 0x2007),
    (0x6018, 0x6007),
    (0x2000, 0x3007),
    (0x2008, 0x4000_0087),
    (0x2010, 0x9007),
    (0x2018, 0x2007),
    (0x2020, 0x8000_0087),
    (0x2028, 0xC000_0087),
    (0x3010, 0x4007),
    (0x3018, 0x80_0087),
    (0x3020, 0x4007),
    (0x3028, 0x7007),
    (0x3030, 0xA0_0087),
    (0x3038, 0xC0_0087),
    (0x4018, 0x5007),
    (0x4020, 0x6003),
    (0x4098, 0x8000_0000_0000_7007),
    (0x4118, 0x40_0000_8007),
    (0x4198, 0x3005),
    (0x4218, 0x5007),
    (0x7018, 0x2007),
];

/// The pages that a deck asks for; the first ones belong to set 3 and have good entries.
pub const PAGES: [u64; 19] = [
    0x40_3000,
    0x41_3000,
    0x42_3000,
    0x43_3000,
    0x60_3000,
    0x44_3000,
    0x80_3000,
    0x81_3000,
    0x61_3000,
    0x4000_3000,
    0x4123_3000,
    0xA0_3000,
    0x60_4000,
    0x40_4000,
    0x4000_4000,
    0x0000_0180_C060_3000,
    0xFFFF_FFFF_FFFF_F000,
    0xFFFF_FF80_0060_3000,
    0x8000_3000,
];
/// So many of the pages are the first ones.
pub const SET_PAGES: u64 = 12;

/// Pages with the address of an entry on their path and its usual value.
pub const PATH_ENTRIES: [(u64, u64, u64); 15] = [
    (0x40_3000, 0x4018, 0x5007),
    (0x41_3000, 0x4098, 0x8000_0000_0000_7007),
    (0x43_3000, 0x4198, 0x3005),
    (0x44_3000, 0x4218, 0x5107),
    (0x80_3000, 0x4018, 0x5107),
    (0x60_3000, 0x3018, 0x80_0087),
    (0x60_4000, 0x3018, 0x80_0087),
    (0x4000_3000, 0x2008, 0x4000_0187),
    (0x4000_4000, 0x2008, 0x4000_0087),
    (0x40_3000, 0x3010, 0x4007),
    (0x41_3000, 0x3010, 0x4007),
    (0x60_3000, 0x2000, 0x3007),
    (0x42_3000, 0x3010, 0x4007),
    (0x44_3000, 0x2000, 0x3007),
    (0x60_4000, 0x2000, 0x3007),
];

/// Large pages: address, bytes, and the address and usual value of the entry.
pub const LARGE_PAGES: [(u64, u64, u64, u64); 6] = [
    (0x60_0000, 1 << 21, 0x3018, 0x80_0087),
    (0xC0_0000, 1 << 21, 0x3030, 0xA0_0087),
    (0xE0_0000, 1 << 21, 0x3038, 0xC0_0087),
    (0x4000_0000, 1 << 30, 0x2008, 0x4000_0087),
    (0x1_0000_0000, 1 << 30, 0x2020, 0x8000_0087),
    (0x1_4000_0000, 1 << 30, 0x2028, 0xC000_0087),
];

/// Bits of an entry that are worth turning over.
const BITS: [u64; 12] = [
    1 << 0,
    1 << 1,
    1 << 2,
    1 << 3,
    1 << 4,
    1 << 6,
    1 << 7,
    1 << 8,
    1 << 12,
    1 << 13,
    1 << 38,
    1 << 63,
];

/// A translation of one of the pages, now and then of another address or unknown.
pub fn translation(random: &mut Random, pages: &[u64]) -> Card {
    let page = match random.below(40) {
        0 => 1 << random.between(47, 63),
        1 => random.word(),
        2..=5 => random.pick(&PAGES),
        _ => random.pick(pages),
    };
    let access = random.pick(&[0, 0, 0, 0, 1, 1, 1, 2, 2]);
    let mode = random.pick(&[0, 1, 1]);
    Card::Translate {
        address: page | random.below(4096),
        access: if random.chance(1) { 3 } else { access },
        mode: if random.chance(1) { 2 } else { mode },
    }
}

/// A store into an entry that suits it more or less.
pub fn table_store(random: &mut Random, address: u64, usual: u64) -> Card {
    let (address, value) = table_entry(random, address, usual);
    Card::Store { address, value }
}

/// The value of the entry at that address with any memory type, where it maps a page.
pub fn typed(random: &mut Random, address: u64, value: u64) -> u64 {
    let attribute = match (value & LARGE != 0, address >> 12) {
        (true, _) => LARGE_ATTRIBUTE,
        (false, 4 | 7) => ATTRIBUTE,
        _ => 0,
    };
    let through = random.flag(WRITE_THROUGH, 30) | random.flag(CACHE_DISABLE, 30);
    value | through | random.flag(attribute, 30)
}

/// An entry's address, now and then shifted, and its usual value, with another frame or with bits turned over.
pub fn table_entry(random: &mut Random, address: u64, usual: u64) -> (u64, u64) {
    let bit = random.pick(&BITS);
    let frame = random.between(1, 10) << 12;
    let value = match random.below(8) {
        0..=1 => usual,
        2..=4 => usual ^ bit,
        5..=6 => usual & 0xFFF | frame,
        _ => usual & 0xFFF | frame | bit,
    };
    let shift = if random.chance(6) { random.below(8) } else { 0 };
    (address + shift, value)
}

/// A store at the end of memory or beyond it.
pub fn outside_store(random: &mut Random) -> Card {
    let far = random.word();
    let near = 32768 - random.below(16);
    Card::Store {
        address: random.pick(&[near, near, far, u64::MAX - 7, u64::MAX, 32760, 32761]),
        value: random.word(),
    }
}

/// A drop of one of the pages, now and then of a non-canonical address.
pub fn drop_page(random: &mut Random, pages: &[u64]) -> Card {
    let page = random.pick(pages) | random.below(4096);
    let odd = page ^ 1 << random.between(47, 63);
    Card::DropPage {
        address: random.pick(&[page, page, page, page, odd]),
    }
}

/// How often settings have PGE and the space numbers, in a hundred draws.
#[derive(Clone, Copy)]
pub struct Likely {
    pub global: u64,
    pub numbered: u64,
}

/// A load of one of the two roots, often with a space number, now and then of one too large or at the
/// border of a width.
pub fn load_root(random: &mut Random, likely: Likely) -> Card {
    let refused = 1 << random.between(32, 63);
    let border = 1 << random.pick(&[32, 36, 39, 40, 52]);
    let value = match random.below(20) {
        0 => refused,
        1 => random.pick(&[border, border - 1]),
        2 => u64::MAX,
        3..=4 => 0x1FFF,
        5..=12 => 0x6000,
        _ => 0x1000,
    };
    let number = random.pick(&[1, 2, 2, 3, 0xFFF]);
    let spared = random.flag(1 << 63, likely.numbered / 2);
    Card::LoadRoot {
        value: value | random.flag(number, likely.numbered) | spared,
    }
}

/// Served settings with paging on, where CR3 allows for them.
pub fn settings(random: &mut Random, likely: Likely) -> Card {
    loaded(&paging_on(random, likely))
}

/// Settings that break one of the rules or two of them.
pub fn refused_settings(random: &mut Random, likely: Likely) -> Card {
    let mut settings = paging_on(random, likely);
    unserved(random, &mut settings);
    loaded(&settings)
}

/// Settings with paging off and other bits anything.
pub fn paging_off(random: &mut Random) -> Card {
    let word = random.word();
    let spaces = random.flag(Settings::PCIDE, 90) as u32;
    Card::LoadSettings {
        cr0: word as u32 & !(Settings::PG as u32),
        cr4: (word >> 32) as u32 & !spaces,
        efer: random.word(),
        width: random.pick(&[40, 32, 52]),
    }
}

/// Settings with paging on that suit a deck.
fn paging_on(random: &mut Random, likely: Likely) -> Settings {
    Settings {
        cr0: Settings::PE | Settings::PG | random.flag(Settings::WP, 60),
        cr3: 0x1000,
        cr4: Settings::PAE
            | random.flag(Settings::PGE, likely.global)
            | random.flag(Settings::PCIDE, likely.numbered),
        efer: Settings::LME | random.flag(Settings::NXE, 75),
        width: random.pick(&[40, 40, 40, 40, 36, 39, 52, 32]),
    }
}

/// The card that loads these settings, a width that is too large for its byte as 255.
fn loaded(settings: &Settings) -> Card {
    Card::LoadSettings {
        cr0: settings.cr0 as u32,
        cr4: settings.cr4 as u32,
        efer: settings.efer,
        width: settings.width.min(255) as u8,
    }
}
