//! Random walks: sound ones first, damaged in most of the draws.

use crate::case::{Background, Case, PAIRS};
use crate::damage;
use crate::random::Random;
use crate::settings::Settings;
use crate::translate::{Rights, FETCH};
use crate::walk::{entry_address, is_page, shift, ACCESSED, DIRTY, EXECUTE_DISABLE};
use crate::walk::{ATTRIBUTE, CACHE_DISABLE, LARGE_ATTRIBUTE, WRITE_THROUGH};
use crate::walk::{FRAME, GLOBAL, LARGE, PRESENT, USER, WRITABLE};

/// What a drawn case may have: its longest memory, and whether memory may hold rubbish.
#[derive(Clone, Copy)]
pub struct Reach {
    pub longest: u64,
    pub rubbish: bool,
}

/// The reach of stored records.
pub const STORED: Reach = Reach {
    longest: 32768,
    rubbish: false,
};
/// The reach of cases that are compared at once.
pub const FRESH: Reach = Reach {
    longest: 40000,
    rubbish: true,
};

/// A random case, biased so that every answer is frequent.
pub fn draw(random: &mut Random, reach: Reach) -> Case {
    let mut case = sound(random, reach);
    let damages = random.pick(&[0, 0, 0, 0, 0, 1, 1, 1, 1, 2, 3]);
    for _ in 0..damages {
        damage::damage(random, &mut case);
    }
    if random.chance(30) {
        scatter(random, &mut case);
    }
    if reach.rubbish && random.chance(12) {
        let seed = random.word();
        case.background = random.pick(&[Background::Bytes(seed), Background::Entries(seed)]);
        if random.chance(60) {
            case.stores.clear();
        }
    }
    case
}

/// A case whose walk succeeds where the memory is long enough.
fn sound(random: &mut Random, reach: Reach) -> Case {
    let mut case = Case {
        settings: served(random),
        address: 0,
        access: random.below(3),
        mode: random.below(2),
        length: length(random, reach.longest),
        background: Background::Zeros,
        stores: Vec::new(),
    };
    case.settings.cr3 = table(random, case.length) | random.pick(&[0, 0, 0x18, 0xFFF]);
    let size = random.pick(&[1, 1, 2, 3]);
    path(random, &mut case, size);
    case
}

/// Served settings with paging on, every bit that is not tested at random.
pub fn served(random: &mut Random) -> Settings {
    let (zero, one) = (random.pick(&[0, u64::MAX]), random.word());
    let noise = |random: &mut Random| random.pick(&[zero, one, 0, 0]);
    let width = match random.below(4) {
        0 => 52,
        1 => 32,
        _ => random.between(32, 52),
    };
    Settings {
        cr0: (noise(random) & !Settings::WP)
            | random.flag(Settings::WP, 60)
            | (Settings::PE | Settings::PG),
        cr3: 0,
        cr4: (noise(random) & !(Settings::LEFT_OUT | Settings::PGE | Settings::PCIDE))
            | random.flag(Settings::PGE, 50)
            | random.flag(Settings::PCIDE, 35)
            | Settings::PAE,
        efer: (noise(random) & !Settings::NXE) | random.flag(Settings::NXE, 65) | Settings::LME,
        width,
    }
}

/// A memory length, mostly long enough for some tables and often odd.
fn length(random: &mut Random, longest: u64) -> usize {
    let length = match random.below(20) {
        0 => random.pick(&[0, 7, 8, 64]),
        1..=2 => random.below(longest + 1),
        3..=6 => random.between(8192, longest),
        7..=9 => 4096 * random.between(1, longest / 4096),
        10 => longest - random.below(16),
        _ => 32768,
    };
    length as usize
}

/// The base of a page in memory, the last one often cut short.
fn table(random: &mut Random, length: usize) -> u64 {
    4096 * random.below((length as u64).div_ceil(4096))
}

/// Lays out entries of a path down to a page of the size and sets the address.
fn path(random: &mut Random, case: &mut Case, size: u64) {
    let (mut base, mut level, mut index) = (case.settings.root(), 4, 0);
    loop {
        index = next_index(random, case, base, index);
        case.address |= index << shift(level);
        let at = entry_address(base, level, case.address);
        let known = case.stores.iter().find(|pair| pair.0 == at);
        let entry = match known {
            Some(pair) => pair.1,
            None => {
                let entry = sound_entry(random, case, level, level <= size, base);
                case.stores.push((at, entry));
                entry
            }
        };
        if is_page(entry, level) {
            break;
        }
        base = entry & FRAME;
        level -= 1;
    }
    case.address |= random.word() & ((1 << shift(level)) - 1);
    if case.address >> 47 != 0 {
        case.address |= 0xFFFF << 48;
    }
}

/// An index whose entry is inside memory where there is one, often the last one again.
fn next_index(random: &mut Random, case: &Case, base: u64, last: u64) -> u64 {
    let room = (case.length as u64).saturating_sub(base) / 8;
    let bound = room.clamp(1, 512);
    match random.below(10) {
        0..=2 if last < bound => last,
        3..=5 => random.below(bound.min(4)),
        6 => bound - 1,
        _ => random.below(bound),
    }
}

/// A present entry that grants what is needed: a page, or a table in memory.
fn sound_entry(random: &mut Random, case: &Case, level: u64, page: bool, base: u64) -> u64 {
    let flags = sound_flags(random, case);
    if !page {
        let next = table(random, case.length);
        return flags | random.pick(&[base, next, next, next]);
    }
    let target = random.word() & ((1 << case.settings.width) - 1);
    let near = table(random, case.length);
    let frame = random.pick(&[target, near]) & FRAME;
    if level == 1 {
        return flags | frame | random.flag(ATTRIBUTE, 40);
    }
    let attribute = random.flag(LARGE_ATTRIBUTE, 40);
    flags | LARGE | attribute | (target & FRAME & !((1 << shift(level)) - 1))
}

/// Flags that grant what is needed, others at random.
fn sound_flags(random: &mut Random, case: &Case) -> u64 {
    let settings = &case.settings;
    let needed = Rights::needed(settings, case.access, case.mode);
    let mut flags = PRESENT | random.flag(ACCESSED, 40) | random.flag(DIRTY, 40);
    flags |= random.flag(GLOBAL, 30) | random.flag(0xE00, 20);
    flags |= random.flag(WRITE_THROUGH, 40) | random.flag(CACHE_DISABLE, 40);
    let ignored = random.word() & 0x7FF << 52;
    flags |= random.flag(ignored, 30);
    flags |= random.flag(WRITABLE, if needed.write { 100 } else { 60 });
    flags |= random.flag(USER, if needed.user { 100 } else { 60 });
    let executable = case.access == FETCH || !settings.no_execute();
    flags | random.flag(EXECUTE_DISABLE, if executable { 0 } else { 30 })
}

/// Adds stores anywhere: before the path's in most draws, over it in the others.
fn scatter(random: &mut Random, case: &mut Case) {
    let room = PAIRS - case.stores.len().min(PAIRS);
    for _ in 0..random.below(room as u64 + 1) {
        let address = match random.below(8) {
            0 => random.word(),
            1 => (case.length as u64).wrapping_sub(random.below(16)),
            _ => random.below(case.length as u64),
        };
        let pair = (address, random.word());
        if random.chance(92) {
            case.stores.insert(0, pair);
        } else {
            case.stores.push(pair);
        }
    }
}
