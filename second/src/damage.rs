//! Damage to a case: each kind leads to a refusal of its own, or to a border of one.

use crate::case::Case;
use crate::draw_settings::unserved;
use crate::random::Random;
use crate::settings::Settings;
use crate::translate::WRITE;
use crate::walk::{FRAME, LARGE, PRESENT, USER, WRITABLE};

/// Numbers beyond the known accesses and modes.
const UNKNOWN: [u64; 8] = [3, 4, 255, 256, 1 << 32, 1 << 32 | 1, 1 << 63, u64::MAX];
/// Damages the case in one way.
pub fn damage(random: &mut Random, case: &mut Case) {
    match random.below(34) {
        0..=3 => missing(random, case),
        4..=6 => high_bits(random, case),
        7 => on_entry(case, 0, |entry| entry | LARGE),
        8..=9 => low_bits(random, case),
        10..=11 => execute_disable(random, case),
        12..=16 => rights(random, case),
        17..=19 => point_outside(random, case),
        20 => cut_memory(random, case),
        21 => case.access = unknown(random),
        22 => case.mode = unknown(random).max(2),
        23..=24 => unserved(random, &mut case.settings),
        25 => case.address ^= 1 << random.between(47, 63),
        26..=27 => paging_off(random, case),
        28 => case.settings.width = random.between(30, 54),
        29 => flip_entry(random, case),
        30 => flip_settings(random, &mut case.settings),
        31..=32 => below_lacking(random, case),
        _ => large_early(random, case),
    }
}

/// A number that is no access, and for a mode at least 2.
fn unknown(random: &mut Random) -> u64 {
    let word = random.word();
    let near = random.pick(&UNKNOWN);
    random.pick(&[near, near, near, word.max(3)])
}

/// Changes the entry of that number on the path, if it is there.
fn on_entry(case: &mut Case, number: usize, change: impl FnOnce(u64) -> u64) {
    if let Some(pair) = case.stores.get_mut(number) {
        pair.1 = change(pair.1);
    }
}

/// The number of an entry on the path.
fn any_entry(random: &mut Random, case: &Case) -> usize {
    random.below(case.stores.len() as u64) as usize
}

/// Clears P of an entry, its other bits kept or at random.
fn missing(random: &mut Random, case: &mut Case) {
    let number = any_entry(random, case);
    let noise = random.word();
    let noise = random.pick(&[0, noise]);
    on_entry(case, number, |entry| (entry ^ noise) & !PRESENT);
}

/// Sets one bit between M and 51 of an entry, after narrowing a full width.
fn high_bits(random: &mut Random, case: &mut Case) {
    if case.settings.width == 52 {
        case.settings.width = random.between(40, 51);
    }
    let number = any_entry(random, case);
    let lowest = case.settings.width.min(51);
    let bit = random.between(lowest, 51);
    let bit = random.pick(&[bit, lowest, 51]);
    on_entry(case, number, |entry| entry | 1 << bit);
}

/// Sets one bit above bit 12 in the last entry, where a large page forbids it.
fn low_bits(random: &mut Random, case: &mut Case) {
    let number = case.stores.len().wrapping_sub(1);
    let highest = if case.stores.len() == 2 { 29 } else { 20 };
    let bit = random.between(13, highest);
    on_entry(case, number, |entry| entry | 1 << bit);
}

/// Sets XD in an entry, mostly with NXE clear.
fn execute_disable(random: &mut Random, case: &mut Case) {
    if random.chance(80) {
        case.settings.efer &= !Settings::NXE;
    }
    let number = any_entry(random, case);
    on_entry(case, number, |entry| entry | 1 << 63);
}

/// Takes rights away from one or more entries.
fn rights(random: &mut Random, case: &mut Case) {
    if case.access == WRITE && random.chance(50) {
        case.settings.cr0 |= Settings::WP;
    }
    if random.chance(60) {
        case.settings.efer |= Settings::NXE;
    }
    for _ in 0..random.between(1, 3) {
        let number = any_entry(random, case);
        let lost = random.pick(&[WRITABLE, USER, WRITABLE | USER]);
        let forbidden = random.flag(1 << 63, 50);
        on_entry(case, number, |entry| entry & !lost | forbidden);
    }
}

/// Takes rights away from an entry and breaks the walk below it.
fn below_lacking(random: &mut Random, case: &mut Case) {
    on_entry(case, 0, |entry| entry & !(WRITABLE | USER));
    let number = random.between(1, 3) as usize;
    let reserved = random.chance(30);
    let width = case.settings.width.min(51);
    let change = |entry: u64| {
        if reserved {
            entry | 1 << width
        } else {
            entry & !PRESENT
        }
    };
    on_entry(case, number, change);
}

/// Points the root or an entry at a table outside memory, near or far.
fn point_outside(random: &mut Random, case: &mut Case) {
    let edge = (case.length as u64).next_multiple_of(4096);
    let far = random.word() & ((1 << case.settings.width.min(52)) - 1) & FRAME;
    let base = random.pick(&[edge, edge + 4096, far]);
    let number = random.below(case.stores.len() as u64);
    if number == 0 {
        case.settings.cr3 = base | (case.settings.cr3 & 0xFFF);
    } else {
        on_entry(case, number as usize - 1, |entry| entry & !FRAME | base);
    }
}

/// Cuts memory beside an entry of the path, in most draws within the entry.
fn cut_memory(random: &mut Random, case: &mut Case) {
    let number = any_entry(random, case);
    if let Some(pair) = case.stores.get(number) {
        let end = pair.0.saturating_add(random.below(10));
        case.length = case.length.min(end as usize);
    }
}

/// Turns paging off, with other bits and the address often anything.
fn paging_off(random: &mut Random, case: &mut Case) {
    if random.chance(50) {
        case.settings.cr0 = random.word();
        case.settings.cr4 = random.word();
        case.settings.efer = random.word();
    }
    case.settings.cr0 &= !Settings::PG;
    case.settings.cr4 &= !random.flag(Settings::PCIDE, 80);
    let word = random.word();
    case.address = match random.below(8) {
        0 => (1 << 32) - 1,
        1 => 1 << 32,
        2 => 1 << 32 | word & 0xFFFF,
        3 => word,
        4 => case.address,
        _ => word & 0xFFFF_FFFF,
    };
}

/// Flips one bit of an entry.
fn flip_entry(random: &mut Random, case: &mut Case) {
    let number = any_entry(random, case);
    let bit = random.below(64);
    on_entry(case, number, |entry| entry ^ 1 << bit);
}

/// Flips one bit of a register.
fn flip_settings(random: &mut Random, settings: &mut Settings) {
    let bit = 1 << random.below(64);
    match random.below(4) {
        0 => settings.cr0 ^= bit,
        1 => settings.cr3 ^= bit,
        2 => settings.cr4 ^= bit,
        _ => settings.efer ^= bit,
    }
}

/// Sets PS in an entry that points at a table, its low bits kept or cleared.
fn large_early(random: &mut Random, case: &mut Case) {
    let number = random.between(1, 2) as usize;
    let cleared = random.pick(&[0, (1 << 30) - (1 << 12)]);
    on_entry(case, number, |entry| entry & !cleared | LARGE);
}
