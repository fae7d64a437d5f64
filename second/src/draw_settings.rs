//! Settings that break a rule, or two neighbours in the order of their tests.

use crate::random::Random;
use crate::settings::Settings;

/// Widths beyond both ends.
const WIDTHS: [u64; 16] = [
    31,
    31,
    31,
    53,
    53,
    53,
    30,
    54,
    0,
    63,
    64,
    255,
    256 + 40,
    1 << 32 | 40,
    1 << 63 | 40,
    u64::MAX,
];
/// The rules in the order of their tests.
const RULES: [fn(&mut Random, &mut Settings); 5] = [width, root, paging, extension, spaces];

/// Breaks a rule of served settings, or it and the next; now and then paging is then turned off.
pub fn unserved(random: &mut Random, settings: &mut Settings) {
    let first = random.below(5) as usize;
    let rules = random.pick(&[1, 1, 1, 2]);
    for rule in RULES.iter().skip(first).take(rules) {
        rule(random, settings);
    }
    settings.cr0 &= !random.flag(Settings::PG, 20);
}

/// Makes the width one that is not served.
fn width(random: &mut Random, settings: &mut Settings) {
    settings.width = random.pick(&WIDTHS);
}

/// Makes CR3 too large for the width, or just small enough.
fn root(random: &mut Random, settings: &mut Settings) {
    let width = settings.width.min(63);
    let first = 1 << width;
    let far = 1 << random.between(width, 63);
    settings.cr3 = random.pick(&[first, first, first | 0x1000, far, u64::MAX, first - 1]);
}

/// Clears PE, PAE or LME, now and then two of them.
fn paging(random: &mut Random, settings: &mut Settings) {
    for _ in 0..random.pick(&[1, 1, 1, 2]) {
        match random.below(3) {
            0 => settings.cr0 &= !Settings::PE,
            1 => settings.cr4 &= !Settings::PAE,
            _ => settings.efer &= !Settings::LME,
        }
    }
}

/// Sets a bit of CR4 that is not served.
fn extension(random: &mut Random, settings: &mut Settings) {
    settings.cr4 |= 1 << random.pick(&Settings::EXTENSIONS);
}

/// Sets the bit of space numbers, mostly with paging off or with low bits of CR3.
fn spaces(random: &mut Random, settings: &mut Settings) {
    settings.cr4 |= Settings::PCIDE;
    if random.chance(40) {
        settings.cr0 &= !Settings::PG;
    } else {
        settings.cr3 |= 1 << random.below(12);
    }
}
