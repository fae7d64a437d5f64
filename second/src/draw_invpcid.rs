//! INVPCID calls for a handmade machine: kinds, space numbers and addresses that its places have, and others.

use crate::draw_machine::Bench;
use crate::random::Random;

/// Kinds beyond the known ones.
const UNKNOWN: [u64; 6] = [4, 5, 255, 256, 1 << 32, u64::MAX];

/// Kind, space number and address of a call.
pub fn invpcid(random: &mut Random, bench: &Bench) -> [u64; 3] {
    let kind = if random.chance(6) {
        random.pick(&UNKNOWN)
    } else {
        random.below(4)
    };
    [kind, number(random, bench), address(random, bench)]
}

/// A space number: mostly the present one or one of few, now and then too large.
fn number(random: &mut Random, bench: &Bench) -> u64 {
    let large = random.word() >> random.below(64);
    match random.below(20) {
        0..=7 => bench.machine.settings.number(),
        8..=11 => 0,
        12..=15 => random.between(1, 3),
        16 => 4095,
        17 => 4096,
        18 => random.between(1, 3) | 1 << random.between(12, 63),
        _ => large,
    }
}

/// An address of one of the pages or of its large page, now and then not canonical.
fn address(random: &mut Random, bench: &Bench) -> u64 {
    let page = random.pick(&bench.pages) | random.below(4096);
    let within = random.pick(&[0, 0, 1 << 21, 1 << 30]);
    let moved = page ^ random.below(within);
    let odd = moved ^ 1 << random.between(47, 63);
    random.pick(&[moved, moved, moved, moved, odd])
}
