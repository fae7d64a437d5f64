//! Handmade places: good ones, ones that break a single rule, and rubbish.

use crate::cache::{set_of, Place, Set};
use crate::random::Random;

/// What places often are of: these tags or large pages around them, and this space number.
pub struct Near {
    pub tags: Vec<u64>,
    pub number: u64,
}

/// A set of that number, whose places are often near.
pub fn set(random: &mut Random, set_number: u64, near: &Near) -> Set {
    Set {
        places: [(); 4].map(|()| place(random, set_number, near)),
    }
}

/// A place for the set of that number: zeros, rubbish, good, or good but for one rule.
fn place(random: &mut Random, set_number: u64, near: &Near) -> Place {
    match random.below(20) {
        0 => Place::default(),
        1 => rubbish(random),
        2..=8 => broken(random, set_number, near),
        _ => good(random, set_number, near),
    }
}

/// A place that counts as filled in the set of that number.
fn good(random: &mut Random, set_number: u64, near: &Near) -> Place {
    let word = random.word();
    Place {
        marked: flag(random, 100),
        tag: tag(random, set_number, &near.tags),
        frame: match random.below(6) {
            0 => (1 << 40) - 1,
            1..=3 => random.below(16),
            _ => word >> 24,
        },
        size: random.between(1, 3) as u8,
        write: flag(random, 75),
        user: flag(random, 75),
        fetch: flag(random, 70),
        dirty: flag(random, 70),
        global: flag(random, 45),
        spare: random.below(4) as u8,
        memory_type: random.below(8) as u8,
        number: number(random, near.number),
    }
}

/// A space number: mostly the one that is near, else 0, the largest, one of few, or any.
fn number(random: &mut Random, near: u64) -> u16 {
    let number = match random.below(20) {
        0..=10 => near,
        11..=12 => 0,
        13 => 4095,
        14 => random.below(4096),
        _ => random.between(1, 3),
    };
    number as u16
}

/// A tag below 2^52 of the set of that number: one of these, one near it, a piece of its large page, or any.
fn tag(random: &mut Random, set_number: u64, tags: &[u64]) -> u64 {
    let own: Vec<u64> = tags
        .iter()
        .copied()
        .filter(|tag| set_of(*tag) == set_number)
        .collect();
    if random.chance(10) {
        let any = random.word() >> 12 & !0xF | set_number;
        return random.pick(&[any, any, set_number, (1 << 52) - 16 + set_number]);
    }
    if own.is_empty() || random.chance(30) {
        let near = random.pick(tags);
        return piece(random, set_number, near);
    }
    let page = random.pick(&own);
    match random.below(10) {
        0 => page ^ 16 << random.below(48),
        1 => page ^ 16,
        2 => (1 << 52) - 16 + set_number,
        _ => page,
    }
}

/// The tag of a piece in that set, of the large page around a tag or of a neighbour, often at its ends.
fn piece(random: &mut Random, set_number: u64, tag: u64) -> u64 {
    let bits = random.pick(&[9, 18]);
    let beside = random.pick(&[0, 0, 0, 0, 1, u64::MAX]);
    let page = (tag >> bits).wrapping_add(beside);
    let any = random.below(1 << bits);
    let within = random.pick(&[any, any, 0, (1 << bits) - 1]);
    (page << bits | within) & ((1 << 52) - 16) | set_number
}

/// A good place with one rule broken.
fn broken(random: &mut Random, set_number: u64, near: &Near) -> Place {
    let mut place = good(random, set_number, near);
    let word = random.word();
    match random.below(7) {
        0 => place.marked = 0,
        1 => {
            let page = place.tag | 1 << random.between(52, 63);
            place.tag = random.pick(&[page, page, 1 << 52 | set_number, word | 1 << 52]);
            place.tag = place.tag & !0xF | set_number;
        }
        2 => place.tag ^= random.between(1, 15),
        3 => {
            let over = place.frame | 1 << random.between(40, 63);
            place.frame = random.pick(&[1 << 40, (1 << 40) + 1, over, over, u64::MAX]);
        }
        4 => {
            let any = random.between(4, 255) as u8;
            place.size = random.pick(&[0, 0, 4, 4, 5, 0x81, 255, any]);
        }
        5 => {
            let any = random.between(8, 255) as u8;
            place.memory_type = random.pick(&[8, 8, 9, 16, 0x80, 255, any]);
        }
        _ => {
            let over = place.number | 1 << random.between(12, 15);
            place.number = random.pick(&[4096, over, over, u16::MAX]);
        }
    }
    place
}

/// A place of any bytes.
fn rubbish(random: &mut Random) -> Place {
    Place {
        marked: flag(random, 80),
        tag: random.word(),
        frame: random.word(),
        size: random.word() as u8,
        write: flag(random, 50),
        user: flag(random, 50),
        fetch: flag(random, 50),
        dirty: flag(random, 50),
        global: flag(random, 50),
        spare: random.below(4) as u8,
        memory_type: random.word() as u8,
        number: random.word() as u16,
    }
}

/// A flag that is set in so many of a hundred draws.
fn flag(random: &mut Random, percent: u64) -> u8 {
    random.chance(percent).into()
}
