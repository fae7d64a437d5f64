//! Handmade machines with memory and cards to step them by.

use crate::cache::{set_of, Cache};
use crate::card::{Card, CARD};
use crate::case::{Background, Case};
use crate::deck::MEMORY;
use crate::draw::served;
use crate::draw_card::{drop_page, load_root, outside_store, paging_off, refused_settings};
use crate::draw_card::{settings, table_entry, table_store, translation, typed};
use crate::draw_card::{Likely, ENTRIES, PAGES};
use crate::draw_place::{set, Near};
use crate::draw_settings::unserved;
use crate::machine::Machine;
use crate::random::Random;
use crate::settings::Settings;

/// Memory lengths: the paper's in most draws.
const MEMORIES: [usize; 8] = [
    MEMORY, MEMORY, MEMORY, MEMORY, 40000, 0x4220, 0x501B, 0x1007,
];
/// How often loaded settings have PGE and space numbers.
const LIKELY: Likely = Likely {
    global: 60,
    numbered: 45,
};
/// So many pages are asked for.
const ASKED: usize = 3;

/// A handmade machine, guest memory, and the pages that its cards ask for.
pub struct Bench {
    pub machine: Machine,
    pub memory: Vec<u8>,
    pub pages: Vec<u64>,
}

impl Bench {
    /// A bench with every place, setting and table drawn anew.
    pub fn draw(random: &mut Random) -> Bench {
        let pages: Vec<u64> = (0..ASKED).map(|_| page(random)).collect();
        let settings = any_settings(random);
        let machine = Machine {
            settings,
            cache: Cache::empty(),
        };
        let mut bench = Bench {
            memory: memory(random, settings),
            machine,
            pages,
        };
        let near = bench.near();
        for (set_number, room) in (0..).zip(&mut bench.machine.cache.sets) {
            *room = set(random, set_number, &near);
        }
        bench
    }

    /// Draws the set of one of the pages anew, as a host may between calls.
    pub fn redraw(&mut self, random: &mut Random) {
        let set_number = set_of(random.pick(&self.pages) >> 12);
        let near = self.near();
        self.machine.cache.sets[set_number as usize] = set(random, set_number, &near);
    }

    /// What places are often of.
    fn near(&self) -> Near {
        Near {
            tags: self.pages.iter().map(|page| page >> 12).collect(),
            number: self.machine.settings.number(),
        }
    }

    /// The bytes of any card, now and then too few or too many.
    pub fn card(&self, random: &mut Random) -> Vec<u8> {
        let card = any_card(random, &self.pages);
        let mut bytes = [0; CARD].map(|_: u8| random.word() as u8);
        card.write(&mut bytes);
        let mut bytes = bytes.to_vec();
        match random.below(50) {
            0 => bytes.truncate(random.below(CARD as u64) as usize),
            1 => bytes.resize(CARD + random.between(1, 40) as usize, 0),
            _ => {}
        }
        bytes
    }
}

/// A page to ask for, now and then one that is not canonical.
fn page(random: &mut Random) -> u64 {
    let page = random.pick(&PAGES);
    let high = 1 << random.between(47, 63);
    page ^ random.flag(high, 8)
}

/// Settings: mostly served with paging on, else off, not served in one way, or rubbish.
fn any_settings(random: &mut Random) -> Settings {
    let mut settings = served(random);
    settings.cr3 = random.pick(&[0x1000, 0x1000, 0x1000, 0x1001, 0x1002, 0x1FFF, 0x6000]);
    if random.chance(6) {
        let border = 1 << random.pick(&[32, 36, 39, 40, 40, 52]);
        settings.cr3 = random.pick(&[border, border - 1]);
    }
    match random.below(16) {
        0 => settings.cr0 &= !Settings::PG,
        1 | 2 => unserved(random, &mut settings),
        3 => {
            settings.cr0 = random.word();
            settings.cr3 = random.word() >> random.below(64);
            settings.cr4 = random.word();
            settings.efer = random.word();
            settings.width = random.word() >> random.below(64);
        }
        _ => {}
    }
    settings
}

/// Memory with tables, some of their entries changed, now and then amid rubbish.
fn memory(random: &mut Random, settings: Settings) -> Vec<u8> {
    let stores = ENTRIES.map(|(address, usual)| {
        let value = usual | random.flag(1 << 8, 40) | random.flag(1 << 6, 30);
        let value = typed(random, address, value);
        if random.chance(8) {
            table_entry(random, address, value)
        } else {
            (address, value)
        }
    });
    let background = if random.chance(4) {
        Background::Entries(random.word())
    } else {
        Background::Zeros
    };
    let case = Case {
        settings,
        address: 0,
        access: 0,
        mode: 0,
        length: random.pick(&MEMORIES),
        background,
        stores: stores.into(),
    };
    case.memory()
}

/// A card of any kind, translations first of all.
fn any_card(random: &mut Random, pages: &[u64]) -> Card {
    match random.below(100) {
        0..=59 => translation(random, pages),
        60..=73 => drop_page(random, pages),
        74..=82 => load_root(random, LIKELY),
        83 => Card::DropAll,
        84..=86 => settings(random, LIKELY),
        87..=88 => refused_settings(random, LIKELY),
        89 => paging_off(random),
        90..=94 => {
            let (address, usual) = random.pick(&ENTRIES);
            table_store(random, address, usual)
        }
        95..=96 => outside_store(random),
        _ => Card::Unknown {
            kind: random.between(6, 255) as u8,
        },
    }
}
