//! What a translation's look into its set met: places passed over, and the one that served.

use crate::cache::{set_of, Place};
use crate::machine::Machine;
use crate::rewrite_tally::{broken_rule, rubbish};
use crate::settings::Settings;
use crate::translate::{Rights, WRITE};
use crate::walk::{walk, End};

/// Rows of a look into a set.
const LOOKUPS: [&str; 27] = [
    "passed over, not filled: mark",
    "passed over, not filled: frame",
    "passed over, not filled: size",
    "passed over, not filled: memory type",
    "passed over for R/W",
    "passed over for U/S",
    "passed over for fetch at NXE = 0",
    "passed over for fetch at NXE = 1",
    "passed over for D",
    "passed over for its number at CR4 bit 17 = 0",
    "passed over for its number at CR4 bit 17 = 1",
    "passed over, not filled: number",
    "hit by the first place of the tag",
    "hit by a later place of the tag",
    "hit by the first of two that serve",
    "hit beside rubbish",
    "hit without R/W by a supervisor's write at WP = 0",
    "hit without fetch by a read",
    "hit without U/S by a supervisor",
    "hit at frame 2^40 - 1",
    "hit of size 1",
    "hit of size 2",
    "hit of size 3",
    "hit of a page that the tables lack",
    "hit of a memory type that the tables no longer have",
    "hit under a number",
    "hit by a G place of another number",
];

/// Every row of a look into a set.
pub fn expected() -> Vec<String> {
    let mut rows: Vec<String> = LOOKUPS.map(String::from).into();
    rows.push("hit with spare bits".into());
    rows.extend((0..8).map(|index| format!("hit of memory type {index}")));
    rows
}

/// A translation that looks into its set: a page and a way to ask for it.
pub struct Asked {
    pub address: u64,
    pub access: u64,
    pub mode: u64,
}

impl Asked {
    /// What a card's bytes ask for.
    pub fn new(address: u64, access: u8, mode: u8) -> Asked {
        Asked {
            address,
            access: access.into(),
            mode: mode.into(),
        }
    }

    /// The rights needed.
    fn needed(&self, settings: &Settings) -> Rights {
        Rights::needed(settings, self.access, self.mode)
    }

    /// Whether a place allows the access.
    fn served_by(&self, settings: &Settings, place: &Place) -> bool {
        place.serves(self.needed(settings), self.access == WRITE)
    }
}

/// Adds the rows of a look into the set; gives whether a place served.
pub fn lookup_rows(before: &Machine, asked: &Asked, memory: &[u8], rows: &mut Vec<String>) -> bool {
    let settings = &before.settings;
    let tag = asked.address >> 12;
    let set_number = set_of(tag);
    let set = &before.cache.sets[set_number as usize];
    let tagged: Vec<&Place> = set.places.iter().filter(|p| p.tag == tag).collect();
    let number = settings.number();
    let hits = |place: &&Place| {
        let counts = place.filled(set_number) && place.counts_under(number);
        counts && asked.served_by(settings, place)
    };
    let found = tagged.iter().position(hits);
    let (passed, rest) = tagged.split_at(found.unwrap_or(tagged.len()));
    for place in passed {
        passed_rows(settings, asked, place, set_number, rows);
    }
    let Some((place, later)) = rest.split_first() else {
        return false;
    };
    let first = !passed.iter().any(|place| place.filled(set_number));
    let differs = |other: &&&Place| (other.frame, other.size) != (place.frame, place.size);
    let second = later.iter().filter(differs).any(hits);
    let walk = walk(settings, asked.address, memory);
    let mapped = matches!(walk.end, End::Page { .. });
    let stale = mapped && walk.memory_type() != u64::from(place.memory_type);
    let mut add = |found: bool, row: &str| rows.extend(found.then(|| row.to_string()));
    add(first, "hit by the first place of the tag");
    add(!first, "hit by a later place of the tag");
    add(second, "hit by the first of two that serve");
    add(rubbish(set, set_number), "hit beside rubbish");
    add(!mapped, "hit of a page that the tables lack");
    add(stale, "hit of a memory type that the tables no longer have");
    let foreign = u64::from(place.number) != number;
    add(foreign, "hit by a G place of another number");
    add(number != 0 && place.only_of(number), "hit under a number");
    hit_rows(asked, place, rows);
    true
}

/// Adds what is special in the place that served.
fn hit_rows(asked: &Asked, place: &Place, rows: &mut Vec<String>) {
    let mut add = |found: bool, row: &str| rows.extend(found.then(|| row.to_string()));
    let free = "hit without R/W by a supervisor's write at WP = 0";
    add(asked.access == WRITE && place.write == 0, free);
    add(place.fetch == 0, "hit without fetch by a read");
    add(place.user == 0, "hit without U/S by a supervisor");
    add(place.frame == (1 << 40) - 1, "hit at frame 2^40 - 1");
    add(place.spare != 0, "hit with spare bits");
    add(true, &format!("hit of size {}", place.size));
    add(true, &format!("hit of memory type {}", place.memory_type));
}

/// Adds why a place with the tag was passed over, where it is for one reason alone.
fn passed_rows(
    settings: &Settings,
    asked: &Asked,
    place: &Place,
    set_number: u64,
    rows: &mut Vec<String>,
) {
    let needed = asked.needed(settings);
    let nxe = u8::from(settings.no_execute());
    let numbered = u8::from(settings.space_numbers());
    let lacking = [
        (needed.write && place.write == 0, "R/W".into()),
        (needed.user && place.user == 0, "U/S".into()),
        (
            needed.fetch && place.fetch == 0,
            format!("fetch at NXE = {nxe}"),
        ),
        (asked.access == WRITE && place.dirty == 0, "D".into()),
        (
            !place.counts_under(settings.number()),
            format!("its number at CR4 bit 17 = {numbered}"),
        ),
    ];
    let lacking: Vec<String> = lacking
        .into_iter()
        .filter_map(|(lacks, why): (bool, String)| lacks.then_some(why))
        .collect();
    match (lacking.as_slice(), broken_rule(place, set_number)) {
        ([], Some(rule)) => rows.push(format!("passed over, not filled: {rule}")),
        ([why], None) if place.filled(set_number) => rows.push(format!("passed over for {why}")),
        _ => {}
    }
}
