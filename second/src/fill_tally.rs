//! What a fill met in its set.

use crate::cache::{set_of, Place};
use crate::machine_tally::Call;
use crate::rewrite_tally::{rewrite_rows, rubbish};

/// Rows of a fill.
const FILLS: [&str; 9] = [
    "over a place of its tag",
    "over two places of its tag",
    "pushes a fifth place out",
    "where rubbish makes room for a fourth",
    "leaves another piece of its large page",
    "leaves another number's place of its tag",
    "leaves another number's place of its tag at CR4 bit 17 = 0",
    "takes a G place of another number",
    "of a G place takes another number's place",
];

/// Every row of a fill.
pub fn expected() -> Vec<String> {
    FILLS.map(|row| format!("fill {row}")).into()
}

/// Adds what a fill met in its set.
pub fn fill_rows(call: &Call, tag: u64, rows: &mut Vec<String>) {
    let own = set_of(tag) as usize;
    let (set, new) = (
        &call.before.cache.sets[own],
        call.after.cache.sets[own].places[0],
    );
    let filled = set.places.iter().filter(|place| place.filled(set_of(tag)));
    let (stay, taken): (Vec<&Place>, Vec<&Place>) = filled.partition(|p| p.stays_beside(&new));
    let beside = stay.iter().any(|place| place.tag == tag);
    let sibling = stay
        .iter()
        .any(|place| place.tag != tag && place.covers(tag << 12));
    let foreign = |global: bool| {
        let mut others = taken.iter().filter(|place| place.number != new.number);
        others.any(|place| (place.global != 0) == global)
    };
    let numbered = call.before.settings.space_numbers();
    let mut add = |found: bool, row: &str| rows.extend(found.then(|| format!("fill {row}")));
    add(taken.len() == 1, "over a place of its tag");
    add(taken.len() > 1, "over two places of its tag");
    add(stay.len() == 4, "pushes a fifth place out");
    let room = stay.len() == 3 && rubbish(set, set_of(tag));
    add(room, "where rubbish makes room for a fourth");
    add(sibling, "leaves another piece of its large page");
    add(beside, "leaves another number's place of its tag");
    let off = "leaves another number's place of its tag at CR4 bit 17 = 0";
    add(beside && !numbered, off);
    add(foreign(true), "takes a G place of another number");
    let own = new.global != 0 && foreign(false);
    add(own, "of a G place takes another number's place");
    let spares = |place: &Place| place.stays_beside(&new);
    rewrite_rows("fill", set_of(tag), set, spares, rows);
}
