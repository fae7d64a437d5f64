//! What a page drop, or the drop after a refused walk, met in all sets.

use std::collections::BTreeSet;

use crate::answer::Answer;
use crate::cache::{bytes, Place};
use crate::machine_tally::Call;
use crate::rewrite_tally::{rewrite_rows, rubbish};
use crate::translate::canonical;
use crate::walk::walk;

/// The drops that go by an address.
const DROPS: [&str; 3] = ["page drop", "fault's drop", "outside's drop"];
/// What each of them meets.
const MEETS: [&str; 16] = [
    "of no place",
    "of two places",
    "of a G place",
    "of pieces in two sets",
    "of a 2 MiB page through another piece",
    "of a 1 GiB page through another piece",
    "of places of different sizes",
    "of a G place of another number",
    "leaves another number's piece",
    "leaves another number's piece at CR4 bit 17 = 0",
    "leaves a 4 KiB page beside in its 2 MiB",
    "leaves a 2 MiB page beside in its 1 GiB",
    "leaves the 2 MiB page before or after",
    "leaves the 1 GiB page before or after",
    "rewrites a set that has no piece",
    "rewrites a set beside a piece",
];
/// What single drops meet.
const SINGLE: [&str; 5] = [
    "page drop of no canonical address beside rubbish",
    "page drop of no canonical address that a place covers",
    "fault's drop of a 2 MiB page that is a table now",
    "fault's drop of a 1 GiB page that is a table now",
    "outside's drop of a large page that is a table now",
];

/// Every row of a drop.
pub fn expected() -> Vec<String> {
    let rows = DROPS
        .iter()
        .flat_map(|drop| MEETS.map(|row| format!("{drop} {row}")));
    rows.chain(SINGLE.map(String::from)).collect()
}

/// Adds the rows of a page drop.
pub fn drop_page_rows(call: &Call, address: u64, rows: &mut Vec<String>) {
    if canonical(address) {
        return drop_rows("page drop", call, address, rows);
    }
    let mut sets = (0..).zip(&call.before.cache.sets);
    let number = call.before.settings.number();
    let held = call.before.cache.taken(address, number).count() > 0;
    let mut add = |found: bool, row: &str| {
        rows.extend(found.then(|| format!("page drop of no canonical address {row}")));
    };
    add(
        sets.any(|(set_number, set)| rubbish(set, set_number)),
        "beside rubbish",
    );
    add(held, "that a place covers");
}

/// Adds the rows of the drop after a refused walk.
pub fn refused_rows(call: &Call, address: u64, rows: &mut Vec<String>) {
    let drop = if call.returned == Answer::FAULT {
        "fault's drop"
    } else {
        "outside's drop"
    };
    drop_rows(drop, call, address, rows);
    let end = walk(&call.before.settings, address, call.memory).end;
    let number = call.before.settings.number();
    for (_, place) in call.before.cache.taken(address, number) {
        if u64::from(place.size) > end.level() {
            let page = match (drop, place.size) {
                ("outside's drop", _) => "large",
                (_, 2) => "2 MiB",
                _ => "1 GiB",
            };
            rows.push(format!("{drop} of a {page} page that is a table now"));
        }
    }
}

/// Adds what a drop of an address met.
fn drop_rows(drop: &str, call: &Call, address: u64, rows: &mut Vec<String>) {
    let cache = &call.before.cache;
    let number = call.before.settings.number();
    let taken: Vec<(u64, &Place)> = cache.taken(address, number).collect();
    let sets: BTreeSet<u64> = taken.iter().map(|(set, _)| *set).collect();
    let sizes: BTreeSet<u8> = taken.iter().map(|(_, place)| place.size).collect();
    let other = |size: u8| {
        let mut places = taken.iter().filter(|(_, place)| place.size == size);
        places.any(|(_, place)| place.tag != address >> 12)
    };
    let mut add = |found: bool, row: &str| rows.extend(found.then(|| format!("{drop} {row}")));
    add(taken.is_empty(), "of no place");
    add(taken.len() > 1, "of two places");
    add(taken.iter().any(|(_, p)| p.global != 0), "of a G place");
    add(sets.len() > 1, "of pieces in two sets");
    add(other(2), "of a 2 MiB page through another piece");
    add(other(3), "of a 1 GiB page through another piece");
    add(sizes.len() > 1, "of places of different sizes");
    let foreign = |place: &Place| u64::from(place.number) != number;
    let global = taken.iter().any(|(_, place)| foreign(place));
    add(global, "of a G place of another number");
    left_rows(drop, call, address, rows);
    for (set_number, set) in (0..).zip(&cache.sets) {
        let mut add = |found: bool, row: &str| rows.extend(found.then(|| format!("{drop} {row}")));
        let beside = sets.contains(&set_number);
        add(
            !beside && rubbish(set, set_number),
            "rewrites a set that has no piece",
        );
        add(
            beside && rubbish(set, set_number),
            "rewrites a set beside a piece",
        );
        let spares = |place: &Place| !place.taken(address, number);
        rewrite_rows(drop, set_number, set, spares, rows);
    }
}

/// Adds which places near the address a drop leaves.
fn left_rows(drop: &str, call: &Call, address: u64, rows: &mut Vec<String>) {
    let settings = &call.before.settings;
    let filled = call.before.cache.filled();
    for (_, place) in filled.filter(|(_, place)| !place.taken(address, settings.number())) {
        let start = place.tag << 12;
        let within = |size: u8| start / bytes(size) == address / bytes(size);
        let apart = (start / bytes(place.size)).abs_diff(address / bytes(place.size));
        let mut add = |found: bool, row: &str| rows.extend(found.then(|| format!("{drop} {row}")));
        let covers = place.covers(address);
        add(covers, "leaves another number's piece");
        let off = "leaves another number's piece at CR4 bit 17 = 0";
        add(covers && !settings.space_numbers(), off);
        let small = "leaves a 4 KiB page beside in its 2 MiB";
        add(place.size == 1 && within(2) && !covers, small);
        let medium = "leaves a 2 MiB page beside in its 1 GiB";
        add(place.size == 2 && within(3) && !covers, medium);
        let near = "leaves the 2 MiB page before or after";
        add(place.size == 2 && apart == 1, near);
        let near = "leaves the 1 GiB page before or after";
        add(place.size == 3 && apart == 1, near);
    }
}
