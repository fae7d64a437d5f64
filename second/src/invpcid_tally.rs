//! How often INVPCID calls met each rule.

use std::collections::BTreeSet;

use crate::answer::Answer;
use crate::cache::Place;
use crate::machine::Machine;
use crate::rewrite_tally::{rewrite_rows, rewritten};
use crate::tally::Tally;
use crate::translate::canonical;

/// Rows of single rules.
const RULES: [&str; 29] = [
    "unknown kind",
    "1 before 12",
    "1 before 3",
    "12 before 3",
    "12 in kind 0 above 4,095",
    "12 in kind 1 above 4,095",
    "12 in kind 2 above 4,095",
    "12 in kind 3 above 4,095",
    "12 in kind 0 at CR4 bit 17 = 0",
    "12 in kind 1 at CR4 bit 17 = 0",
    "12 for 4,096",
    "3 in kind 0 at PG = 0",
    "3 in kind 0 at PG = 1",
    "address form ignored in kinds 1 to 3",
    "done for 4,095",
    "done in kind 0 under settings not served",
    "done in kind 2 with a number at CR4 bit 17 = 0",
    "done in kind 3 with a number at CR4 bit 17 = 0",
    "kind 0 takes pieces in two sets",
    "kind 0 takes a large page through another piece",
    "kind 0 leaves a G place of the number",
    "kind 0 leaves another number's piece",
    "kind 0 leaves another page of the number",
    "kind 1 takes places in ten sets",
    "kind 1 leaves a G place of the number",
    "kind 1 leaves another number's place",
    "kind 2 takes a G place",
    "kind 3 takes places of two numbers",
    "kind 3 leaves a G place",
];

/// A tally with every rule at 0.
pub fn tally() -> Tally {
    let mut rows: Vec<String> = RULES.map(String::from).into();
    rows.push("short buffer".into());
    rows.extend(
        [0, 1, 3]
            .iter()
            .flat_map(|kind| rewritten(&format!("kind {kind}"))),
    );
    Tally::of_rows(rows)
}

/// The rules that a call met, from the machine before it.
pub fn rows(before: &Machine, [kind, number, address]: [u64; 3], returned: u64) -> Vec<String> {
    let mut rows = Vec::new();
    let mut add = |found: bool, row: &str| rows.extend(found.then(|| row.to_string()));
    let (large, formed) = (number > 4095, canonical(address));
    let paging = u8::from(before.settings.paging());
    let numbered = before.settings.space_numbers();
    match returned {
        Answer::SHORT_BUFFER => add(true, "short buffer"),
        Answer::UNKNOWN => {
            add(true, "unknown kind");
            add(large, "1 before 12");
            add(!formed, "1 before 3");
        }
        Answer::SPACE_NUMBER => {
            add(large, &format!("12 in kind {kind} above 4,095"));
            add(!large, &format!("12 in kind {kind} at CR4 bit 17 = 0"));
            add(number == 4096, "12 for 4,096");
            add(kind == 0 && !formed, "12 before 3");
        }
        Answer::FORM => add(true, &format!("3 in kind 0 at PG = {paging}")),
        _ => {
            add(number == 4095, "done for 4,095");
            add(kind > 0 && !formed, "address form ignored in kinds 1 to 3");
            let unserved = kind == 0 && !before.settings.served();
            add(unserved, "done in kind 0 under settings not served");
            let foreign = kind > 1 && number != 0 && !numbered;
            let row = format!("done in kind {kind} with a number at CR4 bit 17 = 0");
            add(foreign, &row);
            drop_rows(before, kind, number, address, &mut rows);
        }
    }
    rows
}

/// Adds what an accepted call took and left.
fn drop_rows(before: &Machine, kind: u64, number: u64, address: u64, rows: &mut Vec<String>) {
    let takes = |place: &Place| match kind {
        0 => place.covers(address) && place.only_of(number),
        1 => place.only_of(number),
        2 => true,
        _ => place.global == 0,
    };
    let filled: Vec<(u64, &Place)> = before.cache.filled().collect();
    let taken: Vec<(u64, &Place)> = filled.iter().copied().filter(|(_, p)| takes(p)).collect();
    let sets = taken.iter().map(|(set, _)| *set).collect::<BTreeSet<u64>>();
    let numbers = taken
        .iter()
        .map(|(_, p)| p.number)
        .collect::<BTreeSet<u16>>();
    let left = |test: &dyn Fn(&Place) -> bool| filled.iter().any(|(_, p)| !takes(p) && test(p));
    let other = taken
        .iter()
        .any(|(_, p)| p.tag != address >> 12 && p.size > 1);
    let own = |place: &Place| u64::from(place.number) == number;
    let mut add = |found: bool, row: &str| rows.extend(found.then(|| format!("kind {kind} {row}")));
    match kind {
        0 => {
            add(sets.len() > 1, "takes pieces in two sets");
            add(other, "takes a large page through another piece");
            let global = left(&|p| p.covers(address) && p.global != 0 && own(p));
            add(global, "leaves a G place of the number");
            let foreign = left(&|p| p.covers(address) && p.global == 0);
            add(foreign, "leaves another number's piece");
            let beside = left(&|p| !p.covers(address) && p.only_of(number));
            add(beside, "leaves another page of the number");
        }
        1 => {
            add(sets.len() >= 10, "takes places in ten sets");
            let global = left(&|p| p.global != 0 && own(p));
            add(global, "leaves a G place of the number");
            let foreign = left(&|p| p.global == 0);
            add(foreign, "leaves another number's place");
        }
        2 => add(taken.iter().any(|(_, p)| p.global != 0), "takes a G place"),
        _ => {
            add(numbers.len() > 1, "takes places of two numbers");
            add(left(&|p| p.global != 0), "leaves a G place");
        }
    }
    if kind != 2 {
        for (set_number, set) in (0..).zip(&before.cache.sets) {
            let spares = |place: &Place| !takes(place);
            rewrite_rows(&format!("kind {kind}"), set_number, set, spares, rows);
        }
    }
}
