//! What the rewrite of a set met: rules that its places broke, gaps, and places at a rule's border.

use crate::cache::{Place, Set, LAST_NUMBER};

/// The rules of a filled place.
const RULES: [&str; 7] = [
    "mark",
    "tag",
    "set",
    "frame",
    "size",
    "memory type",
    "number",
];
/// The calls that rewrite a set.
const REWRITES: [&str; 7] = [
    "fill",
    "page drop",
    "fault's drop",
    "outside's drop",
    "root load",
    "root load of a number",
    "root load with bit 63",
];
/// Places at the border of a rule.
const BORDERS: [&str; 13] = [
    "frame 2^40 - 1 kept",
    "frame 2^40 zeroed",
    "last tag of its set kept",
    "tag 2^52 zeroed",
    "size 0 zeroed",
    "size 1 kept",
    "size 2 kept",
    "size 3 kept",
    "size 4 zeroed",
    "memory type 7 kept",
    "memory type 8 zeroed",
    "number 4,095 kept",
    "number 4,096 zeroed",
];

/// Every row of the rewrites by cards.
pub fn expected() -> Vec<String> {
    let rows = REWRITES.iter().flat_map(|rewrite| rewritten(rewrite));
    BORDERS.map(String::from).into_iter().chain(rows).collect()
}

/// Every row of one rewrite.
pub fn rewritten(rewrite: &str) -> Vec<String> {
    let zeroed = RULES.map(|rule| format!("{rewrite} zeroes a place not filled: {rule}"));
    let gap = format!("{rewrite} closes a gap");
    zeroed.into_iter().chain([gap]).collect()
}

/// The rule that a place breaks in the set of that number, if it is exactly one.
pub fn broken_rule(place: &Place, set_number: u64) -> Option<&'static str> {
    let broken = [
        place.marked == 0,
        place.tag >= 1 << 52,
        place.tag % 16 != set_number,
        place.frame >= 1 << 40,
        !matches!(place.size, 1..=3),
        place.memory_type > 7,
        u64::from(place.number) > LAST_NUMBER,
    ];
    let mut rules = RULES.iter().zip(broken).filter(|(_, broken)| *broken);
    let (rule, _) = rules.next()?;
    rules.next().is_none().then_some(rule)
}

/// Whether a set holds something in a place that is not filled.
pub fn rubbish(set: &Set, set_number: u64) -> bool {
    let mut places = set.places.iter();
    places.any(|place| *place != Place::default() && !place.filled(set_number))
}

/// Adds the rows of a set's rewrite by a call that would spare these places.
pub fn rewrite_rows(
    rewrite: &str,
    set_number: u64,
    set: &Set,
    spares: impl Fn(&Place) -> bool,
    rows: &mut Vec<String>,
) {
    for place in set.places.iter().filter(|place| spares(place)) {
        if let Some(rule) = broken_rule(place, set_number) {
            rows.push(format!("{rewrite} zeroes a place not filled: {rule}"));
        }
        border_rows(place, set_number, rows);
    }
    let stays = set
        .places
        .map(|place| place.filled(set_number) && spares(&place));
    let gap = stays.windows(2).any(|pair| pair == [false, true]);
    rows.extend(gap.then(|| format!("{rewrite} closes a gap")));
    let kept = set.places.iter().zip(stays).filter(|(_, stays)| *stays);
    let spare = kept.filter(|(place, _)| place.spare != 0).count() > 0;
    rows.extend(spare.then(|| "spare bits kept".into()));
}

/// Adds the borders at which a place lies that is kept, or zeroed for that alone.
fn border_rows(place: &Place, set_number: u64, rows: &mut Vec<String>) {
    let mut add = |found: bool, row: &str| rows.extend(found.then(|| row.to_string()));
    match broken_rule(place, set_number) {
        Some("frame") => add(place.frame == 1 << 40, "frame 2^40 zeroed"),
        Some("tag") => add(place.tag == 1 << 52 | set_number, "tag 2^52 zeroed"),
        Some("size") => {
            add(place.size == 0, "size 0 zeroed");
            add(place.size == 4, "size 4 zeroed");
        }
        Some("memory type") => add(place.memory_type == 8, "memory type 8 zeroed"),
        Some("number") => add(place.number == 4096, "number 4,096 zeroed"),
        None if place.filled(set_number) => {
            add(place.number == 4095, "number 4,095 kept");
            add(place.memory_type == 7, "memory type 7 kept");
            add(place.frame == (1 << 40) - 1, "frame 2^40 - 1 kept");
            add(place.tag >> 4 == (1 << 48) - 1, "last tag of its set kept");
            add(true, &format!("size {} kept", place.size));
        }
        _ => {}
    }
}
