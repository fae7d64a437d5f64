//! What a root load met in all sets, by what its value says to drop.

use crate::answer::Answer;
use crate::cache::Place;
use crate::machine_tally::Call;
use crate::rewrite_tally::rewrite_rows;

/// Rows of root loads.
const LOADS: [&str; 13] = [
    "root load keeps a G place",
    "root load keeps a G place at PGE = 0",
    "root load drops a place",
    "root load drops another number's place",
    "root load of a number drops a place of it",
    "root load of a number keeps another number's place",
    "root load of a number keeps a G place of it",
    "root load of a number keeps a place of the number before",
    "root load with bit 63 keeps a place of the number loaded",
    "root load with bit 63 keeps another number's place",
    "root load with bit 63 is 8 at CR4 bit 17 = 0",
    "root load with bit 63 is 8 for its other bits",
    "root load with bit 63 leaves bit 63 of CR3 clear",
];

/// Every row of a root load.
pub fn expected() -> Vec<String> {
    LOADS.map(String::from).into()
}

/// Adds what a root load of the value met.
pub fn root_rows(call: &Call, value: u64, rows: &mut Vec<String>) {
    let numbered = call.before.settings.space_numbers();
    let spared = value >> 63 == 1;
    let mut add = |found: bool, row: &str| rows.extend(found.then(|| format!("root load {row}")));
    let refused = call.returned == Answer::ROOT && spared;
    let low = value & !(1 << 63);
    let small = call.before.settings.width < 63 && low >> call.before.settings.width == 0;
    let off = refused && small && !numbered;
    add(off, "with bit 63 is 8 at CR4 bit 17 = 0");
    add(refused && numbered, "with bit 63 is 8 for its other bits");
    if call.returned != Answer::DONE {
        return;
    }
    match (numbered, spared) {
        (false, _) => plain_rows(call, rows),
        (true, false) => number_rows(call, rows),
        (true, true) => spared_rows(call, rows),
    }
}

/// Adds the rewrite of all sets by a load that spares these places.
fn rewritten(load: &str, call: &Call, spares: impl Fn(&Place) -> bool, rows: &mut Vec<String>) {
    for (set_number, set) in (0..).zip(&call.before.cache.sets) {
        rewrite_rows(load, set_number, set, &spares, rows);
    }
}

/// Adds what a load without space numbers met.
fn plain_rows(call: &Call, rows: &mut Vec<String>) {
    let (stay, gone): (Vec<&Place>, Vec<&Place>) = call
        .before
        .cache
        .filled()
        .map(|(_, place)| place)
        .partition(|place| place.global != 0);
    let pge = call.before.settings.global_pages();
    let mut add = |found: bool, row: &str| rows.extend(found.then(|| format!("root load {row}")));
    add(!stay.is_empty(), "keeps a G place");
    add(!stay.is_empty() && !pge, "keeps a G place at PGE = 0");
    let spare = stay.iter().any(|place| place.spare != 0);
    add(spare, "keeps a G place with spare bits");
    add(!gone.is_empty(), "drops a place");
    add(
        gone.iter().any(|place| place.number != 0),
        "drops another number's place",
    );
    rewritten("root load", call, |place| place.global != 0, rows);
}

/// Adds what a load of a space number met.
fn number_rows(call: &Call, rows: &mut Vec<String>) {
    let (number, last) = (call.after.settings.number(), call.before.settings.number());
    let load = "root load of a number";
    let found = |test: &dyn Fn(&Place) -> bool| call.before.cache.filled().any(|(_, p)| test(p));
    let mut add = |found: bool, row: &str| rows.extend(found.then(|| format!("{load} {row}")));
    let own = |place: &Place| u64::from(place.number) == number;
    add(found(&|place| place.only_of(number)), "drops a place of it");
    let other = found(&|place| !place.counts_under(number));
    add(other, "keeps another number's place");
    let global = found(&|place| place.global != 0 && own(place));
    add(global, "keeps a G place of it");
    let before = number != last && found(&|place| place.only_of(last));
    add(before, "keeps a place of the number before");
    rewritten(load, call, |place| !place.only_of(number), rows);
}

/// Adds what a load of a space number that drops nothing met.
fn spared_rows(call: &Call, rows: &mut Vec<String>) {
    let number = call.after.settings.number();
    let load = "root load with bit 63";
    let mut add = |found: bool, row: &str| rows.extend(found.then(|| format!("{load} {row}")));
    let mut filled = call.before.cache.filled().map(|(_, place)| place);
    let own = filled.any(|place| place.only_of(number));
    add(own, "keeps a place of the number loaded");
    let mut filled = call.before.cache.filled().map(|(_, place)| place);
    let other = filled.any(|place| !place.counts_under(number));
    add(other, "keeps another number's place");
    let clear = call.after.settings.cr3 >> 63 == 0;
    add(clear, "leaves bit 63 of CR3 clear");
    rewritten(load, call, |_| true, rows);
}
