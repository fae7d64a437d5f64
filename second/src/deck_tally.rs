//! How often a deck brings up each kind, answer and event of the cache.

use crate::answer::Answer;
use crate::cache::{set_of, Place};
use crate::card::{step, Card, CARD};
use crate::deck::MEMORY;
use crate::deck_drop_tally::{piece_rows, refused_rows};
use crate::machine::Machine;
use crate::settings::Settings;
use crate::tally::Tally;
use crate::translate::{canonical, translate, FETCH, WRITE};

/// Rows that a good deal of decks brings up.
const EVENTS: [&str; 52] = [
    "kind 0 answer 0",
    "kind 0 answer 1",
    "kind 0 answer 3",
    "kind 0 answer 4",
    "kind 0 answer 5",
    "kind 1 answer 0",
    "kind 1 answer 4",
    "kind 2 answer 0",
    "kind 2 answer 8",
    "kind 3 answer 0",
    "kind 4 answer 0",
    "kind 5 answer 0",
    "kind 5 answer 2",
    "kind 5 answer 8",
    "kind 5 answer 9",
    "kind 5 answer 10",
    "kind 5 answer 11",
    "unknown kind",
    "paging off",
    "hit of size 1",
    "hit of size 2",
    "hit of size 3",
    "hit of a write",
    "hit of a fetch",
    "hit that a fresh walk differs from",
    "hit of a memory type that a fresh walk differs from",
    "a fifth place fell out",
    "walk over a place of the page",
    "fault dropped a place",
    "outside dropped a place",
    "root load kept a place",
    "root load of a number dropped its place",
    "root load of a number kept another number's place",
    "root load with bit 63 kept a place of its number",
    "root load with bit 63 refused",
    "hit under a number",
    "hit under a number that a fresh walk differs from",
    "hit by a G place of another number",
    "walk beside another number's place of its tag",
    "drop page of a place",
    "drop page of no canonical address",
    "drop page of a 2 MiB page in many sets",
    "drop page of a 1 GiB page in many sets",
    "drop page of a large page through another piece",
    "drop page beside a neighbour that stays",
    "drop page beside another number's place that stays",
    "refused walk of a 2 MiB page in many sets",
    "refused walk of a 1 GiB page in many sets",
    "refused walk of a large page through another piece",
    "refused walk beside a neighbour that stays",
    "refused walk beside another number's place that stays",
    "refused walk of a large page that is a table now",
];

/// A tally with every event at 0.
pub fn tally() -> Tally {
    let mut rows: Vec<String> = EVENTS.map(String::from).into();
    rows.extend((0..8).map(|index| format!("memory type {index}")));
    Tally::of_rows(rows)
}

/// Runs a deck and counts the events of its whole cards.
pub fn count(deck: &[u8], tally: &mut Tally) {
    let mut memory = vec![0; MEMORY];
    let (_, mut machine) = Machine::start(Settings::initial());
    for bytes in deck.chunks(CARD) {
        let before = machine.clone();
        let mut fresh = memory.clone();
        let answer = step(&mut machine, &mut memory, bytes);
        if let Some(card) = Card::read(bytes) {
            tally.count(&rows(&card, &before, &machine, &answer, &mut fresh));
        }
    }
}

/// The rows of one card, from the machine before and after it.
fn rows(
    card: &Card,
    before: &Machine,
    after: &Machine,
    answer: &Answer,
    fresh: &mut [u8],
) -> Vec<String> {
    let kind = card.kind();
    let mut rows = vec![format!("kind {kind} answer {}", answer.answer)];
    match *card {
        Card::Unknown { .. } => rows = vec!["unknown kind".into()],
        Card::LoadRoot { value } => root_rows(value, before, after, answer, &mut rows),
        Card::DropPage { address } if !canonical(address) => {
            rows.push("drop page of no canonical address".into());
        }
        Card::DropPage { address } => {
            let held = before
                .cache
                .taken(address, before.settings.number())
                .count()
                > 0;
            rows.extend(held.then(|| "drop page of a place".into()));
            piece_rows("drop page", before, address, &mut rows);
        }
        Card::Translate {
            address,
            access,
            mode,
        } => {
            let asked = (address, access.into(), mode.into());
            translation_rows(asked, before, answer, fresh, &mut rows);
        }
        _ => {}
    }
    rows
}

/// Adds what a root load did with the cache.
fn root_rows(
    value: u64,
    before: &Machine,
    after: &Machine,
    answer: &Answer,
    rows: &mut Vec<String>,
) {
    let spared = value >> 63 == 1;
    let number = after.settings.number();
    let numbered = before.settings.space_numbers();
    let mut add = |found: bool, row: &str| rows.extend(found.then(|| format!("root load {row}")));
    if answer.answer != Answer::DONE {
        return add(spared, "with bit 63 refused");
    }
    let own = before
        .cache
        .filled()
        .any(|(_, place)| place.only_of(number));
    let mut left = after.cache.filled();
    add(left.next().is_some(), "kept a place");
    let other = after
        .cache
        .filled()
        .any(|(_, place)| !place.counts_under(number));
    add(numbered && !spared && own, "of a number dropped its place");
    add(
        numbered && !spared && other,
        "of a number kept another number's place",
    );
    add(
        numbered && spared && own,
        "with bit 63 kept a place of its number",
    );
}

/// Adds what a translation did with the cache.
fn translation_rows(
    (address, access, mode): (u64, u64, u64),
    before: &Machine,
    answer: &Answer,
    fresh: &mut [u8],
    rows: &mut Vec<String>,
) {
    let mut add = |found: bool, row: &str| rows.extend(found.then(|| row.to_string()));
    let tag = address >> 12;
    let held = before.cache.with_tag(tag).count() > 0;
    let done = answer.answer == Answer::DONE;
    add(done && answer.detail == 0, "paging off");
    if done && answer.detail > 0 {
        add(true, &format!("memory type {}", answer.memory_type));
    }
    if !done {
        refused_rows(address, before, answer, rows);
    } else if answer.entries > 0 {
        let set = &before.cache.sets[set_of(tag) as usize];
        let full = set.places.iter().all(|place| place.marked != 0);
        add(full && !held, "a fifth place fell out");
        add(held, "walk over a place of the page");
        let mut tagged = before.cache.with_tag(tag);
        let foreign = tagged.any(|place| !place.counts_under(before.settings.number()));
        add(foreign, "walk beside another number's place of its tag");
    } else if answer.detail > 0 {
        let fresh = translate(&before.settings, address, access, mode, fresh);
        hit_rows(before, (tag, access), answer, &fresh, rows);
    }
}

/// Adds what is special in a hit, beside the answer of a fresh walk.
fn hit_rows(
    before: &Machine,
    (tag, access): (u64, u64),
    answer: &Answer,
    fresh: &Answer,
    rows: &mut Vec<String>,
) {
    let number = before.settings.number();
    let frame = answer.value >> 12;
    let mut tagged = before.cache.with_tag(tag).filter(|p| p.frame == frame);
    let foreign = tagged.all(|place: &Place| u64::from(place.number) != number);
    let stale = (fresh.answer, fresh.value) != (answer.answer, answer.value);
    let typed = fresh.answer == Answer::DONE && fresh.memory_type != answer.memory_type;
    let mut add = |found: bool, row: &str| rows.extend(found.then(|| format!("hit {row}")));
    add(stale, "that a fresh walk differs from");
    add(typed, "of a memory type that a fresh walk differs from");
    add(number != 0, "under a number");
    add(
        number != 0 && stale,
        "under a number that a fresh walk differs from",
    );
    add(foreign, "by a G place of another number");
    add(access == WRITE, "of a write");
    add(access == FETCH, "of a fetch");
    add(true, &format!("of size {}", answer.detail));
}

#[cfg(test)]
mod tests {
    use super::{count, tally};
    use crate::deal::deal_damaged;
    use crate::random::Random;

    /// A deal of decks brings up every event, and hits are frequent.
    #[test]
    fn a_deal_brings_up_everything() {
        let mut random = Random::new(4);
        let mut tally = tally();
        for _ in 0..500 {
            count(&deal_damaged(&mut random, 60), &mut tally);
        }
        assert_eq!(tally.fewer(1), Vec::<&str>::new(), "{}", tally.table());
        assert!(tally.of("hit of size 1") > 500, "{}", tally.table());
    }
}
