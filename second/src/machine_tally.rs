//! How often steps on handmade machines met each rule.

use crate::answer::Answer;
use crate::cache::set_of;
use crate::card::{Card, CARD};
use crate::drop_tally::{self, drop_page_rows, refused_rows};
use crate::fill_tally::{self, fill_rows};
use crate::lookup_tally::{self, lookup_rows, Asked};
use crate::machine::Machine;
use crate::rewrite_tally::{self, rubbish};
use crate::root_tally::{self, root_rows};
use crate::settings::Settings;
use crate::settings_tally::{self, settings_rows};
use crate::tally::Tally;

/// Rows of single calls.
const CALLS: [&str; 40] = [
    "kind 0 answer 0",
    "kind 0 answer 1",
    "kind 0 answer 2",
    "kind 0 answer 3",
    "kind 0 answer 4",
    "kind 0 answer 5",
    "kind 0 answer 8",
    "kind 0 answer 9",
    "kind 0 answer 10",
    "kind 0 answer 11",
    "kind 1 answer 0",
    "kind 1 answer 4",
    "kind 2 answer 0",
    "kind 2 answer 2",
    "kind 2 answer 8",
    "kind 2 answer 9",
    "kind 2 answer 10",
    "kind 2 answer 11",
    "kind 3 answer 0",
    "kind 4 answer 0",
    "kind 5 answer 0",
    "kind 5 answer 2",
    "kind 5 answer 8",
    "kind 5 answer 9",
    "kind 5 answer 10",
    "kind 5 answer 11",
    "unknown kind",
    "short card",
    "long card",
    "short buffer",
    "unknown access or mode beside rubbish",
    "settings not served beside rubbish",
    "address form beside rubbish",
    "address form of a tag that is held",
    "paging off beside the page's place",
    "root load serves settings that were not",
    "settings load serves settings that were not",
    "page drop under settings not served",
    "drop all under settings not served",
    "store under settings not served",
];
/// Who judges settings on a machine.
const JUDGES: [&str; 3] = ["translation", "root load", "settings load"];

/// One call: the machine before and after it, memory after it, the card and the number returned.
pub struct Call<'a> {
    pub before: &'a Machine,
    pub after: &'a Machine,
    pub memory: &'a [u8],
    pub card: &'a [u8],
    pub returned: u64,
}

/// A tally with every rule at 0.
pub fn tally() -> Tally {
    let mut rows: Vec<String> = CALLS.map(String::from).into();
    rows.extend(
        JUDGES
            .iter()
            .flat_map(|judge| settings_tally::expected(judge)),
    );
    rows.extend(lookup_tally::expected());
    rows.extend(fill_tally::expected());
    rows.extend(drop_tally::expected());
    rows.extend(root_tally::expected());
    rows.extend(rewrite_tally::expected());
    rows.push("spare bits kept".into());
    rows.push("root load keeps a G place with spare bits".into());
    Tally::of_rows(rows)
}

/// The rules that a call met.
pub fn rows(call: &Call) -> Vec<String> {
    if call.returned == Answer::SHORT_BUFFER {
        return vec!["short buffer".into()];
    }
    match Card::read(call.card) {
        None if call.card.len() < CARD => vec!["short card".into()],
        None => vec!["long card".into()],
        Some(Card::Unknown { .. }) => vec!["unknown kind".into()],
        Some(card) => card_rows(call, card),
    }
}

/// The rules that a card of a known kind met.
fn card_rows(call: &Call, card: Card) -> Vec<String> {
    let mut rows = vec![format!("kind {} answer {}", card.kind(), call.returned)];
    rows.extend(judged_rows(call, &card));
    let done = call.returned == Answer::DONE;
    let unserved = done && !call.before.settings.served();
    let mut add = |found: bool, row: &str| rows.extend(found.then(|| row.to_string()));
    match card {
        Card::Translate {
            address,
            access,
            mode,
        } => {
            let asked = Asked::new(address, access, mode);
            translation_rows(call, &asked, &mut rows);
        }
        Card::Store { .. } => add(unserved, "store under settings not served"),
        Card::LoadRoot { value } => {
            add(unserved, "root load serves settings that were not");
            root_rows(call, value, &mut rows);
        }
        Card::LoadSettings { .. } => add(unserved, "settings load serves settings that were not"),
        Card::DropPage { address } => {
            add(unserved, "page drop under settings not served");
            drop_page_rows(call, address, &mut rows);
        }
        Card::DropAll => add(unserved, "drop all under settings not served"),
        Card::Unknown { .. } => {}
    }
    rows
}

/// The rules of settings that a card met which judges them.
fn judged_rows(call: &Call, card: &Card) -> Vec<String> {
    let before = call.before.settings;
    match *card {
        Card::Translate { .. } if call.returned != Answer::UNKNOWN => {
            settings_rows("translation", &before, true)
        }
        Card::LoadRoot { value } => settings_rows("root load", &before.with_root(value), true),
        Card::LoadSettings {
            cr0,
            cr4,
            efer,
            width,
        } => {
            let left = Settings {
                cr0: cr0.into(),
                cr4: cr4.into(),
                efer,
                width: width.into(),
                ..before
            };
            settings_rows("settings load", &left, before.space_numbers())
        }
        _ => Vec::new(),
    }
}

/// Adds the rows of a translation: its refusal, or its look, fill or drop.
fn translation_rows(call: &Call, asked: &Asked, rows: &mut Vec<String>) {
    let tag = asked.address >> 12;
    let set = &call.before.cache.sets[set_of(tag) as usize];
    let settings = &call.before.settings;
    let held = call.before.cache.with_tag(tag).count() > 0;
    let mut add = |found: bool, row: &str| rows.extend(found.then(|| row.to_string()));
    let beside = rubbish(set, set_of(tag));
    match call.returned {
        Answer::UNKNOWN => add(beside, "unknown access or mode beside rubbish"),
        _ if !settings.served() => add(beside, "settings not served beside rubbish"),
        Answer::FORM => {
            add(beside, "address form beside rubbish");
            add(
                held && settings.paging(),
                "address form of a tag that is held",
            );
        }
        _ if !settings.paging() => add(held, "paging off beside the page's place"),
        _ if lookup_rows(call.before, asked, call.memory, rows) => {}
        Answer::DONE => fill_rows(call, tag, rows),
        _ => refused_rows(call, asked.address, rows),
    }
}
