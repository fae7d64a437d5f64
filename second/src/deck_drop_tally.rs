//! What a deck's drops took: pieces of large pages, and what stayed beside them.

use std::collections::BTreeSet;

use crate::answer::Answer;
use crate::cache::{bytes, Place};
use crate::machine::Machine;

/// Adds what a refused translation dropped, if it did.
pub fn refused_rows(address: u64, before: &Machine, answer: &Answer, rows: &mut Vec<String>) {
    let row = match answer.answer {
        Answer::FAULT => "fault dropped a place",
        Answer::OUTSIDE => "outside dropped a place",
        _ => return,
    };
    let held: Vec<&Place> = before
        .cache
        .taken(address, before.settings.number())
        .map(|(_, p)| p)
        .collect();
    let mut add = |found: bool, row: &str| rows.extend(found.then(|| row.to_string()));
    add(!held.is_empty(), row);
    let table = held
        .iter()
        .any(|place| u64::from(place.size) > answer.detail);
    add(table, "refused walk of a large page that is a table now");
    piece_rows("refused walk", before, address, rows);
}

/// Adds what a drop took of large pages, and whether a neighbour of theirs or another number's place stayed.
pub fn piece_rows(drop: &str, before: &Machine, address: u64, rows: &mut Vec<String>) {
    let (cache, number) = (&before.cache, before.settings.number());
    let sets = |size: u8| {
        let taken = cache.taken(address, number);
        let pieces = taken.filter(|(_, place)| place.size == size);
        pieces.map(|(set, _)| set).collect::<BTreeSet<u64>>().len()
    };
    let mut taken = cache.taken(address, number);
    let other = taken.any(|(_, place)| place.size > 1 && place.tag != address >> 12);
    let beside = |size: u8| {
        let page = address / bytes(size) * bytes(size);
        let near = [page.wrapping_sub(1), page.wrapping_add(bytes(size))];
        let mut left = cache.filled().filter(|(_, place)| !place.covers(address));
        left.any(|(_, place)| near.iter().any(|at| place.covers(*at)))
    };
    let stays = [2, 3].iter().any(|size| sets(*size) > 0 && beside(*size));
    let mut covering = cache.filled().filter(|(_, place)| place.covers(address));
    let foreign = covering.any(|(_, place)| !place.counts_under(number));
    let mut add = |found: bool, row: &str| rows.extend(found.then(|| format!("{drop} {row}")));
    add(sets(2) > 1, "of a 2 MiB page in many sets");
    add(sets(3) > 1, "of a 1 GiB page in many sets");
    add(other, "of a large page through another piece");
    add(stays, "beside a neighbour that stays");
    add(foreign, "beside another number's place that stays");
}
