//! How often each answer, size, cause and level comes up.

use std::collections::BTreeMap;

use crate::answer::Answer;
use crate::case::Case;
use crate::settings::Settings;
use crate::settings_tally::{self, settings_rows};
use crate::translate::{FETCH, SUPERVISOR, USER, WRITE};
use crate::walk::{self, walk, End, Walk};

const CODES: [u64; 17] = [0, 2, 4, 6, 16, 20, 3, 5, 7, 17, 21, 9, 11, 13, 15, 25, 29];

/// The count of each row.
pub struct Tally {
    counts: BTreeMap<String, u64>,
}

impl Tally {
    /// A tally of walks with every expected row at 0.
    pub fn of_walks() -> Tally {
        Tally::of_rows(expected())
    }

    /// A tally with these rows at 0.
    pub fn of_rows(rows: Vec<String>) -> Tally {
        let counts = rows.into_iter().map(|row| (row, 0)).collect();
        Tally { counts }
    }

    /// Adds rows at 0.
    pub fn expect(&mut self, rows: impl IntoIterator<Item = String>) {
        self.counts.extend(rows.into_iter().map(|row| (row, 0)));
    }

    /// Counts the rows of one case.
    pub fn count(&mut self, rows: &[String]) {
        for row in rows {
            *self.counts.entry(row.clone()).or_insert(0) += 1;
        }
    }

    /// The smallest count of an expected row among these rows.
    pub fn rarest(&self, rows: &[String]) -> u64 {
        let counts = rows.iter().map(|row| self.counts.get(row).copied());
        counts.map(|count| count.unwrap_or(0)).min().unwrap_or(0)
    }

    /// The rows that came up fewer times than that.
    pub fn fewer(&self, least: u64) -> Vec<&str> {
        let rare = self.counts.iter().filter(|(_, count)| **count < least);
        rare.map(|(row, _)| row.as_str()).collect()
    }

    /// So many more are needed until each row came up that many times.
    pub fn lacking(&self, least: u64) -> u64 {
        let counts = self.counts.values();
        counts.map(|count| least.saturating_sub(*count)).sum()
    }

    /// The count of one row.
    pub fn of(&self, row: &str) -> u64 {
        self.counts.get(row).copied().unwrap_or(0)
    }

    /// The table, one row a line.
    pub fn table(&self) -> String {
        let lines = self.counts.iter();
        lines.map(|(row, n)| format!("{n:8}  {row}\n")).collect()
    }
}

/// Every row that a good draw of cases brings up.
fn expected() -> Vec<String> {
    let mut rows: Vec<String> = [0, 1, 2, 3, 4, 5, 8, 9, 10, 11]
        .map(|number| format!("answer {number}"))
        .into();
    for size in 1..=3 {
        rows.extend((0..3).map(|access| format!("success size {size} access {access}")));
        rows.extend((0..8).map(|index| format!("success size {size} memory type {index}")));
    }
    for level in 1..=4 {
        rows.push(format!("missing level {level}"));
        rows.push(format!("rights level {level}"));
        rows.push(format!("outside level {level}"));
        rows.push(format!("reserved high bits level {level}"));
        rows.push(format!("reserved XD level {level}"));
    }
    rows.extend([2, 3].map(|level| format!("reserved low bits level {level}")));
    rows.extend(CODES.map(|code| format!("fault code {code:2}")));
    rows.extend(settings_tally::expected("walk"));
    let single = [
        "reserved bit 7 level 4",
        "outside astride the end",
        "success size 0",
        "success with one entry at two levels",
        "success of a supervisor write without R/W",
        "success of a 4 KiB frame with bit 12 and PAT clear",
        "success of another memory type than the first entry's",
        "missing entry with a memory type",
        "reserved entry with a memory type",
        "rights lacking with a memory type",
        "form with paging on",
        "form with paging off",
        "unknown access",
        "unknown mode",
        "walk in memory of 0 bytes",
        "walk in memory that ends within an entry",
        "walk with width 32",
        "walk with width 52",
        "walk with low bits of CR3",
    ];
    rows.extend(single.map(String::from));
    rows
}

/// The rows of one case, from its memory before the translation and its answer.
pub fn rows(case: &Case, memory: &[u8], answer: &Answer) -> Vec<String> {
    let mut rows = vec![format!("answer {}", answer.answer)];
    let settings = &case.settings;
    if answer.answer != Answer::UNKNOWN {
        rows.extend(settings_rows("walk", settings, true));
    }
    match answer.answer {
        Answer::UNKNOWN => {
            rows.extend((case.access > FETCH).then(|| "unknown access".into()));
            rows.extend((case.mode > USER).then(|| "unknown mode".into()));
        }
        _ if !settings.served() => {}
        Answer::FORM if settings.paging() => rows.push("form with paging on".into()),
        Answer::FORM => rows.push("form with paging off".into()),
        _ if !settings.paging() => rows.push("success size 0".into()),
        _ => {
            let walk = walk(settings, case.address, memory);
            walk_rows(case, memory, &walk, answer, &mut rows);
            border_rows(settings, memory.len(), &mut rows);
        }
    }
    rows
}

/// Adds the rows of a walk that was made.
fn walk_rows(case: &Case, memory: &[u8], walk: &Walk, answer: &Answer, rows: &mut Vec<String>) {
    if answer.answer == Answer::FAULT {
        rows.push(format!("fault code {:2}", answer.value));
    }
    match walk.end {
        End::Page { size } if answer.answer == Answer::DONE => {
            rows.push(format!("success size {size} access {}", case.access));
            rows.push(format!(
                "success size {size} memory type {}",
                answer.memory_type
            ));
            success_rows(case, walk, rows);
        }
        End::Page { .. } => {
            rows.push(format!("rights level {}", answer.detail));
            type_row("rights lacking", walk, rows);
        }
        End::Missing { level } => {
            rows.push(format!("missing level {level}"));
            type_row("missing entry", walk, rows);
        }
        End::Outside { address, level } => {
            rows.push(format!("outside level {level}"));
            let astride = address < memory.len() as u64;
            rows.extend(astride.then(|| "outside astride the end".into()));
        }
        End::Reserved { level } => {
            reserved_rows(case, walk, level, rows);
            type_row("reserved entry", walk, rows);
        }
    }
}

/// Adds a refusal whose last entry has a memory type that is not told.
fn type_row(refusal: &str, walk: &Walk, rows: &mut Vec<String>) {
    let found = walk.memory_type() != 0;
    rows.extend(found.then(|| format!("{refusal} with a memory type")));
}

/// Adds what is special in the settings and in the length of memory.
fn border_rows(settings: &Settings, length: usize, rows: &mut Vec<String>) {
    let mut add = |found: bool, row: &str| rows.extend(found.then(|| format!("walk {row}")));
    add(length == 0, "in memory of 0 bytes");
    add(
        !length.is_multiple_of(8),
        "in memory that ends within an entry",
    );
    add(settings.width == 32, "with width 32");
    add(settings.width == 52, "with width 52");
    add(settings.cr3 & 0xFFF != 0, "with low bits of CR3");
}

/// Adds what is special in a success.
fn success_rows(case: &Case, walk: &Walk, rows: &mut Vec<String>) {
    let addresses: Vec<u64> = walk.steps.iter().map(|step| step.address).collect();
    let twice = (1..addresses.len()).any(|k| addresses[..k].contains(&addresses[k]));
    rows.extend(twice.then(|| "success with one entry at two levels".into()));
    let plain = walk.steps.iter().all(|s| s.entry & walk::WRITABLE != 0);
    let lenient = case.access == WRITE && case.mode == SUPERVISOR && !plain;
    let (first, last) = (walk.steps[0], walk.steps[walk.steps.len() - 1]);
    let small = last.level == 1 && last.entry & walk::ATTRIBUTE == 0;
    let odd_frame = small && last.entry & walk::LARGE_ATTRIBUTE != 0;
    let upper = (first.entry >> 3 & 3, last.entry >> 3 & 3);
    let mut add = |found: bool, row: &str| rows.extend(found.then(|| format!("success of {row}")));
    add(lenient, "a supervisor write without R/W");
    add(odd_frame, "a 4 KiB frame with bit 12 and PAT clear");
    add(
        upper.0 != upper.1,
        "another memory type than the first entry's",
    );
}

/// Adds each kind of reserved bit that the last entry has.
fn reserved_rows(case: &Case, walk: &Walk, level: u64, rows: &mut Vec<String>) {
    let entry = walk.steps[walk.steps.len() - 1].entry;
    let settings = &case.settings;
    let mut add = |found: bool, kind: &str| {
        rows.extend(found.then(|| format!("reserved {kind} level {level}")));
    };
    let high = (1 << 52) - (1 << settings.width);
    add(entry & high != 0, "high bits");
    add(entry >> 63 == 1 && !settings.no_execute(), "XD");
    add(level == 4 && entry & walk::LARGE != 0, "bit 7");
    let large = level > 1 && walk::is_page(entry, level);
    let low = (1 << walk::shift(level)) - 1;
    add(large && (entry & low) >> 13 != 0, "low bits");
}

#[cfg(test)]
mod tests {
    use super::{rows, Tally};
    use crate::draw::{draw, FRESH};
    use crate::random::Random;

    /// A draw brings up every row, and at least 30 of 100 cases succeed.
    #[test]
    fn a_draw_brings_up_everything() {
        let mut random = Random::new(1);
        let mut tally = Tally::of_walks();
        for _ in 0..20_000 {
            let case = draw(&mut random, FRESH);
            let memory = case.memory();
            let answer = case.translate(&mut memory.clone());
            tally.count(&rows(&case, &memory, &answer));
        }
        assert_eq!(tally.fewer(1), Vec::<&str>::new(), "{}", tally.table());
        assert!(tally.of("answer 0") >= 6_000, "{}", tally.table());
    }
}
