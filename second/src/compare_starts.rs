//! Comparison of starts with this program's, on any record: the number and the whole record.

use aalbrett_raw as raw;

use crate::draw_machine::Bench;
use crate::machine::Machine;
use crate::random::Random;
use crate::record::{raw_settings, record};
use crate::settings_tally::{self, settings_rows};
use crate::tally::Tally;

/// Starts so many machines and panics at the first difference; gives the rules met.
///
/// Their start takes a record and the settings.
pub fn starts(
    seed: u64,
    count: u64,
    mut their_start: impl FnMut(&mut raw::Machine, &raw::Settings) -> u64,
) -> Tally {
    let mut random = Random::new(seed);
    let mut tally = Tally::of_rows(settings_tally::expected("start"));
    for number in 1..=count {
        let mut theirs = record(&Bench::draw(&mut random).machine);
        let settings = Bench::draw(&mut random).machine.settings;
        let returned = their_start(&mut theirs, &raw_settings(&settings));
        let (answer, machine) = Machine::start(settings);
        let ours = record(&machine);
        assert!(
            (returned, &theirs) == (answer.answer, &ours),
            "seed {seed:#x} start {number}: {settings:x?}\nours:   {} {:x?}\ntheirs: {returned} {:x?}\n\
             sets the same: {}",
            answer.answer,
            ours.settings,
            theirs.settings,
            theirs.sets == ours.sets,
        );
        tally.count(&settings_rows("start", &settings, false));
    }
    tally
}

#[cfg(test)]
mod tests {
    use aalbrett_raw as raw;

    use super::starts;
    use crate::machine::Machine;
    use crate::record::{machine, record};

    /// This program's start on a record.
    fn start(lent: &mut raw::Machine, settings: &raw::Settings) -> u64 {
        lent.settings = *settings;
        let (answer, machine) = Machine::start(machine(lent).settings);
        *lent = record(&machine);
        answer.answer
    }

    /// This program agrees with itself, and the draws meet every rule.
    #[test]
    fn this_program_agrees_with_itself() {
        let tally = starts(5, 10_000, start);
        assert_eq!(tally.fewer(1), Vec::<&str>::new(), "{}", tally.table());
    }

    /// The comparison finds a place that is left of what the record held.
    #[test]
    #[should_panic(expected = "sets the same: false")]
    fn a_place_left_is_found() {
        starts(5, 10, |lent, settings| {
            let before = lent.sets;
            let number = start(lent, settings);
            lent.sets[5] = before[5];
            number
        });
    }
}
