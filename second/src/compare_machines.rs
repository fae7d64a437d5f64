//! Comparison of a machine's steps on handmade records with this program's: the whole record, answer buffer and memory.

use aalbrett_raw as raw;

use crate::compare_decks::buffered;
use crate::draw_machine::Bench;
use crate::machine::Machine;
use crate::machine_tally::{rows, tally, Call};
use crate::random::Random;
use crate::record::record;
use crate::tally::Tally;

/// So many cards step a machine before another is drawn.
pub const CARDS: u64 = 8;
/// Lengths of the answer buffer: exact, long and short ones.
const BUFFERS: [usize; 16] = [
    40, 40, 40, 40, 40, 40, 40, 40, 40, 40, 40, 41, 48, 64, 39, 0,
];

/// What one side gives beside memory: the returned number, the record and the answer buffer.
#[derive(PartialEq)]
struct Outcome {
    returned: u64,
    record: raw::Machine,
    buffer: Vec<u8>,
}

impl Outcome {
    /// What a step gives on a record and an answer buffer.
    fn of(
        before: &Machine,
        buffer: &[u8],
        step: impl FnOnce(&mut raw::Machine, &mut [u8]) -> u64,
    ) -> Outcome {
        let (mut record, mut buffer) = (record(before), buffer.to_vec());
        Outcome {
            returned: step(&mut record, &mut buffer),
            record,
            buffer,
        }
    }
}

/// Steps so many machines by cards and panics at the first difference; gives the rules met.
///
/// Their step takes a record, memory, a card and an answer buffer.
pub fn machines(
    seed: u64,
    count: u64,
    mut their_step: impl FnMut(&mut raw::Machine, &mut [u8], &[u8], &mut [u8]) -> u64,
) -> Tally {
    let mut random = Random::new(seed);
    let mut tally = tally();
    for number in 1..=count {
        let mut bench = Bench::draw(&mut random);
        let mut their_memory = bench.memory.clone();
        for turn in 1..=CARDS {
            if random.chance(60) {
                bench.redraw(&mut random);
            }
            let card = bench.card(&mut random);
            let buffer = vec![random.word() as u8; random.pick(&BUFFERS)];
            let before = bench.machine.clone();
            let theirs = Outcome::of(&before, &buffer, |record, buffer| {
                their_step(record, &mut their_memory, &card, buffer)
            });
            let ours = Outcome::of(&before, &buffer, |lent, buffer| {
                let number = buffered(&mut bench.machine, &mut bench.memory, &card, buffer);
                *lent = record(&bench.machine);
                number
            });
            let same = bench.memory == their_memory;
            assert!(
                ours == theirs && same,
                "seed {seed:#x} machine {number} card {turn}: {card:02x?}\n{}memory the same: {same}",
                difference(&before, &ours, &theirs)
            );
            tally.count(&rows(&Call {
                before: &before,
                after: &bench.machine,
                memory: &bench.memory,
                card: &card,
                returned: ours.returned,
            }));
        }
    }
    tally
}

/// Both answers, and what differs of settings and sets.
fn difference(before: &Machine, ours: &Outcome, theirs: &Outcome) -> String {
    let mut text = format!(
        "settings before: {:x?}\nours:   {} {:02x?}\ntheirs: {} {:02x?}\n",
        before.settings, ours.returned, ours.buffer, theirs.returned, theirs.buffer
    );
    if ours.record.settings != theirs.record.settings {
        let pair = (ours.record.settings, theirs.record.settings);
        text += &format!("settings, ours and theirs: {pair:x?}\n");
    }
    for (number, set) in ours.record.sets.iter().enumerate() {
        let other = theirs.record.sets[number];
        if *set != other {
            let was = record(before).sets[number];
            text +=
                &format!("set {number}\nwas:    {was:x?}\nours:   {set:x?}\ntheirs: {other:x?}\n");
        }
    }
    text
}

#[cfg(test)]
mod tests {
    use aalbrett_raw as raw;

    use super::machines;
    use crate::compare_decks::buffered;
    use crate::record::{machine, record};

    /// This program's step on a record.
    fn step(lent: &mut raw::Machine, memory: &mut [u8], card: &[u8], answer: &mut [u8]) -> u64 {
        let mut own = machine(lent);
        let number = buffered(&mut own, memory, card, answer);
        *lent = record(&own);
        number
    }

    /// This program agrees with itself, and the draws meet every rule.
    #[test]
    fn this_program_agrees_with_itself() {
        let tally = machines(5, 5_000, step);
        assert_eq!(tally.fewer(1), Vec::<&str>::new(), "{}", tally.table());
    }

    /// The comparison finds a wrong bit in a place that no card names.
    #[test]
    #[should_panic(expected = "set 9")]
    fn a_wrong_place_is_found() {
        machines(5, 1, |lent, memory, card, answer| {
            lent.sets[9][3].frame ^= 1;
            step(lent, memory, card, answer)
        });
    }

    /// The comparison finds a wrong register.
    #[test]
    #[should_panic(expected = "settings, ours and theirs")]
    fn a_wrong_register_is_found() {
        machines(5, 1, |lent, memory, card, answer| {
            let number = step(lent, memory, card, answer);
            lent.settings.efer ^= 2;
            number
        });
    }
}
