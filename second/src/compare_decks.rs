//! Comparison of a program's decks and of a machine's steps with this program's.

use crate::answer::Answer;
use crate::card::{step, CARD};
use crate::deal::deal_damaged;
use crate::deck::{deck, MEMORY};
use crate::deck_tally;
use crate::machine::Machine;
use crate::random::Random;
use crate::settings::Settings;
use crate::tally::Tally;

/// The most cards of a compared deck.
const CARDS: usize = 80;
/// Memory lengths of compared steps: the paper's in most decks.
const MEMORIES: [usize; 6] = [MEMORY, MEMORY, MEMORY, 40000, 0x4220, 0x501B];
/// Lengths of the answer buffer: exact, long and short ones.
const BUFFERS: [usize; 10] = [40, 40, 40, 40, 40, 40, 48, 64, 39, 0];

/// Compares the lines of so many decks and panics at the first difference; gives the events met.
pub fn decks(seed: u64, count: u64, mut program: impl FnMut(&[u8]) -> String) -> Tally {
    let mut random = Random::new(seed);
    let mut tally = deck_tally::tally();
    for number in 1..=count {
        let input = deal_damaged(&mut random, CARDS);
        let (ours, theirs) = (deck(&input), program(&input));
        if ours != theirs {
            let at = ours.lines().zip(theirs.lines());
            let same = at.take_while(|(one, other)| one == other).count();
            let card = input.chunks(CARD).nth(same);
            panic!(
                "seed {seed:#x} deck {number} card {}: {card:02x?}\nours:   {:?}\ntheirs: {:?}",
                same + 1,
                ours.lines().nth(same),
                theirs.lines().nth(same),
            );
        }
        deck_tally::count(&input, &mut tally);
    }
    tally
}

/// Compares so many decks step by step: number, answer buffer and memory after each card.
///
/// A machine is started anew for each deck; its step takes memory, card and answer buffer.
pub fn steps<M>(
    seed: u64,
    count: u64,
    mut start: impl FnMut() -> M,
    mut their_step: impl FnMut(&mut M, &mut [u8], &[u8], &mut [u8]) -> u64,
) {
    let mut random = Random::new(seed);
    for number in 1..=count {
        let input = deal_damaged(&mut random, CARDS);
        let mut memory = vec![0; random.pick(&MEMORIES)];
        let mut their_memory = memory.clone();
        let (_, mut machine) = Machine::start(Settings::initial());
        let mut their_machine = start();
        for (card, bytes) in input.chunks(CARD).enumerate() {
            let mut buffer = vec![random.word() as u8; random.pick(&BUFFERS)];
            let mut theirs = buffer.clone();
            let returned = their_step(&mut their_machine, &mut their_memory, bytes, &mut theirs);
            let ours = buffered(&mut machine, &mut memory, bytes, &mut buffer);
            assert!(
                (ours, &buffer) == (returned, &theirs) && memory == their_memory,
                "seed {seed:#x} deck {number} card {}: {bytes:02x?}\n\
                 ours:   {ours} {buffer:02x?}\ntheirs: {returned} {theirs:02x?}\n\
                 memory the same: {}",
                card + 1,
                memory == their_memory,
            );
        }
    }
}

/// The number of one card's step into an answer buffer; a short one gives 7 and no step.
pub fn buffered(machine: &mut Machine, memory: &mut [u8], card: &[u8], buffer: &mut [u8]) -> u64 {
    let Some(first) = buffer.get_mut(..Answer::BYTES) else {
        return Answer::SHORT_BUFFER;
    };
    let answer = step(machine, memory, card);
    first.copy_from_slice(&answer.bytes());
    answer.answer
}

#[cfg(test)]
mod tests {
    use super::{buffered, decks, steps};
    use crate::deck::deck;
    use crate::machine::Machine;
    use crate::settings::Settings;

    /// The comparisons find no difference between this program and itself.
    #[test]
    fn this_program_agrees_with_itself() {
        decks(5, 50, deck);
        let start = || Machine::start(Settings::initial()).1;
        steps(5, 50, start, buffered);
    }

    /// The comparison of lines finds a wrong one.
    #[test]
    #[should_panic(expected = "deck 1 card 1")]
    fn a_wrong_line_is_found() {
        decks(5, 50, |input| deck(input).replacen("1 0", "1 1", 1));
    }

    /// The comparison of steps finds a changed byte.
    #[test]
    #[should_panic(expected = "memory the same: false")]
    fn a_wrong_byte_is_found() {
        let start = || Machine::start(Settings::initial()).1;
        steps(5, 50, start, |machine, memory, card, buffer| {
            let number = buffered(machine, memory, card, buffer);
            memory[9] = 1;
            number
        });
    }
}
