//! A deck of cards, run from its bytes to its lines.

use crate::answer::Answer;
use crate::card::{step, CARD};
use crate::machine::Machine;
use crate::settings::Settings;

/// The bytes of guest memory.
pub const MEMORY: usize = 32768;

/// The answers to the cards of a deck; a short last card ends it.
pub fn answers(input: &[u8]) -> Vec<Answer> {
    let mut memory = vec![0; MEMORY];
    let (_, mut machine) = Machine::start(Settings::initial());
    let cards = input.chunks(CARD);
    cards
        .map(|card| step(&mut machine, &mut memory, card))
        .collect()
}

/// The lines that a deck prints.
pub fn deck(input: &[u8]) -> String {
    let numbered = answers(input).into_iter().zip(1..);
    numbered
        .map(|(answer, number)| answer.line(number) + "\n")
        .collect()
}

#[cfg(test)]
mod tests {
    use super::deck;
    use crate::card::{Card, CARD};

    const LINES: &str = "1 0 0000000000000000 0 0 0
2 0 0000000000000000 0 0 0
3 0 0000000000000000 0 0 0
4 0 0000000000000000 0 0 0
5 0 0000000000000000 0 0 0
6 0 0000000000000000 0 0 0
7 0 0000000000005abc 1 4 0
8 0 0000000000005abc 1 0 0
9 0 0000000000005abc 1 4 0
10 0 0000000000000000 0 0 0
11 0 0000000000005abc 1 0 0
12 0 0000000000000000 0 0 0
13 0 0000000000006abc 1 4 0
14 5 0000000000000006 1 4 0
";

    /// The bytes of document 01's deck.
    fn exercise() -> Vec<u8> {
        let store = |address, value| Card::Store { address, value };
        let user = |access, address| Card::Translate {
            address,
            access,
            mode: 1,
        };
        let cards = [
            store(0x1000, 0x2007),
            store(0x2000, 0x3007),
            store(0x3010, 0x4007),
            store(0x4018, 0x5007),
            Card::LoadSettings {
                cr0: 0x8001_0001,
                cr4: 0x20,
                efer: 0x900,
                width: 40,
            },
            Card::LoadRoot { value: 0x1000 },
            user(0, 0x40_3ABC),
            user(0, 0x40_3ABC),
            user(1, 0x40_3ABC),
            store(0x4018, 0x6007),
            user(0, 0x40_3ABC),
            Card::DropPage { address: 0x40_3ABC },
            user(0, 0x40_3ABC),
            user(1, 0x40_0000),
        ];
        let bytes = cards.map(|card| {
            let mut bytes = [0; CARD];
            card.write(&mut bytes);
            bytes
        });
        bytes.concat()
    }

    /// The paper's deck prints the paper's 14 lines.
    #[test]
    fn the_papers_deck() {
        assert_eq!(deck(&exercise()), LINES);
    }

    /// A short last card gives a line with 6, an empty deck prints nothing.
    #[test]
    fn short_and_empty_decks() {
        assert_eq!(deck(&[]), "");
        let mut bytes = exercise();
        bytes.push(0);
        assert_eq!(
            deck(&bytes),
            format!("{LINES}15 6 0000000000000000 0 0 0\n")
        );
        assert_eq!(deck(&bytes[..31]), "1 6 0000000000000000 0 0 0\n");
    }
}
