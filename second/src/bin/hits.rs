//! Writes a long deck to standard output: tables, settings and a root, then user reads of one page, all but the first hits.
//!
//! The argument is the number of cards, else it is a million.

use std::env;
use std::io::{self, BufWriter, Write};
use std::process::ExitCode;

use second::card::{Card, CARD};

/// The cards before the reads.
const START: [Card; 6] = [
    store(0x1000, 0x2007),
    store(0x2000, 0x3007),
    store(0x3010, 0x4007),
    store(0x4018, 0x5007),
    Card::LoadSettings {
        cr0: 0x8001_0001,
        cr4: 0x20,
        efer: 0x900,
        width: 40,
    },
    Card::LoadRoot { value: 0x1000 },
];
const READ: Card = Card::Translate {
    address: 0x40_3ABC,
    access: 0,
    mode: 1,
};

/// The card that stores a value.
const fn store(address: u64, value: u64) -> Card {
    Card::Store { address, value }
}

/// Writes so many cards.
fn write(count: usize) -> io::Result<()> {
    let mut output = BufWriter::new(io::stdout().lock());
    for number in 0..count {
        let mut bytes = [0; CARD];
        START.get(number).unwrap_or(&READ).write(&mut bytes);
        output.write_all(&bytes)?;
    }
    output.flush()
}

/// Writes the deck, or says what is wrong.
fn main() -> ExitCode {
    let count = match env::args().nth(1) {
        Some(word) => word.parse().map_err(|_| format!("'{word}' is no number")),
        None => Ok(1_000_000),
    };
    let written = count.and_then(|count| write(count).map_err(|why| why.to_string()));
    match written {
        Ok(()) => ExitCode::SUCCESS,
        Err(why) => {
            eprintln!("hits: {why}");
            ExitCode::FAILURE
        }
    }
}
