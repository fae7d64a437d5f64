//! Writes one long stored deck and the lines expected of a program elsewhere.

use std::env;
use std::fs;
use std::process::ExitCode;

use second::deal::deal;
use second::deck::deck;
use second::deck_tally::{count, tally};
use second::random::Random;
use second::tally::Tally;

const SEED: u64 = 0x5EC0_0002;
/// The cards of one part.
const PART: usize = 60;
/// So many bytes of the last card are cut off.
const CUT: usize = 9;
/// So many of each event are needed.
const EACH: u64 = 2;
/// So many parts are dealt in search of those that bring up what is lacking.
const TRIES: usize = 5000;

/// A deck of parts that each bring up what was lacking, its last card short, with its tally.
fn stored(random: &mut Random) -> Option<(Vec<u8>, Tally)> {
    let mut deck = Vec::new();
    let mut lacking = u64::MAX;
    for _ in 0..TRIES {
        let longer = [deck.as_slice(), &deal(random, PART)].concat();
        let short = &longer[..longer.len() - CUT];
        let mut tally = tally();
        count(short, &mut tally);
        if tally.lacking(EACH) == 0 {
            return Some((short.to_vec(), tally));
        }
        if tally.lacking(EACH) < lacking {
            (lacking, deck) = (tally.lacking(EACH), longer);
        }
    }
    None
}

/// Writes the input and the expected output that the two arguments name.
fn main() -> ExitCode {
    let names: Vec<String> = env::args().skip(1).collect();
    let [input, output] = names.as_slice() else {
        eprintln!("decks: two file names are needed, the input and the expected output");
        return ExitCode::FAILURE;
    };
    let Some((bytes, tally)) = stored(&mut Random::new(SEED)) else {
        eprintln!("decks: {TRIES} parts do not bring up every event {EACH} times");
        return ExitCode::FAILURE;
    };
    eprint!("seed {SEED:#x}\n{}", tally.table());
    let lines = deck(&bytes);
    match fs::write(input, bytes).and(fs::write(output, lines)) {
        Ok(()) => ExitCode::SUCCESS,
        Err(error) => {
            eprintln!("decks: {error}");
            ExitCode::FAILURE
        }
    }
}
