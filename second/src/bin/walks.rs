//! Writes stored walks and the lines expected of a program elsewhere.

use std::env;
use std::fs;
use std::process::ExitCode;

use second::case::Case;
use second::draw::{draw, STORED};
use second::random::Random;
use second::tally::{rows, Tally};

const SEED: u64 = 0x5EC0_0001;
const RECORDS: usize = 400;
/// So many of each row are kept before the rest is filled with any draws.
const EACH: u64 = 4;
/// So many cases are drawn in search of rare rows.
const DRAWS: usize = 20_000;

/// Draws the records: rare rows first among the draws, then any.
fn records(random: &mut Random, tally: &mut Tally) -> Vec<Case> {
    let mut kept = Vec::new();
    for number in 0.. {
        if kept.len() == RECORDS {
            break;
        }
        let case = draw(random, STORED);
        let memory = case.memory();
        let answer = case.translate(&mut memory.clone());
        let rows = rows(&case, &memory, &answer);
        if number >= DRAWS || tally.rarest(&rows) < EACH {
            tally.count(&rows);
            kept.push(case);
        }
    }
    kept
}

/// Writes the input and the expected output that the two arguments name.
fn main() -> ExitCode {
    let names: Vec<String> = env::args().skip(1).collect();
    let [input, output] = names.as_slice() else {
        eprintln!("walks: two file names are needed, the input and the expected output");
        return ExitCode::FAILURE;
    };
    let mut tally = Tally::of_walks();
    let kept = records(&mut Random::new(SEED), &mut tally);
    let bytes: Vec<u8> = kept.iter().flat_map(Case::record).collect();
    let lines = kept.iter().zip(1..).map(|(case, n)| case.line(n) + "\n");
    eprint!("seed {SEED:#x}\n{}", tally.table());
    let rare = tally.fewer(EACH);
    if !rare.is_empty() {
        eprintln!("walks: fewer than {EACH} came up of {rare:?}");
        return ExitCode::FAILURE;
    }
    let written = fs::write(input, bytes).and(fs::write(output, lines.collect::<String>()));
    match written {
        Ok(()) => ExitCode::SUCCESS,
        Err(error) => {
            eprintln!("walks: {error}");
            ExitCode::FAILURE
        }
    }
}
