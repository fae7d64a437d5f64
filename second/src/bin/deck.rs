//! Runs the deck on standard input and prints its lines.

use std::io::{self, Read, Write};

use second::deck::deck;

/// Reads the whole deck, then prints a line for each card.
fn main() -> io::Result<()> {
    let mut input = Vec::new();
    io::stdin().read_to_end(&mut input)?;
    io::stdout().write_all(deck(&input).as_bytes())
}
