//! The seed of a comparison, and what it met.

use std::env;
use std::io::{stderr, Write};
use std::time::{SystemTime, UNIX_EPOCH};

use crate::tally::Tally;

/// Shows how often each rule was met; one that never was is an error.
pub fn met(tally: &Tally) {
    write!(stderr(), "{}", tally.table()).expect("standard error is open");
    assert_eq!(tally.fewer(1), Vec::<&str>::new(), "rules never met");
}

/// The seed that SEED names in decimal or hexadecimal, else one from the clock; shown.
pub fn seed() -> u64 {
    let named = env::var("SEED").ok().map(|text| {
        let digits = text.strip_prefix("0x");
        let number = digits.map_or_else(|| text.parse(), |d| u64::from_str_radix(d, 16));
        number.expect("SEED is a number")
    });
    let since = SystemTime::now().duration_since(UNIX_EPOCH);
    let clock = since.map_or(0, |since| since.as_nanos() as u64);
    let seed = named.unwrap_or(clock);
    writeln!(stderr(), "SEED={seed:#x}").expect("standard error is open");
    seed
}
