//! The product's card program and its machine in place beside this program's, on random decks.

use std::env;
use std::io::Write;
use std::process::{Command, Stdio};

use aalbrett_raw::{self as raw, Machine, Settings};
use second::compare_decks::{decks, steps};
use second::seed::{met, seed};

const DECKS: u64 = 3000;

/// The decks whose steps are compared one by one.
const STEPPED: u64 = 20_000;

/// The product's machine with registers 0 and M = 40.
fn start() -> Machine {
    let mut machine = Machine::default();
    let settings = Settings {
        width: 40,
        ..Settings::default()
    };
    assert_eq!(raw::start(&mut machine, &settings), 0);
    machine
}

/// What the program prints for a deck on its standard input.
fn run(program: &str, input: &[u8]) -> String {
    let mut child = Command::new(program)
        .stdin(Stdio::piped())
        .stdout(Stdio::piped())
        .spawn()
        .expect("the program of AALBRETT_DECK starts");
    let mut stdin = child.stdin.take().expect("its input is open");
    stdin.write_all(input).expect("it reads its deck");
    drop(stdin);
    let output = child.wait_with_output().expect("it ends");
    assert!(output.status.success(), "it ends with {}", output.status);
    String::from_utf8(output.stdout).expect("it prints text")
}

/// The lines are the same on every deck, and every event was met.
#[test]
fn the_products_decks_agree() {
    let program = env::var("AALBRETT_DECK").expect("AALBRETT_DECK names the card program");
    met(&decks(seed(), DECKS, |input| run(&program, input)));
}

/// Numbers, buffers and memory are the same byte by byte after every card.
#[test]
fn the_products_steps_agree() {
    steps(seed(), STEPPED, start, raw::step);
}
