//! Turns a deck written in words into cards: words on standard input, 32 bytes a card on standard output.
//!
//! A line is one card: `store ADDRESS VALUE`, `root VALUE`, `drop ADDRESS`, `drop-all`,
//! `settings CR0 CR4 EFER M`, or `user` or `supervisor`, then `read`, `write` or `fetch`, then
//! ADDRESS. Numbers are decimal, or hexadecimal after 0x. What follows `#` is a comment.

use std::io::{self, Read, Write};
use std::process::ExitCode;

use second::card::{Card, CARD};
use second::translate::{FETCH, READ, SUPERVISOR, USER, WRITE};

/// The number that a word spells.
fn number(word: &str) -> Result<u64, String> {
    let spelt = match word.strip_prefix("0x") {
        Some(digits) => u64::from_str_radix(digits, 16),
        None => word.parse(),
    };
    spelt.map_err(|_| format!("'{word}' is no number of 64 bits"))
}

/// The number that a word spells, where it fits a narrower type.
fn narrow<T: TryFrom<u64>>(word: &str) -> Result<T, String> {
    T::try_from(number(word)?).map_err(|_| format!("'{word}' has too many bits"))
}

/// The translation that three words ask for.
fn translate(mode: &str, access: &str, at: &str) -> Result<Card, String> {
    let mode = match mode {
        "supervisor" => SUPERVISOR,
        "user" => USER,
        other => return Err(format!("'{other}' is no kind of card")),
    };
    let access = match access {
        "read" => READ,
        "write" => WRITE,
        "fetch" => FETCH,
        other => return Err(format!("'{other}' is no access")),
    };
    Ok(Card::Translate {
        address: number(at)?,
        access: access as u8,
        mode: mode as u8,
    })
}

/// The card of a line's words.
fn card_of(words: &[&str]) -> Result<Card, String> {
    match *words {
        ["store", at, value] => Ok(Card::Store {
            address: number(at)?,
            value: number(value)?,
        }),
        ["root", value] => Ok(Card::LoadRoot {
            value: number(value)?,
        }),
        ["drop", at] => Ok(Card::DropPage {
            address: number(at)?,
        }),
        ["drop-all"] => Ok(Card::DropAll),
        ["settings", cr0, cr4, efer, width] => Ok(Card::LoadSettings {
            cr0: narrow(cr0)?,
            cr4: narrow(cr4)?,
            efer: number(efer)?,
            width: narrow(width)?,
        }),
        [mode, access, at] => translate(mode, access, at),
        _ => Err(format!("'{}' is no card", words.join(" "))),
    }
}

/// The cards of a deck in words.
fn cards(text: &str) -> Result<Vec<u8>, String> {
    let mut deck = Vec::new();
    for (row, line) in text.lines().enumerate() {
        let said = line.split('#').next().unwrap_or("");
        let words: Vec<&str> = said.split_whitespace().collect();
        if !words.is_empty() {
            let card = card_of(&words).map_err(|why| format!("line {}: {why}", row + 1))?;
            let mut bytes = [0; CARD];
            card.write(&mut bytes);
            deck.extend_from_slice(&bytes);
        }
    }
    Ok(deck)
}

/// Writes the cards, or says in which line what is wrong.
fn main() -> ExitCode {
    let mut text = String::new();
    let read = io::stdin().read_to_string(&mut text);
    let written = read
        .map_err(|why| why.to_string())
        .and_then(|_| cards(&text))
        .and_then(|deck| io::stdout().write_all(&deck).map_err(|why| why.to_string()));
    match written {
        Ok(()) => ExitCode::SUCCESS,
        Err(why) => {
            eprintln!("cards: {why}");
            ExitCode::FAILURE
        }
    }
}
